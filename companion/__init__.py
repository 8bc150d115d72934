"""The companions: they show in names, lines and pictures what the proved program prints.

docs/PYTHON.md tells what other scripts can use."""
from __future__ import annotations

import importlib
from typing import TYPE_CHECKING, Any

if TYPE_CHECKING:
    from .call.errors import CompanionError as CompanionError
    from .library import Recording as Recording

MODULES = {"Recording": ".library", "CompanionError": ".call.errors"}
__version__: str


def __getattr__(name: str) -> Any:
    """What other scripts can use is imported once it is used, since no companion needs it."""
    if name in MODULES:
        return getattr(importlib.import_module(MODULES[name], __name__), name)
    if name == "__version__":
        return str(importlib.import_module(".call.version", __name__).version())
    raise AttributeError(name)
