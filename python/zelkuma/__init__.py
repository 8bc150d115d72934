"""The companions as a library, under the name that scripts import: `from zelkuma import Recording`.
docs/PYTHON.md tells what it has."""
import os

# The modules are those of the folder companion/, which the launcher runs.
__path__ = [
    os.path.join(os.path.dirname(os.path.dirname(os.path.dirname(os.path.abspath(__file__)))),
                 "companion")]

from .call.errors import CompanionError      # noqa: E402
from .call.version import version           # noqa: E402
from .library import Recording              # noqa: E402

__all__ = ["CompanionError", "Recording"]
__version__ = version()
