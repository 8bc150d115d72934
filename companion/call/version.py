"""The version of Zelkuma that a page or an answer was made by."""
from __future__ import annotations

import functools
import os

from . import PACKAGE


@functools.lru_cache(maxsize=None)
def version() -> str:
    """What the file VERSION beside the package says, without it what pip has installed, else
    "unknown"."""
    try:
        with open(os.path.join(os.path.dirname(PACKAGE), "VERSION"), encoding="ascii") as file:
            return file.read().strip()
    except (OSError, ValueError):
        return installed_version()


def installed_version() -> str:
    if os.path.basename(PACKAGE) != "zelkuma":
        return "unknown"
    from importlib import metadata          # which no call of a repository needs
    try:
        return metadata.version("zelkuma")
    except metadata.PackageNotFoundError:
        return "unknown"
