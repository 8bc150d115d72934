"""Files that are read several times, by a companion and by the programs that it runs."""
from __future__ import annotations

import os
import stat

from .errors import UNREADABLE, CompanionError


def check_regular(*names: str) -> None:
    """CompanionError if one is a pipe or a device, which can be read once, and could be waited for
    without end. What is wrong with another is told by its reader."""
    for name in names:
        try:
            mode = os.stat(name).st_mode
        except OSError:
            continue
        if not (stat.S_ISREG(mode) or stat.S_ISDIR(mode)):
            raise CompanionError(f"{name} is no regular file, and it is read several times: "
                                 "copy it into one", UNREADABLE)
