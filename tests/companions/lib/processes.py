"""The processes of this machine, as /proc tells them, and what they write to a terminal."""

import contextlib
import os


def below(process):
    """All processes that stem from one."""
    try:
        with open(f"/proc/{process}/task/{process}/children", encoding="ascii") as file:
            found = [int(word) for word in file.read().split()]
    except OSError:
        return []
    return found + [each for child in found for each in below(child)]


def is_running(process):
    try:
        with open(f"/proc/{process}/stat", encoding="ascii", errors="replace") as file:
            return file.read().rsplit(")", 1)[1].split()[0] != "Z"
    except OSError:
        return False


def shown_at(terminal):
    """All that a terminal shows, until nobody can write to it; it is closed then. It comes in
    pieces, of which some may be late."""
    shown = b""
    with os.fdopen(terminal, "rb", 0) as file, contextlib.suppress(OSError):
        while piece := file.read(65536):
            shown += piece
    return shown
