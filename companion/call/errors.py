"""The one way in which a companion refuses: a line of text and an exit status.

The statuses are those of the proved program, so that a script tells causes apart in the same
way."""
from __future__ import annotations

REFUSED = 2
UNREADABLE = 3
MISSING = 4
BAD_ELF = 6
BAD_LOG = 7
OTHER_PROGRAM = 8
NO_MEMORY = 9
UNWRITABLE = 13
NO_INTERVAL = 14
NOT_FOUND = 22  # of a search that found nothing
FOUND = 23  # of --fail, if something was found
UNSURE = 24  # of recheck: it can't tell
WRONG = 25  # a run ends with the wrong exit code or byte


class CompanionError(Exception):
    """One clear line for the user, and the status to end with."""

    def __init__(self, message: str, status: int = REFUSED) -> None:
        super().__init__(message)
        self.status = status
