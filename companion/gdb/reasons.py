"""Why gdb gets no more: its own words tell that memory can't be accessed or that there is no more
history, and never the reason.

At both ends of a recording the reason goes to gdb, which prints it. An answer about memory has no
room for one, so it is a line on err: gdb prints what a bridge that it started writes there.
"""
from __future__ import annotations

from ..call import streams
from ..call.text import number
from ..recording.log import Log
from .memory import LOWEST

READ_ONLY = "a recorded run can't be changed, and no function of it called"
MOST_TOLD = 20  # unknown places of a session: gdb looks at some by itself as it unwinds the stack
CACHE_LINE = 64  # bytes: gdb asks for these first, and if they aren't known, for what it needs
ENDINGS = {"exit": "exited with {}", "group": "exited with {}, and with it all others",
           "limit": "came to --limit", "stopped": "was stopped by another one's end"}
MORE_ROWS = "--rows N loads more"
LARGER_LOG = "a larger --log-size keeps more"


class Reasons:
    """What is said of one log."""

    def __init__(self, log: Log) -> None:
        self.log = log
        self.told: set[int] = set()     # unknown places
        self.refused = ""               # where gdb tried to write, and tries again with fewer bytes

    def of_hart(self, hart: int) -> str:
        end = self.log.ends[hart]
        return f"hart {hart} {ENDINGS.get(end.reason, f'faulted: {end.reason}').format(end.value)}"

    def end(self, harts: list[int]) -> str:
        """At the end of what these harts did."""
        endings = [self.of_hart(hart) for hart in harts if hart in self.log.ends]
        return "; ".join(["the recorded run ends here", *endings])

    def beginning(self) -> str:
        """Before the first row."""
        if self.log.unread:
            return f"the rows that are loaded begin here; {MORE_ROWS}"
        if self.log.dropped:
            dropped = f"it has dropped {number(self.log.dropped)} records before"
            return f"the log begins here, as {dropped}; {LARGER_LOG}"
        return "the recorded run begins here"

    def of_unknown(self) -> str:
        if self.log.unread:
            return f"no row that is loaded tells it; {MORE_ROWS}"
        if self.log.dropped:
            return f"no row that the log has kept tells it; {LARGER_LOG}"
        return "a `read` call filled it, and no row has loaded it up to here"

    def say_unknown(self, address: int, length: int) -> None:
        """Says why mapped memory from an address on isn't known; once of each address."""
        is_mapped = LOWEST <= address < self.log.memory
        is_cache_line = length == CACHE_LINE and not address % CACHE_LINE
        is_told = address in self.told or len(self.told) == MOST_TOLD
        if is_mapped and not is_cache_line and not is_told:
            self.told.add(address)
            streams.say(f"{address:08x} isn't known here: {self.of_unknown()}")

    def say_not_written(self, packet: str) -> None:
        """Says that memory isn't written. gdb writes 0 bytes to learn whether it can at all."""
        place, _, rest = packet.partition(",")
        if place != self.refused and not rest.startswith("0:"):
            self.refused = place
            streams.say(READ_ONLY)
