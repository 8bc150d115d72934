"""What a search of recordings is for: how the run ends, or what it writes."""
from __future__ import annotations

from typing import NamedTuple, Optional, Tuple

from ..call.errors import REFUSED, CompanionError
from ..call.options import whole
from .record import DONE, ENDS, FAULT, LIMIT

FORMS = f"{', '.join(map(str, ENDS))}, exit:N, output:TEXT or bad"
LARGEST_CODE = 255


class Wanted(NamedTuple):
    """text      as it was given, but that bytes of an output that are no UTF-8, and control
    characters, are shown as \\xNN
    statuses  those of a recording that can be meant
    code      the exit code, if one is asked for; output: what the program has to write
    is_bad    whether any end is meant but exit code 0"""
    text: str
    statuses: Tuple[int, ...]
    code: Optional[int] = None
    output: bytes = b""
    is_bad: bool = False

    def is_met(self, status: int, code: Optional[int], wrote: bytes) -> bool:
        """Whether a recording is meant, by its status, its exit code and what the program wrote."""
        if self.is_bad:
            return status != DONE or bool(code)
        return status in self.statuses and self.code in (None, code) and self.output in wrote

    def said(self) -> str:
        return f"status {self.text}" if self.text.isdigit() else self.text

    @property
    def has_slow_runs(self) -> bool:
        """Whether a run that is slow, as one in threads can be, would be taken for one that
        hangs."""
        return self.is_bad or self.statuses == (LIMIT,)


def shown_output(output: bytes) -> str:
    return "".join(c if c.isprintable() else ascii(c)[1:-1]
                   for c in output.decode("utf-8", "backslashreplace"))


def wanted_of(text: str) -> Wanted:
    kind, colon, rest = text.partition(":")
    if text == "bad":
        return Wanted(text, (FAULT, LIMIT, DONE), is_bad=True)
    if colon and kind == "exit":
        code = whole(rest, 0, LARGEST_CODE, "the N of --until exit:N")
        return Wanted(f"exit:{code}", (DONE,), code)
    if colon and kind == "output" and rest:
        output = rest.encode("utf-8", "surrogateescape")
        return Wanted(f"output:{shown_output(output)}", ENDS, output=output)
    if text.isdigit() and whole(text, 0, LARGEST_CODE, "--until") in ENDS:
        return Wanted(str(int(text)), (int(text),))
    raise CompanionError(f"--until has to be one of {FORMS}, not {text!r}", REFUSED)
