"""Runs the proved program, and hands on what it refuses with its own line and status."""
from __future__ import annotations

import os
import shutil
import subprocess
from typing import Iterator, Sequence

from . import PACKAGE
from .children import start
from .errors import CompanionError
from .streams import STOPS

BUFFER = 1 << 20            # bytes: sixteen of what the program sends at once
NOT_BUILT = 1
LONGEST_REFUSAL = 1 << 16   # bytes of err that are read for its last line, a name of 4,096 within


def path() -> str:
    """The program: $ZELKUMA_PROGRAM, which the launcher sets, else the one built in this
    repository, else an installed one."""
    named = os.environ.get("ZELKUMA_PROGRAM")
    top = os.path.dirname(PACKAGE)
    found_here = [os.path.join(top, "crates", "bugnet_main", "out", "bugnet_main"),
                  os.path.join(top, "release", "zelkuma-x86_64-linux")]
    has_sources = os.path.exists(os.path.join(top, "crates.txt"))
    if not has_sources:                         # lib/zelkuma, or a folder of Python's packages
        found_here += [os.path.join(top, "zelkuma") if os.path.basename(top) == "zelkuma" else "",
                       installed()]
    for found in [named] if named else found_here:
        if os.access(found, os.X_OK) and os.path.isfile(found):
            return found
    if named:
        raise CompanionError(f"ZELKUMA_PROGRAM is {named}, which is no program", NOT_BUILT)
    if has_sources:
        raise CompanionError("the program isn't built; `zelkuma build` builds it", NOT_BUILT)
    raise CompanionError("the program isn't in this package: install it, "
                         "so that `zelkuma` is in PATH, or let ZELKUMA_PROGRAM name it; "
                         "it is release/zelkuma-x86_64-linux of the sources", NOT_BUILT)


def installed() -> str:
    """The program of the launcher that is found as the command zelkuma, or nothing."""
    launcher = shutil.which("zelkuma")
    return os.path.join(os.path.dirname(os.path.dirname(os.path.realpath(launcher))), "lib",
                        "zelkuma", "zelkuma") if launcher else ""


class Output:
    """The lines, as bytes, that a command of the program prints. Use it by `with`: a reader that
    stops early ends the program. A status that isn't in `accept` raises the program's own line,
    after the last line is read."""

    def __init__(self, command: str, *names: str, accept: Sequence[int] = (0,),
                 options: Sequence[str] = ()) -> None:
        self.words = [path(), command, *options, "--", *names]
        self.accept = accept
        self.status: int | None = None

    def __enter__(self) -> Output:
        try:
            self.process = start(self.words, stdin=subprocess.DEVNULL, stdout=subprocess.PIPE,
                                 stderr=subprocess.PIPE, bufsize=BUFFER)
        except OSError as error:
            raise CompanionError(f"{self.words[0]} can't be run: {error.strerror}", NOT_BUILT)
        assert self.process.stdout and self.process.stderr
        self.out = self.process.stdout
        self.err = self.process.stderr
        return self

    def __iter__(self) -> Iterator[bytes]:
        yield from self.out
        self.finish()

    def read(self) -> bytes:
        data = self.out.read()
        self.finish()
        return data

    def finish(self) -> None:
        """Waits for the end, and raises if the status isn't accepted."""
        self.status = self.process.wait()
        if -self.status in STOPS:               # it came to the whole group
            raise KeyboardInterrupt(-self.status)
        if self.status not in self.accept:
            last = self.err.read(LONGEST_REFUSAL).decode("utf-8", "replace").strip().split("\n")[-1]
            said = last.split(": ", 1)[-1] or f"the program ended with {self.status}"
            raise CompanionError(said, self.status if self.status > 0 else NOT_BUILT)

    def __exit__(self, *_: object) -> None:
        if self.status is None:
            self.process.kill()
            self.process.wait()
        self.out.close()
        self.err.close()


def output(command: str, *names: str, options: Sequence[str] = ()) -> str:
    with Output(command, *names, options=options) as out:
        return out.read().decode("ascii", "replace")
