"""The three streams of a companion: whatever state they are in, a call ends with a line and a
status."""
from __future__ import annotations

import contextlib
import io
import os
import signal
import sys
import time
from typing import Any, Callable, ClassVar, Iterable, Iterator, Optional

from .errors import UNWRITABLE, CompanionError

# Ctrl-C, `kill`, the end of the terminal
STOPS = signal.SIGINT, signal.SIGTERM, signal.SIGHUP
# Those that this process wasn't started to ignore. Nothing else tells it: what is ignored later is
# so for a moment.
HEARD = tuple(stop for stop in STOPS if signal.getsignal(stop) is not signal.SIG_IGN)
# Seconds between two lines of progress, and before the first
PAUSE = 0.2
SILENCE = 1.0
# After a signal the call cleans up for so long: it has to end within half a second
LAST_S = 0.3


class NoReader(Exception):
    """Who read the output has left, as `head` does: nothing is to be told."""


def prepare() -> None:
    """Makes the streams usable. One that is closed is put on a file that takes nothing, so that no
    other file gets its number, and what is written to it fails as on a full disk. A name may hold
    letters that the terminal lacks."""
    for number, name in enumerate(("stdin", "stdout", "stderr")):
        if getattr(sys, name) is None:
            while os.open(os.devnull, os.O_RDONLY) < number:
                pass                            # the lowest free number is given
            setattr(sys, name, os.fdopen(number, "w" if number else "r", closefd=False))
    for stream in (sys.stdout, sys.stderr):
        if isinstance(stream, io.TextIOWrapper):
            stream.reconfigure(errors="backslashreplace")


def put(text: str) -> None:
    """Prints text. CompanionError or NoReader if the output takes no more."""
    put_bytes(text.encode(sys.stdout.encoding or "utf-8", "backslashreplace"))


def put_lines(lines: Iterable[str]) -> None:
    put("".join(line + "\n" for line in lines))


def put_bytes(data: bytes) -> None:
    if Progress.latest:
        Progress.latest.clear()
    try:
        sys.stdout.buffer.write(data)
        sys.stdout.buffer.flush()
    except BrokenPipeError as error:
        raise NoReader from error
    except OSError as error:
        raise CompanionError(f"the output takes no more: {error.strerror or error}", UNWRITABLE)


def put_err(data: bytes) -> None:
    """Bytes on err, if that takes them."""
    if Progress.latest:
        Progress.latest.clear()
    try:
        sys.stderr.flush()
        sys.stderr.buffer.write(data)
        sys.stderr.buffer.flush()
    except OSError:
        pass


def say(message: object) -> None:
    """What went wrong, in one line on err."""
    tell(f"zelkuma: {message}")


def tell(line: str) -> None:
    """One line on err, if that takes it. Control characters of a file's name stay out of the
    terminal."""
    show("".join(c if c.isprintable() else "?" for c in line) + "\n")


def draw(text: str) -> None:
    """One line on a terminal, over the one before."""
    show(f"\r{text}\x1b[K")


@contextlib.contextmanager
def working(text: str) -> Iterator[None]:
    """What takes more than a second is told on a terminal while it lasts, and for how long it
    does."""
    progress = Progress()
    began = time.monotonic()
    if not progress.is_shown:
        yield
        return
    try:
        with alarm(SILENCE,
                   lambda *_: progress.tell(f"{text}: {time.monotonic() - began:.0f} s"), PAUSE):
            yield
    finally:
        progress.clear()


class Progress:
    """One line on a terminal, written over and over; elsewhere nothing. It goes before anything is
    printed."""
    latest: ClassVar[Optional[Progress]] = None         # that drew

    def __init__(self) -> None:
        self.is_shown = sys.stderr.isatty()
        self.drawn = 0.0

    def __enter__(self) -> Progress:
        return self

    def __exit__(self, *_: object) -> None:
        self.clear()

    def tell(self, text: str) -> None:
        """Draws a line, unless the one before was drawn just now."""
        now = time.monotonic()
        if self.is_shown and now - self.drawn >= PAUSE:
            self.drawn = now
            Progress.latest = self
            draw(text)

    def clear(self) -> None:
        if self.drawn:
            draw("")
            self.drawn = 0.0


def show(text: str) -> None:
    try:
        sys.stderr.write(text)
        sys.stderr.flush()
    except OSError:
        pass


def on_interrupt(handler: Any) -> None:
    """Sets what each of STOPS does, unless this process was started to ignore it."""
    for stop in HEARD:
        signal.signal(stop, handler)


@contextlib.contextmanager
def stopping(handler: Callable[[int, object], None]) -> Iterator[None]:
    """Until the end of it `handler` hears of a signal, and ends the work in its own way. A second
    one ends the call at once."""
    def first(number: int, frame: object) -> None:
        on_interrupt(interrupt)
        handler(number, frame)

    before = [(stop, signal.getsignal(stop)) for stop in HEARD]
    on_interrupt(first)
    try:
        yield
    finally:
        for stop, old in before:
            signal.signal(stop, old)


class Stop:
    """The signal that has ended this call, or 0."""
    number: ClassVar[int] = 0


def interrupt(number: int, _: object) -> None:
    """Ends the call. What has to be done at the end is done, unless it takes too long or another
    signal comes. What python doesn't raise, as within a destructor, ends it then, too. Guards and
    the system end its children and remove its folders."""
    Stop.number = number
    on_interrupt(end_now)
    signal.signal(signal.SIGALRM, end_now)
    signal.setitimer(signal.ITIMER_REAL, LAST_S)
    raise KeyboardInterrupt(number)


def end_now(*_: object) -> None:
    os._exit(128 + Stop.number)


@contextlib.contextmanager
def alarm(seconds: float, handler: Callable[[int, object], None],
          again: float = 0) -> Iterator[None]:
    """Calls `handler` after so many seconds, and then each `again`, until the end of it; not once a
    signal has ended the call."""
    before = signal.signal(signal.SIGALRM, handler)
    signal.setitimer(signal.ITIMER_REAL, seconds, again)
    try:
        yield
    finally:
        if not Stop.number:
            signal.setitimer(signal.ITIMER_REAL, 0)
            signal.signal(signal.SIGALRM, before)


def interrupted(stop: KeyboardInterrupt) -> int:
    """The status that a shell says of a program that such a signal has ended."""
    return 128 + int(stop.args[0] if stop.args else signal.SIGINT)


@contextlib.contextmanager
def uninterrupted() -> Iterator[set[Any]]:
    """Each of STOPS waits until the end of it, and so does the end of the call. Gives the signals
    that waited before."""
    before = signal.pthread_sigmask(signal.SIG_BLOCK, (*STOPS, signal.SIGALRM))
    try:
        yield before
    finally:
        signal.pthread_sigmask(signal.SIG_SETMASK, before)
