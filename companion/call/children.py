"""Processes that end with the one that started them, however that ends."""
from __future__ import annotations

import contextlib
import os
import resource
import signal
import subprocess
from typing import Any, Callable, ClassVar, Mapping, Optional, Sequence

from .errors import CompanionError
from .streams import on_interrupt, uninterrupted

try:
    import ctypes
    SYSTEM: Any = ctypes.CDLL(None)
except (ImportError, OSError):                  # a python without it can't ask the system
    SYSTEM = None
FAILED = 1
SET_DEATH_SIGNAL = 1        # PR_SET_PDEATHSIG of prctl(2)


def tie(parent: int, how: int = signal.SIGKILL) -> None:
    """In a new process: the system ends it by this signal when its parent ends."""
    if SYSTEM:
        SYSTEM.prctl(SET_DEATH_SIGNAL, how)
    if os.getppid() != parent:                  # it has ended by now
        os._exit(1)


def follow(parent: int) -> None:
    """Of a new process: signals end it, and so does the end of the one that started it."""
    on_interrupt(signal.SIG_DFL)
    tie(parent)


def start(words: Sequence[str], **streams: Any) -> subprocess.Popen[bytes]:
    """A process that the system kills when this one ends, also if this one is killed. Signals wait
    until it is known here."""
    # Its guard ends it, wherever this process is ended
    if ProcessGroup.own:
        return subprocess.Popen(words, **streams)
    parent = os.getpid()

    def prepare() -> None:
        follow(parent)
        signal.pthread_sigmask(signal.SIG_SETMASK, before)

    with uninterrupted() as before:
        return subprocess.Popen(words, preexec_fn=prepare, **streams)


def run(words: Sequence[str], seconds: float, most: Mapping[int, int],
        **streams: Any) -> tuple[int, bytes]:
    """The status and the output of such a process. `most` limits what it takes, by the numbers of
    setrlimit. TimeoutExpired after so many seconds."""
    process = start(words, stdin=subprocess.DEVNULL, stdout=subprocess.PIPE, **streams)
    try:
        for number, limit in most.items():
            with contextlib.suppress(ProcessLookupError):
                resource.prlimit(process.pid, number, (limit, limit))
        out, _ = process.communicate(timeout=seconds)
        return process.returncode, out
    finally:
        process.kill()                          # nothing of one that has ended
        process.wait()


class Process:
    """A child by its number."""

    def __init__(self, pid: int) -> None:
        self.pid = pid

    def end(self, status: int) -> int:
        """Takes the status that the system tells of the process."""
        return os.WEXITSTATUS(status) if os.WIFEXITED(status) else -os.WTERMSIG(status)

    def kill(self) -> None:
        with contextlib.suppress(ProcessLookupError):
            os.kill(self.pid, signal.SIGKILL)

    def wait(self) -> int:
        return self.end(os.waitpid(self.pid, 0)[1])


class Forked(Process):
    """A function in a process of its own, which ends as one of `start`. The text that it gives goes
    into a file, as does the line of what it refuses."""

    def __init__(self, work: Callable[[], str], said: str, err: str) -> None:
        parent = os.getpid()
        with uninterrupted():
            super().__init__(os.fork())
            if not self.pid:
                follow(parent)
        if not self.pid:
            self.run(work, said, err)

    @staticmethod
    def run(work: Callable[[], str], said: str, err: str) -> None:
        """The new process. Nothing of the old one is done again in it, whatever happens."""
        status = FAILED
        try:
            write(said, work())
            status = 0
        except CompanionError as error:
            status = error.status
            write(err, f"zelkuma: {error}")
        finally:
            os._exit(status)


def write(name: str, text: str) -> None:
    with open(name, "w", encoding="utf-8", errors="backslashreplace") as file:
        file.write(text + "\n")


class Guard:
    """A process that does something once this one has ended, however that ends, or has closed
    it."""

    def __init__(self, work: Callable[[], None]) -> None:
        watched, self.pipe = os.pipe()
        with uninterrupted():                   # the new process stays so
            self.pid = os.fork()
            if not self.pid:
                try:
                    os.close(self.pipe)
                    os.setpgid(0, 0)
                    os.read(watched, 1)
                    work()
                finally:
                    os._exit(0)
        os.close(watched)
        with contextlib.suppress(OSError):      # it has done so itself
            os.setpgid(self.pid, self.pid)

    def close(self) -> None:
        with contextlib.suppress(OSError):      # somebody may have ended it
            # To close the pipe isn't enough: other processes may have it, too
            os.write(self.pipe, b"\0")
            os.waitpid(self.pid, 0)
        os.close(self.pipe)


class ProcessGroup(Guard):
    """Processes that end with this one. To start one of them is cheaper than by `start`, since no
    python runs in it first; so it is for many short ones."""

    # Which this process is in: what it starts needs no python of its own to end with it
    own: ClassVar[Optional[ProcessGroup]] = None

    def __init__(self) -> None:
        super().__init__(lambda: os.killpg(0, signal.SIGKILL))

    def join(self) -> None:
        os.setpgid(0, self.pid)
        ProcessGroup.own = self

    def start(self, words: Sequence[str], said: str, err: str,
              environment: Mapping[str, str]) -> Process:
        """A process whose output and err go into files."""
        files = [(os.POSIX_SPAWN_OPEN, 0, os.devnull, os.O_RDONLY, 0)]
        files += [(os.POSIX_SPAWN_OPEN, number, name, os.O_WRONLY | os.O_CREAT | os.O_TRUNC, 0o666)
                  for number, name in ((1, said), (2, err))]
        return Process(os.posix_spawn(words[0], list(words), environment, file_actions=files,
                                      setpgroup=self.pid,
                                      setsigdef=[signal.SIGPIPE, signal.SIGXFSZ]))
