"""Calls of companions in processes that are forked: python's start, which takes longer than most of
what they do, is saved."""
import fcntl
import os
import resource
import signal
import sys
import traceback
from typing import NamedTuple

from tried import TOP, read

sys.path.insert(0, TOP)
from companion.call import words as call                      # noqa: E402

for word in call.WORDS:     # once, and not in each process
    call.module_of(word)
TRACEBACK = 99              # the status of a call that ended by one
HANGS_S = 600               # by the clock: the processors may be another's
F_SETPIPE_SZ = 1031
LONGEST_ERR = 1 << 20
MEMORY = 2 << 30            # of each process, so that one that wants all of it leaves some


class Ended(NamedTuple):
    """status   as a shell tells it
    seconds  of the processor, with all processes that it waited for
    memory   the most bytes that one of them had"""
    status: int
    out: bytes
    err: bytes
    seconds: float
    memory: int

    @property
    def has_traceback(self):
        return self.status == TRACEBACK or b"Traceback" in self.err


def code_of(status):
    """The status of os.wait4 as a shell tells it."""
    return os.WEXITSTATUS(status) if os.WIFEXITED(status) else 128 + os.WTERMSIG(status)


def nothing():
    pass


def companion(words, folder, given=os.devnull, prepare=nothing, run=call.main, out=""):
    """Calls a companion, with a file as its input, and one as its output. The new process begins
    with `prepare`."""
    out = out or f"{folder}/out"
    err, writing = os.pipe()
    fcntl.fcntl(writing, F_SETPIPE_SZ, LONGEST_ERR)
    child = os.fork()
    if not child:
        os.environ["ZELKUMA_TRACEBACK"] = "1"
        os.dup2(os.open(given, os.O_RDONLY), 0)
        os.dup2(os.open(out, os.O_WRONLY | os.O_CREAT | os.O_TRUNC, 0o600), 1)
        os.dup2(writing, 2)
        sys.stdin, sys.stdout, sys.stderr = (open(number, mode, closefd=False)
                                             for number, mode in enumerate("rww"))
        resource.setrlimit(resource.RLIMIT_AS, (MEMORY, MEMORY))
        signal.alarm(HANGS_S)
        try:
            prepare()
            run(list(words))
        except BaseException:                   # a traceback is what is looked for
            traceback.print_exc()
            os._exit(TRACEBACK)
    os.close(writing)
    _, status, took = os.wait4(child, 0)
    os.set_blocking(err, False)                 # what it left could have it
    with open(err, "rb") as file:
        said = file.read() or b""
    return Ended(code_of(status), b"" if out == os.devnull else read(out), said,
                 took.ru_utime + took.ru_stime, took.ru_maxrss << 10)
