#!/usr/bin/env python3
"""Runs words at a terminal of their own, and prints what it shows, with escapes as \\e and returns
as \\r.

tests/script/terminal.py [--stop-at TEXT | --touch-at TEXT FILE | --err FILE] WORD..

When the terminal shows TEXT, Ctrl-C is typed, or FILE is made. The status is that of the words, 128
and the signal if one killed them. With --err their err alone is a terminal, and what it shows is
put into FILE.
"""
import os
import pty
import sys

SIGPIPE = 13  # which python ignores
SIGXFSZ = 25  # `signal` and `subprocess` take as long to load as the rest


def shown_at(terminal):
    """What a terminal shows, piece by piece, until nobody can write to it."""
    while True:
        try:
            got = os.read(terminal, 65536)
        except OSError:  # the terminal's other end is closed
            return
        if not got:
            return
        yield got


def run_with_err(file, words):
    terminal, theirs = pty.openpty()
    process = os.posix_spawnp(words[0], words, dict(os.environ, TERM="dumb"),
                              setsigdef=[SIGPIPE, SIGXFSZ],
                              file_actions=[(os.POSIX_SPAWN_DUP2, theirs, 2)])
    os.close(theirs)
    shown = b"".join(shown_at(terminal))
    with open(file, "wb") as kept:
        kept.write(shown.replace(b"\r\n", b"\n"))
    return status_of(process)


def status_of(process):
    """As a shell tells it."""
    status = os.waitpid(process, 0)[1]
    return 128 + os.WTERMSIG(status) if os.WIFSIGNALED(status) else os.WEXITSTATUS(status)


def main(words):
    if words[:1] == ["--err"]:
        return run_with_err(words[1], words[2:])
    awaited = None
    file = None
    if words[:1] == ["--stop-at"]:
        awaited = words[1].encode()
        words = words[2:]
    elif words[:1] == ["--touch-at"]:
        awaited = words[1].encode()
        file = words[2]
        words = words[3:]
    process, terminal = pty.fork()
    if process == 0:
        os.environ["TERM"] = "xterm"
        os.execvp(words[0], words)
    shown = b""
    for got in shown_at(terminal):
        shown += got
        if awaited is not None and awaited in shown:
            if file is None:
                os.write(terminal, b"\x03")
            else:
                open(file, "w").close()
            awaited = None
    status = status_of(process)
    print(shown.decode(errors="replace").replace("\x1b", "\\e").replace("\r", "\\r"), end="")
    return status


if __name__ == "__main__":
    sys.exit(main(sys.argv[1:]))
