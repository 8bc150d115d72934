"""Lets gdb attach to a log."""
from __future__ import annotations

import contextlib
import os
import shlex
import socket
import sys
from contextlib import closing
from typing import Mapping, NoReturn

from ..call import streams
from ..call.errors import UNREADABLE, CompanionError
from ..call.help import Help
from ..call.options import read_words, whole
from ..call.program import NOT_BUILT
from ..call.text import number
from ..questions.debugger import PACKAGE, gdb_path
from ..recording.log import Log, asked_row
from ..recording.opened import opened
from ..recording.recent import FIRST_ROWS
from .memory import SessionMemory
from .packets import PacketStream
from .questions import Questions
from .reasons import MORE_ROWS, Reasons
from .server import Server
from .session import begin_session

HELP = Help(
    "gdb LOG ELF [--run] [--names ELF] [--at HART:IC] [--rows N] [--port N] [--end] [--trace]",
    "lets gdb step through a log, forward and back",
    """Lets gdb attach to a recording: harts are threads, and it goes forward and back. With --run
it starts gdb itself, at the end of the log; else gdb starts it:

    gdb-multiarch NAMES -ex 'target remote | zelkuma gdb LOG ELF'

NAMES is the same program with its symbols and lines; ELF is the very file that was recorded, and
may serve as both. The session begins with the log; `continue` goes to the crash, and there
`watch` and `reverse-continue` to the store behind it. `monitor goto HART:IC` goes to a count of a
hart.""", {
        "--run": "starts gdb-multiarch, or what $ZELKUMA_GDB names; `run` starts again at the "
                 "beginning",
        "--at": "begins at a place",
        "--rows": "loads the last N rows alone; with --run a million, unless it is given",
        "--port": "waits on port N of this machine for one connection (`target remote :N`), and "
                  "says so; 0 takes a free port",
        "--end": "begins at the end of the log, at which the program crashed",
        "--trace": "writes gdb's packets to err",
    },
    "What gdb shows is what `debug` says of the log, and ELF of memory that nothing touched.")
SETTINGS = [word for said in ("debuginfod enabled off", "architecture riscv:rv32",
                              "remotetimeout 60", "confirm off", "auto-connect-native-target off")
            for word in ("-iex", f"set {said}")]
LOOPBACK = "127.0.0.1"


def wait_for_gdb(port: int) -> socket.socket:
    """The one connection that is taken."""
    try:
        with socket.create_server((LOOPBACK, port), backlog=1) as server:
            streams.tell(f"port {server.getsockname()[1]}")
            peer, _ = server.accept()
    except OSError as error:
        raise CompanionError(f"port {port}: {error.strerror}", UNREADABLE)
    peer.setsockopt(socket.IPPROTO_TCP, socket.TCP_NODELAY, 1)  # each answer is waited for
    return peer


def told_of_rows(log: Log) -> str:
    """How far back the rows that are loaded lead."""
    first = ", ".join(f"hart {hart} from count {number(each.start)}"
                      for hart, each in sorted(log.first_intervals().items()))
    return f"the last {number(log.rows())} rows are loaded, {first}; {MORE_ROWS}"


def run_gdb(log_name: str, elf_name: str, options: Mapping[str, str]) -> NoReturn:
    """Becomes gdb, which starts the bridge. It begins at the end of the log, unless it is asked for
    a place."""
    gdb = gdb_path()
    here = os.path.dirname(os.path.abspath(__file__))
    if not gdb:
        raise CompanionError(f"no gdb is here; Debian has it in {PACKAGE}", NOT_BUILT)
    place = ["--at", options["--at"]] if "--at" in options else ["--end"]
    names = ["--names", options["--names"]] if "--names" in options else []
    bridge = [sys.executable, os.path.dirname(here), "gdb", *place, *names, "--rows",
              options.get("--rows", str(FIRST_ROWS)), "--", log_name, elf_name]
    words = [gdb, "-q", *SETTINGS, "-x", os.path.join(here, "inside_gdb.py"), "-ex",
             "target extended-remote | " + shlex.join(bridge), "--",
             options.get("--names", elf_name)]
    os.execvp(gdb, words)


def main(words: list[str]) -> int:
    (log_name, elf_name), options = read_words(words, HELP.form)
    port = whole(options["--port"], 0, 65535, "--port") if "--port" in options else None
    at = asked_row(options["--at"], "--at") if "--at" in options else None
    with opened(log_name, elf_name, options) as asked, contextlib.ExitStack() as ends_with:
        if "--run" in options:
            run_gdb(log_name, elf_name, options)
        log = asked.source.end(asked.rows, at) if asked.rows else asked.source.whole()
        if log.unread:
            streams.say(told_of_rows(log))
        session = ends_with.enter_context(closing(begin_session(log, elf_name)))
        peer = ends_with.enter_context(wait_for_gdb(port)) if port is not None else None
        ends = (peer.fileno(),) * 2 if peer else (sys.stdin.fileno(), sys.stdout.fileno())
        server = Server(session, SessionMemory(log, asked.elf, session),
                        PacketStream(*ends, "--trace" in options),
                        Questions(log_name, elf_name, options.get("--names", "")), Reasons(log))
        with contextlib.suppress(EOFError, ConnectionError):    # gdb has left
            server.begin("--end" in options, at)
            server.serve()
    return 0
