"""One process of `debug`: commands go in, lines come out."""
from __future__ import annotations

import os
import subprocess
from typing import NoReturn

from ..call import program
from ..call.children import start
from ..call.errors import CompanionError

END_MARK = "?"  # an unknown command: its answer, the same mark, ends the lines of those before it
FULL = 15 << 20  # bytes of commands; `debug` takes 2^24


class DebugProcess:
    """Answers commands. The hart that `step` and `regs` speak of is chosen once, not each time."""

    def __init__(self, log: str, elf: str) -> None:
        self.words = [program.path(), "debug", "--", log, elf]
        self.start()

    def start(self) -> None:
        self.process = start(self.words, stdin=subprocess.PIPE, stdout=subprocess.PIPE,
                             stderr=subprocess.PIPE, bufsize=0)
        assert self.process.stdin and self.process.stdout and self.process.stderr
        self.commands = self.process.stdin
        self.answers = self.process.stdout
        self.refusals = self.process.stderr
        self.sent = 0
        self.hart = 0

    def close(self) -> None:
        for stream in (self.commands, self.answers, self.refusals):
            stream.close()
        self.process.wait()

    def restart(self) -> None:
        """Goes back to the session's start, with room for as many commands again."""
        self.close()
        self.start()

    def is_nearly_full(self) -> bool:
        return self.sent > FULL

    def fail(self) -> NoReturn:
        said = self.refusals.read().decode(errors="replace").strip()
        status = self.process.wait()
        raise CompanionError(said.split("\n")[-1] or "debug has ended", status or 1)

    def ask(self, *commands: str) -> bytes:
        """The bytes of the answers, one after another."""
        text = "".join(command + "\n" for command in (*commands, END_MARK)).encode()
        self.sent += len(text)
        try:
            self.commands.write(text)
        except OSError:
            self.fail()
        pieces = []
        tail = b"\n"
        while not tail.endswith(b"\n?\n"):
            piece = os.read(self.answers.fileno(), 1 << 20)
            if not piece:
                self.fail()
            pieces.append(piece)
            tail = (tail + piece)[-3:]
        return b"".join(pieces)[:-2]

    def ask_of(self, hart: int, *commands: str) -> bytes:
        """The same of a hart."""
        if hart == self.hart:
            return self.ask(*commands)
        self.hart = hart
        answer = self.ask(f"hart {hart}", *commands)
        return answer[answer.index(b"\n") + 1:]
