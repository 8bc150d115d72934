"""The function, file and line of an address of code, with what is inlined there.

They come from one addr2line that runs as long as the companion, else from the ELF's symbols."""
from __future__ import annotations

import os
import re
import resource
import select
import shutil
import subprocess
import time
from typing import Iterable, NamedTuple, Optional, Sequence

from ..call.children import start
from ..call.text import clean
from .elf import Elf
from .sources import Sources

PACKAGE = "binutils"    # of Debian, with the last of these: it reads lines of all machines
TOOLS = tuple(f"{prefix}addr2line" for prefix in (
    "riscv64-unknown-elf-", "riscv32-unknown-elf-", "riscv-none-elf-", "riscv32-esp-elf-",
    "riscv64-linux-gnu-", "llvm-", ""))
AT_ONCE = 100               # so many questions fit into a pipe, whatever the answers' length
# The seconds that a tool may take altogether: so many, and more for each address, which is a
# hundred times what it needs.
PATIENCE = 15.0
PATIENCE_EACH = 0.005
MOST_FRAMES = 64            # functions inlined in each other: a forged file can name any number
LARGEST_ANSWER = 4 << 20    # bytes of an answer: 64 frames with the longest names that a path has
MOST_MEMORY = 640 << 20     # of a tool, whatever an ELF file says
PLACE = re.compile(r"(.*):(\d+|\?)(?: \(.*\))?", re.S)
LONGEST_LINE_NUMBER = 9     # digits
CALLED_FROM = "  <  "       # stands between a place and the one that it was called from


class Frame(NamedTuple):
    """A place of code: the function, and the file's name, the line and the whole path, or nothing
    and 0."""
    function: str
    file: str
    line: int
    path: str

    def text(self) -> str:
        """FUNCTION FILE:LINE, as much as is known."""
        return f"{self.function} {self.file}:{self.line}" if self.line else self.function


class Tool:
    """One addr2line. The first question starts it; `name` is empty if there is none, or it has
    failed.

    An answer is the echo of its address and two lines for each frame. The names in it are the
    file's, and can hold anything, ends of lines as well. So a mark is asked before each address: an
    address that each process draws for itself, which no file can know. What stands between two of
    its echoes is the answer to one address."""

    def __init__(self, elf: Elf, tools: Iterable[str]) -> None:
        self.elf = elf
        self.tools = [name for name in tools if shutil.which(name)]
        self.process: Optional[subprocess.Popen[bytes]] = None
        self.name = self.tools[0] if self.tools else ""
        # No memory is there
        self.mark = b"%x\n" % (1 << 31 | int.from_bytes(os.urandom(4), "little") >> 1)
        self.echo = re.compile(rb"^0x0*%s\r?\n" % self.mark[:-1], re.M)
        self.left = PATIENCE  # seconds
        self.unknown = b""  # what is said of the mark itself
        self.failed = ""                        # why it was ended

    def ask(self, addresses: Sequence[int]) -> dict[int, list[Frame]]:
        """The frames of each address, innermost first, without those that it doesn't answer."""
        self.start()
        if not self.process:
            return {}
        self.left += PATIENCE_EACH * len(addresses)
        asked = b"".join(self.mark + b"%x\n" % address for address in addresses) + self.mark
        try:
            answers = self.exchange(self.process, asked, len(addresses) + 1)
        except (OSError, ValueError) as error:
            self.fail(error)
            return {}
        return {address: self.frames(address, answer[len(self.unknown):])
                for address, answer in zip(addresses, answers)}

    def start(self) -> None:
        """Starts the first tool that answers."""
        while self.tools and not self.process:
            self.name = self.tools.pop(0)
            try:
                self.process = start(
                    [self.name, "-a", "-f", "-i", "-e", os.path.abspath(self.elf.name)], bufsize=0,
                    stdin=subprocess.PIPE, stdout=subprocess.PIPE, stderr=subprocess.DEVNULL)
                resource.prlimit(self.process.pid, resource.RLIMIT_AS, (MOST_MEMORY, MOST_MEMORY))
                self.unknown, = self.exchange(self.process, 2 * self.mark, 2)
            except (OSError, ValueError) as error:
                self.fail(error)

    def exchange(self, process: subprocess.Popen[bytes], asked: bytes, marks: int) -> list[bytes]:
        """What the tool says between the echoes of so many marks, the last of which ends the
        question."""
        assert process.stdin and process.stdout
        process.stdin.write(asked)
        said = b""
        until = time.monotonic() + self.left
        while True:
            if said.count(self.mark) >= marks:
                parts = self.echo.split(said)
                if len(parts) == marks + 1 and len(parts[-1]) >= len(self.unknown or parts[1]):
                    break
            if len(said) > LARGEST_ANSWER:
                raise ValueError("it says too much")
            said += piece(process.stdout.fileno(), until)
        self.left = until - time.monotonic()
        return parts[1:-1]

    def frames(self, address: int, answer: bytes) -> list[Frame]:
        """The frames of an answer; nothing if a name has an end of a line."""
        lines = answer.decode("utf-8", "replace").replace("\r\n", "\n").split("\n")[:-1]
        if len(lines) % 2 == 0 or not lines or echoed(lines[0]) != address:
            return []
        found = []
        for function, place in list(zip(lines[1::2], lines[2::2]))[:MOST_FRAMES]:
            told = PLACE.fullmatch(place)
            if not told:
                return []
            path, line = told.groups()
            if function != "??" or path != "??":
                # $x and the like are marks for disassemblers, which LLVM's tool takes for
                # functions.
                name = self.elf.function_name(address) if function[:1] == "$" else clean(function)
                number = int(line) if line.isdigit() and len(line) <= LONGEST_LINE_NUMBER else 0
                path = "" if path == "??" else clean(path)
                found.append(Frame(name, os.path.basename(path), number, path))
        return found

    def fail(self, why: Exception) -> None:
        self.failed = f"{self.name} can't be asked: {why}"
        self.name = ""
        self.close()

    def close(self) -> None:
        if self.process:
            self.process.kill()
            self.process.wait()
            for stream in (self.process.stdin, self.process.stdout):
                if stream:
                    stream.close()
            self.process = None


def piece(output: int, until: float) -> bytes:
    if not select.select([output], [], [], max(0, until - time.monotonic()))[0]:
        raise ValueError("it took too long")
    found = os.read(output, 1 << 16)
    if not found:
        raise ValueError("it ended")
    return found


def echoed(line: str) -> Optional[int]:
    """The address that a line echoes, or None."""
    try:
        return int(line, 16) if line[:2] == "0x" else None
    except ValueError:
        return None


class Places:
    """Frames of addresses, each asked for once."""

    def __init__(self, elf: Elf, tools: Iterable[str] = TOOLS, folders: Sequence[str] = ()) -> None:
        """`folders` are those of sources, beside the ELF file's and the current one."""
        self.elf = elf
        self.sources = Sources(elf.name, folders)
        self.kept: dict[int, list[Frame]] = {}
        self.addr2line = Tool(elf, tools)

    @property
    def tool(self) -> str:
        """The addr2line that tells the lines, or nothing."""
        return self.addr2line.name

    def trouble(self) -> list[str]:
        """What to say if the tool has failed, or a source isn't read."""
        failed = self.addr2line.failed
        told = ([f"{failed}; places of which it said nothing have the names of symbols"] if failed
                else [])
        return told + self.sources.trouble()

    def close(self) -> None:
        self.addr2line.close()

    def fetch(self, pcs: Iterable[int]) -> None:
        """Asks for many addresses together, which is faster than one by one."""
        wanted = sorted({pc for pc in pcs if pc not in self.kept})
        for at in range(0, len(wanted), AT_ONCE):
            some = wanted[at:at + AT_ONCE]
            got = self.addr2line.ask(some)
            for pc in some:
                self.kept[pc] = got.get(pc) or self.by_symbols(pc)

    def by_symbols(self, pc: int) -> list[Frame]:
        name = self.elf.function_name(pc)
        return [Frame(name, "", 0, "")] if name else []

    def frames(self, pc: int) -> list[Frame]:
        """Innermost first; nothing if no name is known."""
        if pc not in self.kept:
            self.fetch([pc])
        return self.kept[pc]

    def innermost(self, pc: int) -> Frame:
        """The innermost frame, of empty fields if no name is known."""
        frames = self.frames(pc)
        return frames[0] if frames else Frame("", "", 0, "")

    def named(self, pc: int) -> str:
        """Of the innermost frame."""
        return self.innermost(pc).text()

    def where(self, pc: int) -> str:
        """The same, or else the address."""
        return self.named(pc) or f"{pc:08x}"

    def chain(self, pcs: Iterable[int], most: int) -> str:
        """The places of a row and of the calls over it, innermost first: so many at most."""
        frames = [frame for pc in pcs
                  for frame in self.frames(pc) or [Frame(f"{pc:08x}", "", 0, "")]]
        return CALLED_FROM.join(frame.text() for frame in frames[:most])

    def line(self, pc: int) -> str:
        """FILE:LINE, or else the address."""
        frame = self.innermost(pc)
        return f"{frame.file}:{frame.line}" if frame.line else f"{pc:08x}"

    def function(self, pc: int) -> str:
        frames = self.frames(pc)
        return frames[0].function if frames else f"{pc:08x}"

    def source(self, pc: int) -> str:
        """The text of the innermost line, if the source is there."""
        return self.text_of(self.innermost(pc))

    def text_of(self, frame: Frame) -> str:
        lines = self.sources.lines(frame.path) if frame.line else []
        return clean(lines[frame.line - 1].strip()) if frame.line <= len(lines) and lines else ""
