"""The logs below folders, and the ELF file of each, found by the SHA-256 that the log has of it."""
from __future__ import annotations

import contextlib
import hashlib
import json
import os
import struct
from typing import Iterable, Iterator, NamedTuple, Sequence

from ..call.errors import MISSING, UNREADABLE, CompanionError
from ..call.kinds import text_kind
from ..call.saving import target
from ..recording.head import LONGEST, MAGIC, program_of

ELF_HEAD = struct.Struct("<6s10xHH")
A_PROGRAM = b"\x7fELF\1\1", 2, 243              # of 32 bits, that can be run, for RISC-V
CACHE_BEGINS = '{"zelkuma": "digests of ELF files"'
CACHE = text_kind("a cache of zelkuma", CACHE_BEGINS, "}\n", "\n")
MOST_LOGS = 100000      # each has an entry in memory; a folder of more is parted by whoever calls


class File(NamedTuple):
    """A log: when it was changed last, in seconds, its name, and the SHA-256 of its program, or
    nothing if its head is cut or of an unknown version."""
    time: float
    name: str
    program: str


class Logs(NamedTuple):
    """The logs that were found, oldest first; how many other files there are, and whether there are
    more than MOST_LOGS."""
    files: list[File]
    others: int
    are_more: bool


def files_below(folders: Iterable[str]) -> Iterator[str]:
    """The names of all files below folders, or of a file itself. A link to a folder isn't
    followed."""
    for folder in folders:
        if not os.path.exists(folder):
            raise CompanionError(f"missing: {folder}", MISSING)
        if os.path.isfile(folder):
            yield folder
        elif not os.path.isdir(folder):
            raise CompanionError(f"{folder} is neither a folder nor a file", UNREADABLE)
        for path, inner, names in os.walk(folder):
            inner.sort()
            yield from (os.path.join(path, name)
                        for name in sorted(names) if os.path.isfile(os.path.join(path, name)))


def find_logs(folders: Sequence[str]) -> Logs:
    found: list[File] = []
    others = 0
    for name in files_below(folders):
        with contextlib.suppress(OSError), open(name, "rb") as file:
            head = file.read(LONGEST)
            if not head.startswith(MAGIC):
                others += 1
            elif len(found) == MOST_LOGS:
                return Logs(sorted(found), others, True)
            else:
                found.append(File(os.fstat(file.fileno()).st_mtime, name, program_of(head)))
    return Logs(sorted(found), others, False)


def cache_name() -> str:
    return os.path.join(os.environ.get("XDG_CACHE_HOME") or os.path.expanduser("~/.cache"),
                        "zelkuma", "elfs.json")


class Store:
    """The programs below folders. What was found is remembered in a file, which can be deleted. A
    digest holds as long as the name leads to the same file, with the same size and times."""

    def __init__(self, folders: Sequence[str]) -> None:
        self.folders = folders
        self.known = self.remembered()
        self.is_new = False

    @staticmethod
    def remembered() -> dict[str, list[object]]:
        try:
            with open(cache_name(), encoding="utf-8") as file:
                known = json.load(file)["files"]
        except (OSError, ValueError, KeyError, TypeError):
            return {}
        return known if isinstance(known, dict) else {}

    def find(self, wanted: set[str]) -> dict[str, str]:
        """{SHA-256: name} of the programs that are there."""
        found: dict[str, str] = {}
        for name in files_below(self.folders):
            if wanted <= found.keys():
                break
            digest = self.digest(os.path.abspath(name))
            if digest in wanted:
                found.setdefault(digest, name)
        self.remember()
        return found

    def digest(self, name: str) -> str:
        """Of a program; nothing of another file."""
        with contextlib.suppress(OSError), open(name, "rb") as file:
            there = os.fstat(file.fileno())
            about = [there.st_dev, there.st_ino, there.st_size,
                     there.st_mtime_ns, there.st_ctime_ns]
            known = self.known.get(name)
            if isinstance(known, list) and known[:-1] == about:
                return str(known[-1])
            head = file.read(ELF_HEAD.size)
            if len(head) == ELF_HEAD.size and ELF_HEAD.unpack(head) == A_PROGRAM:
                found = hashlib.sha256(head)
                for piece in iter(lambda: file.read(1 << 20), b""):
                    found.update(piece)
                self.known[name] = [*about, found.hexdigest()]
                self.is_new = True
                return found.hexdigest()
        return ""

    def remember(self) -> None:
        """If no cache can be saved, each call reads the files again."""
        if self.is_new:
            text = CACHE_BEGINS + ', "files": ' + json.dumps(self.known) + "}\n"
            with contextlib.suppress(OSError, CompanionError):
                os.makedirs(os.path.dirname(cache_name()), exist_ok=True)
                target(cache_name(), CACHE, []).save(text.encode())


def missing_elf(program: str) -> str:
    return f"no ELF file has its SHA-256, {program}" if program else "its head is no log's"
