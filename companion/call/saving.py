"""Files that a companion saves under a name of its user's: what may be overwritten, and how. No
other module does it.

A new file takes the old one's place in one step, with its owner, mode and extended attributes. If
that can't be, or the old file has further hard links, it is written in place. Signals wait while
that is done."""
from __future__ import annotations

import contextlib
import functools
import io
import os
import shutil
import stat
from dataclasses import dataclass
from typing import BinaryIO, NoReturn, Optional, Sequence, Tuple

from .errors import REFUSED, UNREADABLE, UNWRITABLE, CompanionError
from .kinds import CORE, ELF_MAGIC, FileKind
from .scratch import Scratch
from .streams import uninterrupted

ENTER_AND_WRITE = os.W_OK | os.X_OK
NULL = os.makedev(1, 3)     # the device /dev/null
OUT = 1
ERR = 2
# Names in them are what the call was given open, as by >(..) of a shell
OPEN_FILES = "/dev/fd/", "/proc/self/fd/"


@dataclass(frozen=True)
class Target:
    """A file that is to be saved.

    name    as the user gave it
    path    its own name, behind symbolic links
    others  the files that the call reads, or saves beside it"""
    name: str
    path: str
    kind: FileKind
    others: tuple[str, ...]

    def refuse(self, why: str, status: int = REFUSED) -> NoReturn:
        raise CompanionError(f"{self.name} can't be saved: {why}", status)

    def check(self) -> Optional[os.stat_result]:
        """The old file, if there is one. CompanionError unless it may be overwritten."""
        for other in self.others:
            if is_one_file(self.path, other):
                self.refuse(f"it and {other} are one file")
        try:
            old = os.stat(self.path)
        except FileNotFoundError:
            if not os.path.isdir(self.folder()):
                self.refuse(f"there is no folder {self.folder()}", UNREADABLE)
            if not os.access(self.folder(), ENTER_AND_WRITE):
                self.refuse(f"the folder {self.folder()} can't be written to", UNREADABLE)
            return None
        if stat.S_ISDIR(old.st_mode):
            self.refuse("it is a folder", UNREADABLE)
        if not os.access(self.path, os.W_OK):
            self.refuse("it may not be written", UNREADABLE)
        if stat.S_ISREG(old.st_mode):
            self.check_content(old)
        elif not (self.is_open(old) or old.st_rdev == NULL):
            self.refuse("it is a pipe or a device", UNREADABLE)
        return old

    def check_content(self, old: os.stat_result) -> None:
        with open(self.path, "rb") as file:
            head = file.read(len(ELF_MAGIC))
        if head == ELF_MAGIC and self.kind is not CORE:
            self.refuse("it is an ELF file, which would be lost")
        if head and not fits(self.kind, self.path, (old.st_dev, old.st_ino, old.st_size,
                                                    old.st_mtime_ns, old.st_ctime_ns)):
            self.refuse(f"it isn't {self.kind.name}, and would be lost; "
                        "remove it first, or give another name")

    def is_open(self, old: os.stat_result) -> bool:
        """Whether it is a stream that the call was started with: one by its name alone could wait
        for a reader."""
        if self.name.startswith(OPEN_FILES):
            return True
        for number in (OUT, ERR):
            with contextlib.suppress(OSError):
                if os.path.samestat(os.fstat(number), old):
                    return True
        return False

    def folder(self) -> str:
        return os.path.dirname(os.path.abspath(self.path))

    def scratch(self) -> Scratch:
        """A folder beside it, for files that `take` moves to their places. No other user can read
        them there."""
        if os.path.exists(self.path) and not os.path.isfile(self.path):
            self.refuse("it is no file that can be replaced", UNREADABLE)
        try:
            return Scratch(self.folder(), ".zelkuma-")
        except OSError as error:
            why = f"{self.folder()}: {error.strerror}"
        return self.refuse(why, UNREADABLE)

    def take(self, made: str) -> None:
        """Saves the file `made`, which is in a folder of `scratch`."""
        old = self.check()
        if old is None or (stat.S_ISREG(old.st_mode) and old.st_nlink == 1
                           and make_alike(made, self.path, old)):
            os.replace(made, self.path)
        else:
            with open(made, "rb") as file:
                self.write_in_place(file, old)

    def save(self, data: bytes) -> None:
        save_together([(self, data)])

    def is_in_place(self) -> bool:
        """Whether there is no file beside it that could take its place."""
        old = self.check()
        return old is not None and not (stat.S_ISREG(old.st_mode)
                                        and os.access(self.folder(), ENTER_AND_WRITE))

    def write_in_place(self, source: BinaryIO, old: os.stat_result) -> None:
        """The room for a longer file is made sure of first, so that want of it loses nothing."""
        length = source.seek(0, os.SEEK_END)
        source.seek(0)
        try:
            # (a pipe without a reader is refused, and isn't waited for)
            file = os.open(self.path, os.O_WRONLY | os.O_NONBLOCK)
            os.set_blocking(file, True)
            with open(file, "wb") as opened, contextlib.ExitStack() as waiting:
                if stat.S_ISREG(old.st_mode):
                    waiting.enter_context(uninterrupted())
                    make_room(file, length, old.st_size)
                shutil.copyfileobj(source, opened)
                if stat.S_ISREG(old.st_mode):
                    opened.truncate()
        except OSError as error:
            self.refuse(f"it takes no more: {error.strerror or error}", UNWRITABLE)


def save_together(files: Sequence[Tuple[Target, bytes]]) -> None:
    """Saves files that belong together: a signal that comes meanwhile leaves all old ones, or all
    new ones."""
    with contextlib.ExitStack() as opened:
        made = []
        for place, data in files:
            if place.is_in_place():
                old = place.check()
                assert old
                place.write_in_place(io.BytesIO(data), old)
            else:
                made.append((place, os.path.join(opened.enter_context(place.scratch()), "made")))
                write_whole(place, made[-1][1], data)
        take_together(made)


def write_whole(place: Target, name: str, data: bytes) -> None:
    try:
        with open(name, "wb") as file:
            file.write(data)
    except OSError as error:
        place.refuse(error.strerror or str(error), UNWRITABLE)


def take_together(files: Sequence[Tuple[Target, str]]) -> None:
    """The same of files that are in folders of `scratch`."""
    with uninterrupted():
        for place, name in files:
            place.take(name)


@functools.lru_cache(maxsize=None)
def fits(kind: FileKind, path: str, _what: Tuple[int, ...]) -> bool:
    """Whether a file is of a kind. It is read whole, so of the same file this is asked once."""
    return kind.fits(path)


def target(name: str, kind: FileKind, others: Sequence[str]) -> Target:
    """A file that is to be saved later. CompanionError if it may not: nothing is done for it in
    vain. Of `others` empty names are none."""
    path = os.path.realpath(name)
    if os.path.exists(name) and not os.path.exists(path):
        path = name                             # /dev/stdout leads to no name if it is a pipe
    found = Target(name, path, kind, tuple(filter(None, others)))
    found.check()
    return found


def is_one_file(path: str, other: str) -> bool:
    """Whether two names are one file, or would be."""
    if os.path.exists(path) and os.path.exists(other):
        return os.path.samefile(path, other)
    return path == os.path.realpath(other)


def make_alike(made: str, path: str, old: os.stat_result) -> bool:
    """Whether the new file got the old one's owner, extended attributes (access lists among them)
    and, last, its mode."""
    try:
        os.chown(made, old.st_uid, old.st_gid)
        wanted = attributes(path)
        for name in attributes(made):
            if name not in wanted:
                os.removexattr(made, name)
        for name, value in wanted.items():
            os.setxattr(made, name, value)
        os.chmod(made, stat.S_IMODE(old.st_mode))
    except OSError:
        return False
    return True


def attributes(path: str) -> dict[str, bytes]:
    try:
        names = os.listxattr(path)
    except OSError:                             # this kind of file system has none
        return {}
    return {name: os.getxattr(path, name) for name in names}


def make_room(file: int, length: int, old_length: int) -> None:
    """OSError if there isn't room for so many bytes; the file is as it was."""
    if length > old_length:
        try:
            os.posix_fallocate(file, old_length, length - old_length)
        except OSError:
            os.ftruncate(file, old_length)
            raise
