"""Lines of a program's sources. Its ELF file can name any file as one, and a log and an ELF can
come from anyone. So those alone are read that its user has beside the ELF file, in the current
folder, or in folders given by --source."""
from __future__ import annotations

import os
import stat
from typing import Mapping, Sequence

from ..call.errors import MISSING, CompanionError
from ..call.options import AND
from ..call.text import clean

SUFFIXES = (".c", ".h", ".s", ".S", ".cc", ".cpp", ".cxx", ".hpp", ".hh", ".inc", ".rs",
            ".zig", ".adb", ".f90", ".go")
LARGEST = 4 << 20       # bytes that are read of a source: of a larger one the first lines
SYSTEM = "/proc/", "/sys/"      # files there look like regular ones
LATER = 60                      # seconds: a checkout writes files in any order


class Sources:
    """Reads regular files whose own path, behind links, has a source's suffix and lies below one of
    the folders.

    outside  the first file that would be read, but lies elsewhere
    newer    the first one that was changed after the ELF file was built"""

    def __init__(self, elf: str, given: Sequence[str]) -> None:
        self.beside = [os.path.dirname(elf), *given]
        self.folders = [os.path.realpath(folder) for folder in (*self.beside, "")]
        self.texts: dict[str, list[str]] = {}
        self.outside = self.newer = ""
        self.built = changed_at(elf)

    def lines(self, path: str) -> list[str]:
        """The lines of a source, if it is there."""
        if path not in self.texts:
            self.texts[path] = self.read(path)
        return self.texts[path]

    def read(self, path: str) -> list[str]:
        """The path is of the machine that built the program: the file may lie beside the ELF, or in
        a given folder."""
        outside = ""
        for name in (path,
                     *(os.path.join(folder, os.path.basename(path)) for folder in self.beside)):
            real = os.path.realpath(name)
            if real.endswith(SUFFIXES) and os.path.isfile(real) and not real.startswith(SYSTEM):
                if any(is_below(real, folder) for folder in self.folders):
                    self.newer = self.newer or (name if changed_at(real) > self.built + LATER
                                                else "")
                    return text_of(real).split("\n")
                outside = outside or name
        self.outside = self.outside or outside
        return []

    def trouble(self) -> list[str]:
        """What to say if a source lies elsewhere, or may be another than was built."""
        said = [f"No line of {clean(self.outside)} is shown: "
                "it is neither below the folder of the ELF file nor below this one. "
                "--source DIR allows another."] if self.outside else []
        newer = (f"{clean(self.newer)} is newer than the ELF file: "
                 "its lines may be others than those that were built.")
        return said + ([newer] if self.newer else [])


def changed_at(path: str) -> float:
    """When a file was changed last; 0 if there is none."""
    try:
        return os.stat(path).st_mtime
    except OSError:
        return 0


def is_below(path: str, folder: str) -> bool:
    return path.startswith(folder.rstrip("/") + "/")


def text_of(path: str) -> str:
    """The text of a regular file; nothing if it is another by now, or can't be read."""
    try:
        with open(os.open(path, os.O_RDONLY | os.O_NOFOLLOW | os.O_NONBLOCK), "rb") as file:
            if not stat.S_ISREG(os.fstat(file.fileno()).st_mode):
                return ""
            return file.read(LARGEST).decode("utf-8", "replace")
    except OSError:
        return ""


def source_folders(options: Mapping[str, str]) -> list[str]:
    """The folders that --source names."""
    folders = options["--source"].split(AND) if "--source" in options else []
    for folder in folders:
        if not os.path.isdir(folder):
            raise CompanionError(f"--source: {folder} is no folder", MISSING)
    return folders
