"""The head of a log file: the settings of its recording, and its program (docs/FORMAT.md)."""
from __future__ import annotations

import struct
from typing import NamedTuple

MAGIC = b"BUGNETLG"
VERSION_1 = 1
VERSION_2 = 2
SETTINGS = struct.Struct("<8sIIIQIIIII")        # magic to line
# Of version 2 alone: behind the settings, and the format between them
SECOND_LEVEL = struct.Struct("<4xII")
DIGEST = 32  # bytes of the program's digest
DROPPED = struct.Struct("<QI")  # how many records were dropped, bytes of the kept ones
DROPPED_AT = {VERSION_1: 80, VERSION_2: 92}     # bytes before that, behind the digest
RECORDS_AT = {VERSION_1: 92, VERSION_2: 136}    # bytes before the records, or the blocks of them
LONGEST = max(RECORDS_AT.values())


class Head(NamedTuple):
    """`interval`, `limit`: instructions; `size`: bytes of records; `memory`: bytes; `dropped`: how
    many records were given up before the first."""
    version: int
    harts: int
    interval: int
    limit: int
    size: int
    memory: int
    sets: int
    ways: int
    line: int
    sets2: int
    ways2: int
    dropped: int

    @property
    def records_at(self) -> int:
        """The place of the records, or of the blocks of them."""
        return RECORDS_AT[self.version]

    def settings(self) -> dict[str, str]:
        """The options of `record` that give it."""
        found = {"--format": self.version, "--harts": self.harts, "--interval": self.interval,
                 "--limit": self.limit, "--log-size": self.size, "--memory": self.memory,
                 "--sets": self.sets, "--ways": self.ways, "--line": self.line}
        found.update({"--sets2": self.sets2, "--ways2": self.ways2} if self.sets2 else {})
        return {option: str(value) for option, value in found.items()}


def head_of(data: bytes) -> Head:
    """That of a file, by its first LONGEST bytes at least. ValueError if it isn't a log's."""
    try:
        magic, version, harts, interval, limit, size, memory, sets, ways, line = (
            SETTINGS.unpack_from(data))
        if magic != MAGIC or version not in RECORDS_AT:
            raise ValueError("it isn't a log of version 1 or 2")
        sets2, ways2 = (SECOND_LEVEL.unpack_from(data, SETTINGS.size) if version == VERSION_2
                        else (0, 0))
        dropped, _ = DROPPED.unpack_from(data, DROPPED_AT[version])
    except struct.error:
        raise ValueError("it is cut")
    return Head(version, harts, interval, limit, size, memory, sets, ways, line, sets2,
                ways2, dropped)


def program_of(data: bytes) -> str:
    """The SHA-256 of the ELF file, also in a head that is cut behind it, or nothing."""
    end = DROPPED_AT.get(int.from_bytes(data[8:12], "little"), 0)
    return (data[end - DIGEST:end].hex() if data.startswith(MAGIC) and DIGEST < end <= len(data)
            else "")


def read_head(name: str) -> Head:
    """That of the file of a name."""
    with open(name, "rb") as file:
        return head_of(file.read(LONGEST))
