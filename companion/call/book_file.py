#!/usr/bin/env python3
"""Whether a file can be an older BOOK, a recording's list of turns, by its whole content.
Companions ask it, and so does the script zelkuma: python3 book_file.py FILE ends with 0 if it is
one, and with 3 if not. So it stands alone."""
import os
import sys
from typing import Set

# Bytes
LONGEST = 1 << 30
PART = 1 << 20
NO_BOOK = 3                             # python itself fails with 1 or 2
HARTS = bytes(range(16))
# A file of the letters 9 to 13 alone is one of empty lines, also with zeros between them. In a
# recording of so many harts one of those from 1 to 8 takes a turn, too.
FIRST_HARTS = set(range(1, 9))
LAST_HARTS = set(range(9, 16))
# A longer file that takes none on the disk was made by its length alone
LONGEST_WITHOUT_BLOCKS = 1 << 20


def is_book(name: str) -> bool:
    found: Set[int] = set()
    with open(name, "rb") as file:
        about = os.fstat(file.fileno())
        if not 0 < about.st_size <= LONGEST or (about.st_size > LONGEST_WITHOUT_BLOCKS
                                                and not about.st_blocks):
            return False
        for part in iter(lambda: file.read(PART), b""):
            if part.translate(None, HARTS):
                return False
            found.update(hart for hart in HARTS if hart in part)
    return bool(found & FIRST_HARTS) or not found & LAST_HARTS


if __name__ == "__main__":
    sys.exit(0 if is_book(sys.argv[1]) else NO_BOOK)
