#!/usr/bin/env python3
"""Damages ELF files with names and lines, and gives them to the companions: names, why, bucket,
view, gdb.

tests/hostile/damaged_elf.py [COUNT [SEED [FIRST]]]: so many files (2000), drawn from the crashing
programs of tests/crashes, but those before FIRST. Bits are flipped, sections are cut, sizes and
offsets of headers, symbols and DWARF are forged. Each file is taken for the names of a recording,
and if it can be recorded, for the program itself. Each call has to end with the answer or with a
line and a status, within 30 seconds and 1 GB; else it is told, and the status is 1."""
import collections
import contextlib
import os
import random
import resource
import signal
import struct
import subprocess
import sys
import tempfile
import time

from tried import TOP, read, write

sys.path.insert(0, TOP)
from companion.call import words as call, program             # noqa: E402

PROGRAMS = ("use_after_free", "race_ring", "hang", "overrun", "double_free", "lost_terminator")
SECONDS = 30
MEMORY = 1 << 30
PACKETS = (b"?", b"g", b"m10000,40", b"m19000,40", b"vCont;c", b"bs", b"bc")
LENGTHS = (0, 1, 2, 4, 0x7f, 0xff, 0x1000, 0x7fffffff, 0xfffffff0, 0xffffffff)
SAID = ("answered", "refused")


def packets():
    return b"".join(b"$%s#%02x" % (body, sum(body) & 255) for body in PACKETS)


class Damage:
    """Draws a damaged copy of a good file."""

    def __init__(self, data, draw):
        self.data = bytearray(data)
        self.draw = draw
        self.first, = struct.unpack_from("<I", data, 32)
        self.sections = struct.unpack_from("<H", data, 48)[0]

    def section(self):
        """The place of a section's header, and the section's place and length in the file."""
        head = self.first + 40 * self.draw.randrange(self.sections)
        offset, size = struct.unpack_from("<II", self.data, head + 16)
        return head, min(offset, len(self.data) - 1), max(1, min(size, len(self.data) - offset))

    def flip(self):
        """Bits of one section, or of any byte."""
        _, offset, size = self.section()
        for _ in range(self.draw.choice((1, 3, 30))):
            self.data[min(len(self.data) - 1,
                          offset + self.draw.randrange(size))] ^= 1 << self.draw.randrange(8)

    def forge_head(self):
        """A field of a section's header: its kind, place, size, link, the size of its entries."""
        head, _, _ = self.section()
        struct.pack_into("<I", self.data, head + self.draw.choice((4, 12, 16, 20, 24, 36)),
                         self.draw.choice(LENGTHS))

    def forge_length(self):
        """A word within a section, as the length of a piece of DWARF, or an offset into another
        one, is."""
        _, offset, size = self.section()
        at = offset + (0 if self.draw.random() < 0.3 else self.draw.randrange(size))
        if at + 4 <= len(self.data):
            struct.pack_into("<I", self.data, at, self.draw.choice(LENGTHS))

    def cut(self):
        """The file's end, or a section's bytes."""
        _, offset, size = self.section()
        if self.draw.random() < 0.5:
            del self.data[offset + self.draw.randrange(size):]
        else:
            del self.data[offset:offset + self.draw.randrange(size)]

    def forge_file_head(self):
        at = self.draw.choice((24, 28, 32, 40, 42, 44, 46, 48, 50))
        struct.pack_into("<H", self.data, at, self.draw.choice((0, 1, 7, 0xff, 0x7fff, 0xffff)))

    def made(self):
        ways = (self.flip, self.flip, self.forge_head, self.forge_length, self.forge_length,
                self.cut, self.forge_file_head)
        for _ in range(self.draw.choice((1, 1, 2, 5))):
            try:
                self.draw.choice(ways)()
            except (struct.error, ValueError, IndexError):
                pass                # what an earlier damage left is too short for this one
        return bytes(self.data)


def record(elf, log, folder):
    """Whether a program can be recorded."""
    words = [program.path(), "record", "--format", "2", "--seed", "1", "--harts", "2", "--limit",
             "3000", "--", elf, log, os.path.join(folder, "book")]
    return subprocess.run(words, stdout=subprocess.DEVNULL, stderr=subprocess.DEVNULL,
                          check=False).returncode in (0, 10, 11)


def in_child(words, folder):
    """A companion's call in a process of its own: its status, or what went wrong."""
    child = os.fork()
    if not child:
        resource.setrlimit(resource.RLIMIT_AS, (MEMORY, MEMORY))
        os.environ["ZELKUMA_TRACEBACK"] = "1"
        for number, name, flags in ((0, "input", os.O_RDONLY),
                                    (1, "out", os.O_WRONLY | os.O_CREAT | os.O_TRUNC),
                                    (2, "err", os.O_WRONLY | os.O_CREAT | os.O_TRUNC)):
            os.dup2(os.open(os.path.join(folder, name if number else words[0] + ".input"),
                            flags, 0o600), number)
        signal.alarm(SECONDS)
        try:
            call.main(words)
        except BaseException:                   # a traceback is what this program looks for
            import traceback
            traceback.print_exc()
            os._exit(99)
    _, status = os.waitpid(child, 0)
    said = read(os.path.join(folder, "err"))
    if os.WIFSIGNALED(status):
        return f"signal {os.WTERMSIG(status)}"
    code = os.WEXITSTATUS(status)
    # A line for the refusal, and one before it if there are no names.
    if code == 99 or b"Traceback" in said or said.count(b"\n") > 2 or (code and not said):
        return f"status {code}: {said[-600:].decode(errors='replace')}"
    return SAID[code != 0]


def calls_of(damaged, elf, log, folder, draw):
    """The calls that a damaged file is given to: as names of a good recording, and as the program
    that was recorded."""
    yield draw.choice((("names", damaged), ("names", damaged, "main", "use_after_free.c:31")))
    yield draw.choice(("why", "bucket", "view")), log, elf, "--names", damaged
    own = os.path.join(folder, "own.log")
    if record(damaged, own, folder):
        yield draw.choice(("why", "bucket", "view", "gdb")), own, damaged


def main(words):
    count, seed, first = map(int, [*words, *("2000", "1", "0")[len(words):]])
    signal.signal(signal.SIGTERM, signal.default_int_handler)
    ended = collections.Counter()
    wrong = []
    slowest = (0.0, "")
    done = 0
    with contextlib.suppress(KeyboardInterrupt), tempfile.TemporaryDirectory() as folder:
        for word in ("names", "why", "bucket", "view", "gdb"):
            write(os.path.join(folder, word + ".input"),
                  packets() if word == "gdb" else b"0 0 00010074 00000013 addi zero,zero,0\n" * 3)
        damaged = os.path.join(folder, "damaged.elf")
        logs = {}
        elves = [name for name in (f"{TOP}/tests/crashes/{each}.elf" for each in PROGRAMS)
                 if os.path.exists(name)]
        for elf in elves:
            logs[elf] = os.path.join(folder, os.path.basename(elf) + ".log")
            record(elf, logs[elf], folder)
        # Ctrl-C or a time limit ends it; what was tried is told
        for number in range(first, count):
            draw = random.Random(seed << 40 | number)
            elf = draw.choice(elves)
            write(damaged, Damage(read(elf), draw).made())
            for each in calls_of(damaged, elf, logs[elf], folder, draw):
                began = time.monotonic()
                said = in_child(list(each), folder)
                slowest = max(slowest, (time.monotonic() - began, f"{each[0]} of file {number}"))
                ended[each[0], said if said in SAID else "otherwise"] += 1
                if said not in SAID:
                    wrong.append(f"file {number}: {each[0]}: {said}")
            done += 1
    for (word, said), times in sorted(ended.items()):
        print(f"{word}: {said} {times}")
    print(f"the slowest took {slowest[0]:.1f} s: {slowest[1]}")
    print("".join(f"{line}\n" for line in wrong[:20]), end="")
    print(f"{done} files, {len(wrong)} calls ended otherwise")
    sys.exit(1 if wrong else 0)


if __name__ == "__main__":
    main(sys.argv[1:])
