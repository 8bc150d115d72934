#!/usr/bin/env python3
"""Gives the program logs and program files that nobody recorded, and looks at how each is answered.

tests/hostile/fuzz.py [COUNT [SEED [PROCESSES [SECONDS]]]], at most so many seconds by the clock

First come all prefixes and all flipped bits of a small log, in version 1 and in version 2, with its
digests and with renewed ones. The same is done with a small program file and a log made for it.
Then come COUNT files (10,000) made from recordings of examples/, half of them in version 2:

- bits flipped, bytes cut out or put in
- records left out, doubled, exchanged, put in or changed in a field
- a prefix of one log with the end of another, or settings changed; with renewed digests or not
- blocks left out, doubled, exchanged, cut elsewhere, damaged or with other numbers, most with
  renewed digests
- program files with bytes changed, under logs that say their digest

A log is given to `check`, and one of version 2 to `salvage`. One that `check` takes is given to
`list`, `replay`, `joint`, `debug`, `races`, `slice`, `convert` and, with a drawn list of turns, to
`audit`. One that `check` refuses is given to one of these. A program file is given to `replay`,
`joint`, `debug`, `races`, `slice` and `record`. Each call has to end by itself, within SECONDS of
processor time and BYTES of memory, with a status that its command has and one line on err that fits
it. What `check`, `convert` and `salvage` say has to be what tests/hostile/verdict.py says, and the
last two have to save it.

With ZELKUMA_CASES the same files are given to the same call in memory, many of them to one process:
that variable names the built program of the crate program_cases, which does what lines say. Only
the recordings come of the program itself then. Seconds are those of that process for a call, and
bytes are its most in all.

It prints how many calls of each command had which status, the longest and the largest. It ends with
1 if a call was answered otherwise; such a file is kept, and its name and words are printed.
"""

import collections
import multiprocessing
import os
import random
import re
import signal
import struct
import subprocess
import sys
import time
from typing import Dict

import forge
import tried
import verdict
from tried import PROGRAM, TOP

SECONDS = 1.0
BYTES = 64 << 20
PATIENCE = 30
CASES = os.environ.get("ZELKUMA_CASES")
KEPT = "/tmp/fuzz-kept"
LOADING = {0, 6, 7, 8}
STATUSES = {
    "check": {0, 7},
    "list": {0, 7},
    "replay": LOADING | {14, 15},
    "joint": LOADING | {15},
    "debug": LOADING | {15, 18},
    "races": LOADING | {15, 20},
    "slice": LOADING | {14, 15, 21},
    "convert": {0, 7},
    "salvage": {0, 7, 19},
    "audit": LOADING | {16, 17},
    "record": {0, 6, 10, 11},
}
DIGEST = "[0-9a-f]{64}"
N = r"\d+"
MARK = rf"{N} \w+ [0-9a-f]{{8}}"
SAID = {
    6: rf"elf: (NotElf|NotRv32|NotStatic|NeedsCompressed|NeedsE|NoSegment|(TooMany|Outside) {N}|"
    rf"(Truncated|SegmentsTouch) {N} {N}|EntryOutside [0-9a-f]{{8}})",
    7: r"log: "
    rf"(BadMagic|(Short|BadVersion|BadBlock|BadRecord) {N}|(BadHead|LengthDiffers|BadOrder) "
    rf"{N} {N}|"
    rf"DigestDiffers {DIGEST} {DIGEST})",
    8: f"program differs: {DIGEST} {DIGEST}",
    14: f"no interval {N} {N}",
    15: rf"replay: (LoadMissing {N} {N} [0-9a-f]{{8}}|ScMissing {N} {N}|RecordsLeft {N} {N}|"
    rf"EndDiffers {N} {MARK} {MARK}|Stuck( {N}:{N})+)",
    16: f"differs at {N}",
    17: f"book: (turn {N} hart {N}|unfinished {N})",
    18: "(line|commands) too long",
    19: "nothing left",
    20: f"races: more than {N}",
    21: f"no row {N}",
}
LINES = {status: re.compile(f"bugnet: {line}\n") for status, line in SAID.items()}
NO_VARIABLES: Dict[str, str] = {}
NUMBERS = (0, 1, 2, 3, 7, 8, 9, 255, 2**16, 2**31, 2**32 - 1, 2**40, 2**41, 2**41 + 1,
           2**63, 2**64 - 1)
# The fields of a record by its tag: place and size.
FIELDS = {
    1: ((1, 1), (2, 8), (10, 8), (18, 4), (22, 4), (58, 4), (62, 4)),
    2: ((1, 1), (2, 4), (6, 4)),
    3: ((1, 1),),
    4: ((1, 1),),
    5: ((1, 1), (2, 8), (10, 1), (11, 8)),
    6: ((1, 1), (2, 8), (10, 1), (11, 4)),
}
SETTING_FIELDS = ((12, 4), (16, 4), (20, 8), (28, 4), (32, 4), (36, 4), (40, 4), (44, 4), (8, 4))
HEAD_FIELDS = (*SETTING_FIELDS, (80, 8))
HEAD2_FIELDS = (*SETTING_FIELDS, (48, 4), (52, 4), (56, 4), (92, 8), (100, 4))


# ---- one call of the program


class Calls:
    """Calls of the program in a folder of their own, and what came of them."""

    def __init__(self, folder):
        self.folder = folder
        self.statuses = collections.Counter()
        self.kinds = collections.Counter()
        self.longest = (0.0, "")
        self.largest = (0, "")
        self.wrong = []
        os.makedirs(folder, exist_ok=True)

    def path(self, name):
        return f"{self.folder}/{name}"

    def write(self, name, data):
        tried.write(self.path(name), data)

    def read(self, name):
        return tried.read(self.path(name))

    def spawn(self, words, out):
        """Runs the program, and returns how it ended, and what it took; None if it didn't end."""
        create = os.O_WRONLY | os.O_CREAT | os.O_TRUNC
        files = [
            (os.POSIX_SPAWN_OPEN, 0, self.path("keys"), os.O_RDONLY, 0),
            (os.POSIX_SPAWN_OPEN, 1, out, create, 0o600),
            (os.POSIX_SPAWN_OPEN, 2, self.path("err"), create, 0o600),
        ]
        pid = os.posix_spawn(PROGRAM, ["bugnet", *words], NO_VARIABLES, file_actions=files)
        signal.signal(signal.SIGALRM, lambda *_: os.kill(pid, signal.SIGKILL))
        signal.setitimer(signal.ITIMER_REAL, PATIENCE)
        _, ended, used = os.wait4(pid, 0)
        signal.setitimer(signal.ITIMER_REAL, 0)
        return ended, used

    def run(self, *words, out="/dev/null"):
        """Runs a command, looks at how it ended, and returns its status and its line on err."""
        ended, used = self.spawn(words, out)
        with open(self.path("err"), encoding="utf-8") as file:
            line = file.read()
        seconds = used.ru_utime + used.ru_stime
        size = used.ru_maxrss << 10
        self.longest = max(self.longest, (seconds, " ".join(words)))
        self.largest = max(self.largest, (size, " ".join(words)))
        if not os.WIFEXITED(ended):
            self.tell(words, f"ended by signal {os.WTERMSIG(ended)}")
            return None, line
        status = os.WEXITSTATUS(ended)
        self.statuses[words[0], status] += 1
        self.look(words, status, line)
        if seconds > SECONDS or size > BYTES:
            self.tell(words, f"took {seconds:.2f} seconds and {size} bytes")
        return status, line

    def look(self, words, status, line):
        """Tells a status that the command doesn't have, and a line that doesn't fit it."""
        if words[0] == "record" and status in (0, 10, 11):
            return
        if status == 0:
            good = line == ""
        else:
            good = status in LINES and LINES[status].fullmatch(line)
            self.kinds[status, " ".join(line.split(" ")[1:3]).rstrip()] += 1
        if status not in STATUSES[words[0]] or not good:
            self.tell(words, f"status {status}: {line!r}")

    def kept(self):
        """Returns the files that a call was given, by name."""
        return {name: self.read(name) for name in ("LOG", "ELF", "BOOK", "NEW", "keys")
                if os.path.exists(self.path(name))}

    def tell(self, words, what):
        os.makedirs(KEPT, exist_ok=True)
        place = f"{KEPT}/{os.getpid()}-{len(self.wrong)}"
        for name, data in self.kept().items():
            tried.write(f"{place}-{name}", data)
        self.wrong.append(f"{place}: {' '.join(words)}: {what}")

    def numbers(self):
        return self.statuses, self.kinds, self.longest, self.largest, self.wrong


class Cases(Calls):
    """Calls in memory, of a process that reads lines, and what came of them."""

    TICK = os.sysconf("SC_CLK_TCK")

    def __init__(self, folder):
        super().__init__(folder)
        self.files = {}
        self.count = 0
        self.begin()

    def begin(self):
        """Begins a process, which has the files that there are."""
        pipe = subprocess.PIPE
        self.process = subprocess.Popen([CASES], stdin=pipe, stdout=pipe, stderr=subprocess.STDOUT)
        self.used = 0.0
        for name, data in self.files.items():
            self.write(name, data)

    def path(self, name):
        return name

    def say(self, line):
        self.process.stdin.write(line.encode() + b"\n")

    def write(self, name, data):
        self.files[name] = data
        if name != "keys":
            self.say(f"zeros {name} 0")
            for at in range(0, len(data), 8192):
                self.say(f"bytes {name} {data[at : at + 8192].hex()}")

    def answer(self):
        """Returns what was printed for the lines so far, whose last one asks for a file that isn't
        there."""
        self.count += 1
        self.say(f"size none-{self.count}")
        self.process.stdin.flush()
        lines = []
        last = f"none-{self.count} is not there\n".encode()
        for line in self.process.stdout:
            if line.endswith(last):
                lines.append(line[: -len(last)])
                return b"".join(lines)
            lines.append(line)
        return None

    def read(self, name):
        if name == "out":
            return self.out
        self.say(f"show {name}")
        return bytes.fromhex(self.answer().partition(b"\n")[2].decode())

    def took(self):
        """Returns the seconds of the process since this was asked last, and its most bytes."""
        with open(f"/proc/{self.process.pid}/stat", encoding="utf-8") as file:
            fields = file.read().rpartition(")")[2].split()
        with open(f"/proc/{self.process.pid}/status", encoding="utf-8") as file:
            size = next(int(line.split()[1]) << 10 for line in file if line.startswith("VmHWM"))
        used = (int(fields[11]) + int(fields[12])) / self.TICK
        before = self.used
        self.used = used
        return used - before, size

    def run(self, *words, out=None):
        """Runs a command as its process does, and returns its status and its line on err."""
        if words[0] == "debug" and self.files["keys"]:
            self.say(f"keys {self.files['keys'].hex()}")
        self.say(f"run {' '.join(words)}")
        printed = self.answer()
        if printed is None:
            self.tell(words, f"ended with {self.process.wait()}")
            self.begin()
            return None, ""
        _, counted, text = printed.split(b"\n", 2)
        status, _, size = map(int, re.findall(rb"\d+", counted)[:3])
        at = len(text) - size
        self.out = text[:at]
        line = text[at:].decode()
        self.statuses[words[0], status] += 1
        self.look(words, status, line)
        seconds, most = self.took()
        self.longest = max(self.longest, (seconds, " ".join(words)))
        self.largest = (most, "")
        if seconds > SECONDS or most > BYTES:
            self.tell(words, f"took {seconds:.2f} seconds, {most} bytes with all before")
        return status, line

    def kept(self):
        return self.files


# ---- what is made of recordings


# Of each example: how many harts, the limit, the interval, and how many bytes of records are kept.
# Then options for format 2, which is saved in version 2, in logs that are small enough for the
# guard.
RECORDED = ((1, 400, 100, 4096), (2, 300, 60, 2048), (4, 120, 50, 1024), (2, 400, 12, 12_000))
SMALL_CACHE = ("--log-size", "16384", "--sets", "1", "--ways", "1", "--line", "1")
RECORDED2 = (("--harts", "16", "--limit", "250", *SMALL_CACHE),
             ("--limit", "2000", "--sets2", "2", "--ways2", "1", *SMALL_CACHE))


def recorded(calls, elf, *words):
    """Returns the log of a recording; nothing where the program doesn't take the words."""
    names = elf, calls.path("LOG"), calls.path("BOOK")
    ended, _ = calls.spawn(("record", *map(str, words), "--input", calls.path("input"), *names),
                           "/dev/null")
    return (calls.read("LOG") if os.WIFEXITED(ended) and os.WEXITSTATUS(ended) in (0, 10, 11)
            else b"")


def recordings(folder):
    """Returns logs with their program files, of each example by several settings, version by
    version."""
    calls = Calls(folder)
    found = {1: [], 2: []}
    calls.write("keys", b"")
    calls.write("input", b"a few words, and a few words more\n")
    for name in sorted(os.listdir(f"{TOP}/examples")):
        if name.endswith(".elf"):
            path = f"{TOP}/examples/{name}"
            elf = tried.read(path)
            for harts, limit, interval, small in RECORDED:
                words = ("--harts", harts, "--limit", limit, "--interval", interval)
                data = recorded(calls, path, "--seed", len(found[1]), *words)
                found[1].append((kept_end(data, small), elf))
            for words in RECORDED2:
                data = recorded(calls, path, "--seed", len(found[2]), "--format", 2, *words)
                found[2] += [(data, elf)] if data else []
    found[2] += [(version2(data), elf) for data, elf in found[1]]
    return found


def kept_end(data, size):
    """Returns a log of the last records of one, so many bytes at most: as if the others were given
    up."""
    head, records = forge.parts(data)
    left = forge.split(records)
    dropped = struct.unpack_from("<Q", head, 80)[0]
    while sum(map(len, left)) > size:
        left.pop(0)
        dropped += 1
    records = b"".join(left)
    return resealed(head[:80] + struct.pack("<Q", dropped) + head[88:], records)


def resealed(head, records):
    return forge.sealed(head[:88] + struct.pack("<I", len(records) % 2**32) + records)


def other_number(draw, old, size):
    return draw.choice((*NUMBERS, old + 1, old - 1, old * 2,
                        draw.getrandbits(64))) % 2 ** (8 * size)


def put(data, at, size, draw):
    """Returns the data with another number at a place."""
    old = int.from_bytes(data[at : at + size], "little")
    return data[:at] + other_number(draw, old, size).to_bytes(size, "little") + data[at + size :]


def with_flip(data, bit):
    place = bit // 8
    return data[:place] + bytes((data[place] ^ 1 << bit % 8,)) + data[place + 1 :]


def flipped(draw, data):
    for _ in range(draw.choice((1, 1, 1, 2, 8))):
        data = with_flip(data, 8 * draw.randrange(len(data)) + draw.randrange(8))
    return data


def patched(draw, data):
    """Returns the data with some bytes left out, put in or exchanged."""
    first = draw.randrange(len(data))
    size = draw.randrange(40)
    new = draw.choice((b"", draw.randbytes(size), data[:size]))
    return data[:first] + new + data[first + draw.choice((0, size)) :]


def made_record(draw, records):
    """Returns a record: one of a log with another number in a field, or one drawn."""
    if records and draw.random() < 0.7:
        entry = draw.choice(records)
        at, size = draw.choice(FIELDS[entry[0]])
        return put(entry, at, size, draw)
    tag = draw.choice(tuple(FIELDS))
    return bytes((tag, draw.randrange(9))) + draw.randbytes(forge.SIZES[tag] - 2)


def changed_records(draw, records, others):
    """Returns the records of a log with some of them changed."""
    found = list(records)
    place = draw.randrange(len(found) + 1)
    way = draw.randrange(7)
    if way == 0:
        del found[place : place + draw.choice((1, 1, 2, 5))]
    elif way == 1:
        found[place:place] = found[place : place + draw.choice((1, 1, 2, 5))]
    elif way == 2:
        found[place : place + 2] = reversed(found[place : place + 2])
    elif way == 3:
        found.insert(place, made_record(draw, found))
    elif way == 4 and place < len(found):
        at, size = draw.choice(FIELDS[found[place][0]])
        found[place] = put(found[place], at, size, draw)
    elif way == 5:
        found[place:] = others[draw.randrange(len(others) + 1) :]
    else:
        found = found[place:]
    return found


def spoiled(draw, data, way, flip):
    """Returns a file with flipped bits, with other bytes, or a prefix of it."""
    if way == 0:
        return flip(draw, data)
    return patched(draw, data) if way == 1 else data[: draw.randrange(len(data))]


def mutated_log(draw, pool):
    """Returns a log that was made of recordings, and the program file of one of them."""
    data, elf = draw.choice(pool[1])
    other, _ = draw.choice(pool[1])
    head, records = forge.parts(data)
    way = draw.randrange(10)
    if way < 3:
        return spoiled(draw, data, way, flipped), elf
    if way < 5:
        return forge.sealed((flipped, patched)[way - 3](draw, data[:-32])), elf
    if way == 5:
        at, size = draw.choice(HEAD_FIELDS)
        return forge.sealed(put(data[:-32], at, size, draw)), elf
    found = forge.split(records)
    for _ in range(draw.choice((1, 1, 1, 2, 3))):
        found = changed_records(draw, found, forge.split(forge.parts(other)[1]))
    if draw.random() < 0.4:
        head = head[:80] + struct.pack("<Q", draw.choice((0, 1, 2**64 - 1))) + head[88:]
    return resealed(head, b"".join(found)), elf


# ---- the same in version 2


def sealed2(signed, blocks):
    """Returns a file of version 2 with renewed digests: blocks are records' bytes, before and
    left."""
    data = forge.sealed(signed)
    return data + b"".join(forge.block(data[104:136], *each) for each in blocks)


def version2(data):
    """Returns an undamaged log of version 1 in version 2."""
    settings = (*struct.unpack_from("<IIQIIIII", data, 12), 1, 0, 0)
    dropped, n = struct.unpack_from("<QI", data, 80)
    return forge.file2(forge.head2(settings, data[48:80], dropped, n), dropped,
                       forge.cut(forge.split(data[92:-32])))


def records_of(blocks):
    return forge.split(b"".join(records for records, _, _ in blocks))


def cut_anew(draw, records, dropped):
    """Returns blocks of some records: as they have to be, or cut at drawn places."""
    if draw.random() < 0.5:
        parts = [b"".join(each) for each in forge.cut(records)]
    else:
        data = b"".join(records)
        parts = []
        while data and len(parts) < 30:
            size = draw.choice((1, 100, 146, 1_000, 4_095, 4_096, 4_097, draw.randrange(1, 4_097)))
            parts = [*parts, data[:size]]
            data = data[size:]
    blocks = []
    before = dropped
    left = sum(map(len, parts))
    for part in parts:
        left -= len(part)
        blocks.append((part, before, left))
        before += len(forge.split(part))
    return blocks


def changed_blocks(draw, blocks):
    """Returns blocks with one of them left out, doubled, exchanged, or with another number."""
    found = list(blocks)
    place = draw.randrange(len(found) + 1)
    way = draw.randrange(6)
    if way == 0:
        del found[place : place + 1]
    elif way == 1:
        found[place:place] = found[place : place + 1]
    elif way == 2:
        found[place : place + 2] = reversed(found[place : place + 2])
    elif way == 3:
        found.insert(place,
                     (b"", draw.choice((0, 50)), sum(len(each[0]) for each in found[place:])))
    elif place < len(found):
        records, before, left = found[place]
        before = other_number(draw, before, 8) if way == 4 else before
        left = other_number(draw, left, 4) if way == 5 else left
        found[place] = records, before, left
    return found


def with_left(blocks):
    """Returns blocks each of which says how many bytes are left after it."""
    left = sum(len(records) for records, _, _ in blocks)
    found = []
    for records, before, _ in blocks:
        left -= len(records)
        found.append((records, before, left))
    return found


def rebuilt(draw, signed, records):
    """Returns a file of version 2 with other records, blocks or numbers, all its digests
    renewed."""
    dropped = struct.unpack_from("<Q", signed, 92)[0]
    if draw.random() < 0.3:
        dropped = draw.choice((0, 1, 2**64 - 1))
        signed = signed[:92] + struct.pack("<Q", dropped) + signed[100:]
    n = sum(map(len, records))
    blocks = cut_anew(draw, records, draw.choice((dropped, dropped, dropped, 1)))
    for _ in range(draw.choice((0, 0, 1, 2))):
        blocks = changed_blocks(draw, blocks)
        blocks = with_left(blocks) if draw.random() < 0.7 else blocks
    n = draw.choice((n, n, sum(len(each[0]) for each in blocks), n + 1, n - 1)) % 2**32
    return sealed2(signed[:100] + struct.pack("<I", n), blocks)


def damaged(draw, data):
    """Returns a file with some bits flipped at a place that is more often near its end."""
    place = draw.choice((draw.randrange(len(data)),
                         len(data) - 1 - draw.randrange(min(len(data), 100))))
    return with_flip(data, 8 * place + draw.randrange(8))


def mutated_log2(draw, pool):
    """Returns a log of version 2 that was made of recordings, and the program file of one of
    them."""
    data, elf = draw.choice(pool[2])
    other, _ = draw.choice(pool[2])
    way = draw.randrange(10)
    if way < 3:
        return spoiled(draw, data, way, damaged), elf
    signed, blocks = forge.parts2(data)
    if way == 3:
        at, size = draw.choice(HEAD2_FIELDS)
        return sealed2(put(signed, at, size, draw), blocks), elf
    if way == 4:
        at, size = draw.choice(HEAD2_FIELDS)
        return forge.sealed(put(signed, at, size, draw)) + data[136:], elf
    found = records_of(blocks)
    for _ in range(draw.choice((0, 0, 1, 2))):
        found = changed_records(draw, found, records_of(forge.parts2(other)[1]))
    data = rebuilt(draw, signed, found)
    return damaged(draw, data) if way > 7 else data, elf


def mutated_elf(draw, pool):
    """Returns a program file that was made of an example, and the log of one with its digest."""
    data, elf = draw.choice(pool[1])
    way = draw.randrange(4)
    if way < 2:
        elf = (flipped, patched)[way](draw, elf)
    else:
        size, count = draw.choice(((2, 18), (4, 26)))
        elf = put(elf, 16 + draw.randrange(count) * size, size, draw)
    return data[:48] + forge.digest(elf) + data[80:-32], elf


def keys_of(draw):
    """Returns commands of a session."""
    lines = []
    for _ in range(draw.randrange(12)):
        line = draw.choice(("step", "step 3", "step 1000000", "go", "regs", "where", "hart %d",
                            "break %x", "unbreak %x", "word %x", "quit", "", "?",
                            "x" * draw.choice((255, 256, 257))))
        number = draw.choice((draw.randrange(9),
                              0x10000 + 4 * draw.randrange(256), draw.getrandbits(32)))
        lines.append(line % number if "%" in line else line)
    return "\n".join(lines).encode() + draw.choice((b"\n", b""))


# ---- what each file is given to


def headers_of(data):
    """Returns the Headers of a log, as far as its records are found."""
    records = forge.split(data[92:-32]) if data[8] == 1 else records_of(forge.parts2(data)[1])
    return [entry for entry in records if entry[0] == 1]


def interval_words(draw, headers):
    """Returns the words for one of a log's intervals, or for one that isn't there, and a count of
    it."""
    hart, interval, count = (draw.choice(NUMBERS) for _ in range(3))
    if headers and draw.random() < 0.9:
        entry = draw.choice(headers)
        hart = entry[1]
        interval, count = struct.unpack_from("<QQ", entry, 2)
        count += draw.choice((0, 1, 5, 20, 100))
    return str(hart), str(interval), str(count)


def readers(draw, calls, headers):
    """Returns the words of each command but `check`, `convert` and `salvage` that reads a log."""
    calls.write("BOOK", bytes(draw.choice((0, 0, 0, 1, draw.randrange(9)))
                              for _ in range(draw.randrange(200))))
    names = calls.path("LOG"), calls.path("ELF")
    place = interval_words(draw, headers)
    most = draw.choice((1, 5, 1_000, 1_000_000))
    audit = ("audit", *names, calls.path("BOOK"))
    with_program = [("replay", *names, *place[:2]), ("joint", *names), ("debug", *names),
                    ("races", *names, str(most))]
    return [("list", names[0]), *with_program, ("slice", *names, *place), audit]


def verdict_of(say, data):
    """Returns what a log says by a reading of the format, and the status and the line."""
    try:
        said = say(data)
        return said, 0, verdict.line_of(said) + "\n"
    except verdict.Refused as refusal:
        return None, 19 if str(refusal) == "nothing left" else 7, f"bugnet: {refusal}\n"


def give_saver(calls, command, verdict_given):
    """Gives the log to a command that saves one, which has to be the file of what the log says."""
    said, wanted, line = verdict_given
    calls.write("NEW", b"old")
    status, told = calls.run(command, calls.path("LOG"), calls.path("NEW"), out=calls.path("out"))
    told = calls.read("out").decode() if status == 0 else told
    if (status, told) != (wanted, line):
        calls.tell((command,), f"{status} {told!r} for {wanted} {line!r}")
    if calls.read("NEW") != (b"old" if said is None else verdict.saved_of(said)):
        calls.tell((command,), "another file is saved")


def give_log(draw, calls, data, elf):
    calls.write("LOG", data)
    calls.write("ELF", elf)
    calls.write("keys", keys_of(draw))
    given = verdict_of(verdict.said_by, data)
    said, wanted, expected = given
    status, line = calls.run("check", calls.path("LOG"), out=calls.path("out"))
    if status == 0:
        line = calls.read("out").decode()
    if (status, line) != (wanted, expected):
        calls.tell(("check",), f"{status} {line!r} for {wanted} {expected!r}")
    headers = [] if said is None else [entry for entry in said[3] if entry[0] == 1]
    words = readers(draw, calls, headers)
    if status == 0:
        for each in words:
            calls.run(*each)
    elif calls.run(*draw.choice(words)) != (wanted, expected):
        calls.tell(("check",), "another command says otherwise")
    if status == 0 or draw.random() < 0.2:
        give_saver(calls, "convert", given)
    if data[8:12] == b"\2\0\0\0" or draw.random() < 0.1:
        give_saver(calls, "salvage", verdict_of(verdict.salvaged, data))


def give_elf(draw, calls, signed, elf):
    data = forge.sealed(signed)
    data = version2(data) if draw.random() < 0.5 else data
    calls.write("LOG", data)
    calls.write("ELF", elf)
    calls.write("keys", keys_of(draw))
    for words in readers(draw, calls, headers_of(data))[1:]:
        calls.run(*words)
    limits = ("--limit", "2000", "--interval", "500", "--harts", str(draw.randrange(1, 9)))
    names = calls.path("ELF"), calls.path("LOG2"), calls.path("BOOK2")
    calls.run("record", "--seed", str(draw.randrange(9)), *limits, *names)


def give_small(calls):
    """Gives all prefixes and flipped bits of a small log and of a small program file."""
    draw = random.Random(0)
    elf = forge.program(0x00500513, 0x05D00893, 0x73)
    data = forge.log(elf, forge.begun(0) + forge.end(0, 3, forge.EXIT, 5))
    for length in range(len(data)):
        give_log(draw, calls, data[:length], elf)
    for bit in range(8 * len(data)):
        changed = with_flip(data, bit)
        give_log(draw, calls, changed, elf)
        if bit < 8 * (len(data) - 32):
            give_log(draw, calls, forge.sealed(changed[:-32]), elf)
    give_small2(calls, draw, version2(data), elf)
    for changed in [*(with_flip(elf, bit) for bit in range(8 * len(elf))),
                    *(elf[:length] for length in range(len(elf)))]:
        give_elf(draw, calls, data[:48] + forge.digest(changed) + data[80:-32], changed)


def give_small2(calls, draw, data, elf):
    """Gives all prefixes and flipped bits of a small log in version 2, as they are and sealed
    again."""
    signed, blocks = forge.parts2(data)
    for length in range(len(data)):
        give_log(draw, calls, data[:length], elf)
    for bit in range(8 * len(data)):
        changed = with_flip(data, bit)
        give_log(draw, calls, changed, elf)
        if bit < 8 * len(signed):
            give_log(draw, calls, sealed2(changed[:104], blocks), elf)
        elif 8 * 136 <= bit < 8 * (len(data) - 32):
            body = changed[136:-32]
            give_log(draw, calls, data[:136] + body + forge.digest(data[104:136] + body), elf)


# ---- all of them


def work(share):
    first, end, seed = share
    folder = f"/dev/shm/fuzz-{os.getpid()}"
    pool = recordings(folder)
    calls = Cases(folder) if CASES else Calls(folder)
    if first == 0:
        give_small(calls)
    for place in range(first, end):
        draw = random.Random(seed << 40 | place)
        if draw.random() < 0.85:
            give_log(draw, calls, *draw.choice((mutated_log, mutated_log2))(draw, pool))
        else:
            give_elf(draw, calls, *mutated_elf(draw, pool))
    os.system(f"rm -rf {folder}")
    return end - first, *calls.numbers()


def told(counted):
    """Prints what came of all calls."""
    _, statuses, kinds, longest, largest, wrong = counted
    for command in STATUSES:
        each = [f"{status}: {count}"
                for (word, status), count in sorted(statuses.items()) if word == command]
        print(f"{command}: {', '.join(each)}")
    for (status, kind), count in sorted(kinds.items()):
        print(f"  {status} {kind}: {count}")
    print(f"the longest took {longest[0]:.2f} seconds: {longest[1]}")
    print(f"the largest took {largest[0]} bytes: {largest[1]}")
    print(f"{sum(statuses.values())} calls, {len(wrong)} answered otherwise")
    print("".join(f"{line}\n" for line in wrong[:50]), end="")


def merged(results, until):
    """Returns what came of all files whose results come before a moment."""
    files = 0
    statuses = collections.Counter()
    kinds = collections.Counter()
    longest = (0.0, "")
    largest = (0, "")
    wrong = []
    for one in results:
        files += one[0]
        statuses += one[1]
        kinds += one[2]
        longest = max(longest, one[3])
        largest = max(largest, one[4])
        wrong += one[5]
        print(f"{files} files, {sum(statuses.values())} calls, {len(wrong)} answered otherwise",
              file=sys.stderr, flush=True)
        if time.time() > until:
            break
    return files, statuses, kinds, longest, largest, wrong


def main(words):
    count, seed, processes, seconds = map(int,
                                          [*words, *("10000", "1", "1", "1000000")[len(words) :]])
    step = 2000
    shares = [(first, min(first + step, count), seed) for first in range(0, max(count, 1), step)]
    with multiprocessing.Pool(processes) as pool:
        counted = merged(pool.imap_unordered(work, shares), time.time() + seconds)
    print(f"{counted[0]} files of seed {seed}, and the small ones")
    told(counted)
    sys.exit(1 if counted[5] else 0)


if __name__ == "__main__":
    main(sys.argv[1:])
