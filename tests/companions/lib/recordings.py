"""Small recordings for tests: of the examples, and of programs that are written here by their
words."""
import os
import struct
import subprocess
import sys
import tempfile

from common import EXAMPLES, PROGRAM

if not os.access(PROGRAM, os.X_OK):
    sys.exit(f"{sys.argv[0]}: {PROGRAM} is no program; ZELKUMA_PROGRAM names one")
CODE = 0x10000
DATA = 0x20000
DATA_SIZE = 4096
FIRST = CODE + 116  # where the code begins, after the headers

T0 = 5
T1 = 6
T2 = 7
A0 = 10
A1 = 11
A2 = 12
A7 = 17
EBREAK = 0x00100073
ECALL = 0x00000073
NO_INSTRUCTION = 0xffffffff


def immediate(opcode, kind, to, base, value):
    return (value & 0xfff) << 20 | base << 15 | kind << 12 | to << 7 | opcode


def addi(to, base, value):
    return immediate(0x13, 0, to, base, value)


def load(to, base, offset=0, kind=2):
    return immediate(0x03, kind, to, base, offset)


def store(value, base, offset=0, kind=2):
    return ((offset >> 5 & 127) << 25 | value << 20 | base << 15 | kind << 12
            | (offset & 31) << 7 | 0x23)


def atomic(kind, to, address, value=0):
    return kind << 27 | value << 20 | address << 15 | 2 << 12 | to << 7 | 0x2f


def lui(to, value):
    return value & 0xfffff000 | to << 7 | 0x37


def jump_to(base, offset=0):
    return immediate(0x67, 0, 0, base, offset)


def branch_unless_equal(one, other, offset):
    return ((offset >> 12 & 1) << 31 | (offset >> 5 & 63) << 25 | other << 20 | one << 15 | 1 << 12
            | (offset >> 1 & 15) << 8 | (offset >> 11 & 1) << 7 | 0x63)


EXIT = (addi(A7, 0, 93), ECALL)

# Each fault: gdb's number of its signal, and words whose last one faults.
SEGV = 11
ILL = 4
BUS = 10
TRAP = 5
FAULTS = {
    "Illegal": (ILL, [NO_INSTRUCTION]),
    "Breakpoint": (TRAP, [EBREAK]),
    "FetchOutside": (SEGV, [jump_to(0)]),
    "TargetMisaligned": (BUS, [lui(T0, FIRST), jump_to(T0, 2)]),
    "LoadOutside": (SEGV, [load(T1, 0)]),
    "LoadMisaligned": (BUS, [lui(T0, DATA), load(T1, T0, 1)]),
    "StoreOutside": (SEGV, [store(0, 0)]),
    "StoreMisaligned": (BUS, [lui(T0, DATA), store(0, T0, 2)]),
    "StoreReadOnly": (SEGV, [lui(T0, FIRST), store(0, T0, FIRST & 0xfff)]),
}


def pc_of(index):
    return FIRST + 4 * index


def elf_of(words, data=b""):
    """Returns an ELF with these words as read-only code, and a page of data that begins with these
    bytes."""
    size = 4 * len(words)
    ident = b"\x7fELF\x01\x01\x01" + bytes(9)
    header = struct.pack("<HHIIIIIHHHHHH", 2, 243, 1, FIRST, 52, 0, 0, 52, 32, 2, 0, 0, 0)
    code = struct.pack("<8I", 1, 116, FIRST, FIRST, size, size, 5, 4)
    memory = struct.pack("<8I", 1, 116 + size, DATA, DATA, len(data), DATA_SIZE, 6, 4)
    return ident + header + code + memory + struct.pack(f"<{len(words)}I", *words) + data


class Recordings:
    """A scratch folder with recordings; use it by `with`."""

    def __enter__(self):
        self._scratch = tempfile.TemporaryDirectory()
        self.folder = self._scratch.name
        self._count = 0
        return self

    def __exit__(self, *_):
        self._scratch.cleanup()

    def path(self, name):
        return os.path.join(self.folder, name)

    def write(self, name, data):
        with open(self.path(name), "wb") as file:
            file.write(data)
        return self.path(name)

    def record(self, elf, *options):
        """Records a program by seed 1 unless the options name another one; returns (LOG, ELF)."""
        self._count += 1
        log = self.path(f"{os.path.basename(elf)}.{self._count}.log")
        seed = [] if "--seed" in options else ["--seed", "1"]
        words = [PROGRAM, "record", *seed, *options, "--", elf, log, self.path("book")]
        done = subprocess.run(words, stdout=subprocess.DEVNULL, stderr=subprocess.PIPE, check=False)
        assert done.returncode in (0, 10, 11), done.stderr.decode()
        return log, elf

    def example(self, example, *options):
        return self.record(os.path.join(EXAMPLES, example + ".elf"), *options)

    def words(self, name, words, *options, data=b""):
        return self.record(self.write(name + ".elf", elf_of(words, data)), *options)
