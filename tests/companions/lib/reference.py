"""What `joint` and a `debug` session of its own say of a small log: the bridge has to say the
same."""
import re
import struct
import subprocess
from collections import namedtuple

from common import PROGRAM, content

SIZES = {"sb": 1, "lb": 1, "lbu": 1, "sh": 2, "lh": 2, "lhu": 2}

# An access is (address, word), or None.
Row = namedtuple("Row", "hart count pc name load store fault text")


def run(*words):
    return subprocess.run([PROGRAM, *words], stdout=subprocess.PIPE, check=True).stdout.decode()


def access(line, kind):
    found = re.search(rf"\| {kind} ([0-9a-f]{{8}})=([0-9a-f]{{8}})", line)
    return (int(found[1], 16), int(found[2], 16)) if found else None


def size(row):
    return SIZES.get(row.name, 4)


def row_of(line):
    words = line.split()
    return Row(int(words[0]), int(words[1]), int(words[2], 16), words[4], access(line, "load"),
               access(line, "store"), "| fault" in line, line)


class Reference:
    """rows       those of `joint`, in its order
    states     {(hart, count): x0 to x31 and the pc} before that instruction
    dropped    how many records the log has lost"""

    def __init__(self, log, elf):
        lines = run("joint", log, elf).splitlines()
        self.rows = [row_of(line) for line in lines if re.match(r"\d+ \d+ [0-9a-f]{8} ", line)]
        self.by_count = {(row.hart, row.count): row for row in self.rows}
        self.dropped = int(re.search(r"dropped (\d+)", run("check", log))[1])
        self.harts = sorted({int(line.split()[0]) for line in run("list", log).splitlines()})
        with open(log, "rb") as file:
            self.memory, = struct.unpack_from("<I", file.read(36), 32)
        self._load(content(elf))
        self.states = {}
        self._walk(log, elf)
        self.fills = [fill for row in self.rows for fill in self._fills_of(row)]

    def _load(self, data):
        """Takes the segments: (address, bytes, whether it is read-only)."""
        first, = struct.unpack_from("<I", data, 28)
        count, = struct.unpack_from("<H", data, 44)
        self.segments = []
        for i in range(count):
            kind, offset, address, _, in_file, in_memory, flags, _ = struct.unpack_from(
                "<8I", data, first + 32 * i)
            if kind == 1:
                self.segments.append(
                    (address, data[offset:offset + in_file].ljust(in_memory, b"\0"), not flags & 2))

    def _walk(self, log, elf):
        """Steps through the whole log in the order of `joint`, and keeps each state."""
        process = subprocess.Popen([PROGRAM, "debug", "--", log, elf], stdin=subprocess.PIPE,
                                   stdout=subprocess.PIPE, universal_newlines=True, bufsize=1)

        def ask(command):
            process.stdin.write(command + "\n?\n")
            process.stdin.flush()
            return list(iter(lambda: process.stdout.readline().rstrip("\n"), "?"))

        while True:
            positions = [line.split() for line in ask("where")]
            for words in positions:
                self._keep(ask, words)
            ready = [words[0] for words in positions if words[-1] == "ready"]
            if not ready:
                break
            ask("hart " + ready[0])
            ask("step")
        process.stdin.close()
        process.wait()

    def _keep(self, ask, words):
        if (words[1] == "done" or words[2] == "--------"
                or (int(words[0]), int(words[1])) in self.states):
            return
        ask("hart " + words[0])
        values = re.findall(r"=([0-9a-f]{8})", " ".join(ask("regs")))
        if len(values) == 32:
            self.states[int(words[0]), int(words[1])] = [int(value, 16)
                                                         for value in values + [words[2]]]

    def _fills_of(self, row):
        """What a `read` call filled: [((hart, count), address, length)]."""
        state = self.states.get((row.hart, row.count))
        result = re.search(r" ecall \| a0=([0-9a-f]{8})", row.text)
        if (not state or not result or state[17] != 63 or state[10]
                or not 0 < int(result[1], 16) <= 4096):
            return []
        return [((row.hart, row.count), state[11], int(result[1], 16))]

    def fills_at(self, row):
        """Returns the (address, length) that a row's `read` call filled, in a list."""
        return [fill[1:] for fill in self.fills if fill[0] == (row.hart, row.count)]

    def taken(self, counts):
        """Returns the rows before these counts, in the order of `joint`."""
        return [row for row in self.rows if row.count < counts.get(row.hart, 0) and not row.fault]

    def word(self, counts, address):
        """Returns the bytes of a word at these counts of the harts, or None if they aren't
        known."""
        for first, data, is_read_only in self.segments:
            if is_read_only and first <= address and address + 4 <= first + len(data):
                return data[address - first:address - first + 4]
        value = None
        touched = False
        for row in self.taken(counts):
            for at in (row.load, row.store):
                if at and at[0] & ~3 == address:
                    value = struct.pack("<I", at[1])
                    touched = True
            for first, length in self.fills_at(row):
                if first < address + 4 and address < first + length:
                    value = None
                    touched = True
        if touched or self.dropped or not 4096 <= address < self.memory:
            return value
        return bytes(self._first_byte(address + i) for i in range(4))

    def later_word(self, counts, address):
        """Returns the bytes that the first row after these counts loads, if it touches the word,
        else None."""
        if any(hart not in counts for hart in self.harts):
            return None  # the log has accesses of that hart only later
        for row in self.rows:
            if row.count < counts[row.hart] or row.fault:
                continue
            if row.load and row.load[0] & ~3 == address:
                return struct.pack("<I", row.load[1])
            if row.store and row.store[0] & ~3 == address:
                return None
            if any(first < address + 4 and address < first + length
                   for first, length in self.fills_at(row)):
                return None
        return None

    def _first_byte(self, address):
        return next((data[address - first] for first, data, _ in self.segments
                     if first <= address < first + len(data)), 0)


def agrees(client, reference):
    """The registers of all harts are those that `debug` tells by itself."""
    for hart, count in client.counts().items():
        expected = reference.states[hart, count]
        found = client.registers(hart)
        assert found == expected, (hart, count, found, expected)
        for number in (0, 2, 10, 32):
            assert client(f"p{number:x}") == found[number].to_bytes(4, "little").hex()
