"""zelkuma export --core: the registers are those of `debug`, the memory is that of the rows, and
gdb and readelf read it."""
import itertools
import random
import re
import shutil
import struct
import subprocess

import case
import common
from recordings import DATA, T0, T1, addi, elf_of, lui, store
from reference import Reference

from companion.questions import export
from companion.questions.core import is_taken

GDB = "gdb-multiarch"
READELF = "riscv64-unknown-elf-readelf"


class CoreFile:
    """states   {hart: x0 to x31 and the pc}, in the order of its notes; signals {hart: its signal}
    pieces   {address: bytes}"""

    def __init__(self, data):
        assert data[:7] == b"\x7fELF\1\1\1" and struct.unpack_from("<HH", data,
                                                                   16) == (4, 243), data[:20]
        first, = struct.unpack_from("<I", data, 28)
        count, = struct.unpack_from("<H", data, 44)
        self.states = {}
        self.signals = {}
        self.pieces = {}
        for at in range(first, first + 32 * count, 32):
            kind, offset, address, _, in_file, in_memory, _, _ = struct.unpack_from("<8I", data, at)
            assert offset + in_file <= len(data)
            if kind == 4:
                assert (offset, data[52:72]) == (52,
                                                 struct.pack("<III", 8, 0, 0x5a4b) + b"zelkuma\0")
                for note in range(offset + 20, offset + in_file, 224):
                    assert struct.unpack_from("<III", data, note) == (5, 204, 1)
                    self.take(data[note + 20:note + 224])
            else:
                assert in_file == in_memory
                self.pieces[address] = data[offset:offset + in_file]

    def take(self, note):
        thread, = struct.unpack_from("<I", note, 24)
        pc, *values = struct.unpack_from("<32I", note, 72)
        self.states[thread - 1] = [0, *values, pc]
        self.signals[thread - 1], = struct.unpack_from("<h", note, 12)

    def word(self, address):
        for begin, body in self.pieces.items():
            if begin <= address < begin + len(body):
                return body[address - begin:address - begin + 4]
        return None


class CoreTest(case.Case):
    def core(self, log, elf, *words):
        """A core file, and what is said of it."""
        file = common.path("a.core")
        status, said, err = common.companion("export", log, elf, "--core", file, *words)
        self.assertEqual(status, 0, err)
        self.assertIn(f" of memory to {file}\n", said)
        return CoreFile(common.content(file)), err

    def same(self, reference, found, counts):
        """States of harts and words of memory are those of the reference at these counts, and no
        more."""
        self.assertEqual(found.states,
                         {hart: reference.states[hart, count] for hart, count in counts.items()})
        touched = sorted({access[0] & ~3 for row in reference.rows
                          for access in (row.load, row.store) if access})
        filled = [address & ~3 for _, address, _ in reference.fills]
        borders = [0, 4092, 4096, reference.memory - 4]
        borders += [at & ~3 for part in reference.segments
                    for at in (part[0], part[0] + len(part[1]))]
        for address in random.Random(1).sample(touched,
                                               min(40, len(touched))) + filled[:9] + borders:
            self.assertEqual(found.word(address), reference.word(counts, address), f"{address:08x}")

    def counts_before(self, reference, hart, count):
        """{hart: its count} before a row, in the order of `joint`; of harts whose beginning the log
        has."""
        counts = {each: 0 for each in reference.harts if (each, 0) in reference.states}
        for row in reference.rows:
            if (row.hart, row.count) == (hart, count):
                break
            counts[row.hart] = row.count + 1
        return counts

    def ends(self, reference):
        return {hart: max(count for one, count in reference.states if one == hart)
                for hart in reference.harts}

    def test_several_harts(self):
        """At the end, and before the fault and 12 rows by chance, of which each hart stands
        somewhere else."""
        log = self.record("filters", "--seed", "10", "--harts", "4")
        elf = self.elf("filters")
        reference = Reference(log, elf)
        found, err = self.core(log, elf)
        self.assertEqual((err, list(found.states)[0]), ("", 2))
        self.assertEqual(found.signals, dict.fromkeys(range(4), 11))
        self.same(reference, found, self.ends(reference))
        for row in random.Random(2).sample(reference.rows, 12) + [reference.by_count[2, 444],
                                                                  reference.rows[0]]:
            with self.subTest(row.text):
                found, err = self.core(log, elf, "--row", f"{row.hart}:{row.count}")
                self.assertEqual((err, list(found.states)[0]), ("", row.hart))
                self.assertEqual(found.signals[row.hart], 11 if row.fault else 0)
                self.same(reference, found, self.counts_before(reference, row.hart, row.count))

    def test_ends_at_the_limit(self):
        """No row tells the address behind the last one. Each kind of instruction comes last once,
        branches taken and not."""
        seen = set()
        for name, limit in (("heap", 200), ("word_count", 150)):
            elf = self.elf(name)
            reference = Reference(self.record(name, "--seed", "1", "--limit", str(limit)), elf)
            kinds = {(row.name, after.pc == row.pc + 4): after.count
                     for row, after in zip(reference.rows, reference.rows[1:])}
            for kind, count in kinds.items():
                found, _ = self.core(common.record("limit", elf, "--seed", "1",
                                                   "--limit", str(count)), elf)
                self.assertEqual(found.states, {0: reference.states[0, count]}, kind)
            seen.update(kinds)
        self.assertLessEqual({("jal", False), ("jalr", False), ("bne", True), ("bne", False),
                              ("beq", True), ("beq", False), ("bge", False), ("blt", False),
                              ("bltu", True), ("ecall", True)}, seen)

    def test_comparisons(self):
        """All six, of words that have another order with a sign than without."""
        words = 0, 1, 0x7fffffff, 0x80000000, 0xffffffff
        for one, other in itertools.product(words, words):
            signed, its = struct.unpack("<ii", struct.pack("<II", one, other))
            taken = {0: one == other, 1: one != other, 4: signed < its, 5: signed >= its,
                     6: one < other, 7: one >= other}
            self.assertEqual({kind: is_taken(kind, one, other) for kind in taken}, taken)

    def test_a_word_that_is_stored_in_bytes(self):
        """Its latest access tells it, also by an address that another came behind."""
        code = [lui(8, DATA), addi(T0, 0, 1), addi(T1, 0, 2), store(T0, 8, 0, kind=0),
                store(T1, 8, 1, kind=0), store(T1, 8, 0, kind=0)]
        elf = common.written(common.path("bytes.elf"), elf_of(code))
        found, _ = self.core(common.record("bytes", elf, "--seed", "1"), elf)
        self.assertEqual(found.word(DATA), b"\2\2\0\0")

    def test_a_log_that_lost_its_beginning(self):
        """What isn't known is left out, and said."""
        elf = self.elf("wild_store")
        log = self.record("wild_store", "--seed", "1", "--log-size", "16384", "--interval", "500",
                          "--sets", "1", "--ways", "1")
        reference = Reference(log, elf)
        self.assertGreater(reference.dropped, 0)
        found, err = self.core(log, elf)
        self.assertIn(" are known: for others gdb shows an error, or what ELF has there", err)
        self.same(reference, found, self.ends(reference))

    def test_what_a_read_call_filled(self):
        """It isn't known up to the rows that load it."""
        given = common.written(common.path("words.txt"), "one two two three three three\n" * 20)
        log = self.record("word_count", "--input", given)
        elf = self.elf("word_count")
        reference = Reference(log, elf)
        self.assertTrue(reference.fills)
        for (hart, count), _, _ in reference.fills:
            self.same(reference,
                      self.core(log, elf, "--row", f"{hart}:{count + 1}")[0], {hart: count + 1})

    def test_gdb_and_readelf(self):
        log = self.record("filters", "--seed", "10", "--harts", "4")
        elf = self.names("filters")
        self.core(log, self.elf("filters"))
        file = common.path("a.core")
        if not shutil.which(READELF) or not shutil.which(GDB):
            self.skipTest(f"{READELF} or {GDB} isn't installed")
        notes = subprocess.run([READELF, "-n", file], stdout=subprocess.PIPE,
                               stderr=subprocess.STDOUT, check=True).stdout.decode()
        self.assertEqual(notes.count("NT_PRSTATUS (prstatus structure)"), 4, notes)
        self.assertNotIn("arning", notes)
        said = subprocess.run([GDB, "-nx", "-q", "-batch", "-ex", "thread apply all bt", elf, file],
                              stdout=subprocess.PIPE, stderr=subprocess.STDOUT,
                              check=True).stdout.decode()
        self.assertRegex(said, r"Program terminated with signal SIGSEGV")
        crashed = said[said.index("Thread 1 (LWP 3)"):]
        self.assertEqual(re.findall(r"^#\d+ .*?(?:in )?(\w+) \(", crashed, re.M),
                         ["apply", "samples", "other_harts", "_start"])

    def test_refusals(self):
        log = self.record("heap", "--seed", "1")
        elf = self.elf("heap")
        file = common.path("none.core")
        for words, status in ((["--row", "0:1"], 2), (["--lcov", file, "--row", "0:1"], 2),
                              (["--core", file, "--row", "1"], 2),
                              (["--core", file, "--row", "0:999999"], 14),
                              (["--core", file, "--row", "7:0"], 14), (["--core", elf], 2)):
            self.refuses_here(status, export, log, elf, *words)
        self.core(log, elf)
        # A core file of ours is overwritten, and nothing that isn't one
        self.core(log, elf)
        whole = common.content(common.path("a.core"))
        others = [whole[:16] + b"\2" + whole[17:], whole[:64] + b"another" + whole[71:],
                  whole[:-1], whole + b"\n", whole[:80]]
        for other in others:
            self.refuses_here(2, export, log, elf, "--core",
                              common.written(common.path("other"), other))
            self.assertEqual(common.content(common.path("other")), other)
