"""zelkuma history: each store to a variable is told once, with the values that the rows have, and
its caller."""
import json
import os
import re
import shutil
import subprocess
import unittest
from typing import Any, Dict, List
from unittest import mock

import case
import common

from companion.call.errors import CompanionError
from companion.questions import debugger, history, variables
from companion.questions.types import Leaf, bounded_type, leaves, value_text, words_type
from companion.recording.elf import Elf

WIDTHS = {"sb": 1, "sh": 2}
LINE = re.compile(r"^  (\d+):(\d+) +(\S.*)$", re.M)
NO_GDB = {"ZELKUMA_GDB": "/nowhere/gdb"}
STRIP = "riscv64-unknown-elf-strip"


def stores_of(log, elf, first, size):
    """(hart, count, the word after it) of each store to some bytes, read line by line."""
    found = []
    for line in common.output("joint", log, elf).decode().split("\n"):
        store = re.match(r"(\d+) (\d+) \w+ \w+ (\S+) .*\| store (\w+)=(\w+)$", line)
        if store:
            address = int(store[4], 16)
            if address < first + size and first < address + WIDTHS.get(store[3], 4):
                found.append((store[1], store[2], store[5]))
    return found


def told(text):
    return [found[:2] for found in LINE.findall(text)]


class HistoryTest(case.Case):
    def test_each_store_is_told_with_its_values(self):
        log = self.record("heap", "--seed", "1")
        elf = self.elf("heap")
        rows = stores_of(log, elf, 0x11b60, 4)
        said = self.says("history", log, elf, "00011b60")
        self.assertEqual(told(said), [row[:2] for row in rows])
        values = re.findall(r"(\w{8}) -> (\w{8})", said)
        self.assertEqual([new for _, new in values], [row[2] for row in rows])
        self.assertEqual([old for old, _ in values], ["00000000"] + [row[2] for row in rows[:-1]])
        self.assertEqual(len(rows), 9)

    def test_the_callers_are_those_of_the_source(self):
        log, elf = self.crash("use_after_free")
        said = self.says("history", log, elf, "00019458")
        self.assertEqual(said.split("\n")[2:4], [
            "  0:154   00000000 -> 00011478  main use_after_free.c:56  <  _start start.S:16",
            "  0:2014  00011478 -> 00000000  close_session use_after_free.c:32  <  main "
            "use_after_free.c:62  <  _start start.S:16"])

    def test_stores_of_all_harts_in_the_order_of_joint(self):
        log = self.record("filters", "--seed", "10", "--harts", "4")
        elf = self.elf("filters")
        rows = stores_of(log, elf, 0x11450, 16)
        said = self.says("history", log, elf, "00011450:16", "--last", "1000")
        self.assertEqual(told(said), [row[:2] for row in rows])
        self.assertEqual(len({row[0] for row in rows}), 4)

    def test_bytes_beside_a_variable_are_none_of_it(self):
        log = self.record("heap", "--seed", "1")
        elf = self.elf("heap")
        for size in (1, 2, 3):
            rows = stores_of(log, elf, 0x11b61, size)
            self.assertEqual(told(self.says("history", log, elf, f"00011b61:{size}")),
                             [row[:2] for row in rows])

    def test_only_changes_and_only_the_last(self):
        log = self.record("heap", "--seed", "1")
        elf = self.elf("heap")
        rows = stores_of(log, elf, 0x11b60, 4)
        changes = [row[:2] for before, row in zip([("", "", "00000000")] + rows, rows)
                   if before[2] != row[2]]
        self.assertLess(len(changes), len(rows))
        self.assertEqual(told(self.says("history", log, elf, "00011b60", "--changes")), changes)
        said = self.says("history", log, elf, "00011b60", "--last", "2")
        self.assertEqual(told(said), [row[:2] for row in rows[-2:]])
        self.assertIn("9 stores; the last 2 are told (--last N)\n", said)

    def test_a_caller_is_found_however_far_back_its_call_is(self):
        """Chunks of a few rows each, and a loop of many calls between: the frames are followed, not
        looked for."""
        from companion.questions.history import VariableHistory, stores_report
        from companion.questions.reading import asked_of, read
        from companion.questions.variables import variable_of
        log = self.record("heap", "--seed", "1")
        elf = self.elf("heap")
        said = []
        for rows in (1, 10, 1 << 20):
            with asked_of(log, elf, {}) as asked:
                stacks = asked.stacks()
                found = VariableHistory(asked, stacks, variable_of(asked.named, "00011b60"),
                                        100, False)
                lines = b"".join(asked.chunks())[1:].split(b"\n")
                read((b"\n" + b"\n".join(lines[at:at + rows]) for at in range(0, len(lines), rows)),
                     stacks, found)
                said.append(stores_report(found))
        self.assertEqual(said[0], said[2])
        self.assertEqual(said[1], said[2])
        self.assertIn("_start", said[0][3])

    def test_what_a_read_call_fills_is_unknown_until_a_row_tells_it(self):
        log = common.path("words.log")
        common.written(common.path("words.input"), b"a bc def\n" * 600)
        subprocess.run([common.PROGRAM, "record", "--format", "2", "--seed", "1", "--input",
                        common.path("words.input"), self.elf("word_count"), log,
                        common.path("words.book")], stdout=subprocess.DEVNULL,
                       stderr=subprocess.DEVNULL, check=True)
        calls = [line.split() for line in common.output("joint", log, self.elf("word_count"))
                 .decode().split("\n") if re.search(r"ecall \| a0=0000(1000|0518)$", line)]
        said = self.says("history", log, self.elf("word_count"), "000112a0")
        self.assertEqual(told(said), [tuple(call[:2]) for call in calls])
        self.assertIn("00000000 -> 4,096 bytes of a read call, here bytes 0 to 3 of the input ",
                      said)
        self.assertIn(f"{int.from_bytes(b'a bc', 'little'):08x} -> 1,304 bytes of a read call, "
                      "here bytes 4,096 to 4,099 of the input ", said)
        said = self.says("history", log, self.elf("word_count"), "000112a1:1", "--rows", "20000")
        self.assertIn(" 20 -> 1,304 bytes of a read call, here byte 4,097 of the input ", said)
        self.assertIn("Only the last 78,265 rows were read", said)

    def test_what_was_before_a_log_that_lost_records_is_unknown(self):
        log = self.record("wild_store", "--seed", "1", "--log-size", "16384", "--interval", "500",
                          "--sets", "1", "--ways", "1", "--line", "1")
        said = self.says("history", log, self.elf("wild_store"), "000115e4")
        self.assertIn("  before the first row: unknown\n", said)
        self.assertRegex(said, r"\n  The log gave up [\d,]+ records before its first row\.\n\Z")

    def test_what_lost_rows_may_have_stored_is_unknown(self):
        """Until each hart has a row. An atomic tells by itself what was there."""
        options = "--harts 4 --seed 3 --limit 20000 --interval 3000 --log-size 16384"
        log = self.record("counter", *options.split())
        elf = self.elf("counter")
        rows = common.rows(log, elf)
        begun = max([row[0] for row in rows].index(str(hart)) for hart in range(4))
        places = {(int(row[0]), int(row[1])): at for at, row in enumerate(rows)}
        early = set()
        loaded = set()
        for word in ("000112c4", "000112c8"):
            for entry in json.loads(self.says("history", log, elf, word, "--json",
                                              "--last", "10000"))["entries"]:
                atomic = re.search(r"load \w+=(\w+) \| store", entry["row"])
                if atomic:
                    self.assertEqual(entry["old"], atomic[1], entry)
                    loaded.add(atomic[1])
                elif places[entry["hart"], entry["count"]] < begun:
                    self.assertEqual(entry["old"], "unknown", entry)
                    early.add(entry["count"])
                else:
                    self.assertNotEqual(entry["old"], "unknown", entry)
        self.assertTrue(len(early) > 5 and len(loaded) > 1, (early, loaded))

    def test_rows_that_are_not_read_are_said(self):
        log = self.record("wild_store", "--seed", "1", "--sets", "1", "--ways", "1", "--line",
                          "1", "--interval", "200")
        elf = self.elf("wild_store")
        said = self.says("history", log, elf, "000115e4", "--rows", "500")
        self.assertRegex(said,
                         r"\n  Only the last [\d,]+ rows were read; --rows N reads more\.\n\Z")
        every = told(self.says("history", log, elf, "000115e4"))
        some = told(said)
        self.assertEqual(some, every[len(every) - len(some):])

    def test_json(self):
        log, elf = self.crash("use_after_free")
        said = json.loads(self.says("history", log, elf, "00019458", "--json"))
        self.assertEqual((said["answer"], said["stores"], said["size"], said["left_out"]),
                         ("history", 2, 4, []))
        entry = said["entries"][0]
        self.assertEqual((entry["hart"], entry["count"], entry["old"], entry["new"]),
                         (0, 154, "00000000", "00011478"))
        self.assertEqual(entry["place"]["line"], 56)

    def test_a_static_variable_of_a_function_is_named(self):
        log, elf = self.crash("wrong_parcels")
        said = self.refuses_here(4, history, log, elf, "parcel")
        name = re.search(r"a function has it: (\w+::parcel)", said)[1]
        self.assertIn(f"HISTORY of {name} ", self.says("history", log, elf, name))

    def test_refusals(self):
        log, elf = self.crash("use_after_free")
        self.assertIn("has no sesions; near it: sessions",
                      self.refuses_here(4, history, log, elf, "sesions"))
        self.assertIn("has no sesions[2].user; near it: sessions",
                      self.refuses_here(4, history, log, elf, "sesions[2].user"))
        self.assertIn("main is a function", self.refuses_here(2, history, log, elf, "main"))
        self.assertIn("it is local in main, open_session, serve, and has no fixed place",
                      self.refuses_here(4, history, log, elf, "session"))
        self.refuses_here(2, history, log, elf, "00011478:0")
        self.refuses_here(2, history, log, elf, "00011478", "--last", "0")
        self.refuses_here(2, history, log, elf)
        self.refuses(8, "history", log, self.elf("counter"), "00011478")
        stripped = self.record("tills", "--seed", "1", "--harts", "2")
        self.assertIn("tills.elf is stripped",
                      self.refuses_here(4, history, stripped, self.elf("tills"), "till"))


class NamesTest(case.Case):
    def setUp(self):
        if not debugger.gdb_path():
            self.skipTest("no gdb is installed")

    def test_variables_and_their_parts(self):
        log = self.record("heap", "--seed", "1")
        elf = self.elf("heap")
        said = self.says("history", log, elf, "orders[3]", "--last", "3")
        self.assertIn("HISTORY of orders[3] (struct order *, 4 bytes at 000114a4): "
                      "9 stores; the last 3", said)
        self.assertEqual(told(said), [row[:2] for row in stores_of(log, elf, 0x114a4, 4)[-3:]])
        self.assertIn("00000000 -> 00011864 <arena+652>", said)
        said = self.says("history", log, elf, "free_blocks", "--last", "2")
        self.assertIn("  0:62338  free_blocks[4]  ", said)

    def test_a_function_of_gdb_is_never_called(self):
        log = self.record("heap", "--seed", "1")
        elf = self.elf("heap")
        made = common.path("made")
        for name in (f'$_shell("touch {made}")', "orders[$_exitcode]",
                     "end+sizeof(int)", "orders[3];shell id"):
            self.refuses_here(4, history, log, elf, name)
        self.assertFalse(os.path.exists(made))

    def test_an_elf_file_gives_gdb_no_commands(self):
        """A file beside the ELF that gdb would load by itself isn't."""
        elf = common.path("loads.elf")
        with open(self.elf("heap"), "rb") as file, open(elf, "wb") as copy:
            copy.write(file.read())
        made = common.path("loaded")
        common.written(elf + "-gdb.py", f"open({made!r}, 'w')\n")
        log = self.record("heap", "--seed", "1")
        self.assertIn("struct order *", self.says("history", log, elf, "orders[3]"))
        self.assertFalse(os.path.exists(made))

    def test_without_gdb_symbols_are_known_and_it_is_said(self):
        log = self.record("heap", "--seed", "1")
        elf = self.elf("heap")
        status, said, err = common.companion("history", log, elf, "orders", environment=NO_GDB)
        self.assertEqual((status, err),
                         (0, "zelkuma: no gdb is here; Debian has it in gdb-multiarch; "
                          "names are those of symbols, without types\n"))
        self.assertIn("HISTORY of orders (256 bytes at 00011498): 400 stores; the last 100", said)
        self.assertEqual(told(said), [row[:2] for row in stores_of(log, elf, 0x11498, 256)[-100:]])

    def test_a_symbol_without_dwarf_has_its_own_size(self):
        """gdb knows its address then, and says that it has no bytes."""
        if not shutil.which(STRIP):
            self.skipTest(f"{STRIP} isn't here")
        log = self.record("heap", "--seed", "1")
        elf = self.elf("heap")
        plain = common.path("plain.elf")
        subprocess.run([STRIP, "--strip-debug", "-o", plain, elf], check=True)
        rows = stores_of(log, elf, 0x11498, 256)
        for environment in ({}, NO_GDB):
            status, said, _ = common.companion("history", log, elf, "orders", "--names", plain,
                                               "--last", "1000", environment=environment)
            self.assertEqual((status, told(said)), (0, [row[:2] for row in rows]), said)
            self.assertIn("HISTORY of orders (256 bytes at 00011498): 400 stores", said)

    def test_what_dwarf_says_is_within_the_symbol(self):
        """Whatever an ELF file says takes no more memory than its symbol does."""
        elf = Elf(self.elf("heap"))
        for size in (1 << 31, 300, 0):
            said = {"address": 0x11498, "type": {"kind": "array", "name": "char [..]", "size": size,
                                                 "count": size, "first": 0, "of": CHAR}}
            with mock.patch.object(variables, "ask_gdb", lambda *_, said=said, **__: said):
                found = variables.variable_of(elf, "orders")
                self.assertEqual((found.address, found.size, found.type),
                                 (0x11498, 256, words_type(256)), size)
                with self.assertRaises(CompanionError) as refused:
                    variables.variable_of(elf, "orders[1]")
                self.assertEqual(refused.exception.status, 6)
        with self.assertRaises(CompanionError):
            variables.variable_of(elf, f"orders+0:{variables.MOST_BYTES + 1}")


INT: Dict[str, Any] = {"kind": "int", "name": "int", "size": 4, "signed": True}
CHAR: Dict[str, Any] = {"kind": "int", "name": "unsigned char", "size": 1, "signed": False}
PAIR: Dict[str, Any] = {"kind": "fields", "name": "struct pair", "size": 8, "fields": [
    {"name": "low", "at": 0, "type": INT, "bit": 0, "bits": 5},
    {"name": "high", "at": 0, "type": INT, "bit": 5, "bits": 3},
    {"name": "letters", "at": 4,
     "type": {"kind": "array", "name": "", "size": 4, "count": 4, "first": 0, "of": CHAR}}]}


class TypesTest(unittest.TestCase):
    def values(self, kind, data, **more):
        leaf = Leaf("", 0, {"kind": kind, "name": "", "size": len(data), **more})
        return value_text(leaf, data, lambda address: "table" if address == 0x11450 else "")

    def test_parts(self):
        def paths(of, first, end):
            return [leaf.path for leaf in leaves(of, first, end)]
        self.assertEqual(paths(PAIR, 0, 1), [".low", ".high"])
        self.assertEqual(paths(PAIR, 5, 7), [".letters[1]", ".letters[2]"])
        many = {"kind": "array", "name": "", "size": 80, "count": 10, "first": 0, "of": PAIR}
        self.assertEqual(paths(many, 8 * 9 + 7, 80), ["[9].letters[3]"])
        self.assertEqual(paths(words_type(11), 9, 10), ["+8"])
        self.assertEqual(list(leaves(many, 80, 90)), [])

    def test_parts_outside_of_their_whole_are_bytes(self):
        many: Dict[str, Any] = {"kind": "array", "name": "", "size": 80, "count": 10,
                                "first": 0, "of": PAIR}
        self.assertEqual((bounded_type(PAIR), bounded_type(many)), (PAIR, many))
        before: Dict[str, Any] = {"name": "a", "at": -4, "type": INT}
        behind: Dict[str, Any] = {"name": "a", "at": 7, "type": INT, "bit": 7, "bits": 2}
        wrongs: List[Dict[str, Any]] = [{**many, "count": 1 << 31}, {**many, "count": -1},
                                        {**PAIR, "size": 7}, {**PAIR, "fields": [before]},
                                        {**PAIR, "fields": [behind]}]
        for wrong in wrongs:
            self.assertEqual(bounded_type(wrong), words_type(wrong["size"]), wrong)
        inner: Dict[str, Any] = {"kind": "fields", "name": "", "size": 80,
                                 "fields": [{"name": "a", "at": 0, "type": {**many, "count": 11}}]}
        self.assertEqual(bounded_type(inner)["fields"][0]["type"], words_type(80))

    def test_values(self):
        self.assertEqual(self.values("int", b"\xff\xff\xff\xff", signed=True), "-1")
        self.assertEqual(self.values("int", b"\xff\xff\xff\xff", signed=False),
                         "4294967295 (ffffffff)")
        self.assertEqual(self.values("pointer", b"\x50\x14\x01\0"), "00011450 <table>")
        self.assertEqual(self.values("enum", b"\2", names={"2": "OPEN"}), "OPEN (2)")
        self.assertEqual(self.values("bool", b"\1"), "true")
        self.assertEqual(self.values("float", b"\0\0\x20\x40"), "2.5")
        self.assertEqual(self.values("bytes", b"\1\2\3\4"), "04030201")
        self.assertEqual(self.values("int", [1, None, 0, 0], signed=True), "unknown")
        low, high = leaves(PAIR, 0, 1)
        self.assertEqual([value_text(leaf, [0b101_11110], str) for leaf in (low, high)],
                         ["-2", "-3"])
