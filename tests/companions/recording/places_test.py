"""Lines of addresses: what a hostile name or a tool that fails does to them. Nothing waits for
ever."""
import os
import struct

import case
import common

from companion.recording import places
from companion.recording.elf import Elf

NAME = "other_harts"
# At most as long as NAME
FORGED = ("two\nlines", "0xffffffff", "a\n0xfffffff", "a\nb.c:5\nc", "\n\n\n")
BOUND = 600                 # seconds after which a call hangs: others may have the processors


def forged(name):
    """A program that crashes in a function of such a name, by its symbols and by its lines: (log,
    elf)."""
    data = common.content(os.path.join(common.CRASHES, "race_ring.elf"))
    elf = common.written(common.path("forged_name.elf"),
                         data.replace(NAME.encode() + b"\0",
                                      name.encode().ljust(len(NAME) + 1, b"\0")))
    return common.record("forged_name", elf, "--harts", "2", "--seed", "3"), elf


def tool(name, script):
    """A program that is asked as addr2line is."""
    found = common.written(common.path(name), "#!/bin/sh\n" + script + "\n")
    os.chmod(found, 0o755)
    return found


class PlacesTest(case.Case):
    def test_a_name_that_is_an_end_or_a_mark_hangs_nothing(self):
        self.needs_addr2line()
        for name in FORGED:
            log, elf = forged(name)
            rows = common.output("joint", log, elf)
            for words, given in ((("why", log, elf), b""), (("view", log, elf), b""),
                                 (("bucket", log, elf), b""), (("race", log, elf), b""),
                                 (("names", elf), rows), (("names", elf, "none.c:5"), b"")):
                status, said, err = common.companion(*words, given=given, bound=BOUND)
                self.assertEqual((status, err.count("\n")),
                                 (4, 1) if words[-1] == "none.c:5" else (0, 0), (words, err))
                if words[0] == "why":
                    # One of them can't be told from two frames; what a file says of itself is its
                    # own matter.
                    self.assertIn("In a b.c:5" if "b.c" in name
                                  else "In " + name.replace("\n", "?"), said)

    def test_names_of_a_file_are_told_whatever_stands_beside_them(self):
        """A name with an end of a line costs its own line alone: the others have theirs."""
        self.needs_addr2line()
        data = common.content(os.path.join(common.CRASHES, "use_after_free.elf"))
        elf = common.written(common.path("newline.elf"),
                             data.replace(b"\0close_session\0", b"\0close\nsession\0"))
        for tools in [(name,) for name in common.TOOLS if name in common.present_tools()]:
            found = places.Places(Elf(elf), tools)
            self.addCleanup(found.close)
            self.assertEqual(found.named(0x10074), "_start start.S:13", tools)
            self.assertEqual(found.named(0x10388), "serve use_after_free.c:48", tools)
            self.assertTrue(found.tool)

    def test_a_tool_that_does_not_answer_is_ended(self):
        elf = Elf(os.path.join(common.CRASHES, "use_after_free.elf"))
        kept = places.PATIENCE
        places.PATIENCE = 0.5
        self.addCleanup(setattr, places, "PATIENCE", kept)
        for name, script in (("silent", "sleep 100"), ("endless", "yes 0x00010074"),
                             ("ended", "exit 1"), ("echoing", "exec cat"),
                             ("late",
                              "read a; read b; printf '0x%s\\n??\\n??:0\\n' $a $b; sleep 100")):
            found = places.Places(elf, (tool(name, script),))
            self.assertEqual(found.where(0x10388), "main", name)
            self.assertEqual(found.tool, "", name)
            self.assertEqual([" can't be asked: " in line for line in found.trouble()],
                             [True], name)
            found.close()

    def test_a_tool_is_started_by_a_question_and_ended(self):
        self.needs_addr2line()
        found = places.Places(Elf(os.path.join(common.CRASHES, "use_after_free.elf")))
        self.assertIsNone(found.addr2line.process)
        self.assertEqual(found.line(0x10388), "use_after_free.c:48")
        process = found.addr2line.process
        found.close()
        self.assertIsNotNone(process.returncode)

    def test_many_sections_over_one_table_are_read_once(self):
        """60,000 sections name one table of 400,000 entries without names: a bound on what is taken
        isn't enough."""
        data = bytearray(common.content(self.elf("tills")))
        table = len(data)
        sections = 60000
        data += bytes(16 * 400000)
        first = len(data)
        data += struct.pack("<10I", 0, 2, 0, 0, table, 16 * 400000, 0, 0, 4, 16) * sections
        struct.pack_into("<I", data, 32, first)
        struct.pack_into("<H", data, 48, sections)
        elf = common.written(common.path("sections.elf"), data)
        status, _, err = common.companion("names", elf, "main", bound=BOUND)
        self.assertEqual((status, "has no main" in err), (4, True), err)
