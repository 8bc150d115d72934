"""Bad input to companions: one line on err and a status, never a traceback; and nothing of a file
gets into a page or a terminal but as text."""
import hashlib
import os
import random
import subprocess

import case
import forged
from common import CRASHES, PROGRAM, companion, content, example, path, record, text_of, written
from companion.recording.elf import Elf
from companion.call.errors import CompanionError
from companion.recording.places import Places

HEAD = 92                                       # the bytes before the records in a log of version 1


def write(name, data):
    return written(path(name), data)


class BadInputTest(case.Case):
    def test_logs(self):
        log = record("read", example("tills"), "--seed", "1", "--harts", "2")
        elf = example("tills")
        stuck = forged.stuck(example("counter"))
        for word in ("why", "race", "view", "bucket", "output"):
            self.refused("%s: a log of another program" % word, 8, "program differs", word,
                         log, example("sort"))
            self.refused("%s: an empty file" % word, 7, "log: ", word, write("empty", b""), elf)
            self.refused("%s: no log" % word, 7, "log: BadMagic", word,
                         write("text", b"x" * 500), elf)
            self.refused("%s: no such file" % word, 4, "missing", word, path("nowhere"), elf)
            self.refused("%s: a folder" % word, 3, "store failed", word, os.path.dirname(elf), elf)
            self.refused("%s: a stuck log" % word, 15, "replay: Stuck", word,
                         stuck, example("counter"))
            self.refused("%s: no ELF" % word, 4, "missing", word, log, path("nowhere"))
            self.refused("%s: too few words" % word, 2, "the words are", word, log)
            self.refused("%s: an unknown option" % word, 2, "unknown", word, log, elf, "--what")
            self.refused("%s: --names that is no ELF" % word, 6, "no 32-bit", word, log,
                         elf, "--names", path("text"))
        hang = os.path.join(CRASHES, "hang.elf")
        none = path("none.log")
        subprocess.run([PROGRAM, "record", "--seed", "1", "--log-size", "16384",
                        "--interval", "10000000", "--sets", "1", "--ways", "1", "--line", "1",
                        "--limit", "60000", hang, none, path("none.book")],
                       stdout=subprocess.PIPE, stderr=subprocess.PIPE, check=False)
        self.refused("why: a log that kept no interval", 14, "passed its --log-size 16384",
                     "why", none, hang)
        self.refused("bucket: a log that kept no interval", 14, "holds no", "bucket", none, hang)
        self.refused("why: a row that isn't there", 14, "no row 0:99999999", "why", log,
                     elf, "--row", "0:99999999")
        self.refused("why: --row without a count", 2, "HART:COUNT", "why", log, elf, "--row", "7")
        self.refused("why: a page that can't be saved", 3, "no folder", "why", log, elf,
                     "--html", path("nowhere/page.html"))
        self.refused("names: no ELF", 6, "no 32-bit", "names", path("text"))
        self.refused("no such companion", 2, "no companion is called", "nothing")
        self.refused("no such program", 1, "is no program", "why", log, elf,
                     environment={"ZELKUMA_PROGRAM": path("nowhere")})

    def test_a_log_that_changes_once_it_is_checked(self):
        log, elf = self.crash("use_after_free")
        good = content(log)
        program = path("program.sh")
        other = path("other.log")
        write("program.sh", f"""#!/bin/bash
{PROGRAM} "$@"
status=$?
[ "$1" != check ] || cp {other} {path("changes.log")}
exit $status
""".encode())
        os.chmod(program, 0o755)
        forged = good[:12] + b"\xff" * 4 + good[16:]
        for data in (b"", good[:8], good[:60], good[:-1], good[:len(good) // 2], forged):
            write("other.log", data)
            for word in ("why", "bucket", "race", "view", "output"):
                write("changes.log", good)
                self.refused(f"{word}: of {len(good)} bytes {len(data)} are left", 7, "log: ", word,
                             path("changes.log"), elf,
                             environment={"ZELKUMA_PROGRAM": program}, bound=60)

    def test_hostile_elf(self):
        """Any bytes after the first few: refused, or read; never another error."""
        elf = self.crash("use_after_free")[1]
        good = content(elf)
        draw = random.Random(5)
        bad = []
        for _ in range(300):
            data = bytearray(good[:draw.choice((52, 300, len(good)))])
            for _ in range(draw.randrange(1, 30)):
                data[draw.randrange(24, min(len(data), draw.choice((52, 400, len(data)))))] = (
                    draw.choice((0, 1, 255, draw.randrange(256))))
            try:
                found = Elf(write("bad.elf", bytes(data)))
                found.word(0x10074), found.data_name(0x19000), found.bytes_at(0x10000, 64)
                Places(found, ()).where(0x10100)
            except CompanionError:
                pass
            except Exception as error:              # what this test is for
                bad.append(repr(error))
        self.check("300 damaged ELF files: read or refused", not bad, bad[:3])

    def test_hostile_log(self):
        """Records of any bytes under a good digest: what the program takes, `why` takes, and what
        it refuses, `why` refuses."""
        subprocess.run([PROGRAM, "record", "--seed", "1", "--harts", "2", "--limit", "40",
                        example("counter"), path("two.log"), path("two.book")],
                       stdout=subprocess.PIPE, stderr=subprocess.PIPE, check=False)
        good = content(path("two.log"))
        draw = random.Random(7)
        seen = {}
        for _ in range(25):
            data = bytearray(good[:-32])
            for _ in range(draw.randrange(1, 4)):
                data[draw.randrange(HEAD, len(data))] = draw.choice((0, 1,
                                                                     255, draw.randrange(256)))
            status, _, err = companion("why", write("bad.log",
                                                    bytes(data) + hashlib.sha256(data).digest()),
                                       example("counter"))
            seen[status] = seen.get(status, 0) + 1
            if status not in (0, 7, 14, 15) or err.count("\n") > (status > 0):
                self.check("a forged log is refused or explained", False, (status, err))
        self.check("25 forged logs: explained or refused, by status %s" % seen, len(seen) > 1)

    def test_hostile_names(self):
        log, elf = self.crash("use_after_free")
        data = content(elf)
        named = write("x.elf",
                      data.replace(b"main\0", b"<b>\x1b\0").replace(b"arena\0", b"<img>\0"))
        status, text, err = companion("why", log, elf, "--names", named,
                                      "--html", path("<img src=x>.html"))
        page = text_of(path("<img src=x>.html"))
        self.check("a symbol's control characters stay out of the terminal",
                   status == 0 and "\x1b" not in text and "<b>?" in text, err + text[:500])
        self.check("a symbol stays text in the page",
                   "&lt;b&gt;?" in page and "<b>" not in page and "<img" not in page)
        odd = written(path("<script>\x1b.elf"), data)
        companion("why", log, odd, "--html", path("odd.html"))
        page = text_of(path("odd.html"))
        self.check("a file's name stays text in the page",
                   "&lt;script&gt;?.elf" in page and "<script" not in page)
