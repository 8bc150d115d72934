"""`names`: a filter over what the program prints, and addresses of names."""
import resource

import case
from common import companion, example, output, path

ROWS = 1000000
LEAST = 300000


class NamesTest(case.Case):
    def test_filter(self):
        log, elf = self.crash("use_after_free")
        rows = output("joint", log, elf)
        status, text, err = companion("names", elf, given=rows)
        lines = text.split("\n")
        plain = rows.decode().split("\n")
        self.check("each line stays, and gets no more than a name behind it",
                   status == 0 and len(lines) == len(plain)
                   and all(new.startswith(old) for new, old in zip(lines, plain)), err)
        faulty = next(line for line in lines if " | fault " in line)
        self.check("the fault's row has its function and line",
                   faulty.endswith(" | serve use_after_free.c:48"), faulty)
        end = next(line for line in lines if line.startswith("end "))
        self.check("an end has the name of its hart's last row",
                   end.endswith(" | serve use_after_free.c:48"), end)
        self.check("a word of memory has its object",
                   any(line.startswith("word ") and line.endswith("| sessions+4")
                       for line in lines))
        status, text, _ = companion("names", elf, given=output("list", log))
        self.check("a line of `list` stays",
                   status == 0 and text.split("\n")[0].startswith("0 0 0 "), text)
        _, text, _ = companion("names", elf, given=b"0 2 10000000 10100000 length 00000000\n"
                               b"0 3 00010074\n\nx\n0 1 0001")
        self.check("counts aren't taken for addresses, and an unfinished line is kept",
                   text == "0 2 10000000 10100000 length 00000000\n"
                   "0 3 00010074 | _start start.S:13\n\nx\n0 1 0001", text)

    def test_addresses(self):
        elf = self.crash("use_after_free")[1]
        status, text, _ = companion("names", elf, "sessions", "use_after_free.c:31")
        lines = text.split("\n")
        told = [line.split(" ", 1)[1] for line in lines if line]
        self.check("names give addresses", status == 0 and told[0] == "sessions"
                   and told[1] == "close_session use_after_free.c:31", text)
        line = next((line for line in lines if ":31" in line), "")
        _, back, _ = companion("names", elf,
                               given=b"0 0 %s 00000013 addi zero,zero,0\n" % line[:8].encode())
        self.check("FILE:LINE gives addresses of that line",
                   " use_after_free.c:31" in back, (text, back))
        status, _, err = companion("names", elf, "nowhere")
        self.check("an unknown name is status 4",
                   status == 4 and err == "zelkuma: use_after_free.elf has no nowhere\n", err)

    def test_without_tool(self):
        _, elf = self.crash("use_after_free")
        row = b"0 0 00010074 00002197 auipc gp,0x2 | gp=00012074\n"
        status, text, err = companion("names", elf, given=row, environment={"PATH": "/nowhere"})
        self.check("without addr2line there are symbols, and that is said", "no addr2line" in err
                   and status == 0 and text.endswith("| _start\n"), text + err)
        status, text, err = companion("names", example("tills"), given=row, is_whole=True)
        advice = ("tills.elf has no names, since it was stripped: "
                  "record the file from before `strip`, or give that to --names\n")
        self.check("a stripped file adds nothing, and what to do is said",
                   status == 0 and text.encode() == row and err.endswith(advice), text + err)

    def test_without_lines(self):
        log, elf = self.crash("use_after_free")
        bare = path("bare.elf")
        # (a section of this name is what tells lines)
        with open(elf, "rb") as file, open(bare, "wb") as made:
            made.write(file.read().replace(b".debug_line\0", b".debug_none\0"))
        for words in (("why", "--row", "0:100"), ("history", "sessions"),
                      ("race",), ("calls", "main")):
            _, _, err = companion(words[0], log, elf, *words[1:], "--names", bare, is_whole=True)
            self.check(f"{words[0]} of a file without lines says what to do",
                       err == f"zelkuma: {bare} has no lines: build it with -g, "
                       "or give --names a copy that has them\n", err)
            _, _, err = companion(words[0], log, elf, *words[1:], is_whole=True)
            self.check(f"{words[0]} of one with lines says nothing", err == "", err)

    def test_speed(self):
        log, elf = self.crash("use_after_free")
        rows = [line for line in output("joint", log, elf).split(b"\n") if b"word" not in line]
        many = b"\n".join(rows * (ROWS // len(rows) + 1))
        before = resource.getrusage(resource.RUSAGE_CHILDREN)
        companion("names", elf, given=many, starts=True)    # so its time is told here
        after = resource.getrusage(resource.RUSAGE_CHILDREN)
        rate = int(many.count(b"\n") / (after.ru_utime + after.ru_stime
                                        - before.ru_utime - before.ru_stime))
        self.check("names %d rows a second of processor time, at least %d" % (rate, LEAST),
                   rate >= LEAST)
