#!/usr/bin/env python3
"""Makes debug information that no compiler wrote, and gives it to each companion that tells names.

tests/hostile/forged_dwarf.py [--from N] [COUNT [SEED [WORDS]]]: so many files (2000), and of each
so many drawn words (all). A file is a program of tests/crashes with good information of its
functions and variables. One to three things of it are forged: sizes, counts, cycles, depths,
offsets, locations, line tables, names, units, compressed sections, links to other files. Each is
recorded.

A call has to end with an answer, or with a line and a status; without a traceback, within 10 s of
processor time and 400 MB, with all of its processes. It ends with 1 if one ended otherwise."""
import collections
import os
import random
import struct
import subprocess
import sys
import tempfile
import zlib

import dwarf_file as dw
import forked
from dwarf_file import (ADDRESS, DATA1, DATA2, DATA4, DATA8, EXPRESSION, FLAG, REF4, REF_ADDRESS,
                        SEC_OFFSET, SIGNED, STRING, STRP, UDATA, Die)
from tried import TOP, numbered, taken_from, write

sys.path.insert(0, TOP)
from companion.call import program                            # noqa: E402
from companion.questions import export                        # noqa: E402
from companion.recording.elf import FUNCTION, Elf             # noqa: E402

PROGRAMS = ("use_after_free", "race_ring", "hang", "overrun", "double_free", "lost_terminator")
SECONDS = 10
MEMORY = 400 << 20
NUMBERS = (0, 1, 3, 4, 0x7f, 0xff, 0x1000, 0xffff, 1 << 24, 0x7fffffff, 0x80000000, 0xfffffff0,
           0xffffffff, 1 << 32, 1 << 63, (1 << 64) - 1)
PACKETS = (b"?", b"g", b"m10000,40", b"vCont;c", b"bs", b"bc")
DECOMPRESSED = 1 << 28
COMPRESSED = 0x800          # a flag of a section


class Good:
    """What a compiler would say of a program: its sections' parts, for forgers to change. A
    variable is a structure with an array in it, and the parameter of each function is a pointer to
    one."""

    def __init__(self, elf, draw):
        self.elf = elf
        self.draw = draw
        self.functions = [item for item in elf.functions if item.kind == FUNCTION and item.size]
        self.int = Die(0x24, (3, STRING, b"int"), (0xb, DATA1, 4), (0x3e, DATA1, 5))
        self.range = Die(0x21, (0x49, REF4, self.int), (0x2f, DATA8, 7))
        self.array = Die(1, (0x49, REF4, self.int), below=[self.range])
        self.members = [Die(0xd, (3, STRING, b"first"), (0x49, REF4, self.int), (0x38, DATA8, 0)),
                        Die(0xd, (3, STRING, b"rest"), (0x49, REF4, self.array), (0x38, DATA8, 4))]
        self.struct = Die(0x13, (3, STRING, b"thing"), (0xb, DATA8, 36), below=self.members)
        self.typedef = Die(0x16, (3, STRING, b"thing_t"), (0x49, REF4, self.struct))
        self.pointer = Die(0xf, (0xb, DATA1, 4), (0x49, REF4, self.typedef))
        self.types = [self.int, self.array, self.struct, self.typedef, self.pointer]
        self.code = [Die(0x2e, (3, STRING, item.name.encode()), (0x3f, FLAG, 1),
                         (0x11, ADDRESS, item.address), (0x12, DATA4, item.size),
                         (0x49, REF4, self.pointer), (0x40, EXPRESSION, b"\x52"),
                         (0x3a, DATA1, 1), (0x3b, DATA2, 7),
                         below=[Die(5, (3, STRING, b"it"), (0x49, REF4, self.pointer),
                                    (2, EXPRESSION, b"\x5a"))]) for item in self.functions]
        self.data = [Die(0x34, (3, STRING, item.name.encode()), (0x3f, FLAG, 1),
                         (0x49, REF4, self.typedef if item.size >= 36 else self.int),
                         (2, EXPRESSION, b"\3" + item.address.to_bytes(4, "little")))
                     for item in elf.objects]
        begin = min((item.address for item in self.functions), default=0x10074)
        end = max((item.address + item.size for item in self.functions), default=begin)
        self.top = Die(0x11, (3, STRING, b"a.c"), (0x1b, STRING, b"/tmp"), (0x13, DATA1, 12),
                       (0x11, ADDRESS, begin), (0x12, DATA4, end - begin), (0x10, SEC_OFFSET, 0),
                       below=[*self.types, *self.code, *self.data])
        self.head = {}
        self.more = {}
        self.flags = {}
        self.units = 1
        self.lines = dw.Lines([b"/tmp"], [(b"a.c", 0), (b"a.c", 0)],
                              dw.line_rows(begin, (end - begin) // 4))
        self.begin = begin
        self.cut = None

    def any(self):
        return self.draw.choice(list(dw.all_below(self.top)))

    def made(self):
        unit = dw.Unit(self.top, **self.head)
        sections = {".debug_info": unit.info * self.units, ".debug_abbrev": bytes(unit.abbrev),
                    ".debug_line": self.lines.made(), **self.more}
        if self.cut:
            sections[self.cut] = (
                sections[self.cut][:self.draw.randrange(len(sections[self.cut]) + 1)])
        return dw.with_sections(self.elf.data,
                                {name: body for name, body in sections.items() if body is not None},
                                self.flags)


# ---- what is forged: each changes one thing of a Good


def sizes(good):
    die = good.draw.choice((good.int, good.struct, good.array, good.pointer))
    die.tell(0xb, good.draw.choice((DATA1, DATA4, DATA8, UDATA, SIGNED)),
             good.draw.choice((*NUMBERS, -1)))


def counts(good):
    form = good.draw.choice((DATA1, DATA4, DATA8, UDATA, SIGNED))
    good.range.tell(good.draw.choice((0x2f, 0x37, 0x22)), form, good.draw.choice((*NUMBERS, -1)))
    good.array.below += [Die(0x21, *good.range.told)] * good.draw.choice((0, 0, 1, 12, 1000))


def places(good):
    """Members outside of their structure, in another's bytes, of more bits than there are."""
    member = good.draw.choice(good.members)
    member.tell(good.draw.choice((0x38, 0xd, 0x6b)),
                good.draw.choice((DATA4, DATA8, SIGNED, UDATA)), good.draw.choice((*NUMBERS, -1)))


def many_members(good):
    good.struct.below += [Die(0xd, (3, STRING, b"m%d" % at),
                              (0x49, REF4, good.draw.choice(good.types)), (0x38, DATA4, at % 36))
                          for at in range(good.draw.choice((10, 5000, 60000)))]


def cycles(good):
    """A type of itself, of one that is of it, or of what is no type; entries that are copies of
    each other."""
    one = good.draw.choice(good.types)
    other = good.draw.choice((*good.types, good.any(), good.top))
    one.tell(0x49, REF4, other)
    for die in good.draw.sample([*good.code, *good.data], min(2, len(good.data))):
        die.tell(good.draw.choice((0x31, 0x47)), REF4, good.draw.choice((die, good.any())))


def doubling(good):
    """A structure of two structures of two structures .."""
    below = good.struct
    for _ in range(good.draw.choice((11, 40, 2000))):
        size = min(max(1, below.told[1][2]) * 2, 1 << 31)
        below = Die(0x13, (3, STRING, b"pair"), (0xb, DATA8, size), below=[
            Die(0xd, (3, STRING, b"ab"[at:at + 1]), (0x49, REF4, below),
                (0x38, DATA8, at * size // 2)) for at in range(2)])
        good.top.below.append(below)
    for die in good.data:
        die.tell(0x49, REF4, below)


def chains(good):
    """A name of a name of a name .., or a pointer to a pointer .."""
    below = good.struct
    tag = good.draw.choice((0x16, 0xf, 0x26, 1))
    for _ in range(good.draw.choice((15, 300, 30000))):
        below = Die(tag, (0x49, REF4, below),
                    below=[Die(0x21, (0x37, DATA1, 2))] if tag == 1 else [])
        good.top.below.append(below)
    good.draw.choice([*good.data, *good.code]).tell(0x49, REF4, below)


def depths(good):
    """Blocks, inlined functions or structures in each other."""
    tag = good.draw.choice((0xb, 0x1d, 0x13))
    function = good.draw.choice(good.code)
    told = ([each for each in function.told if each[0] in (3, 0x11, 0x12)]
            + ([(0x31, REF4, function)] if tag == 0x1d else []))
    below = Die(tag, *told)
    for _ in range(good.draw.choice((20, 500, 20000))):
        below = Die(tag, *told, below=[below])
    function.below.append(below)


def offsets(good):
    die = good.any()
    name, form = good.draw.choice(((0x49, REF4), (0x31, REF4), (0x47, REF4), (1, REF4),
                                   (0x49, REF_ADDRESS), (0x49, dw.SIGNATURE), (3, STRP),
                                   (0x10, SEC_OFFSET), (0x55, SEC_OFFSET), (2, SEC_OFFSET),
                                   (0x40, SEC_OFFSET), (0x74, SEC_OFFSET), (0x8c, SEC_OFFSET)))
    die.tell(name, form, good.draw.choice((*NUMBERS, -1, die.at)))


def ranges(good):
    die = good.draw.choice([*good.code, good.top])
    die.tell(good.draw.choice((0x11, 0x12)), good.draw.choice((ADDRESS, DATA4, DATA8, UDATA)),
             good.draw.choice(NUMBERS))
    lists = b"".join(b"\6" + struct.pack("<II", good.begin, good.begin + 4 * at)
                     for at in range(good.draw.choice((3, 50000))))
    good.more[".debug_rnglists"] = struct.pack("<IHBBI", len(lists) + 8, 5, 4, 0, 0) + lists
    die.tell(0x55, SEC_OFFSET, good.draw.choice((12, 13, 0)))


LOOPS = (b"\x30\x2f\xfd\xff", b"\x30\x31\x28\xfc\xff", b"\x99\0\0\0\0",
         b"\x12" * 60000, b"\x30\x15\xff", b"\x30\x94\xff", b"\x91\0", b"\x9e" + dw.uleb(1 << 40),
         b"\x93" + dw.uleb(1 << 62), b"\xa3\2\xa3\2", b"\x30" * 30000 + b"\x1b" * 30000, b"\xe0",
         b"", b"\x92\xff\xff\xff\xff\x0f\0", b"\xa0\0\0\0\0\0", b"\xa5\x05\0", b"\x9c",
         b"\x97", b"\x50\x93\1" * 20000)


def locations(good):
    """Programs without an end, that take from an empty stack, call themselves, or have pieces
    larger than memory."""
    die = good.draw.choice([*good.code, *good.data, *(each.below[0] for each in good.code)])
    die.tell(good.draw.choice((2, 0x40)), EXPRESSION, good.draw.choice(LOOPS))


def location_lists(good):
    entry = b"\7" + struct.pack("<I", good.begin) + dw.uleb(good.draw.choice(NUMBERS)) + b"\1\x5a"
    lists = (entry * good.draw.choice((1, 100, 60000))
             + good.draw.choice((b"", b"\0", b"\1\xff\xff\x03", b"\x0a")))
    good.more[".debug_loclists"] = struct.pack("<IHBBI",
                                               good.draw.choice((len(lists) + 8, 0, 0xffffffff)), 5,
                                               4, 0, good.draw.choice((0, 9))) + lists
    for function in good.code:
        function.below[0].tell(2, SEC_OFFSET, good.draw.choice((12, 12, 13, 0xffffffff)))


def line_heads(good):
    name = good.draw.choice(("version", "address_size", "instruction", "operations", "range",
                             "opcodes", "folders", "files", "head_length", "length"))
    narrow = {"version": 65536, "folders": 1 << 63, "files": 1 << 63, "head_length": 1 << 32,
              "length": 1 << 32}.get(name, 256)
    good.lines.head[name] = good.draw.choice(NUMBERS) % narrow


def line_programs(good):
    head = b"\0\5\2" + struct.pack("<I", good.begin)
    good.lines.rows = head + good.draw.choice((
        b"\x08" * 300000,
        b"\xff" * 300000, b"\2" + dw.uleb((1 << 64) - 1) + b"\1",
        b"\3" + dw.sleb(-(1 << 40)) + b"\1", b"\0\0" * 1000,
        b"\0" + dw.uleb(1 << 40) + b"\2", b"\4" + dw.uleb(1 << 30) + b"\1",
        b"\0\5\2\0\0\0\0\1" * 60000, b"\0\1\1" * 60000, b"\x09\xff\xff\1" * 9000,
        b"\3\x80\x80\x80\x80\x08\1" * 999, b"\1\3\x7f" * 90000, b"", b"\0\xff" * 99,
        dw.line_rows(good.begin, 90000, 0)))


def names(good):
    name = good.draw.choice((b"x" * 1000000, b"a\nb", b"\x1b[2J", b"\xff\xfe", b"", b"</script><b>",
                             b"/etc/passwd", b"../" * 5000 + b"etc/passwd", b"%n%s" * 99))
    good.draw.choice((good.any(), good.top)).tell(good.draw.choice((3, 3, 0x1b)), STRING, name)
    good.lines.files = [(good.draw.choice((name, b"a.c")), 0)] * 2
    good.lines.folders = [good.draw.choice((name, b"/tmp"))]


def many_files(good):
    count = good.draw.choice((300, 30000))
    good.lines.files = [(b"f%d" % at, 0) for at in range(count)]
    good.lines.head["files"] = count


def unit_heads(good):
    name, values = good.draw.choice((("version", (0, 1, 2, 3, 4, 6, 65535)),
                                     ("address_size", (0, 1, 2, 8, 255)),
                                     ("kind", (0, 2, 3, 4, 5, 6, 255))))
    good.head[name] = good.draw.choice(values)


def many_units(good):
    good.units = good.draw.choice((2, 50, 2000))


def many_entries(good):
    good.top.below += [Die(0x34, (3, STRING, b"v"),
                           (0x49, REF4, good.int))] * good.draw.choice((1000, 50000, 450000))


def cuts(good):
    good.cut = good.draw.choice((".debug_info", ".debug_abbrev", ".debug_line"))


def compressed(good):
    """A section of few bytes that says it is long, and may be."""
    body = zlib.compress(bytes(good.draw.choice((0, 1000, DECOMPRESSED))), 1)
    name = good.draw.choice((".debug_str", ".debug_info", ".debug_line", ".debug_abbrev"))
    good.more[name] = struct.pack("<III", good.draw.choice((1, 1, 2, 77)),
                                  good.draw.choice((*NUMBERS, DECOMPRESSED)) % (1 << 32), 1) + body
    good.flags[name] = COMPRESSED


def links(good):
    """Other files that are said to have the information."""
    name = good.draw.choice((b"/etc/passwd", b"/dev/zero", b"/dev/stdin", b"PIPE",
                             b"x" * 100000, b"")) + b"\0"
    good.more.update({good.draw.choice((".gnu_debuglink", ".gnu_debugaltlink")): name
                      + bytes(-len(name) % 4) + b"\1\2\3\4" * 5,
                      ".debug_info": good.draw.choice((None, dw.Unit(good.top).info))})


def frames(good):
    body = struct.pack("<IIB", 12, 0xffffffff,
                       1) + b"\0" + dw.uleb(0) + dw.sleb(0) + b"\1" + b"\x0c\2\0"
    good.more[".debug_frame"] = good.draw.choice((body * 30000, body[:7],
                                                  struct.pack("<I", 0xffffffff) * 4))
    good.more[".debug_aranges"] = struct.pack("<IHIBB", good.draw.choice((28, 0, 0xffffffff)), 2,
                                              good.draw.choice((0, 99, 0xffffffff)),
                                              4, 0) + bytes(20)


FORGERS = (sizes, counts, places, many_members, cycles, doubling, chains, depths, offsets, ranges,
           locations, location_lists, line_heads, line_programs, names, many_files, unit_heads,
           many_units, many_entries, cuts, compressed, links, frames)


def forged(elf, draw):
    """The bytes of a file, and what is forged in it."""
    good = Good(elf, draw)
    chosen = draw.sample(FORGERS, draw.choice((1, 1, 2, 3)))
    for forger in chosen:
        forger(good)
    return good.made(), " and ".join(forger.__name__ for forger in chosen)


def calls(log, elf, found, draw, folder):
    """Each word that tells names, with what it is asked of this program."""
    both = [log, elf]
    variable = draw.choice(found.objects).name if found.objects else "none"
    function = draw.choice([item for item in found.functions if item.kind == FUNCTION]).name
    yield from ([word, *both]
                for word in ("why", "bucket", "output", "race", "view", "memory", "gdb"))
    yield ["names", elf]
    yield ["names", elf, function, variable, "a.c:7"]
    yield ["view", *both, "--with-questions"]
    yield ["history", *both,
           draw.choice((variable, f"{variable}.rest[1]", f"{variable}.first", f"{variable}+4"))]
    yield ["calls", *both, function]
    yield ["find", *both, "1"]
    yield ["at", *both, "a.c:7",
           draw.choice(("it", "*it", "it->rest[1]", "it->first + $a0", variable))]
    yield ["compare", log, *both]
    yield ["triage", log, "--elfs", elf]
    yield from (["export", *both, option, f"{folder}/exported"] for option in export.KINDS)


def recorded(elf, log, folder):
    """Whether a program can be recorded."""
    words = [program.path(), "record", "--format", "2", "--seed", "1", "--harts", "2", "--limit",
             "3000", "--", elf, log, f"{folder}/book"]
    return subprocess.run(words, stdout=subprocess.DEVNULL, stderr=subprocess.DEVNULL,
                          check=False).returncode in (0, 10, 11)


def wrong_with(ended):
    if ended.has_traceback or (ended.status and not ended.err) or ended.status > 128:
        return f"status {ended.status}: {ended.err[-600:].decode(errors='replace')}"
    if ended.seconds > SECONDS or ended.memory > MEMORY:
        return f"{ended.seconds:.1f} s, {ended.memory >> 20} MB"
    return ""


class Tries:
    def __init__(self, folder):
        self.folder = folder
        self.wrong = []
        self.counts = collections.Counter()
        self.slowest = (0.0, "")
        self.largest = (0, "")
        os.environ["XDG_CACHE_HOME"] = f"{folder}/cache"
        write(f"{folder}/packets",
              b"".join(b"$%s#%02x" % (body, sum(body) & 255) for body in PACKETS))
        write(f"{folder}/rows",
              b"".join(b"0 0 %08x 00000013 addi zero,zero,0\n" % (0x10074 + 4 * at)
                       for at in range(200)))
        os.mkfifo(f"{folder}/PIPE")
        os.chdir(folder)                        # a link of a file can name the pipe

    def one(self, number, draw, most):
        """A file and its calls."""
        base = Elf(f"{TOP}/tests/crashes/{draw.choice(PROGRAMS)}.elf")
        elf = f"{self.folder}/forged.elf"
        log = f"{self.folder}/forged.log"
        data, what = forged(base, draw)
        write(elf, data)
        if not recorded(elf, log, self.folder):
            self.counts["can't be recorded"] += 1
            return
        words = list(calls(log, elf, base, draw, self.folder))
        for each in draw.sample(words, min(most, len(words))):
            given = {"gdb": "packets", "names": "rows"}.get(each[0])
            ended = forked.companion(each, self.folder,
                                     f"{self.folder}/{given}" if given else os.devnull)
            named = (" ".join([each[0], *(word for word in each if word[:2] == "--")])
                     + f" of file {number} ({what})")
            self.counts["answers" if not ended.status else "refusals"] += 1
            self.slowest = max(self.slowest, (ended.seconds, named))
            self.largest = max(self.largest, (ended.memory, named))
            found = wrong_with(ended)
            if found:
                self.wrong.append(named)
                print(f"{named}: {found}", flush=True)


def main(words):
    first = taken_from(words)
    count, seed, most = map(int, [*words, *("2000", "1", "99")[len(words):]])
    with tempfile.TemporaryDirectory() as folder:
        tries = Tries(folder)
        for number in numbered(range(count), first):
            tries.one(number, random.Random(seed << 40 | number), most)
        os.chdir(TOP)
    print(f"the slowest took {tries.slowest[0]:.1f} s: {tries.slowest[1]}; "
          f"the largest {tries.largest[0] >> 20} MB: {tries.largest[1]}")
    print(", ".join(f"{number} {what}" for what, number in sorted(tries.counts.items()))
          + f"; {count} files, {len(tries.wrong)} calls ended otherwise")
    sys.exit(1 if tries.wrong else 0)


if __name__ == "__main__":
    main(sys.argv[1:])
