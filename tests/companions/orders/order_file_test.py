"""Order files: what is written is read again as the same, what a person writes is read, and each
bad line is refused with its number."""
import random
import subprocess

import case
import common
from companion.call.errors import REFUSED
from companion.orders import order_file
from companion.orders.marks import EXIT, FAULT, LIMIT, OUTPUT, Ended, Mark, Order, Point, Power
from companion.orders.record import RANGES
from companion.recording.head import read_head

BY_HAND = """zelkuma order 1
# a hart holds the filter that another one gives back
program filters.elf
set --harts=4
end fault LoadOutside in apply
hart 0 until store ready in main

hart 3 until load current in hold
  under samples < other_harts
hart 0 until store pool in give_filter #2 filters.c:58 | filter->taps = 0;
hart 3 to the end
"""
NAMES = ("main", "a b", 'say "x"', "operator<", "f#2", "Größe", "back\\slash", "a|b", "-",
         "until", "x:12")
TEXTS = ("", "filter->taps = 0;", "a | b # c < d", "  if (x)".strip(), 'put("\\n");')
# What a refusal says, and the line.
BAD_LINES = (
    ("no line of an order", "hart 0 untl load a in b"),
    ("no line of an order", "hart 0 until load a"),
    ("no line of an order", "hart 0 until load a in b #0"),
    ("no line of an order", "hart 0 until load a in b c:x"),
    ("no line of an order", 'hart 0 until load "a in b'),
    ("no line of an order", "  hart 0 until load a in b"),
    ("no line of an order", "end"), ("no line of an order", "end fault 7"),
    ("no line of an order", "end exit 0"),
    ("there is no hart 2", "hart 2 until load a in b"),
    ("there is no hart 9", "hart 9 to the end"),
    ("below a line 'hart N", "  not before load a in b"),
    ("below a line 'hart N", "  under b"),
    ("below 'end limit'", "  hart 0 waits for b"),
    ("below 'end fault'", "  from b"),
    ("says the program twice", "program b.elf"),
    ("says the settings twice", "set --limit=3"),
    ("an escape is none of", r'input "\q"'),
    ("an escape is none of", r'input "\x4"'),
    ("no more orders", "power 3 of 2"),
    ("nowhere.in: No such file", "input-file nowhere.in"),
    ("../in is no file beside this one", "input-file ../in"),
    ("/in is no file beside this one", "input-file /in"),
    ("no line of an order", "hart 0 until load a in b #9999999999"),
    ("a byte is 0 to 255", "end output 3 256"),
)
BAD_SETTINGS = (
    ("no setting of record", "set --harts=two"),
    ("no setting of record", "set --seed=1"),
    ("no setting of record", "set --harts=\u0664"),
    ("no setting of record", "set harts=2"),
    ("--harts is 1 to 16", "set --harts=17"),
    ("--limit is 1 to 1099511627776", "set --limit=9999999999999999999"),
    ("--limit is 1 to 1099511627776", "set --limit=" + "9" * 5000),
    ("says --limit twice", "set --limit=1 --limit=2"),
)


def drawn_point(draw, access=None):
    is_line = draw.random() < 0.7
    file, line = ((draw.choice(("f.c", "my file.c", "a:b.c")), draw.randint(1, 99999)) if is_line
                  else ("", 0))
    return Point(access or draw.choice(("load", "store", "atomic", "call")), draw.choice(NAMES)
                 if access is None else "-", draw.choice(NAMES), file, line, draw.choice(TEXTS))


def drawn_mark(draw, harts):
    nth = draw.randint(1, 3)
    callers = tuple(draw.choice(NAMES) for _ in range(draw.randint(0, 3)))
    needed = drawn_point(draw) if draw.random() < 0.5 else None
    return Mark(draw.randrange(harts), drawn_point(draw)._replace(callers=callers),
                nth, draw.choice((nth, 7)), draw.randint(1, 3) if callers else 1, needed,
                draw.randint(1, 3) if needed else 1,
                drawn_point(draw) if draw.random() < 0.5 else None)


def drawn_order(draw):
    harts = draw.randint(2, 16)
    end = draw.choice(
        (None, Ended(FAULT, "LoadOutside", drawn_point(draw, FAULT)), Ended(FAULT, "Illegal"),
         Ended(EXIT, value=3),
         Ended(FAULT, "Illegal", drawn_point(draw, FAULT), caller=drawn_point(draw, FAULT)),
         Ended(LIMIT, waits=((0, ("a+4", "b c")), (1, ()))), Ended(OUTPUT, place=7, value=0)))
    data = bytes(draw.choice(b'a\n"\\\x00\xff\t ')
                 for _ in range(draw.choice((0, 1, 300, order_file.LONGEST_TEXT))))
    return Order(draw.choice(NAMES[:-4]), {"--harts": str(harts), "--limit": "70000"},
                 draw.choice((None, data)), end, draw.choice((None, Power(3, 300), Power(0, 0))),
                 tuple(drawn_mark(draw, harts) for _ in range(draw.randint(1, 6))),
                 draw.choice((None, harts - 1)))


def recorded(elf, *options):
    """Whether `record` takes these options, whether or not the program fits into its memory."""
    words = [common.PROGRAM, "record", *options, elf, common.path("taken.log"),
             common.path("taken.book")]
    return subprocess.run(words, stdout=subprocess.DEVNULL, stderr=subprocess.DEVNULL,
                          check=False).returncode != REFUSED


class OrderFileTest(case.Case):
    def refused_line(self, said, line, *more, number=4):
        """A file with this line as its fourth."""
        lines = [order_file.HEAD, "program a.elf", "set --harts=2", line, *more]
        name = common.written(common.path("bad.order"), "\n".join(lines))
        found = self.refuses_here(2, order_file_reader, name)
        self.assertIn(f"bad.order: line {number}: ", found)
        self.assertIn(said, found)

    def test_what_is_written_is_read_again(self):
        draw = random.Random(1)
        for _ in range(300):
            order = drawn_order(draw)
            text = order_file.order_text(order, "x.order")
            name = common.written(common.path("drawn.order"), text)
            again = order_file.read_order(name)
            self.assertEqual(again, order, text)
            self.assertEqual(order_file.order_text(again, "x.order"), text)

    def test_by_hand(self):
        order = order_file.read_order(common.written(common.path("hand.order"), BY_HAND))
        self.assertEqual((order.program, order.harts, order.last, order.power),
                         ("filters.elf", 4, 3, None))
        self.assertEqual([mark.hart for mark in order.marks], [0, 3, 0])
        self.assertEqual(order.marks[1].point,
                         Point("load", "current", "hold", callers=("samples", "other_harts")))
        self.assertEqual(order.marks[2].nth, 2)
        self.assertEqual(order.end, Ended(FAULT, "LoadOutside", Point(FAULT, "-", "apply")))
        windows = common.written(common.path("windows.order"), BY_HAND.replace("\n", "\r\n"))
        self.assertEqual(order_file.read_order(windows), order)
        text = order_file.order_text(order, "hand.order")
        self.assertEqual(
            text, "\n".join(line for line in BY_HAND.split("\n") if line and line[0] != "#") + "\n")

    def test_each_bad_line_is_told_with_its_number(self):
        for said, line in BAD_LINES:
            with self.subTest(line):
                self.refused_line(said, line)
        for said, line in BAD_SETTINGS:
            with self.subTest(line):
                name = common.written(common.path("set.order"),
                                      f"{order_file.HEAD}\nprogram a\n{line}\n")
                self.assertIn(f"line 3: '{line[:80]}': ",
                              self.refuses_here(2, order_file_reader, name))
                self.assertIn(said, self.refuses_here(2, order_file_reader, name))

    def test_the_range_of_a_setting_is_that_of_the_program(self):
        """What is out of range is refused by both; what is the least or the most is taken by
        both."""
        elf = self.elf("counter")
        for option, (low, high) in RANGES.items():
            other = {"--sets2": ["--ways2=1"], "--ways2": ["--sets2=1"]}.get(option, [])
            format_2 = ["--format=2"] if option != "--format" else []
            for value, is_good in ((low - 1, False), (low, True), (high, True), (high + 1, False)):
                setting = f"{option}={value}"
                with self.subTest(setting):
                    taken = recorded(elf, "--seed=0", *format_2, *other, setting)
                    self.assertEqual(taken, is_good)
                    name = common.written(common.path("range.order"), f"{order_file.HEAD}\nprogram "
                                          f"a\nset {setting}\n" + "hart 0 until load a in b\n")
                    if is_good:
                        self.assertEqual(order_file.read_order(name).settings, {option: str(value)})
                    else:
                        self.assertIn(f"{option} is {low} to {high}, not {value}",
                                      self.refuses_here(2, order_file_reader, name))

    def test_a_name_that_is_none_on_a_terminal(self):
        """It would be printed as it stands; the text of a line is cleaned, as the sources' is."""
        for line in (r'hart 0 until load "a\x00" in b', "hart 0 until load a\0 in b",
                     r'hart 0 until load a in "\x1b[2J"', r'input-file "\x07"', r'  under "\x1b"'):
            with self.subTest(line):
                before = ["hart 0 until load a in b"] if line[0] == " " else []
                self.refused_line("a name has a control character", *before,
                                  line, number=4 + len(before))
        name = common.written(common.path("text.order"),
                              BY_HAND.replace("filter->taps = 0;", "filter\x1b->\ttaps"))
        self.assertEqual(order_file.read_order(name).marks[2].point.text, "filter?-> taps")

    def test_lines_in_a_wrong_order(self):
        self.refused_line("behind 'to the end'", "hart 1 to the end",
                          "hart 0 until load a in b", number=5)
        self.refused_line("to the end twice", "hart 1 to the end", "hart 1 to the end", number=5)
        self.refused_line("the end twice", "end exit 1", "end limit", number=5)
        self.refused_line("below a line 'hart N", "hart 0 until load a in b", "end exit 1",
                          "  not after load a in b", number=6)
        many = ["hart 0 until load a in b"] * (order_file.MOST_MARKS + 1)
        self.refused_line(f"at most {order_file.MOST_MARKS}", *many, number=3 + len(many))
        letters = ['input "' + 60 * "x" + '"'] * (order_file.LONGEST_TEXT // 60 + 1)
        self.refused_line("a file of its own", *letters, number=3 + len(letters))

    def test_files_that_are_no_orders(self):
        for data, said in ((b"", "first line has to be"),
                           (b"zelkuma order 2\n", "another version than 1"),
                           (b"\xff\n", "first line"),
                           ((order_file.HEAD + "\n" + "#" * order_file.LARGEST).encode(),
                            "over 1048576 bytes"),
                           ((order_file.HEAD + "\n# ").encode() + b"\xe4\n", "isn't UTF-8"),
                           (("\ufeff" + BY_HAND).encode(), "byte order mark"),
                           (BY_HAND.encode("utf-16"), "byte order mark"),
                           ((order_file.HEAD + "\n").encode(), "no line 'program"),
                           ((order_file.HEAD + "\nprogram a\nset --harts=2\n").encode(),
                            "no line 'hart N until")):
            with self.subTest(data[:40]):
                name = common.written(common.path("none.order"), data)
                self.assertIn(said, self.refuses_here(2, order_file_reader, name))

    def test_a_long_input_is_beside(self):
        data = bytes(range(256)) * 17
        self.assertGreater(len(data), order_file.LONGEST_TEXT)
        given = common.written(common.path("long.in"), data)
        name = common.path("long.order")
        order = Order("a.elf", {}, data, Ended(EXIT, value=1))
        for _ in range(2):                      # the second time both are there, and the same
            order_file.targets_of(name, given, []).save(order)
        self.assertEqual(common.content(name + ".input"), data)
        self.assertEqual(order_file.read_order(name), order)
        self.assertIn("input-file long.order.input\n", common.text_of(name))
        common.written(given, data[::-1])
        with self.assertRaisesRegex(case.CompanionError, "it isn't the same input"):
            order_file.targets_of(name, given, [])
        self.assertEqual(common.content(name + ".input"), data)

    def test_the_defaults_are_those_of_record(self):
        """A file that names no setting means these for ever; the program's may change one day, and
        then this has to be thought of."""
        elf = self.elf("filters")
        common.record("defaults", elf, "--harts", "1", "--seed", "0")
        self.assertEqual(read_head(common.path("defaults.log")).settings(), order_file.DEFAULTS)

    def test_no_line_takes_long(self):
        """Long lines that are refused, of which each doubling may cost no more than some times as
        much: of patterns that go back and forth it would never end."""
        for line in ("hart 0 until load " + '"' * 100000, "  under " + "a < " * 50000 + "|",
                     'input "' + "\\" * 100001, "hart 0 until load " + "a:" * 50000,
                     "end fault A in " + "a:1" * 50000 + " #", "set " + "--harts=1 " * 20000):
            with self.assertRaises(case.CompanionError):
                order_file.read_order(common.written(common.path("line.order"),
                                                     f"{order_file.HEAD}\n{line}\n"))


class Reader:
    """The reader as a module with `main`."""
    @staticmethod
    def main(words):
        order_file.read_order(*words)


order_file_reader = Reader()
