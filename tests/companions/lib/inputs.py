"""Inputs for the readers of programs/inputs.c: some kilobytes drawn by chance, with the one piece
that brings the bug out."""
import os
import random
import subprocess
from typing import NamedTuple

HERE = os.path.dirname(os.path.abspath(__file__))
TOP = os.path.dirname(os.path.dirname(os.path.dirname(HERE)))
FLAGS = ("-march=rv32ima -mabi=ilp32 -mstrict-align -O2 -g -ffreestanding -fno-pic "
         "-fno-tree-loop-distribute-patterns -Wno-unused-function -nostdlib -static -z "
         "max-page-size=4096 -Wl,--build-id=none -I examples/lib -T "
         "examples/lib/program.ld").split()
SOURCES = "examples/lib/start.S", "examples/lib/machine.c", "tests/companions/lib/programs/inputs.c"
LETTERS = "abcdefghijklmnopqrstuvwxyzABCDEFGH0123"


class Reader(NamedTuple):
    """data     the input; options: of record; most: bytes to which it can be cut at least
    says     the text by which its end is told, or nothing"""
    data: bytes
    most: int
    options: tuple = ()
    says: str = ""


def build(name, elf):
    """Compiles a reader. OSError or CalledProcessError without a compiler."""
    subprocess.run(["riscv64-unknown-elf-gcc", *FLAGS, f"-DREADER={name}", "-o", elf, *SOURCES],
                   check=True, cwd=TOP)


class Draws(random.Random):
    """What the inputs are made of."""

    def word(self, low, high):
        return "".join(self.choice(LETTERS) for _ in range(self.randint(low, high)))

    def packets(self, count):
        return b"".join(bytes([self.choice((1, 2, 3)), 4])
                        + bytes(self.randrange(256) for _ in range(4)) for _ in range(count))

    def nested(self, depth=0):
        if depth > 4 or self.random() < .4:
            return self.word(2, 8)
        return (self.choice(("{%s}", "[%s]"))
                % ",".join(self.nested(depth + 1) for _ in range(3)))

    def postfix(self):
        return ("".join(self.choice("123456789") for _ in range(6))
                + "".join(self.choice("+*") for _ in range(5)))


def lines(count, line, at, bad):
    found = [line() for _ in range(count)]
    return "\n".join(found[:at] + [bad] + found[at:] + [""]).encode()


def readers(seed=7):
    """{name: its input}"""
    draw = Draws(seed)
    word = draw.word
    pool = [word(3, 9) for _ in range(15)]
    return {
        "settings": Reader(
            lines(500, lambda: f"{word(3, 20)} = {word(2, 12)}", 340, word(31, 31) + " = 5"), 40),
        "table": Reader(
            lines(800, lambda: ",".join(word(1, 9) for _ in range(5)), 511, "a,b,(12),d"), 1),
        "packets": Reader(draw.packets(700) + b"\7\3\310\1\2" + draw.packets(200), 20),
        "postfix": Reader(lines(900, draw.postfix, 700, "12+*3"), 8),
        "sections": Reader(lines(200,
                                 lambda: "\n".join([f"[{word(3, 9)}]"]
                                                   + [f"= {word(4, 9)}" for _ in range(6)]), 150,
                                 '[gone]\n= 1\n[-gone]\n"remember me"\n= 2'), 16),
        "nested": Reader(lines(150, draw.nested, 77, "[" * 9 + "a" + "{" * 11 + "b"), 60),
        "names": Reader(lines(900, lambda: draw.choice(pool), 700, "seventeen\neighteen"),
                        60, ("--limit", "3000000")),
        "bookings": Reader(lines(900, lambda: "".join(draw.choice("- x") for _ in range(11)), 600,
                                 "a+b+c+d+e+f+g+h+i+j+k+l+"), 12,
                           (), "debt is too high"),
    }
