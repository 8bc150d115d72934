"""Companions keep up: where the rows of a log double, no companion's processor time more than
trebles.

Each program here has rows that a search could walk over again and again: counters of bytes in a
word, copies of copies, a list in a circle, harts that wait for a lock. Others make calls, call
themselves, or take the same memory again."""
import contextlib
import os

import case
import common
from recordings import (A0, A1, A2, A7, DATA, ECALL, T0, T1, T2, addi, atomic, branch_unless_equal,
                        elf_of, jump_to, load, lui, pc_of, store)

from companion.call import words as call
from companion.questions.at import Passes
from companion.questions.expressions import Compiled, Expression
from companion.questions.reading import asked_of, read

SP = 2
RA = 1
S0 = 8
S1 = 9
ROUNDS = 28
# Seconds that are told from none, and how much longer twice the rows may take
LEAST = 0.05
MOST = 3
COUNTED = 3                     # the word at which a round of `counters` begins
# Kinds of a load or store, and of an atomic instruction
BYTE = 0
SWAP = 1
FAULT = [addi(T1, 0, -1), load(T2, T2)]
COMPANIONS = ("why", "view", "race", "bucket", "output", "history", "calls", "find",
              "compare", "memory", "export")
# The word at which the function begins that is called
BEGINS = {"recursion": 1, "gives": 13}


def jal(link, words):
    """A jump over so many words."""
    offset = 4 * words
    return ((offset >> 20 & 1) << 31 | (offset >> 1 & 1023) << 21 | (offset >> 11 & 1) << 20
            | (offset >> 12 & 255) << 12 | link << 7 | 0x6f)


def again(rounds, words):
    """So many rounds of these words."""
    back = -4 * (len(words) + 1)
    return [lui(ROUNDS, rounds + 0x800), addi(ROUNDS, ROUNDS, rounds & 0xfff), *words,
            addi(ROUNDS, ROUNDS, -1), branch_unless_equal(ROUNDS, 0, back)]


def asking(number, size):
    return [addi(A7, 0, number), addi(A0, 0, number == 64), lui(A1, DATA), addi(A2, 0, size), ECALL]


def counters(rounds):
    """A counter of a byte, in a word that is loaded whole; it is an address in the end."""
    return [lui(S0, DATA), *again(rounds, [load(T0, S0), addi(T0, T0, 1), store(T0, S0, 0, BYTE)]),
            load(T2, S0), load(T2, T2, 1)]


def copies(rounds):
    """A word is copied to the next and the next, and back."""
    return [lui(S1, DATA), addi(T0, 0, -1), store(T0, S1), *again(rounds // 500, [
        lui(S0, DATA), addi(T1, S0, 2000), load(T0, S0), store(T0, S0, 4), addi(S0, S0, 4),
        branch_unless_equal(S0, T1, -12),
        load(T2, S0), store(T2, S1)]), load(T2, S1), load(T2, T2)]


def circle(rounds):
    """A list of two places, of which each names the other, is followed to the limit, and its steps
    are counted."""
    return [lui(S0, DATA), addi(T0, S0, 8), store(T0, S0), store(S0, T0), lui(S1, DATA),
            load(S0, S0), load(T1, S1, 16), addi(T1, T1, 1), store(T1, S1, 16),
            branch_unless_equal(S0, 0, -16)]


def waits(rounds):
    """Harts take a lock that nobody gives back."""
    return [lui(S0, DATA), addi(T1, 0, 1), atomic(SWAP, T0, S0, T1),
            branch_unless_equal(T0, 0, -4), jal(0, 0)]


def calls(rounds):
    return [*again(rounds, asking(63, 16) + [load(T2, A1)] + asking(64, 8)), *FAULT]


def recursion(rounds):
    """A function calls itself until its stack is at its end."""
    return [lui(SP, 0x100000), addi(S0, S0, 1), addi(SP, SP, -16), store(RA, SP),
            store(S0, SP, 4), jal(RA, -4)]


def gives(rounds):
    """Memory is given out, used, given back, and given out again at the same place."""
    give = [lui(A0, DATA), addi(A0, A0, 64), jump_to(RA)]
    take = [addi(T1, A0, 0), jump_to(RA)]
    loop = [jal(RA, 10), store(A0, S1), load(T0, A0), addi(T0, T0, 1), store(T0, A0),
            load(A0, S1), jal(RA, 7)]
    return [lui(S1, DATA), *again(rounds, loop), *FAULT[1:], *give, *take]


# What each is called with: the rounds, or the limit of a hart's instructions, for harts. Of each
# the rows are doubled.
FAMILIES = ((counters, 3000, 0, 1), (copies, 6000, 0, 1), (circle, 0, 50000, 1),
            (waits, 0, 5000, 8), (waits, 0, 40000, 1), (calls, 2500, 0, 1),
            (recursion, 0, 30000, 1), (gives, 2500, 0, 1))


def seconds(words):
    """The processor time of a companion and of the program that it asks."""
    with open(os.devnull, "w", encoding="utf-8") as nothing, contextlib.redirect_stdout(nothing):
        before = os.times()
        status = call.run_word(list(words))
        after = os.times()
    return status, sum(after[:4]) - sum(before[:4])


def seconds_at(log, elf):
    """The same of `at`, by code of its own, since these programs have no lines: a register and a
    word at each round's first row."""
    code = [(0, "reg", S0), (1, "ref32", 0), (2, "reg", ROUNDS), (3, "add", 0), (4, "end", 0)]
    place = pc_of(COUNTED)
    before = os.times()
    with asked_of(log, elf, {}) as asked:
        found = Passes(asked, "a.c:1",
                       Compiled([place], [Expression("x", {place: code},
                                                     {"kind": "int", "size": 4, "name": ""})]),
                       False, 1 << 20)
        read(asked.chunks(), found)
    after = os.times()
    return len(found.told), sum(after[:4]) - sum(before[:4])


def call_of(word, family, log, elf, other):
    """What a companion is called with; `other` is a log of the same program with other turns, if it
    has several harts."""
    if word == "compare":
        return word, log, other, elf
    if word == "export":
        return word, log, elf, "--core", common.path("doubled.core")
    asked = {"history": f"{DATA:08x}", "find": "1",
             "calls": f"{pc_of(BEGINS.get(family.__name__, 0)):08x}"}
    return (word, log, elf, asked[word]) if word in asked else (word, log, elf)


class DoublingTest(case.Case):
    def recorded(self, family, rounds, limit, harts):
        name = f"{family.__name__}{rounds + limit}-{harts}"
        elf = common.written(common.path(name + ".elf"), elf_of(family(rounds)))
        with open(common.path("input"), "wb") as file:
            file.write(bytes(range(256)) * 4096)

        def log(seed):
            return common.record(f"{name}-{seed}", elf, "--harts", str(harts), "--seed", seed,
                                 "--limit", str(limit or 1000000), "--log-size", "16777216",
                                 "--input", common.path("input"))
        return log("1"), elf, log("2" if harts > 1 else "1")

    def test_twice_the_rows(self):
        for family, rounds, limit, harts in FAMILIES:
            few = self.recorded(family, rounds, limit, harts)
            many = self.recorded(family, 2 * rounds, 2 * limit, harts)
            for word in COMPANIONS:
                with self.subTest(f"{word}, {family.__name__}, {harts} harts"):
                    tries = []
                    while len(tries) < 3 and not any(more <= MOST * max(less, LEAST)
                                                     for less, more in tries):
                        one, other = (seconds(call_of(word, family, *files))
                                      for files in (few, many))
                        self.assertEqual((one[0], other[0]), (0, 0))
                        tries.append((one[1], other[1]))
                    self.assertTrue(any(more <= MOST * max(less, LEAST) for less, more in tries),
                                    tries)

    def test_twice_the_passes(self):
        few, elf, _ = self.recorded(counters, 20000, 0, 1)
        many, its, _ = self.recorded(counters, 40000, 0, 1)
        tries = []
        while len(tries) < 3 and not any(more <= MOST * max(less, LEAST) for less, more in tries):
            one, less = seconds_at(few, elf)
            other, more = seconds_at(many, its)
            self.assertEqual((one, other), (20000, 40000))
            tries.append((less, more))
        self.assertTrue(any(more <= MOST * max(less, LEAST) for less, more in tries), tries)
