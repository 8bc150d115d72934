"""Random packets to `zelkuma gdb`, by fixed seeds: after each, what it says is compared with
`debug` and `joint`.

On each of some small logs there is a session for each of FUZZ_SEEDS seeds from FUZZ_SEED on.
Compared are the registers of all harts, two words of memory, and the stop: that it is one, and that
the way there passed over no breakpoint and no watched store."""
import os
import random
import unittest

from client import Client, Stop
from recordings import (A0, A1, A2, A7, DATA, ECALL, EXIT, T0, T1, T2, addi, branch_unless_equal,
                        load, lui, store, Recordings)
from reference import Reference, size

TRAP = 5
ROUNDS = 60
MOVES = "step step step range go go back back back_among_stops go_back go_back".split()
CHANGES = "set_break clear_break set_watch clear_watch choose".split()


def logs(recordings):
    """Small logs: several harts, short intervals, faults, `read` calls, records that were
    dropped."""
    yield recordings.example("hand_over", "--harts", "2", "--seed", "3")
    yield recordings.example("counter", "--harts", "3", "--limit", "90", "--interval", "20")
    yield recordings.example("counter", "--harts", "16", "--limit", "40", "--format", "2")
    yield recordings.example("lock", "--harts", "2", "--limit", "150")
    yield recordings.words("race", [addi(T1, 0, 2), addi(T0, T0, 1), addi(T2, 0, 45),
                                    branch_unless_equal(T0, T2, -8), lui(A1, DATA), store(T0, A1),
                                    load(T2, A1), branch_unless_equal(A0, T1, -24), load(T1, 0)],
                           "--harts", "3", "--interval", "30", "--limit", "400", "--format", "2")
    reads = [lui(A1, DATA), addi(A1, A1, 6), addi(A2, 0, 5), addi(A0, 0, 0), addi(A7, 0, 63), ECALL,
             *[addi(T1, T1, 1)] * 6, load(T0, A1, 2), store(A2, A1, 1, kind=0),
             branch_unless_equal(A0, 0, -52), *EXIT]
    for harts in ("1", "2"):
        yield recordings.words("reads", reads,
                               "--input", recordings.write("input", bytes(range(97))),
                               "--harts", harts, data=b"\x11" * 20)
    yield recordings.example("counter", "--harts", "4", "--log-size", "16384", "--interval",
                             "64", "--limit", "3000")


class Session:
    """One session of random packets."""

    def __init__(self, log, elf, reference, seed):
        self.random = random.Random(seed)
        self.reference = reference
        self.client = Client(log, elf, room=self.random.choice((None, 4000)))
        rows = reference.rows
        self.pcs = sorted({row.pc for row in rows})
        self.words = sorted({at[0] & ~3 for row in rows for at in (row.load, row.store) if at})
        self.stores = sorted({(row.store[0], size(row)) for row in rows if row.store})
        self.stores += sorted({fill[1:] for fill in reference.fills})
        filled = [word for _, address, _ in reference.fills
                  for word in (address & ~3, address + 3 & ~3)]
        self.unsure = sorted(set(filled or self.words))[:6] if filled or reference.dropped else []
        self.breaks = set()
        self.watches = set()
        self.tally = {}
        self.may_stay = False  # the latest move met a watchpoint at once: the step over it may stay

    # What is set

    def ok(self, packet):
        assert self.client(packet) == "OK", packet

    def set_break(self):
        pc = self.random.choice(self.pcs)
        self.breaks.add(pc)
        self.ok(f"Z0,{pc:x},4")

    def clear_break(self):
        if self.breaks:
            pc = self.random.choice(sorted(self.breaks))
            self.breaks.discard(pc)
            self.ok(f"z0,{pc:x},4")

    def set_watch(self):
        if self.stores and len(self.watches) < 3:
            first, length = self.random.choice(self.stores)
            if self.random.random() < 0.5:
                first = first + self.random.randrange(length)
                length = 1
            self.watches.add((first, length))
            self.ok(f"Z2,{first:x},{length:x}")

    def clear_watch(self):
        if self.watches:
            watch = self.random.choice(sorted(self.watches))
            self.watches.discard(watch)
            self.ok("z2,%x,%x" % watch)

    def choose(self):
        self.ok(f"Hg{self.random.choice(sorted(self.client.counts())) + 1:x}")

    def set_all(self, letter):
        for pc in self.breaks:
            self.ok(f"{letter}0,{pc:x},4")
        for watch in self.watches:
            self.ok("%s2,%x,%x" % (letter, *watch))

    # What moves. As gdb does, a way that begins at a stop begins with a step without stops.

    def without_stops(self, packet, hart=None):
        if hart is not None:
            self.ok(f"Hc{hart + 1:x}")
        self.set_all("z")
        text = self.client(packet)
        self.set_all("Z")
        if hart is not None:
            self.ok("Hc0")
        return Stop(text)

    def step(self, hart):
        before = self.client.counts()
        stop = self.without_stops(self.random.choice(("vCont;s:%x;c", "vCont;s:%x")) % (hart + 1))
        after = self.client.counts()
        if stop.end is None and stop.signal == TRAP:
            assert after[hart] - before.get(hart,
                                            after[hart] - 1) in ((0, 1) if self.may_stay else (1,))
        assert all(after[other] >= count for other, count in before.items())
        return stop

    def range(self, hart):
        low = self.random.choice(self.pcs)
        high = low + self.random.choice((16, 64, 4096))
        before = self.client.counts()
        stop = Stop(self.client(f"vCont;r{low:x},{high:x}:{hart + 1:x};c"))
        first = before.get(hart)
        last = self.client.counts()[hart]
        if first is not None:
            inside = [self.reference.by_count[hart, count].pc for count in range(first + 1, last)]
            assert all(low <= pc < high for pc in inside), (low, high, inside)
        if (stop.signal == TRAP and not stop.end and stop.watch is None
                and stop.pc not in self.breaks):
            assert stop.hart == hart and not low <= stop.pc < high, stop.text
        return stop

    def go(self, hart):
        self.without_stops(f"vCont;s:{hart + 1:x}")
        begin = self.client.counts()
        stop = Stop(self.client("vCont;c"))
        end = self.client.counts()
        self.passes_nothing(begin, end, None)
        # Also those that came to a breakpoint after their last row
        for other, count in end.items():
            if stop.end and begin.get(other) not in (None, count):
                assert self.reference.states[other, count][32] not in self.breaks
        self.is_stop(stop, 0)
        return stop

    def back(self, hart):
        return self.without_stops("bs", hart)

    def back_among_stops(self, hart):
        """A step back that others' stops may end before."""
        begin = self.client.counts()
        self.ok(f"Hg{hart + 1:x}")
        stop = Stop(self.client("bs"))
        self.passes_nothing(self.client.counts(), begin, stop.hart if stop.watch is None else None)
        return stop

    def go_back(self, hart):
        self.back(hart)
        begin = self.client.counts()
        stop = Stop(self.client("bc"))
        here = stop.hart if stop.watch is None else None
        self.passes_nothing(self.client.counts(), begin, here)
        self.is_stop(stop, 1)
        return stop

    # What has to hold

    def passes_nothing(self, low, high, here):
        """No row between these counts is at a breakpoint or a watched store, but the one where
        `here` stands."""
        for row in self.reference.rows:
            if (not (row.hart in low and low[row.hart] <= row.count < high.get(row.hart, 0))
                    or row.fault):
                continue
            stands = row.hart == here and row.count == low[row.hart]
            assert stands or row.pc not in self.breaks, row
            assert not self.watched(row), row

    def watched(self, row):
        written = self.reference.fills_at(row) + ([(row.store[0], size(row))] if row.store else [])
        return any(first < begin + count and begin < first + length
                   for begin, count in written for first, length in self.watches)

    def is_stop(self, stop, passed):
        """The stop of a way is at a breakpoint, at a watched store, at a fault or at an end."""
        count = self.client.counts().get(stop.hart)
        if stop.end:
            kind = stop.end
        elif stop.watch is not None:
            kind = "watch"
            assert any(first == stop.watch for first, _ in self.watches)
            assert self.watched(self.reference.by_count[stop.hart, count - passed])
        elif stop.signal != TRAP:
            kind = "fault"
            assert self.reference.by_count[stop.hart, count].fault
        else:
            kind = "break"
            assert self.reference.states[stop.hart, count][32] in self.breaks
        self.tally[kind] = self.tally.get(kind, 0) + 1

    def agrees(self):
        counts = self.client.counts()
        for hart, count in counts.items():
            assert self.client.registers(hart) == self.reference.states[hart, count], (hart, count)
        for address in self.random.sample(self.words, min(2, len(self.words))) + self.unsure:
            expected = self.reference.word(counts, address)
            found = self.client(f"m{address:x},4")
            # Then the steps ahead that the bridge knows tell it
            if expected is None and found != "E0e":
                expected = self.reference.later_word(counts, address)
                self.tally["later"] = self.tally.get("later", 0) + 1
            assert found == ("E0e" if expected is None else expected.hex()), (hex(address), found,
                                                                              expected, counts)

    def play(self):
        for number in range(ROUNDS):
            move = self.random.choice(MOVES + CHANGES)
            try:
                if move in CHANGES:
                    getattr(self, move)()
                    continue
                before = self.client.counts()
                stop = getattr(self, move)(self.random.choice(sorted(before)))
                self.may_stay = stop.watch is not None and self.client.counts() == before
                self.agrees()
                self.ok(f"Hg{stop.hart + 1:x}")
            except Exception:
                print(f"round {number}: {move}")
                self.client.kill()
                raise
        assert self.client.close() == 0


class Fuzz(unittest.TestCase):
    def test_sessions(self):
        first = int(os.environ.get("FUZZ_SEED", "1"))
        seeds = int(os.environ.get("FUZZ_SEEDS", "2"))      # two see each kind of stop
        sessions = 0
        tally = {}
        with Recordings() as recordings:
            prepared = [(pair, Reference(*pair)) for pair in logs(recordings)]
            for seed in range(first, first + seeds):
                for (log, elf), reference in prepared:
                    session = Session(log, elf, reference, seed)
                    try:
                        session.play()
                    except Exception:
                        print(f"failed: {os.path.basename(log)} by seed {seed}")
                        raise
                    sessions += 1
                    for kind, count in session.tally.items():
                        tally[kind] = tally.get(kind, 0) + count
        print("sessions", sessions, *(f"{kind} {count}" for kind, count in sorted(tally.items())))
        for kind in ("begin", "break", "end", "fault", "later", "watch"):
            self.assertTrue(tally.get(kind), kind)
