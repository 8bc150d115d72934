"""Tries by a client of gdb's protocol where `zelkuma gdb` stops, on small recordings; needs no
gdb."""
import re

import cases
from client import Client, Stop
from recordings import (A0, A1, A2, A7, DATA, ECALL, EXIT, SEGV, T0, T1, T2, TRAP, addi, atomic,
                        branch_unless_equal, load, lui, pc_of, store)
from reference import Reference, agrees, run, size

AMOADD = 0
LR = 2
SC = 3


def case_06_breakpoints(recordings):
    log, elf = recordings.example("wild_store")
    client = Client(log, elf)
    reference = Reference(log, elf)
    line = 0x101e8  # the store of a new member's pointer
    counts = [row.count for row in reference.rows if row.pc == line]
    assert client(f"Z0,{line:x},4") == "OK" and client(f"Z0,{line:x},4") == "OK"
    for count in counts[:3]:
        stop = Stop(client("vCont;c"))
        assert (stop.signal, stop.pc, client.counts()) == (TRAP, line, {0: count})
        # A hart that is there already is reported, before it moves
        assert client("vCont;c") == stop.text
        client("vCont;s:1")
    for count in reversed(counts[:3]):
        assert Stop(client("bc")).pc == line and client.counts() == {0: count}
    assert Stop(client("bc")).end == "begin"
    assert (client(f"z0,{line:x},4") == "OK" and client(f"z0,{line:x},4") == "OK"
            and client("z0,4,4") == "OK")
    first = reference.rows[0].pc
    last = reference.rows[-1].pc
    client(f"Z1,{first:x},4")
    assert Stop(client("vCont;c")).pc == first and client.counts() == {0: 0}
    client(f"z1,{first:x},4")
    for pc in range(0x20000, 0x20000 + 65 * 4, 4):
        assert client(f"Z0,{pc:x},4") == "OK"
    client(f"Z0,{last:x},4")
    crash = reference.rows[-1].count
    while client.counts() != {0: crash}:
        assert Stop(client("vCont;c")).pc == last
        client("vCont;s:1")
    assert client.close() == 0


def watch_program():
    """Stores of each size to DATA, an atomic addition, a store-conditional that succeeds and one
    that fails."""
    return [lui(T0, DATA), addi(T1, 0, 0x55), store(T1, T0, 1, kind=0), store(T1, T0, 2, kind=1),
            store(T1, T0, 0), atomic(AMOADD, T2, T0, T1), atomic(LR, T2, T0),
            atomic(SC, T2, T0, T1), atomic(SC, T2, T0, T1), store(T1, T0, 4), store(T1, T0, 4),
            load(T2, T0, 2, kind=4), *EXIT]


def stops_of(client, forward, backward):
    """All stops from one end to the other, as (count, address), forward and backward."""
    found = []
    for command, single in ((forward, "vCont;s:1"), (backward, "bs")):
        stops = []
        while True:
            stop = Stop(client(command))
            if stop.end:
                break
            stops.append((client.counts()[0], stop.watch))
            client.toggle(False)
            client(single)
            client.toggle(True)
        found.append(stops)
    return found


class Watcher(Client):
    """A client with watchpoints, which it takes out for a step, as gdb does."""
    watch = ""

    def toggle(self, is_set):
        for watch in self.watch.split():
            assert self(("Z" if is_set else "z") + watch) == "OK"


def case_07_watchpoints(recordings):
    """Each byte, by each kind, in both directions: the rows that access it, and no others."""
    log, elf = recordings.words("watch", watch_program())
    reference = Reference(log, elf)
    client = Watcher(log, elf)
    checked = 0
    for kind, what in (("2", ("store",)), ("3", ("load",)), ("4", ("load", "store"))):
        for first, length in [(DATA + i, 1) for i in range(9)] + [(DATA + 3, 2),
                                                                  (DATA, 16), (DATA - 8, 64)]:
            expected = [row.count for row in reference.rows for way in what if getattr(row, way)
                        and getattr(row, way)[0] < first + length
                        and first < getattr(row, way)[0] + size(row)]
            expected = sorted(set(expected))
            client.watch = f"{kind},{first:x},{length:x}"
            client.toggle(True)
            forward, backward = stops_of(client, "vCont;c", "bc")
            assert forward == [(count, first) for count in expected], (kind, first,
                                                                       forward, expected)
            assert backward == [(count + 1, first)
                                for count in reversed(expected)], (kind, first, backward)
            client.toggle(False)
            checked += 1
    assert client.close() == 0
    assert sum(1 for row in reference.rows if row.name == "sc.w" and row.store) == 1
    return checked


def case_07_two_that_meet(recordings):
    log, elf = recordings.words("meet", watch_program())
    client = Client(log, elf)
    client(f"Z2,{DATA + 2:x},1")
    client(f"Z2,{DATA + 3:x},1")
    client(f"Z2,{DATA + 3:x},1")
    client(f"Z0,{pc_of(3):x},4")
    stop = Stop(client("vCont;c"))
    assert (stop.pc, stop.watch) == (pc_of(3), None)  # at a breakpoint, the row of an access too
    client(f"z0,{pc_of(3):x},4")
    assert (Stop(client("vCont;c")).pc, Stop(client("vCont;c")).watch) == (pc_of(3), DATA + 2)
    client(f"z2,{DATA + 2:x},1")
    assert Stop(client("vCont;c")).watch == DATA + 3
    client(f"z2,{DATA + 3:x},1")
    client(f"z2,{DATA + 3:x},1")
    assert Stop(client("vCont;c")).end == "end"
    assert client("Z5,0,1") == ""
    assert client.close() == 0


def case_07_one_store_that_several_watch(recordings):
    """All whose bytes it changes are told, and no others: one at the store, each other one behind
    it, where gdb's step over that stop stays. A stop tells one address, and gdb looks at those that
    hold it."""
    log, elf = recordings.words("several", [lui(T0, DATA), addi(T1, 0, 0x155),
                                            store(T1, T0, 0), addi(T2, 0, 1), *EXIT])
    client = Watcher(log, elf)
    first = f"2,{DATA:x},1"
    second = f"2,{DATA + 1:x},1"
    third = f"2,{DATA + 2:x},1"
    word = f"2,{DATA:x},4"
    for watches, told in (((first, second), [DATA, DATA + 1]), ((second, first), [DATA + 1, DATA]),
                          ((third, second), [DATA + 1]),
                          ((second, word), [DATA + 1]), ((word, second, first), [DATA, DATA + 1]),
                          ((second, f"4,{DATA + 2:x},2"), [DATA + 1, DATA + 2])):
        client.watch = " ".join(watches)
        client.toggle(True)
        forward, backward = stops_of(client, "vCont;c", "bc")
        assert forward == [(2 + min(1, at), address)
                           for at, address in enumerate(told)], (watches, forward)
        assert backward == [(3 - min(1, at), address)
                            for at, address in enumerate(told)], (watches, backward)
        client.toggle(False)
    assert client.close() == 0


def case_07_owed_watchpoints_that_are_gone(recordings):
    """What was owed isn't told if it was taken out, the session went elsewhere, or a hart that
    isn't resumed made the store."""
    code = [lui(T0, DATA), addi(T1, 0, 0x155), store(T1, T0, 0), addi(T2, 0, 1), *EXIT]
    log, elf = recordings.words("gone", code, "--harts", "2")
    client = Watcher(log, elf)
    client.watch = f"2,{DATA:x},1 2,{DATA + 1:x},1"

    def to_the_store():
        client("vRun;")
        client.toggle(True)
        assert Stop(client("vCont;c")).watch == DATA
        client.toggle(False)
        assert Stop(client("vCont;s:1")).pc == pc_of(3)
        client.toggle(True)

    to_the_store()
    assert Stop(client("vCont;s:2")).hart == 1          # hart 0 isn't resumed
    to_the_store()
    assert Stop(client("vCont;s:1;c")).watch == DATA + 1
    client.toggle(False)
    assert Stop(client("vCont;s:1")).pc == pc_of(3)     # gdb's step over it
    assert Stop(client("vCont;s:1")).pc == pc_of(4)
    to_the_store()
    client.toggle(False)
    assert Stop(client("vCont;s:1")).pc == pc_of(4)     # they are taken out
    to_the_store()
    assert (client.monitor("goto 0:1").startswith("at 0:1")
            and Stop(client("vCont;s:1")).pc == pc_of(2))
    client.toggle(False)
    assert client.close() == 0


def case_07_what_a_read_fills(recordings):
    """A `read` call writes, so it is a watched access, in both directions."""
    code = [lui(A1, DATA), addi(A1, A1, 6), addi(A2, 0, 5), addi(A0, 0, 0), addi(A7, 0, 63), ECALL,
            store(A2, A1, 2), *EXIT]
    log, elf = recordings.words("filled", code, "--input",
                                recordings.write("input", b"hello world"))
    client = Watcher(log, elf)
    for kind, first, expected in (("2", DATA + 5, ()),
                                  ("2", DATA + 6, (5,)), ("4", DATA + 10, (5, 6)),
                                  ("2", DATA + 11, (6,)), ("3", DATA + 6, ())):
        client.watch = f"{kind},{first:x},1"
        client.toggle(True)
        forward, backward = stops_of(client, "vCont;c", "bc")
        assert forward == [(count, first) for count in expected], (first, forward)
        assert backward == [(count + 1, first) for count in reversed(expected)], (first, backward)
        client.toggle(False)
    assert client.close() == 0


def case_08_a_store_that_changes_nothing(recordings):
    log, elf = recordings.words("same", watch_program())
    client = Client(log, elf)
    client(f"Z2,{DATA + 4:x},4")
    for index in (9, 10):
        assert Stop(client("vCont;c")).pc == pc_of(index)
        client(f"z2,{DATA + 4:x},4")
        client("vCont;s:1")
        client(f"Z2,{DATA + 4:x},4")
    assert client.close() == 0


def waiting_step(client, reference):
    """Steps hart 1 until a step of it takes others along, as far as it needs and no further."""
    for _ in range(200):
        waits = re.search(r"waits for hart 0 count (\d+)", client.about(1))
        before = client.counts()
        stop = Stop(client("vCont;s:2"))
        assert stop.hart == 1, stop.text
        after = client.counts()
        assert after[1] == before[1] + 1
        assert after[0] == (int(waits[1]) + 1 if waits else before[0]), (waits, before, after)
        agrees(client, reference)
        if waits:
            return
    raise AssertionError("hart 1 never waited")


def case_09_two_harts(recordings):
    log, elf = recordings.example("counter", "--harts", "2", "--limit", "200")
    client = Client(log, elf)
    reference = Reference(log, elf)
    assert client.harts() == [0, 1] and client("qsThreadInfo") == "l"
    waiting_step(client, reference)
    before = client.counts()
    assert client("Hc1") == "OK"
    client("bs")
    assert client.counts()[0] == before[0] - 1
    assert client("Hc0") == "OK" and client("Hg2") == "OK"
    before = client.counts()
    client("bs")
    assert client.counts()[1] == before[1] - 1
    stop = Stop(client("vCont;c:1"))
    assert stop.end == "end" and stop.hart == 0 and client.counts()[0] == 200
    assert client.counts()[1] < 200  # it went just as far as hart 0 needed
    assert client.close() == 0


def case_09_who_may_report(recordings):
    """A breakpoint of hart 0 is reported while hart 1 steps, if both were resumed, and else
    passed."""
    log, elf = recordings.example("counter", "--harts", "2", "--limit", "200")
    reference = Reference(log, elf)
    pc = next(row.pc for row in reference.rows if row.store and row.hart == 0)
    for actions, reported in (("vCont;s:2;c", True), ("vCont;s:2", False)):
        client = Client(log, elf)
        seen = False
        client(f"Z0,{pc:x},4")
        for _ in range(120):
            stop = Stop(client(actions))
            assert stop.hart == 1 or reported
            seen = seen or stop.hart == 0
        assert seen == reported
        assert client.close() == 0


def case_09_back_over_what_others_did(recordings):
    """A step back of hart 0 goes back over hart 1's rows since, and stops at a breakpoint of
    these."""
    log, elf = recordings.example("counter", "--harts", "2", "--limit", "200")
    client = Client(log, elf)
    reference = Reference(log, elf)
    for packet in ["vCont;s:1"] * 3 + ["vCont;s:2"] * 3:
        client(packet)
    first = reference.by_count[1, 0].pc
    client(f"Z0,{first:x},4")
    assert client("Hg1") == "OK"
    stop = Stop(client("bs"))
    assert (stop.hart, stop.pc, client.counts()) == (1, first, {0: 3, 1: 0}), stop.text
    client(f"z0,{first:x},4")
    for packet in ["vCont;s:2"] * 3 + ["Hg1"]:
        client(packet)
    assert Stop(client("bs")).hart == 0 and client.counts() == {0: 2, 1: 0}
    assert client(f"Z0,{first:x},4") == "OK" and client("Hg2") == "OK"
    # Hart 1 has no row to go back over, but hart 0 comes to the breakpoint
    stop = Stop(client("bs"))
    assert (stop.hart, stop.end, client.counts()) == (0, None, {0: 0, 1: 0}), stop.text
    assert client.close() == 0


def case_10_arrival_behind_the_last_row(recordings):
    """A hart that the crash of another one stopped is at a breakpoint, and has no row there."""
    log, elf = recordings.example("tills", "--harts", "2", "--format", "2")
    reference = Reference(log, elf)
    ends = {int(words[0]): words for words in map(str.split, run("list", log).splitlines())}
    assert ends[0][4] == "stopped"
    count = int(ends[0][3])
    pc = reference.states[0, count][32]
    client = Client(log, elf)
    client(f"Z0,{pc:x},4")
    stops = []
    while True:
        stop = Stop(client("vCont;c"))
        if stop.signal != TRAP or stop.end:
            break
        stops.append((stop.hart, client.counts()[stop.hart]))
        client(f"z0,{pc:x},4")
        client(f"vCont;s:{stop.hart + 1}")
        client(f"Z0,{pc:x},4")
        if stops[-1] == (0, count):
            break
    assert stops[-1] == (0, count), stops[-3:]
    assert client.close() == 0


def case_11_the_crash_of_one_of_three(recordings):
    """Hart 2 counts and then loads from 0; the others count for ever. All have registers at the
    crash."""
    code = [addi(T1, 0, 2), addi(T0, T0, 1), addi(T2, 0, 45), branch_unless_equal(T0, T2, -8),
            branch_unless_equal(A0, T1, -12), load(T1, 0)]
    log, elf = recordings.words("three", code, "--harts", "3", "--interval", "30", "--limit",
                                "1000", "--format", "2")
    client = Client(log, elf)
    reference = Reference(log, elf)
    stop = Stop(client("vCont;c"))
    assert (stop.signal, stop.hart, stop.pc) == (SEGV, 2, pc_of(5))
    assert sorted(client.counts()) == [0, 1, 2]
    agrees(client, reference)
    ends = {int(words[0]): int(words[3]) for words in map(str.split, run("list", log).splitlines())}
    assert client.counts() == ends
    assert client.close() == 0


def case_12_a_log_that_lost_its_beginning(recordings):
    log, elf = recordings.example("counter", "--harts", "4", "--log-size", "16384",
                                  "--interval", "200")
    client = Client(log, elf)
    reference = Reference(log, elf)
    assert reference.dropped and client.harts() == [0, 1, 2, 3]
    without = [hart for hart in client.harts() if hart not in client.counts()]
    for hart in without:
        assert (client(f"Hg{hart + 1:x}") == "OK" and client("g") == "x" * 264
                and client("p5") == "x" * 8)
    assert Stop(client("?")).hart not in without
    begin = client.monitor("at").split()[1]
    agrees(client, reference)
    assert Stop(client("vCont;c")).end == "end"
    agrees(client, reference)
    client.said = ""
    assert Stop(client("bc")).end == "begin" and client.monitor("at").split()[1] == begin
    assert client.said == (f"zelkuma: the log begins here, as it has dropped {reference.dropped:,} "
                           "records before; a larger --log-size keeps more\n")
    assert client.close() == 0


def case_13_another_order(recordings):
    """Going back and stepping another hart leads to the same registers at the same counts."""
    log, elf = recordings.example("counter", "--harts", "2", "--limit", "120")
    client = Client(log, elf)
    reference = Reference(log, elf)
    for packets in (["vCont;s:1;c"] * 30, ["bs"] * 12, ["vCont;s:2;c"] * 40,
                    ["bs"] * 5, ["vCont;s:1;c"] * 20):
        for packet in packets:
            client(packet)
        agrees(client, reference)
    assert client.close() == 0


Cases = cases.tests_of(globals())
