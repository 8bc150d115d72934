"""Tries by a client of gdb's protocol what `zelkuma gdb` says of memory, on small recordings; needs
no gdb."""
import contextlib
import os
import unittest.mock

import cases
from client import Client, Stop
from recordings import (A0, A1, A2, A7, DATA, ECALL, EXIT, FIRST, SEGV, T0, T1, T2, addi,
                        branch_unless_equal, load, lui, pc_of, store)
from reference import Reference, agrees

from companion.gdb.memory import SessionMemory
from companion.gdb.session import begin_session
from companion.recording.elf import Elf
from companion.recording.recent import open_log


def case_03_memory(recordings):
    code = [lui(T0, DATA), load(T1, T0, 4), store(T1, T0, 8), *EXIT]
    log, elf = recordings.words("memory", code, data=bytes(range(1, 11)))
    client = Client(log, elf)
    text = b"".join(word.to_bytes(4, "little") for word in code)
    for first in range(8):
        for length in range(10):
            found = client(f"m{FIRST + first:x},{length:x}")
            assert found == text[first:first + length].hex(), (first, length, found)
    # Past the segment lies untouched memory: zeros, in a log that dropped nothing
    end = FIRST + len(text)
    assert client(f"m{end - 2:x},4") == text[-2:].hex() + "0000"
    assert client(f"m{DATA:x},c") == bytes(range(1, 11)).hex() + "0000"
    assert client("mffffe,8") == "0000" and client("m100000,4") == "E0e" and client("m0,4") == "E0e"
    assert (client("mffe,4") == "E0e" and client("m1000,4") == "00000000"
            and client("mffffffff,9") == "E0e")
    client("vCont;c")
    assert client(f"m{DATA:x},c") == "010203040506070805060708"
    assert client.close() == 0


def case_03_untouched_memory(recordings):
    """All of it, as the file has it: segments that end within words, and zeros. It is taken from
    the file by blocks."""
    code = [*EXIT] * 1500
    log, elf = recordings.words("untouched", code, data=bytes(range(1, 251)) * 7)
    text = b"".join(word.to_bytes(4, "little") for word in code)
    expected = (bytes(FIRST - 0x1000) + text + bytes(DATA - FIRST - len(text))
                + bytes(range(1, 251)) * 7).ljust(1 << 17, b"\0")
    with contextlib.closing(open_log(log)) as opened:
        read = opened.whole()
        with contextlib.closing(begin_session(read, elf)) as session:
            memory = SessionMemory(read, Elf(elf), session)
            with unittest.mock.patch.object(Elf, "bytes_at", autospec=True,
                                            side_effect=Elf.bytes_at) as looked_up:
                assert b"".join(memory.read(at, 4096)
                                for at in range(0x1000, 0x21000, 4096)) == expected
            assert looked_up.call_count < 100, looked_up.call_count


def case_03_memory_that_a_read_filled(recordings):
    """The bytes that a `read` put are unknown until a row loads them; the words beside them are the
    ELF's."""
    code = [lui(A1, DATA), addi(A1, A1, 6), addi(A2, 0, 5), addi(A0, 0, 0), addi(A7, 0, 63), ECALL,
            load(T0, A1, 2), *EXIT]
    log, elf = recordings.words("fill", code, "--input",
                                recordings.write("input", b"hello world"), data=b"\x11" * 20)
    client = Client(log, elf)
    reference = Reference(log, elf)
    assert len(reference.fills) == 1
    for _ in range(5):
        client("vCont;s:1")
    assert client(f"m{DATA:x},14") == "11" * 20
    client("vCont;s:1")
    assert client(f"m{DATA:x},14") == "11" * 4 and client(f"m{DATA + 4:x},4") == "E0e"
    assert client(f"m{DATA + 8:x},4") == "E0e" and client(f"m{DATA + 12:x},8") == "11" * 8
    client("vCont;s:1")
    assert client(f"m{DATA + 8:x},4") == b"llo\x11".hex() and client(f"m{DATA + 4:x},4") == "E0e"
    for _ in range(2):
        client("bs")
    assert client(f"m{DATA:x},14") == "11" * 20
    assert client.close() == 0
    # Once of each address
    why = "isn't known here: a `read` call filled it, and no row has loaded it up to here"
    assert client.err() == f"zelkuma: {DATA + 4:08x} {why}\nzelkuma: {DATA + 8:08x} {why}\n"


def processor_seconds(process):
    with open(f"/proc/{process}/stat", encoding="ascii") as file:
        user, system = file.read().rsplit(")", 1)[1].split()[11:13]
    return (int(user) + int(system)) / os.sysconf("SC_CLK_TCK")


def case_03_memory_after_many_reads(recordings):
    """After 20,480 calls memory is told in less than 2 s of processor time: what they filled, and
    2,048 bytes behind it. Their registers were set once, or for each."""
    many = 20480
    for at, (before, each) in enumerate((([lui(A1, DATA), addi(A2, 0, 1), addi(A7, 0, 63)], []),
                                         ([lui(A1, DATA - 4096)],
                                          [addi(A1, A1, 1), addi(A2, 0, 1), addi(A7, 0, 63)]))):
        loop = [*each, addi(A0, 0, 0), ECALL, addi(T2, T2, -1),
                branch_unless_equal(T2, 0, -4 * (len(each) + 3))]
        name = f"reads{at}"
        log, elf = recordings.words(name, [*before, lui(T2, many), *loop, *EXIT], "--log-size",
                                    "67108864", "--input",
                                    recordings.write(name, bytes(many)), "--memory", "1048576")
        client = Client(log, elf)
        client("vCont;c")
        began = processor_seconds(client.process.pid)
        assert client(f"m{DATA:x},4") == "E0e" and client(f"m{DATA + many:x},800") == "00" * 2048
        spent = processor_seconds(client.process.pid) - began
        assert spent < 2, spent
        assert client.close() == 0


def case_03_memory_that_is_loaded_later(recordings):
    """Once the steps ahead are known, what they load is known here, up to a store or another
    `read`."""
    code = [lui(A1, DATA), addi(A2, 0, 8), addi(A7, 0, 63), ECALL,
            load(T0, A1, 1, kind=4), store(A2, A1, 4), load(T0, A1, 4), addi(A0, 0, 0), ECALL,
            load(T0, A1), load(T0, A1, 4), *EXIT]
    log, elf = recordings.words("later", code, "--input",
                                recordings.write("input", b"firstly;then one"))
    client = Client(log, elf)
    words = [f"m{DATA:x},4", f"m{DATA + 4:x},4"]
    first = b"firs".hex()
    second = b"then".hex()
    for _ in range(4):
        client("vCont;s:1")
    assert [client(word) for word in words] == ["E0e", "E0e"]
    client("vCont;c")
    assert [client(word) for word in words] == [second, b" one".hex()]
    client(f"Z0,{pc_of(4):x},4")
    assert Stop(client("bc")).pc == pc_of(4)
    # The second is stored to before it is loaded
    assert [client(word) for word in words] == [first, "E0e"]
    client("bs")
    assert [client(word) for word in words] == ["00000000", "00000000"]
    assert client.close() == 0


def case_03_memory_that_a_read_filled_in_another_order(recordings):
    """Hart 0 reads twice. Once its steps are forgotten and taken again, its calls are told
    again."""
    code = [branch_unless_equal(A0, 0, 32), lui(A1, DATA), addi(A2, 0, 4), addi(A7, 0, 63), ECALL,
            addi(A1, A1, 16), addi(A0, 0, 0), ECALL, *EXIT]
    log, elf = recordings.words("twice", code, "--harts", "2", "--input",
                                recordings.write("input", b"onceonce"))
    client = Client(log, elf)
    words = [f"m{DATA:x},4", f"m{DATA + 16:x},4"]
    assert (Stop(client("vCont;c")).end == "end"
            and [client(word) for word in words] == ["E0e", "E0e"])
    assert (Stop(client("bc")).end == "begin"
            and [client(word) for word in words] == ["00000000", "00000000"])
    client("vCont;s:2")
    for _ in range(5):
        client("vCont;s:1")
    assert [client(word) for word in words] == ["E0e", "00000000"]
    assert client.close() == 0


def case_03_memory_that_is_loaded_later_in_another_order(recordings):
    """Both orders of the harts have a place 11, after another call of hart 0's."""
    code = [branch_unless_equal(A0, 0, 48), lui(A1, DATA), addi(A2, 0, 4), addi(A7, 0, 63), ECALL,
            load(T0, A1), addi(A0, 0, 0), addi(T1, 0, 1), ECALL, load(T0, A1), *EXIT,
            *[addi(T1, T1, 1)] * 2, *EXIT]
    log, elf = recordings.words("orders", code, "--harts", "2", "--input",
                                recordings.write("input", b"one.two."))
    client = Client(log, elf)
    assert Stop(client("vCont;c")).end == "end"
    for stop, before, text in ((9, (), b"two."), (5, ("bc", *["vCont;s:2"] * 5, "Hg1"), b"one.")):
        for packet in before:
            client(packet)
        client(f"Z0,{pc_of(stop):x},4")
        assert Stop(client("vCont;c" if before else "bc")).pc == pc_of(stop)
        assert client.monitor("at").startswith("at 11 of ") and client(f"m{DATA:x},4") == text.hex()
        client(f"z0,{pc_of(stop):x},4")
    assert client.close() == 0


def case_03_memory_of_a_log_that_dropped_records(recordings):
    log, elf = recordings.example("wild_store", "--log-size", "16384", "--interval", "500",
                                  "--sets", "1", "--ways", "1", "--line", "1", "--format", "2")
    client = Client(log, elf)
    reference = Reference(log, elf)
    assert reference.dropped and client("m11000,4") == "E0e" and client("m10354,4") != "E0e"
    assert Stop(client("vCont;c")).signal == SEGV
    assert client("m115e4,4") == bytes.fromhex("6e657472")[::-1].hex()
    assert client.close() == 0


def case_03_harts_whose_steps_were_lost(recordings):
    """Before the log's first record of a hart, its stores aren't told: so a later load says nothing
    of an earlier time."""
    log, elf = recordings.example("counter", "--harts", "4", "--log-size", "16384",
                                  "--interval", "64", "--limit", "3000")
    client = Client(log, elf)
    reference = Reference(log, elf)
    words = sorted({row.load[0] for row in reference.rows if row.load})[:8]
    assert Stop(client("vCont;c")).end == "end" and Stop(client("bc")).end == "begin"
    assert any("not in the log yet" in client.about(hart) for hart in client.harts())
    assert all(client(f"m{word & ~3:x},4") == "E0e" for word in words)
    while any("not in the log yet" in client.about(hart) for hart in client.harts()):
        client("vCont;s:1;c")
    assert Stop(client("vCont;c")).end == "end"
    agrees(client, reference)
    assert client.close() == 0


def case_03_calls_whose_registers_were_set_before_the_log(recordings):
    """Each round has two `read` calls and then a load: between the calls the word is unknown,
    whatever comes."""
    code = [lui(A1, DATA), addi(A2, 0, 4), addi(A7, 0, 63), addi(A0, 0, 0), ECALL, addi(A0, 0, 0),
            ECALL, load(T0, A1), branch_unless_equal(A0, 0, -20), *EXIT]
    log, elf = recordings.words("rounds", code, "--input",
                                recordings.write("input", bytes(range(200)) * 4),
                                "--log-size", "16384")
    client = Client(log, elf)
    reference = Reference(log, elf)
    assert (reference.dropped and Stop(client("vCont;c")).end == "end"
            and Stop(client("bc")).end == "begin")
    while client.registers()[32] != pc_of(5):
        client("vCont;s:1")
    assert client(f"m{DATA:x},4") == "E0e"
    client("vCont;s:1")
    client("vCont;s:1")
    assert client(f"m{DATA:x},4") == reference.later_word(client.counts(), DATA).hex()
    assert client.close() == 0


Cases = cases.tests_of(globals())
