"""Tries by a client of gdb's protocol what `zelkuma gdb` answers and refuses, on small recordings;
needs no gdb."""
import hashlib
import os
import re
import socket
import struct
import subprocess
import sys

import cases
from client import Client, Stop
from common import COMPANION, EXAMPLES, content
from recordings import EXIT, FAULTS, SEGV, T0, T2, TRAP, addi, pc_of
from reference import Reference, agrees, run

INTERRUPTED = 2  # gdb's number of SIGINT


def case_01_what_gdb_asks_first(recordings):
    log, elf = recordings.example("wild_store")
    client = Client(log, elf)
    assert "qXfer:features:read+" in client("qSupported:multiprocess+;swbreak+")
    text = ""
    at = 0
    while True:
        piece = client(f"qXfer:features:read:target.xml:{at:x},64")
        text = text + piece[1:]
        at = at + len(piece) - 1
        if piece[0] == "l":
            break
    assert ("<osabi>none</osabi>" in text and text.count("<reg ") == 33
            and text.endswith("</target>"))
    assert client("vNoSuchThing") == "" and client("qNoSuchThing") == ""
    assert (client("qC") == "QC1" and client("T1") == "OK" and client("T9") == "E01"
            and client("Hg7") == "E01")
    for refused in ("m", "mzz,4", "m-4,4", "p-1", "Z2,5", "p21"):
        assert client(refused) == "E01", refused
    for refused in ("P0=00000000", "G00", "M10000,1:00", "X10000,0:"):
        assert (client(refused) == "E.a recorded run can't be changed, "
                "and no function of it called"), refused
    assert client.close() == 0
    # Of M
    assert (client.err() == "zelkuma: a recorded run can't be changed, "
            "and no function of it called\n")


def case_02_registers_at_both_ends_and_between(recordings):
    log, elf = recordings.example("hand_over", "--harts", "2", "--seed", "3")
    reference = Reference(log, elf)
    client = Client(log, elf)
    agrees(client, reference)
    for _ in range(9):
        client("vCont;s:1;c")
    agrees(client, reference)
    assert Stop(client("vCont;c")).signal == SEGV
    agrees(client, reference)
    assert client("p20") == client.registers()[32].to_bytes(4, "little").hex()
    assert client.close() == 0


def case_04_faults(recordings):
    for name, (signal, words) in FAULTS.items():
        log, elf = recordings.words(name, [addi(T2, 0, 1), *words])
        end = run("list", log).splitlines()[-1].split()
        assert end[4] == name, end
        client = Client(log, elf)
        stop = Stop(client("vCont;c"))
        assert stop.signal == signal and stop.hart == 0, (name, stop.text)
        assert client.counts() == {0: int(end[3])} and f"{name}" in client.about(0)
        assert stop.pc == (0 if name == "FetchOutside" else pc_of(len(words)))
        assert Stop(client("vCont;c")).end == "end" and Stop(client("vCont;s:1")).end == "end"
        assert Stop(client("bs")).end is None
        stop = Stop(client("vCont;s:1"))
        assert stop.end is None and stop.signal == TRAP
        assert Stop(client("vCont;s:1")).signal == signal
        assert client("?") == stop.text.replace("T05", f"T{signal:02x}")
        assert client.close() == 0
    return len(FAULTS)


def case_05_both_ends(recordings):
    log, elf = recordings.words("exit", [addi(T0, 0, 1), addi(T0, T0, 1), *EXIT])
    limit, counter = recordings.example("counter", "--harts", "2", "--limit", "60")
    for log, elf, why in ((log, elf, "hart 0 exited with 0"),
                          (limit, counter, "hart 0 came to --limit; hart 1 came to --limit")):
        client = Client(log, elf)
        reference = Reference(log, elf)
        assert Stop(client("bs")).end == "begin" and Stop(client("bc")).end == "begin"
        assert client.said == 2 * "zelkuma: the recorded run begins here\n"
        client.said = ""
        assert Stop(client("vCont;c")).end == "end" and Stop(client("vCont;c")).end == "end"
        assert client.said == 2 * f"zelkuma: the recorded run ends here; {why}\n"
        agrees(client, reference)
        assert Stop(client("bc")).end == "begin" and client.monitor("at").startswith("at 0 of ")
        agrees(client, reference)
        assert client.close() == 0
    client = Client(limit, counter, "--end")
    assert Stop(client("?")).end == "end" and client.counts() == {0: 60, 1: 60}
    assert client.close() == 0


def case_14_more_commands_than_debug_takes(recordings):
    log, elf = recordings.example("hand_over", "--harts", "2", "--seed", "3")
    packets = ["g", "m11230,10", "vCont;s:1;c", "vCont;s:2;c", "bs"] * 30 + ["vCont;c", "g"]
    whole = Client(log, elf)
    small = Client(log, elf, room=500)
    for packet in packets:
        assert whole(packet) == small(packet), packet
    assert whole.close() == 0 and small.close() == 0


def case_15_interruption_and_leaving(recordings):
    log, elf = recordings.example("sort")
    client = Client(log, elf)
    client.send("vCont;c")
    client.write(b"\x03")
    assert Stop(client.receive()).signal == INTERRUPTED
    client.send("vCont;c")
    client.process.stdin.close()
    assert client.process.wait(timeout=600) == 0
    client = Client(log, elf)
    client.send("k")
    assert client.process.wait(timeout=600) == 0
    client = Client(log, elf)
    client._acknowledges = True
    client.write(b"+$?#zz$g#00")
    assert client("qC") == "QC1"
    client.write(b"$" + b"x" * 200000)
    client.write(b"#00")
    assert client("qC") == "QC1"
    assert client.close() == 0


def case_15_an_interruption_between_packets(recordings):
    """gdb asks for it on its own way from stop to stop: the next move is interrupted, and none
    after it."""
    log, elf = recordings.words("asked", [addi(T0, 0, 1)] * 9 + [*EXIT])
    client = Client(log, elf)
    for move, back in (("vCont;s:1", "bs"), ("vCont;c", "bc"), ("bs", "vCont;s:1"),
                       ("bc", "vCont;c"), (f"vCont;r{pc_of(0):x},{pc_of(3):x}:1", "bs")):
        client(back)
        client("vCont;s:1")
        at = client.counts()
        client.write(b"\x03")
        assert client("qC") == "QC1"
        stop = Stop(client(move))
        assert (stop.signal, client.counts()) == (INTERRUPTED, at), (move, stop.text)
        assert Stop(client(move)).signal == TRAP and client.counts() != at, move
    client("bc")
    client(f"Z0,{pc_of(3):x},4")
    client.write(b"\x03")
    # Though a stop is in the first steps that it takes
    assert Stop(client("vCont;c")).signal == INTERRUPTED
    assert Stop(client("vCont;c")).pc == pc_of(3)
    assert client.close() == 0


def case_15_killed(recordings):
    """In gdb's `target extended-remote` a killed program has no threads, up to `run`."""
    log, elf = recordings.words("killed", [addi(T0, 0, 1), *EXIT])
    client = Client(log, elf)
    assert client("!") == "OK" and client("qfThreadInfo") == "m1"
    client.send("k")
    assert client("?") == "X09" and client("qfThreadInfo") == "l"
    assert (Stop(client("vRun;")).pc == pc_of(0) and client("qfThreadInfo") == "m1"
            and client("?")[:1] == "T")
    assert client.close() == 0


def refusal(*words, **settings):
    done = subprocess.run([sys.executable, COMPANION, "gdb", *words], stdin=subprocess.DEVNULL,
                          stdout=subprocess.PIPE, stderr=subprocess.PIPE,
                          universal_newlines=True, check=False, **settings)
    assert (done.stdout == "" and done.stderr.count("\n") == 1
            and "Traceback" not in done.stderr), done.stderr
    return done.returncode, done.stderr


def case_15_refusals(recordings):
    log, elf = recordings.example("wild_store")
    other = os.path.join(EXAMPLES, "sort.elf")
    status, line = refusal(log, other)
    assert status == 8 and "program differs" in line
    assert refusal(recordings.path("none"), elf)[0] == 4
    assert refusal(log, recordings.path("none"))[0] in (3, 4)
    assert refusal(log, log)[0] == 6 and refusal(elf, elf)[0] == 7
    assert refusal(recordings.write("empty", b""), elf)[0] == 7
    assert refusal(log)[0] == 2 and refusal(log, elf, "--port", "70000")[0] == 2
    assert refusal(log, elf, "--nothing")[0] == 2


def case_15_a_log_whose_harts_wait_for_each_other(recordings):
    """The program takes its records, and refuses it when no hart can continue."""
    log, elf = recordings.example("counter", "--harts", "2", "--limit", "20")
    data = content(log)[:-32]
    edges = b"".join(struct.pack("<BBQBQ", 5, hart, 5, 1 - hart, 9) for hart in (0, 1))
    headers = 92 + 2 * 146
    size, = struct.unpack_from("<I", data, 88)
    data = data[:88] + struct.pack("<I",
                                   size + len(edges)) + data[92:headers] + edges + data[headers:]
    stuck = recordings.write("stuck", data + hashlib.sha256(data).digest())
    client = Client(stuck, elf)
    client.send("vCont;c")
    try:
        client.receive()
    except EOFError as error:
        assert "wait for each other" in str(error) and str(error).count("\n") == 1, str(error)
    else:
        raise AssertionError("it went on")
    assert client.process.wait(timeout=600) == 15


def case_16_port_of_this_machine_alone(recordings):
    log, elf = recordings.example("hand_over", "--harts", "2", "--seed", "3")
    process = subprocess.Popen([sys.executable, COMPANION, "gdb", log, elf, "--port", "0"],
                               stderr=subprocess.PIPE)
    port = int(re.search(rb"port (\d+)", process.stderr.readline())[1])
    with open("/proc/net/tcp", encoding="ascii") as file:
        assert any(line.split()[1] == f"0100007F:{port:04X}" and line.split()[3] == "0A"
                   for line in file)
    with socket.create_connection(("127.0.0.1", port)) as peer:
        peer.sendall(b"$qC#b4")
        said = b""
        while len(said) < len(b"+$QC1#b4"):
            said += peer.recv(100)
        assert said.startswith(b"+$QC1#")
    assert process.wait(timeout=600) == 0
    process.stderr.close()
    with socket.create_server(("127.0.0.1", 0)) as taken:
        assert refusal(log, elf, "--port", str(taken.getsockname()[1]))[0] == 3


Cases = cases.tests_of(globals())
