#!/usr/bin/env python3
"""Runs the built program with one call of the system or of the C library refused, for each such
call in turn.

tests/hostile/refused.py [MOST [COMMAND..]]: for each command, or for those named, at most so many
calls of a kind (400, and of `demo` 600) are refused, evenly chosen if there are more. The kinds:

- `alloc`: room for bytes isn't given
- `open`, `read`, `write`, `sync`, `rename`: the call fails
- `short`: a read or a write of several bytes moves one
- `ended`: the process is killed at a call that could change a file or a folder

tests/hostile/refuse.c does it, before the C library.

Each run has to end with the status of a run that nothing was refused, and then with its texts and
files, or else:

| refused | status | line on err | out | files |
|---|---|---|---|---|
| `alloc` | 9 | `out of memory` | a prefix of the text | none but LOG, or LOG and BOOK, saved by
`record`; NEW or not by `convert` and `salvage` | | `open`, `read` | 3; 12 as a session reads
commands | `store failed: NAME`; `read failed` | nothing; the answers before | unchanged | | `write`
| 13; 3 as a file is saved | `write failed`; `store failed: NAME` | a prefix of the text | all
saved; those saved before | | `sync`, `rename` | 3 | `store failed: NAME` | nothing | those saved
before | | `short` | | | | | | `ended` | | a prefix | a prefix | each unchanged, or saved |

A file that isn't saved is unchanged, and unless the process is killed no further file is left.

Each file that is saved takes one `sync` and one `rename`, and one `open` whose refusal does no
harm: that of the system's limits. So a new file that can't be made stops the save, and the old one
isn't written to in its place.

A request for room that the thread of a hart makes ends with 9 always: its run isn't made again.

It prints how many runs of each command ended with which status, and ends with 1 if one ended
otherwise.
"""

import collections
import os
import signal
import struct
import subprocess
import sys
import tempfile
from typing import Any, Dict

import forge
from tried import PROGRAM, TOP, read, write

KINDS = ("alloc", "open", "read", "write", "short", "sync", "rename")
SAVING = ("record", "convert", "salvage")
# Two harts: hart 0 loads a word twice, hart 1 has four bytes read into it.
CODE = (0x00020437, 0x00051A63, 0x00042283, 0x00042303, 0x05D00893, 0x00000073, 0x00000513,
        0x00040593, 0x00400613, 0x03F00893, 0x00000073, 0x05D00893, 0x00000073)
# Three harts that pass a word on: hart 0 stores it, hart 1 loads it and stores the next one, hart 2
# loads both.
RELAY = (0x00020437, 0x00100393, 0x00750863, 0x00051C63, 0x00B42023, 0x0180006F, 0x00042283,
         0x00B42223, 0x00C0006F, 0x00442283, 0x00042303, 0x05D00893, 0x00000073)
RECORD = ("record", "--harts", "2", "--input", "IN", "ELF", "LOG", "BOOK")
COMMANDS = {
    "record --seed 1": (*RECORD, "--seed", "1"),
    "record": RECORD,
    "record --lean": (*RECORD, "--lean"),
    "record --format 2": (*RECORD, "--seed", "1", "--format", "2"),
    "check": ("check", "KEPT"),
    "list": ("list", "KEPT"),
    "replay": ("replay", "KEPT", "ELF", "1", "1"),
    "joint": ("joint", "KEPT", "ELF"),
    "joint, some given up": ("joint", "ENDED", "ELF"),
    "joint, a relay": ("joint", "RELAY", "RELAY_ELF"),
    "debug": ("debug", "KEPT", "ELF"),
    "audit": ("audit", "KEPT", "ELF", "TURNS", "--input", "IN"),
    "races": ("races", "KEPT", "ELF", "10"),
    "slice": ("slice", "KEPT", "ELF", "0", "0", "3"),
    "convert": ("convert", "KEPT", "NEW"),
    "salvage": ("salvage", "DAMAGED", "NEW"),
    "check, version 2": ("check", "SEALED"),
    "joint, version 2": ("joint", "SEALED", "ELF"),
    "audit, version 2": ("audit", "SEALED", "ELF", "TURNS", "--input", "IN"),
    "demo": ("demo", "7"),
}
# Commands that make more calls for room than others, each of which is to be refused.
ALL_OF = {"demo": 600}
SESSION = b"where\nstep 2\nregs\nbreak 10064\ngo\nword 20000\nunbreak 10064\ngo\nwhere\nquit\n"
# The status of a refused call, and how its line begins.
SAID: Dict[str, Dict[Any, str]] = {
    "alloc": {9: "bugnet: out of memory\n"},
    "open": {3: "bugnet: store failed: "},
    "read": {3: "bugnet: store failed: ", 12: "bugnet: read failed\n"},
    "write": {3: "bugnet: store failed: ", 13: "bugnet: write failed\n"},
    "sync": {3: "bugnet: store failed: "},
    "rename": {3: "bugnet: store failed: "},
    "short": {},
}


class Ran:
    """What a run left: its status, out, err and the files that it may save; how many calls of the
    kind it made, and whether a thread of a hart made the refused one."""

    def __init__(self, folder, words, kind="alloc", number=0):
        for name in ("LOG", "BOOK", "NEW"):
            write(f"{folder}/{name}", b"old")
        env = {"LD_PRELOAD": f"{folder}/refuse.so", "REFUSE": f"{kind}:{number}",
               "REFUSE_TOLD": f"{folder}/told"}
        ran = subprocess.run([PROGRAM, *words], input=SESSION, env=env, cwd=folder,
                             timeout=60, capture_output=True, check=False)
        self.status = ran.returncode
        self.out = ran.stdout
        self.err = ran.stderr.decode()
        saved = ("NEW", "BOOK") if words[0] in ("convert", "salvage") else ("LOG", "BOOK")
        self.files = tuple(read(f"{folder}/{name}") for name in saved)
        told = read(f"{folder}/told") or bytes(16)   # a killed process tells nothing
        self.calls, apart = struct.unpack("<QQ", told)
        self.is_a_harts = bool(apart)
        self.left = [name for name in os.listdir(folder) if name.startswith(".zelkuma-save-")]
        for name in self.left:
            os.remove(f"{folder}/{name}")

    def is_like(self, plain):
        return self.ending() == plain.ending()

    def ending(self):
        return self.status, self.out, self.err, self.files, self.left


def saved_by(ran):
    """Which of LOG and BOOK were saved, or whether NEW was."""
    return ran.files[0] != b"old", ran.files[1] != b"old"


def saved_before(ran, plain):
    """Which of LOG and BOOK have to be saved by then; none where any of the two may be, the first
    before the second."""
    if ran.status == 13:
        return saved_by(plain)
    if ran.status == 9:
        return None
    return "failed: BOOK" in ran.err, False


def fault_of(ran, plain, kind):
    """Returns what is wrong with how a run with a refused call ended; nothing if all is as it has
    to be."""
    line = SAID[kind].get(ran.status)
    if line is None:
        return "the status"
    if (line not in ran.err or not ran.err.endswith("\n")
            or not plain.err.startswith(ran.err[: ran.err.index(line)])):
        return "the line"
    if not plain.out.startswith(ran.out) or (ran.out and ran.status == 3):
        return "out"
    saved = saved_by(ran)
    wanted = saved_before(ran, plain)
    good = (saved in ((False, False), (True, False), saved_by(plain)) if wanted is None
            else saved == wanted)
    if not good:
        return "the files"
    return "a file that is left" if ran.left else ""


def is_agreed(folder, ran):
    """Whether what a recording in threads saved is the run of its own turns."""
    return ran.status == 0 and not ran.left and (ran.files[1] == b"old" or is_audited(folder))


def is_audited(folder):
    words = [PROGRAM, "audit", "LOG", "ELF", "BOOK", "--input", "IN"]
    return subprocess.run(words, cwd=folder, capture_output=True, check=False).returncode == 0


def is_whole(folder, ran, plain, in_threads):
    """Whether each file that a killed run leaves is the old one or the whole new one, the second
    not before the first."""
    if saved_by(ran) not in ((False, False), (True, False), saved_by(plain)):
        return False
    if not in_threads:
        return all(one in (b"old", whole) for one, whole in zip(ran.files, plain.files))
    if ran.files[1] != b"old":
        return is_audited(folder)
    words = [PROGRAM, "check", "LOG"]
    return (ran.files[0] == b"old"
            or subprocess.run(words, cwd=folder, capture_output=True, check=False).returncode == 0)


def cut_front(data):
    """Returns a log of version 1 whose first two records were given up."""
    head, records = forge.parts(data)
    left = b"".join(forge.split(records)[2:])
    return forge.sealed(head[:80] + struct.pack("<QI", 2, len(left)) + left)


def relay_log():
    """Returns the log of the relay in intervals of 4 instructions, by the turns 0 2 0 1 1 2 2 0 1
    2. The three first Headers and hart 0's first End were given up."""

    def header(hart, pc, loaded=0):
        registers = ((2, 0x100000 - 0x10000 * hart), (5, loaded), (7, 1), (8, 0x20000),
                     (10, hart), (11, 3))
        return forge.header(hart, 1, 4, pc, registers)

    records = (
        header(0, 0x10064), forge.end(2, 4, forge.LENGTH), header(2, 0x10078),
        forge.edge(1, 3, 0, 4), forge.first_load(1, 0, 3),
        forge.end(1, 4, forge.LENGTH), header(1, 0x10070, 3),
        forge.edge(2, 4, 1, 4), forge.first_load(2, 0, 3), forge.first_load(2, 0, 3),
        *(forge.end(hart, 8, forge.EXIT, hart) for hart in range(3)),
    )
    return forge.log(forge.program(*RELAY), b"".join(records), dropped=4, harts=3, interval=4)


def damaged(data):
    """Returns a log of version 2 with its records in two blocks, of which the first is damaged."""
    signed, blocks = forge.parts2(data)
    records = forge.split(b"".join(each[0] for each in blocks))
    half = len(records) // 2
    whole = forge.file2(signed, int.from_bytes(signed[92:100], "little"),
                        [records[:half], records[half:]])
    return whole[:136] + bytes((whole[136] ^ 1,)) + whole[137:]


def fault_of_kind(kind, plain, ended, without_harts):
    """What is wrong with all runs of a kind together, or nothing."""
    saved = sum(saved_by(plain))
    if kind in ("sync", "rename") and plain.calls != saved:
        return f"{plain.calls} calls of {kind} for {saved} saved files"
    if kind == "open" and ended[plain.status] != saved:
        return f"{ended[plain.status]} refused calls of open did no harm, for {saved} saved files"
    return "no thread of a hart asked for room" if kind == "alloc" and without_harts else ""


def try_command(folder, name, words, most):
    """Runs a command with each call of each kind refused; returns how many runs ended otherwise."""
    wrong = 0
    in_threads = "--seed" not in words and words[0] == "record"
    for kind in (*KINDS, "ended") if words[0] in SAVING else KINDS:
        plain = Ran(folder, words, kind)
        of_harts = 0
        numbers = range(1, plain.calls + 1)
        if plain.calls > most:
            numbers = sorted({1 + place * (plain.calls - 1) // (most - 1) for place in range(most)})
        ended = collections.Counter()
        for number in numbers:
            ran = Ran(folder, words, kind, number)
            ended[ran.status] += 1
            of_harts += ran.is_a_harts
            if kind == "ended":
                if ran.status != -signal.SIGKILL or not is_whole(folder, ran, plain, in_threads):
                    wrong += 1
                    print(f"{name}, {kind} {number}: status {ran.status}, "
                          "or a file is neither the old nor the new one")
                continue
            if (not (kind == "alloc" and ran.is_a_harts)
                    and (ran.is_like(plain) or (in_threads and is_agreed(folder, ran)))):
                continue
            fault = fault_of(ran, plain, kind)
            if fault:
                wrong += 1
                print(f"{name}, {kind} {number}: {fault}: status {ran.status}, "
                      f"out {len(ran.out)}, err {ran.err!r}")
        fault = fault_of_kind(kind, plain, ended, in_threads and not of_harts)
        if fault:
            wrong += 1
            print(f"{name}: {fault}")
        each = ", ".join(f"{status}: {count}" for status, count in sorted(ended.items()))
        print(f"| `{name}` | `{kind}` | {plain.calls:,} | {len(list(numbers)):,} | {each} |",
              flush=True)
    return wrong


def main(words):
    most = int(words[0]) if words else 400
    names = words[1:] or COMMANDS
    with tempfile.TemporaryDirectory() as folder:
        shim = ["cc", "-O2", "-shared", "-fPIC", "-o", f"{folder}/refuse.so",
                f"{TOP}/tests/hostile/refuse.c"]
        subprocess.run(shim, check=True)
        write(f"{folder}/ELF", forge.program(*CODE))
        write(f"{folder}/IN", b"wxyz")
        write(f"{folder}/RELAY_ELF", forge.program(*RELAY))
        write(f"{folder}/RELAY", relay_log())
        kept = Ran(folder, COMMANDS["record --seed 1"])
        write(f"{folder}/KEPT", kept.files[0])
        write(f"{folder}/ENDED", cut_front(kept.files[0]))
        write(f"{folder}/TURNS", kept.files[1])
        write(f"{folder}/SEALED", Ran(folder, COMMANDS["convert"]).files[0])
        write(f"{folder}/DAMAGED", damaged(read(f"{folder}/SEALED")))
        print("| command | refused | calls | runs | status: runs |\n|---|---|---|---|---|")
        wrong = sum(try_command(folder, name, COMMANDS[name], max(most, ALL_OF.get(name, 0)))
                    for name in names)
    print(f"{wrong} runs ended otherwise")
    sys.exit(1 if wrong else 0)


if __name__ == "__main__":
    main(sys.argv[1:])
