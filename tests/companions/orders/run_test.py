"""Tries `zelkuma run`: its status, what it passes on and when, the files beside ELF, and Ctrl-C.
What it saves is compared with a recording by the same words."""
import os
import re
import shutil
import signal
import subprocess
import sys
import time

import cases
from common import COMPANION, EXAMPLES, PROGRAM, companion, content
from recordings import (A0, A1, A2, A7, DATA, ECALL, FAULTS, T0, addi, branch_unless_equal,
                        elf_of, lui)

FORMAT_2 = ["--format", "2", "--seed", "1"]
SPIN = 0x6f
EXIT_GROUP = 94
EXIT = 93
WRITE = 64
FIRST_STEP = 1000000
SECOND_STEP = 8000000
FIRST = [*FORMAT_2, "--limit", str(FIRST_STEP)]
ENDED = 0
INTERRUPTED = 130


def ends_with(code, call=EXIT_GROUP):
    return [addi(A0, 0, code), addi(A7, 0, call), ECALL]


def writes(stream, size=2):
    return [addi(A0, 0, stream), lui(A1, DATA), addi(A2, 0, size), addi(A7, 0, WRITE), ECALL]


# For a million instructions
WAITS = [lui(T0, 0x80000), addi(T0, T0, -1), branch_unless_equal(T0, 0, -4)]


class Folder:
    """A folder with a program."""

    def __init__(self, recordings, name, words, data=b"ab"):
        self.path = recordings.path(name)
        os.mkdir(self.path)
        self.elf, self.log, self.book = (os.path.join(self.path, "program" + ending)
                                         for ending in (".elf", ".log", ".book"))
        if isinstance(words, str):
            shutil.copy(words, self.elf)
        else:
            recordings.write(os.path.join(name, "program.elf"), elf_of(words, data))

    def run(self, *options):
        done = subprocess.run([sys.executable, COMPANION, "run", self.elf, "--", *options],
                              stdin=subprocess.DEVNULL, stdout=subprocess.PIPE,
                              stderr=subprocess.PIPE, timeout=600, check=False)
        return done.returncode, done.stdout.decode(), done.stderr.decode()

    def recorded(self, *options):
        """(out, err) of a recording by these words. Its LOG and BOOK have to be those that were
        saved."""
        made = [os.path.join(self.path, name) for name in ("LOG", "BOOK")]
        done = subprocess.run([PROGRAM, "record", *options, "--", self.elf, *made],
                              stdout=subprocess.PIPE, stderr=subprocess.PIPE, check=False)
        assert content(made[0]) == content(self.log) and content(made[1]) == content(self.book)
        for name in made:
            os.remove(name)
        assert sorted(os.listdir(self.path)) == ["program.book", "program.elf", "program.log"]
        return done.stdout.decode(), done.stderr.decode().rpartition("bugnet: ")[0]


def case_the_status_is_the_exit_code(recordings):
    for name, words, status, options in (
            ("group", ends_with(7), 7, []), ("large", ends_with(0x1ff), 255, []),
            ("well", ends_with(0), 0, []),
            ("exit", ends_with(3, EXIT), 3, []),
            ("harts", [addi(A0, A0, 5), addi(A7, 0, EXIT), ECALL], 5, ["--harts", "3"])):
        folder = Folder(recordings, name, words)
        got, out, err = folder.run(*options)
        assert (got, out) == (status, ""), (name, got, out, err)
        assert ("No hart faulted" in err) == (status != ENDED), err
        assert folder.recorded(*FIRST, *options) == ("", "")


def case_bad_ends(recordings):
    for name in "StoreReadOnly", "Illegal", "LoadMisaligned":
        status, _, err = Folder(recordings, name, FAULTS[name][1]).run()
        assert status == 139 and f"\nFAULT\n  {name} " in err, (status, err)
    folder = Folder(recordings, "limit", [SPIN])
    status, _, err = folder.run("--limit", "2000")
    assert status == 124 and "\nEND\n" in err and "\nHANG\n" in err, (status, err)
    folder.recorded(*FORMAT_2, "--limit", "2000")


def case_an_end_is_explained(recordings):
    """By the text of `why --brief`, which is a part of that of `why`."""
    folder = Folder(recordings, "explained", os.path.join(EXAMPLES, "heap.elf"))
    _, out, err = folder.run()
    brief, whole = (companion("why", folder.log, folder.elf, *more)[1]
                    for more in (["--brief"], []))
    assert out == "" and brief.startswith("FAULT\n") and err.endswith(
        f"\n{brief}zelkuma: `zelkuma why {folder.log} {folder.elf}` tells more\n"), err
    assert set(brief.splitlines()) <= set(whole.splitlines()) and len(brief) < len(whole) / 3, brief
    folder.recorded(*FIRST)
    assert companion("why", folder.log, folder.elf, "--brief", "--more")[0] == 2


def case_what_it_writes_is_passed_on(recordings):
    """Once, though the recording is made in steps."""
    folder = Folder(recordings, "writes",
                    [*writes(1), *WAITS, *writes(2, 1), *WAITS, *writes(1, 1), *ends_with(0)])
    status, out, err = folder.run()
    assert (status, out) == (0, "aba") and err.startswith("azelkuma: "), (status, out, err)
    assert folder.recorded(*FORMAT_2, "--limit", str(SECOND_STEP)) == (out, "a")


def case_of_harts_at_the_end(recordings):
    folder = Folder(recordings, "filters", os.path.join(EXAMPLES, "filters.elf"))
    status, out, err = folder.run("--harts=4", "--seed=10", "--interval=64K")
    assert status == 139 and "LoadOutside" in err, err
    assert folder.recorded("--format=2", "--harts=4", "--seed=10", "--interval=65536",
                           f"--limit={FIRST_STEP}")[0] == out


def awaits(folder, process, name):
    """Until a file of this name is there."""
    while not any(name in names for _, _, names in os.walk(folder.path)):
        assert process.poll() is None, process.communicate()
        time.sleep(0.02)


def case_an_output_that_nobody_reads_loses_nothing(recordings):
    folder = Folder(recordings, "unread", [*writes(1), *ends_with(0)])
    with open("/dev/full", "wb") as full:
        done = subprocess.run([sys.executable, COMPANION, "run", folder.elf], stdout=full,
                              stderr=subprocess.PIPE, check=False)
    assert done.returncode == 13 and b"the output takes no more" in done.stderr, done
    folder.recorded(*FIRST)


def begun(folder, recordings, name, sleeps):
    """A run whose program takes a million instructions, and for this limit sleeps."""
    script = recordings.write(name, f"""#!/bin/bash
[[ $* != record*--limit={sleeps}" -- "* ]] || {{ touch "${{@: -2:1}}" && exec sleep 600; }}
exec {PROGRAM} "$@"
""".encode())
    os.chmod(script, 0o755)
    began = time.monotonic()
    process = subprocess.Popen([sys.executable, COMPANION, "run", folder.elf],
                               stdout=subprocess.PIPE, stderr=subprocess.PIPE,
                               start_new_session=True, env=dict(os.environ, ZELKUMA_PROGRAM=script))
    assert process.stdout.read(2) == b"ab"              # which comes before the end
    awaits(folder, process, f"step-{SECOND_STEP}.0")
    # The second step takes longer than the first
    time.sleep(3 * (time.monotonic() - began))
    return process


def case_an_interrupted_run_is_kept(recordings):
    folder = Folder(recordings, "kept", [*writes(1), SPIN])
    process = begun(folder, recordings, "kept.sh", SECOND_STEP)
    os.killpg(process.pid, signal.SIGINT)
    out, err = process.communicate(timeout=600)
    limit = re.search(r"up to ([\d,]+) instructions", err.decode())[1].replace(",", "")
    assert (process.returncode == INTERRUPTED and int(limit) > FIRST_STEP and out == b""
            and b"\nHANG\n" in err), (process.returncode, err)
    assert folder.recorded(*FORMAT_2, "--limit", limit) == ("ab", "")


def case_a_second_signal_keeps_the_last_step(recordings):
    folder = Folder(recordings, "second", [*writes(1), SPIN])
    process = begun(folder, recordings, "second.sh", f"!({FIRST_STEP})")
    os.killpg(process.pid, signal.SIGTERM)
    err = process.stderr.readline()
    assert err.startswith(b"zelkuma: stopped: what was run is recorded"), err
    awaits(folder, process, "nearly.0")
    os.killpg(process.pid, signal.SIGTERM)
    process.communicate(timeout=600)
    assert process.returncode == 143, process.returncode
    folder.recorded(*FIRST)


def case_refusals(recordings):
    folder = Folder(recordings, "refused", ends_with(0))
    for status, words, *options in ((2, "the words are: run ELF", "more"),
                                    (2, "option --lmit is unknown", "--lmit=3"),
                                    (2, "--limit has to be a number", "--limit=0"),
                                    (2, "setting", "--harts=99"),
                                    (4, "missing: none", "--input=none")):
        got, out, err = folder.run(*options)
        assert (got == status and words in err and out == ""
                and os.listdir(folder.path) == ["program.elf"]), (options, got, err)
    with open(folder.log, "wb") as file:
        file.write(b"a diary\n")
    got, _, err = folder.run()
    assert got == 2 and "it isn't a whole log" in err and content(folder.log) == b"a diary\n", (got,
                                                                                                err)


Cases = cases.tests_of(globals())
