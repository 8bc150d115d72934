#!/usr/bin/env python3
"""Ends each word that can last by INT, TERM and HUP, wherever it is, and looks at what it leaves.

tests/hostile/signals.py [--from N] [all | COUNT [SEED]]: each word, each signal, at six moments of
what the word takes undisturbed, and as it begins to save; or so many drawn calls of each word (1).
Every second signal comes to all processes of the call, as Ctrl-C does.

A call has to end with 130, 143 or 129, and without a traceback, but for INT in the few milliseconds
in which python itself begins. No process of it runs on, and nothing is left beside its targets, in
the temporary folder neither. A target is as it was, or a whole one; LOG and BOOK that are both new
belong together. If the call was done before the signal came, its status is its own.

Bound: the call, but for `run`, takes at most half a second more of processor time, with all of its
processes, by one try of three. By the clock it has ten minutes, since other processes may have the
processors. Those that took longer than half a second by the clock are counted. It ends with 1 if a
call ended otherwise.
"""
import collections
import contextlib
import os
import random
import shutil
import signal
import subprocess
import sys
import tempfile
import time
from typing import Dict, List, NamedTuple, Tuple

import forked
from tried import TOP, numbered, read, taken_from, write

sys.path[:0] = [TOP, f"{TOP}/tests/companions/lib"]
from processes import below, is_running                       # noqa: E402
from companion.call import kinds, program                     # noqa: E402
from companion.questions import export                        # noqa: E402
from companion.triage import forms                            # noqa: E402

STATUSES = {signal.SIGINT: 130, signal.SIGTERM: 143, signal.SIGHUP: 129}
SCRIPT = f"{TOP}/zelkuma"
CRASHES = f"{TOP}/tests/crashes"
HANG = f"{CRASHES}/hang.elf"
BUFFERS = f"{TOP}/examples/buffers.elf"
MOMENTS = (0, 0.2, 0.4, 0.6, 0.8, 0.95)         # of what a word takes
SAVING = 2                                      # the moment at which it begins to save
# Seconds
HANGS = 600
QUIET = 2
SOON = 0.5
TRIES = 3
# The share of the rows that drawn calls have: so they take less than a second
FEWER = 5
LARGE = ("--format", "2", "--log-size", "256M", "--sets", "1", "--ways", "1", "--line", "1")
TICKS = os.sysconf("SC_CLK_TCK")


class Word(NamedTuple):
    """What is called, {target: its kind}, and the statuses of which threads decide one."""
    words: List[str]
    targets: Dict[str, kinds.FileKind]
    ends: Tuple[int, ...] = ()


def saves(words, *targets):
    """A call whose last words are LOG and BOOK, or the first of them."""
    return Word([*words, *targets], dict(zip(targets, (kinds.LOG, kinds.TURNS))))


def recordings(folder, share):
    """Makes the logs that the words are given: of few and of many rows, and of four harts."""
    made = (("few", "--limit", str(1500000 // share), HANG),
            ("many", *LARGE, *many_rows(share), HANG), ("harts", "--harts", "4", BUFFERS))
    for name, *words in made:
        schedule = ({"ZELKUMA_SCHEDULE": "sleeper:20"} if name == "harts"
                    else {"ZELKUMA_SCHEDULE": "bursts:1"})
        done = subprocess.run([SCRIPT, "record", "--format",
                               "2", *[word for word in words if word not in ("--format", "2")],
                               f"{folder}/{name}", f"{folder}/{name}.book"], stderr=subprocess.PIPE,
                              env={**os.environ, **schedule}, check=False)
        assert os.path.exists(f"{folder}/{name}.book"), done.stderr


def many_rows(share):
    return "--limit", str(20000000 // share), "--interval", str(10000000 // share)


def calls(folder, new, share):
    """{name: Word}"""
    few, many, harts = ([f"{folder}/{name}", elf]
                        for name, elf in (("few", HANG), ("many", HANG), ("harts", BUFFERS)))
    found = {word: Word([word, *few], {})
             for word in ("why", "race", "view", "bucket", "output", "memory", "gdb")}
    found["debug"] = Word(["debug", *few], {})
    found.update({word: Word([word, *many, *more], {}) for word, more
                  in (("joint", ()), ("races", ("9",)), ("audit", (f"{folder}/many.book",)))})
    found["replay"] = Word(["replay", *many, "0", "1"], {})
    found["check"] = Word(["check", many[0]], {})
    found["list"] = Word(["list", many[0]], {})
    found.update({word: Word([word, *few, asked], {})
                  for word, asked in (("history", "timers"), ("find", "12345"), ("calls", "fire"))})
    found["at"] = Word(["at", *few, "hang.c:28", "timers"], {})
    found["run"] = Word(["run", new + ".elf", "--", "--limit", str(3000000 // share)],
                        {new + ".log": kinds.LOG, new + ".book": kinds.TURNS})
    found["compare"] = Word(["compare", few[0], *few], {})
    found["triage"] = Word(["triage", folder, "--elfs", CRASHES, "--json", new + ".json"],
                           {new + ".json": forms.JSON})
    found.update(
        {f"export {option}": Word(["export", *few, option, new + option], {new + option: kind})
         for option, kind in export.KINDS.items()})
    found["why --html"] = Word(["why", *few, "--html", new + ".html"], {new + ".html": kinds.PAGE})
    found["convert"], found["salvage"] = (saves([word, many[0]], new)
                                          for word in ("convert", "salvage"))
    found["again"] = saves(["again", *many, f"{folder}/many.book"], new)
    found["shrink"] = saves(["shrink", *harts, f"{folder}/harts.book"], new, new + ".book")
    return {**found, **saved_runs(new, share)}


def saved_runs(new, share):
    """{name: Word}, of what records."""
    found = {}
    found["record"] = saves(["record", *LARGE, *many_rows(share), HANG], new, new + ".book")
    found["record in threads"] = saves(["record", "--format", "2", "--harts", "4", "--limit",
                                        str(10000000 // share), f"{CRASHES}/hang_barrier.elf"],
                                       new, new + ".book")._replace(ends=(0, 11))
    found["record into a pipe"] = saves(["record", "--limit", "2000", HANG],
                                        new + ".pipe", new + ".book")
    for options in ((), ("--shrink",), ("--compare",)):
        numbers = ["20", "20"] if options else ["--until", "11", "1", "300"]
        found[" ".join(["seeds", *options])] = saves(
            ["seeds", *options, "--only", "sleepers", *numbers, "--", "--format", "2", "--harts",
             "4", "--limit", "1000000", BUFFERS],
            new, new + ".book")
    return found


def used(process):
    """The processor seconds of a process, of what it waited for, and of all below it."""
    with contextlib.suppress(OSError):
        with open(f"/proc/{process}/stat", encoding="ascii", errors="replace") as file:
            own = sum(map(int, file.read().rsplit(")", 1)[1].split()[11:15])) / TICKS
        with open(f"/proc/{process}/task/{process}/children", encoding="ascii") as file:
            return own + sum(map(used, file.read().split()))
    return 0


class Call:
    """A word that is under way in a folder of its own."""

    def __init__(self, name, word, folder, temporary, old):
        self.name = name
        self.word = word
        self.folder = folder
        self.temporary = temporary
        self.old = {target: old.get(kind.name, b"")
                    for target, kind in word.targets.items() if kind.name in old}
        for entry in os.listdir(folder):
            os.remove(os.path.join(folder, entry))
        for target, data in self.old.items():
            write(target, data)
        if name == "run":                       # it saves beside the program
            shutil.copy(HANG, word.words[1])
        for target in word.targets:
            if target.endswith(".pipe"):
                self.old.pop(target, None)
                with contextlib.suppress(FileNotFoundError):
                    os.remove(target)
                os.mkfifo(target)
        self.err = tempfile.TemporaryFile()
        self.process = subprocess.Popen(
            ["env", "--default-signal=INT,TERM,HUP", SCRIPT, *word.words], stdin=subprocess.PIPE,
            stdout=subprocess.DEVNULL, stderr=self.err, start_new_session=True,
            env={**os.environ, "TMPDIR": temporary})
        self.began = time.monotonic()

    def waits(self, moment, takes):
        """Waits for a moment, as long as the call does something."""
        pid = self.process.pid
        last = -1.0
        seen = time.monotonic()
        while is_running(pid):
            now = used(pid)
            if moment == SAVING:
                if any(name.startswith(".zelkuma-") for name in os.listdir(self.folder)):
                    return
            elif now >= moment * takes:
                return
            if now > last:
                last = now
                seen = time.monotonic()
            elif time.monotonic() > seen + QUIET:
                return
            time.sleep(0.002)

    def ends(self):
        """Its status as a shell tells it, and the processor seconds that it took. KILL ends one
        that hangs."""
        until = time.monotonic() + HANGS
        while True:
            pid, status, took = os.wait4(self.process.pid, os.WNOHANG)
            if pid:
                break
            if time.monotonic() > until:
                os.killpg(self.process.pid, signal.SIGKILL)
            time.sleep(0.002)
        self.process.returncode = 0             # it is waited for
        self.process.stdin.close()
        return forked.code_of(status), took.ru_utime + took.ru_stime

    def said(self):
        self.err.seek(0)
        return self.err.read().decode(errors="replace")

    @staticmethod
    def is_in_start(said):
        """Whether INT came as python itself began, before a line of the companions was run."""
        return said.endswith("KeyboardInterrupt\n") and TOP not in said

    def trouble(self, processes):
        """What is wrong with what it left."""
        said = self.said()
        until = time.monotonic() + 10
        targets = {os.path.basename(target) + more for target in self.word.targets
                   for more in ("", ".good")} | {"new.elf"}

        def left():
            running = [f"process {process}" for process in processes if is_running(process)]
            return (running + sorted({*os.listdir(self.folder)} - targets)
                    + os.listdir(self.temporary))

        while left() and time.monotonic() < until:
            time.sleep(0.02)
        found = [f"left: {left()}"] if left() else []
        found += (["a traceback"] if ("Traceback" in said or "Error" in said)
                  and not self.is_in_start(said) else [])
        new = []
        for target, kind in self.word.targets.items():
            if os.path.isfile(target) and read(target) != self.old.get(target):
                new.append(target)
                found += [] if kind.fits(target) else [f"{os.path.basename(target)} isn't whole"]
            elif target in self.old and not os.path.isfile(target):
                found.append(f"{os.path.basename(target)} is lost")
        if len(new) == 2 and not found and len(self.word.targets) == 2:
            elf = next(word for word in self.word.words if word.endswith(".elf"))
            found += ([] if subprocess.run([program.path(), "audit", new[0], elf, new[1]],
                                           stdout=subprocess.DEVNULL, check=False).returncode == 0
                      else ["LOG and BOOK don't belong together"])
        return found


class Sweep:
    def __init__(self, folder, share):
        """Of the rows with which each word takes more than a second the logs have a share."""
        self.here = f"{folder}/here"
        self.temporary = f"{folder}/temporary"
        for name in (self.here, self.temporary):
            os.mkdir(name)
        recordings(folder, share)
        self.calls = calls(folder, f"{self.here}/new", share)
        self.old = {kinds.LOG.name: read(f"{folder}/few"),
                    kinds.TURNS.name: read(f"{folder}/few.book")}
        self.took = {}
        self.wrong = []
        self.counts = collections.Counter()
        self.number = 0

    def start(self, name):
        self.number += 1
        return Call(name, self.calls[name], self.here, self.temporary,
                    self.old if self.number % 2 else {})

    def undisturbed(self, name):
        """The status and the processor seconds of a word that nothing ends; of one that waits for
        somebody, none and QUIET."""
        if name not in self.took:
            call = self.start(name)
            if name in ("gdb", "debug", "record into a pipe"):
                time.sleep(0.2)
                os.killpg(call.process.pid, signal.SIGKILL)
                call.ends()
                self.took[name] = None, SOON
                print(f"{name}: undisturbed it waits", flush=True)
            else:
                status, took = self.took[name] = call.ends()
                print(f"{name}: undisturbed {took:.1f} s, status {status}", flush=True)
        return self.took[name]

    def one(self, name, number, moment):
        """One call that a signal ends: what is wrong, and the processor seconds from the signal
        on."""
        status, takes = self.undisturbed(name)
        call = self.start(name)
        call.waits(moment, takes)
        processes = below(call.process.pid)
        before = used(call.process.pid)
        came = time.monotonic()
        with contextlib.suppress(ProcessLookupError):
            (os.killpg if self.number // 2 % 2 else os.kill)(call.process.pid, number)
        code, total = call.ends()
        clock = time.monotonic() - came
        found = call.trouble(processes)
        in_start = call.is_in_start(call.said())
        self.counts["in python's own start"] += in_start
        if code not in (STATUSES[number], status, *call.word.ends) and not in_start:
            found.append(f"status {code}")
        self.counts["calls"] += 1
        self.counts["ended by the signal"] += code == STATUSES[number]
        self.counts["over half a second by the clock"] += clock > SOON
        return found, total - before, call.said()

    def tries(self, name, number, moment):
        late = []
        while not late or (len(late) < TRIES and late[-1] > SOON and name != "run"):
            found, after, said = self.one(name, number, moment)
            late.append(after)
            if found:
                self.tell(f"{name}, {number.name} at {moment}: {'; '.join(found)}: {said[-300:]}")
                return
        if late[-1] > SOON and name != "run":   # which records once more what was run
            self.tell(f"{name}, {number.name} at {moment}: it took {min(late):.2f} s more")

    def tell(self, line):
        self.wrong.append(line)
        print(line, flush=True)


def drawn(every_word, draw, count):
    """The name, signal and moment of so many calls of each word, or of all."""
    for name, word in every_word.items():
        moments = (*MOMENTS, SAVING) if word.targets else MOMENTS
        every = [(name, number, moment) for number in STATUSES for moment in moments]
        yield from draw.sample(every, min(len(every), count)) if count else every


def main(words):
    first = taken_from(words)
    draw = random.Random(int(words[1]) if len(words) > 1 else 1)
    is_all = words[:1] == ["all"]
    count = 0 if is_all else int((words or "1")[0])
    with tempfile.TemporaryDirectory() as folder:
        sweep = Sweep(folder, 1 if is_all else FEWER)
        for each in numbered(drawn(sweep.calls, draw, count), first):
            sweep.tries(*each)
    print(", ".join(f"{count} {what}" for what, count in sweep.counts.items())
          + f"; {len(sweep.wrong)} ended otherwise")
    sys.exit(1 if sweep.wrong else 0)


if __name__ == "__main__":
    main(sys.argv[1:])
