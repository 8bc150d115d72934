#!/usr/bin/env python3
"""Calls every word under limits of memory, open files, processes, the length of files and processor
time, without /proc or /dev/shm, and as another user in folders of others.

tests/hostile/limits.py [--from N] [EACH [SEED]]: of each word so many drawn limits (all).

A call has to end with a status of docs/COMMANDS.md, and with lines on err if that isn't 0, 10 or
11; without a traceback, unless python itself can't begin. An older target is as it was, or a whole
new one. Nothing is left beside it, in the temporary folder, or running. Without time the system
ends the call by KILL; of a script that can open no file it says 127. It ends with 1 if a call ended
otherwise."""
import collections
import ctypes
import os
import random
import resource
import signal
import subprocess
import sys
import tempfile
import time

import forked
from tried import TOP, numbered, read, taken_from, write

sys.path.insert(0, TOP)
from companion.call import kinds, program                     # noqa: E402
from companion.questions import export                        # noqa: E402
from companion.triage import forms                            # noqa: E402

SCRIPT = f"{TOP}/zelkuma"
CRASHES = f"{TOP}/tests/crashes"
NOBODY = 65534
ELF = f"{CRASHES}/use_after_free.elf"
BUFFERS = f"{TOP}/examples/buffers.elf"
LAST_STATUS = 23
KILLED = 137
NO_LIBRARY = 127
OF_RUN = 124, 139           # what `run` passes on of a program that hangs or crashes
MIB = 1 << 20
LIMITS = {"memory": (resource.RLIMIT_AS,
                     [size * MIB for size in (4, 8, 12, 16, 24, 32, 40, 48, 64, 96, 128, 256)]),
          "files": (resource.RLIMIT_NOFILE, [3, 4, 5, 6, 7, 8, 10, 12, 16, 24]),
          "processes": (resource.RLIMIT_NPROC, [0, 1, 2, 3, 4, 6]),
          "length": (resource.RLIMIT_FSIZE, [0, 1, 100, 1000, 4096, 20000]),
          "time": (resource.RLIMIT_CPU, [0, 1])}
CLONE_NEWNS = 0x20000
MS_REC = 0x4000
MS_PRIVATE = 1 << 18
WORDS_OF_PROGRAM = ("record", "list", "check", "replay", "joint", "audit", "races", "slice",
                    "convert", "salvage", "demo", "debug")


def calls(folder, new):
    """{word: (its words, {target: kind})}"""
    log = f"{folder}/LOG"
    book = f"{folder}/LOG.book"
    harts = [f"{folder}/HARTS", BUFFERS, f"{folder}/HARTS.book"]
    both = [log, ELF]
    found = {word: ([word, *both], {})
             for word in ("why", "bucket", "output", "race", "memory", "gdb", "joint", "debug")}
    found.update(
        {"view": (["view", *both, "--with-questions"], {}), "names": (["names", ELF, "main"], {}),
         "history": (["history", *both, "arena"], {}), "calls": (["calls", *both, "main"], {}),
         "find": (["find", *both, "1"], {}), "compare": (["compare", log, *both], {}),
         "at": (["at", *both, "use_after_free.c:31", "1"], {}), "list": (["list", log], {}),
         "check": (["check", log], {}), "replay": (["replay", *both, "0", "0"], {}),
         "audit": (["audit", *both, book], {}), "races": (["races", *both, "9"], {}),
         "slice": (["slice", *both, "0", "0", "9"], {}), "demo": (["demo", "7"], {})})
    found["triage"] = ["triage", log, "--elfs", CRASHES, "--html", new], {new: kinds.PAGE}
    found["triage --json"] = ["triage", log, "--elfs", CRASHES, "--json", new], {new: forms.JSON}
    found["why --html"] = ["why", *both, "--html", new], {new: kinds.PAGE}
    found.update({f"export {option}": (["export", *both, option, new], {new: kind})
                  for option, kind in export.KINDS.items()})
    pair = {new: kinds.LOG, new + ".book": kinds.TURNS}
    found["record"] = ["record", "--harts", "4", "--seed", "3", BUFFERS, new, new + ".book"], pair
    found["again"] = ["again", *both, book, new], {new: kinds.LOG}
    found.update({word: ([word, log, new], {new: kinds.LOG}) for word in ("convert", "salvage")})
    found["shrink"] = ["shrink", *harts, new, new + ".book"], pair
    found["seeds"] = ["seeds", "--only", "sleepers", "20", "20", "--", "--format", "2", "--harts",
                      "4", "--limit", "100000", BUFFERS, new, new + ".book"], pair
    found["run"] = ["run", new + ".elf"], {new + ".log": kinds.LOG, new + ".book": kinds.TURNS}
    return found


def limited(number, value):
    def prepare():
        if number == resource.RLIMIT_NPROC and not os.geteuid():    # there is no limit for root
            os.setgroups([])
            os.setgid(NOBODY)
            os.setuid(NOBODY)
        os.setsid()
        resource.setrlimit(number, (value, value))
    return prepare


def without(place):
    """A new process in which a folder of the system is empty."""
    def prepare():
        os.setsid()
        system = ctypes.CDLL(None, use_errno=True)
        if (system.unshare(CLONE_NEWNS)
                or system.mount(b"none", b"/", None, MS_REC | MS_PRIVATE, None)
                or system.mount(b"none", place.encode(), b"tmpfs", 0, None)):
            os._exit(forked.TRACEBACK)
    return prepare


def can_mount():
    return not subprocess.run(["true"], preexec_fn=without("/dev/shm"), check=False).returncode


def another_user():
    os.setsid()
    os.setgroups([])
    os.setgid(NOBODY)
    os.setuid(NOBODY)


def script(words):
    os.execv(SCRIPT, [SCRIPT, *words])


def running(session):
    """The processes of a session."""
    found = []
    for name in filter(str.isdigit, os.listdir("/proc")):
        try:
            with open(f"/proc/{name}/stat", encoding="ascii", errors="replace") as file:
                fields = file.read().rsplit(")", 1)[1].split()
        except OSError:
            continue
        if fields[3] == str(session) and fields[0] != "Z":
            found.append(name)
    return found


def broken(targets, old):
    """The files that a call lost, or left as neither the old ones nor whole new ones."""
    for target, kind in targets.items():
        if target in old and not os.path.exists(target):
            yield f"{os.path.basename(target)} is lost"
        elif (os.path.exists(target) and os.path.getsize(target)
              and read(target) != old.get(target) and not kind.fits(target)):
            yield f"{os.path.basename(target)} isn't whole"


class Tries:
    def __init__(self, folder):
        self.folder = folder
        self.here = f"{folder}/here"
        self.temporary = f"{folder}/temporary"
        for name in (self.here, self.temporary):
            os.mkdir(name, 0o777)
            os.chmod(name, 0o777)
        os.chmod(folder, 0o755)
        for name, words in (("LOG", [ELF]), ("HARTS", ["--harts", "4", BUFFERS])):
            subprocess.run([program.path(), "record", "--format", "2", *words,
                            f"{folder}/{name}", f"{folder}/{name}.book"],
                           env={**os.environ, "ZELKUMA_SCHEDULE": "sleeper:20"},
                           stderr=subprocess.DEVNULL, check=False)
            os.chmod(f"{folder}/{name}", 0o644)
            os.chmod(f"{folder}/{name}.book", 0o644)
        self.calls = calls(folder, f"{self.here}/new")
        self.old = {"LOG": read(f"{folder}/LOG"), "BOOK": read(f"{folder}/LOG.book")}
        self.wrong = []
        self.counts = collections.Counter()
        os.environ.update(TMPDIR=self.temporary, XDG_CACHE_HOME=f"{folder}/cache", HOME=folder)

    def fresh(self, targets, sticky):
        """Empties the folder, and puts older files there."""
        for name in os.listdir(self.here):
            os.remove(os.path.join(self.here, name))
        os.chmod(self.here, 0o1777 if sticky else 0o777)
        write(f"{self.here}/new.elf", read(ELF))
        os.chmod(f"{self.here}/new.elf", 0o755)
        old = {target: self.old["LOG" if kind is kinds.LOG else "BOOK"]
               for target, kind in targets.items() if kind in (kinds.LOG, kinds.TURNS)}
        for target, data in old.items():
            write(target, data)
            os.chmod(target, 0o666)
        return old

    def one(self, word, what, prepare, may_be_killed=False, sticky=False):
        words, targets = self.calls[word]
        old = self.fresh(targets, sticky)
        told = []

        def begin():
            prepare()
            os.write(pipe[1], str(os.getpid()).encode())

        pipe = os.pipe()
        ended = forked.companion(words, self.folder, prepare=begin,
                                 run=script if words[0] in WORDS_OF_PROGRAM else forked.call.main,
                                 out=os.devnull)
        os.set_blocking(pipe[0], False)
        try:
            session = int(os.read(pipe[0], 99))
        except (BlockingIOError, ValueError):
            session = 0
        for end in pipe:
            os.close(end)
        own = {"run": OF_RUN}.get(word, ()) + ((NO_LIBRARY,) if what == "files 3" else ())
        is_fine = ((ended.status <= LAST_STATUS or ended.status in own)
                   and (ended.status in (0, 10, 11) or bool(ended.err)))
        if (not is_fine and not (may_be_killed and ended.status in (KILLED, 128 + signal.SIGXCPU))
                or ended.has_traceback):
            told.append(f"status {ended.status}: {ended.err[-400:].decode(errors='replace')}")
        until = time.monotonic() + 10
        while self.left(targets, session) and time.monotonic() < until:
            time.sleep(0.02)
        told += self.left(targets, session)
        told += broken(targets, old)
        self.counts[f"{ended.status}"] += 1
        if told:
            self.wrong.append(word)
            print(f"{word}, {what}: {'; '.join(told)}", flush=True)

    def left(self, targets, session):
        names = {os.path.basename(target) for target in targets} | {"new.elf"}
        return (sorted({*os.listdir(self.here)} - names) + os.listdir(self.temporary)
                + (running(session) if session else []))


def settings():
    """(what, prepare, whether KILL may come, whether the folder is sticky)"""
    for what, (number, values) in LIMITS.items():
        yield from ((f"{what} {value}", limited(number, value), what == "time", False)
                    for value in values)
    places = ("/proc", "/dev/shm") if can_mount() else ()
    if not places:
        print("skipped: calls without /proc or /dev/shm: to mount there isn't permitted")
    yield from ((f"without {place}", without(place), False, False) for place in places)
    if not os.geteuid():
        yield from (("another user's files" + ", sticky" * sticky, another_user, False, sticky)
                    for sticky in (False, True))


def main(words):
    first = taken_from(words)
    every = list(settings())
    draw = random.Random(int(words[1]) if len(words) > 1 else 1)
    with tempfile.TemporaryDirectory() as folder:
        tries = Tries(folder)
        all_tries = ((word, setting) for word in tries.calls for setting in (
            draw.sample(every, min(len(every), int(words[0]))) if words else every))
        for word, setting in numbered(all_tries, first):
            tries.one(word, *setting)
    print(", ".join(f"status {status}: {count}" for status, count in sorted(tries.counts.items()))
          + f"; {len(tries.wrong)} calls ended otherwise")
    sys.exit(1 if tries.wrong else 0)


if __name__ == "__main__":
    main(sys.argv[1:])
