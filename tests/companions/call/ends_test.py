"""How a companion ends that is told to: by which status, and that no process and no folder of it
stays."""
import os
import pty
import re
import shutil
import signal
import subprocess
import sys
import time

import cases
from common import COMPANION, CRASHES, EXAMPLES, PROGRAM, TOP, companion, content
from processes import below, is_running, shown_at

HAND_OVER = os.path.join(EXAMPLES, "hand_over.elf")
# Seconds after which a call hangs: others may have the processors. What it starts sleeps longer.
BOUND = 300
# Processor seconds: after so many Ctrl-C comes, and in so many more all ends (0.2 is the goal)
WHEN = (0, 0.3, 0.8, 1.6)
AT_ONCE = 0.5
STATUSES = {signal.SIGINT: 130, signal.SIGTERM: 143, signal.SIGHUP: 129}


def programs(process, name="sleep"):
    """Those of them that a companion waits for."""
    found = []
    for child in below(process):
        try:
            with open(f"/proc/{child}/cmdline", "rb") as file:
                found += [child] * file.read().startswith(name.encode() + b"\0")
        except OSError:
            pass
    return found


def awaits(what):
    until = time.monotonic() + BOUND
    while not what():
        assert time.monotonic() < until
        time.sleep(0.02)


class Calls:
    """Companions whose program never ends, in a folder of their own."""

    def __init__(self, recordings, name):
        self.folder = recordings.path(name)
        self.temporary = recordings.path(name + "-tmp")
        os.mkdir(self.folder)
        os.mkdir(self.temporary)
        self.log, self.book, self.new = (os.path.join(self.folder, word)
                                         for word in ("LOG", "BOOK", "NEW"))
        log, self.elf = recordings.example("counter", "--limit", "2000")
        shutil.copy(log, self.log)
        shutil.copy(recordings.path("book"), self.book)
        self.script = os.path.join(self.folder, "program")

    def program(self, line):
        with open(self.script, "w", encoding="ascii") as file:
            file.write(f"#!/bin/bash\n{line}\nexec sleep 600\n")
        os.chmod(self.script, 0o755)

    def start(self, *words):
        """A companion, once it waits for the program."""
        process = subprocess.Popen([sys.executable, COMPANION, *words], stdin=subprocess.PIPE,
                                   stdout=subprocess.PIPE, stderr=subprocess.PIPE,
                                   start_new_session=True,
                                   env=dict(os.environ,
                                            ZELKUMA_PROGRAM=self.script, TMPDIR=self.temporary))
        awaits(lambda: process.poll() is not None or programs(process.pid))
        return process

    def words(self):
        names = self.log, self.elf
        return [(word, *names)
                for word in ("why", "race", "view", "bucket", "output", "gdb", "memory")] + [
            ("history", *names, "0x12000"), ("calls", *names, "main"), ("find", *names, "1"),
            ("compare", self.log, *names),
            ("at", *names, "hang.c:1", "1"), ("whatif", *names, self.book, "0:5", "--skip"),
            ("export", *names, "--lcov", self.new), ("triage", self.folder, "--elfs", self.elf),
            ("again", *names, self.book, self.new),
            ("shrink", *names, self.book, self.new, self.new + "2"),
            ("recheck", *names, self.book, self.elf, "--order", self.new),
            ("seeds", "1", "9", "--", self.elf, self.new, self.new + "2")]

    def check_clean(self, words):
        left = [name for name in os.listdir(self.folder) if name not in ("LOG", "BOOK", "program")]
        assert not left and not os.listdir(self.temporary), (words, left)


def case_each_signal_ends_all(recordings):
    """It comes to the companion alone, as from `timeout` or a job's end. The first word gets each,
    the others one in turn."""
    calls = Calls(recordings, "signals")
    calls.program("")
    every = list(STATUSES.items())
    for place, words in enumerate(calls.words()):
        for number, status in [every[place % 3]] if place else every:
            process = calls.start(*words)
            began = below(process.pid)
            process.send_signal(number)
            out, err = process.communicate(timeout=BOUND)
            assert (process.returncode, out, err) == (status, b"", b""), (words, process.returncode,
                                                                          out, err)
            awaits(lambda: began and not any(map(is_running, began)))
            calls.check_clean(words)


def case_who_is_killed_takes_its_processes_and_folders_along(recordings):
    calls = Calls(recordings, "killed")
    calls.program("")
    for words in calls.words():
        process = calls.start(*words)
        began = below(process.pid)
        process.kill()
        process.communicate(timeout=BOUND)
        awaits(lambda: not any(map(is_running, began)))
        assert began
        calls.check_clean(words)


LOSES_A_CHILD = """import os, signal, sys, time
sys.path.insert(0, sys.argv[1])
from companion.call import children
from companion.triage import pool, work
class Popen(children.subprocess.Popen):
    def __init__(self, *words, **streams):
        super().__init__(*words, **streams)
        os.kill(os.getppid(), signal.SIGKILL)
        time.sleep(600)                         # until the system ends it
children.subprocess.Popen = Popen
pool.Work.answer = lambda self, task: children.start(["sleep", "600"])
list(pool.answers([work.Task("", "")], 1))
"""


def case_who_is_killed_while_a_child_starts_takes_it_along(recordings):
    """A process of `triage` that is ended then doesn't know of the child: its group has to end
    it."""
    process = subprocess.Popen([sys.executable, "-c", LOSES_A_CHILD, os.path.dirname(COMPANION)],
                               start_new_session=True, stdout=subprocess.PIPE)
    process.communicate(timeout=BOUND)          # the child has its output as long as it runs


SWALLOWS = """import os, signal, sys, time
sys.path.insert(0, sys.argv[1])
from companion.call import streams
class Closed:
    def __del__(self):
        os.kill(os.getpid(), signal.SIGTERM)
streams.on_interrupt(streams.interrupt)
Closed()
time.sleep(600)
"""


def case_a_signal_that_python_forgets_ends_all(recordings):
    """What is raised in a destructor goes no further."""
    done = subprocess.run([sys.executable, "-c", SWALLOWS, os.path.dirname(COMPANION)],
                          stderr=subprocess.PIPE, timeout=BOUND, check=False)
    assert done.returncode == 143 and b"KeyboardInterrupt" in done.stderr, done


def case_a_large_log_leaves_no_folder(recordings):
    """The end of one is a log of its own."""
    calls = Calls(recordings, "large")
    with open(calls.log, "r+b") as log:
        log.truncate((1 << 20) + 1)
    for word in "why", "triage":
        calls.program('[ "$1" = check ] && exit')   # it is to be converted then
        process = calls.start(*[words for words in calls.words() if words[0] == word][0])
        assert os.listdir(calls.temporary)
        began = below(process.pid)
        process.kill()
        process.communicate(timeout=BOUND)
        awaits(lambda: not any(map(is_running, began)))
        calls.check_clean(word)


def case_what_searches_for_a_place_ends_too(recordings):
    """A process of `seeds` that has one of its own."""
    calls = Calls(recordings, "place")
    calls.program(f'[ "$1" != record ] || exec {PROGRAM} "$@"')
    process = calls.start("seeds", "-j1", "--only", "seeds", "3", "3", "--", "--harts", "2",
                          HAND_OVER, calls.new, calls.new + "2")
    began = []

    def has_begun():
        began[:] = below(process.pid)
        return len(programs(process.pid)) > 0

    awaits(has_begun)
    process.kill()
    process.communicate(timeout=BOUND)
    awaits(lambda: not any(map(is_running, began)))


def case_the_tool_for_lines_ends_too(recordings):
    calls = Calls(recordings, "tool")
    tools = os.path.join(calls.folder, "tools")
    os.mkdir(tools)
    calls.script = os.path.join(tools, "riscv64-unknown-elf-addr2line")
    calls.program("")
    process = subprocess.Popen([sys.executable, COMPANION, "names", calls.elf],
                               stdin=subprocess.PIPE, stdout=subprocess.PIPE,
                               env=dict(os.environ, PATH=f"{tools}:{os.environ['PATH']}"))
    process.stdin.write(b"0 0 00010074 00000013 addi zero,zero,0\n")
    process.stdin.flush()
    awaits(lambda: programs(process.pid))
    began = below(process.pid)
    process.kill()
    process.communicate(timeout=BOUND)
    awaits(lambda: not any(map(is_running, began)))


def case_what_seeds_has_found_is_kept(recordings):
    for number, status in STATUSES.items():
        calls = Calls(recordings, f"found-{status}")
        calls.program('[ -n "${ZELKUMA_SCHEDULE-}" ] || exec sleep 600; printf BUGNETLG >"${@: '
                      '-2:1}"; printf "\\0" >"${@: -1}"; exit 0')
        process = calls.start("seeds", "-j2", "--only", "seeds,sleepers", "--until", "0", "0", "9",
                              "--", calls.elf, calls.new, calls.new + "2")
        awaits(lambda: any("sleeper-0.1" in names for _, _, names in os.walk(calls.folder))
               and len(below(process.pid)) == 4)        # three are guards
        # Ctrl-C comes to all of its group
        send = os.killpg if number == signal.SIGINT else os.kill
        send(process.pid, number)
        out, err = process.communicate(timeout=BOUND)
        assert (process.returncode == status and out.startswith(b"sleeper 0: status 0\n")
                and err == b""), (out, err)
        assert re.search(rb"\n0 +1 +sleeper 0 +-\n\Z", out), out
        assert (content(calls.new) == b"BUGNETLG"
                and sorted(os.listdir(calls.folder)) == ["BOOK", "LOG", "NEW", "NEW2", "program"])


def shrinks(process):
    """Whether it makes a try of a search."""
    return any(re.search(rb"/[1-9][0-9]*\.log\0", content_of(f"/proc/{child}/cmdline"))
               for child in below(process))


def content_of(name):
    try:
        return content(name)
    except OSError:
        return b""


def case_a_signal_ends_what_seeds_shrink(recordings):
    """What was found by then is saved."""
    log = recordings.path("shrunk")
    book = recordings.path("shrunk.book")
    elf = os.path.join(EXAMPLES, "buffers.elf")
    for option, (number, status) in zip(("--shrink", "--compare", "--shrink"), STATUSES.items()):
        process = subprocess.Popen([sys.executable, COMPANION, "seeds", option, "--only",
                                    "sleepers", "20", "20", "--", "--format", "2", "--harts", "4",
                                    "--limit", "1000000", elf, log, book], stdout=subprocess.PIPE,
                                   stderr=subprocess.PIPE, start_new_session=True)
        awaits(lambda: process.poll() is not None or shrinks(process.pid))
        began = below(process.pid)
        process.send_signal(number)
        _, err = process.communicate(timeout=BOUND)
        assert process.returncode == status and b"the search was ended before it was done" in err, (
            process.returncode, err)
        awaits(lambda: not any(map(is_running, began)))
        assert subprocess.run([PROGRAM, "audit", log, elf, book], stdout=subprocess.PIPE,
                              check=True).stdout == b"agree\n"


def case_packages_are_not_imported_at_the_start(recordings):
    """Ctrl-C would end that with a traceback and status 1."""
    recordings.write("sitecustomize.py", b"raise SystemExit('imported')")
    for words in ["why", "--help"], ["--version"]:
        done = subprocess.run([os.path.join(TOP, "zelkuma"), *words], stdout=subprocess.PIPE,
                              stderr=subprocess.PIPE, check=False,
                              env=dict(os.environ, PYTHONPATH=recordings.folder))
        assert (done.returncode, done.stderr) == (0, b""), done


def case_the_end_of_the_terminal_can_be_ignored(recordings):
    """As by nohup."""
    calls = Calls(recordings, "nohup")
    calls.program("")
    handler = signal.signal(signal.SIGHUP, signal.SIG_IGN)
    try:
        process = calls.start("why", calls.log, calls.elf)
    finally:
        signal.signal(signal.SIGHUP, handler)
    process.send_signal(signal.SIGHUP)
    time.sleep(0.2)
    assert process.poll() is None
    process.terminate()
    process.communicate(timeout=BOUND)
    assert process.returncode == 143


class Work:
    """Companions that compute for a while: of a program that hangs, of whose rows each looks at
    some 300,000."""

    def __init__(self, recordings):
        self.log, self.elf = recordings.record(os.path.join(CRASHES, "hang.elf"), "--format",
                                               "2", "--limit", "300000")
        self.new = recordings.path("new")

    def words(self):
        names = self.log, self.elf
        yield from ((word, *names)
                    for word in ("why", "race", "view", "bucket", "output", "memory"))
        yield from (("history", *names, "timers"), ("find", *names, "12345"),
                    ("calls", *names, "fire"), ("compare", self.log, self.log, self.elf),
                    ("export", *names, "--perfetto", self.new))


def used_by(process):
    """The processor time of a process and of those that it waited for."""
    with open(f"/proc/{process}/stat", encoding="ascii", errors="replace") as file:
        return sum(map(int,
                       file.read().rsplit(")", 1)[1].split()[11:15])) / os.sysconf("SC_CLK_TCK")


def seconds_after(words, when):
    """The processor time of a companion from Ctrl-C on, its status and its err. Ctrl-C comes so
    much of it after it began to ask the program."""
    process = subprocess.Popen([sys.executable, COMPANION, *words],
                               stdout=subprocess.DEVNULL, stderr=subprocess.PIPE)
    awaits(lambda: programs(process.pid, PROGRAM) or not is_running(process.pid))
    began = used_by(process.pid)
    awaits(lambda: used_by(process.pid) >= began + when or not is_running(process.pid))
    before = used_by(process.pid)
    os.kill(process.pid, signal.SIGINT)         # it may have ended, and isn't waited for
    err = process.stderr.read()
    process.stderr.close()
    _, status, used = os.wait4(process.pid, 0)
    process.returncode = 0                      # it is waited for
    return (used.ru_utime + used.ru_stime - before,
            os.WEXITSTATUS(status) if os.WIFEXITED(status) else -os.WTERMSIG(status), err)


def case_ctrl_c_ends_work_at_once(recordings):
    """Wherever it comes, and whatever the companion is doing."""
    for place, words in enumerate(Work(recordings).words()):
        for when in WHEN[place % 2::2]:
            tries = []
            while len(tries) < 3 and not any(seconds <= AT_ONCE for seconds, _, _ in tries):
                tries.append(seconds_after(words, when))
                assert tries[-1][1:] in ((130, b""), (0, b"")), (words, tries)
            assert any(seconds <= AT_ONCE for seconds, _, _ in tries), (words, when, tries)


def case_what_lasts_is_told_at_a_terminal(recordings):
    """How many rows are read, if the program takes its time over them."""
    calls = Calls(recordings, "lasting")
    work = Work(recordings)
    with open(calls.script, "w", encoding="ascii") as file:
        file.write(f"#!/bin/bash\ncase $1 in joint|replay) {PROGRAM} \"$@\" | (head -c 600000; "
                   f"sleep 1.5; cat);; *) exec {PROGRAM} \"$@\";; esac\n")
    os.chmod(calls.script, 0o755)
    began = []
    for words in work.words():
        ours, theirs = pty.openpty()
        process = subprocess.Popen([sys.executable, COMPANION, *words], stdout=subprocess.DEVNULL,
                                   stderr=theirs,
                                   env=dict(os.environ, ZELKUMA_PROGRAM=calls.script))
        os.close(theirs)
        began.append((words, process, ours))
    for words, process, ours in began:
        said = shown_at(ours)
        assert process.wait(BOUND) == 0, (words, said)
        assert words[0] == "race" or b" rows are read\x1b[K" in said, (words, said)
        assert said.endswith(b"\r\x1b[K") or words[0] == "race", (words, said)


def case_a_pipe_is_refused_at_once(recordings):
    """Files are read several times."""
    calls = Calls(recordings, "pipes")
    pipe = recordings.path("pipe")
    os.mkfifo(pipe)
    for words in calls.words():
        for at, name in enumerate(words):
            # That passes over others
            if name in (calls.log, calls.elf, calls.book) and words[0] != "triage":
                done = companion(*words[:at], pipe, *words[at + 1:], bound=BOUND)
                assert (done[0] == 3 and done[2] == f"zelkuma: {pipe} is no regular file, "
                        "and it is read several times: copy it into one\n"), done
    done = companion("names", pipe, bound=BOUND)
    assert done[0] == 3, done


Cases = cases.tests_of(globals())
