"""`triage`: a folder with equal, different, damaged, forged and foreign files; its forms; what a
log may take."""
import errno
import hashlib
import json
import os
import shlex
import shutil
import signal
import subprocess
import sys
import time
import unittest
import xml.etree.ElementTree

import case
import common
import forged
from recordings import A0, EXIT, addi, elf_of
from common import COMPANION, CRASHES, PROGRAM, TOP, companion, content, path, written
from companion.call.errors import FOUND
from companion.triage import pool as triage_pool, work as triage_work

# The log of the last has several blocks
USED = "use_after_free"
FREED = "double_free"
LARGE = "libc_scale"


def with_flipped(data, at):
    return data[:at] + bytes([data[at] ^ 1]) + data[at + 1:]


class Fleet:
    """A folder of logs and one of programs. Each log's date is its place in `names`."""

    def __init__(self, name):
        self.logs = path(name + "/logs")
        self.elfs = path(name + "/elfs")
        self.cache = {"XDG_CACHE_HOME": path(name + "/cache")}
        self.names = []
        os.makedirs(self.elfs)

    def elf(self, name):
        shutil.copy(os.path.join(CRASHES, name + ".elf"), self.elfs)
        return os.path.join(self.elfs, name + ".elf")

    def add(self, name, log):
        place = os.path.join(self.logs, name)
        written(place, content(log) if isinstance(log, str) else log)
        os.utime(place, (1000000000 + 86400 * len(self.names),) * 2)
        self.names.append(place)
        return place

    def answer(self, *more, status=0, environment=None):
        saved = os.path.join(self.elfs, "..", "answer")
        found, said, err = companion("triage", self.logs, "--elfs", self.elfs, "--json", saved,
                                     *more, environment={**self.cache, **(environment or {})})
        assert (found, err) == (status, ""), (found, err)
        return json.loads(content(saved)), said


def bucket(log, elf):
    return common.companion("bucket", log, elf)[1].rstrip("\n")


class TriageTest(case.Case):
    fleet: Fleet
    answer: dict
    said: str
    before: dict

    @classmethod
    def setUpClass(cls):
        if not common.present_tools():
            raise unittest.SkipTest("no addr2line is installed")
        cls.fleet = fleet = Fleet("fleet")
        used = common.crash(USED)[0]
        freed = common.crash(FREED)[0]
        for name in (USED, FREED, LARGE):
            fleet.elf(name)
        fleet.add("first.log", used)
        fleet.add("other", freed)
        fleet.add("below/it/<b>.log", used)
        fleet.add("salvaged.log", with_flipped(content(common.crash(LARGE)[0]), 3000))
        fleet.add("lost.log", with_flipped(content(used), len(content(used)) - 1))
        fleet.add("cut.log", content(used)[:100])
        fleet.add("no_elf.log", common.crash("null_route")[0])
        fleet.add("stuck.log", forged.stuck(common.example("counter")))
        shutil.copy(common.example("counter"), fleet.elfs)
        for name, data in (("README", b"text"), ("empty.log", b""),
                           ("a.elf", content(common.example("sort")))):
            written(os.path.join(fleet.logs, name), data)
        cls.before = {name: content(name) for name in fleet.names}
        cls.answer, cls.said = fleet.answer("--junit", path("junit"), "--html", path("table.html"))

    def test_counts(self):
        groups = {one["line"]: one for one in self.answer["buckets"]}
        names = [os.path.relpath(name, self.fleet.logs) for name in self.fleet.names]
        lines = [bucket(name, os.path.join(self.fleet.elfs, elf + ".elf"))
                 for name, elf in zip(self.fleet.names, (USED, FREED))]
        self.assertEqual([groups[line]["count"] for line in lines], [2, 1])
        self.assertEqual((self.answer["logs"], self.answer["others"], self.answer["causes"]),
                         (len(names), 3, 3))
        first = groups[lines[0]]
        self.assertEqual((first["first"]["log"], first["last"]["log"]),
                         (self.fleet.names[0], self.fleet.names[2]))
        self.assertEqual((first["first"]["time"], first["last"]["time"]),
                         ("2001-09-09T01:46:40Z", "2001-09-11T01:46:40Z"))
        self.assertEqual((first["harts"], first["salvaged"], first["elf"]),
                         ([1], 0, os.path.join(self.fleet.elfs, USED + ".elf")))
        self.assertEqual({name: content(name) for name in self.fleet.names}, self.before)

    def test_a_salvaged_log(self):
        found, = [one for one in self.answer["buckets"] if one["salvaged"]]
        self.assertEqual((found["reason"], found["count"], found["example"]),
                         ("LoadMisaligned", 1, self.fleet.names[3]))
        script = found["command"].replace("zelkuma why", f"{sys.executable} {COMPANION} "
                                          "why").replace("zelkuma ", PROGRAM + " ")
        done = subprocess.run(["sh", "-c", script], stdout=subprocess.PIPE, check=False)
        os.remove(self.fleet.names[3] + ".salvaged")
        self.assertEqual((done.returncode, b"SUSPECTS" in done.stdout), (0, True))

    def test_what_is_not_read(self):
        whys = {one["first"]["log"]: (one["why"], one["count"]) for one in self.answer["unread"]}
        digest = hashlib.sha256(content(os.path.join(CRASHES, "null_route.elf"))).hexdigest()
        self.assertEqual(whys, {
            self.fleet.names[4]: ("it is damaged, and nothing of it could be salvaged", 2),
            self.fleet.names[6]: (f"no ELF file has its SHA-256, {digest}", 1),
            self.fleet.names[7]: (whys[self.fleet.names[7]][0], 1)})
        self.assertIn("Stuck", whys[self.fleet.names[7]][0])

    def test_the_command_and_the_suspect(self):
        """The suspect is the first that `why` tells, and the command of the table tells it."""
        first, = [one for one in self.answer["buckets"] if one["count"] == 2]
        words = shlex.split(first["command"])
        self.assertEqual(words[:2], ["zelkuma", "why"])
        told = json.loads(self.says(*words[1:], "--json"))["suspects"][0]
        self.assertTrue(first["suspect"].startswith(
            "%s %s %s:%d" % (told["did"], *(told["guilty"]["place"][key]
                                            for key in ("function", "file", "line")))), first)

    def test_the_first_memory_error(self):
        """It is the one that `memory` tells first, and stands before the suspect."""
        fleet = Fleet("errors")
        name = "libc_end_of_block"
        fleet.add("bad.log", common.crash(name)[0])
        answer, said = fleet.answer() if fleet.elf(name) else ({}, "")
        found = json.loads(self.says("memory", fleet.names[0], os.path.join(CRASHES, name + ".elf"),
                                     "--json"))["findings"][0]
        place = found["calls"][0]
        told = (f"{found['kind']}: {found['text']}, "
                f"in {place['function']} {place['file']}:{place['line']}")
        self.assertTrue(answer["buckets"][0]["memory_error"].startswith(told), answer)
        self.assertLess(said.index("  memory error: " + told), said.index("  suspect: "))
        self.assertEqual({one["memory_error"] for one in self.answer["buckets"]
                          if one["function"] != "-" and FREED in one["place"]}, {""})

    def test_the_text(self):
        lines = self.said.split("\n")
        self.assertEqual(lines[0], "8 logs: 3 causes, 1 salvaged, 4 not read, 3 other files")
        first, = [one for one in self.answer["buckets"] if one["count"] == 2]
        at = lines.index(f"2  {first['line']}")
        self.assertEqual(lines[at + 2:at + 4],
                         [f"  suspect: {first['suspect']}", "  " + first["command"]])
        self.assertRegex(lines[at + 1], r"^  harts 1; 2001-09-\d\d \d\d:\d\d \S+first.log to "
                         r"2001-09-1\d \d\d:\d\d \S+<b>.log$")

    def test_junit(self):
        suite = xml.etree.ElementTree.fromstring(content(path("junit")))
        self.assertEqual((suite.get("tests"), suite.get("failures"), suite.get("errors")),
                         ("6", "3", "3"))
        names = {one.get("name") for one in suite if one.find("failure") is not None}
        self.assertEqual(names, {one["line"] for one in self.answer["buckets"]})

    def test_the_page(self):
        page = content(path("table.html")).decode()
        self.assertIn("default-src 'none'", page)
        self.assertNotIn("<script", page)
        self.assertNotIn("<b>", page)
        self.assertIn("&lt;b&gt;.log", page)

    def test_names_of_any_bytes(self):
        """A name that the program doesn't take is told, and none gets into a terminal or the XML as
        it is."""
        fleet = Fleet("names")
        log = common.crash(USED)[0]
        fleet.elf(USED)
        name = fleet.add("$(x) & '<\"y\">'.log", log)
        other = fleet.add(os.fsdecode(b"\x1b[1m\n\xff.log"), log)
        answer, said = fleet.answer("--junit", path("names/junit"))
        self.assertEqual((answer["buckets"][0]["example"], answer["unread"][0]["first"]["log"]),
                         (name, other))
        self.assertEqual(shlex.split(answer["buckets"][0]["command"])[2], name)
        self.assertNotIn("\x1b", said)
        xml.etree.ElementTree.fromstring(content(path("names/junit")))

    def test_a_run_that_exits(self):
        """One that ended well is no cause."""
        fleet = Fleet("exits")
        fails = written(os.path.join(fleet.elfs, "fails.elf"), elf_of([addi(A0, 0, 3), *EXIT]))
        fleet.add("log", common.record("exit", fails, "--seed", "1"))
        fleet.add("well", common.record("well", fleet.elf("wrong_total"), "--seed", "1"))
        answer, said = fleet.answer("--junit", path("exits/junit"))
        self.assertEqual([(one["reason"], one["suspect"]) for one in answer["buckets"]],
                         [("exit", "")])
        self.assertEqual((answer["good"], said.split("\n")[0]),
                         (1, "2 logs: 1 cause, 1 ended well"))
        self.assertEqual(
            xml.etree.ElementTree.fromstring(content(path("exits/junit"))).get("failures"), "0")

    def test_a_gate(self):
        """With --fail no run that ended badly is a success, nor is a log that can't be read."""
        fleet = Fleet("gate")
        fleet.add("well", common.record("gate", fleet.elf("wrong_total"), "--seed", "1"))
        fleet.answer("--fail")
        lost = fleet.add("lost", b"BUGNETLG")
        fleet.answer("--fail", status=FOUND)
        fleet.answer()
        os.remove(lost)
        fails = written(os.path.join(fleet.elfs, "fails.elf"), elf_of([addi(A0, 0, 3), *EXIT]))
        fleet.add("exit", common.record("exit3", fails, "--seed", "1"))
        fleet.answer("--fail", status=FOUND)

    def test_the_cache(self):
        """Digests are remembered; a cache that is gone, broken or can't be saved changes
        nothing."""
        cache = os.path.join(self.fleet.cache["XDG_CACHE_HOME"], "zelkuma", "elfs.json")
        known = json.loads(content(cache))["files"]
        for name in (USED, FREED):
            elf = os.path.join(self.fleet.elfs, name + ".elf")
            self.assertEqual(known[os.path.abspath(elf)][-1],
                             hashlib.sha256(content(elf)).hexdigest())
        counts = [one["count"] for one in self.answer["buckets"]]
        for data in (b"{", b"[]", b'{"files": {"a": 7}}', b'{"files": 7}'):
            written(cache, data)
            self.assertEqual([one["count"] for one in self.fleet.answer()[0]["buckets"]], counts)
        self.assertEqual([one["count"] for one in self.fleet.answer(
                              environment={"XDG_CACHE_HOME": "/dev/null"})[0]["buckets"]], counts)

    def test_another_program_in_the_place_of_one(self):
        """It has the same size and time, as of an archive; digests aren't those that are
        remembered."""
        fleet = Fleet("exchanged")
        elf = fleet.elf(USED)
        log = common.crash(USED)[0]
        fleet.add("log", log)
        about = os.stat(elf)
        self.assertEqual(len(fleet.answer()[0]["buckets"]), 1)
        other = written(elf + ".new", content(elf)[:-1] + bytes([content(elf)[-1] ^ 1]))
        os.utime(other, ns=(about.st_atime_ns, about.st_mtime_ns))
        os.replace(other, elf)
        self.assertEqual(fleet.answer()[0]["buckets"], [])

    def test_a_program_that_was_built_anew(self):
        """What is remembered of a file holds no longer once that is another."""
        fleet = Fleet("anew")
        elf = fleet.elf(USED)
        log = common.crash(USED)[0]
        fleet.add("log", log)
        self.assertEqual(len(fleet.answer()[0]["buckets"]), 1)
        shutil.copy(os.path.join(CRASHES, "hang.elf"), elf)
        self.assertIn("no ELF file", fleet.answer()[0]["unread"][0]["why"])

    def test_refusals(self):
        log = self.fleet.names[0]
        os.mkfifo(path("pipe"))
        for what, status, words in (
                ("no --elfs", 2, [self.fleet.logs]), ("no folder", 2, ["--elfs", self.fleet.elfs]),
                ("no such folder", 4, [path("nowhere"), "--elfs", self.fleet.elfs]),
                ("no such --elfs", 4, [self.fleet.logs, "--elfs", path("nowhere")]),
                ("a device for --elfs", 3, [self.fleet.logs, "--elfs", "/dev/null"]),
                ("a pipe for --elfs", 3, [self.fleet.logs, "--elfs", path("pipe")]),
                ("no log", 4, [CRASHES, "--elfs", self.fleet.elfs]),
                ("a log as the answer", 2,
                 [self.fleet.logs, "--elfs", self.fleet.elfs, "--json", log]),
                ("an ELF file as the page", 2,
                 [self.fleet.logs, "--elfs", self.fleet.elfs, "--html", common.example("sort")])):
            self.refused(what, status, "", "triage", *words, environment=self.fleet.cache)
        self.assertEqual(content(log), self.before[log])


class LimitsTest(unittest.TestCase):
    """A log that takes too much is told, and the others are read."""

    def setUp(self):
        self.log, self.elf = common.crash(USED)
        self.tasks = [triage_work.Task(self.log, self.elf) for _ in range(3)]

    def ask(self, jobs=2):
        return [answer for _, answer in triage_pool.answers(self.tasks, jobs)]

    def change(self, module, name, value):
        self.addCleanup(setattr, module, name, getattr(module, name))
        setattr(module, name, value)

    def script(self, line):
        """A program that does something else for one log."""
        name = written(path("script.sh"), f"#!/bin/bash\n[[ $* != *joint*odd* ]] || {{ {line}; }}\n"
                       f"exec {PROGRAM} \"$@\"\n".encode())
        os.chmod(name, 0o755)
        os.environ["ZELKUMA_PROGRAM"] = name
        self.addCleanup(os.environ.__setitem__, "ZELKUMA_PROGRAM", PROGRAM)
        shutil.copy(self.log, path("odd.log"))
        self.tasks[1] = triage_work.Task(path("odd.log"), self.elf)

    def states(self):
        return sorted((answer.state, answer.words) for answer in self.ask())

    def test_time(self):
        self.script(":")
        bucket = triage_work.Work.bucket

        def spins(work, task):
            while task.log == path("odd.log"):
                pass
            return bucket(work, task)

        self.change(triage_work.Work, "bucket", spins)
        self.change(triage_work, "MOST_SECONDS", 0.2)
        self.assertEqual(self.states(),
                         [("read", ""), ("read", ""), ("unread", triage_work.TOO_LONG)])

    def test_memory(self):
        self.script(f"exec {sys.executable} -c 'bytearray(1 << 29)' 2>/dev/null || exit 9")
        self.change(triage_work, "MOST_BYTES", 200 << 20)
        written(path("odd.log"), content(self.log))
        self.assertEqual([state for state, _ in self.states()], ["read", "read", "unread"])

    def test_memory_errors_that_take_too_much(self):
        """The suspect is told all the same."""
        def fails(_facts):
            raise MemoryError

        self.change(triage_work, "MemoryErrors", fails)
        answer = triage_work.Work().answer(triage_work.Task(self.log, self.elf, True))
        self.assertEqual((answer.state, answer.error, answer.words != ""), ("read", "", True))

    def test_memory_of_its_own(self):
        work = triage_work.Work()
        self.change(work, "bucket", lambda _task: bytearray(1 << 40))
        self.assertEqual(work.answer(self.tasks[0]),
                         triage_work.Answer(triage_work.UNREAD, triage_work.TOO_LARGE))

    def test_a_program_that_says_nothing(self):
        self.script("exec sleep 600")
        self.change(triage_pool, "PATIENCE", 6.0)       # the others may have to wait so long
        self.assertEqual(self.states(), [("read", ""), ("read", ""), ("unread", triage_pool.STUCK)])

    def test_a_program_that_is_slow_on_a_busy_machine(self):
        """It gets little of the processor, and is done after a time that would be too long for one
        that stands still."""
        busy = "for ((n = 0; n < 30000; n++)); do :; done"
        self.script("for i in {1..30}; do %s; sleep 0.3; done; exec %s \"$@\"" % (busy, PROGRAM))
        self.change(triage_pool, "PATIENCE", 6.0)
        self.assertEqual(self.states(), [("read", "")] * 3)

    def test_a_process_that_is_ended(self):
        self.script("kill -9 $PPID; exit")
        self.assertEqual(self.states(), [("read", ""), ("read", ""), ("unread", triage_pool.ENDED)])

    def test_a_process_that_is_ended_before_it_has_a_task(self):
        self.script(":")
        give = triage_pool.Worker.give

        def late(worker, task):
            if task == self.tasks[1]:
                os.kill(worker.pid, signal.SIGKILL)
                worker.ours.poll(None)          # until its group has ended, too
            give(worker, task)

        self.change(triage_pool.Worker, "give", late)
        self.assertEqual(self.states(), [("read", ""), ("read", ""), ("unread", triage_pool.ENDED)])

    def test_a_process_that_lacks_files(self):
        """It is told once, not of each log; it can end before it has a task, or later."""
        def fails():
            time.sleep(wait)
            raise OSError(errno.EMFILE, "too many")

        self.change(triage_pool, "ProcessGroup", fails)
        for wait in (0, 0.2):
            with self.assertRaisesRegex(OSError, "too many"):
                self.ask(1)

    def test_a_refusal(self):
        self.script("echo 'bugnet: replay: Stuck' >&2; exit 15")
        self.assertEqual(self.states()[-1], ("unread", "replay: Stuck"))

    def test_no_process_is_left(self):
        self.ask()
        with self.assertRaises(ChildProcessError):
            os.waitpid(-1, os.WNOHANG)


class SeedsTest(case.Case):
    def test_parts_by_parallel(self):
        """The parts of a search, over a list of machines that has this one alone, are joined to
        what the whole finds."""
        if not shutil.which("parallel") or b"GNU" not in subprocess.run(
                ["parallel", "--version"], stdout=subprocess.PIPE,
                stderr=subprocess.DEVNULL, check=False).stdout:
            self.skipTest("GNU parallel isn't installed")
        elf = common.example("hand_over")
        search = [sys.executable, COMPANION, "seeds", "--only", "seeds,bursts"]
        words = ["1", "12", "--", "--harts", "2", elf]
        for folder in ("whole", "found"):
            os.mkdir(path(folder))
        subprocess.run([*search, "--all", path("whole/0"), *words],
                       stdout=subprocess.DEVNULL, check=True)
        command = " ".join(map(shlex.quote,
                               search + ["--all", path("found/{}"), "--part", "{}/3"] + words))
        machines = written(path("MACHINES"), b":\n")
        subprocess.run(["parallel", "--will-cite", "--jobs", "1", "--sshloginfile", machines,
                        command, ":::", "1", "2", "3"], stdout=subprocess.DEVNULL, check=True)
        lines = []
        for folder in ("whole", "found"):
            self.says("triage", path(folder), "--elfs", os.path.join(TOP, "examples"),
                      "--json", path(folder + ".json"))
            lines.append({one["line"]
                          for one in json.loads(content(path(folder + ".json")))["buckets"]})
        self.assertEqual(lines[0], lines[1])
        self.assertGreater(len(lines[0]), 1)
