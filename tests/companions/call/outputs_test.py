"""How a companion ends whatever its streams, its environment and Ctrl-C do: a line and a status,
never a traceback."""
import itertools
import os
import pty
import signal
import subprocess
import sys
import time

import case
import common
import processes

BOUND = 300                 # seconds after which a call hangs: others may have the processors
PACKET = b"$?#3f"


class OutputsTest(case.Case):
    def words(self):
        """A call of each word that prints."""
        log, elf = self.crash("race_settings")
        return [("why", log, elf), ("race", log, elf), ("view", log, elf), ("bucket", log, elf),
                ("names", elf, "main"), ("names", elf), ("gdb", log, elf),
                ("seeds", "1", "2", "--", "--harts", "2", elf, common.path("s.log"),
                 common.path("s.book")), ("help",), ("why", "--help")]

    def given(self, words):
        """What a word reads so that it prints."""
        return PACKET if words[0] == "gdb" else b"0 0 00010074 00000013 addi zero,zero,0\n"

    def shell(self, script, words, **environment):
        """A call whose streams a shell has set up."""
        done = subprocess.run(["bash", "-c", script, "bash", sys.executable, common.COMPANION,
                               *words], input=self.given(words),
                              stdout=subprocess.PIPE, stderr=subprocess.PIPE, timeout=BOUND,
                              env=dict(os.environ, **environment), check=False)
        return done.returncode, done.stdout, done.stderr.decode("utf-8", "replace")

    def test_an_output_that_takes_nothing_is_13(self):
        for words in self.words():
            for output in (">/dev/full", ">&-"):
                status, _, err = self.shell('"$@" ' + output, words)
                self.assertEqual((status, err.count("\n"), "takes no more" in err),
                                 (13, 1, True), (words, output, err))

    def test_a_page_that_takes_nothing_is_13(self):
        log, elf = self.crash("race_settings")
        status, _, err = self.shell('"$@" --html /dev/stdout >/dev/full', ("why", log, elf))
        self.assertEqual((status, "takes no more" in err), (13, True), err)
        self.assertIn("it is a pipe or a device",
                      self.refuses(3, "why", log, elf, "--html", "/dev/full"))

    def test_a_reader_that_ends_is_13_without_a_word(self):
        for words in self.words():
            if words[0] == "gdb":               # who asks it may leave at any time
                continue
            process = subprocess.Popen([sys.executable, common.COMPANION, *words],
                                       stdin=subprocess.PIPE,
                                       stdout=subprocess.PIPE, stderr=subprocess.PIPE)
            process.stdout.close()
            process.stdout = None               # nothing is read of it
            _, err = process.communicate(self.given(words), timeout=BOUND)
            self.assertEqual((process.returncode, err), (13, b""), words)

    def test_a_pipe_of_a_child_is_not_the_output(self):
        """What it ends is told."""
        script = ("import sys; from companion.call import words\n"
                  "def ends(_): raise BrokenPipeError(32, 'Broken pipe')\n"
                  "words.run_word = ends; words.main(['why'])")
        done = subprocess.run([sys.executable, "-c", script], stderr=subprocess.PIPE,
                              cwd=common.TOP, check=False)
        self.assertEqual((done.returncode, done.stderr), (3, b"zelkuma: a file: Broken pipe\n"))

    def test_err_that_takes_nothing_changes_no_status(self):
        log, elf = self.crash("race_settings")
        for output in ("2>/dev/full", "2>&-"):
            self.assertEqual(self.shell('"$@" ' + output, ("why", log, elf))[0], 0, output)
            self.assertEqual(self.shell('"$@" ' + output, ("why", log))[0], 2, output)
            self.assertEqual(self.shell('"$@" <&- >&- ' + output, ("why", log, elf))[0], 13, output)

    def test_no_input(self):
        log, elf = self.crash("race_settings")
        for words in (("names", elf), ("gdb", log, elf)):
            self.assertEqual(self.shell('"$@" <&-', words), (0, b"", ""), words)

    def test_few_files(self):
        """As many files as there may be open: a line and a status, or the answer. Fewer than 5 end
        python itself."""
        log, elf = self.crash("race_settings")
        for words in (("why", log, elf), ("view", log, elf), ("bucket", log, elf),
                      ("gdb", log, elf), ("names", elf, "main"),
                      ("triage", log, "--elfs", elf)):
            for files in (5, 6, 7, 8, 9, 10, 12):
                status, _, err = self.shell('ulimit -n %d; exec "$@"' % files, words,
                                            XDG_CACHE_HOME=common.path("cache"))
                self.assertNotIn("Traceback", err, (words, files))
                self.assertNotIn("failed inside", err, (words, files))
                self.assertLessEqual(err.count("\n"), 1, (words, files, err))
                self.assertEqual(status == 0, not err, (words, files, status, err))

    def test_environments(self):
        log, elf = self.crash("race_settings")
        plain = self.says("bucket", log, elf)
        told = self.says("why", log, elf)
        for environment in ({"PYTHONOPTIMIZE": "2"}, {"PYTHONDEVMODE": "1"}, {"TMPDIR": "/nowhere"},
                            {"LC_ALL": "C"}, {"PYTHONWARNINGS": "always"},
                            {"PYTHONIOENCODING": "ascii"}, {"PYTHONUNBUFFERED": "1"},
                            {"HOME": "/nowhere"}, {"PYTHONSAFEPATH": "1"}, {"PYTHONINSPECT": "1"}):
            self.assertEqual(common.companion("bucket", log, elf, environment=environment),
                             (0, plain, ""), environment)
            self.assertEqual(common.companion("why", log, elf, environment=environment),
                             (0, told, ""), environment)
        for word in ("names", "why", "race", "view", "gdb", "bucket", "seeds"):
            status, said, err = common.companion(word, "--help",
                                                 environment={"PYTHONOPTIMIZE": "2"})
            self.assertEqual((status, err), (0, ""))
            self.assertIn("zelkuma %s " % word, said)
        self.assertIn("Companions show",
                      common.companion("help", environment={"PYTHONOPTIMIZE": "2"})[1])

    def test_a_python_without_a_module(self):
        """As Debian's python3-minimal, which lacks html."""
        script = ("import runpy, sys; sys.modules['html'] = None; del sys.argv[0]; "
                  "runpy.run_path(sys.argv[0], run_name='__main__')")
        done = subprocess.run([sys.executable, "-c", script, common.COMPANION, "why", "LOG", "ELF"],
                              stderr=subprocess.PIPE, check=False)
        self.assertEqual((done.returncode, done.stderr), (1, b"zelkuma: this python3 has no module "
                                                          b"html: apt-get install -y python3\n"))

    def test_progress_on_a_terminal(self):
        log, elf = self.crash("hang")
        ours, theirs = pty.openpty()
        done = subprocess.run([sys.executable, common.COMPANION, "why", log, elf],
                              stdout=subprocess.PIPE, stderr=theirs, check=False)
        os.close(theirs)
        said = processes.shown_at(ours).decode()
        self.assertEqual(done.returncode, 0)
        self.assertRegex(said,
                         r"\A\r[\d,]+ of 60,000 rows are read\x1b\[K(\r[^\r]*\x1b\[K)*\r\x1b\[K\Z")

    def test_numbers_that_are_too_long(self):
        log, elf = self.crash("hang")
        for words in (("names", elf, "hang.c:" + "9" * 5000),
                      ("why", log, elf, "--row", "0:" + "9" * 5000),
                      ("why", log, elf, "--rows", "9" * 5000),
                      ("race", log, elf, "--max", "9" * 5000)):
            status, _, err = common.companion(*words)
            self.assertIn(status, (2, 4), words)
            self.assertEqual((err.count("\n"), "failed inside" in err), (1, False))


class InterruptTest(case.Case):
    def started(self, *words, **streams):
        """A companion that has come so far that Ctrl-C is its own matter: it runs a process, or has
        said something."""
        process = subprocess.Popen([sys.executable, common.COMPANION, *words],
                                   stdin=subprocess.PIPE, stdout=subprocess.PIPE,
                                   stderr=subprocess.PIPE, start_new_session=True, **streams)
        self.addCleanup(process.kill)
        if words[0] == "names":
            process.stdin.write(b"0 0 00010074 00000013 addi zero,zero,0\n")
            process.stdin.flush()
            process.stdout.readline()
        until = time.monotonic() + BOUND
        while words[0] != "names" and process.poll() is None and time.monotonic() < until:
            with open("/proc/%d/task/%d/children" % (process.pid, process.pid),
                      encoding="ascii") as file:
                if file.read().strip():
                    break
        return process

    def test_ctrl_c_is_130(self):
        options = ("--harts", "2", "--seed", "1", "--limit", "300000", "--log-size", "16777216")
        log = self.record("counter", *options)
        elf = self.elf("counter")
        out = [common.path("interrupted.log"), common.path("interrupted.book")]
        seen = []
        of_words = itertools.cycle(((0, 0.1), (0.02, 0.3)))
        for words in (("why", log, elf), ("race", log, elf), ("view", log, elf),
                      ("bucket", log, elf), ("gdb", log, elf), ("names", self.crash("hang")[1]),
                      ("seeds", "0", "1000000", "--", elf, *out)):
            for delay in next(of_words):
                process = self.started(*words)
                time.sleep(delay)
                if process.poll() is None:
                    os.killpg(process.pid, signal.SIGINT)       # as a terminal does, to all of them
                _, err = process.communicate(timeout=BOUND)
                self.assertEqual(common.without_lack(err.decode()), "", (words, delay))
                self.assertIn(process.returncode, (0, 130), (words, delay))
                seen.append(process.returncode)
        self.assertGreater(seen.count(130), len(seen) // 2)

    def test_ctrl_c_that_is_ignored_is_ignored(self):
        log, elf = self.crash("race_settings")
        handler = signal.signal(signal.SIGINT, signal.SIG_IGN)      # so it begins, however late
        try:
            process = subprocess.Popen([sys.executable, common.COMPANION, "why", log, elf],
                                       stdout=subprocess.PIPE, stderr=subprocess.PIPE)
        finally:
            signal.signal(signal.SIGINT, handler)
        time.sleep(0.2)
        process.send_signal(signal.SIGINT)
        said, err = process.communicate(timeout=BOUND)
        self.assertEqual((process.returncode, said[:6], err), (0, b"FAULT\n", b""))
