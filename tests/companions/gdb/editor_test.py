"""What an editor does with `zelkuma gdb`: gdb's MI interface over a port, with the settings of
examples/launch.json."""
import json
import os
import re
import shutil
import subprocess
import sys
import unittest

import case
import common

GDB = "gdb-multiarch"
BOUND = 300                 # seconds after which a process hangs: others may have the processors


class Editor:
    """gdb by its MI interface: a command, and what it answers up to its result, or up to the stop
    after it."""

    def __init__(self):
        self.process = subprocess.Popen([GDB, "-nx", "-q", "--interpreter=mi2"],
                                        stdin=subprocess.PIPE, stdout=subprocess.PIPE,
                                        stderr=subprocess.STDOUT, universal_newlines=True)

    def ask(self, command, until=r"^\^(done|connected|error|exit)"):
        self.process.stdin.write(command + "\n")
        self.process.stdin.flush()
        said = ""
        for line in self.process.stdout:
            said += line
            if re.match(until, line) or line.startswith("^error"):
                break
        return said

    def moves(self, command):
        return self.ask(command, r"^\*stopped")

    def close(self):
        self.ask("-gdb-exit")
        self.process.communicate(timeout=BOUND)


@unittest.skipUnless(shutil.which(GDB), f"{GDB} isn't installed")
class EditorTest(case.Case):
    def settings(self):
        with open(os.path.join(common.EXAMPLES, "launch.json"), encoding="utf-8") as file:
            return json.load(file)["configurations"][0]

    def start(self, settings, log):
        """The bridge as the editor starts it, on a free port: (port, process)."""
        words = settings["debugServerArgs"].replace("${workspaceFolder}",
                                                    common.TOP).replace("/tmp/LOG", log).split()
        words[words.index("3333")] = "0"
        server = subprocess.Popen([sys.executable, common.COMPANION, *words],
                                  stderr=subprocess.PIPE, universal_newlines=True)
        self.addCleanup(server.stderr.close)
        self.addCleanup(server.wait, BOUND)
        self.addCleanup(server.kill)
        line = server.stderr.readline()
        self.assertRegex(line, settings["serverStarted"].replace("3333", r"\d+"))
        return int(line.split()[1]), server

    def test_a_session(self):
        settings = self.settings()
        log, elf = self.crash("use_after_free")
        self.assertEqual(settings["program"].replace("${workspaceFolder}", common.TOP), elf)
        port, server = self.start(settings, log)
        editor = Editor()
        for command in settings["setupCommands"]:
            self.assertIn("^done", editor.ask(command["text"]), command)
        self.assertIn("^done", editor.ask("-file-exec-and-symbols " + elf))
        self.assertIn("^connected", editor.ask(f"-target-select remote localhost:{port}"))
        # By which the editor shows its buttons back
        self.assertIn('"reverse"', editor.ask("-list-target-features"))
        stop = editor.moves("-exec-continue")
        self.assertIn('signal-name="SIGSEGV"', stop)
        self.assertIn('line="48"', stop)
        frames = editor.ask("-stack-list-frames")
        self.assertRegex(frames, r'func="serve".*func="main"')
        self.assertIn('name="session"', editor.ask("-stack-list-variables --simple-values"))
        self.assertIn("^done", editor.ask('-break-watch "*(int*)0x1147c"'))
        stop = editor.moves("-exec-continue --reverse")
        self.assertIn('reason="watchpoint-trigger"', stop)
        self.assertIn('func="note"', stop)
        self.assertIn("*stopped", editor.moves("-exec-step --reverse"))
        self.assertIn("^done", editor.ask("-break-insert use_after_free.c:31"))
        stop = editor.moves("-exec-continue --reverse")
        self.assertIn('reason="watchpoint-trigger"', stop)
        self.assertIn('id="1"', editor.ask("-thread-info"))
        editor.close()
        self.assertEqual(server.wait(BOUND), 0)
