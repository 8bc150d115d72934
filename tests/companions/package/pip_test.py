"""`pip install .` puts the package and the command zelkuma-companion into an environment. It needs
no network."""
import os
import shutil
import subprocess
import sys
import unittest

import case
import common

BUILT_FROM = ("pyproject.toml", "VERSION", "README.md")
NEEDS = ("import setuptools, wheel, pip, venv; "
         "assert int(setuptools.__version__.split('.')[0]) >= 61")
SCRIPT = """import sys, zelkuma
with zelkuma.Recording(*sys.argv[1:]) as run: print(zelkuma.__file__, run.fault)"""


def builder():
    """A Python with what builds packages, or None."""
    for python in (sys.executable, "/usr/bin/python3"):
        if shutil.which(python) and not subprocess.run(
                [python, "-c", NEEDS], stderr=subprocess.DEVNULL, check=False).returncode:
            return python
    return None


@unittest.skipUnless(builder(), "no Python here has pip, setuptools from 61 on, venv and wheel")
class PipTest(case.Case):
    def output(self, *words):
        done = subprocess.run(words, cwd=common.path("installed"), stdout=subprocess.PIPE,
                              stderr=subprocess.PIPE,
                              check=False, env=dict(os.environ, ZELKUMA_PROGRAM=common.PROGRAM,
                                                    PIP_DISABLE_PIP_VERSION_CHECK="1"))
        self.assertEqual(done.returncode, 0, done.stderr.decode()[-2000:])
        return done.stdout.decode()

    def test_an_environment_has_the_command_and_the_package(self):
        folder = common.path("installed")
        sources = common.path("sources")
        os.makedirs(sources)
        for name in BUILT_FROM:
            shutil.copy(os.path.join(common.TOP, name), sources)
        shutil.copytree(common.COMPANION, os.path.join(sources, "companion"),
                        ignore=shutil.ignore_patterns("__pycache__"))
        subprocess.run([builder(), "-m", "venv", "--system-site-packages", "--without-pip", folder],
                       check=True)
        python, command = (os.path.join(folder, "bin", name)
                           for name in ("python3", "zelkuma-companion"))
        self.output(python, "-m", "pip", "install", "--no-index", "--no-deps",
                    "--no-build-isolation", sources)
        log = self.record("heap", "--seed", "1")
        elf = self.elf("heap")
        self.assertTrue(self.output(command, "why", log,
                                    elf).startswith("FAULT\n  LoadOutside 00657360, hart 0"))
        page = self.output(command, "view", log, elf)
        self.assertIn(f"Zelkuma {common.version()}\"", page)
        self.assertIn("function showHeading() {", page)
        said = self.output(python, "-c", SCRIPT, log, elf)
        self.assertTrue(said.startswith(folder), said)
        self.assertIn("count=63052, name='LoadOutside'", said)
        self.assertEqual(self.output(command, "--version"), f"zelkuma {common.version()}\n")
        self.assertEqual(self.output(python, "-c", "import zelkuma; print(zelkuma.__version__)"),
                         common.version() + "\n")
        alone = subprocess.run([python, command, "why", log, elf], env={"PATH": "/nowhere"},
                               stdout=subprocess.PIPE, stderr=subprocess.PIPE, check=False)
        self.assertEqual(alone.returncode, 1)
        self.assertIn(b"the program isn't in this package: install it, "
                      b"so that `zelkuma` is in PATH, or let ZELKUMA_PROGRAM name it", alone.stderr)
