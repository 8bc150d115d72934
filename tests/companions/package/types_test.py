"""The annotations of the companions hold: mypy --strict, if it is installed. And they run by the
oldest Python here."""
import shutil
import subprocess
import sys
import unittest

import case
import common

OLDEST = "3.8"


class TypesTest(case.Case):
    @unittest.skipUnless(shutil.which("mypy"), "mypy isn't installed")
    def test_mypy(self):
        done = subprocess.run(["mypy", "--strict", "--python-version", OLDEST, "--cache-dir",
                               common.path("mypy"), "companion"], cwd=common.TOP,
                              stdout=subprocess.PIPE, stderr=subprocess.STDOUT, check=False)
        self.assertEqual((done.returncode, done.stdout.decode()[:7]),
                         (0, "Success"), done.stdout.decode())

    def test_it_is_a_package_and_a_folder(self):
        """`python3 companion` and `python3 -m companion` are the same call, from any folder;
        neither leaves a file there."""
        words = ["bucket", *self.crash("race_settings")]
        plain = self.says(*words)
        for call, folder in ((["-m", "companion"], common.TOP), ([common.COMPANION], "/"),
                             (["-I", common.COMPANION], "/")):
            done = subprocess.run([sys.executable, "-B", *call, *words], cwd=folder,
                                  stdout=subprocess.PIPE, check=False)
            self.assertEqual((done.returncode, done.stdout.decode()), (0, plain), call)
