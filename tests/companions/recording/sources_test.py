"""Which files are shown as sources: what an ELF file or an archive names is its own matter, what a
user has isn't."""
import os
import shutil
import tempfile

import case
import common

NAME = "use_after_free.c"
SECRET = "hunter2"
BOUND = 300                 # seconds after which a call hangs: others may have the processors


class SourcesTest(case.Case):
    """A log and its ELF in a folder of their own. The lines of addresses name the source by no
    folder that is there."""

    def setUp(self):
        log, elf = self.crash("use_after_free")
        self.folder = common.path(self.id().rsplit(".", 1)[-1])
        os.mkdir(self.folder)
        self.log = shutil.copy(log, self.folder)
        self.elf_file = shutil.copy(elf, self.folder)
        self.source = os.path.join(self.folder, NAME)
        self.outside = common.path("outside")
        os.makedirs(self.outside, exist_ok=True)
        lines = common.text_of(os.path.join(common.CRASHES, NAME)).split("\n")
        here = common.path("here")
        os.makedirs(here, exist_ok=True)
        self.addCleanup(os.chdir, os.getcwd())
        os.chdir(here)
        self.text = "\n".join(f"{line} /* {SECRET} */" for line in lines)

    def write(self, *names):
        name = os.path.join(*names)
        common.written(name, self.text)
        return name

    def says_of(self, word, *words):
        status, said, err = common.companion(word, self.log, self.elf_file, *words,
                                             environment={"MYTOKEN": SECRET * 100}, bound=BOUND)
        self.assertEqual((status, err), (0, ""), (word, words))
        return said

    def shows(self, *words):
        """The words by which sources are shown, and those that say how to allow others."""
        said = {(SECRET in text, "--source DIR allows" in text)
                for text in (self.says_of(word, *words) for word in ("why", "view"))}
        self.assertEqual(len(said), 1, said)
        return said.pop()

    def test_a_source_beside_the_elf_is_shown(self):
        self.write(self.source)
        self.assertEqual(self.shows(), (True, False))

    def test_a_source_that_is_newer_than_the_elf_is_told(self):
        self.write(self.source)
        built = os.stat(self.elf_file).st_mtime
        for later, is_told in ((0, False), (3600, True)):
            os.utime(self.source, (built + later, built + later))
            self.assertEqual(f"{NAME} is newer than the ELF file" in self.says_of("why"), is_told)

    def test_a_link_leads_no_further(self):
        inside = os.path.join(self.folder, "src")
        os.mkdir(inside)
        for target, expected in ((self.write(inside, "real.c"), (True, False)),
                                 (self.write(self.outside, "other.c"), (False, True)),
                                 (self.write(self.outside, "notes"), (False, False)),
                                 ("/proc/self/environ", (False, False)),
                                 (os.path.join(self.outside, "none.c"), (False, False))):
            os.symlink(target, self.source)
            self.assertEqual(self.shows(), expected, target)
            os.remove(self.source)
        os.symlink(self.outside, os.path.join(self.folder, "below"))
        os.symlink("below/other.c", self.source)
        self.assertEqual(self.shows(), (False, True))

    def test_what_is_no_regular_file_is_not_opened(self):
        os.mkfifo(self.source)
        self.assertEqual(self.shows(), (False, False))
        os.remove(self.source)
        os.mkdir(self.source)
        self.assertEqual(self.shows(), (False, False))

    def test_a_source_that_may_not_be_read_is_passed_over(self):
        os.chmod(self.write(self.source), 0)
        if os.geteuid():
            self.assertEqual(self.shows(), (False, False))

    def test_the_current_folder(self):
        """The file names its source as it was built: ./tests/crashes/use_after_free.c."""
        os.makedirs(os.path.join("tests", "crashes"))
        self.write("tests", "crashes", NAME)
        self.assertEqual(self.shows(), (True, False))
        shutil.rmtree("tests")

    def test_an_absolute_name(self):
        # A name as long as the one whose place it takes
        folder = tempfile.mkdtemp(prefix="", dir="/tmp")
        self.addCleanup(shutil.rmtree, folder)
        named = os.path.join(self.folder, "named.elf")
        given = ["--source", folder]
        with open(self.elf_file, "rb") as elf, open(named, "wb") as file:
            file.write(elf.read().replace(b"tests/crashes\0", folder.encode() + b"\0"))
        self.write(folder, NAME)
        self.assertEqual(self.shows("--names", named), (False, True))
        self.assertEqual(self.shows("--names", named, *given), (True, False))

    def test_folders_that_are_given(self):
        os.symlink(self.write(self.outside, NAME), self.source)
        other = common.path("empty")
        os.makedirs(other, exist_ok=True)
        self.assertEqual(self.shows(), (False, True))
        self.assertEqual(self.shows("--source", other), (False, True))
        self.assertEqual(self.shows("--source", other, f"--source={self.outside}"), (True, False))
        os.remove(self.source)
        self.assertEqual(self.shows("--source", self.outside), (True, False))
        for word in ("why", "view", "race"):
            self.assertIn("is no folder", self.refuses(4, word, self.log, self.elf_file,
                                                       "--source", self.write(other, "file")))

    def test_races_have_the_same_sources(self):
        log, elf = self.crash("race_list")
        self.log = shutil.copy(log, self.folder)
        self.elf_file = shutil.copy(elf, self.folder)
        self.text = common.text_of(os.path.join(common.CRASHES,
                                                "race_list.c")).replace(";", f"; /* {SECRET} */")
        outside = self.write(self.outside, "race_list.c")
        os.symlink(outside, os.path.join(self.folder, "race_list.c"))
        said = self.says_of("race")
        self.assertTrue(SECRET not in said and "--source DIR allows" in said)
        said = self.says_of("race", "--source", self.outside)
        self.assertTrue(SECRET in said and "--source DIR allows" not in said)

    def test_switches_and_partings_have_the_same_sources(self):
        bad, elf = self.crash("race_list")
        good = common.record("good", elf, "--harts", "3", "--seed", "2", "--limit", "300000")
        elf = shutil.copy(elf, self.folder)
        self.text = common.text_of(os.path.join(common.CRASHES,
                                                "race_list.c")).replace("\n", f" /* {SECRET} */\n")
        os.symlink(self.write(self.outside, "race_list.c"),
                   os.path.join(self.folder, "race_list.c"))
        short = common.path("short")
        for words in (["shrink", "--seconds", "2", bad, elf, bad[:-4] + ".book", short,
                       short + ".book"], ["compare", good, bad, elf]):
            for given, expected in (([], (False, True)),
                                    (["--source", self.outside], (True, False))):
                status, said, err = common.companion(*words, *given, bound=BOUND)
                self.assertEqual((status, (SECRET in said, "--source DIR allows" in said)),
                                 (0, expected), (said, err))

    def test_a_suspect_of_many_logs(self):
        for target, is_shown in ((self.write(self.outside, "other.c"), False),
                                 (self.write(self.folder, "real.c"), True)):
            os.symlink(target, self.source)
            status, said, err = common.companion(
                "triage", self.folder, "--elfs", self.folder, bound=BOUND,
                environment={"XDG_CACHE_HOME": common.path("cache")})
            self.assertEqual((status, err, "suspect:" in said, SECRET in said),
                             (0, "", True, is_shown), said)
            os.remove(self.source)
