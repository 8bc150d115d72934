"""What companions that save a file may overwrite, and what stays of the old one: mode, attributes,
links."""
import os
import resource
import shutil
import stat
import struct
import subprocess
import sys

import cases
from common import COMPANION, EXAMPLES, companion, content, without_lack, written

HAND_OVER = os.path.join(EXAMPLES, "hand_over.elf")
HARTS = "--harts", "2"
PAGE_BEGINS = b"<!doctype html>\n"
# A POSIX access list: owner, a user of its own, group, mask, others (acl(5); tag, permissions,
# who).
ACCESS_LIST = struct.pack("<I", 2) + b"".join(struct.pack("<HHI", *entry) for entry in (
    (1, 6, 0xffffffff), (2, 6, 12345), (4, 4, 0xffffffff),
    (16, 6, 0xffffffff), (32, 0, 0xffffffff)))


# Of each companion that saves how its file begins, and before which of its last letters a word can
# be put that makes it an older one.
PAGE = (PAGE_BEGINS, b"</body>")
LOG_HEAD = (b"BUGNETLG", b"")
FILES = {"why": PAGE, "seeds": LOG_HEAD, "again": LOG_HEAD, "shrink": LOG_HEAD,
         "export --lcov": (b"TN:zelkuma\n", b""),
         "export --callgrind": (b"# callgrind format\n", b""),
         "export --perfetto": (b'{"otherData": ', b"}\n"), "triage --html": PAGE,
         "triage --json": (b'{"answer": "triage"', b"}\n"),
         "triage --junit": (b'<?xml version="1.0" encoding="utf-8"?>\n', b"</testsuite>\n")}

FEW = "why", "seeds", "again"


class Call:
    """A folder with a recording, and a call that saves the file `target` of it."""

    def __init__(self, recordings, name, word):
        self.folder = recordings.path(name)
        os.mkdir(self.folder)
        self.other_log, _ = recordings.example("hand_over", *HARTS, "--seed", "4")
        log, _ = recordings.example("hand_over", *HARTS, "--seed", "3")
        self.log = shutil.copy(log, self.path("L"))
        self.elf = shutil.copy(HAND_OVER, self.path("elf"))
        self.target = self.path("target")
        self.word = word
        self.book = shutil.copy(recordings.path("book"), self.path("book"))
        self.environment = {"XDG_CACHE_HOME": recordings.path("cache")}
        self.head, self.tail = FILES[word]
        self.older = b""

    def path(self, name):
        return os.path.join(self.folder, name)

    def words(self, target):
        word, *option = self.word.split()
        return [word] + {"why": [self.log, self.elf, "--html", target],
                         "again": [self.log, self.elf, self.book, target],
                         "shrink": ["--seconds", "1", self.log, self.elf, self.book, target,
                                    self.path("short")],
                         "seeds": ["--only", "seeds", "3", "3", "--", *HARTS, self.elf, target,
                                   self.book], "export": [self.log, self.elf, *option, target],
                         "triage": [self.folder, "--elfs", self.elf, *option, target]}[word]

    def run(self, target, *more):
        return companion(*self.words(target), *more, environment=self.environment)

    def old(self, mode=0o644):
        """What may be overwritten: an older file of the same kind."""
        if not self.older and self.head == LOG_HEAD[0]:
            self.older = content(self.other_log)
        elif not self.older:
            self.older = self.with_word(b", 1: 0" if self.tail == b"}\n" else b"of before\n")
        written(self.target, self.older)
        os.chmod(self.target, mode)
        return self.target

    def with_word(self, word):
        """What the call saves, with a word more."""
        if not os.path.exists(self.target):
            assert self.run(self.target)[0] == 0
        data = content(self.target)
        at = len(data) - len(self.tail) if not self.tail else data.rindex(self.tail)
        return data[:at] + word + data[at:]

    def saves(self, target=""):
        done = self.run(target or self.target)
        assert done[0] == 0, done
        self.check_saved(target or self.target)
        assert not [name for name in os.listdir(self.folder) if name.startswith(".")]

    def check_saved(self, name):
        assert content(name).startswith(self.head) and content(name) != self.older, name

    def refuses(self, target, status=2, *more):
        names = [name for name in map(self.path, os.listdir(self.folder)) if os.path.isfile(name)]
        before = {name: content(name) for name in names}
        done = self.run(target, *more)
        assert done[0] == status and done[1] == "" and done[2].count("\n") == 1, done
        assert ({name: content(name) for name in names} == before
                and not os.path.exists(self.path("nowhere")))
        assert not [name for name in os.listdir(self.folder) if name.startswith(".")]


def each(recordings, name, words=tuple(FILES)):
    return [Call(recordings, f"{name}-{word}", word) for word in words]


def case_what_is_read_is_never_overwritten(recordings):
    for call in each(recordings, "read", tuple(FILES)[:8]):
        os.link(call.elf, call.path("linked"))
        os.symlink("linked", call.path("symbolic"))
        read = ([call.elf] + [call.log] * (call.word != "seeds")
                + [call.book] * (call.word in ("again", "shrink")))
        for target in read + [os.path.join(call.folder, ".", "elf"),
                              call.path("linked"), call.path("symbolic")]:
            call.refuses(target)
    names = call.path("names")
    shutil.copy(HAND_OVER, names)
    done = companion("why", call.log, call.elf, "--names", names, "--html", names)
    assert done[0] == 2 and content(names) == content(HAND_OVER), done


def case_what_is_no_older_one_is_never_overwritten(recordings):
    for call in each(recordings, "other", tuple(FILES)[:8]):
        shutil.copy(os.path.join(EXAMPLES, "heap.elf"), call.path("v.elf"))
        for name, data in foreign(call):
            call.refuses(written(call.path(name), data))
        call.refuses(call.path("v.elf"))
        call.refuses(call.folder, 3)
        call.refuses(os.path.join(call.path("nowhere"), "target"), 3)
        open(call.target, "wb").close()         # an empty one, as mktemp leaves it
        call.saves()


def foreign(call):
    """Files that begin as older ones do, and aren't: each is somebody's."""
    log = content(call.log)
    yield from (("notes", b"my notes\n"), ("log.gz", b"\x1f\x8b\x08"), ("turns", b"\0\1"),
                ("archive.tar", b"BUGNETLG".ljust(512, b"\0") + log))
    yield from (("log.and.more", log + b"\0"), ("log.part", log[:-1]),
                ("log.damaged", log[:200] + b"\xff" + log[201:]))
    yield from (("trace.json", b'{"traceEvents": []}\n'),
                ("coverage.info", b"TN:\nSF:mine.c\nend_of_record\n"),
                ("callgrind.out", b"# callgrind format\nversion: 1\ncreator: callgrind-3.19.0\n"))
    old = content(call.old())
    os.remove(call.target)
    yield from (("twice", old + old), ("not.whole", old[:-1]), ("with.zeros", old + b"\0"))
    page = (b'<!doctype html>\n'
            b'<p>a page that cites <meta name="generator" content="zelkuma"></html>\n')
    yield "page.html", page


def case_turns_that_no_list_has_are_never_overwritten(recordings):
    """BOOK has no head: each of its bytes is a hart's number."""
    call = Call(recordings, "no-turns", "seeds")
    zeros = bytes(40000)
    for name, data in (("image.iso", zeros + b"\1CD001"), ("silence.pcm", zeros + b"\xff"),
                       ("lines.txt", b"\n" * 25), ("lines.dos", b"\r\n" * 9),
                       ("lines.utf16", b"\n\0" * 30), ("tabs", b"\t\t\n"),
                       ("notes", zeros + b"notes")):
        call.book = written(call.path(name), data)
        call.refuses(call.target)
        assert not os.path.exists(call.target)
        os.remove(call.book)
    with open(call.book, "wb") as file:
        file.truncate(2 << 20)
    call.refuses(call.target)
    for turns in (b"\0" * 100, b"\0\1" * 100, bytes(range(16)), b"\3", b""):
        written(call.book, turns)
        call.saves()
        os.remove(call.target)


def case_only_files_are_written(recordings):
    """A pipe could be waited for without end, and a device would take anything."""
    for call in each(recordings, "pipe-of"):
        os.mkfifo(call.path("pipe"))
        for name in (call.path("pipe"), "/dev/full", "/dev/zero"):
            done = call.run(name)
            assert done[0] == 3 and done[1] == "" and done[2].count("\n") == 1, (call.word,
                                                                                 name, done)
    call = Call(recordings, "pipe-of-turns", "seeds")
    os.remove(call.book)
    os.mkfifo(call.book)
    assert call.run(call.target)[0] == 3 and not os.path.exists(call.target)
    call = Call(recordings, "no-file", "why")
    assert call.run("/dev/null")[0] == 0
    done = subprocess.run(["bash", "-c", '"$@" > >(cat >&2)', "bash", sys.executable, COMPANION,
                           *call.words("/dev/fd/1")], stdout=subprocess.PIPE,
                          stderr=subprocess.PIPE, check=True)
    assert PAGE_BEGINS in done.stderr, done


SAVES_TWO = """import os, signal, sys
sys.path.insert(0, sys.argv[1])
from companion.call import kinds, saving, streams
def take(self, made):
    os.kill(os.getpid(), signal.SIGTERM)
    taken(self, made)
taken, saving.Target.take = saving.Target.take, take
streams.on_interrupt(streams.interrupt)
try:
    saving.save_together([(saving.target(name, kinds.TURNS, []), b"\\1") for name in sys.argv[2:]])
except KeyboardInterrupt as stop:
    os._exit(streams.interrupted(stop))
"""


def case_files_that_belong_together_are_saved_together(recordings):
    """A signal that comes between two of them waits."""
    names = [recordings.write(f"two.{number}", b"\0\2") for number in (1, 2)]
    done = subprocess.run([sys.executable, "-c", SAVES_TWO, os.path.dirname(COMPANION), *names],
                          check=False)
    assert done.returncode == 143 and [content(name) for name in names] == [b"\1", b"\1"], done
    assert not [name for name in os.listdir(recordings.folder) if name.startswith(".zelkuma-")]


def case_two_outputs_are_two_files(recordings):
    call = Call(recordings, "two", "seeds")
    for make in "link", "symlink":
        open(call.path("book"), "wb").close()
        getattr(os, make)(call.path("book"), call.target)
        call.refuses(call.target)
        os.remove(call.target)
    call = Call(recordings, "two-of-triage", "triage --json")
    call.refuses(call.target, 2, "--html", call.target)
    assert not os.path.exists(call.target)


def case_mode_and_attributes_stay(recordings):
    for at, call in enumerate(each(recordings, "mode")):
        mode = (0o600, 0o640, 0o666)[at % 3]
        os.setxattr(call.old(mode), "user.note", b"mine")
        call.saves()
        assert stat.S_IMODE(os.stat(call.target).st_mode) == mode
        assert os.getxattr(call.target, "user.note") == b"mine"
        os.setxattr(call.old(), "system.posix_acl_access", ACCESS_LIST)
        call.saves()
        assert os.getxattr(call.target, "system.posix_acl_access") == ACCESS_LIST
        os.remove(call.target)
        before = os.umask(0o27)
        call.saves()
        os.umask(before)
        assert stat.S_IMODE(os.stat(call.target).st_mode) == 0o640


def case_links_stay(recordings):
    for call in each(recordings, "links", FEW):
        other = call.path("other")
        link = call.path("link")
        os.link(call.old(), other)
        call.saves()
        assert os.path.samefile(call.target, other)
        os.symlink("target", link)
        call.saves(link)
        assert os.readlink(link) == "target"
        os.remove(link)
        os.symlink("new", link)
        call.saves(link)
        assert os.readlink(link) == "new"
        call.check_saved(call.path("new"))


def case_an_owner_stays(recordings):
    if os.geteuid():
        raise cases.Skipped("another owner's file can be made by root alone")
    for call in each(recordings, "owner", FEW):
        os.chown(call.old(0o640), 12345, 54321)
        call.saves()
        found = os.stat(call.target)
        assert (found.st_uid, found.st_gid, stat.S_IMODE(found.st_mode)) == (12345, 54321, 0o640)


def case_a_full_disk_loses_nothing(recordings):
    call = Call(recordings, "full", "why")
    for other in ("", call.path("other")):
        before = content(call.old())
        if other:
            os.link(call.target, other)
        done = subprocess.run(
            [sys.executable, COMPANION, *call.words(call.target)], stdout=subprocess.PIPE,
            stderr=subprocess.PIPE,
            preexec_fn=lambda: resource.setrlimit(resource.RLIMIT_FSIZE, (1000, 1000)), check=False)
        assert done.returncode == 13 and without_lack(done.stderr.decode()).count("\n") == 1, done
        assert content(call.target) == before and not [name for name in os.listdir(call.folder)
                                                       if name.startswith(".")]


def case_a_pipe_takes_a_page(recordings):
    call = Call(recordings, "pipe", "why")
    done = subprocess.run(["bash", "-c", '"$@" >/dev/null | cat', "bash", sys.executable,
                           COMPANION, *call.words("/dev/stderr")], stdout=subprocess.PIPE,
                          stderr=subprocess.PIPE, check=True)
    assert without_lack(done.stderr.decode()).encode().startswith(PAGE_BEGINS), done


Cases = cases.tests_of(globals())
