"""What the tests of the companions share: recordings, and calls of companions.

The program is the one that the companions find. case.py has the class of tests on top of these."""
import atexit
import functools
import os
import shutil
import subprocess
import sys
import tempfile
from typing import NamedTuple

TOP = os.path.abspath(os.path.join(os.path.dirname(__file__), "..", "..", ".."))
COMPANION = os.path.join(TOP, "companion")
sys.path.insert(0, TOP)
from companion.call.program import path as program_path      # noqa: E402
from companion.recording import naming                        # noqa: E402
from companion.recording.places import TOOLS                  # noqa: E402
from tests.oracle.server import Server                        # noqa: E402
PROGRAM = program_path()
EXAMPLES = os.path.join(TOP, "examples")
CRASHES = os.path.join(TOP, "tests", "crashes")
# What built the ELF files that are kept: with another one functions, lines and orders differ
COMPILER = "riscv64-unknown-elf-gcc"
COMPILER_VERSION = "12.2.0"
scratch = tempfile.TemporaryDirectory()
servers = []                # that nobody asks just now
OF_PYTHON = "PYTHON", "LC_", "LANG"
os.environ["ZELKUMA_PROGRAM"] = PROGRAM


def path(name):
    """A name in the scratch folder."""
    return os.path.join(scratch.name, name)


def content(name):
    """The bytes of a file."""
    with open(name, "rb") as file:
        return file.read()


def text_of(name):
    return content(name).decode()


def written(name, data):
    """Writes a file of these bytes or of this text, and gives its name."""
    os.makedirs(os.path.dirname(name), exist_ok=True)
    with open(name, "wb") as file:
        file.write(data.encode() if isinstance(data, str) else data)
    return name


def version():
    return text_of(os.path.join(TOP, "VERSION")).strip()


def record(name, elf, *words, schedule=""):
    """Records a program, by turns that a schedule names, if there is one: the log's name. Format 2
    keeps each crash."""
    log = path(name + ".log")
    done = subprocess.run([PROGRAM, "record", "--format", "2"]
                          + list(words) + [elf, log, path(name + ".book")], stdout=subprocess.PIPE,
                          stderr=subprocess.PIPE, env=scheduled(schedule), check=False)
    if not os.path.exists(log):
        sys.exit("no recording of %s: %s" % (elf, done.stderr.decode()))
    return log


def scheduled(schedule):
    """The environment of a recording by such turns."""
    return dict(os.environ, ZELKUMA_SCHEDULE=schedule) if schedule else None


def turns_of(order):
    """The turns of an order as `shrink` prints it."""
    return b"".join(bytes([int(hart)]) * int(turns)
                    for hart, turns in (piece.split("x") for piece in order.split()))


def present_tools():
    return [tool for tool in TOOLS if shutil.which(tool)]


@functools.lru_cache(maxsize=None)
def lacks_compiler():
    """Why what has to be built as the kept files were is skipped here, or nothing."""
    if not shutil.which(COMPILER):
        return f"{COMPILER} isn't installed"
    version = subprocess.run([COMPILER, "-dumpfullversion"], stdout=subprocess.PIPE,
                             check=True).stdout.decode().strip()
    return ("" if version == COMPILER_VERSION
            else f"this {COMPILER} is {version}, and {COMPILER_VERSION} built the kept files")


@functools.lru_cache(maxsize=None)
def named_examples():
    """The folder with the examples' files with names and lines."""
    folder = path("names")
    os.mkdir(folder)
    subprocess.run([os.path.join(EXAMPLES, "build.sh"), path("built"), folder], check=True,
                   stdout=subprocess.DEVNULL, stderr=subprocess.DEVNULL)
    return folder


class Crash(NamedTuple):
    """A line of tests/crashes/cases.txt."""
    name: str
    guilty: str                 # FILE:LINE
    kind: str
    group: str
    harts: str
    seed: str
    limit: str
    ends: str                   # the status of its recording
    wrong: str                  # the wrong byte of its output, N:BYTE, or nothing

    @property
    def elf(self):
        return os.path.join(CRASHES, self.name + ".elf")

    @property
    def options(self):
        return ["--harts", self.harts, "--seed", self.seed, "--limit", self.limit]

    @property
    def lines(self):
        return text_of(os.path.join(CRASHES, self.name + ".c")).count("\n")


def crashes():
    """The crashing programs, by name."""
    with open(os.path.join(CRASHES, "cases.txt")) as file:
        rows = [line.split() for line in file if line.strip() and line[0] != "#"]
    return {row[0]: Crash(*row[:8], wrong=row[8].strip("-")) for row in rows}


def crash(name):
    """Records one of the crashing programs: (log, elf)."""
    case = crashes()[name]
    return record(name, case.elf, *case.options), case.elf


def example(name):
    return os.path.join(EXAMPLES, name + ".elf")


def output(*words):
    """What a command of the program prints."""
    return subprocess.run([PROGRAM] + list(words), stdout=subprocess.PIPE,
                          stderr=subprocess.DEVNULL, check=False).stdout


def rows(log, elf):
    """The rows of `joint`, each as its words: hart, count, address, code and what comes after."""
    return [line.split(" ")
            for line in output("joint", log, elf).decode().split("\n") if line[:1].isdigit()]


def companion(*words, given=b"", environment=None, bound=None, is_whole=False, starts=False):
    """(status, output, err) of a companion, which has to end within so many seconds. Most examples
    are kept stripped: unless err is to be whole, what it says of that is left out. With `starts`,
    or for what python reads as it starts, python is started."""
    environment = environment or {}
    if starts or any(name.startswith(OF_PYTHON) for name in environment):
        done = subprocess.run([sys.executable, COMPANION, *words], input=given,
                              stdout=subprocess.PIPE, stderr=subprocess.PIPE,
                              env={**os.environ, **environment}, timeout=bound, check=False)
        status, out, err = done.returncode, *(said.decode("utf-8", "replace")
                                              for said in (done.stdout, done.stderr))
    else:
        status, out, err = loaded(words, environment, given, bound)
    return status, out, err if is_whole else without_lack(err)


def loaded(words, environment, given, bound):
    """The same of a process that has loaded all companions. A test may ask in several threads."""
    try:
        server = servers.pop()
    except IndexError:
        server = Server(TOP, tempfile.mkdtemp(dir=scratch.name))
        atexit.register(server.close)
    answer = server.run(words, environment, given=given, bound=bound)
    servers.append(server)
    return answer


def without_lack(err):
    """What a companion said, but for what a program lacks for names and lines."""
    lack = naming.NO_NAMES + "\n", naming.NO_LINES + "\n"
    return "".join(line for line in err.splitlines(True) if not line.endswith(lack))
