"""Runs companions of a checkout, each call in a child of one process that has loaded them all: most
take less than python's start.

python3 server.py PROJECT: each line of the input is a call as JSON, each line of the output its
status. `Server` asks it."""
import importlib
import json
import os
import pkgutil
import resource
import runpy
import select
import signal
import subprocess
import sys
from typing import Any, Dict, List, Mapping, NamedTuple, Optional, Sequence


def below(process: int) -> List[int]:
    """All processes that stem from one, the last first."""
    with open(f"/proc/{process}/task/{process}/children", encoding="ascii") as file:
        children = [int(word) for word in file.read().split()]
    return [*(each for child in children for each in below(child)), *children]


class Answer(NamedTuple):
    """A companion's answer; a status below 0 is the signal that ended it."""
    returncode: int
    stdout: str
    stderr: str


class Server:
    """The companions of a checkout, loaded once. Files in a folder have what they are given and
    say."""

    def __init__(self, project: str, folder: str) -> None:
        os.makedirs(folder, exist_ok=True)
        self.project = project
        self.given, self.out, self.err = (os.path.join(folder, name)
                                          for name in ("in", "out", "err"))
        self.process = subprocess.Popen([sys.executable, "-B", os.path.abspath(__file__), project],
                                        stdin=subprocess.PIPE, stdout=subprocess.PIPE, text=True)

    def run(self, words: Sequence[str], environment: Mapping[str, str], seconds: int = 0,
            given: bytes = b"", bound: Optional[float] = None) -> Answer:
        """Calls one, with these variables beside this process's own. It may take so many processor
        seconds, unless that is 0, and so many by the clock, if there is a bound; else it is ended,
        and nothing more can be called."""
        assert self.process.stdin and self.process.stdout
        with open(self.given, "wb") as file:
            file.write(given)
        mask = os.umask(0)
        os.umask(mask)
        call = {"words": words, "environment": {**os.environ, **environment}, "folder": os.getcwd(),
                "umask": mask, "seconds": seconds, "files": (self.given, self.out, self.err)}
        self.process.stdin.write(json.dumps(call) + "\n")
        self.process.stdin.flush()
        if not select.select([self.process.stdout], [], [], bound)[0]:
            for process in [*below(self.process.pid), self.process.pid]:
                os.kill(process, signal.SIGKILL)
            raise subprocess.TimeoutExpired(words, bound or 0)
        status = int(self.process.stdout.readline())
        said = []
        for name in (self.out, self.err):
            with open(name, encoding="utf-8", errors="replace", newline="") as text:
                said.append(text.read())
        return Answer(status, *said)

    def close(self) -> None:
        if self.process.stdin and self.process.stdout:
            self.process.stdin.close()
            self.process.wait()
            self.process.stdout.close()


def load(project: str) -> None:
    """All modules of the companions."""
    sys.path.insert(0, project)
    package = importlib.import_module("companion")
    for each in pkgutil.walk_packages(package.__path__, "companion."):
        if not each.name.endswith(("__main__", "inside_gdb")):
            importlib.import_module(each.name)


def run(project: str, call: Dict[str, Any]) -> None:
    """In the child: it ends with the call's status."""
    os.environ.clear()
    os.environ.update(call["environment"])
    os.chdir(call["folder"])
    if call["seconds"]:
        resource.setrlimit(resource.RLIMIT_CPU, (call["seconds"], call["seconds"] + 1))
    for number, name in enumerate(call["files"]):
        os.dup2(os.open(name, os.O_RDONLY if number == 0 else os.O_WRONLY | os.O_CREAT | os.O_TRUNC,
                        0o600), number)
    os.umask(call["umask"])
    sys.argv = [os.path.join(project, "companion"), *call["words"]]
    runpy.run_path(sys.argv[0], run_name="__main__")


def main() -> None:
    project = sys.argv[1]
    load(project)
    for line in sys.stdin:
        child = os.fork()
        if not child:
            run(project, json.loads(line))
            os._exit(0)
        _, status = os.waitpid(child, 0)
        print(-os.WTERMSIG(status) if os.WIFSIGNALED(status) else os.WEXITSTATUS(status),
              flush=True)


if __name__ == "__main__":
    main()
