#!/usr/bin/env python3
"""Runs the examples of documents, and compares what they print with what the documents say.

tests/pages/documents.py [--write] [--without NAME,..] PROGRAM DOCUMENT..

An example can be pasted: a block ```sh has commands, and a block ```text right after it what out
and err have to get from them; without such a block that is nothing. A block whose first line begins
with a prompt ('$ ') can't be pasted, and is refused.

All examples of a document run in one bash, one after another, as those of a new user: with a PATH
of /usr/bin:/bin, no other variables but HOME, and another folder for /tmp/. Their folder has what a
checkout has, but for the crates, and PROGRAM as the shipped one. A line '...' represents any lines.
A block after a line '<!-- not run -->' isn't run, nor one after '<!-- needs NAME.. -->' if there is
no command or file NAME, which is said. With --write the document gets what was printed, if it
differs. Of `addr2line` and `gdb` any will do, of whatever machine; --without hides all of these, so
that a page is tried as it is for a reader who lacks them.
"""
import os
import re
import shutil
import subprocess
import sys
import tempfile

TOP = os.path.dirname(os.path.dirname(os.path.dirname(os.path.realpath(__file__))))
END = "\x01"
KINDS = {                   # of a tool that has a name for each machine
    "addr2line": re.compile(r"(.*-)?addr2line(-[0-9.]+)?"),
    "gdb": re.compile(r"(.*-)?gdb(-multiarch)?|gdbserver"),
}
NEW_PATH = "/usr/bin:/bin"
if not os.path.exists("/usr/bin/python3"):
    NEW_PATH += f":{os.path.dirname(sys.executable)}"


class Step:
    """Commands, what they have to print, and that text's place in the document; `fence` is put
    around it if it is new."""

    def __init__(self, command, wanted, start, fence=False):
        self.command = command
        self.wanted = wanted
        self.start = start
        self.fence = fence

    def text_of(self, printed):
        return f"\n```text\n{printed}```\n" if self.fence and printed else printed


def is_here(tool):
    """Whether a tool is found, under its own name or that of another machine."""
    if tool in KINDS:
        return any(KINDS[tool].fullmatch(name) for folder in NEW_PATH.split(":")
                   if os.path.isdir(folder) for name in os.listdir(folder))
    return shutil.which(tool, path=NEW_PATH) is not None


def path_without(kinds, folder):
    """A folder with all the commands of the path but those of some kinds."""
    for place in NEW_PATH.split(":"):
        for name in os.listdir(place) if os.path.isdir(place) else ():
            if (not any(KINDS[kind].fullmatch(name) for kind in kinds)
                    and not os.path.lexists(f"{folder}/{name}")):
                os.symlink(f"{place}/{name}", f"{folder}/{name}")
    return folder


def is_run(before, name):
    """Whether the block that comes after this text is run. Says what it needs, if that isn't
    there."""
    before = before.rstrip()
    needs = re.search(r"<!-- needs ([^>]+) -->$", before)
    for need in needs[1].split() if needs else ():
        if not is_here(need) and not os.path.exists(need):
            print(f"skipped: the example at line {before.count(chr(10)) + 2} of {name}: "
                  f"there is no {need}")
            return False
    return not before.endswith("<!-- not run -->")


def step_of(block, text):
    """The step of a block of commands."""
    printed = re.compile(r"\n```text\n(.*?)^```$", re.M | re.S).match(text, block.end() + 1)
    if printed:
        return Step(block[2], printed[1], printed.start(1))
    return Step(block[2], "", block.end() + 1, fence=True)


def examples_in(name, text):
    """Returns the steps of all examples of a document."""
    steps = []
    for block in re.finditer(r"^```(\w*)\n(.*?)^```$", text, re.M | re.S):
        if block[1] == "sh" and is_run(text[: block.start()], name):
            steps.append(step_of(block, text))
    return steps


def prompts_in(name, text):
    """Says which blocks begin with a prompt, and returns how many."""
    prompts = list(re.finditer(r"^```\w*\n[$>] ", text, re.M))
    for it in prompts:
        print(f"{name}: a block that can't be pasted: line {text.count(chr(10), 0, it.end()) + 1}")
    return len(prompts)


def lay_checkout(top, program):
    """A checkout without its crates, and with this program as the shipped one."""
    for name in ("companion", "docs", "examples", "packaging", "python", "tests/crashes", "tools"):
        shutil.copytree(f"{TOP}/{name}", f"{top}/{name}",
                        ignore=shutil.ignore_patterns("__pycache__"))
    for name in ("LICENSE", "README.md", "VERSION", "crates.txt", "zelkuma"):
        shutil.copy(f"{TOP}/{name}", top)
    os.makedirs(f"{top}/release")
    for name in ("COMMIT", "STAMP"):
        shutil.copy(f"{TOP}/release/{name}", f"{top}/release")
    os.symlink(program, f"{top}/release/zelkuma-x86_64-linux")


def printed_by(commands, program, room):
    """Returns what each of the commands prints, run one after another."""
    lay_checkout(f"{room}/top", program)
    os.makedirs(f"{room}/tmp")
    script = "".join(f"{it.replace('/tmp/', f'{room}/tmp/')}__status=$?; echo '{END}'; "
                     "(exit $__status)\n" for it in commands)
    new = {"PATH": NEW_PATH, "HOME": room, "LANG": "C.UTF-8"}
    ran = subprocess.run(["bash", "-c", script], cwd=f"{room}/top", stdin=subprocess.DEVNULL,
                         stdout=subprocess.PIPE, stderr=subprocess.STDOUT, env=new, timeout=7200,
                         check=False)
    said = ran.stdout.decode(errors="replace").replace(f"{room}/tmp/", "/tmp/")
    return said.split(f"{END}\n")[:-1]


def fits(wanted, printed):
    parts = [re.escape(it) for it in re.split(r"^\.\.\.\n", wanted, flags=re.M)]
    return re.fullmatch("(?:.*\n)*?".join(parts), printed) is not None


def try_document(name, program, writes):
    with open(name, encoding="utf-8") as it:
        text = it.read()
    steps = examples_in(name, text)
    with tempfile.TemporaryDirectory() as room:
        printed = printed_by([it.command for it in steps], os.path.realpath(program), room)
    printed += ["(nothing: the examples before ended the shell)\n"] * (len(steps) - len(printed))
    failed = prompts_in(name, text)
    made = ""
    kept = 0
    for step, got in zip(steps, printed):
        is_well = fits(step.wanted, got)
        made += text[kept : step.start] + (step.wanted if is_well else step.text_of(got))
        kept = step.start + len(step.wanted)
        if not is_well and not writes:
            failed += 1
            print(f"{name}: {step.command}says\n{step.wanted}and it prints\n{got}")
    if writes:
        with open(name, "w", encoding="utf-8") as it:
            it.write(made + text[kept:])
    print(f"{name}: {len(steps)} examples, {failed} fail")
    return failed


def main(words):
    global NEW_PATH
    writes = words[:1] == ["--write"]
    program, *documents = words[writes:]
    if program == "--without":
        with tempfile.TemporaryDirectory() as folder:
            NEW_PATH = path_without(documents[0].split(","), folder)
            return main(documents[1:])
    if not os.access(program, os.X_OK):
        print(f"there is no program {program}: build it first")
        return 1
    return 1 if sum([try_document(it, program, writes) for it in documents]) else 0


if __name__ == "__main__":
    sys.exit(main(sys.argv[1:]))
