"""Tries `zelkuma gdb` by the real gdb-multiarch, whose answers are compared with `sessions`.

If gdb isn't installed, nothing is tried. Sessions that need names aren't tried if the compiler
isn't there, or makes other programs of the examples than those that are kept. It says so.
"""
import os
import random
import re
import shlex
import subprocess
import sys

import cases
from cases import Skipped
from common import (COMPANION, COMPILER, EXAMPLES, TOP, content, crash, lacks_compiler,
                    named_examples, path)
from recordings import DATA, EXIT, FAULTS, T0, T1, T2, addi, lui, pc_of, store
from reference import run

GDB = "gdb-multiarch"
SESSIONS = os.path.join(os.path.dirname(os.path.abspath(__file__)), "sessions")
SETTINGS = ["set pagination off", "set confirm off", "set width 0", "set debuginfod enabled off",
            "set architecture riscv:rv32", "set remotetimeout 60"]
NEWER = ("Reached end of recorded history; stopping.\nBackward execution from here not possible.",
         "No more reverse-execution history.")       # what gdb 16 says, and others
SIGNALS = {4: "SIGILL", 5: "SIGTRAP", 10: "SIGBUS", 11: "SIGSEGV"}
FLAGS = ("-march=rv32ima -mabi=ilp32 -mstrict-align -g -ffreestanding -fno-pic -nostdlib -static "
         "-fno-tree-loop-distribute-patterns -z max-page-size=4096 -Wl,--build-id=none").split()
MONKEY_MOVES = ("step next stepi nexti reverse-step reverse-next reverse-stepi reverse-nexti "
                "continue reverse-continue finish reverse-finish until up bt reverse-step "
                "reverse-stepi stepi next").split()


def bridge(log, elf, *options):
    return " ".join(map(shlex.quote, [sys.executable, COMPANION, "gdb", log, elf, *options]))


def talk(target, commands, names=None):
    """Returns gdb's answer to each command, after that to `target remote`, with single spaces."""
    lines = list(SETTINGS)
    for number, command in enumerate([f"target remote {target}"] + commands):
        lines += [f"echo \\n@@{number}\\n", command]
    done = subprocess.run([GDB, "-nx", "-q", *([names] if names else [])], input="\n".join(lines)
                          + "\n", stdout=subprocess.PIPE, stderr=subprocess.STDOUT,
                          universal_newlines=True, timeout=600, check=False)
    text = done.stdout.replace(TOP + "/", "").replace("(gdb) ", "").replace(*NEWER)
    assert "internal-error" not in text, text
    answers = re.split(r"^@@\d+\n", text, flags=re.M)[1:]
    assert len(answers) == len(commands) + 1, text[-2000:]
    return [re.sub(r"[ \t]+", " ", answer) for answer in answers]


def compare(session, target, names):
    """Has gdb do the commands of a kept session, and looks for its lines in the answers."""
    with open(os.path.join(SESSIONS, session + ".txt"), encoding="utf-8") as file:
        lines = [line.rstrip("\n") for line in file if line[:1] not in ("#", "\n")]
    commands = [line[2:] for line in lines if line.startswith("> ")]
    answers = iter(talk(target, commands, names)[1:])
    answer = ""
    at = 0
    command = ""
    for line in lines:
        if line.startswith("> "):
            answer = next(answers)
            at = 0
            command = line[2:]
        elif line.startswith("! "):
            assert line[2:] not in answer, f"{session}: {command}: {line!r} is in {answer!r}"
        else:
            found = answer.find(line, at)
            assert found >= 0, f"{session}: {command}: no {line!r} in {answer!r}"
            at = found + len(line)
    return len(commands)


class Names:
    """The examples with their names, and the recordings of a test."""

    def __init__(self, recordings):
        self.recordings = recordings

    def of(self, example):
        """Returns the example with names: the kept one but for these."""
        if lacks_compiler():
            raise Skipped(lacks_compiler())
        folder = named_examples()
        assert (content(os.path.join(EXAMPLES, example + ".elf"))
                == content(path("built/" + example + ".elf"))), example
        return os.path.join(folder, example + ".elf")

    def without_optimisation(self, example):
        if lacks_compiler():
            raise Skipped(lacks_compiler())
        elf = path(example + ".O0.elf")
        library = os.path.join(EXAMPLES, "lib")
        sources = [os.path.join(library, "start.S"), os.path.join(library, "machine.c"),
                   os.path.join(EXAMPLES, example + ".c")]
        subprocess.run([COMPILER, *FLAGS, "-O0", "-I", library, "-T",
                        os.path.join(library, "program.ld"), "-o", elf, *sources], check=True)
        return elf


def case_one_hart(names):
    elf = names.of("wild_store")
    log, kept = names.recordings.example("wild_store", "--format", "2")
    return compare("wild_store", "| " + bridge(log, kept),
                   elf) + compare("watches", "| " + bridge(log, kept), elf)


def case_two_harts(names):
    elf = names.of("tills")
    log, kept = names.recordings.example("tills", "--harts", "2", "--format", "2")
    return compare("tills", "| " + bridge(log, kept), elf)


def case_lines(names):
    log, elf = names.recordings.record(names.without_optimisation("wild_store"), "--format", "2")
    return compare("lines", "| " + bridge(log, elf), elf)


def case_port(names):
    elf = names.of("wild_store")
    log, kept = names.recordings.example("wild_store", "--format", "2")
    process = subprocess.Popen([sys.executable, COMPANION, "gdb", log, kept, "--port", "0"],
                               stderr=subprocess.PIPE)
    port = int(process.stderr.readline().split()[1])
    done = compare("port", f"localhost:{port}", elf)
    assert process.wait(timeout=600) == 0
    process.stderr.close()
    return done


def case_input(names):
    elf = names.of("word_count")
    log, kept = names.recordings.example("word_count", "--input", names.recordings.write(
        "input", b"hello world\nabc def\n"))
    return compare("word_count", "| " + bridge(log, kept), elf)


def case_names_of_the_recorded_file(_):
    log, elf = crash("use_after_free")
    return compare("use_after_free", "| " + bridge(log, elf), elf)


def case_dropped(names):
    elf = names.of("counter")
    log, kept = names.recordings.example("counter", "--harts", "4", "--log-size", "16384",
                                         "--interval", "64", "--limit", "600")
    return compare("dropped", "| " + bridge(log, kept), elf)


def case_all_examples(names):
    """To the end of each and back to its start, with call stacks at both."""
    for example, end, options in (
            ("wild_store", "SIGSEGV", []), ("tills", "SIGSEGV", ["--harts", "2"]),
            ("hand_over", "SIGSEGV", ["--harts", "2", "--seed", "3"]),
            ("lock", "history", ["--harts", "2"]),
            ("counter", "history", ["--harts", "8", "--limit", "500"]),
            ("sort", "history", ["--limit", "50000"]),
            ("two_locks", "history", ["--harts", "2", "--seed", "8", "--limit", "2000"]),
            ("word_count", "history", ["--input", os.path.join(TOP, "LICENSE")])):
        elf = names.of(example)
        log, kept = names.recordings.example(example, *options)
        answers = talk("| " + bridge(log, kept),
                       ["continue", "bt", "info threads", "reverse-continue", "bt", "monitor at"],
                       elf)
        assert end in answers[1] and "#0 " in answers[2] and "hart 0 count " in answers[3], (
            example, answers)
        assert "No more reverse-execution history" in answers[4] and "#0 _start ()" in answers[5], (
            example, answers)
        assert re.search(r"at 0 of \d+ known", answers[6]), (example, answers)
    return 8


def case_faults_without_names(names):
    for name, (signal, words) in FAULTS.items():
        log, elf = names.recordings.words(name, [addi(T2, 0, 1), *words])
        count = int(run("list", log).splitlines()[-1].split()[3])
        answers = talk("| " + bridge(log, elf),
                       ["continue", "print $t2", "info threads", "reverse-stepi", "continue"])
        assert f"received signal {SIGNALS[signal]}" in answers[1], (name, answers)
        assert "= 1" in answers[2] and f"hart 0 count {count} {name})" in answers[3], (name,
                                                                                       answers)
        assert f"received signal {SIGNALS[signal]}" in answers[5], (name, answers)
    return len(FAULTS)


def case_one_store_that_two_watch(names):
    """gdb tells both right behind the store, and on the way back right before it; it passes on
    then."""
    log, elf = names.recordings.words("both", [lui(T0, DATA), addi(T1, 0, 0x155),
                                               store(T1, T0), addi(T2, 0, 1), *EXIT])
    watches = [f"watch *(unsigned char *) {DATA + at:#x}" for at in (0, 1)]
    answers = talk("| " + bridge(log, elf),
                   [*watches, *["continue", "print $pc"] * 2, "stepi", "print $pc", "continue",
                    *["reverse-continue", "print $pc"] * 2, "reverse-stepi", "print $pc"])[3:]
    for at, (behind, number, values) in enumerate(((3, 1, ("0", "85")), (3, 2, ("0", "1")))):
        assert f"Hardware watchpoint {number}: " in answers[2 * at], answers
        assert ("Old value = %s" % values[0] in answers[2 * at]
                and "New value = %s" % values[1] in answers[2 * at]), answers
        assert f"{pc_of(behind):#x}" in answers[2 * at + 1], answers
    assert f"{pc_of(4):#x}" in answers[5] and "hart 0 exited with 0" in answers[6], answers
    for at, (number, value) in enumerate(((1, "85"), (2, "1"))):
        assert f"Hardware watchpoint {number}: " in answers[7 + 2 * at], answers
        assert (f"Old value = {value}" in answers[7 + 2 * at]
                and "New value = 0" in answers[7 + 2 * at]), answers
        assert f"{pc_of(2):#x}" in answers[8 + 2 * at], answers
    assert f"{pc_of(1):#x}" in answers[12], answers


def case_what_cannot_be_done(names):
    """gdb prints why, beside its own words."""
    log, elf = names.recordings.words("fixed", [addi(T2, 0, 1), *EXIT])
    answers = talk("| " + bridge(log, elf), [f"set var *(int *) {DATA:#x} = 5", "print $t2 = 5",
                                             "reverse-stepi", "continue"])
    for answer, said in zip(answers[1:],
                            ("a recorded run can't be changed", "a recorded run can't be changed",
                             "the recorded run begins here",
                             "the recorded run ends here; hart 0 exited with 0")):
        assert said in answer, (said, answer)


def monkey(seed, harts, functions, variables):
    """Returns random commands."""
    drawn = random.Random(seed)
    for _ in range(100):
        kind = drawn.choices(("move", "thread", "break", "watch", "delete", "many", "lock"),
                             (60, 10, 8, 6, 4, 5, 2))[0]
        yield {"move": drawn.choice(MONKEY_MOVES), "thread": f"thread {drawn.randint(1, harts)}",
               "break": "break " + drawn.choice(functions),
               "watch": "watch " + drawn.choice(variables), "delete": "delete",
               "many": drawn.choice(("stepi %d", "reverse-stepi %d")) % drawn.randint(2, 20),
               "lock": "set scheduler-locking " + drawn.choice(("on", "off", "replay", "step"))}[
            kind]


def case_monkey(names):
    """Random commands: gdb fails in nothing of its own, and the connection holds."""
    hits = 0
    for seed, (example, harts, functions, variables, options) in enumerate((
            ("tills", 2, ("sell", "main"), ("left", "shelf[199]"), ("--format", "2")),
            ("counter", 2, ("count", "main"), ("plain", "guarded"),
             ("--limit", "400", "--interval", "50")))):
        elf = names.of(example)
        log, kept = names.recordings.example(example, "--harts", str(harts), *options)
        commands = [*monkey(seed, harts, functions, variables), "delete",
                    "reverse-continue", "monitor at"]
        text = "".join(answers := talk("| " + bridge(log, kept), commands, elf))
        assert re.search(r"at 0 of \d+ known",
                         answers[-1]) and "Remote connection closed" not in text, text[-2000:]
        hits += text.count(" hit ")
    assert hits > 5, hits


Cases = cases.tests_of(globals(), GDB, Names)
