"""Tries `zelkuma seeds`: the kinds of turns, the lowest hit and its files, the table, Ctrl-C, and
what is refused."""
import json
import os
import pty
import re
import shlex
import shutil
import signal
import subprocess
import sys
import time

import cases
from common import COMPANION, EXAMPLES, PROGRAM, content
from processes import shown_at
from recordings import (A0, A1, A2, A7, DATA, ECALL, EXIT, T0, addi, branch_unless_equal,
                        elf_of, load, lui, store)

SEEDS = [sys.executable, COMPANION, "seeds"]
HAND_OVER, BUFFERS, TWO_LOCKS = (os.path.join(EXAMPLES, name + ".elf")
                                 for name in ("hand_over", "buffers", "two_locks"))
# The lowest seed by which hand_over crashes, sleeper by which buffers does
CRASHES = 3
SLEEPER = 20
NOT_FOUND = 22
FOUND = 23
HEAD = "status  count  first"
FOUR = ["--format=2", "--harts=4", "--limit=1000000"]


def seeds(*words, program=PROGRAM):
    done = subprocess.run([*SEEDS, *words], stdin=subprocess.DEVNULL, stdout=subprocess.PIPE,
                          stderr=subprocess.PIPE, universal_newlines=True, timeout=600, check=False,
                          env=dict(os.environ, ZELKUMA_PROGRAM=program))
    assert "Traceback" not in done.stderr, done.stderr
    return done.returncode, done.stdout, done.stderr


def first_line(done):
    """The status and the first line that was printed."""
    return done[0], done[1].partition("\n")[0]


def rows(said):
    """The rows of a table, from its head on, as lists of cells."""
    return [re.split("  +", line) for line in said[said.index(HEAD):].splitlines()[1:]]


def again(said):
    """Runs the command that is printed in the second line."""
    words = shlex.split(said.split("\n")[1])
    names = dict(word.split("=", 1) for word in words[:words.index("zelkuma")])
    return subprocess.run([PROGRAM, *words[words.index("zelkuma") + 1:]], stdout=subprocess.DEVNULL,
                          stderr=subprocess.DEVNULL,
                          env=dict(os.environ, **names), check=False).returncode


def json_of(*words):
    status, out, err = seeds("--json", *words)
    assert status == 0, (status, out, err)
    return json.loads(out)


class Folder:
    """A folder of a case: LOG and BOOK, and that nothing else is left in it."""

    def __init__(self, recordings, name):
        self.path = recordings.path(name)
        os.mkdir(self.path)
        self.log = os.path.join(self.path, "LOG")
        self.book = os.path.join(self.path, "BOOK")

    def names(self):
        return sorted(os.listdir(self.path))


def case_lowest_seed_and_its_files(recordings):
    log, _ = recordings.example("hand_over", "--harts", "2", "--seed", str(CRASHES))
    for jobs in "-j 1", "-j2", "-j 8", "":
        folder = Folder(recordings, "found" + jobs)
        done = seeds(*jobs.split(), "--only", "seeds", "1", "40", "--", "--harts", "2",
                     HAND_OVER, folder.log, folder.book)
        command = shlex.join(["zelkuma", "record", "--harts=2", f"--seed={CRASHES}",
                              HAND_OVER, folder.log, folder.book])
        assert (done[0] == 0
                and done[1].startswith(f"seed {CRASHES}: status 10\n{command}\n{HEAD}  ")), done
        assert [row[:3] for row in rows(done[1])] == [["0", "2", "seed 1"],
                                                      ["10", "1", "seed 3"]] and done[2] == "", done
        assert content(folder.log) == content(log) and folder.names() == ["BOOK", "LOG"]
        audit = subprocess.run([PROGRAM, "audit", folder.log, HAND_OVER, folder.book],
                               stdout=subprocess.PIPE, check=True)
        assert audit.stdout == b"agree\n"


def case_other_ends(recordings):
    folder = Folder(recordings, "ends")
    words = ["--", "--harts=2", "--limit", "20000", os.path.join(EXAMPLES, "two_locks.elf"),
             folder.log, folder.book]
    only = "--only", "seeds"
    assert first_line(seeds(*only, "--until", "11", "5", "9", *words)) == (0, "seed 8: status 11")
    done = seeds(*only, "--until=0", "8", "9", *words)
    assert first_line(done) == (0, "seed 9: status 0")
    assert rows(done[1]) == [["0", "1", "seed 9", "-"], ["11", "1", "seed 8", "-"]], done


def ends_of(recordings, elf, most):
    """{seed: (exit code, what was written)}, as `record` and `list` tell them."""
    found = {}
    for seed in range(1, most + 1):
        log = recordings.path("plain.log")
        done = subprocess.run([PROGRAM, "record", "--harts=2", f"--seed={seed}", elf, log,
                               recordings.path("plain.book")], stdout=subprocess.PIPE,
                              stderr=subprocess.DEVNULL, check=False)
        ends = subprocess.run([PROGRAM, "list", log], stdout=subprocess.PIPE,
                              check=True).stdout.decode()
        found[seed] = int(re.search(r" group (\w+)", ends)[1], 16), done.stdout
    return found


def case_exit_codes_and_outputs(recordings):
    """Hart 1 stores a letter that hart 0 loads, writes, and ends with: which one it is depends on
    the turns."""
    elf = recordings.write("letter.elf", elf_of([
        branch_unless_equal(A0, 0, 40), lui(A1, DATA), load(T0, A1, kind=4), addi(A0, 0, 1),
        addi(A2, 0, 1), addi(A7, 0, 64), ECALL,
        addi(A0, T0, 0), addi(A7, 0, 94), ECALL, lui(A1, DATA), addi(T0, 0, ord("y")),
        store(T0, A1, kind=0), *EXIT], b"n"))
    folder = Folder(recordings, "codes")
    plain = ends_of(recordings, elf, 30)
    words = ["1", "30", "--", "--harts=2", elf, folder.log, folder.book]
    for until, fits in (("exit:121", lambda end: end[0] == 121),
                        ("exit:110", lambda end: end[0] == 110),
                        ("output:y", lambda end: end[1] == b"y"),
                        ("output:n", lambda end: end[1] == b"n")):
        first = next(seed for seed, end in plain.items() if fits(end))
        said = seeds("--only", "seeds", "--until", until, *words)
        assert first_line(said) == (0, f"seed {first}: {until}"), (said, plain)
        assert again(said[1]) == 0
    for output, told in ((b"y\xff\n\x1b", r"output:y\xff\n\x1b"), ("ä".encode(), "output:ä")):
        until = "output:" + os.fsdecode(output)     # the words of a call can be any bytes
        done = seeds("--only", "seeds", "--until", until, *words)
        assert (done[0] == NOT_FOUND
                and done[2] == f"zelkuma: none of seeds from 1 to 30 ends with {told}\n"), done
        assert json.loads(seeds("--only", "seeds", "--until", until, "--json",
                                *words)[1])["until"] == told
    assert first_line(seeds("--only", "seeds", "--until", "bad",
                            *words)) == (0, f"seed 1: exit:{plain[1][0]}")
    done = seeds("--only", "seeds", "--all", folder.path, *words[:-2])
    assert sorted(row[3] for row in rows(done[1])) == ["exit 110", "exit 121"], done
    counts = {row[3]: int(row[1]) for row in rows(done[1])}
    assert counts == {f"exit {code}": [end[0] for end in plain.values()].count(code)
                      for code in (110, 121)}, (counts, plain)
    done = seeds("--only", "seeds", "--until", "exit:3", *words)
    assert (done[0] == NOT_FOUND
            and done[2] == "zelkuma: none of seeds from 1 to 30 ends with exit:3\n"), done
    assert seeds("--only", "seeds", "--all", folder.path, "--fail", *words[:-2])[0] == FOUND


def case_bad_ends(recordings):
    folder = Folder(recordings, "bad")
    words = ["--", "--harts=2", "--limit", "20000", TWO_LOCKS, folder.log, folder.book]
    assert first_line(seeds("--only", "seeds", "--until", "bad", "5", "9",
                            *words)) == (0, "seed 8: status 11")
    words[-3:] = HAND_OVER, folder.log, folder.book
    assert first_line(seeds("--only", "seeds", "--until", "bad", "1", "9",
                            *words)) == (0, f"seed {CRASHES}: status 10")
    assert json_of("--only", "seeds", "--until", "bad", "1", "9", *words)["until"] == "bad"


def case_a_gate(recordings):
    """With --fail it is no success that a run is found, and one that none is."""
    folder = Folder(recordings, "gate")
    words = ["--", "--harts", "2", HAND_OVER, folder.log, folder.book]
    only = "--fail", "--only", "seeds"
    assert first_line(seeds(*only, "1", "9", *words)) == (FOUND, f"seed {CRASHES}: status 10")
    assert seeds(*only, "1", "2", *words)[0] == 0
    assert seeds(*only, "--all", folder.path, "1", "2", *words[:-2])[0] == 0
    assert seeds(*only, "--all", folder.path, "1", "3", *words[:-2])[0] == FOUND


def case_whether_threads_are_tried_is_told(recordings):
    folder = Folder(recordings, "told")
    said = "zelkuma: runs in threads aren't tried; --only threads tries them\n"
    words = ["1", "1", "--", "--harts=2", "--limit=20K", TWO_LOCKS, folder.log, folder.book]
    for more, is_said in (([], False), (["--until", "11"], True), (["--until", "bad"], True),
                          (["--only", "seeds"], False)):
        assert (said in seeds(*more, *words)[2]) == is_said, more
    assert said in seeds("--all", folder.path, *words[:-2])[2]
    assert said not in seeds("--all", folder.path, "1", "1", "--", "--limit=20K", TWO_LOCKS)[2]
    assert json_of("--all", folder.path, *words[:-2])["kinds"] == ["seeds", "bursts", "sleepers"]


def case_none_is_found(recordings):
    folder = Folder(recordings, "none")
    log, _ = recordings.example("counter", "--limit", "2000")
    os.rename(log, folder.log)
    before = content(folder.log)
    status, out, err = seeds("--only", "seeds", "1", "2", "--", "--harts", "2",
                             HAND_OVER, folder.log, folder.book)
    assert (status == NOT_FOUND
            and err == "zelkuma: none of seeds from 1 to 2 ends with status 10\n"), err
    assert out.startswith(HEAD) and rows(out) == [["0", "2", "seed 1", "-"]], out
    assert content(folder.log) == before and folder.names() == ["LOG"]


def case_without_a_list_of_turns(recordings):
    folder = Folder(recordings, "lean")
    done = seeds("--only", "seeds", "1", "9", "--", "--lean", "--harts", "2", HAND_OVER,
                 folder.log, folder.book)
    assert first_line(done) == (0, f"seed {CRASHES}: status 10"), done
    assert folder.names() == ["LOG"]


def case_kinds_in_turn(recordings):
    """With each number all kinds; the first hit is kept, and its command makes it again, byte by
    byte."""
    folder = Folder(recordings, "kinds")
    words = ["1", "40", "--", *FOUR, BUFFERS, folder.log, folder.book]
    outs = set()
    for jobs in ("-j1", "-j3", "-j8"):
        done = seeds(jobs, "--only", "sleepers,seeds,bursts", *words)
        assert first_line(done) == (0, f"sleeper {SLEEPER}: status 10"), done
        outs.add(done[1])
    assert len(outs) == 1, outs
    counts = rows(done[1])
    assert counts[0] == ["0", str(3 * SLEEPER - 1), "seed 1", "-"], counts
    assert (counts[1][:3] == ["10", "1", f"sleeper {SLEEPER}"]
            and counts[1][3].startswith("LoadOutside fill_word ")), counts
    assert f"\nZELKUMA_SCHEDULE=sleeper:{SLEEPER} zelkuma record --format=2 " in done[1], done
    before = content(folder.log), content(folder.book)
    os.remove(folder.log)
    assert again(done[1]) == 10 and (content(folder.log), content(folder.book)) == before


def case_each_kind_alone(recordings):
    folder = Folder(recordings, "alone")
    words = ["--", *FOUR, BUFFERS, folder.log, folder.book]
    for kinds, found in (("bursts", "bursts 29"), ("sleepers", "sleeper 20")):
        assert first_line(seeds("--only", kinds, "18", "30", *words)) == (0, found + ": status 10")
    done = seeds("--only=seeds", "18", "30", *words)
    assert done[0] == NOT_FOUND and rows(done[1]) == [["0", "13", "seed 18", "-"]], done


def case_threads(recordings):
    """One in threads is told by its BOOK. Whatever this process' environment says, the harts run in
    threads."""
    folder = Folder(recordings, "threads")
    words = ["--harts", "2", "--limit", "20000", TWO_LOCKS, folder.log, folder.book]
    os.environ["ZELKUMA_SCHEDULE"] = "book:/nowhere"
    done = seeds("--only", "threads", "--until", "0", "1", "9", "--", *words)
    del os.environ["ZELKUMA_SCHEDULE"]
    assert done[0] == 0 and re.match(r"threads \d: status 0\n", done[1]), done
    assert f"\nZELKUMA_SCHEDULE=book:{folder.book} zelkuma record " in done[1], done
    assert again(done[1]) == 0 and content(folder.book + ".again") == content(folder.book)
    assert content(folder.log + ".again") == content(folder.log)


def case_all_kinds_of_one_number(recordings):
    """Those in threads are left out without a BOOK, and, unless they are asked for, for status 11
    and with --all."""
    folder = Folder(recordings, "all")
    done = seeds("1", "1", "--", "--harts=2", TWO_LOCKS, folder.log, folder.book)
    assert done[0] == NOT_FOUND and rows(done[1]) == [["0", "4", "seed 1", "-"]], done
    done = seeds("--until", "11", "1", "1", "--", "--harts=2", "--limit", "20000",
                 TWO_LOCKS, folder.log, folder.book)
    assert done[0] == NOT_FOUND and rows(done[1]) == [["0", "3", "seed 1", "-"]], done
    done = seeds("1", "1", "--", "--lean", "--harts=2", TWO_LOCKS, folder.log, folder.book)
    assert done[0] == NOT_FOUND and rows(done[1]) == [["0", "3", "seed 1", "-"]], done
    done = seeds("--all", folder.path, "1", "1", "--", "--harts=2", TWO_LOCKS)
    assert done[0] == 0 and rows(done[1]) == [["0", "3", "seed 1", "-"]], done
    done = seeds("--only", "threads", "--all", folder.path, "1", "1", "--",
                 "--harts=2", "--limit=100K", TWO_LOCKS)
    assert done[0] == 0 and rows(done[1])[0][1:3] == ["1", "threads 1"], done


def case_one_of_each_ending(recordings):
    """The first run with each ending is kept, however many are under way, and its BOOK makes it
    again."""
    known = None
    for jobs in ("-j1", "-j3"):
        folder = Folder(recordings, "each" + jobs)
        done = seeds(jobs, "--only", "seeds,sleepers", "--all", folder.path, "1", "6",
                     "--", "--harts", "2", HAND_OVER)
        first = [row[2].replace(" ", "-") for row in rows(done[1])]
        assert done[0] == 0 and len(first) == 3 and sum(int(row[1])
                                                        for row in rows(done[1])) == 12, done
        assert folder.names() == sorted(name + end for name in first
                                        for end in (".log", ".book")), (first, folder.names())
        found = {name: content(os.path.join(folder.path, name)) for name in folder.names()}
        assert known in (None, found)
        known = found
    log, _ = recordings.example("hand_over", "--harts", "2", "--seed", str(CRASHES))
    assert known[f"seed-{CRASHES}.log"] == content(log)
    folder = Folder(recordings, "in_threads")
    done = seeds("--only", "seeds", "--all", folder.path, "1", "3", "--", "--lean", "--harts",
                 "2", HAND_OVER)
    assert done[0] == 0 and folder.names() == ["seed-1.log", f"seed-{CRASHES}.log"], done


def case_parts(recordings):
    """The parts are the whole: each number is in one of them, and each ending of the whole in
    some."""
    folder = Folder(recordings, "parts")
    words = ["--only", "seeds,bursts", "1", "8", "--", "--harts", "2", HAND_OVER]
    whole = json_of("--all", folder.path + "/whole", *words)
    parts = []
    for part in ("1/3", "2/3", "3/3"):
        parts.append(json_of("--all", folder.path + "/" + part[0], "--part", part, *words))
    assert sum(part["tried"] for part in parts) == whole["tried"] == 16, parts

    def endings(answer):
        return {(one["status"], one["place"]): one["count"] for one in answer["endings"]}

    assert [(part["part"], part["parts"]) for part in parts] == [(1, 3), (2, 3), (3, 3)]
    assert sorted(set().union(*map(endings, parts))) == sorted(endings(whole))
    for ending, count in endings(whole).items():
        assert sum(endings(part).get(ending, 0) for part in parts) == count, ending
    for one in whole["endings"]:
        assert ([os.path.basename(name) for name in one["files"]]
                == [f"{one['kind']}-{one['number']}{end}" for end in (".log", ".book")])
        assert all(map(os.path.exists, one["files"]))
    found = [seeds("--only", "seeds", "--part", part, "1", "9", "--", "--harts", "2", HAND_OVER,
                   folder.log, folder.book)[1] for part in ("1/2", "2/2")]
    assert [said.partition(":")[0] for said in found] == ["seed 3", "seed 6"], found


def case_numbers_with_a_letter(recordings):
    folder = Folder(recordings, "letters")
    words = ["--harts", "0x2", "--limit=20K", "--log-size", "1M", TWO_LOCKS,
             folder.log, folder.book]
    done = seeds("--only", "seeds", "--until", "11", "8", "1K", "--", *words)
    assert (first_line(done) == (0, "seed 8: status 11")
            and "--harts=2 --limit=20480 --log-size=1048576 " in done[1]), done


def case_the_place_of_each_fault(recordings):
    """Faults are told apart by the line of bucket, and counted though another status is wanted."""
    folder = Folder(recordings, "places")
    done = seeds("--only", "seeds", "--until", "11", "1", "5", "--", "--harts", "2",
                 HAND_OVER, folder.log, folder.book)
    log, elf = recordings.example("hand_over", "--harts", "2", "--seed", str(CRASHES))
    line = subprocess.run([sys.executable, COMPANION, "bucket", log, elf], stdout=subprocess.PIPE,
                          check=True, universal_newlines=True).stdout.strip()
    assert done[0] == NOT_FOUND and rows(done[1]) == [["0", "3", "seed 1", "-"],
                                                      ["10", "2", "seed 3", line]], done


def case_refusals(recordings):
    folder = Folder(recordings, "refused")
    elf = os.path.join(folder.path, "elf")
    shutil.copy(HAND_OVER, elf)
    good = ["--", "--harts", "2", elf, folder.log, folder.book]
    for status, words in (
            (2, ["1"]), (2, ["1", "2"]), (2, ["2", "1", *good]), (2, ["x", "2", *good]),
            (2, ["-j", "0", "1", "2", *good]),
            (2, ["--until", "7", "1", "2", *good]), (2, ["1", "2", "--", "--seed", "1", *good[1:]]),
            (2, ["1", "2", "--", "--nothing", *good[1:]]), (2, ["1", "2", "--", elf, folder.log]),
            (2, ["1", "2", "--", "--harts", "99", *good[3:]]),
            (2, ["1", "2", "--", elf, elf, folder.book]),
            (2, ["1", "2", "--", "--input", elf, HAND_OVER, elf, folder.book]),
            (2, ["1", "2", "--", elf, folder.log, folder.log]),
            (2, ["--only", "seed", "1", "2", *good]),
            (2, ["--only", "", "1", "2", *good]), (2, ["--all", folder.path, "1", "2", *good]),
            (2, ["--all", folder.path, "--until", "10", "1", "2", "--", elf]),
            (2, ["--part", "3", "1", "2", *good]),
            (2, ["--part", "4/3", "1", "2", *good]), (2, ["--part", "0/3", "1", "2", *good]),
            (3, ["--all", elf, "1", "2", "--", elf]),
            (2, ["--only", "threads", "1", "2", "--", "--lean", *good[1:]]),
            (2, ["1", "20P", *good]), (2, ["1", "2", "--", "--limit", "1X", *good[1:]]),
            (2, ["1", str(2**64), *good]),
            (3, ["1", "2", "--", elf, folder.path, folder.book]),
            (3, ["1", "2", "--", elf, "/dev/null", folder.book]),
            (3, ["1", "2", "--", elf, "/nowhere/LOG", folder.book]),
            (4, ["1", "2", "--", os.path.join(folder.path, "none"), folder.log, folder.book]),
            (6, ["1", "2", "--", os.path.join(EXAMPLES, "README.md"), folder.log, folder.book])):
        done = seeds(*words)
        assert done[0] == status and done[1] == "" and done[2].count("\n") == 1, (words, done)
    assert folder.names() == ["elf"] and content(elf) == content(HAND_OVER)


def interrupted(folder, is_due, *words):
    """Ctrl-C once this holds of the process: what is printed then."""
    process = subprocess.Popen([*SEEDS, *words, folder.log, folder.book], stdout=subprocess.PIPE,
                               stderr=subprocess.PIPE,
                               start_new_session=True, universal_newlines=True)
    try:
        while not is_due():
            assert process.poll() is None, process.communicate()
            time.sleep(0.02)
        os.killpg(process.pid, signal.SIGINT)
        out, err = process.communicate(timeout=60)
    finally:
        if process.poll() is None:
            os.killpg(process.pid, signal.SIGKILL)
    assert (process.returncode, err) == (130, ""), (process.returncode, err)
    return out


def trials(folder):
    """The files of trials that are there."""
    return {name for _, _, names in os.walk(folder.path) for name in names}


def program_of(recordings, name, line, status=0):
    """A script in place of the program: after a line of its own it saves LOG and BOOK, and ends
    with a status."""
    script = recordings.write(name, f"""#!/bin/bash
[ "$1" != check ] || exit 0
{line}
printf BUGNETLG >"${{@: -2:1}}"
printf '\\0' >"${{@: -1}}"
exit {status}
""".encode())
    os.chmod(script, 0o755)
    return script


def case_a_refusal_after_some(recordings):
    """What was met until then is told."""
    folder = Folder(recordings, "some")
    script = program_of(recordings, "some.sh",
                        "[[ $* != *--seed=3* ]] || { echo 'bugnet: out of memory' >&2; exit 9; }")
    status, out, err = seeds("-j1", "--only", "seeds", "1", "9", "--", HAND_OVER, folder.log,
                             folder.book, program=script)
    assert (status, rows(out)) == (9, [["0", "2", "seed 1", "-"]]), (status, out)
    assert err.startswith("zelkuma: out of memory: free some; "), err
    assert folder.names() == []


def case_a_hit_ends_what_could_go_on_for_ever(recordings):
    """The first hit in threads ends seeds below it, and one that a number draws ends those in
    threads."""
    folder = Folder(recordings, "ended")
    words = ["-j3", "--only", "seeds,threads", "--until", "11", "5", "9", "--",
             HAND_OVER, folder.log, folder.book]
    for test, found in (("==", "threads 5"), ("!=", "seed 5")):
        script = program_of(recordings, "ended.sh",
                            f"[[ $* {test} *--seed=* ]] && exec sleep 600", 11)
        done = seeds(*words, program=script)
        assert (first_line(done) == (0, f"{found}: status 11")
                and rows(done[1]) == [["11", "1", found, "-"]]), done
        assert folder.names() == ["BOOK", "LOG"] and content(folder.book) == b"\0"


def case_one_in_threads_at_a_time(recordings):
    """The first lasts until the last seed has begun: those whose turn came meanwhile are made
    later, and none is left out."""
    folder = Folder(recordings, "turns")
    started = recordings.path("started")
    last = recordings.path("last")
    script = program_of(recordings, "turns.sh", f"""if [[ $* == *--seed=9* ]]; then touch {last}
elif [[ $* != *--seed=* ]]; then echo >>{started}; until [ -e {last} ]; do sleep 0.05; done; fi""")
    done = seeds("-j4", "--only", "seeds,threads", "1", "9", "--", HAND_OVER, folder.log,
                 folder.book, program=script)
    assert done[0] == NOT_FOUND and len(content(started)) == 9, done
    assert rows(done[1]) == [["0", "18", "seed 1", "-"]], done


def case_interrupted(recordings):
    """Before a trial is over nothing is met, and nothing is printed; later the table is."""
    folder = Folder(recordings, "stopped")
    spins = recordings.write("spins.elf", elf_of([0x6f]))       # a jump to itself
    words = "--only", "seeds", "0", "1000000", "--", "--limit=100000000"
    assert interrupted(folder, folder.names, *words, spins) == "" and folder.names() == []
    out = interrupted(folder, lambda: any(re.match(r"seed-([2-9]|\d\d)", name)
                                          for name in trials(folder)), "-j1", *words, HAND_OVER)
    assert rows(out)[0][2] == "seed 0" and folder.names() == [], out


def case_progress_on_a_terminal(recordings):
    folder = Folder(recordings, "progress")
    ours, theirs = pty.openpty()
    words = ["--only", "seeds", "1", "2", "--", "--harts", "2", HAND_OVER, folder.log, folder.book]
    done = subprocess.run([*SEEDS, *words], stdout=subprocess.PIPE, stderr=theirs, check=False)
    os.close(theirs)
    said = shown_at(ours).decode()
    assert done.returncode == NOT_FOUND
    assert re.search(r"\r\d of 1 to 2, [\d.]+ runs a second, \d of status 0\x1b\[K", said), said
    assert said.replace("\r\n", "").endswith("\r\x1b[Kzelkuma: "
                                             "none of seeds from 1 to 2 ends with status 10"), said


Cases = cases.tests_of(globals())
