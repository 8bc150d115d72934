"""Tries `zelkuma again`: larger logs and other intervals, of drawn turns and of threads, and what
is refused."""
import os
import shutil
import subprocess

import cases
from common import EXAMPLES, PROGRAM, companion, content, output, scheduled

TABLE, COUNTER, FILTERS, WORDS = (os.path.join(EXAMPLES, name + ".elf")
                                  for name in ("table", "counter", "filters", "word_count"))


def recorded(recordings, name, *words, schedule=""):
    """A recording without a seed unless the words have one: LOG and BOOK."""
    log = recordings.path(name + ".log")
    book = recordings.path(name + ".book")
    done = subprocess.run([PROGRAM, "record", *words, log, book], stdout=subprocess.DEVNULL,
                          stderr=subprocess.DEVNULL, env=scheduled(schedule), check=False)
    assert done.returncode in (0, 10), (done.returncode, words)
    return log, book


def agrees(log, elf, book):
    return output("audit", log, elf, book) == b"agree\n"


def case_a_larger_log(recordings):
    log, book = recorded(recordings, "small", "--format", "2", "--seed", "1", "--log-size",
                         "32768", TABLE)
    whole, _ = recorded(recordings, "whole", "--format", "2", "--seed", "1", "--log-size",
                        "131072", TABLE)
    new = recordings.path("larger")
    done = companion("again", log, TABLE, book, new, "--log-size=128K")
    assert (done[0] == 0
            and done[1].startswith("bugnet: turns 144543 instructions 2666903 dropped 0 ")), done
    assert (done[1].endswith("\nturns: the 144,543 turns of BOOK\nends: those of LOG\n")
            and done[2] == ""), done
    assert content(new) == content(whole) and not os.path.exists(new + ".book")


def case_other_intervals_are_other_turns(recordings):
    log, book = recorded(recordings, "long", "--format", "2", "--seed", "1", TABLE)
    new = recordings.path("short")
    done = companion("again", log, TABLE, book, new, "--interval", "5000")
    assert (done[0] == 0 and "\nturns: not those of BOOK from turn 144,543 on; "
            f"they are saved as {new}.book\n" in done[1]), done
    assert done[1].endswith("\nends: those of LOG\n") and agrees(new, TABLE, new + ".book")


def case_another_run_is_told(recordings):
    log, book = recorded(recordings, "run", "--format", "2", "--harts", "4", "--seed",
                         "10", FILTERS)
    new = recordings.path("other")
    done = companion("again", log, FILTERS, book, new, "--interval", "7")
    assert done[0] == 16 and "\nends: not those of LOG: hart 0 ended with " in done[1], done
    assert agrees(new, FILTERS, new + ".book")


def case_drawn_turns_and_threads(recordings):
    for name, schedule in (("bursts", "bursts:5"), ("sleeper", "sleeper:5"), ("threads", "")):
        log, book = recorded(recordings, name, "--harts", "4", "--log-size", "16384",
                             COUNTER, schedule=schedule)
        new = recordings.path(name + ".new")
        done = companion("again", log, COUNTER, book, new, "--log-size", "64M")
        assert (done[0] == 0 and " dropped 0 " in done[1]
                and done[1].endswith(" of BOOK\nends: those of LOG\n")), done
        assert agrees(new, COUNTER, book)


def case_all_settings_are_those_of_the_log(recordings):
    """Without an option the same file is made, by whichever settings."""
    for at, words in enumerate((["--format=2", "--harts=2", "--sets=16", "--ways=2", "--line=4",
                                 "--sets2=32", "--ways2=3"],
                                ["--memory=1048576", "--interval=333", "--limit=900000",
                                 "--sets=1", "--ways=1", "--line=1"])):
        log, book = recorded(recordings, f"set{at}", "--seed=3", *words, "--input", __file__, WORDS)
        new = recordings.path(f"set{at}.new")
        done = companion("again", log, WORDS, book, new, "--input", __file__)
        assert done[0] == 0 and content(new) == content(log), done


def case_refusals(recordings):
    """Each is one line, and nothing is saved or overwritten."""
    log, book = recorded(recordings, "good", "--seed=1", "--input", __file__, WORDS)
    _, other = recorded(recordings, "table", "--seed=1", TABLE)
    _, shorter = recorded(recordings, "shorter", "--seed=1", WORDS)
    _, first_book = recorded(recordings, "first", "--seed=1", "--harts=2", COUNTER)
    second, _ = recorded(recordings, "second", "--seed=2", "--harts=2", COUNTER)
    elf = shutil.copy(WORDS, recordings.path("elf"))
    source = ["--input", __file__]
    new = shutil.copy(second, recordings.path("new"))
    link = recordings.path("link")
    os.link(book, link)
    before = {name: content(name) for name in (log, book, elf, new)}
    for status, words in (
            (4, [log, elf, recordings.path("none"), new, *source]),
            (17, [log, elf, other, new, *source]),
            (17, [log, elf, shorter, new, *source]), (17, [log, elf, book, new]),
            (16, [second, COUNTER, first_book, new]), (8, [log, TABLE, book, new, *source]),
            (7, [elf, elf, book, new, *source]),
            (4, [log, elf, book, new, "--input", recordings.path("none")]),
            (2, [log, elf, book, log, *source]), (2, [log, elf, book, elf, *source]),
            (2, [log, elf, book, link, *source]),
            (2, [log, elf, book, book, *source]), (3, [log, elf, book, recordings.folder, *source]),
            (3, [log, elf, book, "/dev/null", *source]),
            (3, [log, elf, book, "/nowhere/new", *source]),
            (2, [log, elf, book]), (2, [log, elf, book, new, *source, "--log-size", "many"]),
            (2, [log, elf, book, new, *source, "--log-size", "1K"]),
            (2, [log, elf, book, new, *source, "--seed=1"])):
        done = companion("again", *words)
        assert done[0] == status and done[1] == "" and done[2].count("\n") == 1, (status,
                                                                                  words, done)
        assert {name: content(name) for name in before} == before, words
    assert not [name for name in os.listdir(recordings.folder) if name.startswith(".zelkuma-")]


Cases = cases.tests_of(globals())
