#!/usr/bin/env python3
"""Tries that a slip of the hand is answered by what is wrong and what to type next, at a terminal
and piped.

tests/script/slips.py PROGRAM

Each line below is a call, `=>` its status, and texts that err has to hold, with `|` between them.
"""
import concurrent.futures
import gzip
import os
import shutil
import subprocess
import sys
import tempfile

TOP = os.path.dirname(os.path.dirname(os.path.dirname(os.path.realpath(__file__))))
AT_ONCE = 8                 # calls, which mostly start processes and wait
SLIPS = """
record heap.elf LOG2 => 2 BOOK is missing|record takes ELF LOG BOOK
record heap.elf => 2 LOG is missing|record takes ELF LOG BOOK
record LOG heap.elf BOOK2 => 2 LOG would destroy 'heap.elf'|the order is ELF LOG BOOK
record heap.elf LOG2 LOG2 => 2 one name
record heap.elf folder BOOK2 => 3 'folder' is a folder
record heap.elf none/LOG2 BOOK2 => 3 there is no folder 'none/'
record heapp.elf LOG2 BOOK2 => 4 missing: heapp.elf
replay heap.elf LOG 0 0 => 7 is an ELF file, and LOG was wanted there|LOG ELF HART INTERVAL
replay LOG heap.elf => 2 HART is missing|LOG ELF HART INTERVAL
replay LOG heap.elf 0 99 => 14 of hart 0 LOG holds the intervals 0 to 0
replay LOG heap.elf 5 0 => 14 LOG holds intervals of the harts 0
replay LOG heap.elf x 0 => 2 HART is a number from 0|not 'x'
slice LOG heap.elf 0 0 999999 => 21 interval 0 of hart 0 has the counts 0 to 63052
races LOG heap.elf => 2 MAX is missing|races takes LOG ELF MAX
races LOG heap.elf 0 => 2 MAX is a number from 1 to 1000000
recrod heap.elf LOG2 BOOK2 => 2 did you mean record?
lsit LOG => 2 did you mean list?
whi LOG heap.elf => 2 did you mean why?
doctr => 2 did you mean doctor?
runs heap.elf => 2 did you mean run?
run heap.elf --hart 2 => 2 did you mean --harts?
run heap.elf --harts 99 => 2 the range of --harts is
run heap.c => 6 it isn't an ELF file
-v => 2 'zelkuma --version' tells the version
version => 2 'zelkuma --version' tells the version
--seed 1 record heap.elf LOG2 BOOK2 => 2 the command comes first
record --hart 2 heap.elf LOG2 BOOK2 => 2 did you mean --harts?
record --log 1M heap.elf LOG2 BOOK2 => 2 did you mean --log-size?
record --lmit 9 heap.elf LOG2 BOOK2 => 2 did you mean --limit?
record --seed -1 heap.elf LOG2 BOOK2 => 2 --seed takes a number from 0|not '-1'
record --limit 2k heap.elf LOG2 BOOK2 => 2 --limit takes a number|not '2k'
record --harts 20 heap.elf LOG2 BOOK2 => 2 the range of --harts is 1 to 8, with '--format 2' 1 to 16
record --harts 16 heap.elf LOG2 BOOK2 => 2 the range of --harts is 1 to 8, with '--format 2' 1 to 16
record --memory 100000 heap.elf LOG2 BOOK2 => 2 the range of --memory is 65536 to 67108864, a multiple of 4096
record --interval 0 heap.elf LOG2 BOOK2 => 2 the range of --interval is 1 to 10000000
record --sets 3 heap.elf LOG2 BOOK2 => 2 the range of --sets is 1 to 1024, a power of two
record --sets2 4 heap.elf LOG2 BOOK2 => 2 needs '--format 2'
record --memory 64K sort.elf LOG2 BOOK2 => 6 larger '--memory'|link it lower
record heap.elf LOG2 BOOK2 argument => 2 'argument' is too many|a program has no arguments, and reads what --input names
record --seed 1 --seed 2 heap.elf LOG2 BOOK2 => 2 --seed is given twice
record heap.c LOG2 BOOK2 => 6 it isn't an ELF file: give the linked program
record x86 LOG2 BOOK2 => 6 it is for another machine: build it with '-march=rv32ima
record compressed LOG2 BOOK2 => 6 compressed instructions|without c
record object LOG2 BOOK2 => 6 it isn't linked|link it
record high LOG2 BOOK2 => 6 larger '--memory', up to 64M|link it lower
record short LOG2 BOOK2 => 6 copy it again
list LOGcut => 7 copy it again|salvage LOG NEW
list LOG.gz => 7 is compressed: gunzip it first
list heap.c => 7 it is no log that 'zelkuma record' saved
list empty => 7 it is empty
check LOGbad => 7 copy it again|salvage
replay LOG sort.elf 0 0 => 8 the first SHA-256 is that of the program that LOG recorded, the second that of ELF|--names
joint LOG heap.c => 6|8 give that very file
joint LOGcut heap.elf => 7 copy it again|salvage
audit LOG heap.elf LOG => 17 give this LOG's BOOK
why heap.elf LOG => 7 the log is named before it: LOG ELF
why LOG => 2 ELF is missing
why => 2 LOG is missing
view LOG heap.elf more => 2 'more' is too many
why LOG heapp.elf => 4 missing: heapp.elf
why LOGcut heap.elf => 7 BadBlock|copy it again|salvage
why LOG.gz heap.elf => 7 BadMagic|unpacked
why LOG sort.elf => 8 the first SHA-256 is that of the program that LOG recorded|--names
why LOG stripped.elf => 8 a rebuilt one is another|--names
why LOG heap.elf --names sort.elf => 8 sort.elf is another build than heap.elf
why LOG heap.elf --row 0:99999999 => 14 of hart 0 it holds counts from 0 to 63052
why LOG heap.elf --row 7:1 => 14 its harts are 0
why LOG heap.elf --row 500 => 2 --row has to be HART:COUNT
gdb LOG heap.elf --at 5 => 2 --at has to be HART:COUNT
why LOG heap.elf --output 1:0 => 14 `zelkuma output` lists them
why LOG heap.elf --outptu 1:0 => 2 did you mean --output?
at LOG heap.elf heap.c:75 => 2 an expression is missing
history LOG heap.elf orderss => 4 heap.elf has no orderss; near it: orders
history LOG heap.elf nosuch => 4 heap.elf has no nosuch; it has arena
calls LOG heap.elf mian => 4 heap.elf has no mian; near it: main
seeds 1 10 --format 2 heap.elf LOG2 BOOK2 => 2 the options of record stand behind --
shrink LOG heap.elf BOOK NEW NEWBOOK => 2 there is nothing to shrink
shrink LOG heap.elf BOOK => 2 NEWLOG is missing
recheck LOG heap.elf BOOK => 2 3 names are given
recheck LOG heap.elf => 2 is no order of harts
"""  # noqa: E501 (a call and what it has to say are one line)


def edited(data, *edits):
    made = bytearray(data)
    for place, value in edits:
        made[place:place + len(value)] = value
    return bytes(made)


def write(**files):
    for name, data in files.items():
        with open(name.replace("_", "."), "wb") as file:
            file.write(data)


def lay_files(program):
    """Files that are mistaken for others, in this folder."""
    for name in ("heap.elf", "sort.elf", "heap.c"):
        shutil.copy(f"{TOP}/examples/{name}", name)
    subprocess.run([program, "record", "--format", "2", "--seed", "1", "heap.elf", "LOG", "BOOK"],
                   stdout=subprocess.DEVNULL, stderr=subprocess.DEVNULL, check=False)
    os.mkdir("folder")
    with open("LOG", "rb") as file:
        log = file.read()
    with open("heap.elf", "rb") as file:
        elf = file.read()
    # (in an ELF header: the type at 16, the machine at 18, flags at 36; a program header's address
    # at 8)
    segment = int.from_bytes(elf[28:32], "little")
    write(LOGcut=log[:2000], LOG_gz=gzip.compress(log),
          LOGbad=edited(log, (len(log) - 100, b"\xa5\x5a")), empty=b"",
          x86=edited(elf, (18, b"\x3e\0")), compressed=edited(elf, (36, b"\1")),
          object=edited(elf, (16, b"\1\0")), high=edited(elf, (segment + 8, b"\0\0\0\x80" * 2)),
          short=elf[:60], stripped_elf=edited(elf, (32, bytes(4)), (48, bytes(4))))


def ran(words, at_terminal, kept):
    """The status and err of a call, which is kept in a file."""
    call = ["bash", f"{TOP}/zelkuma", *words]
    if at_terminal:
        call = [sys.executable, "-I", "-S", f"{TOP}/tests/script/terminal.py", "--err", kept, *call]
    with open(os.devnull if at_terminal else kept, "wb") as err:
        status = subprocess.run(call, stdin=subprocess.DEVNULL, stdout=subprocess.DEVNULL,
                                stderr=err, check=False).returncode
    with open(kept, encoding="utf-8", errors="replace") as file:
        return status, file.read()


def failure(line, at_terminal, kept):
    """What a slip was answered, if that isn't what it should be."""
    words, _, wanted = line.partition(" => ")
    statuses, _, texts = wanted.partition(" ")
    status, err = ran(words.split(), at_terminal, kept)
    if str(status) in statuses.split("|") and all(text in err for text in texts.split("|")):
        return ""
    return f"{words}: status {status}, {'at a terminal' if at_terminal else 'piped'}: {err}"


def main(program):
    os.environ["ZELKUMA_PROGRAM"] = os.path.realpath(program)
    with tempfile.TemporaryDirectory() as folder:
        os.chdir(folder)
        lay_files(os.environ["ZELKUMA_PROGRAM"])
        tried = [(line, at_terminal) for line in SLIPS.strip().splitlines()
                 for at_terminal in (False, True)]
        with concurrent.futures.ThreadPoolExecutor(AT_ONCE) as pool:
            found = list(
                pool.map(lambda place: failure(*tried[place], f"err-{place}"), range(len(tried))))
        os.chdir(TOP)
    failed = [text for text in found if text]
    print("".join(failed) + f"{len(tried)} slips, {len(failed)} aren't answered")
    return 1 if failed else 0


if __name__ == "__main__":
    sys.exit(main(sys.argv[1]))
