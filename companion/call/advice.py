"""What to do after a refusal of the program. Made by tools/help/make.py of its tables."""
from __future__ import annotations

ADVICE = {                  # by the beginning of the line on err
    "too long:": (
        "the limits are 67108864 bytes for ELF, 272629760 for LOG, 1073741824 for BOOK, 16777216 "
        "for the input"),
    "program differs:": (
        "the first SHA-256 is that of the program that LOG recorded, the second that of ELF; give "
        "that very file ('sha256sum'): a rebuilt one is another, and a copy with names goes to "
        "'--names'"),
    "out of memory": (
        "free some; a recording needs less with '--lean', '--seed N', or a smaller '--limit' or "
        "'--log-size'"),
    "write failed": (
        "the disk is full, or the pipe's reader ended early, as 'head' does"),
    "no interval": (
        "'zelkuma list LOG' tells the intervals that LOG holds"),
    "replay:": (
        "ask for LOG as it was saved"),
    "differs at": (
        "give this LOG's BOOK and '--input'"),
    "book: unfinished": (
        "give this LOG's BOOK"),
    "nothing left": (
        "copy LOG again"),
    "races: more than": (
        "give a greater MAX, up to 1000000"),
    "setting seed ": (
        "the range of --seed is 0 to 18446744073709551615"),
    "setting format ": (
        "the range of --format is 1 to 2; 2 keeps the interval of a crash"),
    "setting harts ": (
        "the range of --harts is 1 to 8, with '--format 2' 1 to 16"),
    "setting interval ": (
        "the range of --interval is 1 to 10000000"),
    "setting limit ": (
        "the range of --limit is 1 to 1099511627776"),
    "setting log-size ": (
        "the range of --log-size is 16384 to 268435456"),
    "setting memory ": (
        "the range of --memory is 65536 to 67108864, a multiple of 4096"),
    "setting sets ": (
        "the range of --sets is 1 to 1024, a power of two"),
    "setting ways ": (
        "the range of --ways is 1 to 16"),
    "setting line ": (
        "the range of --line is 1 to 16, a power of two"),
    "setting sets2 ": (
        "the range of --sets2 is 1 to 4096, a power of two; needs '--format 2'"),
    "setting ways2 ": (
        "the range of --ways2 is 1 to 16; needs '--sets2', and is needed by it"),
    "elf: NotElf": (
        "it isn't an ELF file: give the linked program"),
    "elf: NotRv32": (
        "it is for another machine: build it with '-march=rv32ima -mabi=ilp32 -static'"),
    "elf: NotStatic": (
        "it isn't linked, or is shared or position-independent: link it, with '-static -no-pie'"),
    "elf: NeedsCompressed": (
        "it has compressed instructions: build it and its libraries with '-march=rv32ima', without "
        "c"),
    "elf: NeedsE": (
        "it has 16 registers: build it with '-march=rv32ima'"),
    "elf: Outside": (
        "a segment is outside of the memory, which begins at 4,096: give a larger '--memory', up "
        "to 64M, or link it lower"),
    "elf: SegmentsTouch": (
        "two of its segments share a word: align sections to 4 bytes in the linker script"),
    "elf: EntryOutside": (
        "its entry isn't an aligned word of code: say 'ENTRY(_start)' in the linker script"),
    "elf: NoSegment": (
        "it has nothing to load: link it with loaded code"),
    "elf: TooMany": (
        "it has more than 64 program headers: join sections in the linker script"),
    "elf: Truncated": (
        "its headers name more bytes than it has: copy it again"),
    "log: Short": (
        "it is empty or cut off: copy it again"),
    "log: BadMagic": (
        "it is no log that 'zelkuma record' saved: give LOG before ELF, unpacked"),
    "log: BadVersion": (
        "it is of an unknown version: read it with the version that recorded it"),
    "log: BadHead": (
        "a setting in it is out of range: copy it again"),
    "log: LengthDiffers": (
        "it was cut off, or something was added: copy it again, as a binary file"),
    "log: DigestDiffers": (
        "bytes have changed: copy it again, as a binary file"),
    "log: BadBlock": (
        "bytes have changed, or it was cut off: copy it again; 'zelkuma salvage LOG NEW' may save "
        "its end"),
    "log: BadRecord": (
        "its records are wrong: record again"),
    "log: BadOrder": (
        "its records are wrong: record again"),
}


def advised(line: str) -> str:
    """A line of the program with what to do, if that is known."""
    found = next((text for start, text in ADVICE.items() if line.startswith(start)), "")
    return f"{line}: {found}" if found else line
