"""Saves what a recording did for other tools: kcachegrind, genhtml, ui.perfetto.dev, gdb."""
from __future__ import annotations

from typing import Callable, Dict

from ..call import streams
from ..call.errors import REFUSED, CompanionError
from ..call.kinds import CORE, text_kind
from ..call.help import Help
from ..call.options import read_words
from ..call.saving import target
from ..call.text import number
from ..recording.log import asked_row
from .callgrind import callgrind
from .core import SavedCore, core
from .lcov import lcov
from .perfetto import perfetto
from .reading import Asked, asked_of

HELP = Help(
    "export LOG ELF --callgrind FILE | --lcov FILE | --perfetto FILE | --core FILE [--row HART:IC] "
    "[--names ELF] [--rows N]",
    "saves a recording for kcachegrind, genhtml, Perfetto or gdb",
    """Saves what a recording did for other tools. FILE is overwritten if it is such a file.""", {
        "--callgrind": "instructions by function and line, and calls with theirs: kcachegrind",
        "--lcov": "how often each line was done: genhtml",
        "--perfetto": "the harts with their functions, waits, Edges and faults, in the order of "
                      "`joint`: ui.perfetto.dev",
        "--core": "an ELF core file, for gdb and whatever else reads one: the harts are its "
                  "threads, and its memory is what the rows tell; what is unknown is said",
        "--row": "of --core: the place before this row; without it the end",
    })
Maker = Callable[[Asked], str]
ROW = "--row"
MAKERS: Dict[str, Maker] = {"--callgrind": callgrind, "--lcov": lcov, "--perfetto": perfetto}
# Each says that zelkuma made it: other tools make files of these kinds, too.
KINDS = {**{option: text_kind(f"a file of export {option}", *known) for option, known in {
    "--callgrind": ("# callgrind format\nversion: 1\ncreator: zelkuma\n", "\n", "\ncreator: "),
    "--lcov": ("TN:zelkuma\n", "\n", "TN:"),
    "--perfetto": (r'\{"otherData": \{"creator": "zelkuma"', "}\n", "\n")}.items()}, "--core": CORE}


def main(words: list[str]) -> int:
    (log_name, elf_name), given = read_words(words, HELP.form)
    chosen = [option for option in KINDS if option in given]
    if len(chosen) != 1:
        raise CompanionError(f"one of {', '.join(KINDS)} has to be given; "
                             f"the words are: {HELP.form}", REFUSED)
    option = chosen[0]
    if ROW in given and option != "--core":
        raise CompanionError(f"--row is of --core alone; the words are: {HELP.form}", REFUSED)
    row = asked_row(given[ROW]) if ROW in given else None
    saved = target(given[option], KINDS[option], [log_name, elf_name, given.get("--names", "")])
    with asked_of(log_name, elf_name, given, keeps_words=option == "--core") as asked:
        if option == "--core":
            made = core(asked, row)
        else:
            text = MAKERS[option](asked).encode("utf-8", "backslashreplace")
            made = SavedCore(text, f"{number(asked.log.rows())} rows", [])
        saved.save(made.data)
        for line in asked.left_out() + made.missing:
            streams.say(line)
        streams.put(f"{made.what} to {given[option]}\n")
    return 0
