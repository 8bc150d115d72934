"""What is told of a word, once: `--help` and each refusal say it, and tools/help/make.py makes the
page of all words, the manual page and the completion of it."""
from __future__ import annotations

import re
import textwrap
from typing import Iterator, List, Mapping, NamedTuple, Tuple

WIDTH = 110                 # letters of a line at most, as of the page of all words
MOTTO = "Companions show; the program proves."
OPTION = re.compile(r"(--?[a-z][a-z-]*)(?: ([^]| ]\S*?))?(?=[] ]|$)")
PART = re.compile(r"\[[^]]*\](?:\.\.\.)?|\S+")
# The options that do the same for several words. What else one does, its word tells.
SHARED = {
    "--names": "the same program with names and lines, if ELF was stripped",
    "--source": "shows sources below this folder too, not only below ELF's and the current one; "
                "can be given several times",
    "--row": "asks of another row than the fault's",
    "--rows": "how many of the last rows are read; without it 80 million",
    "--last": "how many of the latest are told; without it 100",
    "--book": "tells first the switches between harts, if BOOK has no more than 40, as that of "
              "`shrink`",
    "--input": "what the run read: with BOOK it is run again, to see that this is LOG's",
    "--json": "prints one JSON object in place of the text (docs/JSON.md)",
}


class Help(NamedTuple):
    """form     the words of a call, as they are read
    brief    what it does, in a line of the page of all words
    does     the same at length, in paragraphs; more: those that follow the options. Lines of an
             indented one stay
    options  {option of the form: what it does}, but for those of SHARED"""
    form: str
    brief: str
    does: str
    options: Mapping[str, str] = {}
    more: str = ""

    @property
    def word(self) -> str:
        return self.form.split()[0]

    def told(self) -> Iterator[Tuple[str, str]]:
        """Each option with its value, and what it does."""
        for option, value in OPTION.findall(self.form):
            does = self.options[option] if option in self.options else SHARED[option]
            yield f"{option} {value}".strip(), does

    def text(self) -> str:
        """What `--help` prints."""
        parts = [self.does, *table(list(self.told())), self.more, MOTTO]
        return "\n\n".join([wrapped(f"zelkuma {self.form}"), *filter(None, parts)]) + "\n"


def wrapped(form: str) -> str:
    """A form in lines of which none parts an option from its value."""
    return "\n".join(line.replace("\0", " ") for line in textwrap.wrap(
        " ".join(part.replace(" ", "\0") for part in PART.findall(form)), WIDTH,
        subsequent_indent=" " * 8, break_long_words=False, break_on_hyphens=False))


def table(rows: List[Tuple[str, str]]) -> List[str]:
    """Names in a column, and beside it what they are; nothing of no rows."""
    width = max((len(name) for name, _ in rows), default=0) + 4
    told = [textwrap.fill(text, WIDTH, initial_indent=f"  {name:<{width - 2}}",
                          subsequent_indent=" " * width, break_on_hyphens=False)
            for name, text in rows]
    return ["\n".join(told)] if told else []
