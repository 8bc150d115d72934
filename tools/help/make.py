#!/usr/bin/env python3
"""Makes all that tells the words of zelkuma from the tables beside this file, and of a companion
from the HELP of its module, so that no two of them differ.

tools/help/make.py                   renews what the sources have of it
tools/help/make.py --under PREFIX    what `zelkuma install` lays of it: the manual page, and the
                                     completion of words in bash

Written to the sources are the pages that `zelkuma help` and `zelkuma COMMAND --help` print, what
the script knows of words, and the tables of docs/COMMANDS.md, which stand there between two
comments. It also lists the files that `zelkuma install` lays. tests/pages/help.sh tries that it was
called. A table has this form:

    # a comment
    ENTRY              at the line's start; several with nothing between them share what follows,
      KEY TEXT         and are one entry, with ", " between them
          TEXT         more indented: the text continues

A text `-` says that there is none. A text of which one is made has lines `@FORM TABLE@` in its file
NAME.in.
"""
import pathlib
import re
import sys
import textwrap
from typing import Callable, Dict, Iterable, Iterator, List, NamedTuple, Tuple

HERE = pathlib.Path(__file__).resolve().parent
TOP = HERE.parent.parent
sys.path.insert(0, str(TOP))
sys.dont_write_bytecode = True
from companion.call.help import Help        # noqa: E402
from companion.call.words import WORDS, help_of     # noqa: E402

BEGINS = re.compile(r"(<!-- made by tools/help/make\.py: (\w+) (\w+) ?(.*?) -->\n)")
ENDS = "<!-- end of the table -->\n"
OPTIONAL = r"\[[^]]*\](?:\.\.\.)?"


class Entry(NamedTuple):
    """An entry of a table: its name, and its texts with their keys."""
    name: str
    texts: List[Tuple[str, str]]

    @property
    def first(self) -> str:
        return self.name.split()[0]

    @property
    def rest(self) -> str:
        return self.name[len(self.first):].strip()

    def all(self, *keys: str) -> List[str]:
        return [text for key, text in self.texts if key in keys]

    def last(self, *keys: str) -> str:
        return (self.all(*keys) or [""])[-1]


Table = Iterable[Entry]
Lines = Iterator[str]


def of_companion(told: Help) -> Entry:
    """Of a companion: what stands before its options, these with what each does, and the rest."""
    options = [("option", f"{name}\0{does}") for name, does in told.told()]
    texts = [("text", told.does), *options, ("text", told.more)]
    return Entry(told.form, [("does", told.brief), *texts])


def read(name: str) -> List[Entry]:
    """The entries of a table."""
    if name == "companions":
        return [of_companion(help_of(word)) for word in WORDS]
    entries: List[Entry] = []
    for line in (HERE / f"{name}.txt").read_text(encoding="utf-8").splitlines():
        if not line or line.startswith("#"):
            continue
        if not line.startswith(" "):
            is_more = entries and not entries[-1].texts
            entries.append(Entry(f"{entries.pop().name}, {line}" if is_more else line, []))
        elif line.startswith("   "):
            key, text = entries[-1].texts.pop()
            entries[-1].texts.append((key, f"{text} {line.strip()}"))
        else:
            key, _, text = line.strip().partition(" ")
            entries[-1].texts.append((key, text.strip().replace("-", "") if text.strip() == "-"
                                      else text.strip()))
    return entries


def plain(text: str) -> str:
    return text.replace("`", "")


def capital(text: str) -> str:
    return text[:1].upper() + text[1:]


# The page that `zelkuma help` prints.

def page_words(table: Table) -> Lines:
    for entry in table:
        # (an option and its value stay together)
        parts = re.findall(r"\[[^]]*\](?:\.\.\.)?|\S+", f"zelkuma {entry.name}")
        lines = textwrap.wrap(" ".join(part.replace(" ", "\0") for part in parts), 110,
                              subsequent_indent=" " * 8,
                              break_long_words=False, break_on_hyphens=False)
        *first, last = [line.replace("\0", " ") for line in lines]
        yield from first
        does = plain(entry.last("does"))
        yield f"{last:<50}{does}" if len(last) < 50 and not first else f"{last}\n{'':50}{does}"


def page_options(table: Table) -> Lines:
    """An option without a range may tell in its place what it does."""
    for entry in table:
        allowed = plain(entry.last("range", "page"))
        yield f"{entry.name:<18}{allowed:<45}{plain(entry.last('default'))}"


def page_statuses(table: Table) -> Lines:
    for entry in table:
        yield f"{entry.first:>9}  {entry.rest}"


def page_names(table: Table) -> Lines:
    """The names stand in as many lines as they need."""
    line = ""
    for entry in table:
        if len(line + entry.name) > 98:
            yield line[:-1]
            line = ""
        line += f"{entry.name}, "
    yield line[:-2]


# What `zelkuma COMMAND --help` prints.

def folded(text: str) -> Lines:
    """Text in lines of at most 98 characters."""
    line = ""
    for word in plain(text).split():
        if len(line + word) > 95:
            yield " " + line
            line = ""
        line += " " + word
    yield " " + line


def each_words(table: Table) -> Lines:
    for entry in table:
        yield f"zelkuma {entry.name}"
        for text in entry.all("does", "more"):
            yield from folded(text)


def each_options(table: Table) -> Lines:
    return (f"  {line}" for line in page_options(table))


# The manual page. Characters that roff would take otherwise are written by their names.

def roff(text: str) -> str:
    return text.replace("\\", "\\e").replace("^", "\\(ha")


def bold(text: str) -> str:
    return "\\fB" + verbatim(text) + "\\fR"


def verbatim(text: str) -> str:
    return roff(text).replace("-", "\\-").replace("'", "\\(aq")


def paragraph(text: str) -> str:
    """Text for roff: each sentence begins a line, and `CODE` is set in bold."""
    parts = text.split("`")
    parts[::2] = [re.sub(r"\. (?=[A-Z])", ".\n", roff(part)) for part in parts[::2]]
    parts[1::2] = [bold(part) for part in parts[1::2]]
    return ("\\&" if parts[0][:1] in tuple(".'") else "") + "".join(parts)


def sentence(text: str) -> Lines:
    """The sentence of a cell's phrase, if it has one."""
    if text:
        yield paragraph(text if re.match("[a-z]+:", text) else capital(text)) + "."


def man_words(table: Table) -> Lines:
    for entry in table:
        yield f".TP\n{bold(entry.name)}"
        for key, text in entry.texts:
            if key == "does":
                yield from sentence(text)
            elif key == "more":
                yield paragraph(text)


def man_companions(table: Table) -> Lines:
    """Paragraphs, of which one that is indented has its lines as they are, and the options."""
    for entry in table:
        yield f".SS {verbatim(entry.first)}\n{bold(entry.name)}"
        for key, text in entry.texts:
            if key == "option":
                name, _, does = text.partition("\0")
                yield f".TP\n{bold(name)}\n{paragraph(does)}"
            elif key == "text" and text:
                for part in text.split("\n\n"):
                    said = f".EX\n{verbatim(part)}\n.EE" if part[0] == " " else paragraph(part)
                    yield f".PP\n{said}"


def man_options(table: Table) -> Lines:
    for entry in table:
        yield f".TP\n{bold(entry.name)}"
        yield from sentence(entry.last("sets"))
        yield from (f"Range: {paragraph(text)}." for text in entry.all("range") if text)
        yield f"Without it: {paragraph(entry.last('default'))}."


def man_statuses(table: Table) -> Lines:
    for entry in table:
        yield f".TP\n{bold(entry.first)}"
        yield from sentence(entry.rest)
        for key, text in entry.texts:
            if key == "line" and text:
                yield f".br\n{paragraph(text)}"
            elif key == "cause" and entry.first != "0":
                yield f"\\(em {paragraph(text)}."
            elif key in ("remedy", "advice"):
                yield f"To do: {paragraph(text)}."


# The tables of docs/COMMANDS.md.

def row(*cells: str) -> str:
    return ("| " + " | ".join(cells) + " |").replace("  |", " |")


def cell_of(name: str) -> str:
    """A name as code: a `|` would part the cells of a table, and the names of one entry stand
    apart."""
    escaped = name.replace("|", "\\|").replace(", ", "`, `")
    return f"`{escaped}`"


def table_words(table: Table) -> Lines:
    return (row(cell_of(entry.name), entry.last("does")) for entry in table)


def table_options(table: Table) -> Lines:
    return (row(cell_of(entry.name), *(entry.last(key) for key in ("sets", "range", "default")))
            for entry in table)


def table_statuses(table: Table) -> Lines:
    """A status has a row for each line that err may get; a remedy follows the cause as a
    sentence."""
    for entry in table:
        rows: List[List[str]] = []
        for key, text in entry.texts:
            if key == "line":
                rows.append([text, ""])
            else:
                rows[-1][1] += text if key == "cause" else f". {capital(text)}"
        yield from (row(entry.first, *cells) for cells in rows)


def table_kinds(table: Table) -> Lines:
    """Those of ELF files: docs/FORMAT.md has those of logs."""
    return (row(cell_of(entry.name), f"{entry.last('cause')}. {capital(entry.last('advice'))}")
            for entry in table if entry.name.startswith("elf"))


# What the script knows, as elements of arrays in bash. The value of an option is N (a number),
# FILE, or for one without a value `flag`.

def element(key: str, text: str) -> str:
    escaped = re.sub(r'[\\"$]', r"\\\g<0>", text).replace("`", "'")
    return f'[{key}]="{escaped}"'


def option(command: str, text: str) -> str:
    name, _, value = text.partition(" ")
    return element(f"{command}.{name[2:]}", value or "flag")


def names_of(entry: Entry) -> str:
    """A form without what is optional."""
    return re.sub(f" {OPTIONAL}", "", entry.name)


def words_names(table: Table) -> Lines:
    return (element(f"{entry.first}.", names_of(entry)[len(entry.first):].strip())
            for entry in table)


def words_record(table: Table) -> Lines:
    return (option("record", entry.name) for entry in table)


def words_options(table: Table) -> Lines:
    return (option(entry.first, text) for entry in table
            for text in re.findall(r"\[(--[^]]*)\]", entry.name))


def words_ranges(table: Table) -> Lines:
    return (element(*text.split(" ", 1)) for entry in table for text in entry.all("range"))


def words_advice(table: Table) -> Lines:
    return (element(entry.first, text) for entry in table for text in entry.all("advice"))


def told(entry: Entry) -> Iterator[Tuple[str, str]]:
    """Of each name of a refused file, without the values behind it, what is wrong and what to
    do."""
    for name in entry.name.split(", "):
        yield re.sub(" [A-Z]{2,}.*", "", name), f"{entry.last('cause')}: {entry.last('advice')}"


def words_kinds(table: Table) -> Lines:
    return (element(*pair) for entry in table for pair in told(entry))


def words_limits(table: Table) -> Lines:
    """The ranges of options, by their names as they are typed."""
    return (element(entry.first, text) for entry in table
            for text in entry.all("range") if text and entry.rest == "N")


# What the companions know: the same advice, as entries of a dictionary in Python.

def pair(key: str, text: str) -> str:
    lines = textwrap.wrap(text.replace("`", "'").replace('"', "'"), 89, break_on_hyphens=False)
    return f'    "{key}": (\n' + "\n".join(f'        "{line} "' for line in lines)[:-2] + '"),'


def advice_statuses(table: Table) -> Lines:
    """By the beginning of the line on err."""
    return (pair(re.sub(" ?[A-Z]{2,}.*", "", entry.last("line").strip("`")), text)
            for entry in table for text in entry.all("advice"))


def advice_ranges(table: Table) -> Lines:
    return (pair(f"setting {entry.first[2:]} ", f"the range of {entry.first} is {text}")
            for entry in table for text in entry.all("range") if text and entry.rest == "N")


def advice_kinds(table: Table) -> Lines:
    return (pair(*each) for entry in table for each in told(entry))


def words_companions(table: Table) -> Lines:
    yield f'companions=" {" ".join(entry.first for entry in table)} "'


# What the completion of words has to know: a command and its names; a command, an option and its
# value.

def completion_words(table: Table) -> Lines:
    return map(names_of, table)


def completion_record(table: Table) -> Lines:
    return (f"record {entry.name}" for entry in table)


def completion_told(table: Table) -> Lines:
    return (f"{entry.first} {text.partition(chr(0))[0]}"
            for entry in table for text in entry.all("option"))


def completion_options(table: Table) -> Lines:
    return (f"{entry.first} {text}" for entry in table
            for text in re.findall(r"(?<!\S|\w)\[?(--?[a-z][a-z-]*(?: [^]| ]+)?)", entry.name))


def lines_of(kind: str, form: str, table: str) -> str:
    make: Callable[[Table], Lines] = globals()[f"{kind}_{form}"]
    return "".join(f"{line}\n" for line in make(read(table)))


def filled(kind: str) -> str:
    """The text of NAME.in, in which each line `@FORM TABLE@` is replaced by a table."""
    text = (HERE / f"{kind}.in").read_text(encoding="utf-8")
    text = re.sub(r"^@(\w+) (\w+)@\n",
                  lambda found: lines_of(kind, found[1], found[2]), text, flags=re.M)
    return text.replace("@VERSION@", (TOP / "VERSION").read_text(encoding="utf-8").strip())


def heads_of(form: str, first: str) -> List[str]:
    return {"words": [first, "what it does"],
            "options": ["option", "what it sets", "range", "without it"],
            "kinds": ["line on err", "what is wrong, what to do"],
            "statuses": ["status", "line on err, after `bugnet: `", "cause, and what to do"]}[form]


def renewed(name: str, text: str) -> str:
    """A document with the tables that stand in it made again."""
    made, *pieces = BEGINS.split(text)
    for mark, form, table, first, piece in zip(*[iter(pieces)] * 5):
        _, end, rest = piece.partition(ENDS)
        if not end:
            sys.exit(f"{name}: a table has no end")
        heads = heads_of(form, first)
        made += (f"{mark}{row(*heads)}\n{'|---' * len(heads)}|\n"
                 f"{lines_of('table', form, table)}{end}{rest}")
    return made


def listed() -> str:
    """The names of the files that an installed script has in lib/zelkuma, beside the program."""
    names = ["VERSION", "release/COMMIT", "release/STAMP", *(f"tools/{name}" for name in (
        "doctor.sh", "files.txt", "install.sh", "new.sh", "say.sh", "tools.txt", "version.sh",
        "help/each.txt", "help/page.txt", "help/words.sh"))]
    starters = [f"{folder}/{end}" for folder in ("bare", "lib", "picolibc")
                for end in ("Makefile", "*.[cSh]", "program.ld")]
    found = [*TOP.glob("tools/launcher/*.sh"),
             *(file for name in starters for file in TOP.glob(f"examples/{name}")), *(
        file for ending in ("py", "html", "js", "css", "typed")
        for folder in ("companion", "companion/*", "companion/view/page", "python/zelkuma")
        for file in TOP.glob(f"{folder}/*.{ending}"))]
    return "".join(f"{name}\n"
                   for name in sorted([*names, *(str(file.relative_to(TOP)) for file in found)]))


def write(file: pathlib.Path, text: str) -> None:
    """Writes a file in one step."""
    file.parent.mkdir(parents=True, exist_ok=True)
    new = file.with_name(f"{file.name}.new")
    new.write_text(text, encoding="utf-8")
    new.replace(file)


def kept() -> Dict[str, str]:
    """What the sources have, by name."""
    document = TOP / "docs" / "COMMANDS.md"
    return {
        "tools/help/page.txt": filled("page"),
        "tools/help/each.txt": filled("each"),
        "tools/help/words.sh": filled("words"),
        "companion/call/advice.py": filled("advice"),
        "tools/files.txt": listed(),
        "docs/COMMANDS.md": renewed("docs/COMMANDS.md", document.read_text(encoding="utf-8")),
    }


def laid() -> Dict[str, str]:
    """What is laid beside the script that is installed, by name."""
    return {"share/man/man1/zelkuma.1": filled("man"),
            "share/bash-completion/completions/zelkuma": filled("completion")}


def main(words: List[str]) -> None:
    folder, made = (pathlib.Path(words[1]), laid()) if words[:1] == ["--under"] else (TOP, kept())
    for name, text in made.items():
        write(folder / name, text)


if __name__ == "__main__":
    main(sys.argv[1:])
