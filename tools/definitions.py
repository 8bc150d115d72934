#!/usr/bin/env python3
"""Prints a page of all definitions, with the comments that they have in crates/*/specs.

tools/definitions.py [TOP]    the page of the sources at TOP, at first its own

The crates stand in the order of crates.txt, under its headings. The files of a crate stand in the
order of its `pub mod` lines. A definition's comment is the lines of `--` right before it; if one
has none, that is said, and the status is 1.
"""
import pathlib
import re
import sys

HEAD = """# Definitions

The words of the contracts: each public definition of `crates/*/specs`, with the comment that it has
there. The crates stand in the order of `crates.txt`, the lowest layer first. `docs/INTERNALS.md`
says how to read a contract, and has the field's word for each of ours.

A *law* is a statement about all values; a function of the crate has it as its contract, and so
proves it. A file `Examples` has theorems about worked examples: to read them is the quickest way to
see what a definition means.
"""
DEFINITION = re.compile(r"(?:(?:abbrev|unfoldable) )?pub (?:(?:record|data) )?([^\s:(]+)")
NO_DEFINITION = ("mod", "use")


def crate_layers(top):
    """The headings of crates.txt, each with its crates."""
    layers = []
    for line in (top / "crates.txt").read_text(encoding="utf-8").splitlines()[1:]:
        if line.startswith("# "):
            layers.append((line[2:], []))
        elif line.strip():
            layers[-1][1].append(line.split()[0].rstrip(":"))
    return layers


def spec_files(folder, library):
    """The files that the `pub mod` lines of a library name, in that order, each before those below
    it."""
    for name in re.findall(r"(?m)^pub mod (\w+)$", library.read_text(encoding="utf-8")):
        file = folder / f"{name}.antt"
        yield file
        if (folder / name).is_dir():
            yield from spec_files(folder / name, file)


def definitions_in(file):
    """The comment at a file's head, and its definitions, each as name and comment."""
    head = None
    definitions = []
    comment = []
    for line in file.read_text(encoding="utf-8").splitlines():
        if line.startswith("--"):
            comment.append(line[2:].strip())
            continue
        if head is None:
            head = " ".join(comment)
            comment = []
        found = DEFINITION.match(line)
        if found and found[1] not in NO_DEFINITION:
            definitions.append((found[1], " ".join(comment)))
        comment = []
    return head or "", definitions


def crate_purpose(crate):
    """The first paragraph at the head of a crate's source."""
    lines = []
    root = next(path
                for path in (crate / "src" / "lib.rt", crate / "src" / "main.rt") if path.exists())
    for line in root.read_text(encoding="utf-8").splitlines():
        text = re.sub(r"^//!? ?", "", line)
        if not line.startswith("//") or not text.strip():
            break
        lines.append(text.strip())
    return " ".join(lines)


def sentence(text):
    """A comment as text of the page: what Markdown would take for its own marks is escaped, and it
    ends."""
    parts = re.split(r"(`[^`]*`)", text)
    parts[::2] = [re.sub(r"([<*\[]|(?<!\w)_)(?=\w)", r"\\\1", part) for part in parts[::2]]
    text = "".join(parts)
    return text if not text or text[-1] in ".:;!?" else text + "."


def file_lines(top, crate, file):
    """The lines of a file: its link and head, and its definitions."""
    head, definitions = definitions_in(file)
    if not definitions:
        return []
    name = file.relative_to(crate / "specs").with_suffix("")
    link = f"[{name}]({file.relative_to(top)})"
    lines = ["", f"**{link}.** {sentence(head)}".strip(), ""]
    bare = [name for name, comment in definitions if not comment]
    if bare:
        sys.exit(f"{file.relative_to(top)}: without a comment: {', '.join(bare)}")
    return lines + [f"- `{name}`: {sentence(comment)}" for name, comment in definitions]


def crate_lines(top, name):
    """The lines of a crate, none if it has no definitions of its own."""
    crate = top / "crates" / name
    library = crate / "specs" / "Lib.antt"
    if not library.is_file():
        return []
    lines = ["", f"### {name}", "", sentence(crate_purpose(crate))]
    for file in spec_files(crate / "specs", library):
        lines += file_lines(top, crate, file)
    return lines


def page(top):
    """The page as text."""
    lines = HEAD.splitlines()
    for heading, crates in crate_layers(top):
        parts = [line for crate in crates for line in crate_lines(top, crate)]
        if parts:
            lines += ["", f"## {heading[0].upper()}{heading[1:]}"] + parts
    return "\n".join(lines) + "\n"


def main(words):
    if len(words) > 1:
        sys.exit(__doc__)
    top = (pathlib.Path(words[0]).resolve() if words
           else pathlib.Path(__file__).resolve().parent.parent)
    sys.stdout.write(page(top))


if __name__ == "__main__":
    main(sys.argv[1:])
