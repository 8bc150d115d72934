#!/usr/bin/env python3
"""Counts what a crate promises and what that takes, so that two states of a crate can be compared.

tools/sizes.py [TOP] [CRATE..]    all crates of its own checkout, if none is named
tools/sizes.py --layers [TOP]     sums by the layers of crates.txt
tools/sizes.py --renew [TOP]      writes them into the table of docs/INTERNALS.md, whose last column
                                  has code+specs+proofs

It prints by crate, or by layer:

- functions; their clauses (requires and ensures), and the characters of these
- lines of code without clauses, imports of clauses, comments and empty lines; lines of comments in
  the code
- lines of specs/ and of proofs/
- calls of `refuse`, which tell an error at the place that finds it
- matches of an error that only pass it on, though `?` would do
"""
import pathlib
import re
import sys

OWN = pathlib.Path(__file__).resolve().parent.parent
CLAUSE = re.compile(r"^[ \t]*((?:requires|ensures)\*?\b[^\n{]*\{)", re.M)
FUNCTION = re.compile(r"^\s*(?:pub(?:\([a-z]+\))? )?fn ", re.M)
CALL_OF_REFUSE = re.compile(r"(?<!fn )\brefuse\(")
PASSED_ON = re.compile(r"Err\((\w+)\) => (?:return )?Err\(\1\)")
HEADS = ("functions", "clauses", "chars", "code", "comments", "specs", "proofs",
         "refuse", "Err=>Err")


def clauses_of(text):
    """The bounds of each clause: from its keyword to the brace that closes it."""
    places = []
    for found in CLAUSE.finditer(text):
        if places and found.start() < places[-1][1]:
            continue
        end = found.end()
        depth = 1
        while depth:
            depth += {"{": 1, "}": -1}.get(text[end], 0)
            end += 1
        places.append((found.start(1), end))
    return places


def without(text, places):
    """A text without these parts."""
    kept = []
    at = 0
    for start, end in places:
        kept.append(text[at:start])
        at = end
    return "".join(kept) + text[at:]


def lines_below(folder, ending):
    return sum(len(file.read_text(encoding="utf-8").splitlines())
               for file in folder.rglob(f"*{ending}"))


def sizes_of(crate):
    functions = clauses = chars = code = comments = refuse = passed_on = 0
    for file in crate.joinpath("src").rglob("*.rt"):
        lines = file.read_text(encoding="utf-8").splitlines()
        comments += sum(line.lstrip().startswith("//") for line in lines)
        text = "\n".join(line for line in lines if not re.match(r"\s*(//|ghost use )", line))
        places = clauses_of(text)
        functions += len(FUNCTION.findall(text))
        clauses += len(places)
        chars += sum(end - start for start, end in places)
        bare = without(text, places)
        code += sum(bool(line.strip()) for line in bare.splitlines())
        refuse += len(CALL_OF_REFUSE.findall(bare))
        passed_on += len(PASSED_ON.findall(bare))
    lines = [lines_below(crate / part, ".antt") for part in ("specs", "proofs")]
    return [functions, clauses, chars, code, comments, *lines, refuse, passed_on]


def layers_of(top):
    """The crates of each layer, by the headings of crates.txt."""
    layers = {}
    for line in (top / "crates.txt").read_text(encoding="utf-8").splitlines():
        if line.startswith("# "):
            layer = re.split("[: ]", line[2:])[0]
        elif line:
            layers.setdefault(layer, []).append(line.split(":")[0])
    return layers


def summed(rows):
    return [sum(column) for column in zip(*rows)]


def by_layer_of(top, sizes):
    """The sums of each layer, by the sizes of its crates."""
    return [(layer, summed(sizes[name] for name in crates))
            for layer, crates in layers_of(top).items()]


def renewed(text, layers):
    """A page in whose table of layers the last column has code+specs+proofs."""
    for layer, sizes in layers:
        lines = "+".join(f"{sizes[HEADS.index(head)]:,d}" for head in ("code", "specs", "proofs"))
        text = re.sub(rf"(?m)^(\| {layer} \|.*\| )[\d,+]+( \|)$", rf"\g<1>{lines}\g<2>", text)
    return text


def main(words):
    top = OWN
    by_layer = "--layers" in words or "--renew" in words
    renews = "--renew" in words
    words = [word for word in words if word not in ("--layers", "--renew")]
    if words and pathlib.Path(words[0]).is_dir():
        top = pathlib.Path(words.pop(0))
    names = words or sorted(folder.parent.name for folder in top.glob("crates/*/src"))
    lacking = [name for name in names if not (top / "crates" / name / "src").is_dir()]
    if lacking:
        print(f"tools/sizes.py: no crate: {' '.join(lacking)}", file=sys.stderr)
        return 2
    rows = [(name, sizes_of(top / "crates" / name)) for name in names]
    whole = ("all", summed(sizes for _, sizes in rows))
    if by_layer:
        rows = by_layer_of(top, dict(rows))
    if renews:
        page = top / "docs" / "INTERNALS.md"
        page.write_text(renewed(page.read_text(encoding="utf-8"), rows), encoding="utf-8")
    rows.append(whole)
    print(f"{'layer' if by_layer else 'crate':16s}" + "".join(f"{head:>10s}" for head in HEADS))
    for name, sizes in rows:
        print(f"{name:16s}" + "".join(f"{size:10,d}" for size in sizes))
    return 0


if __name__ == "__main__":
    sys.exit(main(sys.argv[1:]))
