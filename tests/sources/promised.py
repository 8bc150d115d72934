#!/usr/bin/env python3
"""Compares what pages say of the sources, of contracts and of planted bugs with the sources.

tests/sources/promised.py

docs/PROOF.md tells each field of `Runs`, names only crates that are there, and has the sums of
bench/MUTANTS.md. That page has a row for each crate with code, and names only tests and cases that
are there. Any page names only clauses, laws, files and names of the sources that are there. The
list of changes is no page here: what it names may be gone since.
"""
import itertools
import pathlib
import re
import sys

TOP = pathlib.Path(__file__).resolve().parents[2]
CRATES = TOP / "crates"
# The layers of crates.txt whose crates have no code that runs in the program.
NO_CODE = ("laws", "tests")
# The folders with sources beside those of the program, and with pages.
FOLDERS = (
    "bench",
    "companion",
    "debian",
    "docs",
    "examples",
    "packaging",
    "python",
    "release",
    "tests",
    "tools",
)


def text_of(name):
    return (TOP / name).read_text(encoding="utf-8")


def layers():
    """Returns each layer of crates.txt with its crates."""
    found = {}
    for line in text_of("crates.txt").splitlines()[1:]:
        if line.startswith("# "):
            layer = line[2:].partition(":")[0]
        elif line.strip():
            found.setdefault(layer, []).append(line.partition(":")[0].split()[0])
    return found


def names_in(text):
    return re.findall(r"`([^`]+)`", text)


def section(page, headline):
    """Returns the text below a headline of a page, up to the next one."""
    return re.split(r"^#+ ", f"\n{page}".partition(f"\n{headline}\n")[2], maxsplit=1, flags=re.M)[0]


def heads(text):
    """Returns the names before the colon of each item of a list that begins with a name."""
    found = re.findall(r"^- ((?:`\w+`(?:, )?)+):", text, re.M)
    return [name for head in found for name in names_in(head)]


def rows(page):
    """Returns the cells of each row of the first table of bench/MUTANTS.md."""
    lines = section(page, "# Bugs planted by hand").splitlines()
    cells = [line.split("|")[1:6] for line in lines if line.startswith("| `")]
    return [[cell.strip() for cell in row] for row in cells]


def number(cell):
    """Returns the number that a cell begins with: of an empty one 0, of a text alone 1."""
    found = re.match(r"\d+", cell)
    return int(found[0]) if found else int(bool(cell))


def promises():
    return section(text_of("docs/PROOF.md"), "## What the program promises")


def clauses_fault():
    """The clauses of the program are the fields of Runs, and each is told."""
    source = text_of("crates/bugnet/specs/Program.antt")
    fields = set(re.findall(r"^  pub (\w+) :", source, re.M))
    told = set(heads(promises())) - set(laws_told())
    told |= {name for name in names_in(promises()) if name.endswith("later")}
    return sorted(fields ^ told)


def laws_told():
    return heads(promises().partition("\nLaws, ")[2])


def laws_fault():
    """Each law that is told is a function with a contract."""
    source = text_of("crates/bugnet/src/laws.rt")
    there = set(re.findall(r"^pub fn (\w+)\(\)", source, re.M))
    return [law for law in laws_told() if law not in there]


def all_text(pattern):
    return "\n".join(file.read_text(encoding="utf-8") for file in CRATES.glob(pattern))


def pages():
    """Returns each page with its text, without its blocks of code."""
    files = itertools.chain(TOP.glob("*.md"), *(TOP.glob(f"{folder}/*.md") for folder in FOLDERS))
    texts = {str(file.relative_to(TOP)): text_of(file) for file in files}
    texts.pop("CHANGELOG.md")
    block = re.compile(r"^```.*?^```", re.M | re.S)
    return {page: block.sub("", text) for page, text in texts.items()}


def quoted_by_page(pattern):
    """Returns what each page quotes of a pattern, each with its page."""
    texts = ((page, " ".join(names_in(text))) for page, text in pages().items())
    return [(page, name) for page, text in texts for name in set(re.findall(pattern, text))]


def clause_names(page, text):
    """Returns what a page calls clauses or laws, or docs/PROOF.md says to say something."""
    called = re.findall(r"\bthe (?:clauses?|laws?) `(\w+)`(?:(?:,| and) `(\w+)`)*", text, re.I)
    said = re.findall(r"`(\w+)` says?\b|\bsays? `(\w+)`(?: and `(\w+)`)?", text)
    found = [*called, *said] if page == "docs/PROOF.md" else called
    return {name for names in found for name in names if name}


def sayings_fault():
    """What a page calls a clause or a law, or says to say something, is one."""
    sources = all_text("*/src/**/*.rt") + all_text("*/specs/**/*.antt")
    there = set(re.findall(r"\b(?:ensures|fn|pub|record) (?=(\w+))", sources))
    told = {page: clause_names(page, text) for page, text in pages().items()}
    return [f"{page}: {name}" for page, names in told.items() for name in sorted(names - there)]


def sources_text():
    """Returns the text of all sources, the program's without comments, and all names of files."""
    program = all_text("**/*.rt") + all_text("**/*.antt")
    below = [file for folder in FOLDERS for file in (TOP / folder).rglob("*")]
    texts = [file for file in below if file.is_file() and file.suffix != ".md"]
    texts += [*CRATES.glob("*/stdin"), TOP / "zelkuma", TOP / "pyproject.toml"]
    others = [file.read_bytes().decode("utf-8", "ignore") for file in texts]
    stems = " ".join(file.stem for file in [*below, *CRATES.iterdir()])
    return "\n".join([re.sub(r"(?m)^\s*(//|--).*$", "", program), *others, stems])


def names_fault():
    """Each name of several words that a page quotes, but in a path, is one of the sources."""
    there = set(re.findall(r"\w+", sources_text()))
    words = r"[a-z0-9]+(?:_[a-z0-9]+)+|[A-Z][a-z]+(?:[A-Z][a-z]*)+"
    quoted = quoted_by_page(rf"(?<![\w/-])(?:{words})(?![\w-])")
    return [f"{page}: {name}" for page, name in quoted if name not in there]


def is_there(path):
    """Whether a path from the top, or from the folder of crates, leads to something."""
    pattern = path.rstrip("/").replace("NAME", "*")
    return any(TOP.glob(pattern)) or any(CRATES.glob(pattern))


def files_fault():
    """Each path that a page quotes, from a folder at the top or of a crate, leads to something."""
    tops = {file.name for folder in (TOP, CRATES) for file in folder.iterdir() if file.is_dir()}
    quoted = quoted_by_page(r"(?<![\w/.~$}-])[\w.-]+(?:/[\w.*-]+)+")
    ours = [(page, path) for page, path in quoted if path.split("/")[0] in tops]
    return [f"{page}: {path}" for page, path in ours if not is_there(path)]


def crates_fault():
    """Each crate below the program's call has its promise, and no other name stands there."""
    crates = {crate for layer, names in layers().items() if layer != "tests" for crate in names}
    told = heads(section(text_of("docs/PROOF.md"), "## What each crate promises"))
    return sorted(crates - {"bugnet"} ^ set(told))


def rows_fault():
    """Each crate with code has a row of planted bugs, and each row is of one."""
    code = {crate for layer, names in layers().items() if layer not in NO_CODE for crate in names}
    return sorted(code ^ {names_in(row[0])[0] for row in rows(text_of("bench/MUTANTS.md"))})


def sums_fault():
    """Each row adds up, and the page of proofs has the sums."""
    table = rows(text_of("bench/MUTANTS.md"))
    wrong = [row[0] for row in table if number(row[1]) != sum(map(number, row[2:5]))]
    sums = [f"{sum(number(row[at]) for row in table):,}" for at in range(1, 5)]
    told = (
        f"of {sums[0]} planted bugs the prover refused {sums[1]}, and {sums[2]} have a test. "
        f"The other {sums[3]} "
    )
    return wrong if told in text_of("docs/PROOF.md") else [*wrong, f"docs/PROOF.md hasn't '{told}'"]


def tests_fault():
    """What excludes a bug is a test function, a case of a script or a file that is there."""
    cells = " ".join(row[3] for row in rows(text_of("bench/MUTANTS.md")))
    tests = [name for name in names_in(cells) if re.fullmatch(r"[a-z0-9]+(_[a-z0-9]+){2,}", name)]
    there = set(re.findall(r"^fn (\w+)\(", all_text("*/src/**/*.rt"), re.M))
    gone = [name for name in tests if name not in there]
    files = [name for name in names_in(cells) if name.startswith("tests/")]
    gone += [name for name in files if not (TOP / name).exists()]
    for crate, cases in re.findall(r"\(`(\w+_cases)`, ([^)]*)\)", cells):
        script = "\n" + text_of(f"crates/{crate}/stdin")
        named = re.findall(r"'((?:[^']|'(?=\w))+)'", cases)
        gone += [case for case in named if f"\n# {case}" not in script]
    return gone


CHECKS = (
    clauses_fault,
    laws_fault,
    sayings_fault,
    names_fault,
    files_fault,
    crates_fault,
    rows_fault,
    sums_fault,
    tests_fault,
)


def main():
    faults = [(check, check()) for check in CHECKS]
    for check, found in faults:
        for fault in found:
            print(f"tests/sources/promised.py: {check.__doc__} Not so: {fault}")
    failed = sum(bool(found) for _, found in faults)
    print(f"{len(CHECKS) - failed} passed, {failed} failed")
    return 1 if failed else 0


sys.exit(main())
