#!/usr/bin/env python3
"""Gives each mutant of a crate to the prover by itself.

tools/mutants.py CRATE..

The gate tries several mutants of a crate in one check, since a check takes some eight seconds
whatever it looks at. Each is a change of another function (in a crate of laws, of a statement).
Such an edit has a line `# NAME` before each change. If a contract became weaker, the refusal of one
change could hide that another is not refused any more. So call this for a crate whose contracts or
mutants have changed: it makes an edit of each change, in a copy of the checkout, and calls `rt
must-fail` there.
"""
import pathlib
import re
import shutil
import subprocess
import sys
import tempfile

TOP = pathlib.Path(__file__).resolve().parent.parent
HEADING = re.compile(r"# ([a-z0-9_]+)$")


def parts_of(edit):
    """The changes of an edit, each with its name; an edit with no headings is one change."""
    lines = edit.read_text(encoding="utf-8").splitlines()
    parts = {}
    name = edit.stem
    for line in lines:
        heading = HEADING.match(line)
        if heading:
            name = heading[1]
        elif not line.startswith("#"):
            parts.setdefault(name, []).append(line)
    return parts


def part(folder):
    """Replaces the edits of a folder by one for each change."""
    for edit in sorted(folder.glob("*.edit")):
        parts = parts_of(edit)
        edit.unlink()
        for name, lines in parts.items():
            (folder / f"{name}.edit").write_text("\n".join(lines) + "\n", encoding="utf-8")


def main(crates):
    lacking = [name for name in crates if not (TOP / "crates" / name / "must-fail").is_dir()]
    if not crates or lacking:
        print(f"tools/mutants.py: {' '.join(lacking) or 'name a crate'}: "
              "it takes names of crates with mutants", file=sys.stderr)
        return 2
    with tempfile.TemporaryDirectory(prefix="mutants-") as room:
        copy = pathlib.Path(room) / "checkout"
        shutil.copytree(TOP, copy, ignore=shutil.ignore_patterns(".git", "out"))
        for name in crates:
            part(copy / "crates" / name / "must-fail")
        return subprocess.run(["rt", "must-fail", *crates], cwd=copy, check=False).returncode


sys.exit(main(sys.argv[1:]))
