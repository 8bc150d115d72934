#!/usr/bin/env python3
"""Compares the contracts of two commits: which are gone, changed or new.

tools/contracts.py OLD [NEW]    NEW is HEAD if it isn't given

A contract is the signature of a function that other crates can call, with its clauses; a ghost
member of a type; or a definition of crates/*/specs. Of one that changed, the lines that went and
that came are printed. Whether the new text promises less has to be read. The status is 1 if a
contract is gone.
"""
import difflib
import io
import pathlib
import re
import subprocess
import sys
import tarfile
from typing import Dict, Iterator, List, Tuple

TOP = pathlib.Path(__file__).resolve().parent.parent
# Crates whose functions nobody calls.
UNCALLED = re.compile(r"crates/\w+_(?:tests|cases)/")
DEFINITION = re.compile(r"(?:(?:abbrev|unfoldable) )?pub (?:(?:record|data) )?([^\s:(]+)")
FUNCTION = re.compile(r"( *)(pub )?(?:const )?fn (\w+)")
OWNER = re.compile(r"(?:pub(?:\(\w+\))? )?(impl|trait)\b(.*)")
GHOST = re.compile(r" +ghost (?!use )(\w+)")

Contracts = Dict[str, List[str]]


def files_of(commit: str) -> Iterator[Tuple[str, List[str]]]:
    """Each file of a commit's crates that has contracts, with its lines."""
    words = ["git", "archive", commit, "crates"]
    packed = subprocess.run(words, cwd=TOP, stdout=subprocess.PIPE, check=True).stdout
    with tarfile.open(fileobj=io.BytesIO(packed)) as archive:
        for member in archive:
            is_kept = member.name.endswith(".rt") or "/specs/" in member.name
            file = archive.extractfile(member) if is_kept and member.isfile() else None
            if file and not UNCALLED.match(member.name):
                yield member.name, file.read().decode("utf-8").splitlines()


def items_of(lines: List[str]) -> Iterator[List[str]]:
    """The definitions of a file, each up to the next item or comment at a line's beginning."""
    item: List[str] = []
    for line in lines:
        found = DEFINITION.match(line)
        begins = found and found[1] not in ("mod", "use")
        if begins or line.startswith(("--", "use ", "pub use ", "pub mod ")):
            if item:
                yield item
            item = [line] if begins else []
        elif item and line.strip() and not line.strip().startswith("--"):
            item.append(line)
    if item:
        yield item


def contract_at(lines: List[str], at: int, indent: str) -> List[str]:
    """The signature and the clauses of a function, up to its body."""
    taken: List[str] = []
    for line in lines[at:]:
        if taken and line.startswith(indent + "{"):
            break
        if not line.strip() or line.strip().startswith("//"):
            continue
        taken.append(line.rstrip())
        if line.rstrip().endswith(("{", ";")) and not re.match(r"\s*(requires|ensures)\b", line):
            break
    return taken


def name_of(owner: str) -> str:
    """What an impl or a trait is of, without its bounds."""
    bare = owner.strip().rstrip("{").strip()
    while re.search(r"<[^<>]*>", bare):
        bare = re.sub(r"<[^<>]*>", "", bare)
    return re.sub(r"\s+", " ", bare)


def functions_of(lines: List[str]) -> Contracts:
    """The contracts of a source: of its public functions, and of all in a trait or its impl."""
    found: Contracts = {}
    owner = ""
    is_open = False
    for at, line in enumerate(lines):
        owned = OWNER.match(line)
        if owned:
            owner = name_of(owned[2])
            is_open = owned[1] == "trait" or " for " in line
        elif line.startswith("}"):
            owner = ""
            is_open = False
        function = FUNCTION.match(line)
        ghost = GHOST.match(line)
        if function and (function[2] or is_open):
            found[f"{owner}: fn {function[3]}"] = contract_at(lines, at, function[1])
        elif ghost and owner:
            ends = (n for n in range(at, len(lines)) if lines[n].rstrip().endswith(("}", ";")))
            found[f"{owner}: ghost {ghost[1]}"] = lines[at:next(ends) + 1]
    return found


def definitions_of(lines: List[str]) -> Contracts:
    named = ((DEFINITION.match(item[0]), item) for item in items_of(lines))
    return {f"definition {name[1]}": item for name, item in named if name}


def contracts_of(commit: str) -> Contracts:
    found: Contracts = {}
    for file, lines in files_of(commit):
        read = functions_of if file.endswith(".rt") else definitions_of
        found.update({f"{file} {name}": item for name, item in read(lines).items()})
    return found


def moved(name: str, item: List[str], new: Contracts) -> bool:
    """Whether another file of the crate has it, word for word."""
    crate = name.split("/")[1]
    bare = name.partition(" ")[2]
    there = (other for other in new if other.split("/")[1] == crate)
    return any(other.partition(" ")[2] == bare and new[other] == item for other in there)


def main(words: List[str]) -> int:
    if not 1 <= len(words) <= 2 or words[0].startswith("-"):
        sys.exit(__doc__)
    old, new = (contracts_of(commit) for commit in [*words, "HEAD"][:2])
    came = [name for name in new if name not in old]
    gone = [name for name in old if name not in new and not moved(name, old[name], new)]
    changed = [name for name in old if name in new and old[name] != new[name]]
    for name in gone:
        print(f"== gone: {name}", *old[name], sep="\n    ")
    for name in changed:
        print(f"== changed: {name}")
        print(*(line for line in difflib.ndiff(old[name], new[name]) if line[0] in "-+"), sep="\n")
    for name in came:
        print(f"== new: {name}")
    print(f"{len(old)} contracts, {len(gone)} gone, {len(changed)} changed, {len(came)} new")
    return 1 if gone else 0


if __name__ == "__main__":
    sys.exit(main(sys.argv[1:]))
