#!/usr/bin/env python3
"""Tries tools/contracts.py on two commits of a small crate: tests/sources/contracts.py"""
import pathlib
import shutil
import subprocess
import sys
import tempfile

TOP = pathlib.Path(__file__).resolve().parents[2]
OLD = {
    "src/lib.rt": """impl Ring {
    /// How many bytes it has; if none, 0.
    pub fn size(
        &self,
    ) -> usize
        // Whatever it holds;
        ensures value { result ≡ total self.now.records }
        ensures bound { result ≤ 7 }
    {
        self.size
    }

    pub fn clear(&mut self)
        ensures { self.new.records ≡ [] }
    {
        self.records = [];
    }

    fn hidden(&self)
        requires { 0 < self.now.size }
    {
    }
}

impl Drain for Ring {
    ghost drained = { λ r. r.records };

    fn drain(&mut self)
        ensures { self.new.records ≡ [] }
    {
    }
}
""",
    "src/other.rt": """pub fn moved(x: u8) -> u8
    ensures { result ≡ x }
{
    x
}
""",
    "specs/Held.antt": """-- what is held
pub record Held : Type 0 where
  pub size : ℕ
  -- none is negative
  pub low : 0 ≤ size

-- what fits
abbrev pub fits : ℕ → Bool
fits n = n < 7
""",
}
LIB = "crates/ring/src/lib.rt"
HELD = "crates/ring/specs/Held.antt"
# Each change of a text, and what is said of it.
CHANGES = (
    ("src/lib.rt", "        self.size\n", "        self.size.max(0)\n", ()),
    ("src/lib.rt", "result ≤ 7", "result ≤ 8", (f"changed: {LIB} Ring: fn size",)),
    ("src/lib.rt", "fn clear", "fn empty", (f"gone: {LIB} Ring: fn clear",)),
    ("src/lib.rt", "fn hidden", "fn private", ()),
    ("src/lib.rt", "λ r. r.records", "λ r. []", (f"changed: {LIB} Drain for Ring: ghost drained",)),
    ("src/other.rt", "-> u8", "-> u16", ("changed: crates/ring/src/other.rt : fn moved",)),
    ("specs/Held.antt", "0 ≤ size", "1 ≤ size", (f"changed: {HELD} definition Held",)),
    ("specs/Held.antt", "n < 7", "n < 8", (f"changed: {HELD} definition fits",)),
    ("specs/Held.antt", "-- what fits", "-- what has room", ()),
    ("specs/Held.antt", "-- none is negative", "-- it is a number", ()),
)


class Tree:
    """A repository with the script and one crate."""

    def __init__(self, folder):
        self.folder = pathlib.Path(folder)
        self.git("init", "-q")
        (self.folder / "tools").mkdir()
        shutil.copy2(TOP / "tools/contracts.py", self.folder / "tools")
        self.old = self.commit(OLD)

    def git(self, *words):
        who = ("-c", "user.name=test", "-c", "user.email=test@localhost")
        return self.said("git", *who, *words)[1].strip()

    def said(self, *words):
        done = subprocess.run(words, cwd=self.folder, stdout=subprocess.PIPE, check=False)
        return done.returncode, done.stdout.decode()

    def commit(self, files):
        shutil.rmtree(self.folder / "crates", ignore_errors=True)
        for name, text in files.items():
            file = self.folder / "crates/ring" / name
            file.parent.mkdir(parents=True, exist_ok=True)
            file.write_text(text, encoding="utf-8")
        self.git("add", "crates")
        self.git("commit", "-q", "--allow-empty", "-m", "state")
        return self.git("rev-parse", "HEAD")

    def compared(self, files):
        """Returns the status, and what is gone or changed, of the first state and this one."""
        new = self.commit(files)
        status, text = self.said(sys.executable, "tools/contracts.py", self.old, new)
        lines = [line[3:] for line in text.splitlines() if line.startswith("== ")]
        return status, tuple(line for line in lines if not line.startswith("new: "))


def faults(tree):
    """What was said of a change otherwise than it has to be."""
    for file, old, new, told in CHANGES:
        wanted = (int(any(line.startswith("gone") for line in told)), told)
        found = tree.compared({**OLD, file: OLD[file].replace(old, new)})
        if found != wanted:
            yield f"{new!r}: {found}"
    moved = {file.replace("other", "more"): text for file, text in OLD.items()}
    found = tree.compared(moved)
    if found != (0, ()):
        yield f"a moved function: {found}"


if not shutil.which("git"):
    print("skipped: git isn't here")
    sys.exit(77)
with tempfile.TemporaryDirectory() as room:
    wrong = list(faults(Tree(room)))
for fault in wrong:
    print(f"tests/sources/contracts.py: {fault}")
print(f"{len(CHANGES) + 1 - len(wrong)} passed, {len(wrong)} failed")
sys.exit(1 if wrong else 0)
