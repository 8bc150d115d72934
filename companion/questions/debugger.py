"""Asks gdb what DWARF says of a name. Without a gdb that has Python there are the ELF file's
symbols alone."""
from __future__ import annotations

import itertools
import json
import os
import resource
import shutil
import subprocess
from typing import Any, Optional, Set

from ..call import streams
from ..call.children import run
from ..call.errors import CompanionError
from ..call.program import NOT_BUILT
from ..recording.elf import Elf

GDBS = ("gdb-multiarch", "riscv64-unknown-elf-gdb", "riscv32-unknown-elf-gdb")
PACKAGE = "gdb-multiarch"
# By the clock that gdb may take, on a machine that does much else as well
PATIENCE_S = 60
# Of gdb, whatever an ELF file says: seconds of processor time (it takes 0.4), and bytes of data (44
# MB).
MOST = {resource.RLIMIT_CPU: 5, resource.RLIMIT_DATA: 320 << 20, resource.RLIMIT_CORE: 0}
given_up: Set[str] = set()  # ELF files of which it isn't asked any more
# An ELF file can name scripts to run and servers to ask: gdb does neither.
QUIET = ("-nx", "-batch", *itertools.chain.from_iterable(("-iex", line) for line in (
    "set auto-load off", "set debuginfod enabled off", "set confirm off",
    "maintenance set worker-threads 0")))


def gdb_path() -> str:
    """The gdb that $ZELKUMA_GDB names, else the first that is there, or nothing."""
    named = os.environ.get("ZELKUMA_GDB")
    return next((name for name in ([named] if named else GDBS) if shutil.which(name)), "")


def told_by_gdb(elf: Elf, **asked: object) -> dict[str, Any]:
    """What gdb answers. CompanionError if it can't be asked."""
    gdb = gdb_path()
    mark = f"answer {int.from_bytes(os.urandom(8), 'little'):x} "
    if not gdb:
        raise CompanionError(f"no gdb is here; Debian has it in {PACKAGE}", NOT_BUILT)
    words = [gdb, *QUIET, "-x",
             os.path.join(os.path.dirname(os.path.abspath(__file__)), "inside_gdb.py"),
             os.path.abspath(elf.name)]
    try:
        status, out = run(words, PATIENCE_S, MOST, stderr=subprocess.DEVNULL,
                          env={**os.environ, "ZELKUMA_ASKED": json.dumps({"mark": mark, **asked})})
        _, found, said = out.decode("utf-8", "replace").rpartition(mark)
        if found:
            answer: dict[str, Any] = json.loads(said)
            return answer
        why = f"it ended with {status}"
    except (OSError, ValueError, subprocess.TimeoutExpired) as error:
        why = (str(error).split(" Command", 1)[0]
               if not isinstance(error, subprocess.TimeoutExpired) else "it took too long")
    raise CompanionError(f"{gdb} can't be asked: {why}", NOT_BUILT)


def ask_gdb(elf: Elf, **asked: object) -> Optional[dict[str, Any]]:
    """What gdb answers, or None if it can't be asked, which is said once."""
    if elf.name in given_up:
        return None
    try:
        return told_by_gdb(elf, **asked)
    except CompanionError as error:
        given_up.add(elf.name)
        streams.say(f"{error}; names are those of symbols, without types")
        return None
