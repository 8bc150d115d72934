"""Runs inside of gdb, which is attached to the bridge: tells registers, words and callers at the
rows that $ASKED names."""
import importlib
import json
import os
from typing import Any, Dict, List, Optional

gdb: Any = importlib.import_module("gdb")     # only there inside of gdb
NAMES = ("zero ra sp gp tp t0 t1 t2 fp s1 a0 a1 a2 a3 a4 a5 a6 a7 s2 s3 s4 s5 s6 s7 s8 s9 s10 s11 "
         "t3 t4 t5 t6").split()
MASK = 0xffffffff
DEEPEST = 3


def word_at(address: int) -> Optional[int]:
    try:
        return int.from_bytes(bytes(gdb.selected_inferior().read_memory(address, 4)), "little")
    except gdb.error:
        return None


def backs(frame: Any) -> List[int]:
    """The addresses to which the innermost calls return; what is inlined is passed by."""
    found: List[int] = []
    while frame is not None and len(found) < DEEPEST:
        if frame.type() == gdb.INLINE_FRAME:
            frame = frame.older()
            continue
        frame = frame.older()
        if frame is not None:
            found.append(int(frame.pc()) & MASK)
    return found


def state(hart: int, count: int, words: List[int]) -> Dict[str, Any]:
    gdb.execute(f"monitor goto {hart}:{count}", to_string=True)
    # Gdb doesn't know that it is elsewhere: it keeps the stack, too
    for cache in ("register-cache", "dcache"):
        gdb.execute(f"maintenance flush {cache}", to_string=True)
    gdb.execute(f"thread {hart + 1}", to_string=True)
    frame = gdb.newest_frame()
    registers = [int(frame.read_register(name)) & MASK for name in NAMES]
    return {"pc": int(frame.pc()) & MASK, "registers": registers,
            "words": {str(word): word_at(word) for word in words}, "backs": backs(frame),
            "is_described": frame.function() is not None}


def main() -> None:
    with open(os.environ["ASKED"], encoding="utf-8") as file:
        asked = json.load(file)
    said = {"states": [state(*each) for each in asked["places"]], "answers":
            [gdb.execute(f"monitor {each}", to_string=True) for each in asked["questions"]]}
    with open(os.environ["ANSWER"], "w", encoding="utf-8") as file:
        json.dump(said, file)


main()
