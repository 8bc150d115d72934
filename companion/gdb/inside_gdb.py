"""Runs inside of a gdb that `gdb --run` starts: after `monitor` gdb looks at registers and memory
again, and at the hart that `monitor goto` went to."""
from __future__ import annotations

import importlib
from typing import Any

gdb: Any = importlib.import_module("gdb")      # only there inside of gdb
AFTER_MONITOR = "define hookpost-monitor\npython after_monitor()\nend"


def quietly(command: str) -> str:
    try:
        return str(gdb.execute(command, to_string=True))
    except gdb.error:                           # an older gdb has no such command
        return ""


def after_monitor() -> None:
    hart = quietly("monitor moved")
    if hart:
        quietly("maintenance flush register-cache")
        quietly("maintenance flush dcache")
        quietly(f"thread {int(hart) + 1}")
        gdb.execute("frame")


gdb.execute(AFTER_MONITOR)
