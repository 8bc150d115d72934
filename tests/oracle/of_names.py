"""The names that `names` puts behind rows, and the line of `bucket`."""
from __future__ import annotations

import os
import random
import subprocess
import sys

from .asking import Asked

MOST = 5000                 # rows


def ask_names(asked: Asked, _draw: random.Random) -> None:
    rows = asked.machine.rows[-MOST:]
    done = subprocess.run([sys.executable, "-B", os.path.join(asked.server.project, "companion"),
                           "names", asked.recorded.named], text=True,
                          input="".join(row.text + "\n" for row in rows), stdout=subprocess.PIPE,
                          stderr=subprocess.PIPE, check=False,
                          env={**os.environ, **asked.environment})
    told = done.stdout.splitlines()
    asked.program.fetch({row.code.pc for row in rows})
    if asked.same("names: rows", [], len(told), len(rows)):
        for line, row in zip(told, rows):
            places = asked.program.places(row.code.pc)
            asked.same("names: row", [], line,
                       row.text + (f" | {places[0].text()}" if places else ""))


def ask_bucket(asked: Asked, _draw: random.Random) -> None:
    """Of a fault that has a row of code: its name, and its place."""
    faults = [row for row in asked.machine.rows
              if row.fault and not row.fault.startswith(("FetchOutside", "TargetMisaligned"))]
    told = asked.json("bucket")
    if told is None or not faults:
        return
    row = faults[0]
    places = asked.program.places(row.code.pc)
    asked.same("bucket: reason", [], told["reason"], row.fault.split(" ")[0])
    if places:
        place = f"{places[0].file}:{places[0].line}" if places[0].line else "-"
        asked.same("bucket: place", [], (told["function"], told["place"]),
                   (places[0].function, place))
