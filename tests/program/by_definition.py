#!/usr/bin/env python3
"""Compares what the program prints of small recordings with what the definition does.

tests/program/by_definition.py

The texts of crates/joint_laws/specs/Corpus.antt are proved to be those of the definition, and the
cases 'joined as the definition has it' of crates/program_cases/stdout are what the program prints.
They are in one order, and have to be equal.
"""
import os
import re
import sys

TOP = os.path.dirname(os.path.dirname(os.path.dirname(os.path.realpath(__file__))))


def read(path):
    with open(f"{TOP}/crates/{path}", encoding="utf-8") as file:
        return file.read()


def defined():
    """Returns the texts that the definition has."""
    found = re.split(r"^abbrev pub text_of_", read("joint_laws/specs/Corpus.antt"), flags=re.M)[1:]
    return ["".join(re.findall(r'codes "(.*)\\n"', text)) for text in found]


def printed():
    """Returns the texts that the program prints."""
    cases = re.split(r"^# joined as the definition has it: .*\n",
                     read("program_cases/stdout"), flags=re.M)[1:]
    joined = [re.split(r"run joint LOG ELF\nstatus 0, out (\d+), err 0\n", case)[1:3]
              for case in cases]
    return [text[: int(size)].replace("\n", "") for size, text in joined]


one = defined()
other = printed()
if not one or one != other:
    places = [place for place, pair in enumerate(zip(one, other)) if pair[0] != pair[1]]
    sys.exit(f"tests/program/by_definition.py: {len(one)} and {len(other)} texts; "
             f"not equal: {places}")
print(f"{len(one)} small recordings are joined by the program as by the definition")
