"""The parts of the companions: each imports what its head says that it may use, and no two use each
other. No function here or in the tests is long, and no conditional expression in another."""
from __future__ import annotations

import ast
import os
import pathlib
import re
import unittest
from typing import Iterator, Tuple

from common import COMPANION, TOP

SYSTEMS = "_exit", "_replace", "_asdict", "_fields"
PARTING = "split", "rsplit", "partition", "rpartition"
OPENING = "Elf", "Places", "named_elf", "places_of"


def parsed(*names: str) -> ast.Module:
    with open(os.path.join(COMPANION, *names), encoding="utf-8") as file:
        return ast.parse(file.read())


def parts() -> list[str]:
    return sorted(name for name in os.listdir(COMPANION)
                  if os.path.exists(os.path.join(COMPANION, name, "__init__.py")))


def may_use(part: str) -> set[str]:
    """What the head of a part says."""
    found = re.search(r"^May use: ([a-z, ]+)[,.]",
                      ast.get_docstring(parsed(part, "__init__.py")) or "", re.MULTILINE)
    return set(found.group(1).replace(" ", "").split(",")) if found else {"a head that says it"}


def used(part: str) -> dict[str, str]:
    """The other parts that modules of a part import from, each with its place."""
    there = {}
    for name in sorted(os.listdir(os.path.join(COMPANION, part))):
        for node in ast.walk(parsed(part, name)) if name.endswith(".py") else ():
            if isinstance(node, ast.ImportFrom) and node.level == 2:
                for found in [node.module] if node.module else [each.name for each in node.names]:
                    there[found.split(".")[0]] = f"{part}/{name}:{node.lineno}"
    return there


def calls_outside(but: str) -> Iterator[Tuple[str, ast.Call]]:
    """The calls in modules of all parts but one, each with its place."""
    for part in parts():
        for name in sorted(os.listdir(os.path.join(COMPANION, part))) if part != but else ():
            for node in ast.walk(parsed(part, name)) if name.endswith(".py") else ():
                if isinstance(node, ast.Call):
                    yield f"{part}/{name}:{node.lineno}", node


class Parts(unittest.TestCase):
    def test_each_uses_what_its_head_says(self) -> None:
        self.assertGreater(len(parts()), 6)
        for part in parts():
            said = set() if part == "call" else may_use(part)
            self.assertLessEqual(said, set(parts()), part)
            for name, place in used(part).items():
                self.assertIn(name, said, place)

    def test_no_two_use_each_other(self) -> None:
        uses = {part: set(used(part)) for part in parts()}
        while uses:
            lowest = [part for part, below in uses.items() if not below & set(uses)]
            self.assertTrue(lowest, f"a circle among {', '.join(uses)}")
            for part in lowest:
                del uses[part]

    def test_none_uses_what_another_module_keeps_for_itself(self) -> None:
        """A name that begins with an underscore is its own module's; four are the system's."""
        for part in parts():
            for name in sorted(os.listdir(os.path.join(COMPANION, part))):
                for node in ast.walk(parsed(part, name)) if name.endswith(".py") else ():
                    taken = ([each.name for each in node.names] if isinstance(node, ast.ImportFrom)
                             and node.module != "__future__" else [])
                    if (isinstance(node, ast.Attribute)
                            and not (isinstance(node.value, ast.Name) and node.value.id == "self")):
                        taken = [node.attr]
                    theirs = [each
                              for each in taken if re.match("_[a-z]", each) and each not in SYSTEMS]
                    self.assertFalse(theirs, f"{part}/{name}:{getattr(node, 'lineno', 0)}")

    def test_rows_are_cut_in_one_place(self) -> None:
        """A row's words stand between blanks, what it did behind bars: only recording/ parts a text
        by them."""
        for place, node in calls_outside("recording"):
            if isinstance(node.func, ast.Attribute) and node.func.attr in PARTING:
                by = [each.value for each in node.args[:1] if isinstance(each, ast.Constant)]
                self.assertNotIn(by, ([b" "], [" "], [b" | "], [" | "]), place)

    def test_a_program_is_opened_in_one_place(self) -> None:
        """Its ELF file, --names and lines, which recording/opened.py gives."""
        for place, node in calls_outside("recording"):
            if isinstance(node.func, ast.Name):
                self.assertNotIn(node.func.id, OPENING, place)

    def test_children_are_waited_for_in_one_place(self) -> None:
        """The next of several that ends, which call/jobs.py tells."""
        for place, node in calls_outside("call"):
            if isinstance(node.func, ast.Attribute) and isinstance(node.func.value, ast.Name):
                self.assertNotEqual((node.func.value.id, node.func.attr), ("os", "wait"), place)

    def test_functions_have_under_40_lines_and_no_condition_is_in_another(self) -> None:
        for folder in ("companion", "python", "tests", "bench", "tools", "examples"):
            for name in pathlib.Path(TOP, folder).rglob("*.py"):
                for node in ast.walk(ast.parse(name.read_text(encoding="utf-8"))):
                    if isinstance(node, ast.FunctionDef):
                        self.assertLess((node.end_lineno or 0) - node.lineno, 39,
                                        f"{name}:{node.lineno} {node.name}")
                    if isinstance(node, ast.IfExp):
                        all_in_it = [each for each in ast.walk(node) if isinstance(each, ast.IfExp)]
                        self.assertEqual(len(all_in_it), 1, f"{name}:{node.lineno}")

    def test_none_stands_outside(self) -> None:
        self.assertEqual(sorted(name for name in os.listdir(COMPANION) if name.endswith(".py")),
                         ["__init__.py", "__main__.py", "library.py"])
