"""Results of order files as JUnit's XML: an order is a test."""
from __future__ import annotations

import re
from dataclasses import dataclass
from typing import Any, Dict, List, Optional, Sequence

from ..call.errors import UNSURE
from ..call.kinds import text_kind
from ..call.xml_text import xml_attribute, xml_text
from .verdict import HOLDS, Checked, verdict_answer, lines

BEGINS = '<?xml version="1.0" encoding="utf-8"?>\n<testsuite name="zelkuma recheck"'
JUNIT = text_kind("a report of recheck", re.escape(BEGINS), "</testsuite>\n", "<testsuite ")


@dataclass
class Result:
    """What became of an order file: what was found, or why it was refused, with a status."""
    name: str
    found: Optional[Checked] = None
    refused: str = ""
    refusal: int = HOLDS

    @property
    def status(self) -> int:
        return self.found.status if self.found else self.refusal

    @property
    def is_failed(self) -> bool:
        return self.found is not None and self.status not in (HOLDS, UNSURE)

    @property
    def is_error(self) -> bool:
        return self.status != HOLDS and not self.is_failed

    def text(self) -> str:
        return self.found.verdict if self.found else self.refused

    def answer(self) -> Dict[str, Any]:
        return {"order": self.name, **(verdict_answer(self.found) if self.found
                                       else {"status": self.status, "refused": self.refused})}


def orders_junit(results: Sequence[Result]) -> str:
    failed, errors = (sum(map(is_so, results)) for is_so in (is_failed, is_error))
    said = [f'{BEGINS} tests="{len(results)}" failures="{failed}" errors="{errors}">']
    for result in results:
        program = result.found.order.program if result.found else ""
        said.append(f"<testcase classname={xml_attribute(program)} "
                    f"name={xml_attribute(result.name)}>")
        said += [outcome(result), "</testcase>"]
    return "\n".join(said + ["</testsuite>", ""])


def is_failed(result: Result) -> bool:
    return result.is_failed


def is_error(result: Result) -> bool:
    return result.is_error


def outcome(result: Result) -> str:
    told: List[str] = lines(result.found) if result.found else [result.refused]
    text = xml_text("\n".join(told))
    if not result.is_failed and not result.is_error:
        return f"<system-out>{text}</system-out>"
    kind = "failure" if result.is_failed else "error"
    return f"<{kind} message={xml_attribute(result.text())}>{text}</{kind}>"
