"""A table of logs for other programs: as JSON, and as JUnit's XML."""
from __future__ import annotations

import json
import re
import time
from typing import Any

from ..call.kinds import text_kind
from ..call.text import counted
from ..call.xml_text import xml_attribute, xml_text
from ..recording.answers import LONGEST, VERSION
from ..recording.cause import EXITS
from .store import File
from .table import Group, Table

JSON_BEGINS = '{"answer": "triage"'
JUNIT_BEGINS = '<?xml version="1.0" encoding="utf-8"?>\n<testsuite name="zelkuma triage"'
JSON = text_kind("an answer of triage", re.escape(JSON_BEGINS), "}\n", "\n")
JUNIT = text_kind("a report of triage", re.escape(JUNIT_BEGINS), "</testsuite>\n", "<testsuite ")


def json_text(table: Table) -> str:
    groups = table.sorted()
    unread = table.sorted_unread()
    return json.dumps({
        "answer": "triage", "version": VERSION, "logs": table.logs, "others": table.others,
        "good": table.good, "causes": len(groups),
        "buckets": [group_answer(group) for group in groups[:LONGEST]],
        "unread": [{"why": why, "count": len(files), "first": file_answer(files[0])}
                   for why, files in unread[:LONGEST]]}) + "\n"


def group_answer(group: Group) -> dict[str, Any]:
    return {"line": group.bucket.line(), **group.bucket._asdict(), "count": group.count,
            "salvaged": group.salvaged, "harts": sorted(group.harts),
            "first": file_answer(group.first), "last": file_answer(group.last),
            "example": group.example.name, "elf": group.elf, "memory_error": group.error,
            "suspect": group.suspect, "command": group.command()}


def file_answer(file: File) -> dict[str, str]:
    return {"log": file.name, "time": time.strftime("%Y-%m-%dT%H:%M:%SZ", time.gmtime(file.time))}


def junit_text(table: Table) -> str:
    groups = table.sorted()
    unread = table.sorted_unread()
    failed = sum(group.bucket.reason not in EXITS for group in groups)
    lines = [f'{JUNIT_BEGINS} tests="{len(groups) + len(unread)}" failures="{failed}" '
             f'errors="{len(unread)}">']
    for group in groups:
        lines.append(f"<testcase classname={xml_attribute(group.bucket.reason)} "
                     f"name={xml_attribute(group.bucket.line())}>")
        if group.bucket.reason not in EXITS:
            said = "\n".join(filter(None, [group.error, group.suspect, group.command()]))
            message = xml_attribute(counted(group.count, "log"))
            lines.append(f"<failure message={message}>{xml_text(said)}</failure>")
        lines.append("</testcase>")
    for why, files in unread:
        message = xml_attribute(counted(len(files), "log"))
        lines.append(f"<testcase classname=\"unread\" name={xml_attribute(why)}><error "
                     f"message={message}>{xml_text(files[0].name)}</error></testcase>")
    return "\n".join(lines + ["</testsuite>", ""])
