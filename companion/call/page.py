"""A report as a page: one file, no script, nothing loaded, all text escaped."""
from __future__ import annotations

import html
from typing import NamedTuple, Sequence

from .kinds import PAGE_MARK
from .text import clean
from .version import version

STYLE = (
    ":root{color-scheme:light dark}body{font:15px/1.45 system-ui,sans-serif;margin:1.5rem "
    "auto;max-width:76rem;padding:0 1rem}h1{font-size:1.3rem}h2{font-size:.85rem;margin:1.2rem 0 "
    ".2rem;color:light-dark(#8a3a10,#f0a97a)}pre{overflow-x:auto;margin:0;font:12.5px/1.45 "
    "ui-monospace,monospace}@media print{pre{white-space:pre-wrap}}")


class PagePart(NamedTuple):
    """A part of a report: its heading, which can be empty, and its lines."""
    heading: str
    lines: list[str]

    def text(self) -> list[str]:
        return [self.heading, *("  " + line for line in self.lines)] if self.heading else self.lines


def escaped(text: str) -> str:
    return html.escape(clean(text))


def page(title: str, parts: Sequence[PagePart]) -> str:
    text = ["\n".join(map(escaped, part.lines)) for part in parts]
    body = "".join(f"<h2>{escaped(part.heading)}</h2>\n<pre>{lines}</pre>\n"
                   for part, lines in zip(parts, text))
    return (f"<!doctype html>\n<html lang=\"en\"><head><meta charset=\"utf-8\">{PAGE_MARK}<meta "
            "http-equiv=\"Content-Security-Policy\" content=\"default-src 'none'; "
            "style-src 'unsafe-inline'\"><meta name=\"viewport\" "
            "content=\"width=device-width\"><meta name=\"generator\" content=\"Zelkuma "
            f"{escaped(version())}\"><title>{escaped(title)}</title><style>{STYLE}</style></head>\n"
            f"<body><h1>{escaped(title)}</h1>\n{body}</body></html>\n")
