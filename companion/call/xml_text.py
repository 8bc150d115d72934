"""Texts of a recording within XML."""
from __future__ import annotations

from xml.sax.saxutils import escape, quoteattr

from .text import clean


def xml_attribute(text: str) -> str:
    """In quotes."""
    return quoteattr(clean(text))


def xml_text(text: str) -> str:
    return escape("\n".join(map(clean, text.split("\n"))))
