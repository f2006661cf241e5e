"""Writes names and other texts of files into pages and pictures so that nothing in them is read as markup, and nothing runs."""
from __future__ import annotations

import base64
import hashlib
import html
import json
from typing import Iterable

# No XML has these: controls other than tabs and line ends, halves of pairs, and two that are no characters.
NOT_IN_XML = [*range(9), 11, 12, *range(14, 32), *range(127, 160), *range(0xD800, 0xE000), 0xFFFE, 0xFFFF]
REPLACED = dict.fromkeys(NOT_IN_XML, '\ufffd')

# What ends a script or begins a comment in it, and what ends a line in some of them.
IN_SCRIPT = {ord(mark): f'\\u{ord(mark):04x}' for mark in '<>&\u2028\u2029'}


def escaped(text: str) -> str:
    """Text as it stands in an element, or between quotes in an attribute, of XML and HTML."""
    return html.escape(text.translate(REPLACED))


def in_script(value: object) -> str:
    """A value in JSON as it stands in a script element of HTML."""
    return json.dumps(value, separators=(',', ':')).translate(IN_SCRIPT)


def policy(scripts: Iterable[str], styles: Iterable[str]) -> str:
    """The policy of a page that runs these scripts and takes these styles alone, and loads nothing."""
    parts = ["default-src 'none'", "base-uri 'none'", "form-action 'none'"]
    for kind, texts in ('script-src', scripts), ('style-src', styles):
        digests = (base64.b64encode(hashlib.sha256(text.encode()).digest()).decode() for text in texts)
        parts.append(' '.join([kind, *(f"'sha256-{digest}'" for digest in digests)]))
    return '; '.join(parts)
