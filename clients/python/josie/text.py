"""Untrusted text in a page."""

from __future__ import annotations

import html
import re

_CONTROL = re.compile(r"[\x00-\x1f\x7f-\x9f\u200b-\u200f\u2028-\u202e\u2066-\u2069\ufeff\ud800-\udfff]")


def escaped(text: str) -> str:
    """The text as it is written in a page, between tags or in an attribute's quotes. What cannot be seen, changes the direction of the text, or is not text,
    is written as an escape.

    >>> print(escaped('<b a="1">&\\x00\\u202e'))
    &lt;b a=&quot;1&quot;&gt;&amp;\\x00\\u202e
    """
    return html.escape(_CONTROL.sub(_written_out, text), quote=True)


def _written_out(found: re.Match[str]) -> str:
    code = ord(found.group())
    return f"\\x{code:02x}" if code < 0x100 else f"\\u{code:04x}"
