"""Entity tags and preconditions (RFC 9110, 8.8.3 and 13): the version of a label is its tag, behind which a format's word may stand."""

from __future__ import annotations

import re
from typing import Iterator, Optional

from ..store import Label
from .problems import Problem
from .writer import lost

_TAG = re.compile(r'\s*(W/)?"([\x21\x23-\x7e\x80-\xff]*)"\s*(?:,|$)')
_VERSION = re.compile(r"(0|[1-9][0-9]{0,19})(?:-[a-z]+)?")


def _tags(header: str) -> Iterator[tuple[bool, str]]:
    """The tags of a header, each with whether it is weak. 400 where it is no list of them."""
    at = 0
    while at < len(header):
        found = _TAG.match(header, at)
        if not found:
            raise Problem(400, "malformed", "a condition is a list of entity tags in quotes")
        yield found[1] is not None, found[2]
        at = found.end()


def check_version(header: Optional[str], label: Label) -> None:
    """428 where a change has no If-Match, 412 where that doesn't have the label's version."""
    if header is None:
        raise Problem(428, "no-condition", 'a change wants If-Match with the label\'s version: If-Match: "%d"' % label.version)
    if header.strip() == "*":
        return
    for is_weak, tag in _tags(header):
        found = _VERSION.fullmatch(tag)
        if found and not is_weak and int(found[1]) == label.version:
            return
    raise lost(label)


def is_known(header: Optional[str], tag: str) -> bool:
    """Whether If-None-Match names the tag of what would be answered."""
    if header is None:
        return False
    return header.strip() == "*" or any(f'"{it}"' == tag for _, it in _tags(header))
