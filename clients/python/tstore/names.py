"""Names of labels, layers and references, checked before they are written into a command."""

from __future__ import annotations

import re

from .errors import BadName

_LABEL = re.compile(r'(?!\.)[!#-.0-~]{1,200}')
_LAYER = re.compile(r"[0-9a-f]{8}")
LAST_VERSION = (1 << 64) - 1


def label_name(name: str) -> str:
    """A label's name: 1 to 200 bytes of printable ASCII without a blank, `/` and `"`, and no dot at its beginning."""
    if not isinstance(name, str) or not _LABEL.fullmatch(name):
        raise BadName(f"no name of a label: {name!r:.240}")
    return name


def layer_name(layer: str) -> str:
    """A layer: 8 lower-case hexadecimal digits."""
    if not isinstance(layer, str) or not _LAYER.fullmatch(layer):
        raise BadName(f"no layer: {layer!r:.80}")
    return layer


def reference(ref: str) -> str:
    """A layer, or `@` and a label's name."""
    if isinstance(ref, str) and ref[:1] == "@":
        return "@" + label_name(ref[1:])
    return layer_name(ref)


def version_number(version: int) -> str:
    """A label's version, from 0 to 2^64 - 1."""
    if not isinstance(version, int) or isinstance(version, bool) or not 0 <= version <= LAST_VERSION:
        raise BadName(f"no version: {version!r:.80}")
    return str(version)
