"""JSON-LD 1.1 in expanded form that keeps literals as they stand: none becomes a number or a boolean of JSON."""

from __future__ import annotations

import json
import re
from typing import Any

from ..terms import IRI, Blank, Literal, Term, read_canonical
from .problems import Problem
from .turtle import cut

_TYPE = "http://www.w3.org/1999/02/22-rdf-syntax-ns#type"
_ABSOLUTE = re.compile(r"[A-Za-z][A-Za-z0-9+.-]*:")


def _identifier(term: Term) -> str:
    if isinstance(term, Blank):
        return f"_:{term.label}"
    assert isinstance(term, IRI)
    if term.value[:1] == "@" or term.value[:2] == "_:":
        raise Problem(406, "not-acceptable", f"JSON-LD has no words for the IRI <{term.value[:80]}>")
    return term.value


def _predicate(text: str) -> str:
    value = text[1:-1]
    if not _ABSOLUTE.match(value):
        raise Problem(406, "not-acceptable", f"JSON-LD has no words for the relative predicate <{value[:80]}>")
    return value


def _object(term: Term) -> dict[str, str]:
    if not isinstance(term, Literal):
        return {"@id": _identifier(term)}
    said = {"@value": term.value}
    if term.language is not None:
        said["@language"] = term.language
    elif term.datatype is not None:
        said["@type"] = term.datatype
    return said


def json_ld(lines: list[str]) -> str:
    """A graph as an array of nodes, in the order in which their subjects come first."""
    nodes: dict[str, dict[str, Any]] = {}
    for line in lines:
        subject, predicate, object = cut(line)
        node = nodes.setdefault(subject, {"@id": _identifier(read_canonical(subject))})
        verb, term = _predicate(predicate), read_canonical(object)
        if verb == _TYPE and isinstance(term, IRI) and _ABSOLUTE.match(term.value):
            node.setdefault("@type", []).append(term.value)
        else:
            node.setdefault(verb, []).append(_object(term))
    return json.dumps(list(nodes.values()), ensure_ascii=False, indent=1) + "\n"
