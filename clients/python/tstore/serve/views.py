"""What pages show: terms and triples in words, with the addresses of their triples. Text becomes markup in the templates alone, which
escape all of it, and no address is one that the graph has: each is this server's own."""

from __future__ import annotations

import re
from typing import NamedTuple, Optional
from urllib.parse import quote, urlencode

from ..terms import IRI, Blank, Literal, read_canonical, spell
from .turtle import KNOWN, cut

_SPLIT = re.compile(r"(.*[/#:])([^/#:]+[/#]?)")
_LONG = 400


class TermView(NamedTuple):
    """A term: how it is spelled, what is shown of it, and where its triples are."""

    spelling: str
    kind: str
    text: str
    prefix: str
    badge: str
    address: str


class TripleView(NamedTuple):
    subject: TermView
    predicate: TermView
    object: TermView
    sign: str = ""


def _shortened(value: str) -> tuple[str, str]:
    """An IRI in two parts: what stands for its namespace, and the rest."""
    found = _SPLIT.fullmatch(value)
    if not found:
        return "", value
    known = KNOWN.get(found[1])
    return (f"{known}:", found[2]) if known else (found[1], found[2])


def _cut(text: str) -> str:
    return text if len(text) <= _LONG else text[:_LONG] + "…"


def term(spelling: str, place: str, path: str) -> TermView:
    """A term at a place of a triple of the graph under this path. A literal's triples are those that have it, a predicate's those with it,
    and a node's those that it is the subject of."""
    found = read_canonical(spelling)
    address = f"{path}/graph?{urlencode({place if place == 'p' or isinstance(found, Literal) else 's': spelling}, quote_via=quote)}"
    if isinstance(found, IRI):
        prefix, text = _shortened(found.value)
        return TermView(spelling, "iri", _cut(text), _cut(prefix), "", address)
    if isinstance(found, Blank):
        return TermView(spelling, "blank", _cut(found.label), "_:", "", address)
    badge = found.language or ("".join(_shortened(found.datatype)) if found.datatype else "")
    if found.datatype and badge.startswith("http"):
        badge = _shortened(found.datatype)[1]
    return TermView(spelling, "literal", _cut(found.value), "", _cut(badge), address)


def triple(line: str, path: str, sign: str = "") -> TripleView:
    """The triple of a line."""
    subject, predicate, object = cut(line)
    return TripleView(term(subject, "s", path), term(predicate, "p", path), term(object, "o", path), sign)


def with_parameters(path: str, **parameters: Optional[str]) -> str:
    """An address with those parameters that have a value."""
    given = {name: value for name, value in parameters.items() if value}
    return f"{path}?{urlencode(given, quote_via=quote)}" if given else path


def spelled(told: dict[str, str]) -> str:
    """The canonical spelling of a term of an answer in JSON. `BadTerm` where it has none."""
    if told["type"] == "uri":
        return spell(IRI(told["value"]))
    if told["type"] == "bnode":
        return spell(Blank(told["value"]))
    return spell(Literal(told["value"], told.get("datatype"), told.get("xml:lang")))
