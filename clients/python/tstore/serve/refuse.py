"""What a request may not ask for, found in the parse tree, in the algebra and in JSON before anything is done: whatever would open an
address or a file, and graphs by name, of which there are none here."""

from __future__ import annotations

from typing import Any, Iterator

from pyparsing import ParseResults
from rdflib.plugins.sparql.parserutils import CompValue

from .problems import Problem

_REACHES = {
    "ServiceGraphPattern": "SERVICE",
    "DatasetClause": "FROM",
    "UsingClause": "USING",
    "Load": "LOAD",
    "GraphGraphPattern": "GRAPH",
    "Graph": "GRAPH",
    "QuadsNotTriples": "GRAPH",
    "Create": "CREATE",
    "Add": "ADD",
    "Move": "MOVE",
    "Copy": "COPY",
}
_CHANGING = {"Builtin_NOW", "Builtin_RAND", "Builtin_UUID", "Builtin_STRUUID", "Builtin_BNODE"}


def parts(tree: Any) -> Iterator[CompValue]:
    """Each named part of a parse tree or an algebra, the outer ones first."""
    waiting = [tree]
    while waiting:
        it = waiting.pop()
        if isinstance(it, CompValue):
            yield it
            waiting.extend(it.values())
        elif isinstance(it, dict):
            waiting.extend(it.values())
        elif isinstance(it, (list, tuple, set, frozenset, ParseResults)):
            waiting.extend(it)


def refuse_tree(tree: Any) -> None:
    """400 where a query or an update asks for another graph than its own."""
    for part in parts(tree):
        word = _REACHES.get(part.name)
        if word is None and part.name == "Modify" and part.withClause is not None:
            word = "WITH"
        if word is None and part.name in ("Clear", "Drop") and part.graphiri not in ("DEFAULT", "ALL", "NAMED"):
            word = "GRAPH"
        if part.name == "InversePath":
            raise Problem(400, "not-built", "an inverse predicate within !(..) isn't evaluated here")
        if word is not None:
            raise Problem(400, "refused", f"{word} is refused: a request has the one graph of its address")


def changes_by_itself(tree: Any) -> bool:
    """Whether two answers to one query over one graph may differ: it asks for the time, for chance, or makes blank nodes."""
    return any(part.name in _CHANGING for part in parts(tree))


def refuse_contexts(document: Any) -> None:
    """400 where JSON-LD names a context by an address or a file, at any depth, by `@import` too."""
    waiting = [document]
    while waiting:
        it = waiting.pop()
        if isinstance(it, list):
            waiting.extend(it)
        elif isinstance(it, dict):
            if "@import" in it or any(isinstance(context, str) for context in _listed(it.get("@context"))):
                raise Problem(400, "refused", "a JSON-LD context by its address is refused: write it into the document")
            waiting.extend(it.values())


def _listed(value: Any) -> Iterator[Any]:
    """The members of a list, and of lists in it; of anything else itself."""
    waiting = [value]
    while waiting:
        it = waiting.pop()
        if isinstance(it, list):
            waiting.extend(it)
        else:
            yield it
