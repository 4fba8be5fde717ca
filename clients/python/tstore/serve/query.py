"""A query of SPARQL 1.1, by rdflib, with DESCRIBE, which rdflib lacks."""

# mypy: allow-untyped-calls

from __future__ import annotations

import functools
import re
from typing import Any, NamedTuple, Optional

from pyparsing import ParseException
from rdflib import Graph
from rdflib.plugins.sparql.algebra import translatePName, translatePrologue, translateQuery, traverse
from rdflib.plugins.sparql.evaluate import evalQuery
from rdflib.plugins.sparql.parser import parseQuery
from rdflib.plugins.sparql.parserutils import CompValue
from rdflib.plugins.sparql.processor import SPARQLResult
from rdflib.plugins.sparql.sparql import SPARQLError
from rdflib.term import BNode, Variable

from . import formats, results
from .nodes import Node, Triple
from .problems import Problem
from .refuse import changes_by_itself, refuse_tree


_VARIABLE = re.compile(r"[?$](\w+)")


class Answer(NamedTuple):
    """The bytes of an answer, their media type, the word of its format, whether the next answer may differ by itself, and how many rows
    or triples it has in all."""

    body: bytes
    media: str
    form: str
    changes: bool
    total: int


def malformed(error: Exception) -> Problem:
    """400 for a text that is no query or no update: where a parser stopped, and nothing of how it works."""
    if isinstance(error, ParseException):
        return Problem(400, "malformed", f"line {error.lineno}, column {error.col}: this is not what SPARQL 1.1 has here")
    if isinstance(error, RecursionError):
        return Problem(400, "too-deep", "the request is nested too deeply")
    return Problem(400, "malformed", "the request has a prefix that isn't declared, or a variable where none may stand")


def _parsed(text: str) -> Any:
    """The prologue and the query of a text."""
    try:
        return list(parseQuery(text))
    except MemoryError:
        raise
    except Exception as error:
        raise malformed(error) from None


def _translated(tree: Any) -> Any:
    try:
        query = translateQuery(tree)
    except MemoryError:
        raise
    except Exception as error:
        raise malformed(error) from None
    refuse_tree(query.algebra)
    return query


def _evaluated(graph: Graph, query: Any) -> SPARQLResult:
    result = SPARQLResult(evalQuery(graph, query, {}))
    if result.type == "SELECT":
        result.bindings = [dict(it.items()) for it in result.bindings]
    return result


def _in_order(names: Any, text: str) -> list[Variable]:
    """The variables of `SELECT *`, which come as a set, as they come in the query."""
    places = {found[1]: found.start() for found in reversed(list(_VARIABLE.finditer(text)))}
    return sorted(names, key=lambda name: (places.get(str(name), len(text)), str(name)))


def answer(graph: Graph, text: str, accept: str, most: Optional[int] = None) -> Answer:
    """The answer to a query in the format that is accepted most: all of it, or its first rows or triples."""
    tree = _parsed(text)
    refuse_tree(tree)
    is_table = tree[1].name in ("SelectQuery", "AskQuery")
    form = formats.chosen(accept, formats.RESULTS if is_table else formats.GRAPHS)
    changes = changes_by_itself(tree)
    try:
        if is_table:
            result = _evaluated(graph, _translated(tree))
            total = 1
            if result.type == "SELECT":
                if not tree[1].projection:
                    result.vars = _in_order(result.vars, text)
                total, result.bindings = len(result.bindings), result.bindings[:most]
            body = results.table(result, form.name)
        else:
            triples, makes_blanks = _constructed(graph, tree)
            changes = changes or makes_blanks
            lines = results.lines_of(triples)
            total, body = len(lines), results.graph(lines[:most], form.name)
    except SPARQLError as error:
        raise Problem(400, "no-answer", "an expression of the query has no value") from error
    return Answer(body, form.media, form.name, changes, total)


def _constructed(graph: Graph, tree: Any) -> tuple[list[Triple], bool]:
    """The triples that a query makes or describes, and whether it makes blank nodes, which have other labels the next time."""
    if tree[1].name == "DescribeQuery":
        return _described(graph, tree), False
    query = _translated(tree)
    template = query.algebra.template or query.algebra.p.p.triples
    makes_blanks = any(isinstance(it, BNode) for triple in template for it in triple)
    return list(_evaluated(graph, query).graph), makes_blanks


def _described(graph: Graph, tree: Any) -> list[Triple]:
    """What DESCRIBE answers: the triples of each resource, and those of the blank nodes that they lead to (a concise bounded
    description)."""
    described: dict[Node, None] = {}
    for resource in _resources(graph, tree):
        described[resource] = None
    waiting = list(described)
    found: list[Triple] = []
    while waiting:
        for triple in graph.triples((waiting.pop(), None, None)):
            found.append(triple)
            if isinstance(triple[2], BNode) and triple[2] not in described:
                described[triple[2]] = None
                waiting.append(triple[2])
    return found


def _resources(graph: Graph, tree: Any) -> list[Node]:
    """The resources of a DESCRIBE: the IRIs that it names, and what its variables are bound to."""
    query = tree[1]
    try:
        prologue = translatePrologue(tree[0], None)
        named = traverse(list(query.var or []), visitPost=functools.partial(translatePName, prologue=prologue))
    except Exception as error:
        raise malformed(error) from None
    resources = [it for it in named if not isinstance(it, Variable)]
    if query.where is None:
        return resources
    clauses = {name: query[name] for name in ("where", "groupby", "having", "orderby", "limitoffset", "valuesClause") if name in query}
    result = _evaluated(graph, _translated([tree[0], CompValue("SelectQuery", **clauses)]))
    wanted = set(named) if query.var else set(result.vars or [])
    for row in result.bindings:
        resources += [node for name, node in row.items() if name in wanted]
    return resources
