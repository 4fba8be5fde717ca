"""An update of SPARQL 1.1 over one graph, by rdflib's parser and patterns: where rdflib changes the graph while it still asks, here an
operation asks first, then takes away, then adds (SPARQL 1.1 Update, 3.1.3)."""

# mypy: allow-untyped-calls

from __future__ import annotations

import collections
from typing import Any, Iterable, Iterator

from rdflib import Graph
from rdflib.plugins.sparql.algebra import translateUpdate
from rdflib.plugins.sparql.evaluate import evalBGP, evalPart
from rdflib.plugins.sparql.evalutils import _fillTemplate
from rdflib.plugins.sparql.parser import parseUpdate
from rdflib.plugins.sparql.sparql import QueryContext
from rdflib.term import BNode, Node

from .nodes import Triple
from .problems import Problem
from .query import malformed
from .refuse import refuse_tree


def update(graph: Graph, text: str) -> None:
    """Does the operations of an update, each over what the ones before it left."""
    try:
        tree = parseUpdate(text)
        refuse_tree(tree)
        operations = translateUpdate(tree)
    except (MemoryError, Problem):
        raise
    except Exception as error:
        raise malformed(error) from None
    refuse_tree(operations)
    for operation in operations:
        context = QueryContext(graph, initBindings={})
        context.prologue = operation.prologue
        _DONE[operation.name](graph, context, operation)


def _insert_data(graph: Graph, context: QueryContext, operation: Any) -> None:
    # A blank node of a request is a new one, whatever its label.
    named: dict[Node, Node] = collections.defaultdict(BNode)
    _add(graph, (tuple(named[it] if isinstance(it, BNode) else it for it in triple) for triple in operation.triples or []))


def _delete_data(graph: Graph, context: QueryContext, operation: Any) -> None:
    _without_blanks(operation.triples or [])
    _remove(graph, operation.triples or [])


def _delete_where(graph: Graph, context: QueryContext, operation: Any) -> None:
    _without_blanks(operation.triples or [])
    solutions = list(evalBGP(context, operation.triples or []))
    _remove(graph, _filled(operation.triples or [], solutions))


def _modify(graph: Graph, context: QueryContext, operation: Any) -> None:
    if operation.delete:
        _without_blanks(operation.delete.triples or [])
    solutions = list(evalPart(context, operation.where))
    if operation.delete:
        _remove(graph, _filled(operation.delete.triples or [], solutions))
    if operation.insert:
        _add(graph, _filled(operation.insert.triples or [], solutions))


def _clear(graph: Graph, context: QueryContext, operation: Any) -> None:
    if operation.graphiri != "NAMED":
        graph.remove((None, None, None))


_DONE = {
    "InsertData": _insert_data,
    "DeleteData": _delete_data,
    "DeleteWhere": _delete_where,
    "Modify": _modify,
    "Clear": _clear,
    "Drop": _clear,
}


def _without_blanks(triples: Iterable[Triple]) -> None:
    if any(isinstance(it, BNode) for triple in triples for it in triple):
        raise Problem(400, "malformed", "no blank node may stand in what is to be deleted")


def _filled(template: Any, solutions: list[Any]) -> Iterator[Triple]:
    for solution in solutions:
        yield from _fillTemplate(template, solution)


def _add(graph: Graph, triples: Iterable[Any]) -> None:
    for triple in triples:
        graph.store.add(triple, graph)


def _remove(graph: Graph, triples: Iterable[Any]) -> None:
    for triple in triples:
        graph.store.remove(triple, graph)
