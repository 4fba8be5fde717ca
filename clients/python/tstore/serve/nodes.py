"""Terms of the store as terms of rdflib, and back: a literal keeps its spelling, whatever rdflib would make of it."""

# mypy: allow-untyped-calls

from __future__ import annotations

from functools import lru_cache

from rdflib.term import BNode, Identifier, Literal, URIRef

from ..terms import IRI, STRING, Blank, Term, read_canonical, spell
from ..terms import Literal as Value

Node = Identifier
Triple = tuple[Node, Node, Node]


def node_of(term: Term) -> Node:
    """The term of rdflib of a term of the store."""
    if isinstance(term, IRI):
        return URIRef(term.value)
    if isinstance(term, Blank):
        return BNode(term.label)
    datatype = None if term.datatype is None else URIRef(term.datatype)
    return Literal(term.value, lang=term.language, datatype=datatype, normalize=False)


@lru_cache(maxsize=65_536)
def read_node(text: str) -> Node:
    """The term of rdflib of a canonical spelling."""
    return node_of(read_canonical(text))


def read_line(line: str) -> Triple:
    """The triple of a line of a listing."""
    subject, predicate, rest = line.split(" ", 2)
    return read_node(subject), read_node(predicate), read_node(rest[:-2])


def term_of(node: Node) -> Term:
    """The term of the store of a term of rdflib."""
    if isinstance(node, Literal):
        return Value(str(node), None if node.datatype is None else str(node.datatype), node.language)
    return Blank(str(node)) if isinstance(node, BNode) else IRI(str(node))


@lru_cache(maxsize=65_536)
def _spelled(kind: type, text: str) -> str:
    return spell(Blank(text) if issubclass(kind, BNode) else IRI(text))


def spelled_node(node: Node) -> str:
    """The canonical spelling of a term of rdflib. `BadTerm` where the store has no words for it."""
    if isinstance(node, Literal):
        return spell(term_of(node))
    return _spelled(type(node), str(node))


def stored(node: Node) -> Node:
    """The term as a listing gives it back: a literal of xsd:string is one without a type."""
    if isinstance(node, Literal) and node.datatype is not None and str(node.datatype) == STRING:
        return Literal(str(node), normalize=False)
    return node
