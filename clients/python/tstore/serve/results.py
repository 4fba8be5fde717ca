"""Answers to queries as bytes: tables as JSON, XML, CSV and TSV, graphs as N-Triples, Turtle and JSON-LD."""

# mypy: allow-untyped-calls

from __future__ import annotations

import io
import re
from xml.sax.saxutils import escape, quoteattr
from typing import Any, Iterable, Iterator, Optional

from rdflib.plugins.sparql.results.csvresults import CSVResultSerializer
from rdflib.plugins.sparql.results.jsonresults import JSONResultSerializer
from rdflib.query import Result
from rdflib.term import BNode, Literal, URIRef

from ..errors import BadTerm
from .jsonld import json_ld
from .nodes import Node, Triple, spelled_node
from .problems import Problem
from .turtle import turtle

_NOT_XML = re.compile("[^\t\n\r\x20-\ud7ff\ue000-\ufffd\U00010000-\U0010ffff]")


def spelled_result(node: Optional[Node]) -> str:
    """A term of an answer as N-Triples spells it. An expression may make what the store has no words for, as a string of half a pair."""
    if node is None:
        return ""
    try:
        return spelled_node(node)
    except BadTerm as error:
        raise Problem(400, "no-term", f"the answer has what is no term: {error}") from None


def _tsv(result: Result) -> Iterator[str]:
    """SPARQL 1.1 Query Results CSV and TSV Formats, 4. A tab within a string is an escape, so that it ends no field."""
    yield "\t".join(f"?{it}" for it in result.vars or []) + "\n"
    for row in result.bindings:
        yield "\t".join(spelled_result(row.get(it)).replace("\t", "\\t") for it in result.vars or []) + "\n"


def _xml(result: Result) -> Iterator[str]:
    """SPARQL Query Results XML Format. rdflib's own writer leaves out the text of a literal that Python takes for false."""
    yield '<?xml version="1.0" encoding="UTF-8"?>\n<sparql xmlns="http://www.w3.org/2005/sparql-results#">\n<head>'
    names = result.vars or []
    yield "".join(f"<variable name={quoteattr(str(it))}/>" for it in names) + "</head>\n"
    if result.type == "ASK":
        yield f"<boolean>{'true' if result.askAnswer else 'false'}</boolean>\n</sparql>\n"
        return
    yield "<results>\n"
    for row in result.bindings:
        bound = (f"<binding name={quoteattr(str(it))}>{_xml_term(row[it])}</binding>" for it in names if row.get(it) is not None)
        yield "<result>" + "".join(bound) + "</result>\n"
    yield "</results>\n</sparql>\n"


def _xml_term(node: Any) -> str:
    # A carriage return would be read as a line's end.
    text = escape(str(node), {"\r": "&#13;"})
    if isinstance(node, URIRef):
        return f"<uri>{text}</uri>"
    if isinstance(node, BNode):
        return f"<bnode>{text}</bnode>"
    kind = (
        f" xml:lang={quoteattr(node.language)}" if node.language else f" datatype={quoteattr(str(node.datatype))}" if node.datatype else ""
    )
    return f"<literal{kind}>{text}</literal>"


def _labelled(result: Result) -> Result:
    """The table with blank nodes as CSV writes them, which rdflib leaves without their sign."""
    for row in result.bindings:
        for name in list(row):
            if isinstance(row[name], BNode):
                row[name] = URIRef(f"_:{row[name]}")
    return result


def _rows(result: Result) -> Result:
    """The table with each row held once, as a plain mapping of the variables that are asked for."""
    wanted = list(result.vars or [])
    rows = [{name: row[name] for name in wanted if row.get(name) is not None} for row in result.bindings]
    table = Result("SELECT")
    table.vars, table.bindings = wanted, rows
    return table


def table(result: Result, form: str) -> bytes:
    """The answer to SELECT or ASK in one of the formats of tables."""
    if result.type == "ASK":
        if form in ("csv", "tsv"):
            raise Problem(406, "not-acceptable", "an answer of yes or no is JSON or XML")
    else:
        result = _rows(result)
    if form == "tsv":
        return "".join(_tsv(result)).encode()
    stream = io.BytesIO()
    if form == "csv":
        CSVResultSerializer(_labelled(result)).serialize(stream)
    elif form == "xml":
        text = "".join(_xml(result))
        if _NOT_XML.search(text):
            raise Problem(406, "not-acceptable", "XML has no words for a control character of the answer; JSON has")
        return text.encode()
    else:
        JSONResultSerializer(result).serialize(stream, encoding="utf-8")
    return stream.getvalue()


def lines_of(triples: Iterable[Triple]) -> list[str]:
    """The lines of triples, each once. What a template filled to no triple, as one with a literal for its subject, is left out."""
    found: dict[str, None] = {}
    for subject, predicate, object in triples:
        if isinstance(subject, Literal) or not isinstance(predicate, URIRef):
            continue
        found[" ".join(spelled_result(it) for it in (subject, predicate, object)) + " ."] = None
    return list(found)


def graph(lines: list[str], form: str) -> bytes:
    """A graph of lines in one of the formats of graphs."""
    if form == "ttl":
        return "".join(turtle(lines)).encode()
    if form == "jsonld":
        return json_ld(lines).encode()
    return "".join(f"{line}\n" for line in lines).encode()
