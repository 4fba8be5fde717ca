"""Queries answer as rdflib in memory does over the same listing, at a past layer and at a label, in each format."""

from __future__ import annotations

import io
import subprocess
from collections import Counter
from concurrent.futures import ThreadPoolExecutor
from typing import Any

import pytest
import rdflib
from conftest import XSD, Reply, Server
from queries import ALL, CHANGING, PREFIXES
from rdflib.compare import isomorphic
from rdflib.query import Result
from rdflib.term import BNode, Literal
from tstore.serve.nodes import node_of
from tstore.terms import read

TABLES = {"json": "application/sparql-results+json", "xml": "application/sparql-results+xml", "tsv": "text/tab-separated-values"}
GRAPHS = {"nt": "application/n-triples", "turtle": "text/turtle", "json-ld": "application/ld+json"}


@pytest.fixture(autouse=True)
def literals_stay() -> Any:
    rdflib.NORMALIZE_LITERALS = False
    yield
    rdflib.NORMALIZE_LITERALS = True


def in_memory(listing: str) -> rdflib.Graph:
    """The graph of a listing, its blank nodes by their labels."""
    graph = rdflib.Graph()
    for change in read(listing):
        graph.add(tuple(node_of(it) for it in change.triple))
    return graph


def told(term: Any) -> Any:
    """What is compared of a term: blank nodes of an answer in a file have labels of their own."""
    if term is None or isinstance(term, BNode):
        return None if term is None else "_:"
    if isinstance(term, Literal):
        return (str(term), str(term.datatype or "").replace(XSD + "string", ""), (term.language or "").lower())
    return str(term)


def rows(result: Any) -> list[Any]:
    return [tuple(sorted((str(name), told(it)) for name, it in row.items() if it is not None)) for row in result.bindings]


def form_of(query: str, number: int) -> tuple[str, str]:
    """A format of the query's answer, by turns."""
    forms = (
        GRAPHS
        if query.startswith("CONSTRUCT")
        else {it: media for it, media in TABLES.items() if it != "tsv" or query.startswith("SELECT")}
    )
    return list(forms.items())[number % len(forms)]


def fault(query: str, number: int, reply: Reply, wanted: Any) -> str:
    """What is wrong with an answer, or nothing."""
    form, media = form_of(query, number)
    if reply.status != 200 or not reply.headers["content-type"].startswith(media):
        return f"{query}: {reply.status} {reply.text[:200]}"
    if wanted.type == "CONSTRUCT":
        found = rdflib.Graph().parse(data=reply.text, format=form)
        good = isomorphic(found, legal(wanted.graph))
    else:
        answer = Result.parse(io.BytesIO(reply.body), format=form)
        if wanted.type == "ASK":
            good = answer.askAnswer == wanted.askAnswer
        elif "ORDER BY" in query.rpartition("}")[2]:
            good = rows(answer) == rows(wanted)
        else:
            good = Counter(rows(answer)) == Counter(rows(wanted))
        if wanted.type == "SELECT" and not query.startswith("SELECT *"):
            good = good and [str(it) for it in answer.vars] == [str(it) for it in wanted.vars]
    return "" if good else f"{query} as {form}: {reply.text[:400]}"


def legal(graph: rdflib.Graph) -> rdflib.Graph:
    """A graph without what a template filled to no triple."""
    found = rdflib.Graph()
    for triple in graph:
        if not isinstance(triple[0], Literal):
            found.add(triple)
    return found


@pytest.mark.parametrize("path", ["/layers/00000001", "/labels/main"])
def test_answers_are_rdflibs(cafes: Server, path: str) -> None:
    graph = in_memory(cafes.curl(f"{path}/graph").text)
    assert len(ALL) >= 200
    with ThreadPoolExecutor(8) as threads:
        replies = list(threads.map(lambda it: cafes.ask(path, PREFIXES + it[1], form_of(it[1], it[0])[1]), enumerate(ALL)))
    faults = [fault(it, number, replies[number], graph.query(PREFIXES + it)) for number, it in enumerate(ALL)]
    faults = list(filter(None, faults))
    assert not faults, "\n".join(faults)


def test_what_rdflib_lacks(cafes: Server) -> None:
    """An expression that has no value, and EXISTS outside of a filter."""
    reply = cafes.ask("/labels/main", PREFIXES + "SELECT (YEAR(?d) AS ?y) (SUBSTR(?d, 'x') AS ?z) { e:odd s:opened ?d }", TABLES["tsv"])
    assert reply.text == "?y\t?z\n\t\n"
    reply = cafes.ask(
        "/labels/main", PREFIXES + "SELECT ?c { ?c a s:Cafe BIND(EXISTS { ?c s:address ?a } AS ?x) FILTER(?x) } ORDER BY ?c", TABLES["tsv"]
    )
    assert reply.text == "?c\n<http://example.org/bellevue>\n<http://example.org/mokka>\n"


def test_csv(cafes: Server) -> None:
    reply = cafes.ask("/labels/main", PREFIXES + "SELECT ?c ?n ?a { ?c s:name ?n OPTIONAL { ?c s:address ?a } } ORDER BY ?c ?n", "text/csv")
    assert reply.headers["content-type"] == "text/csv; charset=utf-8"
    assert reply.text.startswith("c,n,a\r\n") and "http://example.org/mokka,Mokka,_:a2\r\n" in reply.text


def test_describe(cafes: Server) -> None:
    for query in (
        "DESCRIBE e:mokka",
        "DESCRIBE ?x { ?x s:name 'Mokka'@de }",
        "DESCRIBE * { ?x s:name 'Mokka'@de }",
        "DESCRIBE ?x e:none { ?x s:near ?x }",
    ):
        found = set(cafes.ask("/labels/main", PREFIXES + query, GRAPHS["nt"]).lines)
        listed = set(cafes.curl("/labels/main/graph?s=http://example.org/mokka").lines) | set(cafes.curl("/labels/main/graph?s=_:a2").lines)
        assert found == listed


def test_what_changes_is_not_kept(cafes: Server) -> None:
    for expression in CHANGING:
        for path in ("/layers/00000001", "/labels/main"):
            reply = cafes.ask(path, f"SELECT ({expression} AS ?x) {{ }}")
            assert reply.status == 200 and reply.headers["cache-control"] == "no-store" and "etag" not in reply.headers
    assert cafes.ask("/layers/00000001", "SELECT (1 AS ?x) { }").headers["cache-control"] == "public, max-age=31536000, immutable"
    assert cafes.ask("/labels/main", "SELECT (1 AS ?x) { }").headers["etag"] == '"1-json"'
    address = PREFIXES + "CONSTRUCT { ?x s:address ?y } { ?x s:address ?y }"
    assert cafes.ask("/labels/main", address).headers["etag"] == '"1-nt"'
    assert cafes.ask("/labels/main", PREFIXES + "DESCRIBE e:mokka").headers["etag"] == '"1-nt"'
    for query in ("CONSTRUCT { ?x s:address [] } { ?x s:address ?y }", "CONSTRUCT WHERE { ?x s:address [ s:street ?y ] }"):
        assert "etag" not in cafes.ask("/labels/main", PREFIXES + query).headers


def test_describes_are_read_by_rapper(cafes: Server) -> None:
    """Formats as tools that aren't rdflib read them."""
    count = len(cafes.curl("/labels/main/graph").text.splitlines())
    for form, name in (("ntriples", "nt"), ("turtle", "ttl")):
        # (rapper takes absolute IRIs alone, as all of these are)
        text = cafes.curl(f"/labels/main/graph?format={name}").body
        read_back = subprocess.run(
            ["rapper", "-q", "-i", form, "-o", "ntriples", "-", "http://base/"], input=text, stdout=subprocess.PIPE, check=True
        ).stdout
        assert len(read_back.splitlines()) == count


def test_formats_keep_literals(cafes: Server) -> None:
    listed = in_memory(cafes.curl("/labels/main/graph").text)
    for form, media in GRAPHS.items():
        reply = cafes.curl("/labels/main/graph", "-H", f"Accept: {media}")
        found = rdflib.Graph().parse(data=reply.text, format=form)
        assert isomorphic(found, listed), form
        assert Counter(told(it) for it in found.objects()) == Counter(told(it) for it in listed.objects())


def test_sparqlwrapper(cafes: Server) -> None:
    from SPARQLWrapper import CSV, JSON, POST, POSTDIRECTLY, TSV, TURTLE, XML, SPARQLWrapper

    asked = SPARQLWrapper(f"{cafes.url}/labels/main/sparql")
    for method in ("GET", POST):
        asked.setMethod(method)
        for form in (JSON, XML, CSV, TSV):
            asked.setReturnFormat(form)
            asked.setQuery(PREFIXES + "SELECT ?c { ?c a s:Cafe }")
            answer = asked.queryAndConvert()
            text = str(answer if form == JSON else answer.toxml() if form == XML else answer.decode())
            assert text.count("http://example.org/") == 5, text
        asked.setReturnFormat(JSON)
        asked.setQuery(PREFIXES + "ASK { e:mokka a s:Cafe }")
        assert asked.queryAndConvert()["boolean"] is True
        asked.setReturnFormat(TURTLE)
        for query in ("CONSTRUCT WHERE { ?x s:near ?y }", "DESCRIBE e:mokka"):
            asked.setQuery(PREFIXES + query)
            assert len(rdflib.Graph().parse(data=asked.queryAndConvert(), format="turtle")) > 3
    asked.setRequestMethod(POSTDIRECTLY)
    asked.setMethod(POST)
    asked.setReturnFormat(JSON)
    asked.setQuery(PREFIXES + "SELECT ?c { ?c a s:Cafe }")
    assert len(asked.queryAndConvert()["results"]["bindings"]) == 5


def test_roqet(cafes: Server) -> None:
    for path, count in (("/layers/00000001", 6), ("/labels/main", 5)):
        told = subprocess.run(
            ["roqet", "-q", "-r", "csv", "-p", f"{cafes.url}{path}/sparql", "-e", PREFIXES + "SELECT ?c WHERE { ?c a s:Cafe }"],
            stdout=subprocess.PIPE,
            check=True,
        ).stdout.decode()
        assert told.count("http://example.org/") == count, told
