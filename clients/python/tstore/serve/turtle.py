"""Turtle that keeps terms as they stand: rdflib's own writer changes the spelling of numbers, dates and booleans.

Triples come as lines of N-Triples in canonical spelling; each term is written as there, but that IRIs get prefixes and those of one
subject stand together."""

from __future__ import annotations

import re
from collections import Counter
from typing import Iterable, Iterator

KNOWN = {
    "http://www.w3.org/1999/02/22-rdf-syntax-ns#": "rdf",
    "http://www.w3.org/2000/01/rdf-schema#": "rdfs",
    "http://www.w3.org/2001/XMLSchema#": "xsd",
    "http://www.w3.org/2002/07/owl#": "owl",
    "http://www.w3.org/2004/02/skos/core#": "skos",
    "http://www.w3.org/ns/dcat#": "dcat",
    "http://www.w3.org/ns/prov#": "prov",
    "http://www.w3.org/ns/shacl#": "sh",
    "http://xmlns.com/foaf/0.1/": "foaf",
    "http://purl.org/dc/terms/": "dcterms",
    "http://purl.org/dc/elements/1.1/": "dc",
    "http://schema.org/": "schema",
    "https://schema.org/": "schemas",
    "http://www.w3.org/2003/01/geo/wgs84_pos#": "geo",
}
_TYPE = "<http://www.w3.org/1999/02/22-rdf-syntax-ns#type>"
# A part of what may stand behind a prefix, for which no escape is needed.
_NAMED = re.compile(r"<(.*[/#])([A-Za-z_](?:[A-Za-z0-9_-]*[A-Za-z0-9_])?)>")
_OFTEN = 3


def cut(line: str) -> tuple[str, str, str]:
    """The three terms of a line."""
    subject, predicate, rest = line.split(" ", 2)
    return subject, predicate, rest[:-2]


def _iri_in(term: str) -> str:
    """The IRI that may be shortened in a term: itself, or the type of a literal."""
    if term[0] == "<":
        return term
    return term[term.rindex('"') + 3 :] if term[0] == '"' and term[-1] == ">" else ""


class Prefixes:
    """The prefixes of a graph: the well-known ones that it uses, and names for namespaces that it uses often."""

    def __init__(self, lines: Iterable[str]) -> None:
        counts: Counter[str] = Counter()
        for line in lines:
            for term in cut(line):
                found = _NAMED.fullmatch(_iri_in(term))
                if found and term != _TYPE:
                    counts[found[1]] += 1
        self._prefixes: dict[str, str] = {}
        for namespace, count in sorted(counts.items()):
            if namespace in KNOWN:
                self._prefixes[namespace] = KNOWN[namespace]
            elif count >= _OFTEN:
                self._prefixes[namespace] = f"ns{len(self._prefixes) + 1}"

    def lines(self) -> Iterator[str]:
        for namespace, prefix in self._prefixes.items():
            yield f"@prefix {prefix}: <{namespace}> .\n"

    def short(self, term: str) -> str:
        """A term with a prefix in place of a namespace, where it has one."""
        iri = _iri_in(term)
        found = _NAMED.fullmatch(iri)
        prefix = self._prefixes.get(found[1]) if found else None
        return term if prefix is None or not found else f"{term[: len(term) - len(iri)]}{prefix}:{found[2]}"


def turtle(lines: list[str]) -> Iterator[str]:
    """A graph in Turtle, in pieces. Lines of one subject, and of one predicate under it, stand together where they came together."""
    prefixes = Prefixes(lines)
    yield from prefixes.lines()
    before, above = "", ""
    for line in lines:
        subject, predicate, object = cut(line)
        verb = "a" if predicate == _TYPE else prefixes.short(predicate)
        if subject != before:
            yield (" .\n\n" if before else "\n") + f"{prefixes.short(subject)} {verb} {prefixes.short(object)}"
        elif predicate != above:
            yield f" ;\n    {verb} {prefixes.short(object)}"
        else:
            yield f", {prefixes.short(object)}"
        before, above = subject, predicate
    yield " .\n" if before else ""
