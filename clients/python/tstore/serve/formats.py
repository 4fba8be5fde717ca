"""Media types: what a request accepts (RFC 9110, 12.5.1), and what a resource has."""

from __future__ import annotations

from dataclasses import dataclass
from typing import Optional, Sequence

from .problems import Problem


@dataclass(frozen=True)
class Format:
    """A form of an answer: the word in entity tags, its media type as sent, and other media types that ask for it."""

    name: str
    media: str
    others: tuple[str, ...] = ()

    @property
    def bare(self) -> str:
        return self.media.partition(";")[0]


N_TRIPLES = Format("nt", "application/n-triples", ("text/plain",))
TURTLE = Format("ttl", "text/turtle; charset=utf-8", ("application/turtle", "application/x-turtle"))
JSON_LD = Format("jsonld", "application/ld+json")
JSON = Format("json", "application/sparql-results+json", ("application/json",))
XML = Format("xml", "application/sparql-results+xml", ("application/xml", "text/xml"))
CSV = Format("csv", "text/csv; charset=utf-8")
TSV = Format("tsv", "text/tab-separated-values; charset=utf-8")
HTML = Format("html", "text/html; charset=utf-8", ("application/xhtml+xml",))
PLAIN_JSON = Format("json", "application/json")

GRAPHS = (N_TRIPLES, TURTLE, JSON_LD)
RESULTS = (JSON, XML, CSV, TSV)


def _quality(text: str) -> float:
    try:
        return min(max(float(text), 0.0), 1.0)
    except ValueError:
        return 0.0


def _ranges(accept: str) -> list[tuple[str, float]]:
    """The media ranges of a header with their qualities."""
    found = []
    for part in accept.split(",")[:64]:
        media, *parameters = (it.strip().lower() for it in part.split(";"))
        quality = next((_quality(it[2:]) for it in parameters if it.startswith("q=")), 1.0)
        if media:
            found.append((media, quality))
    return found


def _wanted(form: Format, ranges: Sequence[tuple[str, float]]) -> float:
    """How much a form is wanted: the quality of the range that says most about it."""
    best = (-1, 0.0)
    for media, quality in ranges:
        if media == form.bare:
            precision = 3
        elif media in form.others:
            precision = 2
        elif media.endswith("/*") and form.bare.startswith(media[:-1]):
            precision = 1
        elif media == "*/*":
            precision = 0
        else:
            continue
        best = max(best, (precision, quality))
    return best[1]


def chosen(accept: Optional[str], forms: Sequence[Format]) -> Format:
    """The form that is wanted most; of those that are wanted alike the first. 406 where none is."""
    ranges = _ranges(accept) if accept and accept.strip() else [("*/*", 1.0)]
    best = max(forms, key=lambda form: _wanted(form, ranges))
    if _wanted(best, ranges) <= 0:
        raise Problem(406, "not-acceptable", "Accept names none of " + ", ".join(form.bare for form in forms))
    return best
