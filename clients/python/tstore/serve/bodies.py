"""Bodies of requests as triples: N-Triples by the store's own grammar, Turtle and JSON-LD by rdflib."""

from __future__ import annotations

import json
from typing import Iterator

from rdflib import Graph
from rdflib.plugins.parsers.notation3 import BadSyntax

from ..errors import BadTerm, BadTriple, TooLong
from ..terms import read, spell_triple
from . import formats
from .graphs import line_of
from .problems import Problem
from .refuse import refuse_contexts


def lines_in(body: bytes, form: str, base: str) -> Iterator[str]:
    """The lines of the triples of a body, in canonical spelling. 400 where it is at fault."""
    return _n_triples(body) if form == formats.N_TRIPLES.name else _by_rdflib(body, form, base)


def _n_triples(body: bytes) -> Iterator[str]:
    try:
        for number, change in enumerate(read(body), 1):
            if not change.stands:
                raise Problem(400, "malformed", f"triple {number} has the sign -, which a graph can't have")
            yield spell_triple(change.triple)
    except BadTriple as error:
        raise Problem(400, "bad-triple", f"line {error.told} is no triple of N-Triples") from None
    except TooLong as error:
        raise Problem(400, "too-long", f"line {error.told} is too long, or has a term that is") from None


def _by_rdflib(body: bytes, form: str, base: str) -> Iterator[str]:
    try:
        text = body.decode()
    except UnicodeDecodeError:
        raise Problem(400, "malformed", "the body isn't UTF-8") from None
    graph = Graph()
    try:
        if form == formats.JSON_LD.name:
            document = json.loads(text)
            refuse_contexts(document)
            graph.parse(data=json.dumps(document), format="json-ld", publicID=base)
        else:
            graph.parse(data=text, format="turtle", publicID=base)
        for triple in graph:
            yield line_of(triple)
    except (MemoryError, Problem):
        raise
    except BadSyntax as error:
        raise Problem(400, "malformed", f"line {error.lines + 1}: this is no Turtle") from None
    except json.JSONDecodeError as error:
        raise Problem(400, "malformed", f"line {error.lineno}, column {error.colno}: this is no JSON") from None
    except RecursionError:
        raise Problem(400, "too-deep", "the body is nested too deeply") from None
    except BadTerm as error:
        raise Problem(400, "no-term", str(error)) from None
    except Exception:
        raise Problem(400, "malformed", f"this is no {'JSON-LD' if form == 'jsonld' else 'Turtle'}") from None
