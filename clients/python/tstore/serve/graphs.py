"""The graph that a worker evaluates over: a layer, read by asking the server, with changes of its own laid over it."""

# mypy: allow-untyped-calls

from __future__ import annotations

import time
from collections import deque
from typing import Any, Iterable, Iterator, Optional

from rdflib.store import Store
from rdflib.term import Literal, URIRef

from ..errors import BadTerm
from .frames import Channel, Head
from .nodes import Node, Triple, read_line, spelled_node, stored
from .turtle import cut

Pattern = tuple[Optional[Node], Optional[Node], Optional[Node]]
# An evaluation asks for each pattern until its questions have taken as long as reading the whole layer would, about, at so many seconds a
# triple; then it goes on over all of it in memory, where it isn't too large. So it takes at most about twice the better of the two.
_SECONDS = 15e-6
_LITTLE = 0.02
_SMALL = 250_000


class Gone(Exception):
    """The server is gone."""


class Indexed:
    """Triples in memory, by each of their places; an index is made where it is first asked for."""

    def __init__(self, triples: list[Triple]) -> None:
        self._triples = triples
        self._by: dict[int, dict[Node, list[Triple]]] = {}

    def _at(self, place: int, node: Node) -> list[Triple]:
        index = self._by.get(place)
        if index is None:
            index = self._by[place] = {}
            for triple in self._triples:
                index.setdefault(triple[place], []).append(triple)
        return index.get(node, [])

    def fitting(self, pattern: Pattern) -> Iterator[Triple]:
        found = [self._at(place, node) for place, node in enumerate(pattern) if node is not None]
        for triple in min(found, key=len) if found else self._triples:
            if _fits(triple, pattern):
                yield triple


class Listing:
    """A listing of the server's that is read as it is asked for. Only one is open: before another, the rest of it is read."""

    def __init__(self, layer: Layer, question: Head) -> None:
        self._layer = layer
        self._question = question
        self._pieces: deque[bytes] = deque()
        self._more = True

    def pieces(self) -> Iterator[bytes]:
        """Whole lines, as they come."""
        self._layer.begin_listing(self)
        try:
            while True:
                while self._pieces:
                    yield self._pieces.popleft()
                if not self._more:
                    return
                self._ask()
        finally:
            self._layer.end_listing(self)

    def lines(self) -> Iterator[str]:
        for piece in self.pieces():
            yield from piece.decode().split("\n")[:-1]

    def read_rest(self) -> None:
        while self._more:
            self._ask()

    def _ask(self) -> None:
        head, lines = self._layer.ask(self._question)
        self._question = {"ask": "fetch"}
        self._more = head["more"]
        if lines:
            self._pieces.append(lines)


class Layer:
    """A layer, or the empty graph of a label that names none, by questions to the server over the worker's channel."""

    def __init__(self, channel: Channel, name: Optional[str]) -> None:
        self.name = name
        self._channel = channel
        self._whole = None if name else Indexed([])
        self._count: Optional[int] = None
        self.begin()

    def begin(self) -> None:
        """Another evaluation begins."""
        self._open: Optional[Listing] = None
        self._waited = 0.0

    def ask(self, question: Head) -> tuple[Head, bytes]:
        start = time.monotonic()
        self._channel.send(question)
        reply = self._channel.receive()
        if reply is None:
            raise Gone
        self._waited += time.monotonic() - start
        return reply

    def begin_listing(self, listing: Listing) -> None:
        if self._open is not None:
            self._open.read_rest()
        self._open = listing

    def end_listing(self, listing: Listing) -> None:
        if self._open is listing:
            self._open = None

    def fitting(self, pattern: Pattern) -> Iterator[Triple]:
        """The triples that fit. `BadTerm` where a term is none of its place."""
        if self._whole is None:
            question = asked(pattern)
            if not self._has_waited() or self.count() > _SMALL:
                return map(read_line, Listing(self, question).lines())
            self._whole = Indexed(list(map(read_line, self.lines())))
        return self._whole.fitting(pattern)

    def count(self) -> int:
        """How many triples there are."""
        if self._count is None:
            self._count = int(self.ask({"ask": "count"})[0]["count"]) if self.name else 0
        return self._count

    def lines(self) -> Iterator[str]:
        """All triples as lines."""
        return Listing(self, asked((None, None, None))).lines() if self.name else iter(())

    def lacking(self, lines: Iterable[str]) -> list[str]:
        """Those lines whose triples the layer doesn't have."""
        wanted = dict.fromkeys(lines)
        for line in list(wanted) if self.name else ():
            if self._has_waited():
                for it in self.lines():
                    wanted.pop(it, None)
                break
            if self.ask({"ask": "has", "terms": cut(line)})[0]["has"]:
                del wanted[line]
        return list(wanted)

    def _has_waited(self) -> bool:
        """Whether the questions have taken as long as reading all of it would."""
        return self._waited > _LITTLE and self._waited > self.count() * _SECONDS


def asked(pattern: Pattern) -> Head:
    """The question for the triples that fit a pattern."""
    subject, predicate, _ = pattern
    if isinstance(subject, Literal) or (predicate is not None and not isinstance(predicate, URIRef)):
        raise BadTerm("no term of its place")
    return {"ask": "open", "pattern": [None if it is None else spelled_node(it) for it in pattern]}


class Overlay(Store):
    """A store of rdflib over a layer, with what is added to it and removed from it kept apart: the net change, by the lines of its
    triples, since two tags that differ in their case alone are one to rdflib and two here."""

    context_aware = False

    def __init__(self, layer: Layer) -> None:
        super().__init__()
        self._layer = layer
        self.added: dict[str, Triple] = {}
        self.removed: dict[str, Triple] = {}

    def triples(self, pattern: Any, context: Any = None) -> Iterator[tuple[Triple, Iterator[None]]]:
        wanted = _stored(pattern)
        try:
            below = self._layer.fitting(wanted)
        except BadTerm:
            return
        # What is added or removed while a listing is read doesn't change it.
        gone = set(self.removed)
        above = [it for it in self.added.values() if _fits(it, wanted)]
        for triple in below:
            if not gone or line_of(triple) not in gone:
                yield triple, iter(())
        for triple in above:
            yield triple, iter(())

    def add(self, triple: Any, context: Any = None, quoted: bool = False) -> None:
        subject, predicate, object = (stored(it) for it in triple)
        if isinstance(subject, Literal) or not isinstance(predicate, URIRef):
            return
        triple = subject, predicate, object
        line = line_of(triple)
        if line in self.removed:
            del self.removed[line]
        elif line not in self.added and not any(True for _ in self._layer.fitting(triple)):
            self.added[line] = triple

    def remove(self, pattern: Any, context: Any = None) -> None:
        for triple, _ in list(self.triples(pattern)):
            line = line_of(triple)
            if line in self.added:
                del self.added[line]
            else:
                self.removed[line] = triple

    def __len__(self, context: Any = None) -> int:
        return self._layer.count() + len(self.added) - len(self.removed)


def line_of(triple: Triple) -> str:
    """The line of a triple. `BadTerm` where the store has no words for it."""
    return " ".join(map(spelled_node, triple)) + " ."


def _stored(pattern: Pattern) -> Pattern:
    subject, predicate, object = (None if it is None else stored(it) for it in pattern)
    return subject, predicate, object


def _fits(triple: Triple, pattern: Pattern) -> bool:
    return all(wanted is None or _same(wanted, it) for wanted, it in zip(pattern, triple))


def _same(one: Node, other: Node) -> bool:
    return bool(one == other) and getattr(one, "language", None) == getattr(other, "language", None)
