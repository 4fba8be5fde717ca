"""The answers that read: labels, layers, listings, and queries of SPARQL."""

from __future__ import annotations

import asyncio
import json
from contextlib import AsyncExitStack
from typing import IO, Any, AsyncIterator, Callable, Optional

from starlette.requests import Request
from starlette.responses import Response, StreamingResponse

from ..listings import Triples
from ..store import Store
from . import requests
from .conditions import is_known
from .formats import CSV, GRAPHS, HTML, JSON, JSON_LD, N_TRIPLES, PLAIN_JSON, RESULTS, TSV, TURTLE, XML, Format, chosen
from .pages import Pages
from .pool import Done
from .problems import Problem
from .requests import Parameters, parameters
from .snapshots import Pieces, cursor
from .targets import Services, Target, label_path, target_of

Command = Callable[[Store], Triples]
_PIECE = 1 << 18
_BY_NAME = {it.name: it for it in (N_TRIPLES, TURTLE, JSON_LD, JSON, XML, CSV, TSV, HTML)}
_OTHER_GRAPHS = ("default-graph-uri", "named-graph-uri")


def accepted(request: Request, given: Parameters) -> Optional[str]:
    """What the request accepts: the parameter `format` where it is the word of a format, for links and forms, else the header. (Clients
    are about that send it with other words, beside the header.)"""
    form = _BY_NAME.get(given.first("format") or "")
    return form.bare if form else request.headers.get("accept")


def unchanged(request: Request, headers: dict[str, str]) -> Optional[Response]:
    """304 where the client has what would be answered."""
    tag = headers.get("ETag")
    if tag and is_known(request.headers.get("if-none-match"), tag):
        return Response(status_code=304, headers=headers)
    return None


class _Lines(StreamingResponse):
    """A listing as it comes. What it is read from is given back at its end, also where nobody took a byte of it."""

    def __init__(self, first: bytes, piece: Pieces, held: AsyncExitStack, headers: dict[str, str]) -> None:
        async def lines() -> AsyncIterator[bytes]:
            it = first
            while it:
                yield it
                it = await piece()

        super().__init__(lines(), headers=headers)
        self._held = held

    async def __call__(self, scope: Any, receive: Any, send: Any) -> None:
        try:
            await super().__call__(scope, receive, send)
        finally:
            await self._held.aclose()


async def sent(body: IO[bytes]) -> AsyncIterator[bytes]:
    """A body in pieces."""
    with body:
        while piece := body.read(_PIECE):
            yield piece


def as_response(done: Done, media: str, headers: dict[str, str]) -> Response:
    return StreamingResponse(sent(done.body), headers={**headers, "Content-Length": str(done.size), "Content-Type": media})


class Reading:
    """Answers to requests that change nothing."""

    def __init__(self, services: Services, pages: Pages) -> None:
        self._services = services
        self._snapshots = services.snapshots
        self._pages = pages

    async def labels(self, request: Request) -> Response:
        """All labels."""
        form = chosen(accepted(request, parameters(request)), (PLAIN_JSON, HTML))
        async with self._snapshots.newest() as snapshot:
            if form is HTML:
                return self._pages.labels(snapshot)
            told = [_told_label(it) for it in snapshot.labels.values()]
        return _json({"labels": told}, {"Vary": "Accept", "Cache-Control": "no-cache"})

    async def layers(self, request: Request) -> Response:
        """All layers."""
        form = chosen(accepted(request, parameters(request)), (PLAIN_JSON, HTML))
        async with self._snapshots.newest() as snapshot:
            if form is HTML:
                return await self._pages.history(request, snapshot)
            told = [_told_layer(layer, parent) for layer, parent in snapshot.layers.items()]
        return _json({"layers": told}, {"Vary": "Accept", "Cache-Control": "no-cache"})

    async def label(self, request: Request) -> Response:
        """A label."""
        form = chosen(accepted(request, parameters(request)), (PLAIN_JSON, HTML))
        async with target_of(request, self._snapshots) as target:
            headers = target.headers(form)
            if known := unchanged(request, headers):
                return known
            assert target.label
            if form is HTML:
                return await self._pages.triples(request, target, headers)
            return _json(_told_label(target.label), headers)

    async def layer(self, request: Request) -> Response:
        """A layer and its parent."""
        form = chosen(accepted(request, parameters(request)), (PLAIN_JSON, HTML))
        async with target_of(request, self._snapshots) as target:
            headers = target.headers(form)
            if form is HTML:
                return await self._pages.layer(request, target)
            if known := unchanged(request, headers):
                return known
            return _json(_told_layer(target.layer, target.snapshot.layers[target.layer]), headers)

    async def graph(self, request: Request) -> Response:
        """The triples of a graph that fit `s`, `p` and `o`."""
        given = parameters(request)
        given.refuse(*_OTHER_GRAPHS, "graph")
        pattern = given.pattern()
        form = chosen(accepted(request, given), (*GRAPHS, HTML))
        stack = AsyncExitStack()
        try:
            target = await stack.enter_async_context(target_of(request, self._snapshots))
            headers = target.headers(form)
            layer = target.layer
            if known := unchanged(request, headers):
                return known
            if form is HTML:
                return await self._pages.triples(request, target, headers)
            return await self._listing(request, target, form, cursor(layer, pattern), {"ask": "open", "pattern": pattern}, stack)
        finally:
            await stack.aclose()

    async def changes(self, request: Request) -> Response:
        """What a layer adds to its parent, or removes from it."""
        kind = request.scope["path"].rpartition("/")[2]
        form = chosen(accepted(request, parameters(request)), (*GRAPHS, HTML))
        stack = AsyncExitStack()
        try:
            target = await stack.enter_async_context(target_of(request, self._snapshots))
            layer = target.layer
            if known := unchanged(request, target.headers(form)):
                return known
            if form is HTML:
                return await self._pages.changes(request, target, kind)
            command: Command = (lambda store: store.added(layer)) if kind == "added" else (lambda store: store.removed(layer))
            return await self._listing(request, target, form, command, {"ask": kind}, stack)
        finally:
            await stack.aclose()

    async def _listing(
        self, request: Request, target: Target, form: Format, command: Command, question: dict[str, Any], stack: AsyncExitStack
    ) -> Response:
        """A listing: N-Triples as they come, and other formats from a worker."""
        headers = target.headers(form)
        if request.method == "HEAD":
            return Response(headers={**headers, "Content-Type": form.media})
        reader = target.snapshot.reader
        if form is not N_TRIPLES:
            job = {"kind": "graph", "layer": target.layer, "form": form.name, "listing": question}
            return as_response(await self._services.pool.do(job, b"", reader), form.media, headers)
        piece = await stack.enter_async_context(reader.listing(command))
        # A fault at the beginning has its status; a later one cuts the answer.
        first = await piece()
        return _Lines(first, piece, stack.pop_all(), {**headers, "Content-Type": form.media})

    async def sparql(self, request: Request) -> Response:
        """The query operation of the SPARQL 1.1 Protocol."""
        given = parameters(request)
        given.refuse(*_OTHER_GRAPHS)
        accept = accepted(request, given)
        is_page = chosen(accept or "*/*", (JSON, XML, CSV, TSV, N_TRIPLES, TURTLE, JSON_LD, HTML)) is HTML
        if request.method == "POST":
            settings = self._services.settings
            text: Optional[str] = await requests.sent_text(request, settings, "application/sparql-query", "query", *_OTHER_GRAPHS)
        else:
            text = given.one("query")
        async with target_of(request, self._snapshots) as target:
            if is_page:
                return await self._pages.sparql(request, target, text)
            text = requests.wanted(text, "query")
            if len(text.encode(errors="replace")) > self._services.settings.query_bytes:
                raise Problem(413, "too-large", "the query is too long")
            if request.method != "POST" and (known := self._known(request, target, accept)):
                return known
            done = await self.asked(request, target, text, accept)
        form = _BY_NAME[done.head["form"]]
        headers = target.headers(form, done.head["changes"])
        if request.method == "POST":
            headers = {"Vary": "Accept", "Cache-Control": "no-store"}
        return as_response(done, done.head["media"], headers)

    def _known(self, request: Request, target: Target, accept: Optional[str]) -> Optional[Response]:
        """304 where the client has an answer of this version. Only an answer that is the same each time was given a tag; which of the
        formats the query has isn't known before it is read, and both kinds are tried."""
        for forms in (RESULTS, GRAPHS):
            try:
                headers = target.headers(chosen(accept, forms))
            except Problem:
                continue
            if request.headers.get("if-none-match", "").strip() != "*" and (known := unchanged(request, headers)):
                return known
        return None

    async def asked(self, request: Request, target: Target, text: str, accept: Optional[str]) -> Done:
        """The answer to a query, which is given up where the client goes."""
        job = {"kind": "query", "layer": target.layer, "accept": accept}
        work = asyncio.ensure_future(self._services.pool.do(job, text.encode(), target.snapshot.reader))
        return await requests.unless_gone(request, work)


def _json(told: Any, headers: dict[str, str]) -> Response:
    return Response(json.dumps(told, indent=1) + "\n", headers=headers, media_type="application/json")


def _told_label(it: Any) -> dict[str, Any]:
    return {"label": it.name, "version": it.version, "layer": it.layer, "graph": f"{label_path(it.name)}/graph"}


def _told_layer(layer: str, parent: Optional[str]) -> dict[str, Any]:
    return {"layer": layer, "parent": parent, "graph": f"/layers/{layer}/graph"}
