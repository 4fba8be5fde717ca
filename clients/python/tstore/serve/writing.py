"""The answers that write: each is one layer and one move of a label, under the version that the client knows."""

from __future__ import annotations

import asyncio
import json

from starlette.requests import Request
from starlette.responses import Response

from . import requests
from .conditions import check_version
from .formats import GRAPHS
from .frames import Head
from .problems import Problem
from .targets import Services, label_of, label_path, target_of
from .writer import etag


class Writing:
    """Answers to requests that change something."""

    def __init__(self, services: Services) -> None:
        self._services = services

    async def make_label(self, request: Request) -> Response:
        """Makes a label with version 0 that names no layer."""
        name = self._allowed_label(request)
        if await requests.body(request, 0, self._services.settings):
            raise Problem(400, "malformed", "a label is made without a body")
        async with self._services.snapshots.newest() as snapshot:
            standing = snapshot.labels.get(name)
        if standing and request.headers.get("if-none-match", "").strip() == "*":
            raise Problem(412, "label-exists", f"there is a label {name} already", {"ETag": etag(standing.version)})
        label = await self._services.writer.new_label(name)
        told = {"label": label.name, "version": label.version, "layer": label.layer}
        headers = {"ETag": etag(label.version), "Location": label_path(name)}
        return Response(json.dumps(told) + "\n", status_code=201, headers=headers, media_type="application/json")

    async def graph(self, request: Request) -> Response:
        """PUT, POST and DELETE of the Graph Store Protocol."""
        self._allowed_label(request)
        job: Head = {"kind": "put", "form": "nt", "base": str(request.url.replace(query=""))}
        requests.parameters(request).refuse("graph", "default")
        sent = b""
        if request.method != "DELETE":
            job["form"] = requests.body_format(request, GRAPHS).name
            job["kind"] = request.method.lower()
            sent = await self._body(request)
        return await self._changed(request, job, sent)

    async def update(self, request: Request) -> Response:
        """The update operation of the SPARQL 1.1 Protocol."""
        self._allowed_label(request)
        await self._check(request)
        settings = self._services.settings
        text = await requests.sent_text(
            request, settings, "application/sparql-update", "update", "using-graph-uri", "using-named-graph-uri"
        )
        return await self._changed(request, {"kind": "update"}, text.encode())

    def _allowed_label(self, request: Request) -> str:
        requests.check_token(request, self._services.settings)
        return label_of(request)

    async def _body(self, request: Request) -> bytes:
        """The body, once it is known that the change may be made."""
        await self._check(request)
        return await requests.body(request, self._services.settings.body_bytes, self._services.settings)

    async def _check(self, request: Request) -> None:
        async with target_of(request, self._services.snapshots) as target:
            assert target.label
            check_version(request.headers.get("if-match"), target.label)

    async def _changed(self, request: Request, job: Head, sent: bytes) -> Response:
        async with target_of(request, self._services.snapshots) as target:
            before = target.label
            assert before
            check_version(request.headers.get("if-match"), before)
            if request.method == "DELETE":
                target.layer
            job["layer"] = before.layer
            work = asyncio.ensure_future(self._services.pool.do(job, sent, target.snapshot.reader, self._services.settings.change_seconds))
            done = await requests.unless_gone(request, work)
        with done.body as changes:
            if not done.head["changes"]:
                return _told(before.name, before.version, before.layer, 0, 200)
            after = await self._services.writer.move(before, changes)
        return _told(after.name, after.version, after.layer, done.head["changes"], 200 if before.layer else 201)


def _told(name: str, version: int, layer: object, changes: int, status: int) -> Response:
    told = {"label": name, "version": version, "layer": layer, "changes": changes}
    return Response(json.dumps(told) + "\n", status_code=status, headers={"ETag": etag(version)}, media_type="application/json")
