"""The application: its addresses, and what holds of every request."""

from __future__ import annotations

import asyncio
import json
import sys
import traceback
from typing import Any, Awaitable, Callable, Mapping, Optional

from starlette.exceptions import HTTPException
from starlette.requests import ClientDisconnect, Request
from starlette.responses import Response
from starlette.routing import Route, Router

from ..errors import Error, Refused

from .formats import HTML, PLAIN_JSON, chosen
from .http import HEAD_BYTES
from .pages import Pages
from .pool import Pool
from .problems import Problem
from .reading import Reading
from .settings import Settings
from .snapshots import Snapshots
from .targets import Services
from .writer import Writer, refused
from .writing import Writing

Answer = Callable[[Request], Awaitable[Response]]
_POLICY = (
    "default-src 'none'; style-src 'self'; script-src 'self'; img-src 'self'; form-action 'self'; base-uri 'none'; frame-ancestors 'none'"
)
_HEADERS = (
    (b"content-security-policy", _POLICY.encode()),
    (b"x-content-type-options", b"nosniff"),
    (b"referrer-policy", b"no-referrer"),
    (b"cross-origin-resource-policy", b"same-origin"),
)
_DRAINED = 1 << 22


def methods(**answers: Answer) -> Answer:
    """An address that has an answer for each of these methods. 405 for others."""
    allowed = [*(["HEAD"] if "GET" in answers else []), *answers]

    async def answer(request: Request) -> Response:
        wanted = answers.get("GET" if request.method == "HEAD" else request.method)
        if wanted is None:
            raise Problem(405, "no-method", f"this address has no {request.method}", {"Allow": ", ".join(sorted(allowed))})
        return await wanted(request)

    return answer


class Application:
    """Answers requests over the newest snapshot of a folder."""

    def __init__(self, settings: Settings) -> None:
        self.settings = settings
        snapshots = Snapshots(settings)
        self.services = Services(settings, snapshots, Pool(settings), Writer(settings, snapshots))
        pages = Pages(self.services)
        reading, writing = Reading(self.services, pages), Writing(self.services)
        addresses = {
            "/": methods(GET=pages.home),
            "/compare": methods(GET=pages.compare),
            "/subject": methods(GET=pages.subject),
            "/static/{name}": methods(GET=pages.static),
            "/labels": methods(GET=reading.labels),
            "/labels/{label}": methods(GET=reading.label, PUT=writing.make_label),
            "/labels/{label}/graph": methods(GET=reading.graph, PUT=writing.graph, POST=writing.graph, DELETE=writing.graph),
            "/labels/{label}/sparql": methods(GET=reading.sparql, POST=reading.sparql),
            "/labels/{label}/update": methods(POST=writing.update),
            "/layers": methods(GET=reading.layers),
            "/layers/{layer}": methods(GET=reading.layer),
            "/layers/{layer}/graph": methods(GET=reading.graph),
            "/layers/{layer}/sparql": methods(GET=reading.sparql, POST=reading.sparql),
            "/layers/{layer}/added": methods(GET=reading.changes),
            "/layers/{layer}/removed": methods(GET=reading.changes),
        }
        self._pages = pages
        self._router = Router([Route(path, _Endpoint(answer)) for path, answer in addresses.items()], redirect_slashes=False)

    async def start(self) -> None:
        await self.services.pool.start()
        async with self.services.snapshots.newest():
            pass

    def close(self) -> None:
        self.services.pool.close()
        self.services.snapshots.remove()

    async def __call__(self, scope: dict[str, Any], receive: Any, send: Any) -> None:
        if scope["type"] != "http":
            return
        exchange = _Exchange(self, scope, receive, send)
        await exchange.run()

    async def answer(self, scope: dict[str, Any], receive: Any, send: Any) -> None:
        """Answers a request whose host is one of ours."""
        request = Request(scope)
        head = len(scope["raw_path"]) + len(scope["query_string"]) + sum(len(name) + len(value) for name, value in scope["headers"])
        if head > HEAD_BYTES:
            raise Problem(431, "too-large", f"the head of a request has at most {HEAD_BYTES} bytes")
        if request.headers.get("host", "").lower() not in self.settings.names:
            raise Problem(421, "wrong-host", "this server has another name: it is started with --host NAME to be asked under one")
        scope["app"] = self
        await self._router(scope, receive, send)

    def problem(self, scope: dict[str, Any], problem: Problem) -> Response:
        """A problem as an answer: a page for a browser, else JSON (RFC 7807)."""
        request = Request(scope)
        headers = {**problem.headers, "Cache-Control": "no-store", "Vary": "Accept"}
        try:
            form = chosen(request.headers.get("accept"), (PLAIN_JSON, HTML))
        except Problem:
            form = PLAIN_JSON
        if form is HTML and problem.status != 421:
            return self._pages.problem(problem, headers)
        told = {"status": problem.status, "title": problem.cause, "detail": problem.says}
        return Response(json.dumps(told) + "\n", status_code=problem.status, headers=headers, media_type="application/problem+json")


class _Endpoint:
    """An answer as an application of its own: so the route leaves methods to it."""

    def __init__(self, answer: Answer) -> None:
        self._answer = answer

    async def __call__(self, scope: Any, receive: Any, send: Any) -> None:
        response = await self._answer(Request(scope, receive, send))
        await response(scope, receive, send)


class _Exchange:
    """One request and its answer: its time, its faults, and the headers of every answer."""

    def __init__(self, application: Application, scope: dict[str, Any], receive: Any, send: Any) -> None:
        self._application = application
        self._scope = scope
        self._receive_from = receive
        self._send_to = send
        self._has_begun = False
        self._body_is_read = False

    async def run(self) -> None:
        try:
            async with asyncio.timeout(self._application.settings.listing_seconds):
                await self._application.answer(self._scope, self._receive, self._send)
        except Exception as error:
            problem = _problem_of(error)
            if problem is None:
                traceback.print_exception(error, file=sys.stderr)
                problem = Problem(500, "fault", "this server has a fault; its log says more")
            if self._has_begun:
                self._scope.get("tstore.abort", lambda: None)()
                return
            await self._answer_problem(problem)

    async def _answer_problem(self, problem: Problem) -> None:
        response = self._application.problem(self._scope, problem)
        if not self._body_is_read and any(name in (b"content-length", b"transfer-encoding") for name, _ in self._scope["headers"]):
            response.headers["Connection"] = "close"
            await self._drain()
        await response(self._scope, self._receive, self._send)

    async def _drain(self) -> None:
        """Takes some of a body that nobody wants, so that its sender comes to read the answer."""
        if any(name == b"expect" for name, _ in self._scope["headers"]):
            return
        taken = 0
        try:
            async with asyncio.timeout(1.0):
                while taken < _DRAINED and not self._body_is_read:
                    message = await self._receive()
                    if message["type"] != "http.request":
                        return
                    taken += len(message.get("body", b""))
        except TimeoutError:
            pass

    async def _receive(self) -> Any:
        message = await self._receive_from()
        if message["type"] == "http.request" and not message.get("more_body"):
            self._body_is_read = True
        return message

    async def _send(self, message: Any) -> None:
        if message["type"] == "http.response.start":
            self._has_begun = True
            message = {**message, "headers": [*message["headers"], *_HEADERS]}
        await self._send_to(message)


def _problem_of(error: Exception) -> Optional[Problem]:
    """The problem that an exception is; none for a fault of our own."""
    if isinstance(error, Problem):
        return error
    if isinstance(error, HTTPException):
        known: Mapping[str, str] = error.headers or {}
        return Problem(error.status_code, "no-address" if error.status_code == 404 else "refused", str(error.detail), known)
    if isinstance(error, TimeoutError):
        return Problem(503, "time", "the answer took too long")
    if isinstance(error, ClientDisconnect):
        return Problem(400, "cut", "the request was cut")
    if isinstance(error, Refused):
        return refused(error)
    if isinstance(error, Error):
        return Problem(503, "stopped", "the program that reads the folder has stopped")
    return None
