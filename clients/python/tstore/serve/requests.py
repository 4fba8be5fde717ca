"""What a request carries: its parameters, its body within limits, its token."""

from __future__ import annotations

import asyncio
import re
from typing import Optional, Sequence, TypeVar
from urllib.parse import parse_qsl

from starlette.requests import ClientDisconnect, Request

from ..errors import BadTerm
from ..terms import read_term
from .formats import Format
from .problems import Problem
from .settings import Settings

T = TypeVar("T")
_FIELDS = 64
Pattern = tuple[Optional[str], Optional[str], Optional[str]]
_BEARER = re.compile(r"[Bb]earer +([A-Za-z0-9._~+/=-]+) *")


class Parameters:
    """The parameters of a query string or a form."""

    def __init__(self, text: bytes) -> None:
        try:
            pairs = parse_qsl(text.decode("ascii"), keep_blank_values=True, errors="strict", max_num_fields=_FIELDS)
        except (UnicodeDecodeError, ValueError):
            raise Problem(400, "malformed", "the parameters are no form in UTF-8") from None
        self._pairs = pairs

    def one(self, name: str) -> Optional[str]:
        """A parameter; none where it isn't there. 400 where it is there twice."""
        found = [value for key, value in self._pairs if key == name]
        if len(found) > 1:
            raise Problem(400, "malformed", f"the parameter {name} is there more than once")
        return found[0] if found else None

    def first(self, name: str) -> Optional[str]:
        """A parameter that may be there more than once."""
        return next((value for key, value in self._pairs if key == name), None)

    def refuse(self, *names: str) -> None:
        """400 where one of these is there: they name other graphs."""
        for key, _ in self._pairs:
            if key in names:
                raise Problem(400, "refused", f"{key} is refused: a request has the one graph of its address")

    def number(self, name: str, default: int) -> int:
        text = self.one(name)
        if text is None:
            return default
        if not re.fullmatch("[0-9]{1,9}", text):
            raise Problem(400, "malformed", f"{name} is a number")
        return int(text)

    def pattern(self) -> Pattern:
        """`s`, `p` and `o` as terms of N-Triples in canonical spelling; none for any term. An IRI may come without its brackets."""
        subject, predicate, object = (self._term(name) for name in "spo")
        if subject is not None and subject[0] == '"':
            raise Problem(400, "no-term", "s is an IRI or a blank node")
        if predicate is not None and predicate[0] != "<":
            raise Problem(400, "no-term", "p is an IRI")
        return subject, predicate, object

    def _term(self, name: str) -> Optional[str]:
        text = self.one(name)
        if text is None or text.strip() in ("", "*"):
            return None
        text = text.strip()
        try:
            return str(read_term(text if text[0] in '<_"' else f"<{text}>"))
        except BadTerm:
            raise Problem(400, "no-term", f"{name} is no term as N-Triples writes it") from None


def parameters(request: Request) -> Parameters:
    return Parameters(request.scope["query_string"])


def check_token(request: Request, settings: Settings) -> None:
    """401 without a token, 403 with one that isn't right, 405 where nobody may write."""
    if settings.tokens is None:
        raise Problem(405, "read-only", "this server only reads: it was started without --write", {"Allow": "GET, HEAD"})
    found = _BEARER.fullmatch(request.headers.get("authorization", ""))
    if not found:
        raise Problem(401, "no-token", "a change wants a token: Authorization: Bearer TOKEN", {"WWW-Authenticate": 'Bearer realm="tstore"'})
    if not settings.may_write(found[1]):
        raise Problem(403, "wrong-token", "this token may not write")


def content_type(request: Request) -> str:
    """The media type of the body. 415 for another charset than UTF-8, or a coding."""
    media, *rest = (it.strip().lower() for it in request.headers.get("content-type", "").split(";"))
    for parameter in rest:
        name, _, value = parameter.partition("=")
        if name.strip() == "charset" and value.strip(' "') not in ("utf-8", "utf8", "us-ascii"):
            raise Problem(415, "not-utf-8", "a body is in UTF-8")
    if request.headers.get("content-encoding", "identity").strip().lower() != "identity":
        raise Problem(415, "encoded", "a body comes without a content coding")
    return media


def body_format(request: Request, forms: Sequence[Format]) -> Format:
    """The format of a body by its media type."""
    media = content_type(request)
    for form in forms:
        if media == form.bare or media in form.others:
            return form
    raise Problem(
        415, "media-type", "Content-Type is one of " + ", ".join(it.bare for it in forms), {"Accept": ", ".join(it.bare for it in forms)}
    )


async def body(request: Request, limit: int, settings: Settings) -> bytes:
    """The whole body, within its limits of bytes and time."""
    try:
        if int(request.headers.get("content-length", "0")) > limit:
            raise Problem(413, "too-large", f"a body here has at most {limit} bytes")
    except ValueError:
        raise Problem(400, "malformed", "Content-Length is no number") from None
    pieces, size = [], 0
    try:
        async with asyncio.timeout(settings.body_seconds):
            async for piece in request.stream():
                size += len(piece)
                if size > limit:
                    raise Problem(413, "too-large", f"a body here has at most {limit} bytes")
                pieces.append(piece)
    except TimeoutError:
        raise Problem(408, "slow", f"the body took more than {settings.body_seconds:g} seconds", {"Connection": "close"}) from None
    except ClientDisconnect:
        raise Problem(400, "cut", "the body was cut") from None
    return b"".join(pieces)


async def sent_text(request: Request, settings: Settings, media: str, field: str, *other: str) -> str:
    """The query or the update of a POST, in either of its two forms."""
    kind = content_type(request)
    if kind not in (media, "application/x-www-form-urlencoded"):
        raise Problem(415, "media-type", f"Content-Type is {media} or application/x-www-form-urlencoded", {"Accept": media})
    sent = await body(request, settings.query_bytes, settings)
    parameters(request).refuse(*other)
    if kind == media:
        try:
            return sent.decode()
        except UnicodeDecodeError:
            raise Problem(400, "malformed", "the body isn't UTF-8") from None
    form = Parameters(sent)
    form.refuse(*other)
    return wanted(form.one(field), field)


def wanted(text: Optional[str], field: str) -> str:
    if text is None:
        raise Problem(400, "malformed", f"the parameter {field} is missing")
    return text


async def unless_gone(request: Request, work: asyncio.Future[T]) -> T:
    """Waits for a worker's answer; where the client closes its connection the worker is ended."""
    gone = asyncio.ensure_future(_gone(request))
    try:
        await asyncio.wait((work, gone), return_when=asyncio.FIRST_COMPLETED)
        if not work.done():
            raise Problem(499, "gone", "the client has gone")
        return work.result()
    finally:
        gone.cancel()
        if not work.done():
            work.cancel()
            await asyncio.gather(work, return_exceptions=True)


async def _gone(request: Request) -> None:
    """Comes back once the client has closed its connection."""
    while (await request.receive())["type"] != "http.disconnect":
        pass
