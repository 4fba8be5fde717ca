"""The pages, made here: each is whole without a script."""

from __future__ import annotations

import asyncio
import json
import math
import os
import time
from typing import Any, NamedTuple, Optional

from jinja2 import Environment, FileSystemLoader, StrictUndefined
from starlette.requests import Request
from starlette.responses import Response

from ..errors import BadName, BadTerm
from ..names import reference

from . import views
from .formats import HTML
from .frames import Head
from .history import ROW, picture
from .problems import Problem
from .requests import Pattern, parameters, unless_gone
from .snapshots import Reader, Snapshot, cursor
from .targets import Services, Target, check_layer, label_path

_HERE = os.path.dirname(os.path.abspath(__file__))
_LAYERS = 30
_TRIPLES = 50
_VERSIONS = 40
_ROWS = 500
# A difference of more lines than these isn't shown.
_MOST = 100_000
_STATIC = {"style.css": "text/css; charset=utf-8", "page.js": "text/javascript; charset=utf-8", "icon.svg": "image/svg+xml"}
_EXAMPLES = (
    ("Ten triples", "SELECT ?subject ?predicate ?object WHERE {\n  ?subject ?predicate ?object\n}\nLIMIT 10"),
    (
        "Predicates by use",
        "SELECT ?predicate (COUNT(*) AS ?triples) WHERE {\n  ?subject ?predicate ?object\n}\nGROUP BY ?predicate\nORDER BY DESC(?triples)",
    ),
    ("Classes", "SELECT ?class (COUNT(?thing) AS ?things) WHERE {\n  ?thing a ?class\n}\nGROUP BY ?class\nORDER BY DESC(?things)"),
)


class Changes(NamedTuple):
    """How many triples a layer adds to its parent and removes from it."""

    added: int
    removed: int


class Bars(NamedTuple):
    """How long the bars of a layer's changes are, of at most 98."""

    added: float
    removed: float


class Row(NamedTuple):
    """A layer in the history."""

    layer: str
    parent: Optional[str]
    labels: list[str]
    changes: Changes
    made: str


class Pages:
    """Renders the pages of a folder."""

    def __init__(self, services: Services) -> None:
        self._services = services
        self._snapshots = services.snapshots
        self._changes: dict[str, Changes] = {}
        folder = os.path.join(_HERE, "templates")
        self._templates = Environment(
            loader=FileSystemLoader(folder), autoescape=True, undefined=StrictUndefined, trim_blocks=True, lstrip_blocks=True
        )
        self._templates.filters["number"] = lambda it: f"{it:,}"
        self._templates.globals.update(
            label_path=label_path, with_parameters=views.with_parameters, folder=os.path.basename(services.settings.folder)
        )

    def _page(self, template: str, status: int = 200, headers: Optional[dict[str, str]] = None, **shown: Any) -> Response:
        text = self._templates.get_template(f"{template}.html").render(**shown)
        kept = {"Vary": "Accept", "Cache-Control": "no-cache", **(headers or {}), "Content-Type": "text/html; charset=utf-8"}
        return Response(text, status_code=status, headers=kept)

    def problem(self, problem: Problem, headers: dict[str, str]) -> Response:
        return self._page("problem", problem.status, headers, problem=problem, title=problem.cause)

    async def static(self, request: Request) -> Response:
        """The style, the script and the icon."""
        name = request.path_params["name"]
        if name not in _STATIC:
            raise Problem(404, "no-address", "there is no such file")
        with open(os.path.join(_HERE, "static", name), "rb") as file:
            return Response(file.read(), headers={"Cache-Control": "public, max-age=3600", "Content-Type": _STATIC[name]})

    # The history

    async def home(self, request: Request) -> Response:
        async with self._snapshots.newest() as snapshot:
            return await self.history(request, snapshot)

    async def history(self, request: Request, snapshot: Snapshot) -> Response:
        """The newest layers, or those before one."""
        before = parameters(request).one("before")
        numbers = sorted((it for it in snapshot.layers if not before or it < before), reverse=True)
        rows = [await self._row(snapshot, layer) for layer in numbers[:_LAYERS]]
        most = max((max(it.changes) for it in rows), default=0)
        return self._page(
            "history",
            title="History",
            rows=[{**it._asdict(), "bars": _bars(it.changes, most)} for it in rows],
            pitch=ROW,
            picture=picture([(it.layer, it.parent) for it in rows]),
            labels=list(snapshot.labels.values()),
            total=len(snapshot.layers),
            before=before,
            older=rows[-1].layer if len(numbers) > _LAYERS else None,
        )

    async def _row(self, snapshot: Snapshot, layer: str) -> Row:
        labels = [it.name for it in snapshot.labels.values() if it.layer == layer]
        made = time.gmtime(os.stat(os.path.join(snapshot.folder, f"{layer}.layer")).st_mtime)
        return Row(
            layer, snapshot.layers[layer], labels, await self._changes_of(snapshot, layer), time.strftime("%Y-%m-%d %H:%M UTC", made)
        )

    async def _changes_of(self, snapshot: Snapshot, layer: str) -> Changes:
        """How much a layer changes: a layer never does, so it is counted once."""
        known = self._changes.get(layer)
        if known is None:
            parent, reader = snapshot.layers[layer], snapshot.reader
            here = await reader.do(lambda store: store.count(layer))
            if parent is None:
                known = Changes(here, 0)
            else:
                above = await reader.do(lambda store: store.count(str(parent)))
                removed = 0
                async with reader.listing(lambda store: store.removed(layer)) as piece:
                    while lines := await piece():
                        removed += lines.count(b"\n")
                known = Changes(here - above + removed, removed)
            self._changes[layer] = known
        return known

    def labels(self, snapshot: Snapshot) -> Response:
        """All labels."""
        return self._page("labels", title="Labels", labels=list(snapshot.labels.values()))

    # Triples

    async def triples(self, request: Request, target: Target, headers: dict[str, str]) -> Response:
        """The triples of a graph that fit, a page of them, with what stands in a form."""
        given = parameters(request)
        pattern, number = given.pattern(), max(given.number("page", 1), 1)
        layer, reader = target.layer, target.snapshot.reader
        total = await reader.do(lambda store: store.count(layer, *pattern))
        lines = await _some(reader, cursor(layer, pattern), (number - 1) * _TRIPLES, _TRIPLES)
        named = {name: it for name, it in zip("spo", pattern) if it}
        return self._page(
            "triples",
            headers=headers,
            title=target.title,
            target=target,
            pattern=dict(zip("spo", pattern)),
            triples=[views.triple(it, target.path) for it in lines],
            total=total,
            first=(number - 1) * _TRIPLES,
            earlier=views.with_parameters(f"{target.path}/graph", **named, page=str(number - 1)) if number > 1 else None,
            later=views.with_parameters(f"{target.path}/graph", **named, page=str(number + 1)) if number * _TRIPLES < total else None,
            places=await self._places(target, reader, named),
            named=named,
        )

    async def _places(self, target: Target, reader: Reader, named: dict[str, str]) -> list[dict[str, Any]]:
        """Where the one term that is asked for stands, and how often."""
        if len(named) != 1:
            return []
        (here, spelling), layer = next(iter(named.items())), target.layer
        found = []
        for name, words in (("s", "as subject"), ("p", "as predicate"), ("o", "as object")):
            if (name == "s" and spelling[0] == '"') or (name == "p" and spelling[0] != "<"):
                continue
            pattern: Pattern = (spelling if name == "s" else None, spelling if name == "p" else None, spelling if name == "o" else None)
            count = await reader.do(lambda store: store.count(layer, *pattern))
            address = views.with_parameters(f"{target.path}/graph", **{name: spelling})
            found.append({"words": words, "count": count, "address": address, "is_here": name == here})
        return found

    async def layer(self, request: Request, target: Target) -> Response:
        """A layer: what it changed, its parent, its children, and the labels on it."""
        snapshot, layer = target.snapshot, target.layer
        added = await _some(snapshot.reader, lambda store: store.added(layer), 0, _TRIPLES)
        removed = await _some(snapshot.reader, lambda store: store.removed(layer), 0, _TRIPLES)
        return self._page(
            "layer",
            title=layer,
            target=target,
            row=await self._row(snapshot, layer),
            children=[it for it, parent in snapshot.layers.items() if parent == layer],
            total=await snapshot.reader.do(lambda store: store.count(layer)),
            triples=[views.triple(it, f"/layers/{snapshot.layers[layer]}", "−") for it in removed]
            + [views.triple(it, target.path, "+") for it in added],
        )

    async def changes(self, request: Request, target: Target, kind: str) -> Response:
        """What a layer added or removed, a page of it."""
        number, layer = max(parameters(request).number("page", 1), 1), target.layer
        counts = await self._changes_of(target.snapshot, layer)
        total = counts.added if kind == "added" else counts.removed
        skipped = (number - 1) * _TRIPLES
        lines = await _some(
            target.snapshot.reader, lambda store: store.added(layer) if kind == "added" else store.removed(layer), skipped, _TRIPLES
        )
        address = f"{target.path}/{kind}"
        # What it removed stands in its parent.
        path = target.path if kind == "added" else f"/layers/{target.snapshot.layers[layer]}"
        return self._page(
            "changes",
            headers=target.headers(HTML),
            title=f"{layer} {kind}",
            target=target,
            kind=kind,
            total=total,
            first=skipped,
            triples=[views.triple(it, path, "+" if kind == "added" else "−") for it in lines],
            earlier=views.with_parameters(address, page=str(number - 1)) if number > 1 else None,
            later=views.with_parameters(address, page=str(number + 1)) if number * _TRIPLES < total else None,
        )

    # Versions

    async def compare(self, request: Request) -> Response:
        """The difference of two versions."""
        given = parameters(request)
        async with self._snapshots.newest() as snapshot:
            one, other = given.one("from"), given.one("to")
            shown: dict[str, Any] = {"title": "Compare", "one": one or "", "other": other or "", "choices": _choices(snapshot)}
            if not one or not other:
                return self._page("compare", found=None, **shown)
            start, end = _resolved(snapshot, one), _resolved(snapshot, other)
            gone, come = await _difference(snapshot, start, end)
            triples = [views.triple(it, f"/layers/{start}", "−") for it in gone[:_ROWS]]
            triples += [views.triple(it, f"/layers/{end}", "+") for it in come[:_ROWS]]
            found = {"start": start, "end": end, "removed": len(gone), "added": len(come), "most": _ROWS}
            return self._page("compare", found=found, triples=triples, **shown)

    async def subject(self, request: Request) -> Response:
        """The versions of one subject: at each layer of a history what was said of it from then on, and what no longer."""
        given = parameters(request)
        at = given.one("at") or ""
        subject = given.pattern()[0]
        async with self._snapshots.newest() as snapshot:
            shown: dict[str, Any] = {"title": "Subject over time", "at": at, "subject": subject or "", "choices": _choices(snapshot)}
            if not at or not subject:
                return self._page("subject", versions=None, older=None, view=None, **shown)
            chain = _chain(snapshot, _resolved(snapshot, at))
            versions, after = [], await self._said(snapshot, chain[0], subject)
            for layer, parent in zip(chain[:_VERSIONS], [*chain[1:], None]):
                before = await self._said(snapshot, parent, subject) if parent else {}
                lines = [views.triple(it, f"/layers/{parent}", "−") for it in before if it not in after]
                lines += [views.triple(it, f"/layers/{layer}", "+") for it in after if it not in before]
                if lines:
                    versions.append({"row": await self._row(snapshot, layer), "triples": lines, "count": len(after)})
                after = before
            older = chain[_VERSIONS] if len(chain) > _VERSIONS else None
            view = views.term(subject, "s", f"/layers/{chain[0]}")
            return self._page("subject", versions=versions, older=older, view=view, **shown)

    async def _said(self, snapshot: Snapshot, layer: str, subject: str) -> dict[str, None]:
        return dict.fromkeys(await _some(snapshot.reader, cursor(layer, (subject, None, None)), 0, _MOST))

    # SPARQL

    async def sparql(self, request: Request, target: Target, text: Optional[str]) -> Response:
        """The box, and the answer to what stands in it."""
        shown: dict[str, Any] = {
            "title": f"SPARQL · {target.title}",
            "target": target,
            "text": text or _EXAMPLES[0][1],
            "examples": _EXAMPLES,
        }
        shown.update(table=None, problem=None, seconds=0.0, address=f"{target.path}/sparql", asked=text)
        status = 200
        if text and text.strip():
            started = time.monotonic()
            try:
                shown["table"] = await self._table(request, target, text)
            except Problem as problem:
                shown["problem"], status = problem, problem.status
            shown["seconds"] = time.monotonic() - started
        headers = {"Cache-Control": "no-store"} if text else None
        return self._page("sparql", status, headers, choices=_choices(target.snapshot), **shown)

    async def _table(self, request: Request, target: Target, text: str) -> dict[str, Any]:
        """The answer to a query as a table."""
        job = {"kind": "query", "layer": target.layer, "most": _ROWS}
        job["accept"] = "application/sparql-results+json, application/n-triples;q=0.5"
        work = asyncio.ensure_future(self._services.pool.do(job, text.encode(errors="replace"), target.snapshot.reader))
        done = await unless_gone(request, work)
        with done.body as body:
            return await asyncio.get_running_loop().run_in_executor(None, _tabled, body.read(), done.head, target.path)


def _bars(changes: Changes, most: int) -> Bars:
    """Bars by the logarithm: a base of a million triples and a change of one are both to be seen."""
    full = math.log1p(most) or 1.0
    return Bars(*(98 * math.log1p(it) / full for it in changes))


def _tabled(body: bytes, head: Head, path: str) -> dict[str, Any]:
    """What a page shows of an answer, of which only the first rows have come."""
    if head["form"] == "nt":
        lines = body.decode().split("\n")[:-1]
        triples = [views.triple(it, path) for it in lines]
        return {
            "kind": "graph",
            "names": ["subject", "predicate", "object"],
            "rows": [it[:3] for it in triples],
            "total": head["total"],
            "most": _ROWS,
        }
    told = json.loads(body)
    if "boolean" in told:
        return {"kind": "ask", "answer": told["boolean"]}
    names, bindings = told["head"]["vars"], told["results"]["bindings"]
    rows = [[_bound(binding.get(name), path) for name in names] for binding in bindings]
    return {"kind": "table", "names": names, "rows": rows, "total": head["total"], "most": _ROWS}


def _bound(it: Optional[dict[str, str]], path: str) -> Optional[views.TermView]:
    """A term of an answer in JSON."""
    if it is None:
        return None
    try:
        return views.term(views.spelled(it), "o", path)
    except BadTerm:
        return None


async def _some(reader: Reader, command: Any, skipped: int, wanted: int) -> list[str]:
    """Some lines of a listing, after those that are skipped."""
    found: list[str] = []
    async with reader.listing(command) as piece:
        while len(found) < wanted and (lines := await piece()):
            count = lines.count(b"\n")
            if skipped >= count:
                skipped -= count
                continue
            found += lines.decode().split("\n")[skipped:-1]
            skipped = 0
    return found[:wanted]


def _choices(snapshot: Snapshot) -> list[tuple[str, str]]:
    """What a form offers as versions: labels, and the newest layers."""
    labels = [(f"@{it.name}", f"{it.name} (version {it.version})") for it in snapshot.labels.values() if it.layer]
    return labels + [(it, it) for it in sorted(snapshot.layers, reverse=True)[:200]]


def _resolved(snapshot: Snapshot, text: str) -> str:
    """The layer that a reference names."""
    try:
        ref = reference(text.strip())
    except BadName:
        raise Problem(400, "malformed", "a version is a layer, or @ and the name of a label") from None
    if ref[0] != "@":
        return check_layer(snapshot, ref)
    layer = snapshot.label(ref[1:]).layer
    if layer is None:
        raise Problem(404, "empty-label", f"the label {ref[1:]} names no layer")
    return layer


def _chain(snapshot: Snapshot, layer: str) -> list[str]:
    """A layer and its ancestors."""
    chain = [layer]
    while (parent := snapshot.layers[chain[-1]]) is not None:
        chain.append(parent)
    return chain


async def _difference(snapshot: Snapshot, start: str, end: str) -> tuple[list[str], list[str]]:
    """What the one layer has and the other lacks, and the other way round: by what the layers between them changed, or by both
    listings where they have no ancestor in common."""
    up, down = _chain(snapshot, start), _chain(snapshot, end)
    common = set(up) & set(down)
    stands: dict[str, bool] = {}
    read = 0

    async def take(command: Any, is_there: bool) -> None:
        nonlocal read
        for line in await _some(snapshot.reader, command, 0, _MOST + 1):
            read += 1
            # A triple that comes and goes again is as it was.
            if stands.get(line, is_there) != is_there:
                del stands[line]
            else:
                stands[line] = is_there
        if read > _MOST:
            raise Problem(400, "too-large", f"the versions differ by more than {_MOST:,} lines: ask for both listings, and compare them")

    for layer in up:
        if layer in common:
            break
        await take(lambda store, it=layer: store.added(it), False)
        await take(lambda store, it=layer: store.removed(it), True)
    for layer in reversed([it for it in down if it not in common]):
        await take(lambda store, it=layer: store.removed(it), False)
        await take(lambda store, it=layer: store.added(it), True)
    return sorted(it for it, there in stands.items() if not there), sorted(it for it, there in stands.items() if there)
