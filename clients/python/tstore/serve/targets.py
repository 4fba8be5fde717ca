"""What an address is about: a layer, or a label and the layer that it names, in one snapshot."""

from __future__ import annotations

from contextlib import asynccontextmanager
from typing import AsyncIterator, NamedTuple, Optional
from urllib.parse import quote

from starlette.requests import Request

from ..errors import BadName
from ..names import label_name, layer_name
from ..store import Label
from .formats import HTML, Format
from .pool import Pool
from .problems import Problem
from .settings import Settings
from .snapshots import Snapshot, Snapshots
from .writer import Writer, etag

FOREVER = "public, max-age=31536000, immutable"


class Services(NamedTuple):
    """What the answers are made with."""

    settings: Settings
    snapshots: Snapshots
    pool: Pool
    writer: Writer


class Target(NamedTuple):
    """A graph that can be asked."""

    snapshot: Snapshot
    named: Optional[str]
    label: Optional[Label]

    @property
    def layer(self) -> str:
        """The layer. 404 where the label names none."""
        if self.named is None:
            assert self.label
            raise Problem(404, "empty-label", f"the label {self.label.name} names no layer")
        return self.named

    @property
    def path(self) -> str:
        return label_path(self.label.name) if self.label else f"/layers/{self.named}"

    @property
    def title(self) -> str:
        return self.label.name if self.label else str(self.named)

    def tag(self, form: Format) -> str:
        return etag(self.label.version, form.name) if self.label else f'"{self.named}-{form.name}"'

    def headers(self, form: Format, changes: bool = False) -> dict[str, str]:
        """How long an answer about it may be kept. One that may be another one the next time isn't."""
        if changes:
            return {"Vary": "Accept", "Cache-Control": "no-store"}
        # A page is made anew by a newer server.
        kept = "no-cache" if self.label or form is HTML else FOREVER
        return {"Vary": "Accept", "Cache-Control": kept, "ETag": self.tag(form)}


def label_path(name: str) -> str:
    return f"/labels/{quote(name, safe='')}"


def label_of(request: Request) -> str:
    """The label of a path. 404 for what can be no label's name."""
    try:
        return label_name(request.path_params["label"])
    except BadName:
        raise Problem(404, "no-label", "this is no name of a label") from None


@asynccontextmanager
async def target_of(request: Request, snapshots: Snapshots) -> AsyncIterator[Target]:
    """The target of a path, and its snapshot for as long as it is asked."""
    async with snapshots.newest() as snapshot:
        if "label" in request.path_params:
            label = snapshot.label(label_of(request))
            yield Target(snapshot, label.layer, label)
        else:
            yield Target(snapshot, check_layer(snapshot, request.path_params["layer"]), None)


def check_layer(snapshot: Snapshot, layer: str) -> str:
    """The layer that is named so. 404 where there is none."""
    try:
        return snapshot.check_layer(layer_name(layer))
    except BadName:
        raise Problem(404, "no-layer", "a layer's name is 8 digits, 0 to 9 and a to f") from None
