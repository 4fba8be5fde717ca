"""Changes: one layer and one move of a label for each, under the folder's lock, which is held only for that."""

from __future__ import annotations

import asyncio
import time
from typing import IO, Callable

from ..errors import Error, Full, Held, LabelExists, NoLabel, Refused, Stale, VersionEnd
from ..store import Label, Store
from .problems import Problem
from .settings import Settings
from .snapshots import Snapshots


def etag(version: int, form: str = "") -> str:
    return f'"{version}-{form}"' if form else f'"{version}"'


class Writer:
    """The one writer of this server; other programs on the folder are kept apart by its lock."""

    def __init__(self, settings: Settings, snapshots: Snapshots) -> None:
        self._settings = settings
        self._snapshots = snapshots

    async def new_label(self, name: str) -> Label:
        """Makes a label."""
        return await self._do(lambda store: store.new_label(name))

    async def move(self, before: Label, body: IO[bytes]) -> Label:
        """Makes the layer that a body of changes makes of a label's, and moves the label to it from the version that it had; 412 where it
        has another one by now, and then no layer is made."""

        def change(store: Store) -> Label:
            now = store.label(before.name)
            if now.version != before.version:
                raise lost(now)
            layer = store.commit(before.layer, body) if before.layer else store.base(body)
            return store.set_label(before.name, before.version, layer)

        return await self._do(change)

    async def _do(self, change: Callable[[Store], Label]) -> Label:
        async with self._snapshots.turn:
            # What has begun is done, whether its client waits for it or not.
            work = asyncio.get_running_loop().run_in_executor(None, self._changed, change)
            try:
                return await asyncio.shield(work)
            finally:
                self._snapshots.is_behind = True

    def _changed(self, change: Callable[[Store], Label]) -> Label:
        try:
            with self._opened() as store:
                return change(store)
        except Stale as error:
            raise Problem(412, "stale", f"the label has version {error.current}", {"ETag": etag(error.current)}) from None
        except Refused as error:
            raise refused(error) from None
        except Held:
            raise Problem(503, "held", "another program holds the folder", {"Retry-After": "1"}) from None
        except Error as error:
            raise Problem(500, "stopped", f"the program stopped: {error}") from None

    def _opened(self) -> Store:
        """The folder, as soon as nobody else holds it."""
        until = time.monotonic() + self._settings.wait_seconds
        while True:
            try:
                return Store(self._settings.folder, wait=False, program=self._settings.program)
            except Held:
                if time.monotonic() > until:
                    raise
                time.sleep(0.02)


def lost(now: Label) -> Problem:
    """412: the label isn't at the version that was asked for."""
    return Problem(412, "stale", f"the label {now.name} has version {now.version}", {"ETag": etag(now.version)})


def refused(error: Refused) -> Problem:
    """The problem that a refusal of the program is."""
    if isinstance(error, LabelExists):
        return Problem(409, "label-exists", f"there is a label {error.told} already")
    if isinstance(error, NoLabel):
        return Problem(404, "no-label", f"there is no label {error.told}")
    if isinstance(error, VersionEnd):
        return Problem(409, "version-end", f"no version follows that of the label {error.told}")
    if isinstance(error, Full):
        return Problem(507, "full", "the store has no room for another layer")
    return Problem(409, error.words.split(" ")[0], str(error))
