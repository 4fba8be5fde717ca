"""What the folder was at a moment, to read from: hard links to its layers and rollups, which nobody writes into, and copies of its
labels, with programs of its own. The folder's lock is held only while the links are made.

A snapshot stands in `FOLDER/.serve`, under a folder that its server holds a lock on: the next server removes what a dead one left."""

from __future__ import annotations

import asyncio
import fcntl
import os
import re
import shutil
import tempfile
import time
from concurrent.futures import ThreadPoolExecutor
from contextlib import asynccontextmanager
from typing import AsyncIterator, Callable, Optional, TypeVar

from ..errors import Error
from ..listings import Cursor, Triples
from ..store import Label, Store
from .problems import Problem
from .settings import Settings

T = TypeVar("T")
_PART = re.compile(r"[0-9a-f]{8}\.(?:layer|rollup)")
_LABEL = re.compile(r"(?!\.)[!#-.0-~]{1,200}\.label")
# One of 64 cursors of a program is kept for whoever comes with none.
_CURSORS = 60
_PIECE = 2_048
# Times of a folder have the steps of the kernel's clock: a change within one step of another may leave no sign.
_CLOCK = 0.05
_PATIENCE = 2.0


class Pieces:
    """A listing: a call awaits its next piece, which is whole lines, and none at the end. The first one comes as it is opened."""

    def __init__(self, reader: Reader, triples: Triples) -> None:
        self._reader = reader
        self._triples = triples
        self._pieces = triples.pieces()
        self._first: Optional[bytes] = next(self._pieces, b"")
        self.has_more = self._goes_on(self._first)

    async def __call__(self) -> bytes:
        if self._first is not None:
            lines, self._first = self._first, None
        elif self.has_more:
            lines = await self._reader.do(lambda _: next(self._pieces, b""))
            self.has_more = self._goes_on(lines)
        else:
            lines = b""
        return lines

    def _goes_on(self, lines: bytes) -> bool:
        """Whether more may come. A cursor is closed with its last piece."""
        return bool(lines) and not (isinstance(self._triples, Cursor) and not self._triples.is_open)

    def end(self) -> None:
        self._triples.close()


class Reader:
    """A program over a snapshot, whose commands are done one after another on a thread of its own."""

    def __init__(self, store: Store) -> None:
        self._store = store
        self._thread = ThreadPoolExecutor(1, "reader")
        self._cursors = asyncio.Semaphore(_CURSORS)
        self.waiting = 0

    async def do(self, command: Callable[[Store], T]) -> T:
        """Does a command."""
        self.waiting += 1
        try:
            return await asyncio.get_running_loop().run_in_executor(self._thread, command, self._store)
        except Error as error:
            if self._store.is_closed:
                raise Problem(503, "stopped", "a program that reads the folder has stopped; the next request opens it anew") from error
            raise
        finally:
            self.waiting -= 1

    @asynccontextmanager
    async def listing(self, command: Callable[[Store], Triples]) -> AsyncIterator[Pieces]:
        """A listing in pieces. It gives its cursor back whatever happens."""
        async with self._cursors:
            pieces = await self.do(lambda store: Pieces(self, command(store)))
            try:
                yield pieces
            finally:
                if pieces.has_more and not self._store.is_closed:
                    await asyncio.shield(asyncio.ensure_future(self.do(lambda _: pieces.end())))

    def close(self) -> None:
        def end() -> None:
            if not self._store.is_closed:
                self._store.close()

        self._thread.submit(end)
        self._thread.shutdown()

    @property
    def is_closed(self) -> bool:
        return self._store.is_closed


def cursor(layer: str, pattern: tuple[Optional[str], Optional[str], Optional[str]]) -> Callable[[Store], Cursor]:
    """The command that opens a cursor over a layer's triples that fit."""
    return lambda store: store.cursor(layer, *pattern, size=_PIECE)


class Snapshot:
    """A state of the folder. It is closed when a newer one has come and nobody reads it."""

    def __init__(self, folder: str, sign: int, readers: list[Reader], labels: list[Label], layers: dict[str, Optional[str]]) -> None:
        self.folder = folder
        self.sign = sign
        self.labels = {it.name: it for it in labels}
        self.layers = layers
        self._readers = readers
        self._users = 0
        self._is_old = False

    @property
    def reader(self) -> Reader:
        """The program that has least to do."""
        return min(self._readers, key=lambda it: it.waiting)

    @property
    def is_broken(self) -> bool:
        return any(it.is_closed for it in self._readers)

    def label(self, name: str) -> Label:
        if name not in self.labels:
            raise Problem(404, "no-label", f"there is no label {name}")
        return self.labels[name]

    def check_layer(self, layer: str) -> str:
        if layer not in self.layers:
            raise Problem(404, "no-layer", f"there is no layer {layer}")
        return layer

    def use(self) -> None:
        self._users += 1

    def leave(self) -> None:
        self._users -= 1
        self._end()

    def retire(self) -> None:
        self._is_old = True
        self._end()

    def _end(self) -> None:
        if self._is_old and not self._users:
            asyncio.get_running_loop().run_in_executor(None, self.close)

    def close(self) -> None:
        for reader in self._readers:
            reader.close()
        shutil.rmtree(self.folder, ignore_errors=True)


class Snapshots:
    """The newest snapshot of a folder, renewed where the folder has changed."""

    def __init__(self, settings: Settings) -> None:
        self._settings = settings
        self._folder = settings.folder
        self._home = _home(settings.folder)
        self._life = _held(self._home)
        self._made = 0
        self._newest: Optional[Snapshot] = None
        self._renewing = asyncio.Lock()
        self._held_until = 0.0
        #: The turn of those in this server who want the folder's lock.
        self.turn = asyncio.Lock()
        #: Whether this server has changed the folder since: then nobody is answered out of the snapshot before.
        self.is_behind = False

    @asynccontextmanager
    async def newest(self) -> AsyncIterator[Snapshot]:
        """The state of the folder as it is now, or as it was before the program that holds the folder began to change it."""
        snapshot = await self._renewed()
        snapshot.use()
        try:
            yield snapshot
        finally:
            snapshot.leave()

    async def _renewed(self) -> Snapshot:
        if self._is_new():
            assert self._newest
            return self._newest
        async with self._renewing:
            if not self._is_new():
                await self._renew()
            if self._newest is None or self.is_behind or self._newest.is_broken:
                raise Problem(503, "held", "another program holds the folder", {"Retry-After": "1"})
            return self._newest

    async def _renew(self) -> None:
        loop = asyncio.get_running_loop()
        async with self.turn:
            linked = await loop.run_in_executor(None, self._link_beside_others)
            if linked is None:
                return
            self.is_behind = False
        made = await loop.run_in_executor(None, self._opened, *linked)
        before, self._newest = self._newest, made
        if before:
            before.retire()

    def _is_new(self) -> bool:
        newest = self._newest
        if newest is None or newest.is_broken:
            return False
        return not self.is_behind and (newest.sign == self._sign() or time.monotonic() < self._held_until)

    def _link_beside_others(self) -> Optional[tuple[str, int]]:
        """Makes the folder of a snapshot under a shared lock, or none where another program holds the folder for long."""
        folder = os.open(self._folder, os.O_RDONLY)
        try:
            until = time.monotonic() + (self._settings.wait_seconds if self.is_behind or not self._newest else _PATIENCE)
            while True:
                try:
                    fcntl.flock(folder, fcntl.LOCK_SH | fcntl.LOCK_NB)
                    break
                except BlockingIOError:
                    if time.monotonic() > until:
                        self._held_until = time.monotonic() + _PATIENCE / 2
                        return None
                    time.sleep(0.01)
            return self._link()
        finally:
            os.close(folder)

    def _link(self) -> tuple[str, int]:
        """The folder of a snapshot and its sign."""
        self._made += 1
        home = os.path.join(self._home, str(self._made))
        os.mkdir(home, 0o700)
        sign = self._sign()
        for name in os.listdir(self._folder):
            path = os.path.join(self._folder, name)
            if _PART.fullmatch(name) and os.path.isfile(path):
                os.link(os.path.realpath(path), os.path.join(home, name))
            elif _LABEL.fullmatch(name) and os.path.isfile(path):
                shutil.copyfile(path, os.path.join(home, name))
        return home, sign

    def _opened(self, home: str, sign: int) -> Snapshot:
        """Opens the programs of a snapshot."""
        stores: list[Store] = []
        try:
            for _ in range(self._settings.readers):
                stores.append(Store(home, read_only=True, program=self._settings.program))
            labels = stores[0].labels()
            layers = {it.layer: it.parent for it in stores[0].layers()}
        except BaseException:
            for store in stores:
                store.close()
            shutil.rmtree(home, ignore_errors=True)
            raise
        return Snapshot(home, sign, [Reader(it) for it in stores], labels, layers)

    def _sign(self) -> int:
        """What changes with the folder: the time of its last change, or nothing that equals anything while that is too near to be told
        from the next one."""
        at = os.stat(self._folder).st_mtime_ns
        return at if time.time_ns() - at > _CLOCK * 1e9 else -time.monotonic_ns()

    def remove(self) -> None:
        """Removes what stands in the folder. The programs end with this process."""
        shutil.rmtree(self._home, ignore_errors=True)


def _home(folder: str) -> str:
    """A new folder for the snapshots of this server, and none of those that dead servers left."""
    above = os.path.join(folder, ".serve")
    os.makedirs(above, mode=0o700, exist_ok=True)
    for name in os.listdir(above):
        path = os.path.join(above, name)
        try:
            left = os.open(path, os.O_RDONLY | os.O_DIRECTORY)
        except OSError:
            continue
        try:
            fcntl.flock(left, fcntl.LOCK_EX | fcntl.LOCK_NB)
            shutil.rmtree(path, ignore_errors=True)
        except BlockingIOError:
            pass
        finally:
            os.close(left)
    return tempfile.mkdtemp(dir=above)


def _held(home: str) -> int:
    """The sign of life of a server: an open folder with a lock."""
    life = os.open(home, os.O_RDONLY)
    fcntl.flock(life, fcntl.LOCK_EX | fcntl.LOCK_NB)
    return life
