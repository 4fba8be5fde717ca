"""The workers from the server's side: some are ready, each does one request at a time, and one that takes too long is ended."""

from __future__ import annotations

import asyncio
import multiprocessing
import socket
import tempfile
from collections import deque
from contextlib import AsyncExitStack
from typing import IO, Callable, NamedTuple, Optional

from ..listings import Triples
from ..store import Store
from .frames import Head, packed, read_head
from .problems import Problem
from .settings import Settings
from .snapshots import Pieces, Reader, cursor
from .worker import run

_IN_MEMORY = 1 << 20
_PIECE = 1 << 18
_LIMIT = 1 << 34
# A worker is as good as new for so many requests; then another takes its place.
_TIMES = 200
_WAITING = 500


class Done(NamedTuple):
    """What a worker said, its bytes at their beginning, and how many they are."""

    head: Head
    body: IO[bytes]
    size: int


class Listings:
    """The listings that one evaluation asks for, over one layer: at most one is open."""

    def __init__(self, reader: Reader, layer: Optional[str]) -> None:
        self._reader = reader
        self._layer = layer
        self._open = AsyncExitStack()
        self._next: Optional[Pieces] = None

    async def answer(self, head: Head) -> bytes:
        """The reply to a question, as a message."""
        assert self._layer is not None
        kind, layer = head["ask"], self._layer
        if kind == "count":
            return packed({"count": await self._reader.do(lambda store: store.count(layer))})
        if kind == "has":
            subject, predicate, object = head["terms"]
            return packed({"has": await self._reader.do(lambda store: store.has(layer, (subject, predicate, object)))})
        if kind != "fetch":
            await self.close()
            self._next = await self._open.enter_async_context(self._reader.listing(_command(head, layer)))
        lines = await self._next() if self._next else b""
        more = self._next is not None and self._next.has_more
        if not more:
            await self.close()
        return packed({"more": more}, lines)

    async def close(self) -> None:
        self._next = None
        await self._open.aclose()


def _command(head: Head, layer: str) -> Callable[[Store], Triples]:
    if head["ask"] == "added":
        return lambda store: store.added(layer)
    if head["ask"] == "removed":
        return lambda store: store.removed(layer)
    subject, predicate, object = head["pattern"]
    return cursor(layer, (subject, predicate, object))


class Worker:
    """A worker's process and the server's end of its socket."""

    def __init__(self, process: multiprocessing.process.BaseProcess, stream: asyncio.StreamReader, writer: asyncio.StreamWriter) -> None:
        self._process = process
        self._stream = stream
        self._writer = writer
        self.times = 0

    async def send(self, message: bytes) -> None:
        self._writer.write(message)
        await self._writer.drain()

    async def head(self) -> tuple[Head, int]:
        return await read_head(self._stream, _LIMIT)

    async def body(self, size: int) -> IO[bytes]:
        """A body, in memory or in a file where it is large."""
        spool = tempfile.SpooledTemporaryFile(_IN_MEMORY)
        left = size
        while left:
            piece = await self._stream.read(min(left, _PIECE))
            if not piece:
                raise ConnectionError("a worker ended in the middle of its answer")
            spool.write(piece)
            left -= len(piece)
        spool.seek(0)
        return spool

    def end(self) -> None:
        """Ends the process at once."""
        self._writer.close()
        self._process.kill()

    def join(self) -> None:
        self._process.join()
        self._process.close()


class Pool:
    """Workers that are ready."""

    def __init__(self, settings: Settings) -> None:
        self._settings = settings
        self._context = multiprocessing.get_context("forkserver")
        self._context.set_forkserver_preload(["tstore.serve.warm"])
        self._ready: deque[Worker] = deque()
        self._all: set[Worker] = set()
        self._waiting: deque[asyncio.Future[Worker]] = deque()
        self._is_closed = False

    async def start(self) -> None:
        await asyncio.gather(*(self._begin() for _ in range(self._settings.workers)))

    async def do(self, head: Head, body: bytes, reader: Reader, seconds: Optional[float] = None) -> Done:
        """Has a worker do a job, within the time that it has: an evaluation's, where none is given."""
        seconds = seconds or self._settings.seconds
        worker = await self._taken()
        listings = Listings(reader, head["layer"])
        is_whole = False
        try:
            async with asyncio.timeout(seconds):
                await worker.send(packed(head, body))
                while True:
                    said, size = await worker.head()
                    if "ask" not in said:
                        break
                    await worker.send(await listings.answer(said))
                done = Done(said, await worker.body(size), size)
            is_whole = not said["ends"]
        except TimeoutError:
            raise Problem(503, "time", f"the request takes more than the {seconds:g} seconds that it may have") from None
        except (ConnectionError, OSError):
            raise Problem(503, "ended", "the process of the request has ended: it may have wanted too much memory") from None
        finally:
            await self._given_back(worker, is_whole)
            await listings.close()
        if said["status"] != 200:
            raise Problem(said["status"], said["cause"], said["says"])
        return done

    async def _taken(self) -> Worker:
        if self._ready:
            return self._ready.popleft()
        if len(self._waiting) >= _WAITING:
            raise Problem(503, "busy", "too many requests wait", {"Retry-After": "5"})
        mine: asyncio.Future[Worker] = asyncio.get_running_loop().create_future()
        self._waiting.append(mine)
        try:
            async with asyncio.timeout(max(self._settings.seconds, 10.0) * 2):
                return await mine
        except TimeoutError:
            raise Problem(503, "busy", "no process was free in time", {"Retry-After": "5"}) from None
        except asyncio.CancelledError:
            if mine.done() and not mine.cancelled():
                self._offer(mine.result())
            raise

    def _offer(self, worker: Worker) -> None:
        while self._waiting:
            first = self._waiting.popleft()
            if not first.done():
                first.set_result(worker)
                return
        self._ready.append(worker)

    async def _given_back(self, worker: Worker, is_whole: bool) -> None:
        worker.times += 1
        if is_whole and worker.times < _TIMES:
            self._offer(worker)
            return
        self._all.discard(worker)
        worker.end()
        asyncio.get_running_loop().run_in_executor(None, worker.join)
        if not self._is_closed:
            asyncio.ensure_future(self._begin())

    async def _begin(self) -> None:
        """Starts a worker, again after a while where it can't be started."""
        while not self._is_closed:
            try:
                worker = await self._started()
            except (OSError, EOFError):
                await asyncio.sleep(0.5)
                continue
            self._all.add(worker)
            self._offer(worker)
            return

    async def _started(self) -> Worker:
        ours, theirs = socket.socketpair()
        with theirs:
            process = self._context.Process(target=run, args=(theirs, self._settings.megabytes), daemon=True)
            await asyncio.get_running_loop().run_in_executor(None, process.start)
        ours.setblocking(False)
        worker = Worker(process, *await asyncio.open_connection(sock=ours))
        await worker.head()
        return worker

    def close(self) -> None:
        self._is_closed = True
        for worker in self._all:
            worker.end()
        for worker in self._all:
            worker.join()
