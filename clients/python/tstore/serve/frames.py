"""Messages between the server and a worker: a head in JSON and a body of bytes, each with its length before it."""

from __future__ import annotations

import asyncio
import json
import os
import struct
from typing import Any, Optional

_LENGTHS = struct.Struct(">IQ")
Head = dict[str, Any]


def packed(head: Head, body: bytes = b"") -> bytes:
    """The bytes of a message."""
    text = json.dumps(head).encode()
    return _LENGTHS.pack(len(text), len(body)) + text + body


class Channel:
    """The worker's end. Its file descriptor was open before the worker's limits came, and is all that it reads and writes."""

    def __init__(self, descriptor: int) -> None:
        self._descriptor = descriptor

    def send(self, head: Head, body: bytes = b"") -> None:
        left = memoryview(packed(head, body))
        while left:
            left = left[os.write(self._descriptor, left) :]

    def receive(self) -> Optional[tuple[Head, bytes]]:
        """The next message; None where the server is gone."""
        lengths = self._exactly(_LENGTHS.size)
        if lengths is None:
            return None
        head, body = _LENGTHS.unpack(lengths)
        text, rest = self._exactly(head), self._exactly(body)
        return None if text is None or rest is None else (json.loads(text), rest)

    def _exactly(self, size: int) -> Optional[bytes]:
        pieces = []
        while size:
            piece = os.read(self._descriptor, min(size, 1 << 20))
            if not piece:
                return None
            pieces.append(piece)
            size -= len(piece)
        return b"".join(pieces)


async def read_head(stream: asyncio.StreamReader, limit: int) -> tuple[Head, int]:
    """The next message's head and the length of its body, which the caller reads. ConnectionError where the other end is gone or says
    what no worker says: a worker has read what strangers wrote, so its lengths are bounded too."""
    try:
        head, body = _LENGTHS.unpack(await stream.readexactly(_LENGTHS.size))
        if head > 1 << 20 or body > limit:
            raise ConnectionError("a message over its limit")
        return json.loads(await stream.readexactly(head)), body
    except (asyncio.IncompleteReadError, ValueError) as error:
        raise ConnectionError("no message came") from error
