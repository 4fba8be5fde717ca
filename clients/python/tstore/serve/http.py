"""The server under the application: uvicorn, with limits to heads and to the time that they take, and an end within ten seconds."""

from __future__ import annotations

import asyncio
import json
import socket
from typing import Any, Optional

import h11
import uvicorn
from uvicorn.protocols.http.h11_impl import H11Protocol

#: What a head may have, its lines and its address.
HEAD_BYTES = 64 << 10
_CONNECTIONS = 1_000
_IDLE_SECONDS = 15
_BACKLOG = 512


class Protocol(H11Protocol):  # type: ignore[misc]
    """A connection. A head that is too long, takes too long or isn't HTTP is answered and ends it."""

    head_seconds = 10.0

    def __init__(self, *words: Any, **named: Any) -> None:
        super().__init__(*words, **named)
        self.conn = h11.Connection(h11.SERVER, max_incomplete_event_size=HEAD_BYTES)
        app = self.app
        self._head_timer: Optional[asyncio.TimerHandle] = None

        async def with_connection(scope: dict[str, Any], receive: Any, send: Any) -> None:
            scope["tstore.abort"] = self.abort
            await app(scope, receive, send)

        self.app = with_connection

    def connection_made(self, transport: asyncio.Transport) -> None:
        super().connection_made(transport)
        if len(self.connections) > _CONNECTIONS:
            self.abort()
        self._time_head()

    def connection_lost(self, error: Optional[Exception]) -> None:
        self._head_timer_ends()
        super().connection_lost(error)

    def data_received(self, data: bytes) -> None:
        try:
            super().data_received(data)
        except (h11.ProtocolError, AttributeError, RuntimeError):
            # The request broke off its own framing after its answer had begun.
            self.abort()
            return
        self._head_timer_ends()
        if self.conn.their_state is h11.IDLE and self.conn.trailing_data[0]:
            self._time_head()

    def abort(self) -> None:
        """Ends the connection at once, without what still waits to be sent."""
        self.transport.abort()

    def _time_head(self) -> None:
        self._head_timer = self.loop.call_later(self.head_seconds, self._head_is_late)

    def _head_timer_ends(self) -> None:
        if self._head_timer:
            self._head_timer.cancel()
            self._head_timer = None

    def _head_is_late(self) -> None:
        if self.conn.their_state is h11.IDLE and not self.transport.is_closing():
            self._refuse(408, "slow", "the head of the request took too long")

    def send_400_response(self, message: str) -> None:
        if self.conn.our_state is h11.IDLE or self.conn.our_state is h11.SEND_RESPONSE:
            self._refuse(400, "malformed", "this is no request of HTTP/1.1, or its head is too long")
        else:
            self.abort()

    def handle_upgrade(self, event: Any) -> None:
        self.send_400_response("")

    def _refuse(self, status: int, cause: str, says: str) -> None:
        body = json.dumps({"status": status, "title": cause, "detail": says}).encode()
        lines = [
            f"HTTP/1.1 {status} {cause}",
            "content-type: application/problem+json",
            f"content-length: {len(body)}",
            "connection: close",
        ]
        self.transport.write("\r\n".join(lines).encode() + b"\r\n\r\n" + body)
        self.transport.close()
        self.loop.call_later(2.0, self.abort)


class Server(uvicorn.Server):  # type: ignore[misc]
    """uvicorn's server, whose end has a limit of time: a client that reads slowly holds it no longer."""

    def __init__(self, app: Any, end_seconds: float) -> None:
        super().__init__(
            uvicorn.Config(
                app,
                http=Protocol,
                ws="none",
                loop="asyncio",
                lifespan="off",
                interface="asgi3",
                log_config=None,
                access_log=False,
                server_header=False,
                proxy_headers=False,
                timeout_keep_alive=_IDLE_SECONDS,
                backlog=_BACKLOG,
            )
        )
        self._end_seconds = end_seconds

    async def shutdown(self, sockets: Optional[list[socket.socket]] = None) -> None:
        try:
            async with asyncio.timeout(self._end_seconds):
                await super().shutdown(sockets)
        except TimeoutError:
            for connection in list(self.server_state.connections):
                connection.abort()
            for task in list(self.server_state.tasks):
                task.cancel()
            await asyncio.sleep(0.1)
