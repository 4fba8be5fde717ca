"""python3 -m tstore.serve FOLDER --at HOST:PORT [--write TOKENFILE]: serves a folder until it is told to end."""

from __future__ import annotations

import argparse
import asyncio
import ipaddress
import logging
import os
import socket
import sys
from typing import Optional

from ..errors import Error
from .app import Application
from .http import Server
from .settings import Settings, others_read, read_tokens

_LEAST_MEGABYTES = 64


def _arguments() -> argparse.Namespace:
    parser = argparse.ArgumentParser(prog="python3 -m tstore.serve", description="Serves a folder of tstore: SPARQL, graphs and a page.")
    parser.add_argument("folder", metavar="FOLDER")
    parser.add_argument("--at", metavar="HOST:PORT", default="127.0.0.1:8080", help="where to listen; the loopback address by default")
    parser.add_argument(
        "--host",
        metavar="NAME",
        action="append",
        default=[],
        help="a name, with its port where that isn't 80 or 443, under which it is asked, as by a proxy",
    )
    parser.add_argument("--write", metavar="TOKENFILE", help="lets those write who have a token of this file, one to a line")
    parser.add_argument("--program", metavar="LAUNCHER", help="the launcher of tstore; else $TSTORE, else tstore on the path")
    parser.add_argument("--workers", type=int, metavar="N", default=min(8, 2 * (os.cpu_count() or 1)), help="evaluations at once")
    parser.add_argument("--readers", type=int, metavar="N", default=2, help="programs that read a snapshot")
    parser.add_argument("--seconds", type=float, metavar="N", default=10.0, help="what an evaluation may take")
    parser.add_argument("--change-seconds", type=float, metavar="N", default=60.0, help="what working out a change may take")
    parser.add_argument("--megabytes", type=int, metavar="N", default=512, help="what an evaluation may take of memory")
    parser.add_argument("--listing-seconds", type=float, metavar="N", default=300.0, help="what an answer may take in all")
    parser.add_argument("--body-megabytes", type=int, metavar="N", default=64, help="what the body of a change may have")
    return parser.parse_args()


def _address(at: str) -> tuple[str, int]:
    """The host and the port of HOST:PORT. SystemExit where it is none."""
    host, colon, port = at.rpartition(":")
    if not colon or not port.isdigit() or int(port) > 65_535:
        sys.exit(f"tstore.serve: --at is HOST:PORT, and not {at}")
    return host.strip("[]") or "127.0.0.1", int(port)


def _names(host: str, port: int, others: list[str]) -> frozenset[str]:
    """The names in Host headers that are ours."""
    try:
        is_loopback = ipaddress.ip_address(host).is_loopback
    except ValueError:
        is_loopback = host == "localhost"
    names = {f"[{host}]" if ":" in host else host}
    if is_loopback:
        names |= {"localhost", "127.0.0.1", "[::1]"}
    found = {f"{name}:{port}" for name in names} | (names if port == 80 else set())
    return frozenset(it.lower() for it in found | set(others))


def _socket(host: str, port: int) -> socket.socket:
    family, kind, protocol, _, address = socket.getaddrinfo(host, port, type=socket.SOCK_STREAM)[0]
    listening = socket.socket(family, kind, protocol)
    listening.setsockopt(socket.SOL_SOCKET, socket.SO_REUSEADDR, 1)
    listening.bind(address)
    return listening


def _tokens(path: Optional[str]) -> Optional[tuple[bytes, ...]]:
    if path is None:
        return None
    if others_read(path):
        print(f"tstore.serve: everybody may read {path}", file=sys.stderr)
    return read_tokens(path)


async def _serve(settings: Settings, listening: socket.socket) -> None:
    application = Application(settings)
    try:
        await application.start()
        host = f"[{settings.host}]" if ":" in settings.host else settings.host
        print(f"tstore.serve: http://{host}:{settings.port}/ serves {settings.folder}", file=sys.stderr, flush=True)
        await Server(application, settings.end_seconds).serve(sockets=[listening])
    finally:
        application.close()
    # A thread may wait for the folder's lock, or for a long reply, and nobody waits for it any more.
    os._exit(0)


def main() -> None:
    words = _arguments()
    host, port = _address(words.at)
    logging.basicConfig(level=logging.WARNING, format="%(name)s: %(message)s", stream=sys.stderr)
    # It would write down requests that it can't read, and a token with them.
    logging.getLogger("uvicorn.error").setLevel(logging.CRITICAL)
    try:
        listening = _socket(host, port)
        port = listening.getsockname()[1]
        settings = Settings(
            folder=os.path.realpath(words.folder),
            host=host,
            port=port,
            names=_names(host, port, words.host),
            tokens=_tokens(words.write),
            program=words.program,
            workers=max(words.workers, 1),
            readers=max(words.readers, 1),
            seconds=words.seconds,
            megabytes=max(words.megabytes, _LEAST_MEGABYTES),
            change_seconds=words.change_seconds,
            listing_seconds=words.listing_seconds,
            body_bytes=words.body_megabytes << 20,
        )
        asyncio.run(_serve(settings, listening))
    except (OSError, ValueError, Error) as error:
        sys.exit(f"tstore.serve: {error}")


if __name__ == "__main__":
    main()
