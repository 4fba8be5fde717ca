"""Listings as iterators: the reply of one command, read as it comes, and a cursor, fetched in pieces."""

from __future__ import annotations

from itertools import islice
from types import TracebackType
from typing import Iterator, Optional, TypeVar

from .errors import BadReply
from .session import Reply, Session
from .terms import Triple, read_triple

Self = TypeVar("Self", bound="Triples")


class Triples(Iterator[Triple]):
    """Triples in birth order, taken from the store as they are asked for. Iterate over it, or over its `pieces`, which are whole lines of
    N-Triples; either goes on where the other stopped. It is closed at its end, by `close` or `with`, and when Python forgets it."""

    def __init__(self, session: Session) -> None:
        self._session = session
        self._ready: Iterator[bytes] = iter(())

    def __iter__(self: Self) -> Self:
        return self

    def __next__(self) -> Triple:
        line = next(self._ready, None)
        if line is None:
            self._ready = iter(self._piece().split(b"\n")[:-1])
            line = next(self._ready)
        return _triple(line)

    def pieces(self) -> Iterator[bytes]:
        """The rest in pieces of one or more lines of N-Triples in canonical spelling, each with its LF."""
        left = b"".join(line + b"\n" for line in self._ready)
        if left:
            yield left
        while piece := self._piece():
            yield piece

    def close(self) -> None:
        """Gives up what wasn't read."""
        raise NotImplementedError

    def _piece(self) -> bytes:
        """The next whole lines; none at the end."""
        raise NotImplementedError

    def __enter__(self: Self) -> Self:
        return self

    def __exit__(self, kind: Optional[type[BaseException]], error: Optional[BaseException], trace: Optional[TracebackType]) -> None:
        self.close()


def _triple(line: bytes) -> Triple:
    try:
        return read_triple(line.decode())
    except (ValueError, IndexError):
        raise BadReply(f"no line of a listing: {line[:80]!r}") from None


class Listing(Triples):
    """A listing that is read as it comes. Where another command of the store is done before its end, the rest is read first and kept."""

    def __init__(self, session: Session, reply: Reply) -> None:
        super().__init__(session)
        self._reply = reply

    def close(self) -> None:
        self._ready = iter(())
        self._reply.give_up()

    def _piece(self) -> bytes:
        return self._session.piece(self._reply) if self._reply.is_wanted else b""

    def __del__(self) -> None:
        self._reply.give_up()


class Cursor(Triples):
    """A cursor lists the triples of the moment when it was opened, whatever comes after. At most 64 are open at once."""

    def __init__(self, session: Session, name: str, size: int) -> None:
        super().__init__(session)
        self._name = name
        self._size = size
        self.is_open = True

    def fetch(self, n: int) -> list[Triple]:
        """The next n triples, n from 1 to 65,536, or those that are left: fewer than n at the end."""
        lines = list(islice(self._ready, n))
        if len(lines) < n:
            lines += self._fetch(n - len(lines)).split(b"\n")[:-1]
        return [_triple(it) for it in lines]

    def close(self) -> None:
        self._ready = iter(())
        self._shut()

    def _piece(self) -> bytes:
        return self._fetch(self._size)

    def _fetch(self, n: int) -> bytes:
        if not self.is_open:
            return b""
        lines, more = self._session.fetch(self._name, n)
        if not more:
            self._shut()
        return lines

    def _shut(self) -> None:
        if self.is_open:
            self.is_open = False
            self._session.forget(self._name)

    def __del__(self) -> None:
        self._shut()
