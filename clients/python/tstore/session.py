"""The commands of one running program, one after another, and what their replies have to look like."""

from __future__ import annotations

import os
import re
import tempfile
import threading
from collections import deque
from contextlib import contextmanager
from typing import IO, Iterator, Optional

from .errors import BadCommand, BadReply, Closed, Refused, refusal
from .program import Program

_IN_MEMORY = 1_048_576
_READ = 262_144


def _front(lines: bytes) -> tuple[bytes, Optional[bytes]]:
    """The lines of triples among whole lines of a reply, and the line behind them where there is one."""
    start = lines.rfind(b"\n", 0, -1) + 1
    last = lines[start:-1]
    return (lines, None) if last[:1] in (b"<", b"_") else (lines[:start], last)


class Reply:
    """The reply of `list`, `added` or `removed` as it is read: lines of triples, and then `total` and how many they are."""

    def __init__(self, program: Program) -> None:
        self._program = program
        self._count = 0
        self._kept: Optional[IO[bytes]] = None
        self.is_read = False
        self.is_wanted = True

    def piece(self) -> bytes:
        """The next whole lines of triples; none at the end."""
        if self._kept is None:
            return b"" if self.is_read else self._come()
        lines = self._kept.read(_READ)
        return lines if lines.endswith(b"\n") else lines + self._kept.readline()

    def set_aside(self) -> None:
        """Reads the rest, so that another command can come: into memory, or into a file where it is large."""
        kept = tempfile.SpooledTemporaryFile(_IN_MEMORY)
        while not self.is_read:
            lines = self._come()
            if self.is_wanted:
                kept.write(lines)
        kept.seek(0)
        self._kept = kept

    def give_up(self) -> None:
        """Says that nobody wants the rest; may be called at any moment."""
        self.is_wanted = False
        if self._kept is not None:
            self._kept.close()

    def _come(self) -> bytes:
        lines, last = _front(self._program.lines())
        self._count += lines.count(b"\n")
        if last is not None:
            if last != b"total %d" % self._count or self._program.has_more:
                raise BadReply(f"{self._count} triples came, and then {last[:80]!r}")
            self.is_read = True
        return lines


class Session:
    """A program, and the turn of each command. What goes wrong in a turn, but for a refusal, leaves a reply that nobody has read, so it
    ends the program. Threads take turns."""

    def __init__(self, program: Program) -> None:
        self._program = program
        self._owner = os.getpid()
        self._lock = threading.RLock()
        self._in_turn = False
        self._reply: Optional[Reply] = None
        self._forgotten: deque[str] = deque()
        self._ended_by: Optional[BaseException] = None
        self.is_closed = False

    def ask(self, command: str, form: re.Pattern[str]) -> re.Match[str]:
        """Does a command whose reply is one line of this form."""
        with self._turn() as program:
            program.write(f"{command}\n".encode())
            return self._line(form)

    def make(self, command: str, body: IO[bytes], form: re.Pattern[str]) -> re.Match[str]:
        """Likewise, of a command with a body, whose lines are triples."""
        with self._turn() as program:
            program.write(f"{command}\n".encode())
            while piece := body.read(_READ):
                program.write(piece)
            program.write(b"end\n")
            try:
                return self._line(form)
            except BadCommand as error:
                # The program takes each line of the body for a command, and has a reply for each.
                raise BadReply(f"{command}: {error}") from None

    def table(self, command: str, form: re.Pattern[str]) -> list[re.Match[str]]:
        """Does a command whose reply is lines of this form, and then `total` and how many they are."""
        with self._turn() as program:
            program.write(f"{command}\n".encode())
            found: list[re.Match[str]] = []
            while True:
                line = self._text(program.line())
                fits = form.fullmatch(line)
                if not fits:
                    break
                found.append(fits)
            self._whole(line == f"total {len(found)}", line)
            return found

    def listing(self, command: str) -> Reply:
        """Does a command whose reply is a listing."""
        with self._turn() as program:
            program.write(f"{command}\n".encode())
            lines = program.lines()
            program.give_back(lines)
            if lines.startswith(b"refused "):
                self._line(re.compile("(?!)"))
            self._reply = Reply(program)
            return self._reply

    def piece(self, reply: Reply) -> bytes:
        """The next lines of a listing's reply; none at its end."""
        with self._lock:
            if reply is not self._reply or reply.is_read:
                if not reply.is_read:
                    self._check()
                return reply.piece()
            with self._turn(goes_on=True):
                return reply.piece()

    def fetch(self, cursor: str, n: int) -> tuple[bytes, bool]:
        """The next n lines of a cursor, or those that are left, and whether there may be more."""
        with self._turn() as program:
            program.write(f"fetch {cursor} {n}\n".encode())
            pieces, count, last = [], 0, None
            while last is None:
                lines, last = _front(program.lines())
                pieces.append(lines)
                count += lines.count(b"\n")
            is_whole = count == n if last == b"more" else last == b"end" and count < n
            if not count and last.startswith(b"refused ") and not program.has_more:
                raise refusal(self._text(last[8:]))
            self._whole(is_whole, self._text(last))
            return b"".join(pieces), last == b"more"

    def forget(self, cursor: str) -> None:
        """Closes a cursor before the next command; may be called at any moment."""
        self._forgotten.append(cursor)

    def close(self) -> None:
        """Ends the program: by the end of its input, or at once where it is still telling a listing."""
        with self._lock:
            if self.is_closed or self._in_turn:
                return
            self.is_closed = True
            if self._owner != os.getpid():
                return
            if self._reply and not self._reply.is_read:
                self._program.kill()
            else:
                self._program.end()

    def abandon(self) -> None:
        """Ends the program at once, if this process started it."""
        if not self.is_closed and self._owner == os.getpid():
            self.is_closed = True
            self._program.kill()

    @contextmanager
    def _turn(self, goes_on: bool = False) -> Iterator[Program]:
        """The time of a command and its reply; of a listing's, where the turn goes on, that of a part of it."""
        with self._lock:
            if self._in_turn:
                raise RuntimeError("a command of this store isn't done yet")
            self._check()
            self._in_turn = True
            try:
                if not goes_on:
                    self._clear()
                yield self._program
            except Refused:
                raise
            except BaseException as error:
                self._ended_by = error
                self.abandon()
                raise
            finally:
                self._in_turn = False

    def _check(self) -> None:
        if self._owner != os.getpid():
            raise Closed("a store isn't shared with a process that was forked")
        if self.is_closed:
            raise Closed("the program has ended" if self._ended_by else "the store is closed") from self._ended_by

    def _clear(self) -> None:
        """Reads what is left of a listing, and closes the cursors that are forgotten."""
        if self._reply:
            if not self._reply.is_read:
                self._reply.set_aside()
            self._reply = None
        while self._forgotten:
            name = self._forgotten.popleft()
            self._program.write(f"close {name}\n".encode())
            self._line(re.compile(f"cursor {name} closed"))

    def _line(self, form: re.Pattern[str]) -> re.Match[str]:
        """The reply of one line."""
        line = self._text(self._program.line())
        if line.startswith("refused ") and not self._program.has_more:
            raise refusal(line[8:])
        found = form.fullmatch(line)
        self._whole(found is not None, line)
        assert found
        return found

    def _whole(self, is_whole: bool, last: str) -> None:
        """`BadReply` where a reply isn't what it has to be up to its last line, or goes on behind it."""
        if not is_whole or self._program.has_more:
            raise BadReply(f"no reply, or a part of one: {last!r:.200}")

    @staticmethod
    def _text(line: bytes) -> str:
        return line.decode("ascii", "backslashreplace")
