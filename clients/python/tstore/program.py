"""The program at the other end of three pipes: bytes go out, the lines of replies come in, and its end is told apart from a reply's."""

from __future__ import annotations

import logging
import os
import re
import select
import subprocess

from .errors import BadReply, Error, Held, stop
from .launch import HELD

PIECE = 262_144
_KEPT = 4_096
# What the exception of its end says.
_LAST = re.compile(rb".*: (usage|damaged .*|disk fault|input fault|output fault|input limit|want of memory|another program works on this folder)")
_log = logging.getLogger("tstore")


class Program:
    """A running `tstore run`. Calls raise the exception of its stop where it ends before it was asked to."""

    def __init__(self, process: subprocess.Popen[bytes]) -> None:
        assert process.stdin and process.stdout and process.stderr
        self._process = process
        self._input, self._output, self._errors = process.stdin, process.stdout, process.stderr
        os.set_blocking(self._input.fileno(), False)
        os.set_blocking(self._errors.fileno(), False)
        self._reading, self._writing = select.poll(), select.poll()
        self._writing.register(self._input, select.POLLOUT)
        for it in (self._reading, self._writing):
            it.register(self._output, select.POLLIN)
            it.register(self._errors, select.POLLIN)
        self._come = b""
        self._begun = b""
        self._hears = True
        self._said = ""

    @property
    def pid(self) -> int:
        return self._process.pid

    def write(self, text: bytes) -> None:
        """Writes all of the text, a command or a part of one. `BadReply` where the reply begins before."""
        left = memoryview(text)
        while left:
            for pipe, _ in self._writing.poll():
                if pipe == self._errors.fileno():
                    self._hear()
                elif pipe == self._output.fileno():
                    self._come += self._read()
                    raise BadReply(f"the program replied to a part of a command: {self._come[:80]!r}")
                else:
                    try:
                        left = left[os.write(pipe, left) :]
                    except BrokenPipeError:
                        raise self._ended() from None

    def line(self) -> bytes:
        """The next line of a reply, without its end."""
        while True:
            line, end, rest = self._come.partition(b"\n")
            if end:
                self._come = rest
                return line
            self._come += self._wait()

    def lines(self) -> bytes:
        """One or more whole lines of a reply: those that have come."""
        while True:
            end = self._come.rfind(b"\n") + 1
            if end:
                lines, self._come = self._come[:end], self._come[end:]
                return lines
            self._come += self._wait()

    def give_back(self, lines: bytes) -> None:
        """Puts back lines that were given too early."""
        self._come = lines + self._come

    @property
    def has_more(self) -> bool:
        """Whether something has come that nobody has read."""
        return bool(self._come)

    def end(self) -> None:
        """Ends the program, which is in no reply, by the end of its input."""
        self._input.close()
        status = self._status()
        if status not in (0, 1):
            raise stop(status, self._said)

    def kill(self) -> None:
        """Ends the program at once, if it hasn't ended."""
        if not self._output.closed:
            self._process.kill()
            self._status()

    def _wait(self) -> bytes:
        """The next bytes of the output."""
        while True:
            for pipe, _ in self._reading.poll():
                if pipe == self._output.fileno():
                    return self._read()
                self._hear()

    def _read(self) -> bytes:
        piece = os.read(self._output.fileno(), PIECE)
        if not piece:
            raise self._ended()
        return piece

    def _hear(self) -> bool:
        """Takes what stands on standard error, and whether anything did. Lines go to the log as they come, but for those that say why
        it ends: a launcher says there that it waits, or that it has no lock."""
        try:
            piece = os.read(self._errors.fileno(), PIECE)
        except BlockingIOError:
            return False
        if not piece:
            self._hears = False
            self._reading.unregister(self._errors)
            self._writing.unregister(self._errors)
            return False
        *whole, self._begun = (self._begun + piece)[-_KEPT:].split(b"\n")
        for line in filter(None, whole):
            self._said = line.decode(errors="replace")
            if not _LAST.fullmatch(line):
                _log.warning("%s", self._said)
        return True

    def _ended(self) -> Error:
        """The exception of an end that nobody asked for."""
        status = self._status()
        return Held(self._said) if status == HELD else stop(status, self._said)

    def _status(self) -> int:
        self._input.close()
        status = self._process.wait()
        while self._hears and self._hear():
            pass
        if self._begun:
            self._said = self._begun.decode(errors="replace")
        self._output.close()
        self._errors.close()
        return status
