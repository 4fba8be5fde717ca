"""What can go wrong: refusals, stops, and what the client itself refuses. `docs/COMMANDS.md` says when each refusal and stop comes."""

from __future__ import annotations


class Error(Exception):
    """Whatever this package raises of itself."""


class BadTerm(Error, ValueError):
    """This is no term of its place, or one that is over the limit of 1,048,576 bytes."""


class BadName(Error, ValueError):
    """This is no name of a label, no layer and no reference, or no version."""


class NoProgram(Error):
    """There is no launcher: neither `$TSTORE` nor `tstore` on the path is a program."""


class Held(Error):
    """Another program holds the folder, and the caller doesn't wait for it."""


class ReadOnly(Error):
    """The store was opened for reading alone."""


class Closed(Error):
    """The store is closed, or its program has ended; where something ended it, that is the cause of this exception."""


class BadReply(Error):
    """What came is no reply to the command. The program was ended."""


class Refused(Error):
    """A refused command, which changed nothing. `words` are those behind `refused`."""

    def __init__(self, words: str) -> None:
        super().__init__(words)
        self.words = words

    def __str__(self) -> str:
        return f"refused {self.words}"

    @property
    def told(self) -> str:
        """The word behind the kind of the refusal: a line, a layer or a name. Empty where there is none."""
        return (self.words.split(" ") + [""])[1]


class BadCommand(Refused):
    """The program doesn't know the command."""


class BadTriple(Refused):
    """The line `told` of a body is at fault: it isn't UTF-8, or is neither blank, a comment nor a triple."""


class TooLong(Refused):
    """The line `told` of a body is over 4,194,304 bytes, or has a term over 1,048,576."""


class Unfinished(Refused):
    """The input ended within a body."""


class NoLayer(Refused):
    """There is no layer `told`."""


class NoLabel(Refused):
    """There is no label `told`."""


class EmptyLabel(Refused):
    """The label `told` names no layer."""


class LabelExists(Refused):
    """The label `told` stands already."""


class Stale(Refused):
    """The label `told` has another version, `current`: somebody else has moved it."""

    @property
    def current(self) -> int:
        return int(self.words.split(" ")[2])


class VersionEnd(Refused):
    """No version follows that of the label `told`."""


class Full(Refused):
    """The greatest number of a layer is taken, or the layer would have too many terms."""


class NoCursor(Refused):
    """The cursor `told` isn't open."""


class CursorTaken(Refused):
    """A cursor `told` is open already."""


class CursorsFull(Refused):
    """As many cursors are open as can be, 64."""


_REFUSALS: dict[str, type[Refused]] = {
    "bad-command": BadCommand,
    "bad-triple": BadTriple,
    "too-long": TooLong,
    "unfinished": Unfinished,
    "no-layer": NoLayer,
    "no-label": NoLabel,
    "empty-label": EmptyLabel,
    "label-exists": LabelExists,
    "stale": Stale,
    "version-end": VersionEnd,
    "full": Full,
    "no-cursor": NoCursor,
    "cursor-taken": CursorTaken,
    "cursors-full": CursorsFull,
}


def refusal(words: str) -> Refused:
    """The exception of a refusal by its words: `Refused` itself where a newer program has one that isn't known here."""
    return _REFUSALS.get(words.split(" ")[0], Refused)(words)


class Stopped(Error):
    """The program ended before its reply did. `status` is its exit status, negative where a signal ended it, and `said` the end of
    what it wrote on standard error. What was told before stands; of the command in hand docs/COMMANDS.md says what each stop leaves."""

    def __init__(self, status: int, said: str) -> None:
        super().__init__(status, said)
        self.status = status
        self.said = said

    def __str__(self) -> str:
        how = f"signal {-self.status}" if self.status < 0 else f"status {self.status}"
        return f"{self.said or 'the program ended before its reply did'} ({how})"


class Usage(Stopped):
    """The program doesn't know the words of its command line: it is no tstore, or an old one."""


class Damaged(Stopped):
    """A file of the folder isn't what its name says: `file`."""

    @property
    def file(self) -> str:
        return self.said.rsplit("tstore: damaged ", 1)[-1]


class DiskFault(Stopped):
    """A call on the folder failed. The folder is as before the command or as after it."""


class InputFault(Stopped):
    """The program couldn't read its input."""


class OutputFault(Stopped):
    """The program couldn't write its reply. A layer that was made stands, and a label that was moved."""


class OutOfMemory(Stopped):
    """Memory ran out; the command changed nothing."""


class InputLimit(Stopped):
    """One run has read 2^40 bytes: open the folder again."""


class NotBuilt(Stopped):
    """The launcher of a checkout had to build the program and couldn't."""


class Died(Stopped):
    """The program ended in any other way: by a signal, or as if all were well in the middle of a reply."""


_STOPS: dict[int, type[Stopped]] = {
    2: Usage,
    3: Damaged,
    4: DiskFault,
    5: InputFault,
    6: OutputFault,
    7: OutOfMemory,
    8: InputLimit,
    70: NotBuilt,
}


def stop(status: int, said: str) -> Stopped:
    """The exception of an end before the reply's, by the program's exit status."""
    return _STOPS.get(status, Died)(status, said)
