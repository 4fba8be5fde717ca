"""A folder of layers and labels, open in one program."""

from __future__ import annotations

import os
import re
import tempfile
from types import TracebackType
from typing import IO, Iterable, List, NamedTuple, Optional, Union

from .errors import ReadOnly
from .launch import launcher, start
from .listings import Cursor, Listing
from .names import label_name, layer_name, reference, version_number
from .program import Program
from .session import Session
from .terms import BodyLike, TripleLike, Wanted, body_lines, spelled_pattern, spelled_triple

FETCHED_AT_MOST = 65_536
_IN_MEMORY = 8_388_608
_DIGITS = "[0-9a-f]{8}"
_LAYER = re.compile(f"layer ({_DIGITS})")
_LAYERS = re.compile(f"layer ({_DIGITS}) parent (none|{_DIGITS})")
_LABELS = re.compile(f"label (\\S+) ([0-9]+) (none|{_DIGITS})")
_COUNT = re.compile("count ([0-9]+)")
_YES_NO = re.compile("yes|no")


class Layer(NamedTuple):
    """A layer and its parent, None for a base."""

    layer: str
    parent: Optional[str]


class Label(NamedTuple):
    """A label as it stood: its name, its version, and the layer that it names, or None."""

    name: str
    version: int
    layer: Optional[str]


class Store:
    """A store's folder, held by the launcher's lock until `close`.

    A layer is named by its 8 digits, and a `ref` is a layer or `@` and a label's name. Terms and triples are those of `tstore.terms`, or
    strings in any spelling of N-Triples. Refusals, and stops of the program, are exceptions of `tstore.errors`; after a stop the store
    is closed. Threads may share a store: their commands are done one after another. A process that was forked may not."""

    def __init__(
        self, folder: Union[str, os.PathLike[str]], *, read_only: bool = False, wait: bool = True, program: Optional[str] = None
    ) -> None:
        """Opens a folder, which stands. Where another program holds it this one waits, or raises `Held` where `wait` is false. Stores
        that are `read_only` hold it together, and refuse what changes it. The launcher is `program`, else `$TSTORE`, else `tstore` on
        the path."""
        self.folder = os.path.abspath(folder)
        self.read_only = read_only
        self._cursors = 0
        running = Program(start(self.folder, launcher(program), read_only, wait))
        #: The process of the program.
        self.pid = running.pid
        self._session = Session(running)
        # The first reply tells that the folder is open.
        self.labels()

    # Layers

    def base(self, body: BodyLike) -> str:
        """Makes a layer that stands alone, and gives its name. Of a triple that comes more than once the last one decides."""
        return self._make("base", (), body)

    def commit(self, ref: str, add: BodyLike = (), remove: Iterable[TripleLike] = ()) -> str:
        """Makes a child of a layer with these changes, and gives its name. A triple that is in both is added."""
        return self._make(f"commit {reference(ref)}", remove, add)

    def squash(self, ref: str) -> str:
        """Makes a base with the triples of a layer, and gives its name."""
        self._may_change()
        return self._session.ask(f"squash {reference(ref)}", _LAYER)[1]

    def layers(self) -> List[Layer]:
        """All layers, rising."""
        found = self._session.table("layers", _LAYERS)
        return [Layer(it[1], _or_none(it[2])) for it in found]

    def list(self, ref: str, subject: Wanted = None, predicate: Wanted = None, object: Wanted = None) -> Listing:
        """The triples of a layer that fit, in birth order; None fits any term."""
        return self._list(f"list {reference(ref)} {spelled_pattern(subject, predicate, object)}")

    def added(self, layer: str) -> Listing:
        """The triples that a layer adds to its parent; those of a base are all its triples."""
        return self._list(f"added {layer_name(layer)}")

    def removed(self, layer: str) -> Listing:
        """The triples of its parent that a layer removes."""
        return self._list(f"removed {layer_name(layer)}")

    def count(self, ref: str, subject: Wanted = None, predicate: Wanted = None, object: Wanted = None) -> int:
        """How many triples of a layer fit."""
        return int(self._session.ask(f"count {reference(ref)} {spelled_pattern(subject, predicate, object)}", _COUNT)[1])

    def has(self, ref: str, triple: TripleLike) -> bool:
        """Whether a layer has the triple."""
        words = spelled_triple(triple)[: -len(" .")]
        return self._session.ask(f"has {reference(ref)} {words}", _YES_NO)[0] == "yes"

    def cursor(self, ref: str, subject: Wanted = None, predicate: Wanted = None, object: Wanted = None, *, size: int = 1_024) -> Cursor:
        """Opens a cursor over the triples of a layer that fit. It fetches `size` of them at a time, 1 to 65,536."""
        if not 1 <= size <= FETCHED_AT_MOST:
            raise ValueError(f"a cursor fetches 1 to {FETCHED_AT_MOST} triples at a time")
        words = f"{reference(ref)} {spelled_pattern(subject, predicate, object)}"
        self._cursors += 1
        name = f"c{self._cursors}"
        self._session.ask(f"open {name} {words}", re.compile(f"cursor {name} open"))
        return Cursor(self._session, name, size)

    # Labels

    def labels(self) -> List[Label]:
        """All labels, rising by the bytes of their names."""
        found = self._session.table("labels", _LABELS)
        return [Label(it[1], int(it[2]), _or_none(it[3])) for it in found]

    def label(self, name: str) -> Label:
        """A label as it stands."""
        return self._label(f"get {label_name(name)}", name, "[0-9]+", f"none|{_DIGITS}")

    def new_label(self, name: str) -> Label:
        """Makes a label with version 0 that names no layer."""
        self._may_change()
        return self._label(f"new {label_name(name)}", name, "0", "none")

    def set_label(self, name: str, version: int, layer: Optional[str]) -> Label:
        """Lets a label name a layer, or none, from the version that it has; its new version is one more. Where it has another version it
        stays, and `Stale` says which."""
        self._may_change()
        to = "none" if layer is None else layer_name(layer)
        return self._label(f"set {label_name(name)} {version_number(version)} {to}", name, str(version + 1), to)

    # Being open

    def close(self) -> None:
        """Gives the folder free. Open cursors end, and listings that weren't read to their end."""
        self._session.close()

    @property
    def is_closed(self) -> bool:
        """Whether it was closed, or its program has ended."""
        return self._session.is_closed

    def __enter__(self) -> Store:
        return self

    def __exit__(self, kind: Optional[type[BaseException]], error: Optional[BaseException], trace: Optional[TracebackType]) -> None:
        self.close()

    def _may_change(self) -> None:
        if self.read_only:
            raise ReadOnly("this store is open for reading alone")

    def _make(self, command: str, remove: Iterable[TripleLike], add: BodyLike) -> str:
        """Does a command with a body. The body is spelled before the command begins, so a caller's iterator may use this store, or fail."""
        self._may_change()
        with tempfile.SpooledTemporaryFile(_IN_MEMORY) as body:
            for triple in remove:
                body.write(f"- {spelled_triple(triple)}\n".encode())
            for line in body_lines(add):
                body.write(f"{line}\n".encode())
            body.seek(0)
            return self._session.make(command, body, _LAYER)[1]

    def _list(self, command: str) -> Listing:
        return Listing(self._session, self._session.listing(command))

    def _label(self, command: str, name: str, version: str, layer: str) -> Label:
        """Does a command on a label, whose reply is its line with one of these versions and layers."""
        found = self._session.ask(f"label {command}", re.compile(f"label {re.escape(name)} ({version}) ({layer})"))
        return Label(name, int(found[1]), _or_none(found[2]))


def _or_none(layer: str) -> Optional[str]:
    return None if layer == "none" else layer


def open(folder: Union[str, os.PathLike[str]], *, read_only: bool = False, wait: bool = True, program: Optional[str] = None) -> Store:
    """Opens a store's folder; see `Store`."""
    return Store(folder, read_only=read_only, wait=wait, program=program)
