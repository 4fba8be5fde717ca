"""A store of rdflib over a label, or a layer, of a folder: `graph(FOLDER, label=NAME)`. `docs/PYTHON.md` says what rdflib does to terms."""

from __future__ import annotations

import functools
import os
import threading
from typing import Any, Callable, Dict, Iterator, Optional, Tuple, Union

import rdflib
from rdflib.parser import create_input_source
from rdflib.plugins.stores.memory import SimpleMemory
from rdflib.store import VALID_STORE
from rdflib.util import guess_format

from .errors import BadName, BadTerm, Closed, CursorsFull, Held, NoLabel, ReadOnly, Stale
from .listings import Triples
from .store import Label, Store
from .terms import IRI, Blank, Literal, Term, read_canonical, spell

Path = Union[str, "os.PathLike[str]"]
#: The canonical spellings of a triple's terms, which decide whether two triples are one in the store.
Spelled = Tuple[str, str, str]
#: None where any term fits.
Pattern = Tuple[Optional[str], Optional[str], Optional[str]]

# (these are without types in rdflib)
_Store: Any = rdflib.store.Store
_SimpleMemory: Any = SimpleMemory
_BNode: Any = rdflib.BNode
_guess_format: Any = guess_format

rdflib.plugin.register("tstore", rdflib.store.Store, __name__, "LayerStore")


def graph(
    folder: Path,
    *,
    label: Optional[str] = None,
    layer: Optional[str] = None,
    create: bool = False,
    read_only: bool = False,
    wait: bool = True,
    program: Optional[str] = None,
) -> LayerGraph:
    """A graph of the layer that a label names, which reads and writes, or of a layer, which reads. A label that isn't there is made where
    `create` is true. `read_only`, `wait` and `program` are those of `tstore.Store`."""
    if (label is None) == (layer is None):
        raise BadName("a graph is of a label or of a layer")
    store = LayerStore()
    store._open(folder, label, layer, create, read_only, wait, program)
    return LayerGraph(store)


class LayerGraph(rdflib.Graph):
    """A graph of rdflib that takes JSON-LD too: its parser there asks for a store with contexts, so it gets one in memory, and the triples
    of its default graph are added here."""

    def parse(
        self,
        source: Any = None,
        publicID: Optional[str] = None,
        format: Optional[str] = None,
        location: Optional[str] = None,
        file: Any = None,
        data: Any = None,
        **args: Any,
    ) -> LayerGraph:
        text: Any = create_input_source(source, publicID, location, file, data, format)
        name = getattr(getattr(text, "file", None), "name", None)
        form = format or text.content_type or (_guess_format(name) if isinstance(name, str) else None)
        if form not in ("json-ld", "application/ld+json"):
            super().parse(text, format=format, **args)
            return self
        read: Any = rdflib.Graph().parse(text, format=form, **args)
        for prefix, namespace in read.namespaces():
            self.namespace_manager.bind(prefix, namespace)
        for triple in read:
            self.add(triple)
        return self


class LayerStore(rdflib.store.Store):
    """What `graph` stands on; `rdflib.Graph("tstore")` has it too, opened by `FOLDER/@LABEL` or `FOLDER/LAYER`.

    It reads one version of a label, the one that stood when it was opened, committed, rolled back or refreshed. Changes are gathered and
    seen by this graph alone; of a triple the last word decides. `commit` publishes them."""

    context_aware = False
    formula_aware = False
    graph_aware = False
    transaction_aware = True

    def __init__(self, configuration: Optional[str] = None, identifier: Optional[str] = None) -> None:
        self.identifier = identifier
        #: The version of the label that is read; None where the graph is of a layer.
        self.read: Optional[Label] = None
        #: The layer that is read; None where the label names none.
        self.layer: Optional[str] = None
        self._shared: Optional[_Shared] = None
        self._changes = _Changes()
        self._namespaces: Dict[str, Any] = {}
        self._prefixes: Dict[Any, str] = {}
        _Store.__init__(self, configuration)

    # Opening and closing

    def open(self, configuration: str, create: bool = False) -> int:
        folder, _, ref = configuration.rpartition("/")
        label = ref[1:] if ref[:1] == "@" else None
        self._open(folder or ".", label, ref if label is None else None, create, False, True, None)
        return int(VALID_STORE or 0)

    def _open(
        self,
        folder: Path,
        label: Optional[str],
        layer: Optional[str],
        create: bool,
        read_only: bool,
        wait: bool,
        program: Optional[str],
    ) -> None:
        self.close()
        self._shared = _Shared.take(folder, read_only, wait, program)
        try:
            if label is None:
                assert layer is not None
                self.store.count(layer, "<>", "<>", "<>")
                self.layer = layer
            else:
                self._read(label, create)
        except BaseException:
            self.close()
            raise

    def _read(self, name: str, create: bool = False) -> None:
        try:
            label = self.store.label(name)
        except NoLabel:
            if not create:
                raise
            label = self.store.new_label(name)
        if label.layer != self.layer:
            self._changes.forget_below()
        self.read, self.layer = label, label.layer

    @property
    def store(self) -> Store:
        """The open folder, which all graphs of it in this process share."""
        if self._shared is None:
            raise Closed("this graph is closed")
        return self._shared.store

    def close(self, commit_pending_transaction: bool = False) -> None:
        """Gives the folder free, once the last graph of it in this process is closed. Changes that weren't committed are forgotten."""
        if self._shared is None:
            return
        if commit_pending_transaction:
            self.commit()
        shared, self._shared = self._shared, None
        self._changes = _Changes()
        self.read = self.layer = None
        shared.give_back()

    def __del__(self) -> None:
        self.close()

    # Changes

    def add(self, triple: Tuple[Any, Any, Any], context: Any = None, quoted: bool = False) -> None:
        """Adds a triple. `BadTerm` where the store has no words for it, `ReadOnly` where the graph is of a layer."""
        self._may_change()
        if quoted:
            raise BadTerm("the store has no quoted triples")
        self._changes.say(_spelled(triple), True)
        _Store.add(self, triple, context, quoted)

    def remove(self, triple: Tuple[Any, Any, Any], context: Any = None) -> None:
        """Removes the triples that fit."""
        self._may_change()
        pattern = _pattern(triple)
        if pattern:
            for it in list(self._fitting(pattern)):
                self._changes.say(it, False)
        _Store.remove(self, triple, context)

    def _may_change(self) -> None:
        if self.store.read_only or self.read is None:
            raise ReadOnly("this graph is open for reading alone")

    def commit(self) -> None:
        """Publishes the changes as one layer, and moves the label to it from the version that was read. Where nothing changed nothing is
        made. `Stale` where somebody else has moved the label: the changes stay, and `refresh` reads the label anew below them."""
        store = self.store
        if self.read is None or not self._changes.differ(self._has):
            self._changes = _Changes()
            return
        now = store.label(self.read.name)
        if now.version != self.read.version:
            raise Stale(f"stale {now.name} {now.version}")
        added = self._changes.triples(True)
        layer = store.base(added) if self.layer is None else store.commit(self.layer, added, self._changes.triples(False))
        self.read = store.set_label(now.name, now.version, layer)
        self.layer = layer
        self._changes = _Changes()

    def rollback(self) -> None:
        """Forgets the changes, and reads the label anew."""
        self._changes = _Changes()
        self.refresh()

    def refresh(self) -> None:
        """Reads the label anew; changes that aren't committed stay."""
        if self.read:
            self._read(self.read.name)

    # Reading

    def triples(self, triple_pattern: Tuple[Any, Any, Any], context: Any = None) -> Iterator[Tuple[Tuple[Any, Any, Any], Iterator[Any]]]:
        """The triples that fit, those that were added first."""
        pattern = _pattern(triple_pattern)
        if pattern:
            for one, two, three in self._fitting(pattern):
                yield (_from_store(one), _from_store(two), _from_store(three)), iter(())

    def _fitting(self, pattern: Pattern) -> Iterator[Spelled]:
        store, added = self.store, self._changes.fitting(pattern)
        yield from added
        one, two, three = pattern
        if self.layer is None:
            return
        if one and two and three:
            it = (one, two, three)
            if it not in self._changes.words and self._has(it):
                yield it
            return
        for piece in _listing(store, self.layer, pattern).pieces():
            for line in piece.decode().split("\n")[:-1]:
                one, two, three = line[: -len(" .")].split(" ", 2)
                it = (one, two, three)
                if self._changes.words.get(it) is not False and it not in added:
                    yield it

    def _has(self, triple: Spelled) -> bool:
        """Whether the layer has the triple."""
        store = self.store
        return self.layer is not None and store.has(self.layer, triple)

    def __len__(self, context: Any = None) -> int:
        store = self.store
        stood = 0 if self.layer is None else store.count(self.layer)
        return stood + self._changes.growth(self._has)

    # Prefixes, which are no part of the store's folder

    def bind(self, prefix: str, namespace: Any, override: bool = True) -> None:
        if not override and (prefix in self._namespaces or namespace in self._prefixes):
            return
        self._namespaces[prefix] = namespace
        self._prefixes[namespace] = prefix

    def namespace(self, prefix: str) -> Any:
        return self._namespaces.get(prefix)

    def prefix(self, namespace: Any) -> Optional[str]:
        return self._prefixes.get(namespace)

    def namespaces(self) -> Iterator[Tuple[str, Any]]:
        yield from list(self._namespaces.items())


def _listing(store: Store, layer: str, pattern: Pattern) -> Triples:
    """A cursor; where all are open already, a listing, which is read whole once another command comes."""
    try:
        return store.cursor(layer, *pattern)
    except CursorsFull:
        return store.list(layer, *pattern)


class _Changes:
    """The last word on each triple that was added or removed. The added ones are in an index of rdflib's, and of each triple it is asked
    once whether the layer below has it."""

    def __init__(self) -> None:
        self.words: Dict[Spelled, bool] = {}
        self._added: Any = _SimpleMemory()
        self._stood: Dict[Spelled, bool] = {}
        self._growth = 0

    def say(self, triple: Spelled, stands: bool) -> None:
        before = self.words.get(triple)
        if before is stands:
            return
        self.words[triple] = stands
        if triple in self._stood:
            self._growth += stands - bool(before)
        if stands:
            self._added.add(triple, None)
        else:
            self._added.remove(triple)

    def triples(self, stands: bool) -> Iterator[Spelled]:
        return (it for it, word in self.words.items() if word is stands)

    def fitting(self, pattern: Pattern) -> Dict[Spelled, None]:
        """The added triples that fit."""
        return {it: None for it, _ in self._added.triples(pattern)}

    def growth(self, has: Callable[[Spelled], bool]) -> int:
        """By how many triples the layer below would grow. `has` says whether that has a triple."""
        for it in self.words.keys() - self._stood.keys():
            self._weigh(it, has)
        return self._growth

    def differ(self, has: Callable[[Spelled], bool]) -> bool:
        """Whether any word isn't what the layer below says."""
        return any(stands != self._weigh(it, has) for it, stands in self.words.items())

    def forget_below(self) -> None:
        """Says that the layer below is another."""
        self._stood.clear()
        self._growth = 0

    def _weigh(self, triple: Spelled, has: Callable[[Spelled], bool]) -> bool:
        """Whether the layer below has a triple that there is a word on."""
        stood = self._stood.get(triple)
        if stood is None:
            stood = self._stood[triple] = has(triple)
            self._growth += self.words[triple] - stood
        return stood


class _Shared:
    """An open folder and how many graphs of this process use it."""

    _open: Dict[Tuple[str, int], _Shared] = {}
    _lock = threading.RLock()

    def __init__(self, key: Tuple[str, int], store: Store) -> None:
        self._key = key
        self.store = store
        self._users = 0

    @classmethod
    def take(cls, folder: Path, read_only: bool, wait: bool, program: Optional[str]) -> _Shared:
        key = (os.path.realpath(folder), os.getpid())
        with cls._lock:
            found = cls._open.get(key)
            if found and found.store.is_closed:
                found = None
            if found and found.store.read_only and not read_only:
                raise Held("a graph of this process has the folder open for reading alone: close it first")
            if not found:
                found = cls._open[key] = _Shared(key, Store(folder, read_only=read_only, wait=wait, program=program))
            found._users += 1
            return found

    def give_back(self) -> None:
        with self._lock:
            self._users -= 1
            if not self._users:
                if self._open.get(self._key) is self:
                    del self._open[self._key]
                self.store.close()


def _to_store(term: Any) -> Term:
    """The store's term of one of rdflib's. `BadTerm` where there is none."""
    if isinstance(term, rdflib.URIRef):
        return IRI(str(term))
    if isinstance(term, rdflib.BNode):
        return Blank(str(term))
    if isinstance(term, rdflib.Literal):
        datatype = None if term.datatype is None else str(term.datatype)
        return Literal(str(term), datatype, term.language)
    raise BadTerm(f"the store has no {type(term).__name__}")


def _spelled(triple: Tuple[Any, Any, Any]) -> Spelled:
    subject, predicate, object = map(_to_store, triple)
    if isinstance(subject, Literal) or not isinstance(predicate, IRI):
        raise BadTerm("a subject is no literal, and a predicate is an IRI")
    return spell(subject), spell(predicate), spell(object)


def _pattern(triple: Tuple[Any, Any, Any]) -> Optional[Pattern]:
    """The pattern of one of rdflib's; None where no triple of the store fits it."""
    try:
        subject, predicate, object = (None if it is None else _to_store(it) for it in triple)
        if isinstance(subject, Literal) or not isinstance(predicate, (IRI, type(None))):
            return None
        one, two, three = (None if it is None else spell(it) for it in (subject, predicate, object))
        return one, two, three
    except BadTerm:
        return None


def _from_store(text: str) -> Any:
    """The term of rdflib that says what a canonical spelling does."""
    return _iri(text) if text[0] == "<" else _other(text)


@functools.lru_cache(4_096)
def _iri(text: str) -> rdflib.URIRef:
    it = read_canonical(text)
    assert isinstance(it, IRI)
    return rdflib.URIRef(it.value)


def _other(text: str) -> Any:
    it = read_canonical(text)
    if isinstance(it, Blank):
        return _BNode(it.label)
    assert isinstance(it, Literal)
    datatype = None if it.datatype is None else rdflib.URIRef(it.datatype)
    made = rdflib.Literal(it.value, lang=it.language, datatype=datatype, normalize=False)
    if str(made) == it.value:
        return made
    # rdflib collapses blanks of xsd:token and xsd:normalizedString, whatever it is told.
    kept = str.__new__(rdflib.Literal, it.value)
    kept._language, kept._datatype, kept._value = it.language, datatype, made.value
    return kept
