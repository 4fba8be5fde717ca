"""A client of tstore, a store of RDF triples in immutable layers: it drives `tstore run` through a pipe.

    with tstore.open("folder") as store:
        layer = store.base("<a> <p> <b> .")
        for triple in store.list(layer): ...

`docs/PYTHON.md` is its manual, `docs/COMMANDS.md` that of the commands. `tstore.rdflib` is a store of rdflib over it."""

from .errors import (
    BadCommand,
    BadName,
    BadReply,
    BadTerm,
    BadTriple,
    Closed,
    CursorsFull,
    CursorTaken,
    Damaged,
    Died,
    DiskFault,
    EmptyLabel,
    Error,
    Full,
    Held,
    InputFault,
    InputLimit,
    LabelExists,
    NoCursor,
    NoLabel,
    NoLayer,
    NoProgram,
    NotBuilt,
    OutOfMemory,
    OutputFault,
    ReadOnly,
    Refused,
    Stale,
    Stopped,
    TooLong,
    Unfinished,
    Usage,
    VersionEnd,
)
from .listings import Cursor, Listing, Triples
from .store import Label, Layer, Store, open
from .terms import IRI, Blank, Change, Literal, Term, Triple, read, read_term, spell
