"""A worker: a process that does what one request asks, at a time, and can reach nothing but the server.

It has a limit of memory, can open no file and no socket any more, and ends with the server. An audit hook sees what tries to."""

from __future__ import annotations

import ctypes
import gc
import logging
import os
import re
import resource
import signal
import socket
import sys
import warnings
from typing import Any, Callable, Optional

import rdflib
from rdflib import Graph

from . import results
from .bodies import lines_in
from .formats import RESULTS
from .frames import Channel, Head
from .graphs import Gone, Layer, Listing, Overlay
from .mended import mend
from .problems import Problem
from .query import answer
from .update import update

_ENDS_WITH_PARENT = 1
_RECURSION = 3_000
_NEAR = 24 << 20
_REACHES = re.compile(
    r"open|import|os\.|socket\.|subprocess\.|urllib\.|http\.|ftplib\.|ctypes\.|shutil\.|glob\.|tempfile\.|pty\.|mmap\.|sqlite3\.|fcntl\.|syslog\."
)

_EACH_KIND = """SELECT ?o (UUID() AS ?u) (NOW() AS ?n) (RAND() AS ?r) (MD5('a') AS ?m) (SHA512('a') AS ?h) (ENCODE_FOR_URI('a b') AS ?e)
    WHERE { ?s <u:b> ?o FILTER(REGEX(STR(?o), 'a')) }"""

# What the request in hand tried to reach, as an event of Python's audit.
_reached: list[str] = []
_warm: list[bool] = []


def _audit(event: str, _: Any) -> None:
    if _REACHES.match(event):
        _reached.append(event)
        raise PermissionError("a worker reaches nothing")


def run(end: socket.socket, megabytes: int) -> None:
    """The life of a worker, at its end of a pair of sockets."""
    channel = Channel(end.detach())
    if not _warm:
        # (the process that it was forked from couldn't import it, as where the package is found by the current folder alone)
        warm_up()
    status = os.open("/proc/self/status", os.O_RDONLY)
    rest = _bytes(status, b"VmSize")
    limit = rest + (megabytes << 20)
    _limit(limit)
    sys.addaudithook(_audit)
    channel.send({"ready": True})
    layer: Optional[Layer] = None
    while (job := channel.receive()) is not None:
        head, body = job
        _reached.clear()
        if layer is None or layer.name != head["layer"]:
            layer = Layer(channel, head["layer"])
        layer.begin()
        try:
            said, told = _done(layer, head, body)
        except Gone:
            return
        # An error for want of memory may have been taken for another one on its way up.
        if said.get("cause") == "memory" or _bytes(status, b"VmPeak") > limit - _NEAR:
            said, told = _memory(), b""
        if _reached:
            said, told = _problem(Problem(400, "refused", "the request reaches for what is outside of its graph")), b""
        gc.collect()
        # Another request is to have what this one had: a worker that keeps half of it ends.
        said["ends"] = said.get("cause") == "memory" or bool(_reached) or _bytes(status, b"VmSize") - rest > megabytes << 19
        channel.send(said, told)
        if said["ends"]:
            return


def _limit(memory: int) -> None:
    for signal_number in (signal.SIGINT, signal.SIGTERM):
        signal.signal(signal_number, signal.SIG_IGN)
    ctypes.CDLL(None).prctl(_ENDS_WITH_PARENT, signal.SIGKILL)
    sys.setrecursionlimit(_RECURSION)
    resource.setrlimit(resource.RLIMIT_AS, (memory, memory))
    for nothing in (resource.RLIMIT_NOFILE, resource.RLIMIT_CORE, resource.RLIMIT_FSIZE):
        resource.setrlimit(nothing, (0, 0))


def warm_up() -> None:
    """Does each kind of work once, so that whatever Python opens for it is open before nothing can be; in the process that workers are
    forked from."""
    # A literal that isn't one of its type is nothing to be told of: the store keeps it as it is.
    logging.getLogger("rdflib").setLevel(logging.ERROR)
    warnings.simplefilter("ignore")
    rdflib.NORMALIZE_LITERALS = False
    mend()
    graph = Graph()
    for form, body in (("ttl", b'@prefix x: <u:> . x:a x:b "c"@en, 1, 2.0, true .'), ("jsonld", b'{"@id": "u:a", "u:b": "c"}')):
        for line in lines_in(body, form, "u:"):
            results.graph([line], form)
    update(graph, 'INSERT DATA { <u:a> <u:b> "2020-01-01T00:00:00Z"^^<http://www.w3.org/2001/XMLSchema#dateTime>, "a" }')
    for table in RESULTS:
        answer(graph, _EACH_KIND, table.media)
    answer(graph, "DESCRIBE <u:a>", "text/turtle")
    _warm.append(True)
    # What stands now stays: no collection looks at it again, and forked workers share it.
    gc.collect()
    gc.freeze()


def _bytes(status: int, name: bytes) -> int:
    """A number of bytes of this process, of those that Linux tells under /proc/self/status."""
    found = re.search(name + rb":\s+(\d+) kB", os.pread(status, 8_192, 0))
    return int(found[1]) * 1024 if found else 0


def _memory() -> Head:
    return _problem(Problem(503, "memory", "the request wants more memory than it may have"))


def _problem(problem: Problem) -> Head:
    return {"status": problem.status, "cause": problem.cause, "says": problem.says}


def _done(layer: Layer, head: Head, body: bytes) -> tuple[Head, bytes]:
    """What is said of a job, and its bytes."""
    try:
        return _KINDS[head["kind"]](layer, head, body)
    except Problem as problem:
        return _problem(problem), b""
    except MemoryError:
        return _memory(), b""
    except RecursionError:
        return _problem(Problem(400, "too-deep", "the request is nested too deeply")), b""
    except Gone:
        raise
    except Exception as error:
        print(f"tstore.serve: a worker met {type(error).__name__}", file=sys.stderr, flush=True)
        return _problem(Problem(500, "no-answer", "the request can't be evaluated")), b""


def _text(body: bytes) -> str:
    try:
        return body.decode()
    except UnicodeDecodeError:
        raise Problem(400, "malformed", "the request isn't UTF-8") from None


def _query(layer: Layer, head: Head, body: bytes) -> tuple[Head, bytes]:
    said = answer(Graph(store=Overlay(layer)), _text(body), head["accept"], head.get("most"))
    return {"status": 200, "media": said.media, "form": said.form, "changes": said.changes, "total": said.total}, said.body


def _graph(layer: Layer, head: Head, body: bytes) -> tuple[Head, bytes]:
    """A listing that isn't N-Triples."""
    lines = list(Listing(layer, head["listing"]).lines())
    return {"status": 200}, results.graph(lines, head["form"])


def _changed(added: list[str], removed: list[str]) -> tuple[Head, bytes]:
    """The net change as the lines of a body of `commit`."""
    lines = [f"- {line}\n" for line in removed] + [f"+ {line}\n" for line in added]
    return {"status": 200, "changes": len(lines)}, "".join(lines).encode()


def _update(layer: Layer, head: Head, body: bytes) -> tuple[Head, bytes]:
    store = Overlay(layer)
    update(Graph(store=store), _text(body))
    return _changed(list(store.added), list(store.removed))


def _put(layer: Layer, head: Head, body: bytes) -> tuple[Head, bytes]:
    """The net change from the layer to a graph."""
    wanted = dict.fromkeys(lines_in(body, head["form"], head["base"]))
    removed = []
    for line in layer.lines():
        if line in wanted:
            del wanted[line]
        else:
            removed.append(line)
    return _changed(list(wanted), removed)


def _post(layer: Layer, head: Head, body: bytes) -> tuple[Head, bytes]:
    """The triples of a graph that the layer lacks."""
    return _changed(layer.lacking(lines_in(body, head["form"], head["base"])), [])


_KINDS: dict[str, Callable[[Layer, Head, bytes], tuple[Head, bytes]]] = {
    "query": _query,
    "graph": _graph,
    "update": _update,
    "put": _put,
    "post": _post,
}
