"""Tests of the endpoint, outside the gate: a server of its own on folders of its own, and clients that aren't ours.

    apt-get install python3-starlette python3-uvicorn python3-rdflib python3-jinja2 python3-pytest python3-selenium chromium \
        chromium-driver python3-sparqlwrapper rasqal-utils raptor2-utils curl
    /usr/bin/python3 -m pytest -q test/serve

It takes some minutes. The launcher is $TSTORE, else `tstore` of this checkout. Screenshots are kept in test/serve/pictures, or $PICTURES.
"""

from __future__ import annotations

import json
import os
import re
import signal
import subprocess
import sys
import tempfile
import time
from pathlib import Path
from typing import Any, Iterator, NamedTuple, Optional

import pytest

HOME = Path(__file__).resolve().parents[2]
PACKAGE = HOME / "clients" / "python"
TOKEN = "a-token-for-tests-0123456789"
os.environ.setdefault("TSTORE", str(HOME / "tstore"))
sys.path[:0] = [str(PACKAGE), str(Path(__file__).parent)]

import tstore  # noqa: E402

XSD = "http://www.w3.org/2001/XMLSchema#"


class Reply(NamedTuple):
    """What curl said of a request."""

    status: int
    headers: dict[str, str]
    body: bytes

    @property
    def text(self) -> str:
        return self.body.decode()

    @property
    def cause(self) -> str:
        return str(json.loads(self.body)["title"])

    @property
    def lines(self) -> list[str]:
        return sorted(self.text.splitlines())


class Server:
    """A running server."""

    def __init__(self, folder: Path, *words: str, tokens: Optional[str] = TOKEN) -> None:
        self.folder = folder
        self.words = list(words)
        if tokens is not None:
            file = folder.parent / f"{folder.name}.tokens"
            file.write_text(tokens + "\n")
            file.chmod(0o600)
            self.words += ["--write", str(file)]
        self.port = 0
        self.start()

    def start(self) -> None:
        """Starts it, at the port that it had where it had one."""
        self.log = tempfile.TemporaryFile("w+")
        at = f"127.0.0.1:{self.port}"
        command = [sys.executable, "-m", "tstore.serve", str(self.folder), "--at", at, *self.words]
        environment = {**os.environ, "PYTHONPATH": str(PACKAGE), "PYTHONFAULTHANDLER": "1"}
        self.process = subprocess.Popen(command, stderr=self.log, env=environment, start_new_session=True)
        until = time.monotonic() + 180
        while not (found := re.search(r"http://[^/]*:(\d+)/ serves", self.said)):
            assert self.process.poll() is None and time.monotonic() < until, self.said
            time.sleep(0.05)
        self.port = int(found[1])

    @property
    def said(self) -> str:
        self.log.seek(0)
        return self.log.read()

    @property
    def url(self) -> str:
        return f"http://127.0.0.1:{self.port}"

    def curl(self, path: str, *words: str, sent: Optional[bytes] = None) -> Reply:
        """A request by curl."""
        command = ["curl", "-s", "-i", "-m", "60", "--path-as-is", *words, self.url + path]
        if sent is not None:
            command[1:1] = ["--data-binary", "@-"]
        told = subprocess.run(command, input=sent if sent is not None else b"", stdout=subprocess.PIPE).stdout
        while told.startswith(b"HTTP/1.1 100"):
            told = told.partition(b"\r\n\r\n")[2]
        head, _, body = told.partition(b"\r\n\r\n")
        if not head:
            return Reply(0, {}, b"")
        first, *rest = head.decode("latin-1").split("\r\n")
        headers = {name.strip().lower(): value.strip() for name, _, value in (it.partition(":") for it in rest)}
        return Reply(int(first.split()[1]), headers, body)

    def change(
        self,
        method: str,
        path: str,
        sent: Optional[bytes] = None,
        version: Optional[str] = None,
        media: Optional[str] = None,
        token: str = TOKEN,
    ) -> Reply:
        """A change by curl."""
        words = ["-X", method, "-H", f"Authorization: Bearer {token}"]
        if version is not None:
            words += ["-H", f"If-Match: {version}"]
        if media is not None:
            words += ["-H", f"Content-Type: {media}"]
        return self.curl(path, *words, sent=sent)

    def ask(self, path: str, query: str, accept: str = "*/*") -> Reply:
        """A query by GET."""
        return self.curl(path + "/sparql", "-G", "-H", f"Accept: {accept}", "--data-urlencode", f"query={query}")

    def is_well(self) -> bool:
        """Whether the next request is answered."""
        return self.curl("/labels").status == 200

    def kill(self) -> None:
        self.process.kill()
        self.process.wait()

    def end(self) -> None:
        if self.process.poll() is None:
            self.process.send_signal(signal.SIGTERM)
            try:
                self.process.wait(20)
            except subprocess.TimeoutExpired:
                self.process.send_signal(signal.SIGABRT)
                self.process.wait()
                raise AssertionError(f"the server didn't end: {self.said}") from None
        self.log.close()


CAFES = (Path(__file__).parent / "cafes.nt").read_text()


def make_cafes(folder: Path) -> None:
    """A folder with two versions of a graph: layer 1 has all of cafes.nt, layer 2 a little less and more; the label main is on it."""
    folder.mkdir()
    gone = [line for line in CAFES.splitlines() if "/tivoli>" in line]
    with tstore.open(folder) as store:
        store.base(CAFES)
        store.commit(
            "00000001",
            '<http://example.org/new> <http://example.org/said> "<script>alert(1)</script>" .\n',
            gone and [tuple_of(it) for it in gone],
        )
        store.new_label("main")
        store.set_label("main", 0, "00000002")
        store.new_label("empty")
        store.new_label("100%#?&+'x")
        store.set_label("100%#?&+'x", 0, "00000001")


def tuple_of(line: str) -> Any:
    return next(iter(tstore.terms.read(line + "\n"))).triple


@pytest.fixture(scope="module")
def cafes(tmp_path_factory: Any) -> Iterator[Server]:
    """A server on the graph of cafes that nobody changes."""
    folder = tmp_path_factory.mktemp("serve") / "cafes"
    make_cafes(folder)
    server = Server(folder, "--seconds", "20")
    yield server
    server.end()


@pytest.fixture
def changed(tmp_path: Path) -> Iterator[Server]:
    """A server on a graph of cafes of one test's own."""
    make_cafes(tmp_path / "cafes")
    server = Server(tmp_path / "cafes")
    yield server
    server.end()
