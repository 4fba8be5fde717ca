"""Races, and deaths at any moment: each move that was told stands, versions have no gap, and nothing of a dead server stays."""

from __future__ import annotations

import json
import os
import random
import signal
import socket
import subprocess
import threading
import time
from pathlib import Path

import pytest
import tstore
from conftest import Server, make_cafes

NT = "application/n-triples"
GRAPH = "/labels/main/graph"
WRITERS, KILLS = 20, int(os.environ.get("KILLS", "50"))


class Writers:
    """Writers who add a triple each time, under the version that they know, by HTTP; one of them by the shell's program."""

    def __init__(self, server: Server) -> None:
        self.server = server
        self.told: dict[int, str] = {}
        self.lost = 0
        self.faults: list[str] = []
        self.ends = threading.Event()
        self._turn = threading.Lock()
        self._threads = [threading.Thread(target=self._write, args=(it,)) for it in range(WRITERS)] + [
            threading.Thread(target=self._write_by_shell)
        ]

    def __enter__(self) -> Writers:
        for it in self._threads:
            it.start()
        return self

    def __exit__(self, *_: object) -> None:
        self.ends.set()
        for it in self._threads:
            it.join()

    def _tell(self, version: int, line: str) -> None:
        with self._turn:
            if version in self.told:
                self.faults.append(f"version {version} was told twice: {self.told[version]} and {line}")
            self.told[version] = line

    def _write(self, writer: int) -> None:
        version, number = 1, 0
        while not self.ends.is_set():
            number += 1
            line = f"<u:w{writer}> <u:n> <u:{number}> ."
            reply = self.server.change("POST", GRAPH, line.encode(), f'"{version}"', NT)
            if reply.status == 200:
                version = json.loads(reply.body)["version"]
                self._tell(version, line)
            elif reply.status == 412:
                self.lost += 1
                version = int(reply.headers["etag"].strip('"'))
            elif reply.status not in (0, 503):
                self.faults.append(f"{reply.status} {reply.text[:300]}")
            else:
                time.sleep(0.1)

    def _write_by_shell(self) -> None:
        number = 0
        while not self.ends.is_set():
            number += 1
            line = f"<u:shell> <u:n> <u:{number}> ."
            with tstore.open(self.server.folder) as store:
                label = store.label("main")
                layer = store.commit("@main", line + "\n")
                self._tell(store.set_label("main", label.version, layer).version, line)
            time.sleep(0.3)

    def check(self, is_whole: bool) -> None:
        """Each told move is there, under its version: the label's versions and its layers, one to each, have no gap."""
        assert not self.faults, "\n".join(self.faults[:10] + [self.server.said])
        with tstore.open(self.server.folder) as store:
            label = store.label("main")
            parents = {it.layer: it.parent for it in store.layers()}
            chain = [label.layer]
            while (parent := parents[str(chain[-1])]) is not None:
                chain.append(parent)
            chain.reverse()
            # Version 1 names the second layer of the chain, and each move added one.
            assert len(chain) == label.version + 1
            for version, line in self.told.items():
                assert [str(it) for it in store.added(str(chain[version]))] == [line], version
            if is_whole:
                assert sorted(self.told) == list(range(2, label.version + 1))


@pytest.fixture
def server(tmp_path: Path) -> Server:
    make_cafes(tmp_path / "cafes")
    return Server(tmp_path / "cafes", "--workers", "3")


def test_twenty_writers_race(server: Server) -> None:
    with Writers(server) as writers:
        time.sleep(20)
    writers.check(is_whole=True)
    assert len(writers.told) > 10 and writers.lost > 10
    assert server.is_well()
    server.end()
    assert not list((server.folder / ".serve").iterdir())


def test_killed_while_they_race(server: Server) -> None:
    chance = random.Random(3)
    with Writers(server) as writers:
        for _ in range(KILLS):
            time.sleep(chance.uniform(0.05, 0.6))
            workers = members(server)
            server.kill()
            assert_gone(workers)
            server.start()
        time.sleep(2)
    writers.check(is_whole=False)
    assert len(writers.told) > 5
    server.end()
    assert not list((server.folder / ".serve").iterdir())


def members(server: Server) -> list[int]:
    """The processes that the server started, and theirs."""
    parents = {}
    for name in os.listdir("/proc"):
        if name.isdigit():
            try:
                parents[int(name)] = int(Path(f"/proc/{name}/stat").read_text().rpartition(")")[2].split()[1])
            except (OSError, IndexError):
                pass
    found = [server.process.pid]
    for it in found:
        found += [child for child, parent in parents.items() if parent == it]
    return found[1:]


def assert_gone(processes: list[int]) -> None:
    """That processes end within seconds of their server."""
    until = time.monotonic() + 5
    while left := [it for it in processes if os.path.exists(f"/proc/{it}")]:
        assert time.monotonic() < until, [Path(f"/proc/{it}/cmdline").read_bytes() for it in left]
        time.sleep(0.02)


def test_it_ends_within_ten_seconds(server: Server) -> None:
    """Told to, while a query runs that would take for ever and a client doesn't read."""
    slow = socket.create_connection(("127.0.0.1", server.port))
    slow.sendall(f"GET {GRAPH} HTTP/1.1\r\nHost: 127.0.0.1:{server.port}\r\n".encode())
    product = "SELECT (COUNT(*) AS ?n) { ?a ?b ?c . ?d ?e ?f . ?g ?h ?i . ?j ?k ?l . ?m ?n0 ?o }"
    asking = subprocess.Popen(
        ["curl", "-s", "-G", "--data-urlencode", f"query={product}", f"{server.url}/labels/main/sparql"], stdout=subprocess.DEVNULL
    )
    time.sleep(1)
    processes = members(server)
    started = time.monotonic()
    server.process.send_signal(signal.SIGTERM)
    assert server.process.wait(15) is not None
    assert time.monotonic() - started < 12
    assert_gone(processes)
    asking.wait()
    slow.close()
    with tstore.open(server.folder, wait=False) as store:
        assert store.label("main").version == 1


def test_a_running_request_is_done_at_the_end(server: Server) -> None:
    """What was begun when the server was told to end is answered."""
    product = "SELECT (COUNT(*) AS ?n) { ?a ?b ?c . ?d ?e ?f }"
    asking = subprocess.Popen(
        ["curl", "-s", "-G", "--data-urlencode", f"query={product}", f"{server.url}/labels/main/sparql"], stdout=subprocess.PIPE
    )
    time.sleep(0.15)
    server.process.send_signal(signal.SIGTERM)
    told = asking.communicate()[0]
    assert not told or json.loads(told)["results"]["bindings"] or json.loads(told)["status"] == 503
    server.process.wait(15)


def test_a_listing_that_fails_is_cut(tmp_path: Path) -> None:
    """It has no last chunk where its reader dies in the middle of it, nor where its client takes too long."""
    folder = tmp_path / "large"
    folder.mkdir()
    with tstore.open(folder) as store:
        layer = store.base(
            "".join(
                f"<http://example.org/subject/{it}> <http://example.org/predicate> <http://example.org/object/{it}> .\n"
                for it in range(40_000)
            )
        )
    for words, kill in ((("--readers", "1"), True), (("--listing-seconds", "3"), False)):
        server = Server(folder, *words)
        with socket.create_connection(("127.0.0.1", server.port)) as client:
            client.setsockopt(socket.SOL_SOCKET, socket.SO_RCVBUF, 4096)
            client.settimeout(30)
            client.sendall(f"GET /layers/{layer}/graph HTTP/1.1\r\nHost: 127.0.0.1:{server.port}\r\n\r\n".encode())
            told = client.recv(1000)
            assert told.startswith(b"HTTP/1.1 200")
            if kill:
                kill_readers(server)
            else:
                time.sleep(5)
            try:
                while piece := client.recv(65536):
                    told += piece
            except ConnectionResetError:
                pass
        assert not told.endswith(b"0\r\n\r\n") and len(told) < 5_000_000
        server.curl("/labels")
        assert server.is_well()
        if kill:
            assert len(server.curl(f"/layers/{layer}/graph").lines) == 40_000
        server.end()


def kill_readers(server: Server) -> None:
    for pid in members(server):
        if b"tstore\x00run" in Path(f"/proc/{pid}/cmdline").read_bytes():
            os.kill(pid, signal.SIGKILL)


def test_a_reader_that_dies_is_replaced(server: Server) -> None:
    kill_readers(server)
    statuses = [server.curl(GRAPH).status for _ in range(4)]
    assert statuses[-1] == 200 and set(statuses) <= {200, 503}, statuses
    server.end()
