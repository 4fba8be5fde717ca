"""Requests that mean no good: each has its status, none a trace of Python in its answer, and the next request is answered."""

from __future__ import annotations

import json
import os
import random
import socket
import subprocess
import time
from concurrent.futures import ThreadPoolExecutor
from pathlib import Path
from typing import Iterator

import pytest
from conftest import TOKEN, Server, make_cafes

NT, TURTLE, JSON_LD, UPDATE = "application/n-triples", "text/turtle", "application/ld+json", "application/sparql-update"
GRAPH = "/labels/main/graph"


@pytest.fixture(scope="module")
def server(tmp_path_factory: pytest.TempPathFactory) -> Iterator[Server]:
    folder = tmp_path_factory.mktemp("hostile") / "cafes"
    make_cafes(folder)
    server = Server(folder, "--seconds", "6", "--megabytes", "200", "--workers", "4")
    yield server
    said = server.said
    server.end()
    assert "Traceback" not in said, said


@pytest.fixture(autouse=True)
def goes_on(server: Server) -> Iterator[None]:
    yield
    assert server.curl(GRAPH).status == 200 and server.ask("/labels/main", "ASK { }").status == 200


class Trap:
    """A listening socket that nobody may come to."""

    def __enter__(self) -> Trap:
        self.socket = socket.create_server(("127.0.0.1", 0))
        self.socket.settimeout(0.05)
        self.url = f"http://127.0.0.1:{self.socket.getsockname()[1]}/x"
        return self

    def __exit__(self, *_: object) -> None:
        with pytest.raises(TimeoutError):
            self.socket.accept()
        self.socket.close()


def raw(server: Server, sent: bytes, seconds: float = 20.0, cut: bool = False) -> bytes:
    """What comes for bytes that are sent as they are."""
    with socket.create_connection(("127.0.0.1", server.port), timeout=seconds) as connection:
        connection.sendall(sent)
        if cut:
            connection.shutdown(socket.SHUT_WR)
        told = b""
        try:
            while piece := connection.recv(65536):
                told += piece
        except (TimeoutError, ConnectionResetError):
            pass
        return told


def request(server: Server, line: str, *headers: str, body: bytes = b"") -> bytes:
    host = f"Host: 127.0.0.1:{server.port}"
    return "\r\n".join([line, host, "Connection: close", *headers, "", ""]).encode("latin-1") + body


def test_queries_reach_nothing(server: Server, tmp_path: Path) -> None:
    secret = tmp_path / "secret.ttl"
    secret.write_text("<u:secret> <u:secret> <u:secret> .")
    with Trap() as trap:
        for place in (trap.url, secret.as_uri(), str(secret)):
            for query in (
                f"SELECT * {{ SERVICE <{place}> {{ ?s ?p ?o }} }}",
                f"SELECT * {{ SERVICE SILENT <{place}> {{ ?s ?p ?o }} }}",
                f"SELECT * {{ ?s ?p ?o FILTER EXISTS {{ SERVICE <{place}> {{ ?s ?p ?o }} }} }}",
                f"SELECT * {{ ?s ?p ?o FILTER NOT EXISTS {{ ?s ?p ?o OPTIONAL {{ SERVICE <{place}> {{ ?s ?p ?o }} }} }} }}",
                f"SELECT (EXISTS {{ SERVICE <{place}> {{ ?s ?p ?o }} }} AS ?x) {{ }}",
                f"SELECT * {{ ?x ?y ?z BIND(IF(EXISTS {{ SERVICE <{place}> {{ ?s ?p ?o }} }}, 1, 2) AS ?a) }}",
                f"SELECT * {{ {{ SELECT ?s {{ SERVICE <{place}> {{ ?s ?p ?o }} }} }} }}",
                f"SELECT * {{ ?a ?b ?c }} ORDER BY EXISTS {{ SERVICE <{place}> {{ ?s ?p ?o }} }}",
                f"SELECT (COUNT(*) AS ?n) {{ ?a ?b ?c }} GROUP BY ?a HAVING(EXISTS {{ SERVICE <{place}> {{ ?s ?p ?o }} }})",
                f"SELECT * FROM <{place}> {{ ?s ?p ?o }}",
                f"SELECT * FROM NAMED <{place}> {{ ?s ?p ?o }}",
                f"ASK FROM <{place}> {{ ?s ?p ?o }}",
                f"CONSTRUCT {{ ?s ?p ?o }} FROM <{place}> WHERE {{ ?s ?p ?o }}",
                f"CONSTRUCT FROM <{place}> WHERE {{ ?s ?p ?o }}",
                f"DESCRIBE <u:x> FROM <{place}>",
                f"DESCRIBE ?s FROM <{place}> WHERE {{ ?s ?p ?o }}",
                f"DESCRIBE ?s WHERE {{ SERVICE <{place}> {{ ?s ?p ?o }} }}",
                f"SELECT * {{ GRAPH <{place}> {{ ?s ?p ?o }} }}",
                "SELECT * { GRAPH ?g { ?s ?p ?o } }",
            ):
                reply = server.ask("/labels/main", query)
                assert (reply.status, reply.cause) == (400, "refused"), (query, reply.text)


def test_updates_reach_nothing(server: Server, tmp_path: Path) -> None:
    secret = tmp_path / "secret.ttl"
    secret.write_text("<u:secret> <u:secret> <u:secret> .")
    with Trap() as trap:
        for place in (trap.url, secret.as_uri()):
            for text in (
                f"LOAD <{place}>",
                f"LOAD SILENT <{place}>",
                f"LOAD SILENT <{place}> INTO GRAPH <u:x>",
                f"INSERT DATA {{ <u:a> <u:b> <u:c> }} ; LOAD SILENT <{place}>",
                f"INSERT {{ ?s ?p ?o }} USING <{place}> WHERE {{ ?s ?p ?o }}",
                f"DELETE {{ ?s ?p ?o }} USING NAMED <{place}> WHERE {{ ?s ?p ?o }}",
                f"WITH <{place}> INSERT {{ ?s ?p ?o }} WHERE {{ ?s ?p ?o }}",
                f"INSERT {{ ?s ?p ?o }} WHERE {{ SERVICE <{place}> {{ ?s ?p ?o }} }}",
                f"INSERT {{ ?s ?p ?o }} WHERE {{ ?s ?p ?o FILTER EXISTS {{ SERVICE SILENT <{place}> {{ ?s ?p ?o }} }} }}",
                f"INSERT DATA {{ GRAPH <{place}> {{ <u:a> <u:b> <u:c> }} }}",
                f"DELETE WHERE {{ GRAPH <{place}> {{ ?s ?p ?o }} }}",
                f"ADD <{place}> TO DEFAULT",
                f"COPY SILENT <{place}> TO DEFAULT",
                f"MOVE <{place}> TO DEFAULT",
                f"CREATE GRAPH <{place}>",
                f"CLEAR GRAPH <{place}>",
                f"DROP SILENT GRAPH <{place}>",
            ):
                reply = server.change("POST", "/labels/main/update", text.encode(), '"1"', UPDATE)
                assert (reply.status, reply.cause) == (400, "refused"), (text, reply.text)


def test_contexts_reach_nothing(server: Server, tmp_path: Path) -> None:
    secret = tmp_path / "context.jsonld"
    secret.write_text('{"@context": {"a": "u:secret"}}')
    with Trap() as trap:
        for place in (trap.url, secret.as_uri(), str(secret)):
            for document in (
                {"@context": place, "@id": "u:a", "a": "b"},
                {"@context": [place], "@id": "u:a", "a": "b"},
                {"@context": [{}, [place]], "@id": "u:a", "a": "b"},
                {"@context": {"@import": place, "@version": 1.1}, "@id": "u:a", "a": "b"},
                {"@context": {"a": {"@id": "u:b", "@context": place}}, "@id": "u:a", "a": {"c": "d"}},
                {"@context": {"a": {"@id": "u:b", "@context": [{"@import": place}]}}, "@id": "u:a", "a": {"c": "d"}},
                {"@id": "u:a", "u:b": {"@context": place, "c": "d"}},
                [{"@graph": [{"@context": [place], "@id": "u:a", "a": "b"}]}],
            ):
                reply = server.change("POST", GRAPH, json.dumps(document).encode(), '"1"', JSON_LD)
                assert (reply.status, reply.cause) == (400, "refused"), (document, reply.text)
        twice = f'{{"@context": {{}}, "@context": "{trap.url}", "@id": "u:a", "a": "b"}}'
        assert server.change("POST", GRAPH, twice.encode(), '"1"', JSON_LD).cause == "refused"


def test_time_and_memory_end_a_query_and_others_go_on(server: Server) -> None:
    with ThreadPoolExecutor(4) as threads:
        product = threads.submit(
            server.ask, "/labels/main", "SELECT (COUNT(*) AS ?n) { ?a ?b ?c . ?d ?e ?f . ?g ?h ?i . ?j ?k ?l . ?m ?n0 ?o }"
        )
        started = time.monotonic()
        for _ in range(3):
            assert server.ask("/labels/main", "SELECT * { ?s ?p ?o } LIMIT 1").status == 200
        assert product.running() or time.monotonic() - started > 5
        assert (product.result().status, product.result().cause) == (503, "time")
    large = "SELECT * { ?a ?b ?c . ?d ?e ?f . ?g ?h ?i } ORDER BY ?a"
    texts = "BIND(CONCAT(" + ", ".join(["?o"] * 400) + ") AS ?x) BIND(CONCAT(" + ", ".join(["?x"] * 400) + ") AS ?y)"
    text = "SELECT ?y { { SELECT (GROUP_CONCAT(?s) AS ?o) { ?s ?p ?q } } " + texts + " }"
    backtrack = 'ASK { FILTER(REGEX("' + "a" * 40 + 'b", "(a*)*$")) FILTER(REGEX("' + "a" * 60 + '!", "^(a|a)*$")) }'
    for query, causes in ((large, ("memory", "time")), (text, ("memory", "time", "ended")), (backtrack, ("time",))):
        reply = server.ask("/labels/main", query)
        assert reply.status == 503 and reply.cause in causes, (query[:80], reply.text[:200])
    assert server.is_well()


def test_deep_and_long_requests(server: Server) -> None:
    deep = "(" * 10_000
    sparql = ("-H", "Content-Type: application/sparql-query")
    for sent in (
        f"SELECT * {{ FILTER{deep}1{')' * 10_000} }}",
        "SELECT * " + "{" * 10_000 + "}" * 10_000,
        f"SELECT * {{ ?s ?p {deep}1{')' * 10_000} }}",
        "SELECT * { ?s " + "(" * 10_000 + "<u:a>" + ")" * 10_000 + " ?o }",
        "ASK { FILTER(" + "!" * 10_000 + "true) }",
        "SELECT * { ?s ?p ?o . FILTER EXISTS " + "{ FILTER EXISTS " * 3_000 + "{}" + "}" * 3_000 + " }",
    ):
        reply = server.curl("/labels/main/sparql", *sparql, sent=sent.encode())
        assert reply.status in (400, 503) and reply.cause in ("too-deep", "malformed", "time", "ended"), reply.text[:300]
    for media, sent in (
        (TURTLE, "<u:a> <u:b> " + "[ <u:c> " * 10_000),
        (TURTLE, "<u:a> <u:b> " + deep),
        (JSON_LD, "[" * 100_000),
        (JSON_LD, '{"u:a":' * 10_000),
    ):
        reply = server.change("POST", GRAPH, sent.encode(), '"1"', media)
        assert reply.status in (400, 503) and "File" not in reply.text, reply.text[:300]
    assert server.curl("/labels/main/sparql", *sparql, sent=b"ASK {}" + b" " * (2 << 20)).status == 413
    assert server.change("PUT", GRAPH, b" " * (65 << 20), '"1"', NT).status == 413
    for path in ("/labels/main/sparql?query=" + "a" * 200_000, "/" + "a" * 100_000):
        told = raw(server, request(server, f"GET {path} HTTP/1.1"))
        assert not told or told.split()[1] in (b"400", b"431"), told


def test_hosts(server: Server) -> None:
    port = server.port
    for host, status in (
        (f"127.0.0.1:{port}", 200),
        (f"localhost:{port}", 200),
        (f"LOCALHOST:{port}", 200),
        (f"[::1]:{port}", 200),
        ("127.0.0.1", 421),
        (f"evil.example:{port}", 421),
        (f"127.0.0.1.evil.example:{port}", 421),
        (f"127.0.0.1:{port + 1}", 421),
        ("", 421),
    ):
        told = raw(server, f"GET /labels HTTP/1.1\r\nHost: {host}\r\nConnection: close\r\n\r\n".encode())
        assert int(told.split()[1]) == status, (host, told)
        if status == 421:
            assert b"main" not in told
    assert raw(server, b"GET /labels HTTP/1.1\r\nConnection: close\r\n\r\n").split()[1] == b"400"
    assert raw(server, b"GET /labels HTTP/1.0\r\n\r\n").split()[1] == b"421"
    two = f"GET /labels HTTP/1.1\r\nHost: evil\r\nHost: 127.0.0.1:{port}\r\nConnection: close\r\n\r\n".encode()
    assert raw(server, two).split()[1] == b"400"
    absolute = f"GET http://evil.example/labels HTTP/1.1\r\nHost: 127.0.0.1:{port}\r\nConnection: close\r\n\r\n".encode()
    assert raw(server, absolute).split()[1] in (b"400", b"404")


def test_heads_and_bodies_that_are_cut_or_wrong(server: Server) -> None:
    token = f"Authorization: Bearer {TOKEN}"
    put = ("PUT /labels/main/graph HTTP/1.1", token, 'If-Match: "1"', f"Content-Type: {NT}")
    body = b"<u:a> <u:b> <u:c> .\n"
    layers = server.curl("/layers").body
    for sent in (
        request(server, *put, "Content-Length: 1000", body=body),
        request(server, *put, "Transfer-Encoding: chunked", body=b"100\r\n" + body),
        request(server, *put, "Transfer-Encoding: chunked", body=b"xyz\r\n" + body),
        request(server, *put, "Content-Length: -1", body=body),
        request(server, *put, "Content-Length: 5, 6", body=body),
        request(server, *put, "Content-Length: 20", "Transfer-Encoding: chunked", body=body)[:-10],
        b"\x16\x03\x01\x02\x00\x01\x00\x01\xfc\x03\x03" + os.urandom(200),
        b"GET / HTTP/9.9\r\n\r\n",
        b"GET /labels\x00 HTTP/1.1\r\n\r\n",
        b"\r\n\r\n\r\n",
        request(server, "GET /labels HTTP/1.1", "Upgrade: websocket"),
        request(server, "GET /labels HTTP/1.1", "X: " + "y" * 100_000),
        request(server, "GET /labels HTTP/1.1", "X: a\x00b"),
    ):
        told = raw(server, sent, cut=True)
        assert b"Traceback" not in told and b".py" not in told, told
        assert not told or told.split()[1] in (b"200", b"400", b"404", b"408", b"413", b"421", b"431"), (sent[:80], told)
    coded = server.curl(
        GRAPH, "-X", "PUT", "-H", token, "-H", 'If-Match: "1"', "-H", f"Content-Type: {NT}", "-H", "Content-Encoding: gzip", sent=body
    )
    assert coded.status == 415
    assert server.change("PUT", GRAPH, "é".encode("latin-1"), '"1"', NT).status == 400
    assert server.change("PUT", GRAPH, '<u:a> <u:b> "é" .'.encode("utf-16"), '"1"', TURTLE).status == 400
    assert server.change("PUT", GRAPH, body, '"1"', NT + "; charset=utf-16").status == 415
    assert server.curl("/layers").body == layers


def test_names_and_terms_with_line_breaks(server: Server) -> None:
    before = server.curl("/labels").body
    for name in ("main%0Alabel%20set%20main%201%20none", "main%0D%0Ax", "main%00", "%0A", "a%2Fb", "..%2F..%2Fetc", "main%20x"):
        for path in (f"/labels/{name}/graph", f"/labels/{name}/sparql?query=ASK%7B%7D", f"/labels/{name}"):
            assert server.curl(path).status == 404, path
        assert server.change("PUT", f"/labels/{name}").status == 404
    for layer in ("00000001%0Alabels", "%0A", "0000000%31%00"):
        assert server.curl(f"/layers/{layer}/graph").status == 404
    for term in ("<u:a%0Aend%0Alabel set main 1 none>", "<u:a>%20*%20*%0Alabels", '"x%0Aend"', "_:a%0Ab", "<u:%00>"):
        for name in "spo":
            assert server.curl(f"/labels/main/graph?{name}={term.replace(' ', '%20')}").status == 400, term
    for query in (
        'SELECT * { ?s ?p "x\\nend\\nlabel set main 1 none" }',
        "SELECT * { <u:a\\u000Aend> ?p ?o }",
        'SELECT * { ?s ?p ?o FILTER(?o = IRI("u:a\\nb")) }',
    ):
        assert server.ask("/labels/main", query).status in (200, 400), query
    for text in ('INSERT { <u:a> <u:b> ?x } WHERE { BIND(IRI("u:a\\nend\\nlabel set main 1 none") AS ?x) }',):
        reply = server.change("POST", "/labels/main/update", text.encode(), '"1"', UPDATE)
        layer = json.loads(reply.body)["layer"]
        assert (
            server.curl(f"/layers/{layer}/added").text
            == "<u:a> <u:b> <u:a\\u000Aend\\u000Alabel\\u0020set\\u0020main\\u00201\\u0020none> .\n"
        )
    after = json.loads(server.curl("/labels").body)["labels"]
    assert [it["version"] for it in after if it["label"] == "main"] == [2] and len(after) == len(json.loads(before)["labels"])


def test_slow_clients(server: Server) -> None:
    """A head that comes by drops ends within its time; an answer that nobody reads holds nobody up."""
    connections = [socket.create_connection(("127.0.0.1", server.port)) for _ in range(50)]
    for it in connections:
        it.sendall(b"GET /labels HTTP/1.1\r\n")
    assert server.is_well()
    started = time.monotonic()
    told = b""
    connections[0].settimeout(30)
    while piece := connections[0].recv(4096):
        told += piece
    assert time.monotonic() - started < 15 and told.split()[1] == b"408"
    for it in connections:
        it.close()
    readers = []
    for _ in range(20):
        it = socket.create_connection(("127.0.0.1", server.port))
        it.setsockopt(socket.SOL_SOCKET, socket.SO_RCVBUF, 2048)
        it.sendall(request(server, f"GET {GRAPH} HTTP/1.1"))
        readers.append(it)
    assert server.is_well()
    for it in readers:
        it.close()


def test_no_term_becomes_markup(server: Server) -> None:
    nasty = '<u:s> <javascript:alert(1)> "<script>alert(1)</script>", "\\"><img src=x onerror=alert(1)>", <javascript:alert(2)>, "]]>&amp;"@en .'
    version = json.loads(server.curl("/labels/main").body)["version"]
    assert server.change("POST", GRAPH, nasty.encode(), f'"{version}"', TURTLE).status == 200
    paths = [GRAPH, GRAPH + "?s=u:s", "/", "/labels", "/compare?from=00000001&to=@main", "/subject?s=u:s&at=@main", "/labels/main/sparql?query=SELECT*%7B%3Cu:s%3E?p?o%7D",
             "/%3Cscript%3E", "/labels/main/sparql?query=%3C/textarea%3E%3Cscript%3E", "/compare?from=%3Cscript%3E&to=1", GRAPH + "?s=%22%3E%3Cscript%3E"]  # fmt: skip
    for path in paths:
        reply = server.curl(path, "-H", "Accept: text/html")
        assert reply.headers["content-type"].startswith("text/html"), path
        page = reply.text
        assert (
            "<script>" not in page
            and "<img src=x" not in page
            and 'href="javascript' not in page.lower()
            and "onerror=alert(1)>" not in page.replace("&gt;", "")
        ), path
        policy = reply.headers["content-security-policy"]
        assert "default-src 'none'" in policy and "unsafe" not in policy and reply.headers["x-content-type-options"] == "nosniff"
        assert ' style="' not in page and " onclick" not in page


def test_a_thousand_random_requests(server: Server) -> None:
    chance = random.Random(7)
    parts = [
        "labels",
        "layers",
        "main",
        "graph",
        "sparql",
        "update",
        "00000001",
        "added",
        "..",
        "%00",
        "%ff",
        "a b",
        "é",
        "?",
        "#",
        "static",
        "style.css",
        "compare",
        "subject",
        "x" * 300,
        "",
    ]
    words = [
        "SELECT",
        "ASK",
        "{",
        "}",
        "?s",
        "<u:a>",
        '"x"',
        "FILTER",
        "(",
        ")",
        "UNION",
        "LIMIT",
        "1",
        ".",
        ";",
        "OPTIONAL",
        "*",
        "SERVICE",
        "BIND",
        "AS",
        "\\",
        "'",
        "\n",
        "\x00",
        "é",
    ]
    media = [
        NT,
        TURTLE,
        JSON_LD,
        UPDATE,
        "application/sparql-query",
        "application/x-www-form-urlencoded",
        "text/html",
        "*/*",
        "a/b;q=x",
        ";;;",
        "",
    ]

    def one(_: int) -> tuple[int, bytes, str]:
        path = "/" + "/".join(chance.choice(parts) for _ in range(chance.randint(0, 5)))
        if chance.random() < 0.6:
            path = chance.choice(["/labels/main/sparql", "/layers/00000001/sparql", GRAPH, "/labels/main/update", "/subject", "/compare"])
        name = chance.choice(["query", "s", "p", "o", "format", "from", "at", "page", "update", "before"])
        path += (
            "?" + name + "=" + "".join(f"%{it:02X}" for it in " ".join(chance.choice(words) for _ in range(chance.randint(0, 12))).encode())
        )
        sent = " ".join(chance.choice(words) for _ in range(chance.randint(0, 20))).encode() + chance.randbytes(chance.choice([0, 0, 5]))
        method = chance.choice(["GET", "GET", "HEAD", "POST", "PUT", "DELETE", "PATCH", "OPTIONS", "TRACE", "get", "X-Y"])
        line = f"{method} {path.encode().decode('latin-1').replace(' ', '+')} HTTP/1.1"
        headers = [f"Accept: {chance.choice(media)}", f"Content-Type: {chance.choice(media)}", f"Content-Length: {len(sent)}"]
        if chance.random() < 0.5:
            headers.append(f"Authorization: Bearer {TOKEN}")
        if chance.random() < 0.5:
            headers.append("If-Match: " + chance.choice(['"0"', "*", "x", '"1', '"9999999999999999999999"', '""']))
        told = raw(server, request(server, line, *headers, body=sent), 30)
        return int(told.split()[1]) if told else 0, told, line

    with ThreadPoolExecutor(8) as threads:
        for status, told, line in threads.map(one, range(1_000)):
            assert status in range(200, 500) or status in (503,), (line, told[:500])
            assert b"Traceback" not in told and b'.py"' not in told, told


def test_tokens_are_in_no_log(server: Server) -> None:
    raw(server, request(server, "PUT /labels/main/graph HTTP/1.1", f"Authorization: Bearer {TOKEN}\x00"))
    raw(server, request(server, f"PUT /{TOKEN}\x00 HTTP/1.1"))
    server.change("PUT", GRAPH, b"x", '"1"', NT)
    server.change("PUT", GRAPH, b"x", '"1"', NT, TOKEN[:-1] + "x")
    assert TOKEN[:-1] not in server.said


def test_it_listens_on_the_loopback_address_alone(server: Server) -> None:
    listening = subprocess.run(["ss", "-ltnH"], stdout=subprocess.PIPE).stdout.decode() if os.path.exists("/usr/bin/ss") else ""
    for line in listening.splitlines():
        if line.split()[3].endswith(f":{server.port}"):
            assert line.split()[3] == f"127.0.0.1:{server.port}"
