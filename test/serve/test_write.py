"""Changes: what they leave, and under which conditions they are made."""

from __future__ import annotations

import json

import pytest
import tstore
from conftest import TOKEN, Server, make_cafes

NT, TURTLE, JSON_LD, UPDATE = "application/n-triples", "text/turtle", "application/ld+json", "application/sparql-update"
GRAPH = "/labels/main/graph"


def test_put_is_the_net_change(changed: Server) -> None:
    listed = changed.curl(GRAPH).text
    kept = "\n".join(listed.splitlines()[3:]) + "\n<u:a> <u:b> _:c .\n"
    reply = changed.change("PUT", GRAPH, kept.encode(), '"1"', NT)
    assert reply.status == 200 and reply.headers["etag"] == '"2"' and json.loads(reply.body)["changes"] == 4
    layer = json.loads(reply.body)["layer"]
    assert changed.curl(GRAPH).lines == sorted(kept.splitlines()) and changed.curl(GRAPH).headers["etag"] == '"2-nt"'
    assert changed.curl(f"/layers/{layer}/added").lines == ["<u:a> <u:b> _:c ."]
    assert len(changed.curl(f"/layers/{layer}/removed").lines) == 3
    with tstore.open(changed.folder) as store:
        assert store.label("main") == ("main", 2, layer)


def test_nothing_moves_nothing(changed: Server) -> None:
    for method, path, sent, media in (
        ("PUT", GRAPH, changed.curl(GRAPH).body, NT),
        ("PUT", GRAPH, changed.curl(GRAPH + "?format=nt").body, NT + "; charset=utf-8"),
        ("POST", GRAPH, changed.curl(GRAPH).body[:200].rpartition(b"\n")[0], NT),
        ("POST", GRAPH, b"", TURTLE),
        ("POST", "/labels/main/update", b"DELETE DATA { <u:a> <u:b> <u:c> }", UPDATE),
        ("POST", "/labels/main/update", b"INSERT DATA { <u:a> <u:b> <u:c> }; DELETE DATA { <u:a> <u:b> <u:c> }", UPDATE),
    ):
        reply = changed.change(method, path, sent, '"1"', media)
        assert (reply.status, reply.headers["etag"], json.loads(reply.body)["changes"]) == (200, '"1"', 0), (method, path)
    assert len(json.loads(changed.curl("/layers").body)["layers"]) == 2


def test_each_format_is_read(changed: Server) -> None:
    for number, (media, sent, line) in enumerate(
        (
            (
                NT,
                b'<u:a> <u:b> "01"^^<http://www.w3.org/2001/XMLSchema#integer> .',
                '<u:a> <u:b> "01"^^<http://www.w3.org/2001/XMLSchema#integer> .',
            ),
            (
                TURTLE,
                b'@prefix u: <u:> . u:a u:c "1.0E0"^^<http://www.w3.org/2001/XMLSchema#double> .',
                '<u:a> <u:c> "1.0E0"^^<http://www.w3.org/2001/XMLSchema#double> .',
            ),
            (JSON_LD, b'{"@context": {"d": "u:d"}, "@id": "u:a", "d": {"@value": "x", "@language": "en"}}', '<u:a> <u:d> "x"@en .'),
            (TURTLE, b"<> <#p> <a> .", f"<{changed.url}{GRAPH}> <{changed.url}{GRAPH}#p> <{changed.url}/labels/main/a> ."),
        ),
        1,
    ):
        reply = changed.change("POST", GRAPH, sent, f'"{number}"', media)
        assert reply.status == 200, reply.text
        assert changed.curl(f"/layers/{json.loads(reply.body)['layer']}/added").lines == [line]


def test_turtle_goes_there_and_back(changed: Server) -> None:
    """What is read as Turtle and written again is no change, but for the names of blank nodes."""
    text = "".join(it for it in changed.curl("/labels/main/graph?format=ttl").text.splitlines(True))
    reply = changed.change("PUT", GRAPH, text.encode(), '"1-ttl"', TURTLE)
    layer = json.loads(reply.body)["layer"]
    assert all("_:" in it for it in changed.curl(f"/layers/{layer}/added").lines + changed.curl(f"/layers/{layer}/removed").lines)


def test_delete_and_empty_labels(changed: Server) -> None:
    reply = changed.change("DELETE", GRAPH, version='"1"')
    assert reply.status == 200 and changed.curl(GRAPH).text == "" and changed.curl(GRAPH).status == 200
    assert changed.change("DELETE", "/labels/empty/graph", version='"0"').status == 404
    made = changed.change("PUT", "/labels/new%25")
    assert made.status == 201 and made.headers["etag"] == '"0"' and made.headers["location"] == "/labels/new%25"
    assert changed.curl("/labels/new%25/graph").status == 404
    assert changed.change("PUT", "/labels/new%25").cause == "label-exists"
    reply = changed.change("PUT", "/labels/new%25/graph", b"<u:a> <u:b> <u:c> .", '"0"', NT)
    assert reply.status == 201 and changed.curl("/labels/new%25/graph").text == "<u:a> <u:b> <u:c> .\n"
    for bad in ("a%20b", "a%0Ab", ".a", "x" * 201, "%22", "%E4"):
        assert changed.change("PUT", f"/labels/{bad}").status == 404, bad


def test_update(changed: Server) -> None:
    version = 1

    def update(text: str) -> list[str]:
        nonlocal version
        reply = changed.change("POST", "/labels/main/update", text.encode(), f'"{version}"', UPDATE)
        assert reply.status == 200, reply.text
        version = json.loads(reply.body)["version"]
        layer = json.loads(reply.body)["layer"]
        return sorted(
            [f"+{it}" for it in changed.curl(f"/layers/{layer}/added").lines]
            + [f"-{it}" for it in changed.curl(f"/layers/{layer}/removed").lines]
        )

    assert update("INSERT DATA { <u:a> <u:b> 1, 2 . <u:a> <u:b> 1 }") == [
        f'+<u:a> <u:b> "{it}"^^<http://www.w3.org/2001/XMLSchema#integer> .' for it in (1, 2)
    ]
    # Each operation sees what the one before it left, and asks before it changes.
    told = update(
        "DELETE { ?s <u:b> ?o } INSERT { ?s <u:c> ?o . ?o <u:nothing> ?s } WHERE { ?s <u:b> ?o }; INSERT { <u:n> <u:is> ?n } WHERE { SELECT (COUNT(*) AS ?n) { ?s <u:c> ?o } }"
    )
    assert len(told) == 5 and sum(it.startswith("-") for it in told) == 2
    assert '+<u:n> <u:is> "2"^^<http://www.w3.org/2001/XMLSchema#integer> .' in told
    assert len(update("DELETE WHERE { ?s <u:c> ?o }")) == 2
    # What is deleted and inserted at once stands.
    assert update("INSERT DATA { <u:a> <u:x> <u:y> }") == ["+<u:a> <u:x> <u:y> ."]
    assert update("DELETE { ?s ?p ?o } INSERT { ?s ?p ?o . <u:a> <u:x> <u:z> } WHERE { ?s ?p ?o . FILTER(?p = <u:x>) }") == [
        "+<u:a> <u:x> <u:z> ."
    ]
    # A blank node of a request is a new one.
    told = update("INSERT DATA { _:a1 <u:x> _:a1 }")
    assert len(told) == 1 and "_:a1" not in told[0]
    assert all(it.startswith("-") for it in update("CLEAR DEFAULT"))
    assert changed.curl(GRAPH).text == ""
    form = changed.change(
        "POST",
        "/labels/main/update",
        b"update=INSERT+DATA+%7B+%3Cu%3Aa%3E+%3Cu%3Ab%3E+%3Cu%3Ac%3E+%7D",
        f'"{version}"',
        "application/x-www-form-urlencoded",
    )
    assert form.status == 200 and changed.curl(GRAPH).text == "<u:a> <u:b> <u:c> .\n"


def test_sparqlwrapper_updates(changed: Server) -> None:
    from SPARQLWrapper import POST, POSTDIRECTLY, SPARQLWrapper

    asked = SPARQLWrapper(f"{changed.url}/labels/main/update")
    asked.setMethod(POST)
    asked.setRequestMethod(POSTDIRECTLY)
    asked.addCustomHttpHeader("Authorization", f"Bearer {TOKEN}")
    asked.addCustomHttpHeader("If-Match", '"1"')
    asked.setQuery("INSERT DATA { <u:a> <u:b> <u:c> }")
    asked.query()
    assert "<u:a> <u:b> <u:c> ." in changed.curl(GRAPH).lines


def test_conditions(changed: Server) -> None:
    """In their order: the token, the label, the version, and what was sent."""
    sent, media = b"<u:a> <u:b> <u:c> .", NT
    for method, path in (("PUT", GRAPH), ("POST", GRAPH), ("DELETE", GRAPH), ("POST", "/labels/main/update"), ("PUT", "/labels/none")):
        assert changed.curl(path, "-X", method, "-H", 'If-Match: "9"', sent=sent).status == 401
        assert changed.change(method, path, sent, '"9"', media, TOKEN[:-1] + "8").status == 403
        assert changed.change(method, path, sent, '"9"', media, TOKEN + "0").status == 403
    assert changed.curl(GRAPH, "-X", "PUT", sent=sent).headers["www-authenticate"].startswith("Bearer")
    assert changed.change("PUT", "/labels/none/graph", sent, '"1"', media).status == 404
    assert changed.change("PUT", GRAPH, sent, None, media).status == 428
    for version in ('"0"', '"2"', 'W/"1"', '"1-"', '"01"', '"x"', '"0", "2-ttl"'):
        reply = changed.change("PUT", GRAPH, sent, version, media)
        assert (reply.status, reply.headers["etag"]) == (412, '"1"'), version
    assert changed.change("PUT", GRAPH, sent, "1", media).status == 400
    assert changed.change("PUT", GRAPH, sent, '"1"', "text/csv").status == 415
    assert changed.change("PUT", GRAPH, sent, '"1"').status == 415
    assert changed.change("PUT", GRAPH, b"<u:a> <u:b>", '"1"', media).cause == "bad-triple"
    assert changed.change("PUT", GRAPH, b"- <u:a> <u:b> <u:c> .", '"1"', media).status == 400
    assert changed.change("PUT", GRAPH, b"<u:a> <u:b>", '"1"', TURTLE).cause == "malformed"
    assert changed.change("PUT", GRAPH, b"{", '"1"', JSON_LD).cause == "malformed"
    assert changed.change("POST", "/labels/main/update", b"INSERT", '"1"', UPDATE).cause == "malformed"
    assert len(json.loads(changed.curl("/layers").body)["layers"]) == 2
    assert changed.change("PUT", GRAPH, sent, '"0", "1-ttl"', media).status == 200
    assert changed.change("PUT", GRAPH, sent, '"1"', media).status == 412
    assert changed.change("POST", GRAPH, b"<u:a> <u:b> <u:d> .", "*", media).status == 200


def test_nobody_writes_without_tokens(tmp_path: object) -> None:
    folder = tmp_path / "cafes"  # type: ignore[operator]
    make_cafes(folder)
    server = Server(folder, tokens=None)
    try:
        for method, path in (("PUT", GRAPH), ("POST", "/labels/main/update"), ("PUT", "/labels/new")):
            reply = server.change(method, path, b"<u:a> <u:b> <u:c> .", '"1"', NT)
            assert (reply.status, reply.headers["allow"]) == (405, "GET, HEAD")
    finally:
        server.end()


@pytest.mark.parametrize("tokens", ["", "short"])
def test_tokens_that_can_be_guessed_are_refused(tmp_path: object, tokens: str) -> None:
    folder = tmp_path / "cafes"  # type: ignore[operator]
    make_cafes(folder)
    with pytest.raises(AssertionError, match="token"):
        Server(folder, tokens=tokens)
