"""Listings, labels and layers, their formats, and what may be kept of them."""

from __future__ import annotations

import json
from urllib.parse import quote

import tstore
from conftest import CAFES, Server

FOREVER = "public, max-age=31536000, immutable"
ODD = "/labels/" + quote("100%#?&+'x", safe="")


def test_listings(cafes: Server) -> None:
    listed = sorted(str(it) for it in (change.triple for change in tstore.terms.read(CAFES)))
    reply = cafes.curl("/layers/00000001/graph")
    assert reply.status == 200 and reply.lines == listed
    assert reply.headers["content-type"] == "application/n-triples" and reply.headers["cache-control"] == FOREVER
    assert cafes.curl(f"{ODD}/graph").lines == listed
    assert set(listed) - set(cafes.curl("/labels/main/graph").lines) == set(cafes.curl("/layers/00000002/removed").lines)
    assert cafes.curl("/layers/00000002/added").lines == [
        '<http://example.org/new> <http://example.org/said> "<script>alert(1)</script>" .'
    ]
    assert cafes.curl("/layers/00000001/removed").text == ""


def test_patterns(cafes: Server) -> None:
    listed = cafes.curl("/labels/main/graph").lines
    for parameters, fits in (
        ("s=http://example.org/mokka", lambda it: it.startswith("<http://example.org/mokka> ")),
        ("p=" + quote("<https://schema.org/near>"), lambda it: " <https://schema.org/near> " in it),
        ("o=" + quote('"caf\\u00E9 🍵"@en-GB'), lambda it: "@en-GB" in it),
        ("s=_:a1&p=https://schema.org/geo", lambda it: it.startswith("_:a1 <https://schema.org/geo>")),
        ("s=*&o=" + quote('"35"^^<http://www.w3.org/2001/XMLSchema#integer>'), lambda it: '"35"' in it),
    ):
        reply = cafes.curl(f"/labels/main/graph?{parameters}")
        assert reply.lines == sorted(filter(fits, listed)) and reply.lines, parameters
    for bad in ("s=%22a%22", "p=_:a", "o=%3Ca", "s=a%0Ab", "s=%FF", "s=a&s=b"):
        assert cafes.curl(f"/labels/main/graph?{bad}").status == 400, bad


def test_labels_and_layers(cafes: Server) -> None:
    labels = json.loads(cafes.curl("/labels").body)["labels"]
    assert [(it["label"], it["version"], it["layer"]) for it in labels] == [
        ("100%#?&+'x", 1, "00000001"),
        ("empty", 0, None),
        ("main", 1, "00000002"),
    ]
    for it in labels:
        assert cafes.curl(it["graph"]).status == (200 if it["layer"] else 404)
    layers = json.loads(cafes.curl("/layers").body)["layers"]
    assert [(it["layer"], it["parent"]) for it in layers] == [("00000001", None), ("00000002", "00000001")]
    label = cafes.curl("/labels/main")
    assert json.loads(label.body)["version"] == 1 and label.headers["etag"] == '"1-json"' and label.headers["cache-control"] == "no-cache"


def test_refusals(cafes: Server) -> None:
    for path, status, cause in (
        ("/layers/00000009/graph", 404, "no-layer"),
        ("/layers/0000000G/graph", 404, "no-layer"),
        ("/labels/none/graph", 404, "no-label"),
        ("/labels/a%20b/graph", 404, "no-label"),
        ("/labels/empty/graph", 404, "empty-label"),
        ("/labels/empty/sparql?query=ASK%7B%7D", 404, "empty-label"),
        ("/nothing", 404, "no-address"),
        ("/labels/main/graph?graph=x", 400, "refused"),
        ("/labels/main/sparql", 400, "malformed"),
        ("/labels/main/sparql?query=ASK%7B%7D&default-graph-uri=x", 400, "refused"),
        ("/labels/main/sparql?query=ASK%7B%7D&named-graph-uri=x", 400, "refused"),
        ("/labels/main/sparql?query=ASK%7B%7D&query=ASK%7B%7D", 400, "malformed"),
        ("/labels/main/sparql?query=ASK%7B", 400, "malformed"),
        ("/labels/main/update", 405, "no-method"),
    ):
        reply = cafes.curl(path)
        assert (reply.status, reply.cause) == (status, cause), path
        assert reply.headers["content-type"] == "application/problem+json"
    assert cafes.curl("/labels/main/graph", "-H", "Accept: image/png").status == 406
    assert cafes.curl("/labels/main/graph", "-H", "Accept: image/png, */*;q=0.1").status == 200
    assert cafes.curl("/labels/main", "-X", "DELETE").headers["allow"] == "GET, HEAD, PUT"


def test_protocol(cafes: Server) -> None:
    """The three ways of the query operation, and HEAD."""
    query = b"SELECT ?s { ?s <https://schema.org/near> ?s }"
    direct = cafes.curl("/labels/main/sparql", "-H", "Content-Type: application/sparql-query", sent=query)
    form = cafes.curl("/labels/main/sparql", "--data-urlencode", f"query={query.decode()}")
    assert direct.status == form.status == 200 and direct.body == form.body == cafes.ask("/labels/main", query.decode()).body
    assert direct.headers["cache-control"] == "no-store"
    assert cafes.curl("/labels/main/sparql", "-H", "Content-Type: text/plain", sent=query).status == 415
    assert cafes.curl("/labels/main/sparql", "-H", "Content-Type: application/sparql-query; charset=latin-1", sent=query).status == 415
    assert cafes.curl("/labels/main/sparql", "-H", "Content-Type: application/sparql-query", sent=b"SELECT \xff").status == 400
    head = cafes.curl("/labels/main/graph", "-I")
    assert head.status == 200 and head.body == b"" and head.headers["etag"] == '"1-nt"'


def test_tags(cafes: Server) -> None:
    for form, name in (("application/n-triples", "nt"), ("text/turtle", "ttl"), ("application/ld+json", "jsonld"), ("text/html", "html")):
        reply = cafes.curl("/labels/main/graph", "-H", f"Accept: {form}")
        assert reply.headers["etag"] == f'"1-{name}"' and reply.headers["vary"] == "Accept", form
        again = cafes.curl("/labels/main/graph", "-H", f"Accept: {form}", "-H", f'If-None-Match: "0-{name}", W/"1-{name}"')
        assert again.status == 304 and again.body == b"" and again.headers["etag"] == reply.headers["etag"]
        assert cafes.curl("/labels/main/graph", "-H", f"Accept: {form}", "-H", 'If-None-Match: "1"').status == 200
    asked = cafes.ask("/labels/main", "ASK { }")
    assert asked.headers["etag"] == '"1-json"'
    assert cafes.curl("/labels/main/sparql?query=ASK%7B%7D", "-H", 'If-None-Match: "1-json"').status == 304
    assert cafes.curl("/layers/00000001/graph", "-H", 'If-None-Match: "00000001-nt"').status == 304


def test_a_label_that_moves_is_seen(changed: Server) -> None:
    """By the shell, beside the server."""
    before = changed.curl("/labels/main/graph").lines
    for version in range(1, 6):
        with tstore.open(changed.folder) as store:
            layer = store.commit("@main", f"<u:a> <u:b> <u:c{version}> .\n")
            store.set_label("main", version, layer)
        reply = changed.curl("/labels/main/graph")
        assert reply.headers["etag"] == f'"{version + 1}-nt"'
        assert set(reply.lines) - set(before) == {f"<u:a> <u:b> <u:c{it}> ." for it in range(1, version + 1)}
        assert changed.curl(f"/layers/{layer}/added").status == 200


def test_reading_goes_on_while_the_folder_is_held(changed: Server) -> None:
    with tstore.open(changed.folder):
        assert changed.curl("/labels/main/graph").status == 200
        assert changed.ask("/labels/main", "ASK { }").status == 200
    assert changed.is_well()
