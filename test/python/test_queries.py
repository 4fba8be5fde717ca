"""Random SPARQL queries: rdflib in memory and over the store give equal answers, and roqet over a listing too."""

import csv
import io
import shutil
import subprocess
from collections import Counter

import pytest
import rdflib
import tstore.rdflib
from graphs import query, triples


@pytest.fixture
def both(folder, draw):
    """A graph in memory, and the same in the store: some of it in a base, some in a child, some not committed."""
    memory = rdflib.Graph()
    stored = tstore.rdflib.graph(folder, label="main", create=True)
    for commit in (True, True, False):
        some = triples(draw, 70)
        gone = draw.sample(sorted(memory), len(memory) // 4)
        for graph in (memory, stored):
            for it in some:
                graph.add(it)
            for it in gone:
                graph.remove(it)
        if commit:
            stored.commit()
    yield memory, stored
    stored.close()


def answers(graph, text):
    found = graph.query(text)
    if found.type == "ASK":
        return found.askAnswer
    rows = [tuple(None if it is None else it.n3() for it in row) for row in found]
    return rows if "ORDER BY" in text else Counter(rows)


@pytest.mark.parametrize("part", range(10))
def test_equal_answers(both, draw, part):
    memory, stored = both
    asked = said = 0
    while asked < 30:
        text = query(draw)
        try:
            expected = answers(memory, text)
        except Exception:
            # rdflib 6.1.1 fails on some: COUNT(DISTINCT) of a variable that isn't bound, a path of no steps within a path.
            continue
        assert answers(stored, text) == expected, text
        asked += 1
        said += bool(expected)
    assert said >= 8


@pytest.mark.skipif(not shutil.which("roqet"), reason="roqet of rasqal-utils isn't there")
def test_equal_answers_of_roqet(both, draw, tmp_path):
    _, stored = both
    stored.commit()
    listing = tmp_path / "listing.nt"
    listing.write_bytes(b"".join(stored.store.store.list("@main").pieces()))
    asked = 0
    while asked < 40:
        text = query(draw, paths=False)
        # Joins alone: roqet has no MINUS and no EXISTS, an order of its own, and joins a UNION by what isn't in the graph.
        if any(it in text for it in ("ASK", "MINUS", "COUNT", "ORDER", "FILTER", "OPTIONAL", "UNION")):
            continue
        asked += 1
        (tmp_path / "query.rq").write_text(text)
        words = ["roqet", "-q", "-W", "0", "-i", "sparql", "-r", "csv", "-F", "ntriples", "-D", str(listing), str(tmp_path / "query.rq")]
        told = subprocess.run(words, capture_output=True, text=True, check=True).stdout
        rows = Counter(tuple(row) for row in list(csv.reader(io.StringIO(told)))[1:])
        mine = Counter(tuple("" if it is None else f"_:{it}" if isinstance(it, rdflib.BNode) else str(it) for it in row) for row in stored.query(text))
        assert mine == rows, text
