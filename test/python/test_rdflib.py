"""A graph of rdflib over a label: terms as they stand, transactions, races, and many graphs over one program."""

import gc

import pytest
import rdflib
import rdflib.compare
import tstore
import tstore.rdflib
from graphs import BASE, NODES, triples
from rdflib import BNode, Literal, URIRef
from rdflib.namespace import XSD
from test_hostile import EVIL

A, P, B = (URIRef(BASE + it) for it in "apb")


@pytest.fixture
def main(folder):
    it = tstore.rdflib.graph(folder, label="main", create=True)
    yield it
    it.close()


def key(triple):
    """All that a term is to the store."""
    return tuple((type(it), str(it), getattr(it, "language", None), getattr(it, "datatype", None)) for it in triple)


def keys(graph):
    found = [key(it) for it in graph]
    assert len(found) == len(set(found)) == len(graph)
    return set(found)


def test_random_graphs_written_and_read_back(main, draw):
    for _ in range(6):
        some = triples(draw, 300)
        before = keys(main)
        for it in some:
            main.add(it)
        gone = draw.sample(sorted(some), len(some) // 3)
        for it in gone:
            main.remove(it)
        expected = (before | set(map(key, some))) - set(map(key, gone))
        assert keys(main) == expected
        main.commit()
        assert keys(main) == expected
        for pattern in [(draw.choice([None, s]), draw.choice([None, p]), draw.choice([None, o])) for s, p, o in draw.sample(sorted(some), 30)]:
            fitting = {it for it in expected if all(one is None or key([one])[0] == two for one, two in zip(pattern, it))}
            assert set(map(key, main.triples(pattern))) == fitting


def test_terms_come_out_as_they_stand(main):
    lexical = ["01", "1", "1.0E0", "+5", "x", " a  b\n", "", "true", "TRUE", "2020-13-01", "<a>", "a\r\n\tb"]
    types = [XSD[it] for it in "integer double decimal boolean date token normalizedString string anyURI base64Binary hexBinary duration".split()]
    types += [URIRef("http://www.w3.org/1999/02/22-rdf-syntax-ns#XMLLiteral"), URIRef("t"), URIRef("")]
    with_types = "".join(f'<a> <p> {tstore.Literal(one, str(two))} .\n' for one in lexical for two in types)
    with_tags = "".join(f'<a> <p> {tstore.Literal(one, language=two)} .\n' for one in lexical for two in ("en", "EN", "de-CH"))
    store = main.store.store
    layer = store.base(with_types + with_tags + "".join(f"<a> <p> {tstore.Literal(it)} .\n<a> <p> {tstore.IRI(it)} .\n" for it in EVIL))
    store.set_label("main", 0, layer)
    main.rollback()
    lines = sorted(str(it) for it in store.list(layer))
    found = [tuple(map(tstore.rdflib._to_store, it)) for it in main]
    assert sorted(str(tstore.Triple(*it)) for it in found) == lines and len(main) == len(lines)
    # What was read can be removed, and added, again.
    some = list(main)
    for it in some:
        assert it in main
        main.remove(it)
        assert it not in main
    assert len(main) == 0
    for it in some:
        main.add(it)
    assert len(main) == len(lines)
    main.commit()
    assert main.store.read == ("main", 1, layer)


def test_one_literal_of_the_store_is_two_of_rdflib(main):
    main.add((A, P, Literal("x", datatype=XSD.string)))
    main.add((A, P, Literal("x")))
    assert len(main) == 1 and next(main.objects(A, P)) == Literal("x") and (A, P, Literal("x", datatype=XSD.string)) in main
    main.add((A, P, Literal("x", lang="en")))
    main.add((A, P, Literal("x", lang="EN")))
    assert len(main) == 3
    main.commit()
    assert len(main) == 3
    main.remove((A, P, Literal("x", datatype=XSD.string)))
    assert len(main) == 2


def test_what_the_store_has_no_words_for(main):
    for triple in [(A, P, rdflib.Variable("x")), (A, BNode("b"), B), (A, Literal("p"), B), (Literal("a"), P, B), (BNode("a b"), P, B), (A, P, rdflib.Graph())]:
        with pytest.raises(tstore.BadTerm):
            main.add(triple)
        if not isinstance(triple[2], rdflib.Graph):
            assert list(main.triples(triple)) == [] and triple not in main
            main.remove(triple)
    with pytest.raises(tstore.BadTerm):
        main.add((A, P, Literal("a" * 1_048_575)))
    assert len(main) == 0


def test_transactions(folder, main):
    assert main.store.transaction_aware and not main.store.context_aware
    main.add((A, P, B))
    other = tstore.rdflib.graph(folder, label="main")
    assert len(main) == 1 and len(other) == 0
    main.rollback()
    assert len(main) == 0
    main.commit()
    assert main.store.store.layers() == [] and main.store.read.version == 0
    main.add((A, P, B))
    main.remove((A, P, B))
    main.commit()
    assert main.store.store.layers() == []
    main.add((A, P, B))
    main.add((A, P, A))
    main.commit()
    assert main.store.read == ("main", 1, "00000001") and len(other) == 0
    main.add((A, P, B))
    main.remove((B, P, B))
    main.commit()
    assert main.store.read == ("main", 1, "00000001")
    main.remove((A, None, None))
    main.add((A, P, A))
    main.commit()
    assert list(main) == [(A, P, A)]
    assert [str(it) for it in main.store.store.removed("00000002")] == [f"<{A}> <{P}> <{B}> ."]
    # A change that isn't committed is forgotten; or it isn't, where close is told so.
    main.add((B, P, B))
    main.close()
    other.close()
    again = tstore.rdflib.graph(folder, label="main")
    assert len(again) == 1
    again.add((B, P, B))
    again.close(commit_pending_transaction=True)
    past = tstore.rdflib.graph(folder, layer="00000001")
    assert len(past) == 2
    assert len(tstore.rdflib.graph(folder, label="main")) == 2
    with pytest.raises(tstore.ReadOnly):
        past.add((A, P, A))
    with pytest.raises(tstore.ReadOnly):
        past.remove((A, P, A))
    past.close()


def test_a_label_that_moves_under_an_open_graph(folder, main):
    main.add((A, P, B))
    main.commit()
    other = tstore.rdflib.graph(folder, label="main")
    other.add((B, P, A))
    main.add((B, P, B))
    main.commit()
    assert set(other) == {(A, P, B), (B, P, A)}
    layers = main.store.store.layers()
    with pytest.raises(tstore.Stale) as stale:
        other.commit()
    assert stale.value.current == 2 and main.store.store.layers() == layers
    assert set(other) == {(A, P, B), (B, P, A)} and len(other) == 2
    other.store.refresh()
    assert set(other) == {(A, P, B), (B, P, A), (B, P, B)} and len(other) == 3
    other.commit()
    assert other.store.read.version == 3 and set(main) == {(A, P, B), (B, P, B)}
    main.rollback()
    assert set(main) == set(other)
    other.close()


def test_the_last_graph_gives_the_folder_free(folder):
    graphs = [tstore.rdflib.graph(folder, label="main", create=True) for _ in range(3)]
    assert len({id(it.store.store) for it in graphs}) == 1
    for it in graphs:
        with pytest.raises(tstore.Held):
            tstore.open(folder, wait=False)
        it.close()
        it.close()
    with pytest.raises(tstore.Closed):
        list(graphs[0].triples((A, P, B)))
    tstore.open(folder, wait=False).close()
    reader = tstore.rdflib.graph(folder, label="main", read_only=True)
    tstore.open(folder, wait=False, read_only=True).close()
    with pytest.raises(tstore.Held):
        tstore.rdflib.graph(folder, label="main")
    with pytest.raises(tstore.ReadOnly):
        reader.add((A, P, B))
    del reader
    gc.collect()
    tstore.open(folder, wait=False).close()
    for words in ({"label": "none"}, {"layer": "00000001"}, {}, {"label": "main", "layer": "00000001"}, {"label": "a b"}, {"layer": "last"}):
        with pytest.raises(tstore.Error):
            tstore.rdflib.graph(folder, **words)
    tstore.open(folder, wait=False).close()


def test_listings_in_one_another_while_commits_go_on(main):
    some = [(URIRef(f"{BASE}{one}"), P, URIRef(f"{BASE}{two}")) for one in range(9) for two in range(9)]
    for it in some:
        main.add(it)
    main.commit()
    open_ones = [main.triples((None, P, None)) for _ in range(100)]
    firsts = [next(it) for it in open_ones]
    for number in range(5):
        main.add((A, P, Literal(number)))
        main.remove(some[number])
        main.commit()
    assert {(one, *rest) for one, rest in zip(firsts, map(tuple, open_ones))} == {tuple(main_order(main, firsts[0], some))}
    assert len(main) == 81
    for it in main:
        for other in main.triples((it[2], None, None)):
            main.add((other[0], URIRef(BASE + "q"), it[0]))
    main.commit()
    # Listings that are left half read are closed when they are forgotten.
    for _ in range(300):
        next(iter(main))
    assert sum(1 for _ in main) == len(main)


def main_order(main, first, some):
    """The listing of the first version, which all open ones have to give."""
    found = [tuple(tstore.rdflib._from_store(str(term)) for term in it) for it in main.store.store.list("00000001")]
    assert found[0] == first and set(found) == set(some)
    return found


def test_formats(main, tmp_path):
    main.parse(data='@prefix e: <http://example.org/> . e:a e:p "x"@en, [ e:q (1 2) ] .', format="turtle")
    main.parse(data='{"@id": "http://example.org/a", "http://example.org/r": {"@value": "y"}}', format="json-ld")
    main.commit()
    assert len(main) == 8
    for form in ("turtle", "nt", "xml", "json-ld"):
        again = rdflib.Graph().parse(data=main.serialize(format=form), format=form)
        assert rdflib.compare.isomorphic(again, main)
    main.bind("e", BASE)
    assert ("e", URIRef(BASE)) in list(main.namespaces()) and "e:a" in main.serialize(format="turtle")


def test_by_the_name_of_the_plugin(folder, main):
    main.add((A, P, B))
    main.commit()
    it = rdflib.Graph("tstore")
    it.open(f"{folder}/@main")
    assert set(it) == {(A, P, B)}
    it.open(f"{folder}/00000001")
    assert set(it) == {(A, P, B)} and len(it) == 1
    with pytest.raises(tstore.NoLabel):
        it.open(f"{folder}/@other")
    it.open(f"{folder}/@other", create=True)
    assert len(it) == 0
    it.close()


def test_updates(main):
    main.update(f"INSERT DATA {{ <{A}> <{P}> 1, 2, 3 . <{B}> <{P}> <{A}> }}")
    main.commit()
    main.update(f"DELETE {{ ?s ?p ?o }} INSERT {{ ?s ?p ?n }} WHERE {{ ?s ?p ?o FILTER(?o > 1) BIND(?o + 10 AS ?n) }}")
    assert set(main.objects(A, P)) == {Literal(1), Literal(12), Literal(13)} and len(main) == 4
    main.commit()
    assert main.store.read.version == 2 and len(main) == 4
    assert len(NODES) == 12
