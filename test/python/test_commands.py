"""Each command by its method, each refusal by its exception."""

import threading

import pytest
import tstore
from tstore import IRI, Blank, Change, Label, Layer, Literal, Triple

CAFE = Triple(IRI("cafe"), IRI("name"), Literal("Café", language="fr"))
NEAR = Triple(IRI("cafe"), IRI("near"), Blank("square"))
SEATS = Triple(IRI("cafe"), IRI("seats"), Literal("42", "http://www.w3.org/2001/XMLSchema#integer"))


def history(store):
    one = store.base([CAFE, NEAR])
    return one, store.commit(one, add=[SEATS], remove=[NEAR])


def test_layers(store):
    one, two = history(store)
    assert (one, two) == ("00000001", "00000002")
    three = store.squash(two)
    assert store.layers() == [Layer(one, None), Layer(two, one), Layer(three, None)]
    assert list(store.list(one)) == [CAFE, NEAR] or set(store.list(one)) == {CAFE, NEAR}
    assert list(store.list(two)) == [CAFE, SEATS] == list(store.list(three))
    assert list(store.added(two)) == [SEATS] and list(store.removed(two)) == [NEAR]
    assert list(store.removed(one)) == []


def test_patterns(store):
    one, _ = history(store)
    assert list(store.list(one, None, "<near>", None)) == [NEAR] == list(store.list(one, "*", "*", "_:square"))
    assert store.count(one) == store.count(one, IRI("cafe")) == 2
    assert store.count(one, object=CAFE.object) == store.count(one, object='"Caf\\u00E9"@fr') == 1
    assert store.count(one, object='"Café"@FR') == store.count(one, object="<cafe>") == 0
    assert store.has(one, CAFE) and not store.has(one, SEATS) and store.has(one, ("<cafe>", "<near>", "_:square"))


def test_bodies(store, tmp_path):
    text = "# a page\r\n<a> <p> <b> .\r+ <a> <p> \"x\\ty\"@en . # so\n\t\n- <a> <p> <b>.<a2>"
    with pytest.raises(tstore.BadTriple) as bad:
        store.base(text)
    assert bad.value.told == "5" and str(bad.value) == "refused bad-triple 5"
    one = store.base(text[:-4])
    assert [str(it) for it in store.list(one)] == ['<a> <p> "x\ty"@en .']
    file = tmp_path / "body.nt"
    file.write_bytes(text[:-4].encode())
    with file.open("rb") as body:
        two = store.base(body)
    assert list(store.list(two)) == list(store.list(one)) == list(store.list(store.base(text[:-4].encode())))
    three = store.commit(two, [Change(False, Triple(IRI("a"), IRI("p"), Literal("x\ty", language="en"))), ("<a>", "<p>", "<c>")])
    assert [str(it) for it in store.list(three)] == ["<a> <p> <c> ."]
    both = store.commit(three, add=[("<a>", "<p>", "<c>")], remove=[("<a>", "<p>", "<c>")])
    assert store.count(both) == 1
    assert store.count(store.base(())) == 0
    assert list(store.list(store.base(tstore.read("<a> <p> <c> .")))) == list(store.list(three))
    # A literal of xsd:string is a plain one, and two spellings are one term.
    four = store.base('<a> <p> "\\u0061"^^<http://www.w3.org/2001/XMLSchema#string> . <a> <p> "a" .'.replace(". <", ".\n<"))
    assert list(store.list(four)) == [Triple(IRI("a"), IRI("p"), Literal("a"))]


def test_a_body_may_ask_the_store_that_it_is_for(store):
    one = store.base((f"<s{it}>", "<p>", "<o>") for it in range(3000))
    two = store.base(store.list(one))
    three = store.commit(two, remove=store.cursor(two, size=7))
    assert store.count(two) == 3000 and store.count(three) == 0


def test_a_body_that_fails_is_no_body(store):
    def body():
        yield CAFE
        raise ZeroDivisionError

    with pytest.raises(ZeroDivisionError):
        store.base(body())
    assert store.layers() == [] and store.base([CAFE]) == "00000001"


def test_labels(store):
    one, two = history(store)
    assert store.new_label("main") == Label("main", 0, None) == store.label("main")
    assert store.set_label("main", 0, one) == Label("main", 1, one)
    assert store.count("@main") == 2
    assert store.set_label("main", 1, None) == Label("main", 2, None)
    assert store.new_label("b#?%@!") == Label("b#?%@!", 0, None)
    assert store.labels() == [Label("b#?%@!", 0, None), Label("main", 2, None)]
    store.set_label("b#?%@!", 0, two)
    assert set(store.list("@b#?%@!")) == {CAFE, SEATS}


def test_refusals(folder):
    (folder / "end.label").write_text("18446744073709551615\nnone\n")
    with tstore.open(folder) as store:
        one = store.base([CAFE])
        store.new_label("main")
        for words, call in {
            "no-layer 00000009": lambda: store.list("00000009"),
            "no-layer 0000000a": lambda: store.added("0000000a"),
            "no-layer 00000008": lambda: store.set_label("main", 0, "00000008"),
            "no-label other": lambda: store.count("@other"),
            "empty-label main": lambda: store.commit("@main", [NEAR]),
            "label-exists main": lambda: store.new_label("main"),
            "stale main 0": lambda: store.set_label("main", 1, one),
            "version-end end": lambda: store.set_label("end", 18446744073709551615, one),
        }.items():
            with pytest.raises(tstore.Refused) as refused:
                call()
            kind = "".join(it.capitalize() for it in words.split(" ")[0].split("-"))
            assert refused.value.words == words and type(refused.value) is getattr(tstore, kind)
            assert refused.value.told == words.split(" ")[1]
        assert store.labels() == [Label("end", 2**64 - 1, None), Label("main", 0, None)]
    (folder / "ffffffff.layer").write_text("plain ffffffff none\n")
    with tstore.open(folder) as store:
        with pytest.raises(tstore.Full):
            store.base([CAFE])
        with pytest.raises(tstore.Full):
            store.squash("ffffffff")
        with pytest.raises(tstore.Stale) as stale:
            store.set_label("main", 7, None)
        assert stale.value.current == 0


def test_cursors(store):
    one = store.base((f"<s{it:04}>", "<p>", f'"{it}"') for it in range(2500))
    listing = list(store.list(one))
    assert list(store.cursor(one)) == list(store.cursor(one, size=1)) == list(store.cursor(one, size=65536)) == listing
    with store.cursor(one) as cursor:
        assert cursor.fetch(3) == listing[:3] and next(cursor) == listing[3] and cursor.fetch(2000) == listing[4:2004]
        assert b"".join(cursor.pieces()).decode() == "".join(f"{it}\n" for it in listing[2004:])
        assert cursor.fetch(5) == [] == list(cursor) and not cursor.is_open
    with store.list(one) as some:
        assert next(some) == listing[0]
    assert list(some) == []
    assert b"".join(store.list(one).pieces()).count(b"\n") == 2500
    many = [store.cursor(one) for _ in range(64)]
    with pytest.raises(tstore.CursorsFull):
        store.cursor(one)
    many[5].close()
    assert next(store.cursor(one)) == listing[0]
    del many
    for _ in range(200):
        next(store.cursor(one))
    for size in (0, 65537):
        with pytest.raises(ValueError):
            store.cursor(one, size=size)


def test_a_reader_at_an_open_cursor_during_a_hundred_commits(store):
    layer = store.base((f"<s{it:04}>", "<p>", "<o>") for it in range(1000))
    store.new_label("main")
    store.set_label("main", 0, layer)
    before = list(store.list("@main"))
    cursor = store.cursor("@main", size=9)
    seen = []
    for it in range(100):
        layer = store.commit("@main", [(f"<s{it:04}>", "<q>", "<o>")], remove=[(f"<s{it:04}>", "<p>", "<o>")])
        store.set_label("main", it + 1, layer)
        seen += cursor.fetch(10)
    assert seen == before and store.count("@main", predicate="<p>") == 900


def test_listings_in_one_another(store):
    """Each is told in one reply of which a part is in the pipe; what is left of it is kept while another command is done."""
    one = store.base((f"<s{it % 100}>", f"<p{it % 7}>", f"<o{it}>") for it in range(20000))
    listing = list(store.list(one))
    found = [other for it in store.list(one, None, None, "<o5>") for other in store.list(one, it.subject)]
    assert found == [it for it in listing if it.subject == IRI("s5")] and len(found) == 200
    half, other = store.list(one), store.list(one)
    assert [next(half), next(other)] == [listing[0]] * 2
    assert store.count(one) == 20000
    assert list(half) == list(other) == listing[1:]


def test_threads_share_a_store(store):
    one = store.base((f"<s{it}>", "<p>", "<o>") for it in range(3000))
    wrong = []

    def work(number):
        for it in range(30):
            if store.count(one) != 3000 or sum(1 for _ in store.cursor(one, size=500)) != 3000 or not store.has(one, (f"<s{it}>", "<p>", "<o>")):
                wrong.append(number)

    threads = [threading.Thread(target=work, args=(it,)) for it in range(6)]
    for it in threads:
        it.start()
    for it in threads:
        it.join()
    assert not wrong


def test_reading_alone(folder, store):
    one = store.base([CAFE])
    store.close()
    with tstore.open(folder, read_only=True, wait=False) as first, tstore.open(folder, read_only=True, wait=False) as second:
        assert list(first.list(one)) == list(second.list(one)) == [CAFE]
        for call in (lambda: first.base([]), lambda: first.commit(one), lambda: first.squash(one), lambda: first.new_label("a")):
            with pytest.raises(tstore.ReadOnly):
                call()
        with pytest.raises(tstore.ReadOnly):
            first.set_label("a", 0, None)
        with pytest.raises(tstore.Held):
            tstore.open(folder, wait=False)


def test_a_folder_that_is_held(folder, store):
    with pytest.raises(tstore.Held):
        tstore.open(folder, wait=False)
    with pytest.raises(tstore.Held):
        tstore.open(folder, wait=False, read_only=True)
    later = threading.Timer(0.5, store.close)
    later.start()
    with tstore.open(folder) as other:
        assert store.is_closed and other.base([CAFE]) == "00000001"
    later.join()
    with pytest.raises(tstore.Closed):
        store.layers()


def test_where_there_is_no_program(folder, monkeypatch):
    with pytest.raises(tstore.NoProgram):
        tstore.open(folder, program="no-such-program")
    monkeypatch.setenv("TSTORE", str(folder / "none"))
    with pytest.raises(tstore.NoProgram):
        tstore.open(folder)
    monkeypatch.undo()
    with pytest.raises(FileNotFoundError):
        tstore.open(folder / "none")
