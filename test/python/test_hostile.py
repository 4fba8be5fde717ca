"""Nothing that a caller gives reaches the script as text; and the client's reading of N-Triples is the program's."""

import re
import subprocess

import pytest
import tstore
from tstore import IRI, Blank, Label, Literal, Triple

EVIL = [
    "\nend\nlabel set main 1 none\n",
    "\r\nlabel new evil\r\n",
    "> <p> <o> .\nend\nlabel new evil\nbase\n<a",
    '" .\nend\nlabel new evil\n',
    "\\",
    '\\"',
    "\\u000Aend",
    " * ",
    "*",
    "@main",
    "\t",
    "\x00\x01\x1f\x7f\x80",
    "\x85\u2028\u2029\u00a0\ufeff",
    "\U0010ffff\ufffe",
    "+ <a> <p> <b> .",
    "- ",
    "# no",
    "",
    "e\u0301",
    "<a>",
    "_:b",
    "'\"`{}|^",
]
NAMES = ["", " ", "a b", "a\nlabel new evil", "a\n", ".a", "a/b", 'a"b', "a" * 201, "é", "a\tb", "a\x00", "a\r", None, 7, b"a"]
LAYERS = ["", "1", "0000001", "000000001", "0000000A", "00000001\n", " 00000001", "last", "none", "@", "@a b", "@a\nlabels", "@.x", None, 1, b"00000001"]


@pytest.fixture
def main(store):
    store.new_label("main")
    store.set_label("main", 0, store.base([("<a>", "<p>", "<b>")]))
    yield store
    assert store.labels() == [Label("main", 1, "00000001")]


def test_terms(main):
    triples = [Triple(IRI(one), IRI(two), Literal(one, two)) for one in EVIL for two in EVIL[:4]]
    triples += [Triple(Blank("b"), IRI("p"), Literal(it)) for it in EVIL] + [Triple(IRI("a"), IRI("p"), IRI(it)) for it in EVIL]
    layer = main.base(triples)
    assert set(main.list(layer)) == set(triples)
    for it in triples:
        assert main.has(layer, it) and main.count(layer, *it) == 1 and list(main.cursor(layer, *it)) == list(main.list(layer, *it)) == [it]
        assert list(tstore.read(str(it))) == [(True, it)] and tstore.read_term(str(it.object)) == it.object
    assert main.count(main.commit(layer, remove=triples)) == 0


def test_terms_that_are_none(main):
    bad = [Blank(it) for it in EVIL if it not in ("e\u0301", "_:b")] + [Blank("a."), Blank(".a"), Blank("-a"), Blank("a\n"), Blank(None), Blank("\ud800")]
    bad += [Literal("a", language=it) for it in EVIL + ["en\n", "en-", "1", "e n", "é", "\ud800"]]
    bad += [Literal("a", "t", "en"), Literal(None), IRI(None), IRI("\ud800"), Literal("\udfff"), Literal("a", "\ud800"), Literal("a", 5)]
    bad += ["a", "<a", "<a b>", "<a\n>", '"a', '"a\n"', '"a"@', '"\\x"', '"\\uD800"', '"\\U00110000"', "_:", "_:a.", "<a>\n", " <a>", "", None, 5, b"<a>"]
    bad += [IRI("a" * 1_048_575), Literal("a" * 1_048_575), Literal('"' * 524_288), '"' + "é" * 524_288 + '"']
    for it in bad:
        for triple in ((it, "<p>", "<o>"), ("<s>", it, "<o>"), ("<s>", "<p>", it)):
            for call in (lambda: main.base([triple]), lambda: main.commit("@main", remove=[triple]), lambda: main.has("@main", triple)):
                with pytest.raises(tstore.BadTerm):
                    call()
        if it is not None:
            with pytest.raises(tstore.BadTerm):
                main.list("@main", None, None, it)
    for triple in (('"a"', "<p>", "<o>"), ("<s>", '"p"', "<o>"), ("<s>", "_:p", "<o>"), ("<s>", "<p>"), "<s>", ["<s>", "<p>", "<o>"], None):
        with pytest.raises(tstore.BadTerm):
            main.base([triple])
    largest = Literal("a" * 1_048_574)
    layer = main.base([Triple(IRI("a" * 1_048_574), IRI("b" * 1_048_574), largest)])
    assert main.count(layer, object=largest) == 1 and len(next(main.list(layer)).subject.value) == 1_048_574


def test_names(main):
    for it in NAMES:
        for call in (main.new_label, main.label, lambda name: main.set_label(name, 0, None)):
            with pytest.raises(tstore.BadName):
                call(it)
    for it in LAYERS:
        for call in (main.list, main.count, main.cursor, main.commit, main.squash, lambda ref: main.has(ref, ("<a>", "<p>", "<b>"))):
            with pytest.raises(tstore.BadName):
                call(it)
        for call in (main.added, main.removed, lambda layer: layer is None or main.set_label("main", 1, layer)):
            if it is not None:
                with pytest.raises(tstore.BadName):
                    call(it)
    for it in (-1, 2**64, "1", 1.0, None, True, "1\nlabels"):
        with pytest.raises(tstore.BadName):
            main.set_label("main", it, "00000001")


PARTS = """<a> <b> <http://e/\u00e9> <\\u00E9> <\\U0001F600> <a\\u0020b> <\\uD800> <\\U00110000> <a\\n> <a^b> <a|b> <> <a b> _:a _:a. _:a.b _:a..b _:-a _:0 _:: _:\u00b7
_:a\u00b7 _:\u00d7 "x" "x"@en "x"@en-a1 "x"@en- "x"@1 "x"^^<t> "x"^^ "x"^^<a\\u000Ab> "x"^^<http://www.w3.org/2001/XMLSchema#string> "\\u0022" "\\"" "\\\\" "\\'" "\\x"
"\\uDFFF" "\t" "a\u2028b" "a\x0bb" "\u00e9"@fr 'x' . . . .. , ; + - # #x \t \t \xa0 \x0b end end. \ufeff \x00 * @main""".split(" ")


SUBJECTS = ["<a>", "_:a", "_:a.b", "_:0", "_::", "<\\u00E9>", "<>", "_:a\u00b7"]
PREDICATES = ["<a>", "<>", "<http://e/\u00e9>", "<a\\u0020b>"]
OBJECTS = [*SUBJECTS, '"x"', '"x"@en', '"x"@en-a1', '"x"^^<t>', '"x"^^<a\\u000Ab>', '"x"^^<http://www.w3.org/2001/XMLSchema#string>', '"\\u0078"', '"\\""', '"\\\\"', '"\t"']


def line_of(draw):
    """A line of a body, with something wrong in it now and then."""
    blank = draw.choice(["", " ", " ", "\t"])
    line = [draw.choice(["", "+", "-"]), draw.choice(SUBJECTS), draw.choice(PREDICATES), draw.choice(OBJECTS), ".", draw.choice(["", "# x"])]
    for _ in range(draw.choice([0, 0, 0, 1, 2])):
        line[draw.randrange(6)] = draw.choice(PARTS)
    return blank.join(line).replace("\n", "") if draw.random() < 0.9 else draw.choice(PARTS).replace("\n", "")


def test_the_client_reads_lines_as_the_program_does(folder, draw):
    """Bodies as they are, by a single command each, beside the client's reading of them."""
    refused = 0
    for _ in range(400):
        text = "".join(line_of(draw) + draw.choice(["\n", "\r\n", "\r"]) for _ in range(draw.choice([1, 1, 1, 2, 5]))).encode()
        if draw.random() < 0.1:
            text = text.replace(b"b", draw.choice([b"\xff", b"\xc0\x80", b"\xed\xa0\x80", b"\xe2\x80"]))
        told = subprocess.run([tstore.launch.launcher(), "base"], cwd=folder, input=text, capture_output=True, check=False).stdout.decode()
        try:
            mine = {}
            for it in tstore.read(text):
                mine[it.triple] = it.stands
        except tstore.Refused as error:
            assert told == f"{error}\n", text
            refused += 1
            continue
        layer = re.fullmatch("layer ([0-9a-f]{8})\n", told)
        assert layer, (told, text)
        listing = subprocess.run([tstore.launch.launcher(), "list", layer[1]], cwd=folder, capture_output=True, check=True).stdout.decode()
        assert {it for it, stands in mine.items() if stands} == {it.triple for it in tstore.read(listing.rpartition("total ")[0])}, text
        for it in folder.iterdir():
            it.unlink()
    assert 50 < refused < 350


def test_the_lines_of_a_text_however_it_is_cut(draw):
    for _ in range(300):
        text = bytes(draw.choice(b"ab\r\n") for _ in range(draw.randrange(12)))
        cut = [text[it : it + 1] for it in range(len(text))] if draw.random() < 0.5 else [text]
        whole = text.replace(b"\r\n", b"\n").replace(b"\r", b"\n").split(b"\n")
        assert list(tstore.terms.cut_lines(cut)) == (whole[:-1] if not whole[-1] else whole)


def test_lines_over_the_limit(store):
    comment = "#" + "x" * 4_194_303
    assert store.count(store.base(f"{comment}\n<a> <p> <b> .")) == 1
    with pytest.raises(tstore.TooLong) as long:
        store.base(f"<a> <p> <b> .\n{comment}x\n")
    assert long.value.told == "2"
    with pytest.raises(tstore.TooLong):
        store.base(f"<a> <p> \"{'a' * 1_048_575}\" .")


def random_term(draw, kinds="iil"):
    text = "".join(chr(draw.choice([draw.randrange(0x80), draw.randrange(0x80), draw.randrange(0xD800), draw.randrange(0xE000, 0x110000)])) for _ in range(draw.randrange(9)))
    kind = draw.choice(kinds)
    if kind == "i":
        return IRI(text)
    if kind == "b":
        return Blank(f"b{draw.randrange(99)}")
    return Literal(text, *draw.choice([(None, None), (text[::-1], None), (None, draw.choice(["en", "EN", "de-CH", "x-1"]))]))


def test_random_triples_written_and_read_back(main, draw):
    triples = {Triple(random_term(draw, "ib"), random_term(draw, "i"), random_term(draw, "ibll")) for _ in range(3000)}
    layer = main.base(triples)
    assert set(main.list(layer)) == triples == set(main.cursor(layer, size=700))
    assert {it.triple for it in tstore.read(main.list(layer).pieces())} == triples
    some = draw.sample(sorted(triples, key=str), 200)
    assert set(main.list(main.commit(layer, remove=some))) == triples - set(some)
    assert all(main.has(layer, tuple(map(str, it))) for it in some)
