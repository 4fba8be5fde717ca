"""Terms and triples, and their lines: the profile of N-Triples of docs/FORMATS.md, read in any spelling and written in the canonical one."""

from __future__ import annotations

import re
from dataclasses import dataclass
from typing import IO, Iterable, Iterator, NamedTuple, Optional, Union

from .errors import BadTerm, BadTriple, TooLong

TERM_LIMIT = 1_048_576
LINE_LIMIT = 4_194_304
STRING = "http://www.w3.org/2001/XMLSchema#string"
_STRING_TYPE = f"^^<{STRING}>"


@dataclass(frozen=True)
class IRI:
    """An IRI by its characters, without the angle brackets. It may be relative: the store resolves none."""

    value: str

    def __str__(self) -> str:
        return spell(self)


@dataclass(frozen=True)
class Blank:
    """A blank node by its label, without `_:`. The label is its name in the whole store."""

    label: str

    def __str__(self) -> str:
        return spell(self)


@dataclass(frozen=True)
class Literal:
    """A literal: its string and either its type, an IRI's characters, or its language tag. Without both, and with the type `xsd:string`,
    it is one literal, which stands without a type."""

    value: str
    datatype: Optional[str] = None
    language: Optional[str] = None

    def __post_init__(self) -> None:
        if self.datatype == STRING:
            object.__setattr__(self, "datatype", None)

    def __str__(self) -> str:
        return spell(self)


Node = Union[IRI, Blank]
Term = Union[IRI, Blank, Literal]


class Triple(NamedTuple):
    """A subject, a predicate and an object."""

    subject: Node
    predicate: IRI
    object: Term

    def __str__(self) -> str:
        return spell_triple(self)


class Change(NamedTuple):
    """A line of a body: a triple, and whether it is to stand or to go."""

    stands: bool
    triple: Triple


#: What is taken where a term is asked for: a term, or one in any of its spellings in N-Triples.
TermLike = Union[IRI, Blank, Literal, str]
#: What is taken where a triple is asked for.
TripleLike = Union[Triple, tuple[TermLike, TermLike, TermLike]]
#: What is taken as a body: triples and changes, or N-Triples as a text, or in a file that is open for bytes.
BodyLike = Union[Iterable[Union[TripleLike, Change]], str, bytes, IO[bytes]]
#: What is taken where a pattern is asked for: None and "*" stand for any term.
Wanted = Optional[TermLike]

_BASE = (
    "A-Za-z\u00c0-\u00d6\u00d8-\u00f6\u00f8-\u02ff\u0370-\u037d\u037f-\u1fff\u200c-\u200d\u2070-\u218f\u2c00-\u2fef\u3001-\ud7ff"
    "\uf900-\ufdcf\ufdf0-\ufffd\U00010000-\U000effff"
)
_FIRST = f"[{_BASE}_:0-9]"
_LATER = f"[{_BASE}_:0-9\\-\u00b7\u0300-\u036f\u203f-\u2040]"
_LABEL = f"{_FIRST}(?:(?:{_LATER}|\\.)*{_LATER})?"
_LANGUAGE = "[a-zA-Z]+(?:-[a-zA-Z0-9]+)*"
_NUMBER = r"u[0-9A-Fa-f]{4}|U[0-9A-Fa-f]{8}"
_IN_IRI = '[^\x00-\x20<>"{}|^`\\\\]*'
_IRI = rf"{_IN_IRI}(?:\\(?:{_NUMBER}){_IN_IRI})*"
_IN_STRING = r'[^"\\\n\r]*'
_STRING = rf'{_IN_STRING}(?:\\(?:[tbnrf"\'\\]|{_NUMBER}){_IN_STRING})*'
_TERM = rf'<({_IRI})>|_:({_LABEL})|"({_STRING})"(?:\^\^<({_IRI})>|@({_LANGUAGE}))?'

_IS_TERM = re.compile(_TERM)
_IS_LABEL = re.compile(_LABEL)
_IS_LANGUAGE = re.compile(_LANGUAGE)
_IS_LINE = re.compile(rf"[ \t]*(?:([+-])[ \t]*)?((?:<{_IRI}>|_:{_LABEL}))[ \t]*(<{_IRI}>)[ \t]*({_TERM})[ \t]*\.[ \t]*(?:#.*)?", re.DOTALL)
_SAYS_NOTHING = re.compile(r"[ \t]*(?:#.*)?", re.DOTALL)

_ESCAPE = re.compile(rf"\\(?:({_NUMBER})|(.))", re.DOTALL)
_ESCAPED = {"t": "\t", "b": "\b", "n": "\n", "r": "\r", "f": "\f", '"': '"', "'": "'", "\\": "\\"}
_NOT_IN_IRI = re.compile('[\x00-\x20<>"{}|^`\\\\]')
_NOT_IN_STRING = re.compile('["\\\\\n\r]')
_CANONICAL_ESCAPE = {'"': '\\"', "\\": "\\\\", "\n": "\\n", "\r": "\\r"}


def _character(found: re.Match[str]) -> str:
    if not found[1]:
        return _ESCAPED[found[2]]
    number = int(found[1][1:], 16)
    if number > 0x10FFFF or 0xD800 <= number <= 0xDFFF:
        raise BadTerm(f"{found[0]} is no character")
    return chr(number)


def _read_escapes(text: str) -> str:
    return _ESCAPE.sub(_character, text) if "\\" in text else text


def _spell_iri(value: str) -> str:
    return f"<{_NOT_IN_IRI.sub(lambda found: f'{chr(92)}u{ord(found[0]):04X}', value)}>"


def _spell_string(value: str) -> str:
    return f'"{_NOT_IN_STRING.sub(lambda found: _CANONICAL_ESCAPE[found[0]], value)}"'


def spell(term: Term) -> str:
    """The canonical spelling of a term. `BadTerm` where there is none: it has half a surrogate pair, its label or language tag is none,
    or it is over the limit."""
    if isinstance(term, IRI):
        text = _spell_iri(_text(term.value))
    elif isinstance(term, Blank):
        if not _IS_LABEL.fullmatch(_text(term.label)):
            raise BadTerm(f"no label of a blank node: {term.label[:80]!r}")
        text = f"_:{term.label}"
    elif isinstance(term, Literal):
        text = _spell_string(_text(term.value))
        if term.language is not None:
            if term.datatype is not None:
                raise BadTerm("a literal has a type or a language tag, not both")
            if not _IS_LANGUAGE.fullmatch(_text(term.language)):
                raise BadTerm(f"no language tag: {term.language[:80]!r}")
            text += f"@{term.language}"
        elif term.datatype is not None:
            text += f"^^{_spell_iri(_text(term.datatype))}"
    else:
        raise BadTerm(f"no term: {type(term).__name__}")
    return _within_limit(text)


def _within_limit(text: str) -> str:
    if text.isascii():
        length = len(text)
    else:
        try:
            length = len(text.encode())
        except UnicodeEncodeError:
            raise BadTerm(f"half a surrogate pair is no character: {text[:80]!r}") from None
    if length > TERM_LIMIT:
        raise BadTerm(f"a term of {length} bytes, and {TERM_LIMIT} is the limit")
    return text


def _text(value: object) -> str:
    if not isinstance(value, str):
        raise BadTerm(f"no text: {type(value).__name__}")
    return value


def read_term(text: str) -> Term:
    """The term that N-Triples spells so. `BadTerm` where it spells none."""
    found = _IS_TERM.fullmatch(text)
    if not found:
        raise BadTerm(f"no term: {text[:80]!r}")
    return _term(found, 1)


def _term(found: re.Match[str], at: int) -> Term:
    """The term of the five groups of a match from this one on."""
    iri, label, value, datatype, language = (found[at + it] for it in range(5))
    if iri is not None:
        return IRI(_read_escapes(iri))
    if label is not None:
        return Blank(label)
    return Literal(_read_escapes(value), None if datatype is None else _read_escapes(datatype), language)


def spelled(term: TermLike) -> str:
    """The canonical spelling of a term, or of one in any spelling."""
    if not isinstance(term, str):
        return spell(term)
    if not _IS_TERM.fullmatch(term):
        raise BadTerm(f"no term: {term[:80]!r}")
    return _canonical(term)


def _canonical(text: str) -> str:
    """The canonical spelling of a term by one that keeps to the grammar: the same, but for escapes and the type that is left out."""
    if "\\" in text or text.endswith(_STRING_TYPE):
        return spell(read_term(text))
    return _within_limit(text)


def spelled_triple(triple: TripleLike) -> str:
    """The line of a triple without its end: canonical terms, one space between, and a dot. `BadTerm` where it is no triple."""
    if not isinstance(triple, tuple) or len(triple) != 3:
        raise BadTerm(f"no triple: {triple!r:.80}")
    subject, predicate, object = map(spelled, triple)
    if subject[0] == '"':
        raise BadTerm("a literal is no subject")
    if predicate[0] != "<":
        raise BadTerm("a predicate is an IRI")
    return f"{subject} {predicate} {object} ."


def spell_triple(triple: Triple) -> str:
    """The line of a triple, without its end."""
    return spelled_triple(triple)


def spelled_pattern(subject: Wanted, predicate: Wanted, object: Wanted) -> str:
    """The three words of a pattern: canonical terms, and `*` for None and for `*`."""
    words = ["*" if it is None or it == "*" else spelled(it) for it in (subject, predicate, object)]
    if words[0][0] == '"':
        raise BadTerm("a literal is no subject")
    if words[1][0] not in "<*":
        raise BadTerm("a predicate is an IRI")
    return " ".join(words)


def read_triple(line: str) -> Triple:
    """The triple of a line as the store writes them: canonical terms, one space between, and a dot. `ValueError` where it is none."""
    subject, predicate, rest = line.split(" ", 2)
    if rest[-2:] != " .":
        raise ValueError(f"no triple: {line[:80]!r}")
    one, two = read_canonical(subject), read_canonical(predicate)
    if isinstance(one, Literal) or not isinstance(two, IRI):
        raise ValueError(f"no triple: {line[:80]!r}")
    return Triple(one, two, read_canonical(rest[:-2]))


def read_canonical(text: str) -> Term:
    """The term of a canonical spelling. In one the last quote closes the string: those of a type are escaped."""
    if text[0] == "<" and text[-1] == ">":
        return IRI(_read_escapes(text[1:-1]))
    if text[:2] == "_:":
        return Blank(text[2:])
    close = text.rindex('"')
    if text[0] != '"' or close == 0:
        raise ValueError(f"no term: {text[:80]!r}")
    value, rest = _read_escapes(text[1:close]), text[close + 1 :]
    if not rest:
        return Literal(value)
    if rest[0] == "@":
        return Literal(value, language=rest[1:])
    if rest[:3] == "^^<" and rest[-1] == ">":
        return Literal(value, _read_escapes(rest[3:-1]))
    raise ValueError(f"no term: {text[:80]!r}")


def cut_lines(pieces: Iterable[bytes]) -> Iterator[bytes]:
    """The lines of a text in pieces: they end at LF, CR LF or CR, and come without their ends."""
    left = b""
    for piece in pieces:
        left = left + piece if left else piece
        # A CR at the end may be half of a CR LF.
        held = left[-1:] if left.endswith(b"\r") else b""
        *whole, left = (left[:-1] if held else left).replace(b"\r\n", b"\n").replace(b"\r", b"\n").split(b"\n")
        left += held
        yield from whole
    if left:
        yield left[:-1] if left.endswith(b"\r") else left


def read(text: Union[str, bytes, Iterable[bytes]]) -> Iterator[Change]:
    """The triples of a text of N-Triples, or of a file of it that is open for bytes, each with its sign; a line without one says that
    its triple is to stand. `BadTriple` and `TooLong` with the first line at fault, counted from 1."""
    return (Change(line[0] == "+", read_triple(line[2:])) for line in _spelled_lines(text))


def body_lines(body: BodyLike) -> Iterator[str]:
    """The lines of a body, spelled anew: a sign, a space, and the line of a triple without its end."""
    if isinstance(body, (str, bytes)) or hasattr(body, "read"):
        yield from _spelled_lines(body)  # type: ignore[arg-type]
        return
    it: Union[TripleLike, Change]
    for it in body:
        stands, triple = it if isinstance(it, Change) else (True, it)
        yield f"{'+' if stands else '-'} {spelled_triple(triple)}"


def _spelled_lines(text: Union[str, bytes, Iterable[bytes]]) -> Iterator[str]:
    if isinstance(text, str):
        try:
            text = text.encode()
        except UnicodeEncodeError:
            raise BadTerm("half a surrogate pair is no character") from None
    for number, line in enumerate(cut_lines([text] if isinstance(text, bytes) else text), 1):
        if len(line) > LINE_LIMIT:
            raise TooLong(f"too-long {number}")
        try:
            decoded = line.decode()
            found = _IS_LINE.fullmatch(decoded)
            if found:
                terms = [_escapes_say_characters(it) for it in found.group(2, 3, 4)]
            elif _SAYS_NOTHING.fullmatch(decoded):
                continue
            else:
                raise BadTriple(f"bad-triple {number}")
        except (UnicodeDecodeError, BadTerm):
            raise BadTriple(f"bad-triple {number}") from None
        try:
            yield f"{found[1] or '+'} {' '.join(map(_canonical, terms))} ."
        except BadTerm:
            raise TooLong(f"too-long {number}") from None


def _escapes_say_characters(text: str) -> str:
    """The text of a term as it stands. `BadTerm` where one of its escapes is no character."""
    _read_escapes(text)
    return text
