"""Random graphs and SPARQL queries over a small vocabulary, so that joins find something."""

from rdflib import BNode, Literal, URIRef
from rdflib.namespace import XSD

BASE = "http://example.org/"
NODES = [URIRef(f"{BASE}n{it}") for it in range(9)] + [BNode(f"b{it}") for it in range(3)]
PREDICATES = [URIRef(f"{BASE}p{it}") for it in range(4)]
VALUES = [Literal(it) for it in range(6)] + [Literal(it, lang="en") for it in "abc"] + [Literal(it) for it in "abc"]
VALUES += [Literal("1.5", datatype=XSD.decimal), Literal(True), Literal("2020-01-01", datatype=XSD.date)]


def triples(draw, many):
    """So many triples at most."""
    return {(draw.choice(NODES), draw.choice(PREDICATES), draw.choice(NODES * 2 + VALUES)) for _ in range(many)}


def _node(draw, variables):
    return draw.choice([*variables, *variables, draw.choice(NODES[:9]).n3()])


def _path(draw, deep=2):
    one = draw.choice(PREDICATES).n3()
    if not deep or draw.random() < 0.3:
        return one
    two = _path(draw, deep - 1)
    form = draw.choice(["({}/{})", "({}|{})", "^{}", "({})*", "({})+", "({})?", "!({})", "({}/^{})"])
    if form == "!({})":
        return form.format(draw.choice(PREDICATES).n3())
    return form.format(two, one) if form.count("{}") == 2 else form.format(two)


def _patterns(draw, variables, paths=True):
    lines = []
    for _ in range(draw.choice([1, 1, 2, 2, 3])):
        subject = _node(draw, variables)
        object = draw.choice([_node(draw, variables), _node(draw, variables), draw.choice(VALUES).n3()])
        predicate = draw.choice(PREDICATES).n3()
        if paths and draw.random() < 0.25:
            predicate = _path(draw)
        elif draw.random() < 0.15:
            predicate = "?p"
        lines.append(f"{subject} {predicate} {object} .")
    return "\n  ".join(lines)


def _filter(draw, variables):
    one, two = draw.choice(variables), draw.choice(variables)
    tests = [f"{one} > 2", f"{one} != {two}", f"isIRI({one})", f"isLiteral({one})", f"lang({one}) = 'en'", f"str({one}) < str({two})"]
    tests += [f"EXISTS {{ {one} {draw.choice(PREDICATES).n3()} ?e }}", f"NOT EXISTS {{ {one} {draw.choice(PREDICATES).n3()} {two} }}"]
    tests += [f"datatype({one}) = <{XSD.integer}>", f"{one} IN (1, 2, {draw.choice(NODES[:9]).n3()})", f"regex(str({one}), '[1-4]$')"]
    return f"FILTER({draw.choice(tests)})"


def query(draw, paths=True):
    """A SELECT or ASK; where it says LIMIT its rows have one order."""
    variables = ["?a", "?b", "?c"][: draw.choice([2, 3, 3])]
    where = [_patterns(draw, variables, paths)]
    for _ in range(draw.choice([0, 1, 1, 2])):
        more = _patterns(draw, variables, paths)
        where.append(draw.choice([_filter(draw, variables), f"OPTIONAL {{ {more} }}", f"{{ {more} }} UNION {{ {_patterns(draw, variables, paths)} }}", f"MINUS {{ {more} }}"]))
    body = "\n  ".join(where)
    variables = [it for it in variables if it in body]
    kind = draw.random()
    if kind < 0.1 or not variables:
        return f"ASK {{\n  {body}\n}}"
    if kind < 0.3:
        one = draw.choice(variables)
        return f"SELECT {one} (COUNT(*) AS ?n) (COUNT(DISTINCT {variables[0]}) AS ?m) WHERE {{\n  {body}\n}} GROUP BY {one}"
    if kind < 0.5:
        return f"SELECT DISTINCT {' '.join(variables)} WHERE {{\n  {body}\n}} ORDER BY {' '.join(f'DESC({it})' for it in variables)} LIMIT 7"
    return f"SELECT {draw.choice(['', 'DISTINCT '])}{' '.join(variables)} WHERE {{\n  {body}\n}}"
