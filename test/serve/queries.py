"""Over two hundred queries, by the features of SPARQL 1.1 Query: each of its operators comes at least three times, but for those that
an endpoint with one graph refuses."""

PREFIXES = """PREFIX e: <http://example.org/>
PREFIX t: <http://example.org/town/>
PREFIX s: <https://schema.org/>
PREFIX xsd: <http://www.w3.org/2001/XMLSchema#>
PREFIX rdf: <http://www.w3.org/1999/02/22-rdf-syntax-ns#>
"""


def _filters(*conditions: str) -> list[str]:
    """Conditions on the seats, the name and the rest of a cafe."""
    what = "?c s:seats ?n ; s:name ?name ; s:rating ?r ; s:opened ?d ; s:town ?t ; s:wifi ?w"
    return [f"SELECT ?c WHERE {{ {what} FILTER({it}) }}" for it in conditions]


def _values(*expressions: str) -> list[str]:
    """Values of expressions over all that has a name."""
    return [
        f"SELECT ?c ?name ({it} AS ?x) WHERE {{ ?c s:name ?name OPTIONAL {{ ?c s:seats ?n }} OPTIONAL {{ ?c s:opened ?d FILTER(?c != e:odd) }} }}"
        for it in expressions
    ]


PATTERNS = [
    "SELECT * WHERE { ?s ?p ?o }",
    "SELECT ?s ?o WHERE { ?s s:name ?o }",
    "SELECT ?p ?o WHERE { e:mokka ?p ?o }",
    "SELECT ?s WHERE { ?s s:town t:kiel }",
    "SELECT ?s WHERE { ?s ?p t:kiel }",
    'SELECT ?s WHERE { ?s s:name "Mokka"@de }',
    'SELECT ?s WHERE { ?s s:name "Mokka" }',
    "SELECT ?s WHERE { ?s s:seats 35 }",
    'SELECT ?s WHERE { ?s s:seats "007"^^xsd:integer }',
    "SELECT ?s WHERE { ?s s:rating 4.5 }",
    "SELECT ?s WHERE { ?s s:wifi true }",
    "SELECT ?c ?street WHERE { ?c s:address [ s:street ?street ] }",
    "SELECT ?c ?lat WHERE { ?c s:address/s:geo [ s:lat ?lat ; s:lon ?lon ] }",
    "SELECT ?c ?n ?t WHERE { ?c a s:Cafe ; s:name ?n ; s:town ?t }",
    "SELECT ?a ?b WHERE { ?a s:near ?b . ?b s:near ?c . ?c s:town t:kiel }",
    "SELECT ?a WHERE { ?a s:near ?a }",
    "SELECT ?a ?b WHERE { ?a s:town ?t . ?b s:town ?t }",
    "SELECT ?x WHERE { e:mokka s:near ?x ; a ?y , s:Cafe }",
    "SELECT * WHERE { }",
    "SELECT $s WHERE { $s s:name $n }",
    "BASE <http://example.org/> SELECT ?p WHERE { <mokka> ?p <mokka> }",
    "SELECT ?s WHERE { ?s s:name '''Mokka'''@de }",
    'SELECT ?s WHERE { ?s s:code "tab\\there" }',
]
GROUPS = [
    "SELECT ?c ?a WHERE { ?c a s:Cafe OPTIONAL { ?c s:address ?a } }",
    "SELECT ?c ?l WHERE { ?c s:name ?n OPTIONAL { ?c s:address/s:geo/s:lat ?l } }",
    "SELECT ?c ?n WHERE { ?c a s:Cafe OPTIONAL { ?c s:seats ?n FILTER(?n > 40) } }",
    "SELECT ?c ?a ?b WHERE { ?c a s:Cafe OPTIONAL { ?c s:near ?a OPTIONAL { ?a s:address ?b } } }",
    "SELECT ?x WHERE { { ?x a s:Cafe } UNION { ?x a s:City } }",
    "SELECT ?x ?n WHERE { { ?x s:seats ?n } UNION { ?x s:name ?n } UNION { ?x s:code ?n } }",
    "SELECT ?x WHERE { { ?x s:town t:kiel FILTER(?x != e:mokka) } UNION { ?x s:town t:luebeck } }",
    "SELECT ?x ?y WHERE { { ?x s:town ?y } { ?x s:wifi true } }",
    "SELECT ?c WHERE { ?c a s:Cafe MINUS { ?c s:town t:kiel } }",
    "SELECT ?c WHERE { ?c a s:Cafe MINUS { ?c s:near ?o . ?o s:wifi true } }",
    "SELECT ?c WHERE { ?c a s:Cafe MINUS { ?x s:nothing ?y } }",
    "SELECT ?c WHERE { ?c a s:Cafe FILTER NOT EXISTS { ?c s:address ?a } }",
    "SELECT ?c WHERE { ?c a s:Cafe FILTER NOT EXISTS { ?c s:near ?o . ?o s:town t:kiel } }",
    "SELECT ?c WHERE { ?c s:name ?n FILTER NOT EXISTS { ?c a s:Cafe } }",
    "SELECT ?c WHERE { ?c a s:Cafe FILTER EXISTS { ?c s:address ?a } }",
    "SELECT ?c WHERE { ?c a s:Cafe FILTER EXISTS { ?x s:near ?c . ?x s:wifi true } }",
    "SELECT ?c WHERE { ?c a s:Cafe FILTER EXISTS { ?c s:seats ?n FILTER(?n > 40) } }",
    "SELECT ?c ?d WHERE { ?c s:seats ?n BIND(?n * 2 AS ?d) }",
    'SELECT ?c ?l WHERE { ?c s:name ?n BIND(CONCAT(STR(?n), "!") AS ?l) }',
    "SELECT ?c ?x WHERE { ?c a s:Cafe BIND(IF(STRLEN(STR(?c)) > 24, 1, 0) AS ?x) }",
    "SELECT ?c ?n WHERE { VALUES ?c { e:mokka e:aurora e:none } ?c s:name ?n }",
    "SELECT ?c ?t WHERE { ?c s:town ?t VALUES (?c ?t) { (e:mokka t:kiel) (e:aurora UNDEF) (UNDEF t:flensburg) } }",
    'SELECT ?c ?n WHERE { ?c s:name ?n } VALUES ?n { "Mokka"@de "Kiel" }',
    "SELECT ?c ?m WHERE { ?c s:town ?t { SELECT ?t (MAX(?n) AS ?m) WHERE { ?x s:town ?t ; s:seats ?n } GROUP BY ?t } }",
    "SELECT ?c WHERE { { SELECT ?c WHERE { ?c a s:Cafe ; s:seats ?n } ORDER BY ?n LIMIT 1 } }",
    "SELECT ?n WHERE { { SELECT DISTINCT ?t WHERE { ?c s:town ?t } } ?t s:name ?n }",
    "SELECT ?a ?b WHERE { ?a s:near ?b FILTER(?a != ?b) }",
    "SELECT ?c ?x WHERE { ?c s:near ?x . { ?x s:town t:kiel } UNION { ?x s:town t:luebeck } OPTIONAL { ?x s:address ?y } FILTER(!BOUND(?y)) }",
]
PATHS = [
    "SELECT ?x ?n WHERE { ?x s:town/s:name ?n }",
    "SELECT ?x ?n WHERE { ?x s:town/s:in/s:name ?n }",
    "SELECT ?x ?y WHERE { ?x s:near/s:near ?y }",
    "SELECT ?x WHERE { t:kiel ^s:town ?x }",
    "SELECT ?x ?y WHERE { ?x ^s:near ?y }",
    "SELECT ?x ?y WHERE { ?x s:town/^s:town ?y }",
    "SELECT ?x ?y WHERE { ?x s:name|s:code ?y }",
    "SELECT ?x ?y WHERE { ?x (s:near|s:town)/s:name ?y }",
    "SELECT ?y WHERE { e:mokka s:near|s:town|s:address ?y }",
    "SELECT ?y WHERE { e:mokka s:near+ ?y }",
    "SELECT ?x ?y WHERE { ?x s:near+ ?y }",
    "SELECT ?x WHERE { ?x s:near+/s:town t:flensburg }",
    "SELECT ?y WHERE { e:bellevue s:near* ?y }",
    "SELECT ?x WHERE { ?x s:near* e:mokka }",
    "SELECT ?x ?y WHERE { ?x s:town/s:in* ?y }",
    "SELECT ?y WHERE { e:mokka s:near? ?y }",
    "SELECT ?x ?y WHERE { ?x a s:Cafe ; s:address? ?y }",
    "SELECT ?x ?y WHERE { ?x s:town/s:in? ?y }",
    "SELECT ?x ?y WHERE { ?x !(s:name|s:seats|rdf:type|s:rating|s:opened|s:wifi) ?y }",
    "SELECT ?y WHERE { e:mokka !s:near ?y }",
    "SELECT ?x ?y WHERE { ?x !(s:near|s:town) ?y FILTER(ISIRI(?y)) }",
    "SELECT ?x ?y WHERE { ?x (s:near/s:near)+ ?y }",
]
FORMS = [
    "ASK { e:mokka s:town t:kiel }",
    "ASK { e:mokka s:town t:flensburg }",
    "ASK { ?x s:seats ?n FILTER(?n > 70) }",
    "CONSTRUCT { ?x e:in ?n } WHERE { ?x s:town/s:name ?n }",
    "CONSTRUCT WHERE { ?x s:near ?y }",
    "CONSTRUCT { ?y e:nearer ?x . ?x a e:Thing } WHERE { ?x s:near ?y OPTIONAL { ?y s:address ?z } }",
    "CONSTRUCT { ?n e:of ?x } WHERE { ?x s:name ?n }",
    "SELECT DISTINCT ?t WHERE { ?c s:town ?t }",
    "SELECT DISTINCT ?p WHERE { ?s ?p ?o }",
    "SELECT DISTINCT ?n ?w WHERE { ?c s:seats ?n ; s:wifi ?w }",
    "SELECT REDUCED ?c WHERE { ?c s:rating ?r } ORDER BY ?c",
    "SELECT REDUCED ?t WHERE { ?c s:town ?t } ORDER BY ?t",
    "SELECT REDUCED ?n WHERE { ?c s:name ?n } ORDER BY STR(?n)",
    "SELECT ?c WHERE { ?c s:seats ?n FILTER(ISNUMERIC(?n)) } ORDER BY ?n ?c",
    "SELECT ?c ?r WHERE { ?c s:rating ?r } ORDER BY DESC(?r) ?c",
    "SELECT ?n WHERE { ?c s:name ?n } ORDER BY DESC(LANG(?n)) STR(?n)",
    "SELECT ?c ?n WHERE { ?c a s:Cafe ; s:name ?n } ORDER BY ASC(STRLEN(STR(?n))) ?c",
    "SELECT ?c WHERE { ?c a s:Cafe } ORDER BY ?c LIMIT 3",
    "SELECT ?c WHERE { ?c a s:Cafe } ORDER BY ?c LIMIT 2 OFFSET 2",
    "SELECT ?c WHERE { ?c a s:Cafe } ORDER BY DESC(?c) OFFSET 4",
    "SELECT ?c WHERE { ?c a s:Cafe } ORDER BY ?c OFFSET 1 LIMIT 1",
    "SELECT ?c WHERE { ?c a s:Cafe } LIMIT 0",
    "SELECT (?n AS ?seats) (?n + 1 AS ?more) WHERE { ?c a s:Cafe ; s:seats ?n }",
    "SELECT (STR(?c) AS ?text) WHERE { ?c a s:Cafe }",
    "SELECT (UCASE(STR(?n)) AS ?loud) ?n WHERE { ?c s:name ?n }",
]
GROUPED = [
    "SELECT (COUNT(*) AS ?n) WHERE { ?s ?p ?o }",
    "SELECT ?t (COUNT(?c) AS ?n) WHERE { ?c s:town ?t } GROUP BY ?t",
    "SELECT (COUNT(DISTINCT ?t) AS ?n) WHERE { ?c s:town ?t }",
    "SELECT ?p (COUNT(*) AS ?n) WHERE { ?s ?p ?o } GROUP BY ?p",
    "SELECT ?t (SUM(?n) AS ?all) WHERE { ?c s:town ?t ; s:seats ?n } GROUP BY ?t",
    "SELECT (SUM(?n) AS ?all) WHERE { ?c a s:Cafe ; s:seats ?n }",
    "SELECT (SUM(DISTINCT ?n) AS ?all) WHERE { ?c a s:Cafe ; s:seats ?n }",
    "SELECT ?t (AVG(?n) AS ?x) WHERE { ?c s:town ?t ; s:seats ?n } GROUP BY ?t",
    "SELECT (AVG(?r) AS ?x) WHERE { ?c a s:Cafe ; s:rating ?r }",
    "SELECT ?w (AVG(?n) AS ?x) WHERE { ?c a s:Cafe ; s:wifi ?w ; s:seats ?n } GROUP BY ?w",
    "SELECT ?t (MIN(?n) AS ?x) WHERE { ?c s:town ?t ; s:seats ?n } GROUP BY ?t",
    "SELECT (MIN(?r) AS ?x) WHERE { ?c a s:Cafe ; s:rating ?r }",
    "SELECT (MIN(?d) AS ?x) WHERE { ?c a s:Cafe ; s:opened ?d }",
    "SELECT ?t (MAX(?n) AS ?x) WHERE { ?c s:town ?t ; s:seats ?n } GROUP BY ?t",
    "SELECT (MAX(?r) AS ?x) (MIN(?r) AS ?y) WHERE { ?c a s:Cafe ; s:rating ?r }",
    "SELECT (MAX(?d) AS ?x) WHERE { ?c a s:Cafe ; s:opened ?d }",
    "SELECT ?t (SAMPLE(?t) AS ?x) WHERE { ?c s:town ?t } GROUP BY ?t",
    "SELECT (SAMPLE(?n) AS ?x) WHERE { e:mokka s:seats ?n }",
    "SELECT ?c (SAMPLE(?n) AS ?x) WHERE { ?c a s:Cafe ; s:seats ?n } GROUP BY ?c",
    "SELECT ?c (GROUP_CONCAT(?n) AS ?x) WHERE { ?c a s:Cafe ; s:seats ?n } GROUP BY ?c",
    'SELECT ?c (GROUP_CONCAT(STR(?n) ; SEPARATOR="|") AS ?x) WHERE { ?c a s:City ; s:name ?n } GROUP BY ?c',
    'SELECT (GROUP_CONCAT(DISTINCT ?w ; SEPARATOR=",") AS ?x) WHERE { e:mokka s:wifi ?w }',
    "SELECT ?t (COUNT(?c) AS ?n) WHERE { ?c s:town ?t } GROUP BY ?t HAVING(COUNT(?c) > 1)",
    "SELECT ?t WHERE { ?c s:town ?t ; s:seats ?n } GROUP BY ?t HAVING(SUM(?n) > 90)",
    "SELECT ?w (MAX(?n) AS ?x) WHERE { ?c a s:Cafe ; s:wifi ?w ; s:seats ?n } GROUP BY ?w HAVING(MAX(?n) >= 60)",
    "SELECT ?l (COUNT(*) AS ?n) WHERE { ?c s:name ?name } GROUP BY (LANG(?name) AS ?l)",
    "SELECT ?y (COUNT(*) AS ?n) WHERE { ?c a s:Cafe ; s:opened ?d } GROUP BY (YEAR(?d) AS ?y) ORDER BY ?y",
]
CONDITIONS = _filters(
    "?n = 35", "?n != 35", "?n > 35", "?n < 35", "?n >= 35", "?n <= 35", "?r = 4.5", "?r > 4 && ?n < 60", "?r > 4.6 || ?n < 30", "!(?n > 30)",
    "?w", "!?w", "?n + 5 = 40", "?n - 5 = 30", "?n * 2 = 70", "?n / 7 = 5", "-?n < -50", "+?n > 50", "?r * ?n > 200", "?n - 10 > 20 || ?r < 4",
    "?n IN (22, 35)", "?t IN (t:kiel, t:luebeck)", "?n NOT IN (22, 35)", "?t NOT IN (t:kiel)", "?n IN (1 + 21, 60)", "?t NOT IN (t:kiel, t:luebeck)",
    'REGEX(STR(?name), "^[A-M]")', 'REGEX(STR(?name), "MOK", "i")', 'REGEX(STR(?t), "el$")', "isIRI(?t)", "isURI(?c)", "isBLANK(?t)", "isLITERAL(?name)", "isNUMERIC(?n)",
    "BOUND(?n)", "!BOUND(?zz)", "sameTerm(?t, t:kiel)", "sameTerm(?n, 35)", '!sameTerm(?name, "Mokka"@de)', 'LANGMATCHES(LANG(?name), "de")', 'LANGMATCHES(LANG(?name), "*")', 'LANG(?name) = "it"',
    'CONTAINS(STR(?name), "o")', 'STRSTARTS(STR(?name), "B")', 'STRENDS(STR(?name), "a")', '?d > "2020-01-01T00:00:00Z"^^xsd:dateTime', "YEAR(?d) = 2021", "MONTH(?d) < 6", "DAY(?d) = 11", "HOURS(?d) > 7",
    "MINUTES(?d) = 30", "SECONDS(?d) > 1", "DATATYPE(?n) = xsd:integer", "?n = 35.0", "COALESCE(?zz, ?n) > 50", "IF(?w, ?n > 30, ?n > 70)",
)  # fmt: skip
EXPRESSIONS = _values(
    "STR(?name)", "STR(?c)", "LANG(?name)", "DATATYPE(?name)", "DATATYPE(?n)", "DATATYPE(?d)", "STRLEN(?name)", "STRLEN(STR(?c))", "UCASE(?name)", "LCASE(?name)",
    "UCASE(STR(?n))", "LCASE(STR(?c))", "SUBSTR(?name, 2)", "SUBSTR(STR(?name), 1, 2)", "SUBSTR(STR(?c), 8)", 'STRBEFORE(?name, "e")', 'STRBEFORE(STR(?c), "/")', 'STRBEFORE(STR(?name), "zz")', 'STRAFTER(STR(?c), "//")', 'STRAFTER(?name, "l")',
    'STRAFTER(STR(?name), "")', 'CONCAT(STR(?name), "-", STR(?c))', 'CONCAT("a", "b")', "CONCAT(STR(?c))", 'REPLACE(STR(?name), "[aeiou]", "*")', 'REPLACE(STR(?name), "L", "x", "i")', 'REPLACE(STR(?c), "http", "ftp")', "ENCODE_FOR_URI(STR(?name))", "ENCODE_FOR_URI(STR(?c))", 'ENCODE_FOR_URI("ü/ ?")',
    "ABS(?n - 40)", "ABS(-1.5)", "ABS(?n)", "CEIL(?n / 4)", "CEIL(2.1)", "CEIL(-2.1)", "FLOOR(?n / 4)", "FLOOR(2.9)", "FLOOR(-2.9)", "ROUND(?n / 4)",
    "ROUND(2.4)", "ROUND(2.6)", "IF(BOUND(?n), ?n, 0)", 'IF(LANG(?name) = "de", "ja", "nein")', "COALESCE(?n, 0)", "COALESCE(?zz, ?d, ?name)", "COALESCE(?n / 0, -1)", "IRI(STR(?c))", 'IRI(CONCAT("http://x/", ENCODE_FOR_URI(?name)))', 'URI("http://x/a")',
    'URI(STR(?name))', 'STRDT(STR(?n), xsd:decimal)', 'STRDT("1", xsd:integer)', 'STRDT(STR(?name), e:type)', 'STRLANG(STR(?name), "en")', 'STRLANG("x", "de-CH")', 'STRLANG(STR(?n), "nl")', "MD5(STR(?name))", 'MD5("abc")', "MD5(STR(?c))",
    "SHA1(STR(?name))", 'SHA1("abc")', 'SHA1("")', "SHA256(STR(?name))", 'SHA256("abc")', 'SHA256("")', "SHA384(STR(?name))", 'SHA384("abc")', 'SHA384("")', "SHA512(STR(?name))",
    'SHA512("abc")', 'SHA512("")', "YEAR(?d)", "MONTH(?d)", "DAY(?d)", "HOURS(?d)", "MINUTES(?d)", "SECONDS(?d)", "TZ(?d)", "TIMEZONE(?d)",
    'TZ("2020-01-01T00:00:00Z"^^xsd:dateTime)', "isNUMERIC(?n)", "isBLANK(?c)", "xsd:integer(STR(?n))", "xsd:decimal(?n)", "xsd:string(?n)", "xsd:boolean(?n)", "xsd:double(?n)", "xsd:float(?n)", "xsd:dateTime(STR(?d))",
    "?n = 35 || ?n = 45", "?n > 30 && ?n < 50", "!(?n = 35)", "-?n", "?n + 1.5", "?n / 2",
)  # fmt: skip

ALL = PATTERNS + GROUPS + PATHS + FORMS + GROUPED + CONDITIONS + EXPRESSIONS
# What differs each time, and what there is no peer for: looked at by itself.
CHANGING = ["NOW()", "RAND()", "UUID()", "STRUUID()", "BNODE()", 'BNODE("a")']
