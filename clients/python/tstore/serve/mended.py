"""What rdflib 6.1.1 does otherwise than SPARQL 1.1 in an evaluation, and is mended here, in the process that evaluates.

- A function that can't take its argument, as the year of what is no date, ends the whole query with an error of Python, where SPARQL has
  an expression without a value.
- EXISTS is evaluated in FILTER alone, and not in BIND, SELECT and what stands in them.
"""

# mypy: allow-untyped-calls

from __future__ import annotations

import re
from typing import Any

from rdflib.plugins.sparql import algebra
from rdflib.plugins.sparql.parserutils import CompValue, Expr
from rdflib.plugins.sparql.sparql import SPARQLError

_NO_VALUE = (ArithmeticError, AttributeError, LookupError, TypeError, ValueError, re.error)


def _eval(self: Any, context: Any = {}) -> Any:  # noqa: B006 (as rdflib has it)
    try:
        self.ctx = context
        return self._evalfn(context)
    except SPARQLError as error:
        return error
    except _NO_VALUE as error:
        return SPARQLError(str(error))
    finally:
        self.ctx = None


def _extend(part: Any, expression: Any, name: Any) -> Any:
    return CompValue("Extend", p=part, expr=algebra.translateExists(expression), var=name)


def mend() -> None:
    """Mends rdflib in this process."""
    Expr.eval = _eval  # type: ignore[assignment]
    algebra.Extend = _extend
