"""What a request is told where it isn't done: a status, a cause in one word, and a sentence."""

from __future__ import annotations

from typing import Mapping, Optional


class Problem(Exception):
    """An answer that isn't what was asked for: a status of HTTP, its cause, and what a person reads (RFC 7807)."""

    def __init__(self, status: int, cause: str, says: str, headers: Optional[Mapping[str, str]] = None) -> None:
        super().__init__(status, cause, says)
        self.status = status
        self.cause = cause
        self.says = says
        self.headers = dict(headers or {})
