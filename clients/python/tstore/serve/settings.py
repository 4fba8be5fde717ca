"""What a server is told when it is started."""

from __future__ import annotations

import hashlib
import hmac
import os
from dataclasses import dataclass
from typing import Optional

_SHORTEST = 16


@dataclass(frozen=True)
class Settings:
    """The folder and the address, and the limits of what one request may take."""

    folder: str
    host: str
    port: int
    #: The names under which it may be asked, each with its port where that isn't the scheme's own.
    names: frozenset[str]
    #: Digests of the tokens that may write; None where nobody may.
    tokens: Optional[tuple[bytes, ...]] = None
    program: Optional[str] = None
    workers: int = 4
    readers: int = 2
    #: An evaluation's time, and the memory that it may take beside what a worker has at rest.
    seconds: float = 10.0
    megabytes: int = 512
    #: The time of working out a change.
    change_seconds: float = 60.0
    #: The time of a whole answer, from the request's head to its last byte.
    listing_seconds: float = 300.0
    head_seconds: float = 10.0
    body_seconds: float = 60.0
    body_bytes: int = 64 << 20
    query_bytes: int = 1 << 20
    #: How long a change waits for the folder.
    wait_seconds: float = 30.0
    end_seconds: float = 9.0

    def may_write(self, token: str) -> bool:
        """Whether the token is one of the file's, in a time that tells nothing of how much of it is right."""
        given = hashlib.sha256(token.encode()).digest()
        found = False
        for known in self.tokens or ():
            found |= hmac.compare_digest(known, given)
        return found


def read_tokens(path: str) -> tuple[bytes, ...]:
    """The digests of the tokens of a file, one to a line. ValueError where one is short enough to be guessed, or there is none."""
    with open(path, encoding="ascii") as file:
        tokens = [line.strip() for line in file if line.strip()]
    if not tokens:
        raise ValueError(f"{path} has no token")
    if any(len(token) < _SHORTEST for token in tokens):
        raise ValueError(f"a token of {path} has fewer than {_SHORTEST} characters")
    return tuple(hashlib.sha256(token.encode()).digest() for token in tokens)


def others_read(path: str) -> bool:
    """Whether a file may be read by more than its owner and group."""
    return bool(os.stat(path).st_mode & 0o004)
