"""Tests of the Python client and of its store of rdflib, over the built program:

    apt-get install python3-pytest python3-rdflib python3-venv rasqal-utils mypy
    /usr/bin/python3 -m pytest -q test/python

They take `./tstore` of the checkout, or `$TSTORE`; `SEED=N` draws other random graphs, terms and queries than the usual ones."""

import os
import pathlib
import random
import sys

import pytest

HOME = pathlib.Path(__file__).resolve().parents[2]
CLIENT = HOME / "clients" / "python"
sys.path.insert(0, str(CLIENT))
sys.path.insert(1, str(pathlib.Path(__file__).parent))
os.environ.setdefault("TSTORE", str(HOME / "tstore"))

import tstore  # noqa: E402


@pytest.fixture
def folder(tmp_path):
    """An empty folder for a store."""
    it = tmp_path / "store"
    it.mkdir()
    return it


@pytest.fixture
def store(folder):
    """A store in an empty folder."""
    with tstore.open(folder) as it:
        yield it


@pytest.fixture
def draw(request):
    """What is random in a test: the same in each run, and another for each test."""
    return random.Random(f"{request.node.name} {os.environ.get('SEED', '')}")
