"""A worker as it is before its first request: it can open nothing, and what tries is seen, whoever swallows the error."""

from __future__ import annotations

import os
import subprocess
import sys

from conftest import PACKAGE

TRIES = """
import os, socket, subprocess, sys, urllib.request
from tstore.serve import warm, worker
worker._limit(4 << 30)
sys.addaudithook(worker._audit)

def http(): urllib.request.urlopen("http://127.0.0.1:1/")
def file(): open("/etc/passwd")
def write(): open("/tmp/x", "w")
def listen(): socket.create_server(("127.0.0.1", 0))
def connect(): socket.create_connection(("127.0.0.1", 1))
def name(): socket.getaddrinfo("localhost", 80)
def list_files(): os.listdir("/")
def run(): subprocess.run(["true"])
def shell(): os.system("true")
def fork(): os.fork()
def load(): import sqlite3
def remove(): os.remove("/tmp/none")

for it in (http, file, write, listen, connect, name, list_files, run, shell, fork, load, remove):
    worker._reached.clear()
    try:
        it()
    except BaseException:
        pass
    assert worker._reached, it.__name__
"""


def test_a_worker_opens_nothing() -> None:
    environment = {**os.environ, "PYTHONPATH": str(PACKAGE), "PYTHONDONTWRITEBYTECODE": "1"}
    subprocess.run([sys.executable, "-c", TRIES], env=environment, check=True)


def test_the_system_has_no_descriptor_for_it() -> None:
    """Without the hook."""
    text = "import socket\nfrom tstore.serve import warm, worker\nworker._limit(4 << 30)\n" + "\n".join(
        f"try:\n    {it}\nexcept OSError as error:\n    assert error.errno == 24, error\nelse:\n    raise SystemExit({it!r})"
        for it in ("open('/etc/passwd')", "socket.socket()", "__import__('os').listdir('/')")
    )
    environment = {**os.environ, "PYTHONPATH": str(PACKAGE), "PYTHONDONTWRITEBYTECODE": "1"}
    subprocess.run([sys.executable, "-c", text], env=environment, check=True)
