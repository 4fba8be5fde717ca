"""The manual's examples as they are written, the types, and the package as pip installs it."""

import doctest
import os
import shutil
import subprocess
import sys
import zipfile

import pytest
from conftest import CLIENT, HOME


def test_the_manual(tmp_path, monkeypatch):
    monkeypatch.chdir(tmp_path)
    (tmp_path / "pages").mkdir()
    failed, tried = doctest.testfile(str(HOME / "docs" / "PYTHON.md"), module_relative=False, optionflags=doctest.IGNORE_EXCEPTION_DETAIL)
    assert tried > 30 and not failed


@pytest.mark.skipif(not shutil.which("mypy"), reason="mypy isn't there")
def test_the_types(tmp_path):
    words = ["mypy", "--strict", f"--cache-dir={tmp_path}", *map(str, sorted((CLIENT / "tstore").glob("*.py")))]
    told = subprocess.run(words, capture_output=True, text=True, cwd=CLIENT, check=False)
    assert told.returncode == 0, told.stdout


def test_the_package_by_pip(tmp_path, folder):
    """In a virtual environment that has nothing, without a network."""
    environment = {name: value for name, value in os.environ.items() if name != "PYTHONPATH"}
    subprocess.run([sys.executable, "-m", "venv", tmp_path / "env"], check=True)
    python = tmp_path / "env" / "bin" / "python"
    pip = [python, "-m", "pip", "install", "-q", "--no-index", "--disable-pip-version-check"]
    told = "import tstore\nwith tstore.open('.') as store: print(store.base('<a> <p> <b> .'), tstore.__file__)"
    for words in (["-e", CLIENT], ["--force-reinstall", CLIENT]):
        subprocess.run([*pip, *words], check=True, env=environment)
        ran = subprocess.run([python, "-c", told], cwd=folder, check=True, capture_output=True, text=True, env=environment).stdout
        assert ran.startswith("0000000") and (str(CLIENT) in ran) == ("-e" in words)
    names = subprocess.run([*pip[:2], "pip", "show", "-f", "tstore"], check=True, capture_output=True, text=True).stdout
    assert "tstore/py.typed" in names and "tstore/rdflib.py" in names


def test_a_wheel_has_the_same_bytes_each_time(tmp_path):
    sys.path.insert(0, str(CLIENT))
    import wheel_of_files

    wheels = []
    for it in "ab":
        (tmp_path / it).mkdir()
        wheels.append(tmp_path / it / wheel_of_files.build_wheel(str(tmp_path / it)))
    assert wheels[0].read_bytes() == wheels[1].read_bytes()
    with zipfile.ZipFile(wheels[0]) as wheel:
        assert wheel.testzip() is None
        assert b"tstore = tstore.rdflib:LayerStore" in wheel.read("tstore-0.1.0.dist-info/entry_points.txt")
