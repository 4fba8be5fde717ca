"""The build backend of `pyproject.toml` (PEP 517, 660): a wheel is a zip file of the package and of what says what it is. It needs nothing
but Python, so pip installs this folder where no package can be had."""

import base64
import hashlib
import os
import re
import zipfile

HERE = os.path.dirname(os.path.abspath(__file__))
TAG = "py3-none-any"
# Of all files in a wheel, so that one folder always gives the same bytes.
TIME = (1980, 1, 1, 0, 0, 0)


def build_wheel(wheel_directory, config_settings=None, metadata_directory=None):
    return _wheel(wheel_directory, dict(_package()))


def build_editable(wheel_directory, config_settings=None, metadata_directory=None):
    return _wheel(wheel_directory, {f"{_project()['name']}.pth": HERE.encode() + b"\n"})


def _package():
    """The files of the package, by their paths in the wheel."""
    for folder, folders, names in os.walk(os.path.join(HERE, "tstore")):
        folders[:] = sorted(it for it in folders if it != "__pycache__")
        for name in sorted(names):
            path = os.path.join(folder, name)
            with open(path, "rb") as file:
                yield os.path.relpath(path, HERE), file.read()


def _project():
    """What `pyproject.toml` says of the project, in the few forms that it uses (Python has a reader of TOML from 3.11 on)."""
    tables, table = {}, None
    with open(os.path.join(HERE, "pyproject.toml"), encoding="utf-8") as file:
        for line in file:
            if head := re.fullmatch(r"\[(.*)\]\n", line):
                table = tables.setdefault(head[1], {})
            elif pair := re.fullmatch(r'([\w-]+) = (?:"(.*)"|\["(.*)"\])\n', line):
                table[pair[1]] = pair[2] or pair[3]
    return {**tables["project"], "extras": tables["project.optional-dependencies"], "stores": tables['project.entry-points."rdf.plugins.store"']}


def _wheel(folder, files):
    it = _project()
    about = f"{it['name']}-{it['version']}.dist-info"
    extras = "".join(f"Provides-Extra: {name}\nRequires-Dist: {needs}; extra == '{name}'\n" for name, needs in it["extras"].items())
    files[f"{about}/METADATA"] = (
        f"Metadata-Version: 2.1\nName: {it['name']}\nVersion: {it['version']}\nSummary: {it['description']}\n"
        f"Requires-Python: {it['requires-python']}\n{extras}"
    ).encode()
    files[f"{about}/WHEEL"] = f"Wheel-Version: 1.0\nGenerator: wheel_of_files\nRoot-Is-Purelib: true\nTag: {TAG}\n".encode()
    files[f"{about}/entry_points.txt"] = ("[rdf.plugins.store]\n" + "".join(f"{name} = {at}\n" for name, at in it["stores"].items())).encode()
    record = "".join(f"{path},sha256={_sum(text)},{len(text)}\n" for path, text in files.items())
    files[f"{about}/RECORD"] = f"{record}{about}/RECORD,,\n".encode()
    name = f"{it['name']}-{it['version']}-{TAG}.whl"
    with zipfile.ZipFile(os.path.join(folder, name), "w", zipfile.ZIP_DEFLATED) as wheel:
        for path, text in files.items():
            entry = zipfile.ZipInfo(path, TIME)
            entry.external_attr = 0o100644 << 16
            entry.compress_type = zipfile.ZIP_DEFLATED
            wheel.writestr(entry, text)
    return name


def _sum(text):
    return base64.urlsafe_b64encode(hashlib.sha256(text).digest()).rstrip(b"=").decode()
