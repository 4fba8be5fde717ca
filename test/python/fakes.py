"""Programs in the place of tstore that break off, or say what is no reply."""

import stat
import sys


def program(folder, body):
    """A launcher that runs lines of Python, in which `lines` gives the lines of the input, and `say` writes and flushes."""
    path = folder / "fake"
    path.write_text(
        f"#!{sys.executable}\nimport os, signal, sys\nlines = iter(sys.stdin.readline, '')\n"
        f"def say(text):\n    sys.stdout.write(text)\n    sys.stdout.flush()\n"
        f"def opened():\n    next(lines)\n    say('total 0\\n')\n{body}\n"
    )
    path.chmod(path.stat().st_mode | stat.S_IXUSR)
    return str(path)
