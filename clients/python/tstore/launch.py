"""How the program is started on a folder: by its launcher, which sees to the lock (`locked` in the repository)."""

from __future__ import annotations

import os
import shutil
import subprocess
from typing import Optional

from .errors import NoProgram

#: The launcher ends with this status where the folder is held and it was told not to wait.
HELD = 75


def launcher(named: Optional[str] = None) -> str:
    """The path of the launcher: the one that is named, else `$TSTORE`, else `tstore` on the path."""
    wanted = named or os.environ.get("TSTORE") or "tstore"
    found = shutil.which(wanted)
    if not found:
        raise NoProgram(f"no program {wanted}: set $TSTORE to the launcher of tstore, or put it on the path")
    return os.path.abspath(found)


def start(folder: str, program: str, read_only: bool, wait: bool) -> subprocess.Popen[bytes]:
    """Starts `tstore run` on a folder. It gets a session of its own, so that an interrupt at a terminal doesn't end it in the middle of a
    reply; it ends with its input, also where this process is killed."""
    environment = {name: value for name, value in os.environ.items() if name not in ("TSTORE_READ_ONLY", "TSTORE_NO_WAIT")}
    if read_only:
        environment["TSTORE_READ_ONLY"] = "1"
    if not wait:
        environment["TSTORE_NO_WAIT"] = "1"
    pipe = subprocess.PIPE
    return subprocess.Popen(
        [program, "run"], cwd=folder, env=environment, stdin=pipe, stdout=pipe, stderr=pipe, bufsize=0, start_new_session=True
    )
