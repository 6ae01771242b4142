"""Temporary folders that go with the object that keeps them, and if a signal ends the process."""
from __future__ import annotations

import contextlib
import os
import shutil
import subprocess
import tempfile
import weakref
from typing import IO, cast

from chtab._engine import forks

# Reads a line and ends. If the input ends without a line, because the process that should write it
# has died, this removes the folder first. Signals that end the process may reach the shell as well,
# such as those to all processes of a service, so that it ignores them.
SCRIPT = 'trap "" HUP INT TERM; read -r line || rm -rf -- "$1"'


class Folder:
    """A folder that is removed by `remove`, with this object, and even if the process is killed."""

    # If it is killed, a shell of a process group of its own outlives it, and waits for the end of a
    # pipe: until all processes that could write to it are gone. Forked ones close their end of it.
    def __init__(self, path: str | None = None) -> None:
        if path is not None:
            os.mkdir(path)
        self.path = tempfile.mkdtemp(prefix="chtab-") if path is None else path
        self.remove = weakref.finalize(self, remove_in, os.getpid(), self.path, None)
        with forks.STEADY:
            watcher = watched(self.path)
            self.remove.detach()
            self.remove = weakref.finalize(self, remove_in, os.getpid(), self.path, watcher)
            self.watcher = watcher
            forks.FOLLOWED.add(self)

    def leave_parent(self) -> None:
        """Closes this process's end of the pipe that the shell waits for, in a forked process."""
        if self.watcher is not None:
            cast(IO[bytes], self.watcher.stdin).close()
            # The shell is no child of this process, which must not wait for it.
            self.watcher.returncode = 0


def watched(path: str) -> subprocess.Popen[bytes] | None:
    """Starts the shell that removes a folder when this process is gone; None if it can't start."""
    words = ["/bin/sh", "-c", SCRIPT, "chtab", path]
    with contextlib.suppress(OSError):
        return subprocess.Popen(
            words, stdin=subprocess.PIPE, stdout=subprocess.DEVNULL, stderr=subprocess.DEVNULL,
            start_new_session=True)
    return None


def remove_in(owner: int, path: str, watcher: subprocess.Popen[bytes] | None) -> None:
    """Removes a folder, in the process that made it alone, and ends the shell."""
    if os.getpid() != owner:
        return
    shutil.rmtree(path, ignore_errors=True)
    if watcher is not None:
        line = cast(IO[bytes], watcher.stdin)
        with contextlib.suppress(OSError, ValueError):
            line.write(b"\n")
            line.flush()
        with contextlib.suppress(OSError, ValueError):
            line.close()
        watcher.wait()
