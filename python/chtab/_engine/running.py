"""Runs the program chtab, which builds hierarchies. Answers are the library's."""
from __future__ import annotations

import functools
import os
import re
import shutil
import subprocess
import sys
import tempfile
from collections.abc import Sequence
from typing import IO, TYPE_CHECKING

from chtab.errors import ChtabError, ProgramFault

if TYPE_CHECKING:
    from chtab._engine.progress import Asked as Progress

# Seconds between two looks at the progress of building; and its lines, with how many steps of a
# stage are done, and their total.
LOOK = 0.2
PROGRESS = re.compile(r"chtab: [^,]+, ([\d,]*\d) of ([\d,]*\d) ")


@functools.cache
def see_to(program: str) -> None:
    """Sees that the program runs. In a checkout its script proves and builds it first."""
    try:
        done = subprocess.run(
            [program, "--help"], stdin=subprocess.DEVNULL, stdout=subprocess.DEVNULL)
    except OSError as fault:
        raise ChtabError(f"{program} can't be run: {fault.strerror}") from None
    if done.returncode:
        raise fault_of(b"", done.returncode)


def fault_of(text: bytes, status: int) -> ProgramFault:
    """The fault of a run that has ended, with its own line from standard error if it wrote one."""
    lines = text.decode(errors="replace").strip().splitlines()
    lines = [line for line in lines if line.startswith(("chtab: ", "error: "))] or lines
    how = f"was ended by signal {-status}" if status < 0 else f"ended with status {status}"
    message = lines[-1] if lines and status >= 0 else " ".join([f"chtab {how}", *lines[-1:]])
    return ProgramFault(message, status)


def bound(command: Sequence[str]) -> list[str]:
    """A command that ends with the thread that starts it, by `setpriv` of Linux where that is."""
    found = shutil.which("setpriv") if sys.platform == "linux" else None
    return [found, "--pdeathsig", "KILL", *command] if found else list(command)


def save(program: str, graph: str, saved: str, words: Sequence[str], progress: Progress) -> None:
    """Builds the hierarchy of a graph by a run with these options. Faults end the run."""
    command = [program, "save", *words, *["--progress"] * bool(progress), graph]
    # Errors go to a file, because a process that is forked meanwhile would keep a pipe open.
    with open(saved, "wb") as out, tempfile.TemporaryFile() as errors:
        streams = {"stdin": subprocess.DEVNULL, "stdout": out, "stderr": errors}
        with subprocess.Popen(bound(command), **streams) as process:  # type: ignore[call-overload]
            try:
                watch(process, errors, progress)
            except BaseException:
                process.kill()
                raise
        errors.seek(0)
        if process.returncode:
            fault = fault_of(errors.read(), process.returncode)
            text = f"{fault} ({saved})" if "cannot write" in str(fault) else str(fault)
            raise ProgramFault(text, fault.status)


def watch(process: subprocess.Popen[bytes], lines: IO[bytes], progress: Progress) -> None:
    """Waits for the end of a process that builds, and reports its lines of progress."""
    read, is_over = 0, False
    while not is_over:
        try:
            process.wait(LOOK if progress else None)
            is_over = True
        except subprocess.TimeoutExpired:
            pass
        if not progress:
            continue
        # Read by `pread`, because the process shares the position of the open file.
        some = os.pread(lines.fileno(), 1 << 20, read)
        complete = some[:some.rfind(b"\n") + 1]
        read += len(complete)
        for line in complete.decode(errors="replace").splitlines():
            report(line, progress)


def report(line: str, progress: Progress) -> None:
    """Reports a line of progress to the caller."""
    found = PROGRESS.match(line)
    if found and callable(progress):
        progress(*(int(number.replace(",", "")) for number in found.groups()))
    elif found:
        print(line, file=sys.stderr, flush=True)
