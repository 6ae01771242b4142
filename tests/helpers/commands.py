"""For the tests of the Python package: its commands, packages that it needs, calls that have to fail, and what is left of temporary files."""
import contextlib
import os
import subprocess
import tempfile

from helpers.packages import PYTHON
from helpers.running import ROOT


def needs(*packages):
    """A mark that leaves a test out where one of Debian's packages is missing and can't be installed."""
    import pytest

    return pytest.mark.needs(*packages)


def raises(kind, call, *words, told=""):
    """The fault of this kind that a call raises, and that tells so."""
    try:
        call(*words)
    except kind as fault:
        assert told in str(fault), fault
        return fault
    raise AssertionError(f"{call} raised nothing")


def run(*words, text="", status=0, **more):
    """What a command writes to standard output, or with another status than 0 to standard error."""
    done = subprocess.run(list(map(str, words)), input=text, capture_output=True, text=True, **more)
    assert done.returncode == status and bool(done.stderr) == bool(status), (words, done)
    return done.stderr if status else done.stdout


def command(name, *words, **more):
    """The same of a command of tools/."""
    return run(PYTHON, ROOT / "tools" / f"{name}.py", *words, **more)


@contextlib.contextmanager
def temporary():
    """A folder of temporary files for this check alone: a call that lists what stands there."""
    before = tempfile.tempdir
    with tempfile.TemporaryDirectory() as folder:
        tempfile.tempdir = os.environ["TMPDIR"] = folder
        try:
            yield lambda: os.listdir(folder)
        finally:
            tempfile.tempdir = before
            del os.environ["TMPDIR"]
