"""What all tests of Python share: the built program, the library for C, the folder and the packages of a test, and the last line.

The scripts that test the service and its page are files of tests here too: each check of their `GROUPS` is a test by its own name.

The last line is 'N passed, N failed', as of each other part of ./check. A test that broke down outside of its own code has failed; one that
was left out counts as neither, and its reason is printed above.
"""
import functools
import os
import signal
import subprocess
import tempfile

import pytest

from helpers import in_process, packages, running


# Each can also be run by itself, as `./check` does.
SCRIPTS = "service", "osrm", "osrm_requests", "load", "operating", "clients", "page", "looks", "steps"


class Script(pytest.Module):
    """A script whose checks are tests."""

    def collect(self):
        for needed, checks in self.obj.GROUPS:
            for check in checks:
                test = pytest.Function.from_parent(self, name=check.__name__, callobj=check)
                test.add_marker(pytest.mark.needs(*needed))
                yield test


def pytest_collect_file(file_path, parent):
    if file_path.parent == running.ROOT / "tests" and file_path.stem in SCRIPTS:
        return Script.from_parent(parent, path=file_path)
    return None


@pytest.fixture(scope="module", autouse=True)
def program(request):
    """The path of the program, which is built first where that is needed: for scripts, and for modules that name it."""
    is_used = isinstance(request.node, Script) or hasattr(request.module, "PROGRAM")
    if is_used and subprocess.run([running.ROOT / "chtab", "--help"], stdout=subprocess.DEVNULL).returncode:
        pytest.fail("the program could not be built", pytrace=False)
    return running.PROGRAM


@pytest.fixture(scope="module")
def library(program):
    """The path of the library for C, which is made first where that is needed."""
    return in_process.make()


@pytest.fixture(autouse=True)
def folder():
    """A test runs in an empty folder of its own, which goes with it."""
    with tempfile.TemporaryDirectory() as path:
        os.chdir(path)
        yield path
        os.chdir(running.ROOT)


@functools.cache
def missing(*names):
    return packages.missing(*names)


def pytest_runtest_setup(item):
    """Leaves out a test whose packages are missing, after they were installed where that may be done."""
    wanted = sorted({name for mark in item.iter_markers("needs") for name in mark.args})
    if lacking := missing(*wanted):
        pytest.skip(f"{item.name} needs {', '.join(lacking)}")


class LastLine:
    """Prints the last line, below pytest's own summary."""

    def __init__(self, config):
        self.config = config

    @pytest.hookimpl(hookwrapper=True, tryfirst=True)
    def pytest_sessionfinish(self):
        yield
        reporter = self.config.pluginmanager.get_plugin("terminalreporter")
        passed, *failed = (len(reporter.getreports(kind)) for kind in ("passed", "failed", "error"))
        reporter.write_line(f"{passed} passed, {sum(failed)} failed")


def pytest_configure(config):
    config.pluginmanager.register(LastLine(config))
    # What tests start hears Ctrl-C also where this process was started in the background, which has it ignored.
    signal.signal(signal.SIGINT, signal.default_int_handler)
