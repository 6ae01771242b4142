"""The build of the package: by setuptools, where Debian has it if it isn't elsewhere, so that `pip
install ./python` needs no network.

A wheel takes along the proved program, its command `chtab`, and the library for C with its header.
What the checkout has not made yet is made now: the program by `./chtab --help`, the library by
`packaging/library`. Where that can't be done, the build says so in one line and fails, unless
`--config-settings=--without-library=yes` is given: then the wheel has what is there.
"""
import contextlib
import os
import pathlib
import shutil
import subprocess
import sys
import sysconfig
from importlib.util import find_spec

if find_spec("setuptools") is None:
    sys.path.append("/usr/lib/python3/dist-packages")
if find_spec("setuptools") is not None:
    from setuptools import build_meta
    from setuptools.build_meta import *  # noqa: F403

HERE = pathlib.Path(__file__).resolve().parent
ROOT = HERE.parent
# The script that runs the program, with what it reads, and the program; each with its name in the
# package's folder bin.
PARTS = (
    (ROOT / "packaging" / "chtab", "chtab"), (ROOT / "packaging" / "telling", "telling"),
    (ROOT / "VERSION", "VERSION"), (ROOT / "crates" / "chtab" / "out" / "chtab", "program"))
LIBRARY = (
    (ROOT / "out" / "library" / "lib" / "libchtab.so.1", "libchtab.so.1"),
    (ROOT / "out" / "library" / "include" / "chtab.h", "chtab.h"))


def get_requires_for_build_wheel(config_settings=None):
    """What pip has to fetch before it can build: nothing, where setuptools and wheel are there."""
    return [
        name for name in ("setuptools>=61", "wheel") if find_spec(name.partition(">")[0]) is None]


class NotMade(SystemExit):
    """A part of the wheel is not there, and can't be made here."""


def make(command, name):
    """Makes a part of the wheel by a script of the checkout, whose progress goes to standard
    error."""
    try:
        done = subprocess.run(
            command, cwd=ROOT, stdin=subprocess.DEVNULL, stdout=subprocess.DEVNULL, stderr=None)
        fault_text = (
            f"{command[0].name} ended with status {done.returncode}" if done.returncode else None)
    except OSError as fault:
        fault_text = str(fault)
    if fault_text:
        raise NotMade(
            f"chtab: no wheel: {name} is not there and can't be made ({fault_text}); "
            "--config-settings=--without-library=yes leaves out what is not there")


def make_parts():
    """Makes the program and the library, unless both are there and no source is newer: the scripts
    know that, and answer at once."""
    make([ROOT / "chtab", "--help"], "the proved program")
    make([ROOT / "packaging" / "library"], "the library for C")


@contextlib.contextmanager
def parts_along(is_partial):
    """The arguments for a wheel of this machine with the program and the library in it. A partial
    one has what is there."""
    if not is_partial:
        make_parts()
    program = PARTS[-1][0]
    if not (program.is_file() and os.access(program, os.X_OK)):
        yield []
        return
    folder = HERE / "chtab" / "bin"
    folder.mkdir(exist_ok=True)
    try:
        for part, name in (*PARTS, *(each for each in LIBRARY if each[0].is_file())):
            shutil.copy(part, folder / name)
        yield ["--plat-name", sysconfig.get_platform()]
    finally:
        shutil.rmtree(folder)


def build_wheel(wheel_directory, config_settings=None, metadata_directory=None):
    """The wheel, with the program and the library, and with nothing that an earlier build left."""
    settings = dict(config_settings or {})
    is_partial = settings.pop("--without-library", None) is not None
    shutil.rmtree(HERE / "build", ignore_errors=True)
    with parts_along(is_partial) as words:
        settings["--build-option"] = [*settings.get("--build-option", []), *words]
        return build_meta.build_wheel(wheel_directory, settings, metadata_directory)
