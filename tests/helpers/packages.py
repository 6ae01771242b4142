"""Debian's packages that a test needs, and checks that each have a folder of their own."""
import os
import signal
import subprocess
import sys
import tempfile
import traceback

from helpers.running import ROOT

# Debian's Python, in which Debian's packages are.
PYTHON = "/usr/bin/python3"


def missing(*packages):
    """Those of the packages that are missing, after they were installed where that may be done."""
    done = subprocess.run([ROOT / "tests" / "packages.sh", *packages], stdout=subprocess.PIPE, text=True)
    return done.stdout.split()


def run_checks(groups):
    """Runs checks, each in a folder of its own, and ends the script. `groups` are pairs of the packages that checks need and the checks;
    those whose packages are missing are left out, and told so."""
    # What checks start hears Ctrl-C also where this script was begun in the background, which has it ignored.
    signal.signal(signal.SIGINT, signal.default_int_handler)
    passed = failed = 0
    for packages, checks in groups:
        lacking = missing(*packages)
        for check in checks:
            if lacking:
                print(f"left out: {check.__name__} needs {', '.join(lacking)}")
            elif holds(check):
                passed += 1
            else:
                failed += 1
    print(f"{passed} passed, {failed} failed")
    sys.exit(failed > 0)


def holds(check):
    """Whether the check ends without a fault, in a folder of its own."""
    with tempfile.TemporaryDirectory() as folder:
        os.chdir(folder)
        try:
            check()
            return True
        except Exception:
            print(f"failed: {check.__name__}: {traceback.format_exc()}")
            return False
        finally:
            os.chdir(ROOT)
