"""Processes that are forked, and what is asked of them."""
import os
import signal
import time
import traceback

from helpers.waiting import PATIENCE


def forked(work, patience=PATIENCE):
    """Whether a process that is forked here does some work well, in time."""
    child = os.fork()
    if not child:
        try:
            os._exit(0 if work() else 1)
        except BaseException:
            traceback.print_exc()
            os._exit(2)
    latest = time.monotonic() + patience
    while (ended := os.waitpid(child, os.WNOHANG)) == (0, 0):
        if time.monotonic() > latest:
            os.kill(child, signal.SIGKILL)
            os.waitpid(child, 0)
            return False
        time.sleep(0.01)
    return ended[1] == 0


def descriptors():
    return len(os.listdir("/proc/self/fd"))
