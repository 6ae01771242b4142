"""Waits until something holds, however long a machine with other work takes for it."""
import os
import time

# The most seconds that a test waits for anything. What takes longer hangs. Where a bug was planted, less will do.
PATIENCE = int(os.environ.get("PATIENCE", 300))
# Seconds between two looks.
PAUSE = 0.02


def until(holds, told=lambda: ""):
    """Waits until a call gives what is true, and gives it. `told` says what is wrong where that never comes."""
    latest = time.monotonic() + PATIENCE
    while not (found := holds()):
        assert time.monotonic() < latest, told()
        time.sleep(PAUSE)
    return found
