#!/usr/bin/python3
"""Sets the clock of the built program, and compares what it tells of how far a run is.

- What each line says, by runs whose clock goes on by some seconds, minutes or hours at each reading.
- When lines come: at most one a second where they are asked for; unasked on a terminal none in the first second of a stage; elsewhere none.
- How often the clock is read. Nothing is told where it can't be read.
- Whatever is told, the text is the same.

The last line is 'N passed, N failed'.
"""
import os
import pty
import re
import subprocess
import tempfile
import threading
import tty
from collections import namedtuple
from itertools import groupby
from math import ceil, sqrt

from helpers.refusing import Refusing
from helpers.running import SECONDS, Answer, Count, build

# A run of three nodes, a piece each, and what it tells where a second goes by from each reading of the clock to the next. Nodes are
# contracted ever more slowly, so that the time that is left goes by the root of how many are left.
THREE_NODES = ["save", "--piece", "1", "three.gr"]
READING = "chtab: reading, 0 of 1 files"
RANKING = "chtab: ranking the nodes, {} of 3 pieces"
BUILDING = "chtab: building, {} of 3 nodes"

# The step of the clock in milliseconds, and the time that is left after 1 and 2 of 3 pieces, and after 1 and 2 of 3 nodes.
TIMES_LEFT = [
    (1_000, ["4 s", "2 s", "5 s", "3 s"]),
    (24_750, ["99 s", "38 s", "2 min", "68 s"]),
    (25_000, ["2 min", "38 s", "2 min", "69 s"]),
    (100_000, ["7 min", "3 min", "8 min", "5 min"]),
    (1_499_750, ["100 min", "38 min", "2 h", "69 min"]),
    (1_500_000, ["2 h", "38 min", "2 h", "69 min"]),
    (3_600_000, ["4 h", "90 min", "5 h", "3 h"]),
]

# The runs, and their stages. The nodes are a path, of which runs without routes contract all as a chain, so that none is left to be ranked.
RUNS = [
    (["save", "--piece", "1", "nodes.gr"], ["reading", "ranking the nodes", "building"]),
    (["dist", "--piece", "1", "nodes.gr", "queries.p2p"], ["reading", "building", "answering"]),
    (["dist", "--plain", "nodes.gr", "queries.p2p"], ["reading", "answering"]),
    (["dist", "--piece", "1", "--saved", "nodes.ch", "nodes.gr", "queries.p2p"], ["reading", "checking the saved hierarchy", "answering"]),
    (["table", "--piece", "1", "nodes.gr", "list.ss", "list.ss"], ["reading", "building", "searching", "answering"]),
    (["near", "--piece", "1", "--all", "nodes.gr", "list.ss"], ["reading", "building", "searching", "answering"]),
]
FILES = {
    "three.gr": "p sp 3 0\n",
    "nodes.gr": "p sp 40 39\n" + "".join(f"a {node} {node + 1} 1\n" for node in range(1, 40)),
    "queries.p2p": "p aux sp p2p 30\n" + "".join(f"q 1 {node}\n" for node in range(1, 31)),
    "list.ss": "p aux sp ss 20\n" + "".join(f"s {node}\n" for node in range(1, 21)),
    **{f"{nodes}.gr": f"p sp {nodes} 0\n" for nodes in (1, 4_096, 10_000, 65_536, 1_000_001)},
}

# Runs with many steps, and the nodes that they contract.
MANY_STEPS = [
    *((["save", "--piece", "1048576", f"{nodes}.gr"], nodes) for nodes in (1, 4_096, 10_000, 1_000_001)),
    (["table", "--workers", "2", "--piece", "1048576", "65536.gr", "list.ss", "list.ss"], 65_536),
]

LINE = re.compile(r"chtab: ([a-z ]+), (\d{1,3}(?:,\d{3})*) of (\d{1,3}(?:,\d{3})*) (files|pieces|nodes)(?:, about (\d+) (s|min|h) left)?")
STEPS_OF = {"reading": "files", "building": "nodes"}
UNITS = {"s": 1, "min": 60, "h": 3_600}

# How far a run is, as a line tells it: how many steps of a stage are done of all, and about how many seconds are left, with those of the unit.
Progress = namedtuple("Progress", "stage done all left unit")


def on_terminal(words, folder, environment, command, _requests):
    """The answer of a run whose errors are a terminal."""
    master, slave = pty.openpty()
    tty.setraw(slave)
    told = []

    def listen():
        # Linux answers with an error where all others have closed the terminal.
        try:
            while part := os.read(master, 65_536):
                told.append(part)
        except OSError:
            pass

    process = subprocess.Popen([*command, *words], cwd=folder, env=environment, stdin=subprocess.DEVNULL, stdout=subprocess.PIPE, stderr=slave)
    os.close(slave)
    listener = threading.Thread(target=listen)
    listener.start()
    out, _ = process.communicate(timeout=SECONDS)
    listener.join()
    os.close(master)
    return Answer(process.returncode, out, b"".join(told))


def read(line):
    """What a line tells, or None where it has another form."""
    found = LINE.fullmatch(line)
    if not found or STEPS_OF.get(found[1], "pieces") != found[4]:
        return None
    done, size = (int(found[group].replace(",", "")) for group in (2, 3))
    unit = UNITS.get(found[6])
    return Progress(found[1], done, size, int(found[5]) * unit if unit else None, unit)


def begins(events, place):
    """Whether a stage begins with this event: another one, or the same again. Where workers claim pieces the first of these comes after the
    beginning, and both tell of 0."""
    if place == 0 or events[place].stage != events[place - 1].stage:
        return True
    return events[place].done == 0 and (events[place - 1].done > 0 or events[place].stage in STEPS_OF)


def places_told(events, step, is_asked):
    """At which of the events a line is due, where the clock goes on by so many milliseconds from each to the next."""
    due, places = 0, []
    for place in range(len(events)):
        now = place * step
        if begins(events, place) and not is_asked:
            due = max(due, now + 1_000)
        if now >= due:
            places.append(place)
            due = now + 1_000
    return places


def is_about_right(events, place, step, told):
    """Whether the time that is left is about as long as what is past of a stage lets expect."""
    event = events[place]
    if event.all == 0:
        return not told.left
    begun = max(start for start in range(place + 1) if begins(events, start))
    left = 1 - event.done / event.all
    left = sqrt(left) if event.stage == "building" else left
    if left == 1:
        return told.left is None
    seconds = (place - begun) * step / 1_000 * left / (1 - left)
    return told.left is not None and abs(told.left - ceil(seconds / told.unit) * told.unit) <= told.unit


def check_lines(tally, refusing):
    """Each line of a run of three nodes."""
    for step, (first, second, third, fourth) in TIMES_LEFT:
        owed = [READING,
                RANKING.format(0), RANKING.format(0), f"{RANKING.format(1)}, about {first} left", f"{RANKING.format(2)}, about {second} left",
                BUILDING.format(0), f"{BUILDING.format(1)}, about {third} left", f"{BUILDING.format(2)}, about {fourth} left"]
        answer, _ = refusing.run([*THREE_NODES, "--progress"], CLOCK_STEP=step)
        tally.expect(answer.err.decode().splitlines() == owed, f"{step} ms a reading: {answer.err.decode()}")


def check_run(tally, refusing, words, stages):
    """When the lines of a run come, by clocks of different steps."""
    plain, counts = refusing.run(words)
    tally.expect(plain.status == 0 and plain.err == b"" and counts.clock == 0, f"{words}, not asked for progress: {plain}, {counts}")
    # Where a second goes by between two readings each has a line.
    whole, counts = refusing.run([*words, "--progress"], CLOCK_STEP=1_000)
    events = [read(line) for line in whole.err.decode().splitlines()]
    is_sound = None not in events and len(events) == counts.clock
    tally.expect(is_sound and [stage for stage, _ in groupby(event.stage for event in events)] == stages, f"{words}: {whole.err.decode()}")
    if not is_sound:
        return
    for step in 0, 1, 30, 333, 500, 999, 1_000, 2_500, 7_200_000:
        for name, is_asked, options, settings in (("asked for", True, ["--progress"], {}), ("on a terminal", False, [], {"call": on_terminal}),
                                                  ("asked for on a terminal", True, ["--progress"], {"call": on_terminal})):
            answer, counts = refusing.run([*words, *options], CLOCK_STEP=step, **settings)
            told = [read(line) for line in answer.err.decode().splitlines()]
            places = places_told(events, step, is_asked)
            is_right = None not in told and [line[:3] for line in told] == [events[place][:3] for place in places]
            is_right = is_right and all(is_about_right(events, place, step, line) for place, line in zip(places, told))
            is_same = (answer.status, answer.out, counts.clock) == (0, plain.out, len(events))
            tally.expect(is_right and is_same, f"{words}, {name}, {step} ms a reading: {answer.err.decode()}")


def check_unread_clock(tally, refusing, words):
    """Nothing is told where the clock can't be read."""
    plain, _ = refusing.run(words)
    for options, settings in (["--progress"], {}), ([], {"call": on_terminal}):
        answer, counts = refusing.run([*words, *options], REFUSE_CLOCK=1, **settings)
        tally.expect(answer == plain and counts.clock > 0, f"{words} {options}, no clock: {answer}, {counts}")


def check_readings(tally, refusing):
    """A stage of many steps reads the clock some thousand times."""
    for words, nodes in MANY_STEPS:
        answer, counts = refusing.run([*words, "--progress"], CLOCK_STEP=1_000)
        told = [read(line) for line in answer.err.decode().splitlines()]
        built = [line.done for line in told if line and line.stage == "building" and line.all == nodes]
        is_right = None not in told and len(told) == counts.clock and built == sorted(set(built)) and built[0] == 0
        tally.expect(is_right and min(nodes, 4_096) <= len(built) <= 8_192, f"{words}: {len(built)} readings, {answer.err[:200]}")


def main():
    build()
    tally = Count()
    with tempfile.TemporaryDirectory() as folder:
        refusing = Refusing(folder)
        for name, text in FILES.items():
            (refusing.folder / name).write_text(text)
        (refusing.folder / "nodes.ch").write_bytes(refusing.run(["save", "nodes.gr"])[0].out)
        check_lines(tally, refusing)
        for words, stages in RUNS:
            check_run(tally, refusing, words, stages)
            check_unread_clock(tally, refusing, words)
        check_readings(tally, refusing)
    tally.finish()


if __name__ == "__main__":
    main()
