#!/usr/bin/python3
"""Runs the built program where the system refuses it something, each time another thing.

  refusals.py [--tests]

- Each request for memory or for a thread is refused in turn, alone and with all that come after it: the answer is the one of a
  run with ample memory, byte for byte, or `chtab: out of memory`, with status 3 and nothing written; of a run that answers requests as they
  come the answers to the first of them, each whole.
- Each read and each write fails in turn, where a call moves 1, 3 or 1000 bytes: the fault names the file that was being read,
  and nothing was written, or the answers to all requests that had been read whole; or it tells how many bytes were written, and they are the
  first of the text.
- A read or write that is interrupted is made again.
- A reader that goes away, also from a pipe that is full: the run ends silently.
- Help fails in its middle.
- Where each thread is refused the answer is that of a run with ample memory. There are as many threads as workers share the work.
- The tests of the crates named `refused_in_turn` hold when any one request for memory is refused. Their programs are those that
  `rt ci` or `rt test` left in the crates' folders out/; a crate without one is left out, or with --tests has failed.

The last line is 'N passed, N failed', where each run of the program is counted.
"""
import os
import re
import select
import subprocess
import sys
import tempfile
import time
from itertools import count, pairwise

from helpers.asking import answers_after, answers_of, requests_of
from helpers.refusing import Refusing
from helpers.running import PROGRAM, ROOT, SECONDS, Answer, Count, agrees, build, run, side_by_side, with_files
from oracles.reading import read
from oracles.rules import text_customized, text_like, text_quick

# Requests on a line and on a star, each with its answer, and new weights of the line, which have none.
LINE_ASKED = [(b"q 1 3\n", b"d 1 3 9\n"), (b"q 3 1\n", b"d 3 1 -\n"), (b"c\nt 2 2\ns 1\ns 3\n\ns 3\ns 2\n", b"t 1 9 4\nt 3 0 -\n"),
              (b"t 0 1\ns 1\n", b""), (b"q 2 3\n", b"d 2 3 5\n"), (b"t 1 1\ns 2\ns 1\n", b"t 2 -\n"), (b"p 2 1\ns 3\ns 2\n", b""),
              (b"n 1\n", b"n 1 1 2 4\n"), (b"r 1 2\n", b"d 1 2 4\nr 1\na 1 2 4\n"), (b"n 3 0\n", b"n 3 1 3 0\n"), (b"t 1 1 8\ns 1\ns 3\n", b"t 1 -\n")]
STAR_ASKED = [(b"q 3 4\n", b"d 3 4 2\nr 2\na 3 1 1\na 1 4 1\n"), (b"t 1 2\ns 3\ns 2\ns 1\n", b"t 3 2 1\n"),
              (b"q 4 2\n", b"d 4 2 2\nr 2\na 4 1 1\na 1 2 1\n")]
LINE_WEIGHED = [(b"p 1 0\ns 3\n", b""), (b"n 1\n", b"n 1 1 3 9\n"), (b"w 2\na 1 2 40\na 2 3 1\n", b""), (b"n 1\n", b"n 1 1 3 41\n"),
                (b"t 1 1\ns 2\ns 3\n", b"t 2 1\n"), (b"w 1\na 1 2 2\n", b""), (b"q 1 3\n", b"d 1 3 3\n")]

ASKED = {"line.txt": LINE_ASKED, "star.txt": STAR_ASKED, "weighed.txt": LINE_WEIGHED}
# 66 rings of three nodes each. Workers share a job of building only if it has 64 nodes, and here each round has one of each ring.
RINGS = [(ring + place, ring + (place + 1) % 3, 1) for ring in range(1, 199, 3) for place in range(3)]
# The arcs of a star.
STAR = [(1, 2, 1), (2, 1, 1), (1, 3, 1), (3, 1, 1), (1, 4, 1), (4, 1, 1)]
FILES = {
    **{name: requests_of(asked).decode() for name, asked in ASKED.items()},
    "line.gr": "p sp 3 2\na 1 2 4\na 2 3 5\n",
    "line.p2p": "p aux sp p2p 2\nq 1 3\nq 3 1\n",
    "from.ss": "p aux sp ss 3\ns 1\ns 1\ns 3\n",
    "to.ss": "p aux sp ss 2\ns 3\ns 2\n",
    "star.gr": "p sp 4 6\na 1 2 1\na 2 1 1\na 1 3 1\na 3 1 1\na 1 4 1\na 4 1 1\n",
    "star.p2p": "p aux sp p2p 2\nq 3 4\nq 4 2\n",
    "outside.gr": "p sp 2 1\na 1 3 5\n",
    "line.ch": "p ch 3 2\no 1\no 2\no 3\nl 1 2 4 1 0\nl 2 3 5 1 0\n",
    "star.ch": "p ch 4 8\no 2\no 1\no 3\no 4\nl 2 1 1 1 0\nl 1 2 1 1 0\nl 1 3 1 1 0\nl 1 4 1 1 0\nl 3 1 1 1 0\nl 4 1 1 1 0\n"
               "l 3 4 2 2 1\nl 4 3 2 2 1\n",
    "wrong.ch": "p ch 3 2\no 2\no 1\no 3\nl 1 2 4 1 0\nl 2 3 5 1 0\n",
    "rings.gr": "".join(["p sp 198 198\n", *(f"a {start} {end} {weight}\n" for start, end, weight in RINGS)]),
    "rings.p2p": "p aux sp p2p 2\nq 1 3\nq 3 4\n",
}

STAR_SAVED = FILES["star.ch"].encode()
STAR_CUSTOMIZED = text_customized(4, STAR, [2, 1, 3, 4]).encode()
STAR_ROUTES = b"d 3 4 2\nr 2\na 3 1 1\na 1 4 1\nd 4 2 2\nr 2\na 4 1 1\na 1 2 1\n"
LINE_ROUTES = b"d 1 3 9\nr 2\na 1 2 4\na 2 3 5\nd 3 1 -\n"
LINE_TABLE = b"t 1 9 4\nt 1 9 4\nt 3 0 -\n"
LINE_TABLE_WITHIN_8 = b"t 1 - 4\nt 1 - 4\nt 3 0 -\n"
LINE_NEAREST = b"n 1 1 2 4\nn 1 1 2 4\nn 3 1 3 0\n"
LINE_NEAREST_OF_ALL = b"n 1 1 2 4\nn 2 1 2 0\nn 3 1 3 0\n"
TWO_WORKERS = ["--workers", "2", "--piece", "1"]

# The kinds of run: their words, and the answer with ample memory; None where other tests look at the text.
KINDS = {
    "distances": (["dist", "star.gr", "star.p2p"], Answer(0, b"d 3 4 2\nd 4 2 2\n", b"")),
    "distances by two workers": (["dist", *TWO_WORKERS, "star.gr", "star.p2p"], Answer(0, b"d 3 4 2\nd 4 2 2\n", b"")),
    "plain distances": (["dist", "--plain", "line.gr", "line.p2p"], Answer(0, b"d 1 3 9\nd 3 1 -\n", b"")),
    "routes": (["dist", "--routes", "star.gr", "star.p2p"], Answer(0, STAR_ROUTES, b"")),
    "routes by depth": (["dist", "--routes", "--deep", "star.gr", "star.p2p"], Answer(0, STAR_ROUTES, b"")),
    "routes by two workers": (["dist", "--routes", *TWO_WORKERS, "star.gr", "star.p2p"], Answer(0, STAR_ROUTES, b"")),
    "a table": (["table", "line.gr", "from.ss", "to.ss"], Answer(0, LINE_TABLE, b"")),
    "a table by two workers": (["table", *TWO_WORKERS, "line.gr", "from.ss", "to.ss"], Answer(0, LINE_TABLE, b"")),
    "a table within a limit": (["table", "--within", "8", "line.gr", "from.ss", "to.ss"], Answer(0, LINE_TABLE_WITHIN_8, b"")),
    "near rows": (["near", "--count", "1", "line.gr", "from.ss", "to.ss"], Answer(0, LINE_NEAREST, b"")),
    "near rows of all nodes by two workers": (["near", *TWO_WORKERS, "--count", "1", "--all", "line.gr", "to.ss"],
                                              Answer(0, LINE_NEAREST_OF_ALL, b"")),
    "a hierarchy": (["save", "star.gr"], Answer(0, STAR_SAVED, b"")),
    "a hierarchy by two workers": (["save", *TWO_WORKERS, "star.gr"], Answer(0, STAR_SAVED, b"")),
    "routes by a saved hierarchy": (["dist", "--routes", "--saved", "star.ch", "star.gr", "star.p2p"], Answer(0, STAR_ROUTES, b"")),
    "a table by a saved hierarchy": (["table", "--saved", "line.ch", "line.gr", "from.ss", "to.ss"], Answer(0, LINE_TABLE, b"")),
    "near rows by a saved hierarchy": (["near", "--count", "1", "--saved", "line.ch", "line.gr", "from.ss", "to.ss"],
                                       Answer(0, LINE_NEAREST, b"")),
    "a hierarchy like an order": (["save", "--like", "star.ch", "--fresh", "50", "star.gr"],
                                  Answer(0, text_like(4, STAR, 5, [2, 1, 3, 4], 50).encode(), b"")),
    "routes like an order by two workers": (["dist", "--routes", *TWO_WORKERS, "--like", "star.ch", "star.gr", "star.p2p"], Answer(0, STAR_ROUTES, b"")),
    "a table like an order": (["table", "--like", "line.ch", "line.gr", "from.ss", "to.ss"], Answer(0, LINE_TABLE, b"")),
    "a hierarchy customized in an order": (["save", "--customizable", "--like", "star.ch", "star.gr"], Answer(0, STAR_CUSTOMIZED, b"")),
    "distances by customization": (["dist", "--customizable", "star.gr", "star.p2p"], Answer(0, b"d 3 4 2\nd 4 2 2\n", b"")),
    "a table by customization and two workers": (["table", "--customizable", *TWO_WORKERS, "line.gr", "from.ss", "to.ss"], Answer(0, LINE_TABLE, b"")),
    "help": (["--help"], Answer(0, None, b"")),
    "refused words": (["dist", "--fast", "line.gr", "line.p2p"], Answer(2, b"", None)),
    "refused lists": (["near", "--all", "line.gr", "from.ss", "to.ss"], Answer(2, b"", None)),
    "a word that is not UTF-8": (["dist", b"\xff", "line.p2p"], Answer(2, b"", None)),
    "a refused graph": (["dist", "outside.gr", "line.p2p"], Answer(1, b"", b"chtab: graph line 2: node out of range\n")),
    "a refused hierarchy": (["dist", "--saved", "wrong.ch", "line.gr", "line.p2p"],
                            Answer(1, b"", b"chtab: saved hierarchy refused: lower\n")),
    "a missing hierarchy": (["dist", "--saved", "none.ch", "line.gr", "line.p2p"], Answer(3, b"", b"chtab: cannot read saved\n")),
    "a refused order": (["dist", "--like", "star.ch", "line.gr", "line.p2p"], Answer(1, b"", b"chtab: order line 1: size too large\n")),
    "a refused mix of orders": (["dist", "--like", "line.ch", "--deep", "line.gr", "line.p2p"], Answer(2, b"", None)),
    "a missing file": (["table", "line.gr", "from.ss", "none.ss"], Answer(3, b"", b"chtab: cannot read targets\n")),
}

# The runs over requests: their words, and the requests.
ASKS = {
    "requests": (["ask", "line.gr"], LINE_ASKED),
    "requests by two workers": (["ask", *TWO_WORKERS, "line.gr"], LINE_ASKED),
    "requests by a saved hierarchy": (["ask", "--saved", "line.ch", "line.gr"], LINE_ASKED),
    "requests for routes": (["ask", "--routes", "star.gr"], STAR_ASKED),
    "requests like an order": (["ask", "--like", "line.ch", "line.gr"], LINE_ASKED),
    "requests for routes by a saved hierarchy": (["ask", "--routes", "--saved", "star.ch", "star.gr"], STAR_ASKED),
    "requests by customization": (["ask", "--customizable", "line.gr"], [*LINE_ASKED, *LINE_WEIGHED]),
}

# The words that save a hierarchy that is built quickly, with enough nodes for several workers.
QUICKLY = ["save", "--quick", "rings.gr"]

OUT_OF_MEMORY = Answer(3, b"", b"chtab: out of memory\n")

# The runs, the names of their files in the order in which they are read, requests among them, and the text.
RUNS = {
    "routes on a line": (["dist", "--routes"], {"graph": "line.gr", "queries": "line.p2p"}, LINE_ROUTES),
    "routes on a star": (["dist", "--routes"], {"graph": "star.gr", "queries": "star.p2p"}, STAR_ROUTES),
    "a table": (["table"], {"graph": "line.gr", "sources": "from.ss", "targets": "to.ss"}, LINE_TABLE),
    "near rows": (["near", "--count", "1"], {"graph": "line.gr", "sources": "from.ss", "targets": "to.ss"}, LINE_NEAREST),
    "near rows of all nodes by a saved hierarchy": (["near", "--count", "1", "--all"], {"graph": "line.gr", "saved": "line.ch", "targets": "to.ss"},
                                                    LINE_NEAREST_OF_ALL),
    "a hierarchy": (["save"], {"graph": "star.gr"}, STAR_SAVED),
    "routes by a saved hierarchy": (["dist", "--routes"], {"graph": "star.gr", "saved": "star.ch", "queries": "star.p2p"}, STAR_ROUTES),
    "a table by a saved hierarchy": (["table"], {"graph": "line.gr", "saved": "line.ch", "sources": "from.ss", "targets": "to.ss"},
                                     LINE_TABLE),
    "a hierarchy like an order": (["save", "--fresh", "0"], {"graph": "star.gr", "order": "star.ch"}, text_like(4, STAR, 5, [2, 1, 3, 4], 0).encode()),
    "a table like an order": (["table"], {"graph": "line.gr", "order": "line.ch", "sources": "from.ss", "targets": "to.ss"}, LINE_TABLE),
    "near rows of all nodes like an order": (["near", "--count", "1", "--all"], {"graph": "line.gr", "order": "line.ch", "targets": "to.ss"},
                                             LINE_NEAREST_OF_ALL),
    "routes like an order": (["dist", "--routes"], {"graph": "star.gr", "order": "star.ch", "queries": "star.p2p"}, STAR_ROUTES),
    "a hierarchy customized in an order": (["save", "--customizable"], {"graph": "star.gr", "order": "star.ch"}, STAR_CUSTOMIZED),
    "requests like an order": (["ask"], {"graph": "line.gr", "order": "line.ch", "requests": "line.txt"}, answers_of(LINE_ASKED)),
    "requests": (["ask"], {"graph": "line.gr", "requests": "line.txt"}, answers_of(LINE_ASKED)),
    "requests by a saved hierarchy": (["ask"], {"graph": "line.gr", "saved": "line.ch", "requests": "line.txt"}, answers_of(LINE_ASKED)),
    "requests for routes": (["ask", "--routes"], {"graph": "star.gr", "requests": "star.txt"}, answers_of(STAR_ASKED)),
    "requests by customization": (["ask", "--customizable"], {"graph": "line.gr", "requests": "weighed.txt"}, answers_of(LINE_WEIGHED)),
}

# The errors of the system, as <errno.h> of Linux has them.
INTERRUPTED, DEVICE_FAILED, DEVICE_FULL, READER_GONE = 4, 5, 28, 32

# The most requests for memory that a run of these kinds could need.
MOST_REQUESTS = 20_000


def refuse_memory(refusing, tally, name, words, wanted, asked=(), **settings):
    """Refuses each request for memory of one kind of run."""
    told = [OUT_OF_MEMORY._replace(out=answers_of(asked[:first])) for first in range(len(asked) + 1)]
    stream = requests_of(asked)
    ample, (requests, *_) = refusing.run(words, requests=stream, **settings)
    is_sound = agrees(ample, wanted) and 0 < requests < MOST_REQUESTS
    tally.expect(is_sound, f"{name}, {requests} requests: {ample}")
    if not is_sound:
        return
    refused_runs = 0
    for after in "", "+":
        def refused_at(at):
            answer, (_, refused, *_) = refusing.run(words, requests=stream, REFUSE_MEMORY=f"{at}{after}", **settings)
            tally.expect(answer in (ample, *told), f"{name}, request {at}{after} refused: {answer}")
            return refused > 0, answer in told

        found = side_by_side(refused_at, range(1, requests + 1))
        # Several workers may ask more often than they did in the ample run.
        while found[-1][0] and len(found) < MOST_REQUESTS:
            found.append(refused_at(len(found) + 1))
        refused_runs += sum(is_told for _, is_told in found)
        tally.expect(found[0][1], f"{name}, the first request refused{after}: no want of memory is told")
    print(f"{name}: {requests} requests, {refused_runs} runs told want of memory")


def refuse_threads(refusing, tally, name, words, wanted, asked):
    """Refuses each thread: the calls are made one after the other."""
    for workers in "2", "64":
        answer, _ = refusing.run([*words, "--workers", workers, "--piece", "1"], requests=requests_of(asked), REFUSE_THREADS=1)
        tally.expect(answer == wanted, f"{name}, {workers} workers, no thread: {answer}")


def count_threads(refusing, tally):
    """One worker needs no thread, and each further one needs one where there are as many pieces: here 64 of one query, and before them
    three of one node, when the saved hierarchy is checked."""
    (refusing.folder / "many.p2p").write_text("p aux sp p2p 64\n" + 64 * "q 1 3\n")
    words = ["dist", "--saved", "line.ch", "--piece", "1", "line.gr", "many.p2p"]
    found = [refusing.run([*words, "--workers", str(workers)])[1].threads for workers in (1, 2, 7, 64)]
    tally.expect(found == [0, 1 + 1, 6 + 2, 63 + 2], f"threads of 1, 2, 7 and 64 workers: {found}")


def fail_help(refusing, tally):
    """Help that is refused in its middle, and whose reader goes away there."""
    for words in ["--help"], ["dist", "--help"]:
        ample, counts = refusing.run(words, MOST_BYTES=100)
        tally.expect(agrees(ample, Answer(0, None, b"")) and counts.writes == -(-len(ample.out) // 100) > 2, f"{words}, 100 bytes a call: {ample}")
        for at in range(1, counts.writes + 1):
            taken = 100 * (at - 1)
            told = f"chtab: cannot write after {taken} bytes\n".encode()
            for error in DEVICE_FULL, READER_GONE:
                answer, _ = refusing.run(words, MOST_BYTES=100, REFUSE_WRITE=at, REFUSE_WITH=error)
                tally.expect(answer == Answer(3, ample.out[:taken], told), f"{words}, write {at} fails with {error}: {answer}")


def has_tests_in_turn(crate):
    """Whether the crate has a test that is named for refusals."""
    return any(re.search(r"^fn \w*refused_in_turn", path.read_text(), re.MULTILINE) for path in crate.glob("src/**/*.rt"))


def refuse_in_crate(refusing, tally, crate, is_needed):
    """Refuses each request for memory of the tests of a crate that are named for it, where its tests are built."""
    program = crate / "out" / f"{crate.name}_tests"
    if not program.exists():
        print(f"{crate.name}: its tests are not built")
        tally.expect(not is_needed, f"{crate.name}: its tests are not built")
        return
    listed = refusing.run(["--list"], command=[program])[0].out.decode()
    names = re.findall(r"^(\S*refused_in_turn\S*): test$", listed, re.MULTILINE)
    tally.expect(names, f"{program.name} has no test that is named for refusals")
    for name in names:
        refuse_in_test(refusing, tally, program, name)


def refuse_in_test(refusing, tally, program, name):
    """Refuses each request for memory of one test."""
    ample, (requests, *_) = refusing.run([name], command=[program])
    is_sound = ample.status == 0 and b"test result: ok" in ample.out and 0 < requests < MOST_REQUESTS
    tally.expect(is_sound, f"{program.name} {name}, {requests} requests: {ample}")
    for at in count(1) if is_sound else ():
        answer, (_, refused, *_) = refusing.run([name], command=[program], REFUSE_MEMORY=at)
        tally.expect(answer == ample, f"{program.name} {name}, request {at} refused: {answer}")
        if not refused or at == MOST_REQUESTS:
            break
    print(f"{program.name} {name}: {requests} requests")


def reads_of(size, most):
    """How many reads a file of this size takes: the last gives no byte."""
    return -(-size // most) + 1


def fail_devices(refusing, tally, name, words, files, text):
    """Lets each read and each write of one kind of run fail."""
    words, asked = with_files(words, files), asked_in(files)
    stream, done = requests_of(asked), Answer(0, text, b"")
    for most in 1, 3, 1000:
        what = f"{name}, {most} bytes a call"
        readers = [which for which, file in files.items() for _ in range(reads_of(len(FILES[file]), most))]
        ample, counts = refusing.run(words, requests=stream, MOST_BYTES=most)
        tally.expect(ample == done and counts.reads == len(readers), f"{what}: {ample}")

        def fail_read(at):
            answer, _ = refusing.run(words, requests=stream, MOST_BYTES=most, REFUSE_READ=at)
            told = f"chtab: cannot read {readers[at - 1]}\n".encode()
            written = answers_after(asked, most * readers[:at - 1].count("requests"))
            tally.expect(answer == Answer(3, written, told), f"{what}, read {at} fails: {answer}")
            answer, _ = refusing.run(words, requests=stream, MOST_BYTES=most, REFUSE_READ=at, REFUSE_WITH=INTERRUPTED)
            tally.expect(answer == done, f"{what}, read {at} is interrupted: {answer}")

        def fail_write(at):
            """How many bytes were written before."""
            answer, _ = refusing.run(words, requests=stream, MOST_BYTES=most, REFUSE_WRITE=at)
            taken = len(answer.out)
            told = Answer(3, text[:taken], f"chtab: cannot write after {taken} bytes\n".encode())
            tally.expect(answer == told, f"{what}, write {at} fails: {answer}")
            for error, wanted in (0, told), (DEVICE_FULL, told), (READER_GONE, told), (INTERRUPTED, done):
                answer, _ = refusing.run(words, requests=stream, MOST_BYTES=most, REFUSE_WRITE=at, REFUSE_WITH=error)
                tally.expect(answer == wanted, f"{what}, write {at} fails with {error}: {answer}")
            return taken

        side_by_side(fail_read, range(1, len(readers) + 1))
        places = side_by_side(fail_write, range(1, counts.writes + 1))
        tally.expect(are_places(places, len(text), most, not asked), f"{what}: writes begin at {places}")


def are_places(places, size, most, is_one):
    """Whether writes of at most so many bytes that begin at these places move a text of this size; where it is one text, and not the texts of
    answers, in as few writes as it takes."""
    if is_one:
        return places == list(range(0, size, most))
    return places[:1] == [0] and all(0 < end - start <= most for start, end in pairwise([*places, size]))


def asked_in(files):
    """What is asked of a run over these files."""
    return ASKED[files["requests"]] if "requests" in files else []


def close_pipe(tally, folder):
    """Closes a pipe once it is full, while the program writes a text that is longer: its write fails."""
    (folder / "one.gr").write_text("p sp 1 0\n")
    (folder / "ones.ss").write_text("p aux sp ss 400\n" + "s 1\n" * 400)
    read_end, write_end = os.pipe()
    process = subprocess.Popen([PROGRAM, "table", "one.gr", "ones.ss", "ones.ss"], cwd=folder, stdout=write_end,
                               stderr=subprocess.PIPE)
    for _ in range(100 * SECONDS):
        if process.poll() is not None or not select.select([], [write_end], [], 0)[1]:
            break
        time.sleep(0.01)
    os.close(read_end)
    os.close(write_end)
    err = process.communicate(timeout=SECONDS)[1]
    is_told = process.returncode == 3 and re.fullmatch(rb"chtab: cannot write after \d+ bytes\n", err)
    tally.expect(is_told, f"a full pipe is closed: {process.returncode}, {err}")


def quick_answer(folder):
    """What `save --quick` owes for the rings, in the order that it finds."""
    _, (order, _) = read("saved", run(QUICKLY, folder).out, 198)
    return Answer(0, text_quick(198, RINGS, 5, [node for node, in order]).encode(), b"")


def main():
    build()
    tally = Count()
    with tempfile.TemporaryDirectory() as folder:
        refusing = Refusing(folder)
        for name, text in FILES.items():
            (refusing.folder / name).write_text(text)
        for name, (words, wanted) in KINDS.items():
            refuse_memory(refusing, tally, name, words, wanted)
        wanted = quick_answer(refusing.folder)
        refuse_memory(refusing, tally, "a quick hierarchy", QUICKLY, wanted)
        refuse_memory(refusing, tally, "a quick hierarchy by two workers", [*QUICKLY, *TWO_WORKERS], wanted)
        refuse_threads(refusing, tally, "a quick hierarchy", QUICKLY, wanted, ())
        for name, (words, asked) in ASKS.items():
            for most in 16, 65_536:
                done = Answer(0, answers_of(asked), b"")
                refuse_memory(refusing, tally, f"{name}, {most} bytes a call", words, done, asked, MOST_BYTES=most)
        for name, (words, files, text) in RUNS.items():
            refuse_threads(refusing, tally, name, with_files(words, files), Answer(0, text, b""), asked_in(files))
            fail_devices(refusing, tally, name, words, files, text)
        count_threads(refusing, tally)
        fail_help(refusing, tally)
        close_pipe(tally, refusing.folder)
        for crate in filter(has_tests_in_turn, sorted(ROOT.glob("crates/*"))):
            refuse_in_crate(refusing, tally, crate, is_needed="--tests" in sys.argv[1:])
    tally.finish()


if __name__ == "__main__":
    main()
