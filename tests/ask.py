#!/usr/bin/python3
"""Asks the built program by requests that come to its standard input, and compares its answers with those of an independent reading of them.

  ask.py [STREAMS [SEED]]

- Requests that are cut in two at each byte, or come one byte a read: all that is whole is answered before more is sent. So are questions
  through a pipe, each made of the answer to the one before.
- Each fault of each line, and of the end; it ends the run though more could come. Numbers, lines and tables at their limits.
- The roads of Liechtenstein: 100,000 queries, and tables among queries, with routes, within a limit, by a saved hierarchy and by any number
  of workers, have the answers of `dist` and `table`. So have 10,000 near rows those of `near`.
- New weights by hand, and a fifth of STREAMS streams with new weights, of which routes are compared with those of `dist`.
- STREAMS streams (1,000) on random graphs, drawn from the seed and cut at random; half of them are mutated, and some of the others are also
  compared with runs of `dist`, `table` and `near` request by request.
- Where the graph or the saved hierarchy is refused the requests are left to the next reader.
- A run holds no more memory for 300,000 requests than for 10,000.
- A reader that goes away ends each kind of run silently.

The last line is 'N passed, N failed'.
"""
import os
import random
import re
import sys
import tempfile
import zlib
from collections import Counter
from pathlib import Path

from helpers.asking import Conversation, apart, run_before_leaving, run_by_parts
from helpers.new_weights import check_weighed, check_weights
from helpers.requests_by_hand import FAULTS, FAULTS_OF_THE_END, HUGE, LINE, SOUND
from helpers.running import ROOT, Answer, Count, agrees, build, run, side_by_side
from helpers.streams import FOR_ALL, FOR_QUERIES, FOR_TABLES, Drawn, drawn_requests, stream_of, words_of
from helpers.writing import write_graph, write_list, write_queries
from oracles.reading import graph_of
from oracles.requesting import Answers, Near, Places, Query, Route, Table, told

GRAPH = ROOT / "examples" / "liechtenstein.gr"

# The order and the legs of a hierarchy of the line; and a line of many nodes, whose ends are nearly as far from each other as may be.
LINE_HIERARCHY = [1, 2, 3], [[1, 2, 4, 1, 0], [2, 3, 5, 1, 0]]
WIDE = 1024, [(node, node + 1, 2**50) for node in range(1, 1024)]
WIDEST = 1023 * 2**50

# The options of `near`.
FOR_NEAR = "--within", "--count", *FOR_ALL

FILES = {
    "line.ch": "p ch 3 2\no 1\no 2\no 3\nl 1 2 4 1 0\nl 2 3 5 1 0\n",
    "outside.gr": "p sp 2 1\na 1 3 5\n",
    "wrong.ch": "p ch 3 2\no 2\no 1\no 3\nl 1 2 4 1 0\nl 2 3 5 1 0\n",
    "cut.ch": "p ch 3 2\no 1\no 2\no 3\nl 1 2 4 1 0\n",
}

# Requests on the line: queries and tables, lines that are skipped, blanks, and no line feed after the last.
MIXED = (b"q 1 3\nc q 1 1\n\nt 3 2\ns 1\ns 1\n c\ns 3\r\ns 3\n\ts  002\nq 3 1 \n \t\r\nt 0 2\ns 1\ns 2\nt 2 0\ns 1\ns 3\ncomment\nt 0 0\n"
         b"r 1 2\np 2 1\ns 3\ns 2\nn 1 4\nn 1\nt 1 1 8\ns 1\ns 3\nq 2 3")
MIXED_ANSWERS = (b"d 1 3 9\nt 1 9 4\nt 1 9 4\nt 3 0 -\nd 3 1 -\nt 1\nt 3\nd 1 2 4\nr 1\na 1 2 4\nn 1 1 2 4\nn 1 1 2 4\nt 1 -\n"
                 b"d 2 3 5\n")


def write_files(folder):
    """The files of all checks, and the hierarchy of the roads."""
    write_graph(folder / "line.gr", *LINE)
    write_graph(folder / "wide.gr", *WIDE)
    for name, text in FILES.items():
        (folder / name).write_text(text)
    (folder / "roads.ch").write_bytes(run(["save", "--deep", GRAPH], folder).out)


def on_the_line():
    return Answers(*LINE, hierarchy=LINE_HIERARCHY, tells_routes=False)


# Answers that come at once.


def is_answered_in_turn(words, folder, answers, parts):
    """Whether each part of a stream is answered before the next is sent, which comes by a read of its own."""
    said = heard = b""
    with Conversation(words, folder, apart) as talk:
        for part in parts:
            talk.say(part)
            said += part
            owed = answers.owed_so_far(said)
            heard += talk.hear(len(owed) - len(heard))
            if heard != owed:
                return False
        answer = talk.end()
    return answer._replace(out=heard + answer.out) == answers.owed(said)


def check_cuts(tally, folder):
    """Requests that are cut in two at each byte, and that come one byte a read."""
    answers = on_the_line()
    tally.expect(answers.owed(MIXED) == (0, MIXED_ANSWERS, b""), "the independent reading of the requests that are cut")
    cuts = [[MIXED[:place], MIXED[place:]] for place in range(1, len(MIXED))]
    for words in ["ask", "line.gr"], ["ask", "--saved", "line.ch", "line.gr"]:
        for parts in *cuts, [bytes([byte]) for byte in MIXED]:
            is_right = is_answered_in_turn(words, folder, answers, parts)
            tally.expect(is_right, f"{words}, {len(parts)} parts, the first {parts[0]}")
            if not is_right:
                break


# How many questions are asked through a pipe.
QUESTIONS = 200


def question(place, node, nodes):
    """A request that has one line of answer: a query, or every fifth time a table."""
    if place % 5:
        return f"q {node} {node * place % nodes + 1}\n".encode()
    return f"t 1 3\ns {node}\nc\ns {place + 1}\ns {nodes - place}\ns {node}\n".encode()


def check_questions(tally, folder):
    """Each question is made of the answer to the one before, so it can't be sent sooner."""
    answers = Answers(*graph_of(GRAPH))
    with Conversation(["ask", "--saved", "roads.ch", GRAPH], folder) as talk:
        node = 1
        for place in range(QUESTIONS):
            asked = question(place, node, answers.nodes)
            talk.say(asked)
            line = talk.hear_line()
            tally.expect(line == answers.owed_so_far(asked), f"question {place}, {asked}: {line}")
            if not line:
                return
            node = zlib.crc32(line) % answers.nodes + 1
        answer = talk.end()
        tally.expect(answer == Answer(0, b"", b""), f"after the last question: {answer}")


# Faults and limits.


def check_stream(tally, folder, requests, wanted):
    """One stream on the line, by a run and by the independent reading."""
    read = on_the_line().owed(requests)
    tally.expect(read == wanted, f"the independent reading of {requests[:60]}: {read}")
    answer = run(["ask", "line.gr"], folder, requests=requests)
    tally.expect(answer == wanted, f"{requests[:60]}: {answer.status}, {answer.out[:200]}, {answer.err}")


def check_lines(tally, folder):
    """Requests of which each fault is known, and requests without a fault."""
    for requests, text, fault in FAULTS + FAULTS_OF_THE_END:
        check_stream(tally, folder, requests, Answer(1, text, b"chtab: " + fault + b"\n"))
    for requests, text in SOUND:
        check_stream(tally, folder, requests, Answer(0, text, b""))
    for number in HUGE:
        for line in b"q %d 1\n", b"q 1 %d\n", b"t 1 1\ns %d\n":
            requests = b"q 1 3\n" + line % number
            fault = b"chtab: request line %d: node out of range\n" % requests.count(b"\n")
            check_stream(tally, folder, requests, Answer(1, b"d 1 3 9\n", fault))
    for number in HUGE[1:]:
        for line in b"t %d 1\n", b"t 0 %d\n", b"t %d 65536\n":
            check_stream(tally, folder, line % number, Answer(1, b"", b"chtab: request line 1: size too large\n"))


def check_going_on(tally, folder):
    """A faulty line ends the run where requests could still come."""
    for requests, text, fault in FAULTS:
        with Conversation(["ask", "line.gr"], folder) as talk:
            talk.say(requests)
            answer = talk.rest()
        tally.expect(answer == Answer(1, text, b"chtab: " + fault + b"\n"), f"{requests}, and more could come: {answer}")
        if answer.status == "stopped":
            break


def check_widest(tally, folder):
    """The widest distances, and limits beside them."""
    requests = b"q 1 1024\nt 1 2\ns 1\ns 1023\ns 1024\nq 1024 1\n"
    for within in WIDEST - 1, WIDEST, 2**60:
        cell = str(WIDEST).encode() if WIDEST <= within else b"-"
        wanted = Answer(0, b"d 1 1024 %d\nt 1 %d %b\nd 1024 1 -\n" % (WIDEST, WIDEST - 2**50, cell), b"")
        answer = run(["ask", "--within", str(within), "wide.gr"], folder, requests=requests)
        tally.expect(answer == wanted == Answers(*WIDE, within).owed(requests), f"within {within}: {answer}")


# What `dist`, `table` and `near` answer.


def text_of_request(folder, graph, options, request, places):
    """What a run over one request writes, where these places were given last before it. A route that the run's options don't ask for goes by
    the order of depth, or by the saved hierarchy."""
    match request:
        case Places():
            return b""
        case Route(start, end):
            routed = {"--routes": None} if "--routes" in options else {"--routes": None, "--deep": None}
            return text_of_run(folder, graph, options | routed, [Query(start, end)])
        case Near(source, within):
            return text_of_near(folder, graph, options | own_limit(within), [source], places)
        case Table(sources, targets, within):
            return text_of_run(folder, graph, options | own_limit(within), [Table(sources, targets)])
    return text_of_run(folder, graph, options, [request])


def own_limit(within):
    return {} if within is None else {"--within": within}


def text_of_near(folder, graph, options, sources, places):
    """What `near` writes for these sources."""
    write_list(folder / "from.ss", sources)
    write_list(folder / "to.ss", places.nodes)
    count = {"--count": places.count} if places.count else {}
    answer = run(["near", *words_of(options | count, FOR_NEAR), graph, "from.ss", "to.ss"], folder)
    assert (answer.status, answer.err) == (0, b""), answer
    return answer.out


def texts_singly(folder, graph, options, requests):
    """What runs over one request each write, in order."""
    places, texts = Places([], 0), []
    for request in requests:
        texts.append(text_of_request(folder, graph, options, request, places))
        places = request if isinstance(request, Places) else places
    return b"".join(texts)


def text_of_run(folder, graph, options, requests):
    """What `table` writes for a table, or `dist` for queries."""
    if isinstance(requests[0], Table):
        for name, nodes in zip(("from.ss", "to.ss"), requests[0]):
            write_list(folder / name, nodes)
        answer = run(["table", *words_of(options, FOR_TABLES), graph, "from.ss", "to.ss"], folder)
    else:
        write_queries(folder / "asked.p2p", requests)
        answer = run(["dist", *words_of(options, FOR_QUERIES), graph, "asked.p2p"], folder)
    assert (answer.status, answer.err) == (0, b""), answer
    return answer.out


def in_runs(requests):
    """The requests in groups, each of which a run of `table` or of `dist` answers: a table, and the queries up to the next table."""
    groups = []
    for request in requests:
        if groups and isinstance(request, Query) and isinstance(groups[-1][0], Query):
            groups[-1].append(request)
        else:
            groups.append([request])
    return groups


def check_many(tally, folder):
    """A hundred thousand queries, through a pipe and from a file."""
    nodes, _ = graph_of(GRAPH)
    draw = random.Random("many")
    queries = [Query(draw.randint(1, nodes), draw.randint(1, nodes)) for _ in range(100_000)]
    wanted = Answer(0, text_of_run(folder, GRAPH, {}, queries), b"")
    stream = stream_of(queries)
    (folder / "many.txt").write_bytes(stream)
    for words in ["ask", GRAPH], ["ask", "--workers", "4", "--piece", "100", GRAPH]:
        with open(folder / "many.txt", "rb") as file:
            for answer in run(words, folder, requests=stream), run(words, folder, requests=file):
                tally.expect(answer == wanted, f"{words}, 100,000 queries: {answer.status}, {len(answer.out)} bytes, {answer.err}")


# How the roads are asked, and by how many workers.
WAYS = [{}, {"--routes": None}, {"--routes": None, "--deep": None}, {"--deep": None, "--hops": 1}, {"--routes": None, "--within": 300_000}]
SHARED = [{}, {"--workers": 2, "--piece": 1}, {"--workers": 4, "--piece": 7}, {"--workers": 64, "--piece": 1000}]


def check_roads(tally, folder):
    """Tables among queries on real roads, as runs of `table` and `dist` answer them, by any number of workers."""
    nodes, _ = graph_of(GRAPH)
    requests = drawn_requests(random.Random("roads"), nodes, 40, (0, 1, 3, 20))
    stream = stream_of(requests)

    def answers_by(options):
        with tempfile.TemporaryDirectory(dir=folder) as own:
            wanted = b"".join(text_of_run(Path(own), GRAPH, options, group) for group in in_runs(requests))
            return wanted, [run(["ask", *words_of(options | shared), GRAPH], own, requests=stream) for shared in SHARED]

    ways = [*WAYS, *(way | {"--saved": folder / "roads.ch"} for way in WAYS)]
    for options, (wanted, answers) in zip(ways, side_by_side(answers_by, ways)):
        for shared, answer in zip(SHARED, answers):
            told_of = f"{options} {shared}: {answer.status}, {len(answer.out)} bytes, {answer.err}"
            tally.expect(answer == Answer(0, wanted, b""), told_of)


# How many sources ask for their near rows on the roads, and among how many places.
SOURCES, PLACES = 10_000, 300


def check_near_rows(tally, folder):
    """Near rows on real roads that come together, as runs of `near` make them, by any number of workers."""
    nodes, _ = graph_of(GRAPH)
    draw = random.Random("near rows")
    sources = [draw.randint(1, nodes) for _ in range(SOURCES)]
    for count, within in (3, None), (0, 60_000), (5, 120_000):
        places = Places([draw.randint(1, nodes) for _ in range(PLACES)], count)
        wanted = text_of_near(folder, GRAPH, {"--saved": "roads.ch"} | own_limit(within), sources, places)
        stream = stream_of([places, *(Near(source, within) for source in sources)])
        for shared in SHARED:
            answer = run(["ask", "--saved", "roads.ch", *words_of(shared), GRAPH], folder, requests=stream)
            told_of = f"{count} places within {within}, {shared}: {answer.status}, {len(answer.out)} bytes, {answer.err}"
            tally.expect(answer == Answer(0, wanted, b""), told_of)


# Random streams.


def check_drawn(name, is_singly):
    """Runs one stream. The kind of its fault, and what is wrong with its answer, or None."""
    drawn = Drawn(name)
    with tempfile.TemporaryDirectory() as kept:
        folder = Path(kept)
        drawn.write(folder)
        wanted = drawn.owed(folder)
        answer = run_by_parts(["ask", *words_of(drawn.options), "graph.gr"], folder, drawn.parts)
        kind = wanted[2].decode().strip().split(": ")[-1] or "accepted"
        if answer != wanted:
            return kind, f"{drawn.options} on {drawn.parts}\n  wanted: {wanted}\n  came:   {answer}"
        if is_singly and not drawn.is_mutated:
            given, _ = told(drawn.stream, drawn.case.nodes)
            if texts_singly(folder, "graph.gr", drawn.options, given) != answer.out:
                return kind, f"{drawn.options} on {drawn.parts}: other answers by single runs"
    return kind, None


# The faults of streams, and that none is found.
HOW_MANY_FAULTS = 8 + 1


def check_streams(tally, how_many, seed):
    """Random streams, of which one of four is also asked request by request."""
    names = [f"{seed} {place}" for place in range(how_many)]
    found = side_by_side(lambda place: check_drawn(names[place], place % 4 == 0), range(how_many))
    for name, (_, fault) in zip(names, found):
        tally.expect(fault is None, f"stream {name}: {fault}")
    kinds = Counter(kind for kind, _ in found)
    print("faults of drawn streams:", ", ".join(f"{kind} {times}" for kind, times in kinds.most_common()))
    if how_many >= 1000:
        tally.expect(len(kinds) == HOW_MANY_FAULTS, f"some kind of fault was not drawn: {kinds}")


# What is left, held and told.

# Runs that do not come to their requests, and how they end; None where other tests look at the text.
UNREAD = [
    (["outside.gr"], Answer(1, b"", b"chtab: graph line 2: node out of range\n")),
    (["missing.gr"], Answer(3, b"", b"chtab: cannot read graph\n")),
    (["--saved", "wrong.ch", "line.gr"], Answer(1, b"", b"chtab: saved hierarchy refused: lower\n")),
    (["--saved", "cut.ch", "line.gr"], Answer(1, b"", b"chtab: saved line 6: too few lines\n")),
    (["--saved", "missing.ch", "line.gr"], Answer(3, b"", b"chtab: cannot read saved\n")),
    (["--saved", "missing.ch", "outside.gr"], Answer(3, b"", b"chtab: cannot read saved\n")),
    (["--plain", "line.gr"], Answer(2, b"", None)),
    (["--help"], Answer(0, None, b"")),
]


def left_after(words, folder):
    """The answer of a run, and what it left of requests in a pipe for the next reader."""
    reader, writer = os.pipe()
    os.write(writer, MIXED)
    os.close(writer)
    answer = run(["ask", *words], folder, requests=reader)
    left = os.read(reader, len(MIXED))
    os.close(reader)
    return answer, left


def check_unread(tally, folder):
    """No request is read before graph and hierarchy were accepted."""
    for words, wanted in UNREAD:
        answer, left = left_after(words, folder)
        tally.expect(agrees(answer, wanted) and left == MIXED, f"{words}: {answer}, left: {left}")
    for words in ["line.gr"], ["--saved", "line.ch", "line.gr"]:
        answer, left = left_after(words, folder)
        tally.expect((answer, left) == (Answer(0, MIXED_ANSWERS, b""), b""), f"{words}: {answer}, left: {left}")


# How many requests are sent at a time while the memory of a run is measured, and one of them; and how many more bytes a longer run may hold.
# If it kept the nodes of its requests, their bytes or its answers, these would be more.
TOGETHER = 1000
REQUEST = b"q %030d %030d\n" % (1, 1024)
MORE_BYTES = 2**20


def held_for(folder, how_many):
    """The most bytes that a run has held when it had answered so many requests, of which one of a thousand is a table, one gives places and
    two ask for near rows; None where an answer is not what it must be."""
    requests = (TOGETHER - 4) * REQUEST + b"t 1 2\ns 1\ns 1023\ns 1024\np 2 1\ns 1\ns 1024\nn 1\nn 2 0\n"
    text = Answers(*WIDE).owed_so_far(requests)
    with Conversation(["ask", "wide.gr"], folder) as talk:
        for _ in range(how_many // TOGETHER):
            talk.say(requests)
            if talk.hear(len(text)) != text:
                return None
        held = talk.most_held()
        return held if talk.end() == Answer(0, b"", b"") else None


def check_memory(tally, folder):
    few, many = (held_for(folder, how_many) for how_many in (10_000, 300_000))
    print(f"held for 10,000 and 300,000 requests: {few} and {many} bytes")
    tally.expect(None not in (few, many) and many <= few + MORE_BYTES, f"held for 10,000 and 300,000 requests: {few} and {many} bytes")


def check_leaving(tally, folder):
    """A reader that goes away before the first byte, or within a text that is longer than what a pipe holds."""
    (folder / "long.txt").write_bytes(50_000 * b"q 1 3\n")
    write_queries(folder / "long.p2p", 50_000 * [(1, 3)])
    write_list(folder / "long.ss", 500 * [1])
    kinds = [["dist", "line.gr", "long.p2p"], ["dist", "--routes", "line.gr", "long.p2p"], ["dist", "--plain", "line.gr", "long.p2p"],
             ["table", "line.gr", "long.ss", "long.ss"], ["save", GRAPH], ["ask", "line.gr"], ["ask", "--saved", "line.ch", "line.gr"]]
    helps = [["--help"], ["ask", "--help"]]
    for count, words in [(0, words) for words in kinds + helps] + [(1, words) for words in kinds]:
        with open(folder / "long.txt", "rb") as requests:
            answer = run_before_leaving(words, folder, count, requests)
        told = re.fullmatch(rb"chtab: cannot write after (\d+) bytes\n", answer.err)
        is_told = (answer.status, len(answer.out)) == (3, count) and told and int(told[1]) >= count
        tally.expect(is_told, f"{words}, to none after {count} bytes: {answer}")
    with Conversation(["ask", "line.gr"], folder) as talk:
        talk.say(b"q 1 3\n")
        heard = talk.hear(8)
        talk.leave()
        talk.say(b"q 1 3\n")
        answer = talk.rest()
    is_told = (heard, answer.status, answer.err) == (b"d 1 3 9\n", 3, b"chtab: cannot write after 8 bytes\n")
    tally.expect(is_told, f"to none after an answer, and more could come: {heard}, {answer}")


def main():
    how_many = int(sys.argv[1]) if len(sys.argv) > 1 else 1000
    seed = sys.argv[2] if len(sys.argv) > 2 else "streams"
    build()
    tally = Count()
    with tempfile.TemporaryDirectory() as place:
        folder = Path(place)
        write_files(folder)
        for check in (check_cuts, check_questions, check_lines, check_going_on, check_weighed, check_widest, check_many, check_roads,
                      check_near_rows, check_unread, check_memory, check_leaving):
            check(tally, folder)
    check_streams(tally, how_many, seed)
    check_weights(tally, how_many // 5, seed)
    tally.finish()


if __name__ == "__main__":
    main()
