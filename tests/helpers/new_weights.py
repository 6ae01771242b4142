"""Checks of new weights among the requests of a run: by hand, and on random graphs."""
import tempfile
from pathlib import Path

from helpers.asking import Conversation, run_by_parts
from helpers.requests_by_hand import LINE, WEIGHED
from helpers.running import Answer, run, side_by_side
from helpers.streams import Weighed, stream_of, words_of
from helpers.writing import write_graph, write_queries
from oracles.requesting import Answers, NewWeights, Query


def check_weighed(tally, folder):
    """New weights whose answers and faults are known, whole and one byte a read. A fault ends the run though more could come."""
    for requests, text, fault in WEIGHED:
        wanted = Answer(1, text, b"chtab: " + fault + b"\n") if fault else Answer(0, text, b"")
        if b"r " not in requests:
            read = Answers(*LINE, customizable=True).owed(requests)
            tally.expect(read == wanted, f"the independent reading of {requests[:60]}: {read}")
        for options in ["--customizable"], ["--like", "line.ch", "--customizable", "--workers", "3"]:
            answer = run(["ask", *options, "line.gr"], folder, requests=requests)
            tally.expect(answer == wanted, f"{options}, {requests[:60]}: {answer}")
        parts = [bytes([byte]) for byte in requests]
        answer = run_by_parts(["ask", "--customizable", "line.gr"], folder, parts)
        tally.expect(answer == wanted, f"{requests[:60]}, one byte a read: {answer}")
        if fault:
            with Conversation(["ask", "--customizable", "line.gr"], folder) as talk:
                talk.say(requests)
                answer = talk.rest()
            tally.expect(answer == wanted, f"{requests[:60]}, and more could come: {answer}")


def routes_apart(folder, drawn):
    """What `dist` writes for the queries of a stream, each on a file of the graph with the weights that were set before it."""
    answers, texts = Answers(drawn.case.nodes, drawn.case.arcs, customizable=True), []
    for place, request in enumerate(drawn.given):
        if isinstance(request, NewWeights):
            answers = answers.weighed(request)
        elif isinstance(request, Query):
            write_graph(folder / f"{place}.gr", answers.nodes, answers.arcs)
            write_queries(folder / "asked.p2p", [request])
            texts.append(run(["dist", "--routes", "--customizable", f"{place}.gr", "asked.p2p"], folder).out)
    return b"".join(texts)


def check_drawn_weights(name, is_routed):
    """Runs one stream with new weights. What is wrong with its answer, or None."""
    drawn = Weighed(name)
    with tempfile.TemporaryDirectory() as kept:
        folder = Path(kept)
        write_graph(folder / "graph.gr", drawn.case.nodes, drawn.case.arcs)
        wanted = drawn.owed()
        answer = run_by_parts(["ask", "--customizable", *words_of(drawn.options), "graph.gr"], folder, drawn.parts)
        if answer != wanted:
            return f"{drawn.options} on {drawn.parts}\n  wanted: {wanted}\n  came:   {answer}"
        if is_routed and not drawn.is_mutated and not wanted[2]:
            queries = stream_of([request for request in drawn.given if isinstance(request, Query | NewWeights)])
            answer = run(["ask", "--routes", "--customizable", "graph.gr"], folder, requests=queries)
            if answer != Answer(0, routes_apart(folder, drawn), b""):
                return f"other routes on {queries}"
    return None


def check_weights(tally, how_many, seed):
    """Random streams with new weights, of which one of four is also asked for routes."""
    names = [f"{seed} {place}" for place in range(how_many)]
    found = side_by_side(lambda place: check_drawn_weights(names[place], place % 4 == 0), range(how_many))
    for name, fault in zip(names, found):
        tally.expect(fault is None, f"new weights {name}: {fault}")
