"""A reader of the files by the rules of docs/DEFINITIONS.md. It is independent of the program: it shares no code with it."""
import re
from collections import namedtuple
from pathlib import Path

# A kind of item line: its letter, how many numbers it has, how many of these are nodes, and the most items.
Part = namedtuple("Part", "letter size node_count most")

# A kind of file: the words of its problem line and how many numbers follow, and its kinds of item line.
Form = namedtuple("Form", "problem_words problem_size parts")

MOST_NODES = 2**25
MOST_WEIGHT = 2**60
MOST_ARCS = 2**25
MOST_LEGS = 2**50

FORMS = {
    "graph": Form([b"p", b"sp"], 2, [Part(b"a", 3, 2, 2**27)]),
    "queries": Form([b"p", b"aux", b"sp", b"p2p"], 1, [Part(b"q", 2, 2, 2**24)]),
    "sources": Form([b"p", b"aux", b"sp", b"ss"], 1, [Part(b"s", 1, 1, 65_536)]),
    "targets": Form([b"p", b"aux", b"sp", b"ss"], 1, [Part(b"s", 1, 1, 65_536)]),
    "saved": Form([b"p", b"ch"], 2, [Part(b"o", 1, 1, MOST_NODES), Part(b"l", 5, 2, MOST_LEGS)]),
}
FORMS["order"] = FORMS["saved"]

# Past every limit. Longer numbers are taken for it, since to read them by their value takes long.
HUGE = 10**40


class Fault(Exception):
    """The first fault of a file: its line and its text."""

    def __init__(self, line, text):
        super().__init__(f"line {line}: {text}")


def lines_of(data):
    lines = data.split(b"\n")
    return lines if lines[-1] else lines[:-1]


def words_of(line):
    return [word for word in re.split(rb"[ \t\r]", line) if word]


def number(word):
    """The value of a word of digits, and None for any other."""
    if re.fullmatch(rb"[0-9]+", word) is None:
        return None
    digits = word.lstrip(b"0")
    return int(digits or b"0") if len(digits) <= 40 else HUGE


def numbers_after(front, size, words):
    """The numbers of a line of these words and then so many numbers, and None for any other."""
    if words[:len(front)] != front or len(words) != len(front) + size:
        return None
    numbers = [number(word) for word in words[len(front):]]
    return None if None in numbers else numbers


def has_nodes(part, numbers, nodes):
    """Whether each node of an item is there. The middle of a leg is a node, or 0."""
    if not all(1 <= node <= nodes for node in numbers[:part.node_count]):
        return False
    return part.letter != b"l" or numbers[4] <= nodes


def is_too_large(part, numbers, nodes):
    """Whether the weight of an arc, or the cost of a leg, is past its limit."""
    if part.letter == b"a":
        return nodes * numbers[2] > MOST_WEIGHT
    return part.letter == b"l" and (numbers[2] > MOST_WEIGHT or numbers[3] > MOST_ARCS)


def read(name, data, nodes=None):
    """The number of nodes, and for each kind of item line the items that this file has, nodes counted from 1; raises its first fault.

    All files but the graph take the number of nodes from it.
    """
    form = FORMS[name]
    declared = None
    items = [[] for _ in form.parts]
    lines = lines_of(data)
    for place, line in enumerate(lines, 1):
        words = words_of(line)
        if not words or words[0].startswith(b"c"):
            continue
        found = [at for at, part in enumerate(form.parts) if words[0] == part.letter]
        if words[0] == b"p":
            if declared is not None:
                raise Fault(place, "second problem line")
            numbers = numbers_after(form.problem_words, form.problem_size, words)
            if numbers is None:
                raise Fault(place, "bad problem line")
            if name == "graph":
                nodes = numbers[0]
            declared = numbers[-len(form.parts):]
            is_other = name in ("saved", "order") and numbers[0] != nodes
            if is_other or nodes > MOST_NODES or any(count > part.most for count, part in zip(declared, form.parts)):
                raise Fault(place, "size too large")
        elif found:
            part, own = form.parts[found[0]], items[found[0]]
            if declared is None:
                raise Fault(place, "no problem line")
            numbers = numbers_after([part.letter], part.size, words)
            if numbers is None:
                raise Fault(place, "bad line")
            if len(own) == declared[found[0]]:
                raise Fault(place, "too many lines")
            if not has_nodes(part, numbers, nodes):
                raise Fault(place, "node out of range")
            if is_too_large(part, numbers, nodes):
                raise Fault(place, "weight too large")
            own.append(numbers)
        else:
            raise Fault(place, "unknown line")
    if declared is None:
        raise Fault(len(lines) + 1, "no problem line")
    if any(len(own) < count for own, count in zip(items, declared)):
        raise Fault(len(lines) + 1, "too few lines")
    return nodes, items


def graph_of(path):
    """The number of nodes of a graph file, and its arcs (from, to, weight)."""
    nodes, (arcs,) = read("graph", Path(path).read_bytes())
    return nodes, [tuple(arc) for arc in arcs]


def queries_of(path, nodes):
    """The queries (from, to) of a file."""
    _, (queries,) = read("queries", Path(path).read_bytes(), nodes)
    return [tuple(query) for query in queries]


def list_of(name, path, nodes):
    """The nodes of a file of sources or of targets."""
    _, (listed,) = read(name, Path(path).read_bytes(), nodes)
    return [node for node, in listed]
