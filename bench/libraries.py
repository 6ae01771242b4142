"""Dijkstra's algorithm as scipy has it: the mean CPU seconds of a query of a file, which has to give the distances of the program."""
import subprocess
import time

import measure
from scipy.sparse import csr_matrix
from scipy.sparse.csgraph import dijkstra


def items_of(path, letter):
    """The numbers of each item line."""
    with open(path) as file:
        return [tuple(map(int, line.split()[1:])) for line in file if line.startswith(letter + " ")]


def matrix_of(graph, nodes):
    """The graph in scipy's form. Of several arcs with the same ends the least counts."""
    least = {}
    for tail, head, weight in items_of(graph, "a"):
        least[tail - 1, head - 1] = min(weight, least.get((tail - 1, head - 1), weight))
    tails, heads = zip(*least)
    return csr_matrix((list(map(float, least.values())), (tails, heads)), shape=(nodes, nodes))


def ratio(inputs, queries, seconds, saved):
    """The time of a query by scipy, which always goes to all nodes, as so many times these seconds. It has to find the distances of the program."""
    matrix, found, pairs = matrix_of(inputs.graph, inputs.nodes), [], items_of(queries, "q")
    begin = time.process_time()
    for start, end in pairs:
        found.append(dijkstra(matrix, indices=start - 1)[end - 1])
    taken = (time.process_time() - begin) / len(pairs)
    command = [measure.PROGRAM, "dist", "--saved", saved, inputs.graph, queries]
    wanted = [line.split()[3] for line in subprocess.run(command, stdout=subprocess.PIPE, text=True, check=True).stdout.splitlines()]
    if wanted != ["-" if each == float("inf") else str(int(each)) for each in found]:
        raise SystemExit(f"{inputs.graph}: scipy finds other distances")
    return taken / seconds
