"""For the test of near rows: what is owed for a question, from all distances."""
import contextlib


def rows_owed(least, sources, targets, count=None, within=None):
    """For each source the pairs (place, weight) of the targets that are near, by a matrix of distances with -1 where there is no walk."""
    rows = []
    for source in sources:
        found = sorted((int(least[source, target]), place) for place, target in enumerate(targets) if least[source, target] >= 0)
        rows.append([(place, weight) for weight, place in found if within is None or weight <= within][:count])
    return rows


def rows_told(near):
    """The same of an answer."""
    return [list(zip(*map(list, (places.tolist(), weights.tolist())))) for places, weights in map(near.__getitem__, range(len(near)))]


def sums_owed(least, sources, targets, values, limit, share=lambda weight: 1.0):
    """For each source the sum of the values of the targets within a limit, each times its share."""
    rows = rows_owed(least, sources, targets, None, limit)
    return [sum(values[place] * share(weight) for place, weight in row) for row in rows]


def dense_owed(rows, count):
    """The places and the weights of rows in columns, -1 where there is none."""
    filled = [row[:count] + [(-1, -1)] * (count - len(row)) for row in rows]
    return [[[pair[part] for pair in row] for row in filled] for part in range(2)]


def dense(near):
    """Near rows as a table, -1 where a place is not near."""
    import numpy

    table = numpy.full((len(near), len(near.targets)), -1)
    table[near.owners(), near.places] = near.weights
    return table


@contextlib.contextmanager
def small_portions(pairs, swept, together):
    """Calls of the library that give so few pairs, sweeps of so few, and so few sources of a call."""
    from chtab._near import question

    names, numbers = ("PAIRS", "SWEPT", "FEW", "TOGETHER"), (pairs, swept, 0, together)
    before = [getattr(question, name) for name in names]
    for name, number in zip(names, numbers):
        setattr(question, name, number)
    try:
        yield
    finally:
        for name, number in zip(names, before):
            setattr(question, name, number)


@contextlib.contextmanager
def small_blocks(length, pairs):
    """Blocks of so few sources and targets, which several threads make where a call has several."""
    from chtab._near import blocks

    before = blocks.LENGTH, blocks.PAIRS, blocks.SWEPT, blocks.FEW
    blocks.LENGTH, blocks.PAIRS, blocks.SWEPT, blocks.FEW = length, pairs, 0, 0
    try:
        yield
    finally:
        blocks.LENGTH, blocks.PAIRS, blocks.SWEPT, blocks.FEW = before
