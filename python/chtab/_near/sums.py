"""Aggregates of values over near rows, such as sums, for several limits and columns at once."""
from __future__ import annotations

from collections.abc import Callable, Iterable, Sequence
from typing import TYPE_CHECKING, Any, NamedTuple, TypeAlias

import numpy

from chtab.errors import DataFault
from chtab._files import columns, row_index
from chtab._files.measures import EXACT
from chtab._near import blocks
from chtab._near import rows as near_rows
from chtab._near.question import NearQuestion

if TYPE_CHECKING:
    from numpy.typing import NDArray
    from chtab._files.measures import Measure
    from chtab._engine.in_process import InProcess
    from chtab._near.blocks import Question
    from chtab.typing import Floats, Integers, Weights

LINEAR, EXPONENTIAL = "linear", "exponential"
# The decay as callers give it; shares of values within a limit; the state of an aggregate.
Decay: TypeAlias = str | Callable[[Any], Any] | None
Share: TypeAlias = Callable[[Any, Any], Any]
State: TypeAlias = "Sequence[NDArray[Any]]"
Portions: TypeAlias = "Iterable[tuple[int, near_rows.Rows]]"
KINDS = "sum", "mean", "median", "count", "std", "min", "max"
# The aggregates that may have a decay.
DECAYING = "sum", "mean", "count", "std"


class Asked(NamedTuple):
    """The question of an aggregate, one of `KINDS`, over the values of targets (l, c)."""

    kind: str
    values: Floats
    # The limits in the unit of the graph and in that of the caller, and the caller's unit.
    limits: list[int]
    given: list[Any]
    # The share of a value that counts at weights within a limit of the caller; None: all of it.
    share: Share | None
    measure: Measure

    def of(self, some: slice) -> Asked:
        """The same question for some of the targets."""
        return self._replace(values=self.values[some])

    def shape(self, height: int) -> tuple[int, int, int]:
        """The shape of aggregates for this many sources."""
        return height, self.values.shape[1], len(self.limits)


def share_by(decay: Decay, kind: str, limits: Sequence[Any]) -> Share | None:
    """The share of a value that counts at each of some weights within a limit."""
    if decay is not None and kind not in DECAYING:
        raise ValueError(f"the {kind} has no decay; {', '.join(DECAYING)} have one")
    if decay in (LINEAR, EXPONENTIAL) and 0 in limits:
        raise ValueError("a limit is above 0 where the decay divides by it")
    if decay is None:
        return None
    if decay == LINEAR:
        return lambda weights, limit: 1.0 - weights / float(limit)
    if decay == EXPONENTIAL:
        return lambda weights, limit: numpy.exp(-weights / float(limit))
    if not callable(decay):
        raise ValueError(f"decay is None, 'linear', 'exponential' or a call, not {decay!r}")
    own = decay
    return lambda weights, limit: shares_of(own, weights)


def shares_of(decay: Callable[[Any], Any], weights: Weights) -> Floats:
    """The shares that a caller's own decay gives, a number for each weight."""
    shares = numpy.asarray(decay(weights), float)
    if shares.shape not in ((), weights.shape):
        text = f"decay gave the shape {shares.shape} for weights of the shape {weights.shape}"
        raise ValueError(text)
    place = columns.first_of(~((shares >= 0) & (shares < numpy.inf)))
    if place is not None:
        weight = numpy.broadcast_to(weights, shares.shape or weights.shape).flat[place]
        text = f"decay gave {shares.flat[place]} for the weight {weight}"
        raise ValueError(f"{text}: a share is a number from 0 on")
    return numpy.broadcast_to(shares, weights.shape)


# Values as callers give them.


def values_in(
    values: Any, targets: Any, nodes_of: Callable[[str, Any], Integers], all_nodes: Integers,
    with_zeros: bool = False,
) -> tuple[Integers, Floats, list[Any] | None]:
    """The targets (l,), their values (l, c), and names of columns or None; without targets the
    index or keys of values have their labels, and an array has a value for each of all nodes."""
    if targets is not None:
        names_of = "values", "targets"
        values, targets = row_index.matched(names_of, (values, targets))
        values = row_index.by_labels(names_of, values, targets)
    if targets is None and hasattr(values, "keys"):
        has_index = hasattr(values, "index")
        targets = values.index if has_index else [*values.keys()]
        values = values if has_index else [*values.values()]
    nodes = all_nodes if targets is None else nodes_of("targets", targets)
    if numpy.ndim(values) == 0:
        one = values[()] if isinstance(values, numpy.ndarray) else values
        values = numpy.repeat(columns.numbers_in("values", [one], True), len(nodes))
    names = list(values.columns) if hasattr(values, "columns") else None
    own = [column_in(*each, nodes, targets is None) for each in columns_of(values, names)]
    found = numpy.column_stack([numpy.zeros((len(nodes), 0)), *own])
    if targets is not None or with_zeros:
        return nodes, found, names
    is_some = (found != 0).any(axis=1)
    return nodes[is_some], found[is_some], names


def columns_of(values: Any, names: list[Any] | None) -> list[tuple[str, Any]]:
    """The columns of values, each with its name for errors."""
    if names is not None:
        return [(f"values[{name!r}]", values.iloc[:, place]) for place, name in enumerate(names)]
    if numpy.ndim(values) == 2:
        rows = numpy.asarray(values, object if isinstance(values, list | tuple) else None)
        return [(f"values[:, {place}]", rows[:, place]) for place in range(rows.shape[1])]
    return [("values", values)]


def column_in(name: str, column: Any, nodes: Integers, are_all: bool) -> Floats:
    """The finite numbers of one column, float64."""
    found = columns.numbers_in(name, column, True).astype(float)
    columns.refuse(name, ~numpy.isfinite(found), lambda row: f"{found[row]} is no value")
    if len(found) != len(nodes):
        text = f"{len(nodes):,} {'nodes' if are_all else 'targets'}"
        raise DataFault(f"{name} has {len(found):,} rows, and there are {text}", name)
    return found


# Aggregates of rows.


def aggregates(
    engine: InProcess, question: Question, asked: Asked, workers: Any = 1, progress: Any = None
) -> Floats:
    """The aggregates for each source, column and limit (n, c, m); 0 or NaN over no target."""
    height = question.height(engine.nodes)
    if asked.kind == "median":
        return medians(engine, question, asked, workers, progress)
    is_plain = workers == 1 and progress is None
    if is_plain and isinstance(question, NearQuestion) and are_counted(question, asked):
        return blocks.sums(engine, question, asked.values.astype(numpy.uint64), asked.limits)

    def make(block: blocks.Block, portions: Portions) -> State:
        own = asked.of(slice(block.column, block.column + len(block.question.targets)))
        state = begun(asked.kind, asked.shape(block.question.height(engine.nodes)))
        for start, rows in portions:
            for place, part in enumerate(state_of(rows, own)):
                state[place][start:start + len(rows)] = part
        return state

    whole = begun(asked.kind, asked.shape(height))
    for block, state in blocks.values(engine, question, make, workers, progress):
        some = slice(block.row, block.row + len(state[0]))
        for part, joined in zip(whole, JOINED[asked.kind]([part[some] for part in whole], state)):
            part[some] = joined
    return ENDED[asked.kind](*whole)


def are_counted(question: Question, asked: Asked) -> bool:
    """Whether values are summed as whole numbers, whose sums are exact as floats."""
    values, count = asked.values, len(question.targets)
    if asked.kind != "sum" or asked.share is not None or not 0 < count <= blocks.LENGTH:
        return False
    are_whole = (values >= 0).all() and (values == numpy.floor(values)).all()
    return bool(are_whole and values.sum() <= EXACT)


def begun(kind: str, shape: tuple[int, ...]) -> State:
    """The state of an aggregate over no target."""
    if kind in ("min", "max"):
        return [numpy.full(shape, numpy.inf if kind == "min" else -numpy.inf)]
    return [numpy.zeros(shape) for _ in range({"sum": 1, "count": 1, "mean": 2, "std": 3}[kind])]


def state_of(rows: near_rows.Rows, asked: Asked) -> State:
    """The state of an aggregate over some rows: arrays (rows, c, m)."""
    owners, state = rows.owners(), begun(asked.kind, asked.shape(len(rows)))
    weights = asked.measure.in_unit(rows.weights)
    for place, (limit, given) in enumerate(zip(asked.limits, asked.given)):
        is_near = rows.weights <= limit
        near, values = owners[is_near], asked.values[rows.places[is_near]]
        if asked.kind in ("min", "max"):
            least: Any = numpy.minimum if asked.kind == "min" else numpy.maximum
            # The owners are in order.
            firsts = numpy.flatnonzero(numpy.diff(near, prepend=-1))
            if len(firsts):
                state[0][near[firsts], :, place] = least.reduceat(values, firsts, axis=0)
            continue
        shares = numpy.ones(len(near))
        if asked.share is not None:
            shares = asked.share(weights[is_near], given)
        for column in range(values.shape[1]):
            parts = PARTS[asked.kind](near, values[:, column], shares, len(rows))
            for array, part in zip(state, parts):
                array[:, column, place] = part
    return state


def moments(owners: Integers, values: Floats, shares: Floats, count: int) -> State:
    """The shares, the mean, and the sum of squares about it, of each owner."""
    total = numpy.bincount(owners, shares, count)
    mean = quotient(numpy.bincount(owners, values * shares, count), total, 0.0)
    return total, mean, numpy.bincount(owners, shares * (values - mean[owners]) ** 2, count)


def joined_moments(first: State, second: State) -> State:
    """The moments of two lists of targets together (Chan, Golub and LeVeque 1979)."""
    (total, mean, squares), (other, other_mean, other_squares) = first, second
    whole = total + other
    apart = other_mean - mean
    return (
        whole, mean + quotient(apart * other, whole, 0.0),
        squares + other_squares + quotient(apart**2 * total * other, whole, 0.0))


def quotient(above: NDArray[Any], below: NDArray[Any], otherwise: float = numpy.nan) -> Floats:
    """The quotient where the divisor is not 0."""
    found = numpy.full(numpy.shape(above), otherwise)
    return numpy.divide(above, below, out=found, where=below != 0)


def added(first: State, second: State) -> State:
    return [one + other for one, other in zip(first, second)]


# How each aggregate is made from values with their shares, joined from two states, and finished.
PARTS: dict[str, Callable[..., State]] = {
    "sum": lambda owners, values, shares, count: [numpy.bincount(owners, values * shares, count)],
    "count": lambda owners, values, shares, count: [numpy.bincount(owners, shares, count)],
    "mean": lambda owners, values, shares, count: [
        numpy.bincount(owners, values * shares, count), numpy.bincount(owners, shares, count)],
    "std": moments,
}
JOINED: dict[str, Callable[[State, State], State]] = {
    **dict.fromkeys(("sum", "count", "mean"), added),
    "std": joined_moments,
    "min": lambda first, second: [numpy.minimum(first[0], second[0])],
    "max": lambda first, second: [numpy.maximum(first[0], second[0])],
}
ENDED: dict[str, Callable[..., Any]] = {
    "sum": lambda sums: sums,
    "count": lambda counts: counts,
    "mean": quotient,
    "std": lambda total, mean, squares: numpy.sqrt(quotient(squares, total)),
    "min": lambda least: numpy.where(numpy.isinf(least), numpy.nan, least),
    "max": lambda most: numpy.where(numpy.isinf(most), numpy.nan, most),
}


def medians(
    engine: InProcess, question: Question, asked: Asked, workers: Any, progress: Any
) -> Floats:
    """The medians, which need all targets of a source at once."""
    found = numpy.full(asked.shape(question.height(engine.nodes)), numpy.nan)
    if len(question.targets) > blocks.LENGTH:
        medians_of(found, blocks.rows(engine, question, workers, progress), asked)
        return found

    def make(block: blocks.Block, portions: Portions) -> Floats:
        own = numpy.full(asked.shape(block.question.height(engine.nodes)), numpy.nan)
        for start, rows in portions:
            medians_of(own[start:start + len(rows)], rows, asked)
        return own

    for block, own in blocks.values(engine, question, make, workers, progress):
        found[block.row:block.row + len(own)] = own
    return found


def medians_of(out: Floats, rows: near_rows.Rows, asked: Asked) -> None:
    """Writes the medians of some rows (rows, c, m)."""
    owners = rows.owners()
    for place, limit in enumerate(asked.limits):
        is_near = rows.weights <= limit
        near, counts = owners[is_near], numpy.bincount(owners[is_near], minlength=len(rows))
        firsts, is_some = numpy.cumsum(counts) - counts, counts > 0
        for column in range(asked.values.shape[1]):
            values = asked.values[rows.places[is_near], column]
            values = values[numpy.lexsort([values, near])]
            steps = counts[is_some] - 1, counts[is_some]
            low, high = (firsts[is_some] + step // 2 for step in steps)
            out[is_some, column, place] = (values[low] + values[high]) / 2
