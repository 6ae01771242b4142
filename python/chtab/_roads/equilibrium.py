"""Traffic at *user equilibrium*: flows whose times leave no trip a faster route, by the methods of
Frank and Wolfe, and of Mitradjieva and Lindberg."""
from __future__ import annotations

import math
import numbers
from collections.abc import Callable
from typing import TYPE_CHECKING, Any, NamedTuple

import numpy

from chtab._engine.progress import Asked as Progress, progress_of
from chtab.errors import DataFault
from chtab._files import columns
from chtab._files.columns import refused
from chtab._roads.arc_names import ArcNames
from chtab._roads.flows import PairTrips, TableTrips, index_of_rows

if TYPE_CHECKING:
    import pandas
    from numpy.typing import ArrayLike
    from chtab._files.measures import Measure
    from chtab.network import Network
    from chtab._roads.layers import Layers
    from chtab.typing import Floats

METHODS = MSA, FRANK_WOLFE, BI_CONJUGATE = "msa", "frank-wolfe", "bi-conjugate"
# A step of at least this length ends the memory of earlier directions: flows have none of them.
WHOLE_STEP = 0.999_999
# How near the bounds of a step's length come, and the part of a flow for a derivative.
NEAR, DIFFERENCE = 1e-13, 1e-6


class Equilibrium(NamedTuple):
    """Flows at user equilibrium, and how near to it they are.

    Attributes
    ----------
    flows : pandas.Series
        The flow on each row of the arcs.
    times : pandas.Series
        The time of each row with these flows, in the network's unit, without tolls.
    total_time : float
        The sum of flows times times.
    gaps : list of float
        The relative gap before each step: the part of all costs that the trips would save, if each
        took its fastest route and times stayed.
    is_reached : bool
        Whether the last gap is at most the one that was asked for.
    rounding : float
        The largest difference, in the network's unit, between a cost and the whole weight that
        routes were found with.
    missed : int
        How many pairs have no route.
    """

    flows: pandas.Series
    times: pandas.Series
    total_time: float
    gaps: list[float]
    is_reached: bool
    rounding: float
    missed: int


def see_that_known(method: str, gap: float, steps: int) -> None:
    """Refuses an unknown method, and a gap or a number of steps at which no search ends."""
    if method not in METHODS:
        raise ValueError(f"method is one of {', '.join(METHODS)}, not {method!r}")
    if isinstance(steps, bool) or not isinstance(steps, int | numpy.integer) or steps < 1:
        raise ValueError(f"steps is a number from 1 on, not {steps!r}")
    if isinstance(gap, bool) or not isinstance(gap, numbers.Real) or not 0 <= gap < math.inf:
        raise ValueError(f"gap is a number from 0 on, not {gap!r}")


class Rows:
    """The rows of the arcs of a network, each of which leads one way, and has a flow and a time."""

    def __init__(self, layers: Layers, measure: Measure) -> None:
        self.layers, self.measure, self.count = layers, measure, layers.row_count
        twice = columns.first_of(numpy.bincount(layers.rows, minlength=self.count) > 1)
        if twice is not None:
            raise DataFault(
                f"row {twice} of the arcs leads both ways: traffic needs a row for each direction",
                "arcs", twice)

    def column(self, name: str, given: Any) -> Floats:
        """A number for each row, from one for all or a column."""
        if isinstance(given, numbers.Number | numpy.number):
            given = numpy.full(self.count, given)
        given = ArcNames(self.layers).in_rows(name, given) if hasattr(given, "iloc") else given
        column = numpy.asarray(columns.numbers_in(name, given), float)
        if column.shape != (self.count,):
            text = f"{name} has the shape {column.shape}, and there are {self.count:,} rows of arcs"
            raise DataFault(text, name)
        wrong = columns.first_of(~((column >= 0) & (column < numpy.inf)))
        if wrong is not None:
            raise refused(name, wrong, f"{column[wrong]} is not a number from 0 on")
        return column

    def fixed(self, tolls: Any, value_of_time: Any) -> Floats:
        """What each row costs beside its time, in the network's unit of time."""
        if (tolls is None) != (value_of_time is None):
            raise ValueError(
                "tolls and value_of_time go together: a toll divided by the value of time is a "
                "time")
        if tolls is None:
            return numpy.zeros(self.count)
        if (
            isinstance(value_of_time, bool) or not isinstance(value_of_time, numbers.Real)
            or not 0 < float(value_of_time) < math.inf
        ):
            raise ValueError(f"value_of_time is a number above 0, not {value_of_time!r}")
        return self.column("tolls", tolls) / float(value_of_time)

    def bpr(self, capacity: Any, alpha: Any, beta: Any) -> Bpr:
        """The function of the Bureau of Public Roads, with the network's weights as free times."""
        if capacity is None:
            raise ValueError(
                "traffic needs a capacity for each row, or times, a function of the flows")
        capacities = self.column("capacity", capacity)
        none = columns.first_of(capacities == 0)
        if none is not None:
            raise refused(
                "capacity", none, "0 lets nothing through: close the arc by `changed` instead")
        free = numpy.zeros(self.count)
        weights = numpy.asarray(self.layers.graph.weights, float)
        free[self.layers.rows] = weights / self.measure.factor
        return Bpr(free, capacities, self.column("alpha", alpha), self.column("beta", beta))

    def rounded(self, costs: Floats) -> tuple[Floats, float]:
        """Costs as the weights of a network, in its unit, and the largest rounding of one."""
        factor = self.measure.factor
        rounded = numpy.rint(costs * factor) / factor
        return rounded, float(abs(rounded - costs).max(initial=0))


def equilibrium_of(
    rows: Rows, search: Search, gap: float, steps: int, progress: Progress,
) -> Equilibrium:
    """Takes steps of a search until the gap is small enough, and returns where it has come."""
    import pandas

    with progress_of(progress, "steps", steps, "steps", False) as counted:
        gaps = search.run(gap, steps, counted.step)
    index, times = index_of_rows(rows.layers), search.curve.times(search.flows)
    flows = pandas.Series(search.flows, index, name="flow")
    total = float(search.flows @ times)
    return Equilibrium(
        flows, pandas.Series(times, index, name="time"), total, gaps, gaps[-1] <= gap,
        search.trips.rounding, search.trips.missed)


class Bpr(NamedTuple):
    """Times that grow with flows as the Bureau of Public Roads has them."""

    free: Floats
    capacity: Floats
    alpha: Floats
    beta: Floats

    def times(self, flows: Floats) -> Floats:
        return self.free * (1 + self.alpha * (flows / self.capacity) ** self.beta)

    def slopes(self, flows: Floats) -> Floats:
        """The derivative of each time by its flow."""
        with numpy.errstate(divide="ignore", invalid="ignore"):
            shares = (flows / self.capacity) ** (self.beta - 1)
            found = self.free * self.alpha * self.beta * shares / self.capacity
        return numpy.nan_to_num(found, nan=0.0, posinf=0.0)


class Given(NamedTuple):
    """Times by a function of the caller's."""

    call: Callable[[Floats], ArrayLike]
    rows: int

    def times(self, flows: Floats) -> Floats:
        found = numpy.asarray(self.call(flows.copy()), float)
        if found.shape != (self.rows,):
            raise DataFault(
                f"times returned the shape {found.shape}, and there are {self.rows:,} rows of arcs",
                "times")
        wrong = columns.first_of(~((found >= 0) & (found < numpy.inf)))
        if wrong is not None:
            raise refused("times", wrong, f"{found[wrong]} is no time")
        return found

    def slopes(self, flows: Floats) -> Floats:
        """About the derivative of each time by its flow, which decides on directions alone."""
        by = DIFFERENCE * numpy.maximum(flows, 1.0)
        return numpy.maximum(0.0, (self.times(flows + by) - self.times(flows)) / by)


class Trips:
    """All trips over the fastest routes by given costs."""

    def __init__(self, network: Network, rows: Rows, trips: PairTrips | TableTrips) -> None:
        self.network, self.rows, self.trips = network, rows, trips
        self.rounding, self.missed = 0.0, 0

    def over(self, costs: Floats) -> Floats:
        """The flow on each row, if all trips take the routes of least cost."""
        weights, rounding = self.rows.rounded(costs)
        self.rounding, layers = max(self.rounding, rounding), self.rows.layers
        with self.network.changed(weights=weights) as changed:
            self.missed, flows = self.trips.flows(changed._engine, changed._layers)
        by_row = numpy.zeros(layers.row_count)
        by_row[layers.rows] = flows
        scale = self.trips.demands.scale
        return by_row if scale is None else by_row / scale


class Search:
    """The search for the equilibrium, with the flows that it has reached."""

    def __init__(self, method: str, curve: Bpr | Given, fixed: Floats, trips: Trips) -> None:
        self.method, self.curve, self.fixed, self.trips = method, curve, fixed, trips
        self.flows = trips.over(self.costs(numpy.zeros(len(fixed))))
        # The last two points towards which a step went, and the length of the last step.
        self.towards: list[Floats] = []
        self.length = 0.0

    def costs(self, flows: Floats) -> Floats:
        return self.curve.times(flows) + self.fixed

    def run(self, gap: float, steps: int, told: Callable[[], Any]) -> list[float]:
        """Takes steps until the gap is small enough, and returns the gaps."""
        gaps: list[float] = []
        for step in range(steps + 1):
            costs = self.costs(self.flows)
            fastest = self.trips.over(costs)
            total = float(costs @ self.flows)
            gaps.append((total - float(costs @ fastest)) / total if total > 0 else 0.0)
            if gaps[-1] <= gap or step == steps:
                break
            self.go(step, fastest, costs)
            told()
        return gaps

    def go(self, step: int, fastest: Floats, costs: Floats) -> None:
        """Takes one step."""
        if self.method == MSA:
            self.flows = self.flows + (fastest - self.flows) / (step + 2)
            return
        point = fastest if self.method == FRANK_WOLFE else self.conjugate(fastest)
        if float(costs @ (point - self.flows)) >= 0:
            point, self.towards = fastest, []
        self.length = self.line(point - self.flows)
        self.flows = numpy.maximum(0.0, self.flows + self.length * (point - self.flows))
        self.towards = [] if self.length >= WHOLE_STEP else [point, *self.towards[:1]]

    def conjugate(self, fastest: Floats) -> Floats:
        """The point for the next step, conjugate to the last two steps where it can be."""
        if not self.towards:
            return fastest
        slopes, ahead = self.curve.slopes(self.flows), fastest - self.flows
        last = self.towards[0]
        one = last - self.flows
        if len(self.towards) == 1:
            share = part(float(slopes * one @ ahead), float(slopes * one @ (fastest - last)))
            share = min(max(share, 0.0), 0.99)
            return share * last + (1 - share) * fastest
        before = self.towards[1]
        two = self.length * last + (1 - self.length) * before - self.flows
        mu = max(0.0, -part(float(slopes * two @ ahead), float(slopes * two @ (before - last))))
        back = part(float(slopes * one @ ahead), float(slopes * one @ one))
        nu = max(0.0, mu * self.length / (1 - self.length) - back)
        return (fastest + nu * last + mu * before) / (1 + nu + mu)

    def line(self, direction: Floats) -> float:
        """The length of the step, up to 1, at which costs along the direction are least."""
        def slope(length: float) -> float:
            flows = numpy.maximum(0.0, self.flows + length * direction)
            return float(self.costs(flows) @ direction)

        below, above = slope(0.0), slope(1.0)
        return 1.0 if above <= 0 else root(slope, below, above)


def root(slope: Callable[[float], float], below: float, above: float) -> float:
    """Where a slope that never falls passes 0 on the way from 0 to 1; it is at most 0 there."""
    # By false positions (the Illinois method), and each third time by halves.
    low, high, last, step = 0.0, 1.0, 0, 0
    while high - low > NEAR:
        middle = (
            (low + high) / 2 if step % 3 == 2 or below >= 0
            else low + (high - low) * below / (below - above))
        if not low < middle < high:
            middle = (low + high) / 2
            if not low < middle < high:
                break
        value, step = slope(middle), step + 1
        if value > 0:
            high, above, below = middle, value, below / 2 if last > 0 else below
        else:
            low, below, above = middle, value, above / 2 if last < 0 else above
        last = 1 if value > 0 else -1
        if value == 0:
            break
    return low


def part(value: float, whole_value: float) -> float:
    """A quotient, 0 where there is none."""
    return value / whole_value if whole_value else 0.0
