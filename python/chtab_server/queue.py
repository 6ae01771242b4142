"""The order in which requests are answered: each client address has a queue, and the addresses take
turns, so that none keeps the others waiting.

A few requests are answered at once, in threads, and never all of them for one address. Questions
that can be answered together are taken together, from all addresses in turn. Those whose answers
take a moment are answered in the loop itself, once all are there that came at the same time: to
hand them to a thread would take longer.
"""
from __future__ import annotations

import asyncio
import collections
import concurrent.futures
import functools
import math
import time
from collections.abc import Callable, Sequence
from dataclasses import dataclass
from typing import Any, NamedTuple, TypeAlias

from chtab.errors import ProgramFault


# A call that answers a list of questions.
Call: TypeAlias = Callable[[list[Any]], Sequence[Any]]
# The CPU seconds in which the loop may answer questions itself, while it does nothing else; the
# part of them for which questions are taken together, because the next ones may take longer; and
# the weight of the last answers in the estimate for the next ones.
MOMENT, MARGIN, LATEST = 0.02, 0.75, 0.25
# By how much more may be done together at most than the last time, and the least seconds that can
# be measured.
GROWTH, SHORTEST = 1.25, 1e-6
# Turns of the loop without a further request after which those are there that came at the same
# time.
TURNS = 3


class Busy(Exception):
    """Too many requests are waiting."""


class Gone(Exception):
    """The client closed its connection while its request was waiting."""


class Pace(NamedTuple):
    """How long the last answers of a call took together, in CPU seconds, how much work they were,
    and how much may be done together. What a call does once for all questions makes this more than
    the pace says."""

    seconds: float
    work: float
    most: float

    def after(self, seconds: float, work: float) -> Pace:
        """The pace after further answers. If they took too long, less is done together from now on,
        and more if much was done in less time."""
        most, share = self.most, MARGIN * MOMENT / max(seconds, SHORTEST)
        if share < 1:
            most = work * share
        elif work > most / 2:
            most *= min(share, GROWTH)
        return Pace(
            self.seconds + LATEST * (seconds - self.seconds),
            self.work + LATEST * (work - self.work), most)

    def reckoned(self, work: float) -> float:
        """The seconds for questions that are so much work."""
        return self.seconds * work / self.work


class Task(NamedTuple):
    """A question. `call` answers a list of questions by a list, in which a fault is the answer
    to its question. Questions of one call that `is_shared` may be answered together, as far as
    their sizes go. The loop may answer one that `is_quick` itself; how long that takes is reckoned
    by the work that questions of its call are."""

    call: Call
    question: Any
    is_shared: bool = False
    size: int = 1
    is_quick: bool = False
    work: float = 1.0


@dataclass(eq=False)
class Job:
    """A question that waits for the client at an address. `settle` gets its answer, or the
    error."""

    address: str
    task: Task
    is_gone: Callable[[], bool]
    settle: Callable[[Any], object]
    is_ended: bool = False


def settle(waiting: asyncio.Future[Any], found: Any) -> None:
    """Passes an answer, or an error, to whoever waits for it."""
    if waiting.done():
        return
    if isinstance(found, BaseException):
        waiting.set_exception(found)
    else:
        waiting.set_result(found)


def answers_to(call: Call, questions: list[Any]) -> tuple[Sequence[Any], float]:
    """The answers to questions, and the CPU seconds that this thread took for them. A run that
    ended is started again, and asked once more."""
    begun = time.thread_time()
    try:
        found = call(questions)
    except ProgramFault:
        found = call(questions)
    return found, time.thread_time() - begun


class Turns:
    """The turns of a service.

    Parameters
    ----------
    at_once : int
        The number of threads that answer.
    most : int
        The most requests that may wait or be underway.
    together : int
        The most that questions which are answered together may measure in all.
    """

    def __init__(self, at_once: int, most: int, together: int) -> None:
        self.at_once, self.most, self.together = at_once, most, together
        self.threads = concurrent.futures.ThreadPoolExecutor(at_once)
        # The jobs that wait, by address, the one whose turn it is first; how many batches are
        # underway; and how many jobs are not answered.
        self.lines: collections.OrderedDict[str, collections.deque[Job]] = collections.OrderedDict()
        self.underway: collections.Counter[str] = collections.Counter()
        self.unanswered = 0
        # How long answers take, by their call; whether it will soon be looked whose turn it is; how
        # many turns of the loop no request came; and how many questions the loop answered last.
        self.paces: dict[Call, Pace] = {}
        self.is_due, self.turns, self.answered = False, 0, 1

    @property
    def is_full(self) -> bool:
        return self.unanswered >= self.most

    def close(self) -> None:
        self.threads.shutdown(wait=False, cancel_futures=True)

    async def answer(self, address: str, task: Task, is_gone: Callable[[], bool]) -> Any:
        """Waits for the turn of a client, and returns the answer to its question."""
        waiting: asyncio.Future[Any] = asyncio.get_running_loop().create_future()
        job = Job(address, task, is_gone, functools.partial(settle, waiting))
        self.take(job)
        try:
            return await waiting
        except BaseException:
            # A job whose client no longer waits may not have had its turn.
            self.forget(job)
            raise

    def take(self, job: Job) -> None:
        """Takes a job, which gets its answer once it had its turn. Raises a `Busy` if too many
        wait."""
        if self.is_full:
            self.make_room(job.address)
        self.unanswered += 1
        self.turns = 0
        line = self.lines.get(job.address)
        if line is None:
            self.lines[job.address] = line = collections.deque()
        line.append(job)
        self.begin_soon()

    def end(self, job: Job, found: Any) -> None:
        """Tells a job its answer, or the error, unless it has ended."""
        if not job.is_ended:
            job.is_ended = True
            self.unanswered -= 1
            job.settle(found)

    def make_room(self, address: str) -> None:
        """Rejects the newest request of the address with the most waiting requests, if it has more
        than this address."""
        greedy, line = max(
            self.lines.items(), key=lambda item: len(item[1]),
            default=(address, collections.deque()))
        if len(line) <= len(self.lines.get(address, ())) + 1:
            raise Busy
        job = line.pop()
        self.drop_line(greedy)
        self.end(job, Busy())

    def forget(self, job: Job) -> None:
        """Removes a waiting job whose client no longer waits."""
        line = self.lines.get(job.address)
        if line and job in line:
            line.remove(job)
            self.drop_line(job.address)
        if not job.is_ended:
            job.is_ended = True
            self.unanswered -= 1

    def drop_line(self, address: str) -> None:
        if not self.lines[address]:
            del self.lines[address]

    def is_moment(self, address: str) -> bool:
        """Whether the first job of an address takes a moment."""
        task = self.lines[address][0].task
        return (
            task.is_quick and task.call in self.paces
            and self.paces[task.call].reckoned(task.work) < MOMENT)

    def may_begin(self, address: str) -> bool:
        """Whether an address may use another thread. One thread is always kept for the other
        addresses."""
        return self.underway[address] < max(1, self.at_once - 1) and not self.is_moment(address)

    def begin_soon(self) -> None:
        """Begins what can begin, once the requests are there that came together with this one."""
        if not self.is_due:
            self.is_due = True
            asyncio.get_running_loop().call_soon(self.look)

    def look(self) -> None:
        """Begins what can begin. Where requests come together, they are waited for as long as
        others come."""
        self.turns += 1
        if self.answered > 1 and self.turns <= TURNS and self.unanswered < self.together:
            asyncio.get_running_loop().call_soon(self.look)
        else:
            self.is_due = False
            self.begin()

    def begin(self) -> None:
        """Starts the jobs that can be started."""
        while self.underway.total() < self.at_once:
            address = next(filter(self.may_begin, self.lines), None)
            if address is None:
                break
            jobs = self.taken(address)
            if jobs:
                self.underway[address] += 1
                asyncio.get_running_loop().create_task(self.run(address, jobs))
        quick = next(filter(self.is_moment, self.lines), None)
        if quick is not None:
            self.answer_now(self.taken(quick))
            self.begin_soon()

    def answer_now(self, jobs: list[Job]) -> None:
        """Answers jobs that take a moment."""
        if not jobs:
            return
        try:
            found = self.noted(
                jobs, *answers_to(jobs[0].task.call, [job.task.question for job in jobs]))
        except Exception as fault:
            found = [fault] * len(jobs)
        self.answered = len(jobs)
        for job, each in zip(jobs, found):
            self.end(job, each)

    def noted(self, jobs: list[Job], found: Sequence[Any], seconds: float) -> Sequence[Any]:
        """The answers to jobs. It is noted how long they took."""
        call, work = jobs[0].task.call, sum(job.task.work for job in jobs)
        self.paces[call] = self.paces.get(call, Pace(seconds, work, work)).after(seconds, work)
        return found

    def taken(self, address: str) -> list[Job]:
        """The next job of an address, and those that are answered together with it; none where the
        clients went away."""
        first = self.next_of(address)
        if first is None:
            return []
        jobs, task = [first], first.task
        size, work, most = task.size, task.work, self.most_work(task)
        while task.is_shared and size < self.together:
            other = next(
                (
                    name for name, line in self.lines.items()
                    if line[0].task.is_shared and line[0].task.call == task.call), None)
            if other is None:
                break
            more = self.lines[other][0].task
            if size + more.size > self.together or work + more.work > most:
                break
            job = self.next_of(other)
            if job is not None:
                jobs.append(job)
                size, work = size + more.size, work + more.work
        return jobs

    def most_work(self, task: Task) -> float:
        """How much work questions that are answered together may be, so that the loop does
        something else before the moment is over."""
        pace = self.paces.get(task.call) if task.is_quick else None
        return math.inf if pace is None else pace.most

    def next_of(self, address: str) -> Job | None:
        """Takes the next job of an address, whose next turn then comes after those of all others;
        None if its client has gone."""
        job = self.lines[address].popleft()
        self.lines.move_to_end(address)
        self.drop_line(address)
        if job.is_gone():
            self.end(job, Gone())
            return None
        return job

    async def run(self, address: str, jobs: list[Job]) -> None:
        """Answers jobs in a thread."""
        loop = asyncio.get_running_loop()
        try:
            answered = await loop.run_in_executor(
                self.threads, answers_to, jobs[0].task.call, [job.task.question for job in jobs])
            found = self.noted(jobs, *answered) if jobs[0].task.is_quick else answered[0]
        except BaseException as fault:
            found = [fault] * len(jobs)
        finally:
            self.underway[address] -= 1
            self.underway += collections.Counter()
        for job, each in zip(jobs, found):
            self.end(job, each)
        self.begin_soon()
