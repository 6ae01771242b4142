"""The processes of the service: how several of them answer at one port, and how they end.

With several processes, the first one reads the networks and supervises the others, which are forked
from it and share what it has made. All of them accept connections from one socket, so that no
waiting connection is lost when a process ends. A process that ends by itself is restarted.
"""
from __future__ import annotations

import asyncio
import contextlib
import logging
import os
import select
import signal
import sys
import time
from collections.abc import Callable
from typing import TYPE_CHECKING, Any, NoReturn, cast

from aiohttp import web

from chtab.errors import ChtabError
from chtab_server.connections import Connections
from chtab_server.ports import notify
from chtab_server.recording import Recorder

if TYPE_CHECKING:
    from chtab_server.metrics import Metrics
    from chtab_server.ports import Port
    from chtab_server.service import Service

LOG = logging.getLogger("chtab.service")
ENDING = signal.SIGINT, signal.SIGTERM
# The signal for a process whose port another service has taken over, and the one that makes the
# file of speeds be read again.
SUCCEEDED, RENEWED = signal.SIGUSR1, signal.SIGHUP
# The seconds between two notes of states, and between two checks of the engines.
NOTES, LOOKS = 5.0, 1.0
# The seconds before a process that ended by itself is restarted: at first, and at most after
# repeated failures.
PAUSE, LONGEST_PAUSE = 1.0, 60.0
# The number of tries to start an engine or a process, and the exit status of a service that has no
# more (EX_SOFTWARE of sysexits.h).
TRIES, GIVEN_UP = 3, 70
# The seconds in which an accepted socket becomes a connection.
SETTLING = 0.1
# How many connections may wait in the system.
BACKLOG = 1_024


class Serving:
    """A service that listens until a signal arrives, or until its engines can't be started."""

    def __init__(self, service: Service, port: Port) -> None:
        self.service, self.port = service, port
        self.recorder = Recorder(service.row, service.proxy, service.choices.log_form)
        self.connections = Connections(
            service.limits.idle, service.caps, self.recorder, service.proxy)
        self.loop, self.ended = asyncio.get_running_loop(), asyncio.Event()
        self.is_succeeded, self.status = False, 0

    async def run(self, tell: Callable[[], object], parent: int | None = None) -> int:
        """Serves, ends once the requests that are underway are answered, and returns the exit
        status. It also ends when the supervising process has ended, which closes the pipe
        `parent`."""
        service, limits = self.service, self.service.limits
        around = service.middleware(self.connections, self.recorder)
        runner = web.AppRunner(service.application(around), access_log=None)
        await runner.setup()
        http = cast(web.Server, runner.server)
        http.request_handler = service.front(around, http.request_handler)
        self.loop.set_exception_handler(self.report_fault)
        protocols = self.connections.watched(
            http, access_log=None, keepalive_timeout=limits.idle, max_line_size=service.longest,
            max_field_size=service.longest, auto_decompress=False)
        server = await self.loop.create_server(protocols, sock=self.port.listening, backlog=BACKLOG)
        tasks = [
            self.loop.create_task(each) for each in (
                self.connections.close_idle(), self.keep_notes(), self.keep_answering(),
                self.keep_speeds())]
        try:
            self.hear(parent)
            tell()
            await self.ended.wait()
        finally:
            service.is_ending = True
            for task in tasks:
                task.cancel()
            if parent is None:
                notify("STOPPING=1")
                self.loop.remove_reader(self.port.control)
            # When its server is closed, asyncio drops accepted sockets that are no connections yet.
            self.loop.remove_reader(self.port.listening)
            await asyncio.sleep(SETTLING)
            server.close()
            self.port.close()
            if self.is_succeeded:
                await self.connections.empty(limits.grace)
            await runner.shutdown()
            await http.shutdown(limits.ending)
            service.networks.close()
            await runner.cleanup()
        return self.status

    def hear(self, parent: int | None) -> None:
        """Listens for signals that end the service, and for another service that takes the port
        over."""
        for number in ENDING:
            self.loop.add_signal_handler(number, self.ended.set)
        self.loop.add_signal_handler(SUCCEEDED, self.succeeded)
        if self.service.traffic is not None:
            self.loop.add_signal_handler(RENEWED, self.service.renewal.set)
        if parent is not None:
            self.loop.add_reader(parent, self.ended.set)
        else:
            self.loop.add_reader(self.port.control, self.hand_over)

    def hand_over(self) -> None:
        """Gives the port to another service that asks for it."""
        if self.port.hand_over():
            self.succeeded()

    def succeeded(self) -> None:
        self.is_succeeded = True

    def report_fault(self, loop: asyncio.AbstractEventLoop, context: dict[str, Any]) -> None:
        """Reports connections that the system refused once a minute, and any other error as
        usual."""
        if isinstance(context.get("exception"), OSError):
            self.recorder.note_event("system", "", 0, str(context["exception"]))
        else:
            loop.default_exception_handler(context)

    async def keep_notes(self) -> None:
        """Notes the states of the process regularly, as long as the service runs."""
        while True:
            self.service.note(len(self.connections))
            await asyncio.sleep(NOTES)

    async def keep_answering(self) -> None:
        """Checks that the engines are there, starts those that are not, and ends the service if
        that fails repeatedly."""
        tries = 0
        while True:
            with contextlib.suppress(asyncio.TimeoutError):
                await asyncio.wait_for(self.service.doubt.wait(), LOOKS)
            if not self.service.doubt.is_set() and self.service.networks.are_ready():
                continue
            self.service.is_failing = True
            try:
                await self.loop.run_in_executor(None, self.service.try_engines)
                tries, self.service.is_failing = 0, False
                self.service.doubt.clear()
            except ChtabError as fault:
                tries += 1
                LOG.error("%s", self.service.networks.translated(str(fault)))
                if tries >= TRIES:
                    LOG.error("the engine could not be started %d times: the service ends", TRIES)
                    self.status = GIVEN_UP
                    self.ended.set()
                    return
                await asyncio.sleep(LOOKS)


    async def keep_speeds(self) -> None:
        """Reads the file of speeds again after a signal, and once it is replaced, and exchanges
        what answers."""
        service, traffic = self.service, self.service.traffic
        while traffic is not None:
            with contextlib.suppress(asyncio.TimeoutError):
                await asyncio.wait_for(service.renewal.wait(), LOOKS)
            if not service.renewal.is_set() and not traffic.is_replaced():
                continue
            service.renewal.clear()
            try:
                await self.loop.run_in_executor(None, service.renew)
                service.exchange()
            except (ChtabError, OSError) as fault:
                LOG.error("%s: the speeds before stay", service.networks.translated(str(fault)))


async def serve(
    service: Service, port: Port, tell: Callable[[], object], parent: int | None = None,
) -> int:
    """Serves at a port until a signal arrives, and returns the exit status."""
    return await Serving(service, port).run(tell, parent)


class Child:
    """A process that serves: its number, its place among the others, and the pipe that it reports
    on once it serves."""

    def __init__(self, number: int, place: int, pipe: int) -> None:
        self.number, self.place, self.pipe, self.is_serving = number, place, pipe, False
        self.ending = os.pidfd_open(number)

    def close(self) -> None:
        os.close(self.ending)
        os.close(self.pipe)


class Family:
    """The processes of a service, and the one that supervises them.

    `make` makes the service of a process by its place, and is called in the forked process.
    `metrics` has the counts of all processes. `translated` replaces names of files by those that
    the user knows.
    """

    def __init__(
        self, count: int, make: Callable[[int], Service], metrics: Metrics, port: Port,
        translated: Callable[[str], str], has_speeds: bool = False,
    ) -> None:
        self.count, self.make, self.metrics, self.port = count, make, metrics, port
        self.translated = translated
        self.has_speeds = has_speeds
        self.children: dict[int, Child] = {}
        self.is_ending, self.status = False, 0
        # For each place how often a process failed to serve there, and when the next one is
        # started.
        self.failures, self.due = [0] * count, {place: 0.0 for place in range(count)}
        self.life, self.parent_end = os.pipe()

    def run(self, tell: Callable[[], object]) -> int:
        """Starts the processes, calls `tell` when all of them serve, supervises them until a signal
        arrives, and returns the exit status."""
        for number in ENDING:
            signal.signal(number, self.end)
        # This signal must not end a process that doesn't handle it yet.
        signal.signal(SUCCEEDED, signal.SIG_IGN)
        if self.has_speeds:
            signal.signal(RENEWED, self.renew)
        is_reported = False
        while self.children or not self.is_ending:
            self.begin_due()
            self.look()
            if (
                not is_reported and not self.is_ending
                and sum(child.is_serving for child in self.children.values()) == self.count
            ):
                is_reported = True
                tell()
            self.judge(is_reported)
        return self.status

    def judge(self, was_ready: bool) -> None:
        """Ends the service if no process could serve at first, or if none serves and restarts fail
        repeatedly."""
        if self.is_ending:
            return
        if not was_ready and any(self.failures):
            self.status = 1
            self.end()
        elif (
            min(self.failures) >= TRIES
            and not any(child.is_serving for child in self.children.values())
        ):
            LOG.error("no process could be started, %d times for each: the service ends", TRIES)
            self.status = GIVEN_UP
            self.end()

    def begin_due(self) -> None:
        """Starts the processes that are due."""
        for place, due in list(self.due.items()):
            if due <= time.monotonic() and not self.is_ending:
                del self.due[place]
                self.begin(place)

    def begin(self, place: int) -> None:
        """Forks a process, which never returns from here. Signals are blocked meanwhile, so that
        neither process misses one or handles the other's."""
        reading, tell = os.pipe()
        signal.pthread_sigmask(signal.SIG_BLOCK, ENDING)
        number = os.fork()
        if number == 0:
            os.close(reading)
            os.close(self.parent_end)
            self.serve(place, tell)
        os.close(tell)
        self.children[number] = Child(number, place, reading)
        signal.pthread_sigmask(signal.SIG_UNBLOCK, ENDING)
        if self.is_ending:
            self.end()

    def serve(self, place: int, tell: int) -> NoReturn:
        status = 1
        try:
            for number in ENDING:
                signal.signal(number, signal.SIG_DFL)
            if self.has_speeds:
                # Until the loop hears it, when the file is looked at anyway.
                signal.signal(RENEWED, signal.SIG_IGN)
            signal.pthread_sigmask(signal.SIG_UNBLOCK, ENDING)
            # Only the first process hands the port over.
            self.port.control.close()
            status = asyncio.run(
                serve(self.make(place), self.port, lambda: os.write(tell, b"."), self.life))
        except BaseException as fault:
            print(
                f"chtab-page: {self.translated(str(fault)) or type(fault).__name__}",
                file=sys.stderr)
        finally:
            with contextlib.suppress(Exception):
                sys.stdout.flush()
            os._exit(status)

    def look(self) -> None:
        """Waits for the next event, and handles it."""
        poll, control = select.poll(), self.port.control
        poll.register(control, select.POLLIN)
        for child in self.children.values():
            poll.register(child.ending, select.POLLIN)
            if not child.is_serving:
                poll.register(child.pipe, select.POLLIN)
        left = min(self.due.values(), default=None)
        ready = dict(
            poll.poll(None if left is None else max(1.0, 1000 * (left - time.monotonic()))))
        if control.fileno() in ready and self.port.hand_over():
            for number in self.children:
                os.kill(number, SUCCEEDED)
        for child in list(self.children.values()):
            if child.pipe in ready and not child.is_serving:
                child.is_serving = os.read(child.pipe, 1) == b"."
                self.failures[child.place] *= not child.is_serving
            if child.ending in ready:
                self.bury(child)

    def bury(self, child: Child) -> None:
        """Notes that a process has ended, and when another one is started in its place."""
        _, status = os.waitpid(child.number, 0)
        del self.children[child.number]
        child.close()
        self.metrics.of_processes[child.place].note(waiting=0, engines=0, memory=0, connections=0)
        if self.is_ending:
            return
        self.failures[child.place] += (
            not child.is_serving or os.waitstatus_to_exitcode(status) == GIVEN_UP)
        pause = min(PAUSE * 2 ** max(0, self.failures[child.place] - TRIES), LONGEST_PAUSE)
        self.due[child.place] = time.monotonic() + pause
        print(f"chtab-page: process {child.number} ended, and is restarted", file=sys.stderr)

    def renew(self, *_: object) -> None:
        """Lets all processes read the file of speeds again."""
        for number in list(self.children):
            with contextlib.suppress(ProcessLookupError):
                os.kill(number, RENEWED)

    def end(self, *_: object) -> None:
        """Ends all processes, each once it has answered the requests that are underway."""
        if not self.is_ending:
            notify("STOPPING=1")
        self.is_ending = True
        self.due.clear()
        self.port.listening.close()
        for number in list(self.children):
            with contextlib.suppress(ProcessLookupError):
                os.kill(number, signal.SIGTERM)
