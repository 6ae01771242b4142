"""Connections of the service: how many are allowed, which client asks, how much of it is read, and
when idle ones are closed.

aiohttp closes a connection that is idle after a request, but waits for ever if a client sends no
request or half of one, or reads no answer. Here a connection is closed if no request on it is being
answered and no byte moves. Once there are as many as allowed, the one that has been idle longest
makes way for a new one: a request that is on its way there is answered that there are too many.

aiohttp also takes all requests that a client sends ahead. Here no more is read while a few of them
wait.
"""
from __future__ import annotations

import asyncio
import ipaddress
import json
import re
import resource
from collections.abc import Callable
from typing import TYPE_CHECKING, Any, NamedTuple

from aiohttp import web

from chtab_server import web_policy

if TYPE_CHECKING:
    from chtab_server.recording import Recorder

# Files that a service opens besides connections: those of networks, pipes to runs, and the log.
RESERVE = 64
# How many requests of a connection wait before no more of it is read, the bytes that are read at
# once, and those that are parsed at once: a request of twenty bytes takes more than a thousand once
# it is parsed.
FEW, READ, PART = 8, 1 << 16, 1 << 11
# The seconds after it began, or after its last answer, in which a connection makes way for none of
# the same address: its client may be about to ask.
RESTING = 0.5
# The seconds that a connection which makes way has for a request that is on its way, and those for
# the client to read the answer; and how many connections have them at a time, also as a part of all
# connections.
LEAVING, LINGERING = 1.0, 2.0
MOST_LEAVING, PART_LEAVING = 128, 4
TOO_MANY = "there are more connections than there may be; try again in a second"
# An address with a port, as some proxies name clients.
WITH_PORT = re.compile(r"\[(?P<six>[^\]]*)\](?::\d+)?|(?P<four>[^:]*):\d+")
# Characters that no address has; a log would take some of them for the end of a field.
STRANGE = re.compile(r"[^\w.:%-]", re.ASCII)


class Caps(NamedTuple):
    """How many connections are allowed in all, and from one address that is not the proxy's."""

    total: int
    of_address: int


def caps_of(total: int, of_address: int) -> Caps:
    """The requested caps, reduced to what the limit of open files allows. That limit is raised as
    far as possible."""
    low, high = resource.getrlimit(resource.RLIMIT_NOFILE)
    if high == resource.RLIM_INFINITY or low < high:
        resource.setrlimit(
            resource.RLIMIT_NOFILE,
            (high if high != resource.RLIM_INFINITY else max(low, total + RESERVE), high))
    most = resource.getrlimit(resource.RLIMIT_NOFILE)[0]
    fits = (
        (most - RESERVE) * PART_LEAVING // (PART_LEAVING + 1) if most > 2 * RESERVE else most // 2)
    return Caps(max(1, min(total, fits)), max(1, of_address))


def refusal() -> bytes:
    """The answer to a request on a connection that makes way, for both interfaces."""
    text = json.dumps({"error": TOO_MANY, "code": "InternalError", "message": TOO_MANY}).encode()
    head = (
        "HTTP/1.1 503 Service Unavailable\r\nContent-Type: application/json; charset=utf-8\r\n"
        f"Content-Length: {len(text)}\r\nX-Content-Type-Options: nosniff\r\n"
        f"Server: {web_policy.SOFTWARE}\r\nRetry-After: 1\r\nConnection: close\r\n\r\n")
    return head.encode() + text


class Connection(asyncio.Protocol):
    """A connection, which passes data on to the protocol of aiohttp, and remembers since when it is
    idle. `held` are bytes that were read and are not passed on yet. One that `is_leaving` makes way
    for another."""

    # Set once the connection is made.
    transport: asyncio.Transport

    def __init__(self, inner: Handler, connections: Connections) -> None:
        self.inner, self.connections, self.address = inner, connections, ""
        self.underway, self.since, self.unsent = 0, 0.0, 0
        self.held, self.is_paused = b"", False
        self.is_leaving, self.is_refused = False, False

    def connection_made(self, transport: Any) -> None:
        transport.max_size = READ
        self.transport, self.since = transport, self.connections.now()
        self.address = network_of((transport.get_extra_info("peername") or ("",))[0])
        self.connections.add(self)
        self.inner.connection_made(transport)

    def connection_lost(self, fault: BaseException | None) -> None:
        self.connections.remove(self)
        if self.is_leaving and self in self.connections.leaving:
            self.connections.leaving.pop(self).cancel()
        self.inner.connection_lost(fault)

    def data_received(self, data: bytes) -> None:
        if self.is_leaving:
            self.refuse()
        else:
            self.held = self.held + data if self.held else data
            self.pass_on()

    def pass_on(self) -> None:
        """Passes on what was read, part by part, until a few requests wait. Nothing is read until
        all of it is passed on."""
        at, size = 0, len(self.held)
        while at < size and len(self.inner._messages) < FEW:
            self.inner.data_received(self.held[at:at + PART] if size > PART else self.held)
            at += PART
        self.held = self.held[at:]
        if self.held:
            self.is_paused = True
            self.transport.pause_reading()
        # Where aiohttp itself waits until the body of a request is taken, it resumes by itself.
        elif self.is_paused and not self.inner._reading_paused:
            self.is_paused = False
            self.transport.resume_reading()

    def leave(self) -> None:
        """Makes way: closes the connection in a moment, or once a request that was on its way is
        answered."""
        self.is_leaving = True
        if self.transport.get_write_buffer_size():
            self.transport.abort()
        else:
            self.connections.leaving[self] = asyncio.get_running_loop().call_later(
                LEAVING, self.transport.abort)

    def refuse(self) -> None:
        """Answers a request that came too late. What else the client sends is dropped until it has
        read the answer: to close the connection before that would take the answer away."""
        if not self.is_refused and not self.transport.is_closing():
            self.is_refused = True
            self.connections.recorder.note_event("busy", self.address, 503, TOO_MANY)
            self.transport.write(refusal())
            self.transport.write_eof()
            self.connections.leaving.pop(self).cancel()
            self.connections.leaving[self] = asyncio.get_running_loop().call_later(
                LINGERING, self.transport.abort)

    def eof_received(self) -> None:
        self.inner.eof_received()

    def pause_writing(self) -> None:
        self.inner.pause_writing()

    def resume_writing(self) -> None:
        self.inner.resume_writing()

    def may_leave(self, moment: float) -> bool:
        """Whether it may make way: no request is underway, or has come and is not begun, and it was
        idle at a moment. A client that takes no answers has no claim."""
        if self.underway or self.transport.get_write_buffer_size():
            return not self.underway
        return not self.inner._messages and self.since <= moment

    def is_idle_since(self, moment: float) -> bool:
        """Whether no request has been underway since a moment, and the client has taken no byte of
        an answer."""
        unsent = self.transport.get_write_buffer_size()
        if self.underway or unsent != self.unsent:
            self.unsent, self.since = unsent, self.connections.now()
        return self.since <= moment


class Handler(web.RequestHandler):
    """The protocol of aiohttp, which answers anything but a request of HTTP by JSON with a line,
    for both interfaces."""

    __slots__ = ("recorder",)
    recorder: Recorder

    async def _handle_request(self, *words: Any) -> Any:
        """Answers a request, unless its connection was lost before that began, which aiohttp tells
        by a traceback."""
        if self._request_handler is None:
            raise ConnectionResetError
        return await super()._handle_request(*words)

    def handle_error(
        self, request: Any, status: int = 500, exc: BaseException | None = None,
        message: str | None = None,
    ) -> web.StreamResponse:
        if status >= 500:
            return super().handle_error(request, status, exc, message)
        text = "this is no request of HTTP, or its address or a header is too long"
        peer = (self.transport.get_extra_info("peername") if self.transport else None) or ("",)
        self.recorder.note_event("http", network_of(peer[0]), status, text)
        value = {"error": text, "code": "InvalidUrl", "message": text}
        response = web.json_response(
            value, status=status,
            headers={"X-Content-Type-Options": "nosniff", "Server": web_policy.SOFTWARE})
        response.force_close()
        return response


class Connections:
    """The connections of a service. Those that are idle for `seconds` are closed. Connections from
    the address `proxy` belong to many clients."""

    def __init__(
        self, seconds: float, caps: Caps, recorder: Recorder, proxy: str | None = None,
    ) -> None:
        self.seconds, self.caps, self.recorder, self.proxy = seconds, caps, recorder, proxy
        self.by_transport: dict[Any, Connection] = {}
        self.of_addresses: dict[str, dict[Connection, None]] = {}
        # Those that make way, the first one first, each with the call that closes it.
        self.leaving: dict[Connection, asyncio.TimerHandle] = {}
        self.most_leaving = max(1, min(MOST_LEAVING, caps.total // PART_LEAVING))
        self.now = asyncio.get_running_loop().time

    def __len__(self) -> int:
        return len(self.by_transport)

    def watched(self, server: web.Server, **more: Any) -> Callable[[], Connection]:
        """A factory of protocols for a server, with these further arguments, whose connections are
        watched."""
        loop = asyncio.get_running_loop()

        def make() -> Connection:
            handler = Handler(server, loop=loop, **more)
            handler.recorder = self.recorder
            return Connection(handler, self)

        return make

    def add(self, connection: Connection) -> None:
        """Adds a new connection, if necessary in the place of another one. If all others are busy,
        the new one makes way."""
        address = connection.address
        self.by_transport[connection.transport] = connection
        own = self.of_addresses.setdefault(address, {})
        own[connection] = None
        if address != self.proxy and len(own) > self.caps.of_address:
            self.make_way(own, connection)
        elif len(self.by_transport) > self.caps.total:
            self.make_way(max(self.of_addresses.values(), key=len), connection)

    def make_way(self, crowd: dict[Connection, None], new: Connection) -> None:
        """Lets the connection of a crowd leave that has been idle longest, at first those whose
        clients take what they are sent; or the new one if all others are busy."""
        moment = self.now() - (RESTING if new in crowd else 0.0)
        idle = min(
            (one for one in crowd if one is not new and one.may_leave(moment)),
            key=lambda one: (one.transport.get_write_buffer_size() > 0, one.since), default=new)
        self.recorder.note_event(
            "connections", idle.address, 0, "more connections than there may be")
        self.remove(idle)
        while len(self.leaving) >= self.most_leaving:
            first = next(iter(self.leaving))
            self.leaving.pop(first).cancel()
            first.transport.abort()
        idle.leave()

    def remove(self, connection: Connection) -> None:
        if self.by_transport.pop(connection.transport, None) is not None:
            own = self.of_addresses[connection.address]
            del own[connection]
            if not own:
                del self.of_addresses[connection.address]

    def begin(self, request: web.BaseRequest) -> Connection | None:
        """The connection of a request that is going to be answered; None if it was closed."""
        connection = self.by_transport.get(request.transport)
        if connection is not None:
            connection.underway += 1
            if connection.held:
                connection.pass_on()
        return connection

    def end(self, connection: Connection | None) -> None:
        """Notes that a request of a connection has been answered."""
        if connection is not None:
            connection.underway -= 1
            connection.since = self.now()

    async def close_idle(self) -> None:
        """Closes idle connections, until it is cancelled."""
        while True:
            await asyncio.sleep(min(1.0, self.seconds / 4))
            moment = self.now() - self.seconds
            for connection in list(self.by_transport.values()):
                if connection.is_idle_since(moment):
                    self.recorder.note_event(
                        "idle", connection.address, 0, f"idle for {self.seconds:g} seconds")
                    connection.transport.abort()

    async def empty(self, seconds: float) -> None:
        """Waits until all connections are closed, but not longer than `seconds`."""
        until = self.now() + seconds
        while self.by_transport and self.now() < until:
            await asyncio.sleep(0.02)


# Clients.


def client_of(request: web.BaseRequest, proxy: str | None) -> str:
    """The address of the client that a request counts for. For a request from the proxy it is the
    last entry of the last header: only the proxy writes that one, and anybody could have written
    the others."""
    address = request.remote or ""
    if proxy is not None and address == proxy:
        lines = request.headers.getall("X-Forwarded-For", [""])
        named = without_port(lines[-1].rpartition(",")[2].strip())
        address = STRANGE.sub("_", named) or address
    return network_of(address)


def without_port(address: str) -> str:
    """An address without its port and without brackets."""
    found = WITH_PORT.fullmatch(address)
    return (found["six"] or found["four"] or "") if found else address


def network_of(address: str) -> str:
    """The address, or the first half of an address of IPv6, because a client has all addresses with
    the same first half."""
    if ":" not in address:
        return address[:64]
    try:
        parsed = ipaddress.IPv6Address(address.partition("%")[0])
    except ValueError:
        return address[:64]
    return str(parsed.ipv4_mapped or ipaddress.ip_network((int(parsed) >> 64 << 64, 64)))


def is_gone(request: web.BaseRequest) -> bool:
    """Whether the client of a request has closed its connection."""
    return request.transport is None or request.transport.is_closing()
