"""The port of a service, and how another service takes it over. The second service gets the socket
itself, so that no waiting connection is lost.

The owner of a port also listens at an abstract Unix address that is named after the port, and gives
its sockets to any process of the same user that asks there.
"""
from __future__ import annotations

import contextlib
import errno
import os
import socket
import struct
from typing import Any

from chtab.errors import ChtabError

# The seconds within which a service has to hand over its port, also on a machine with much other
# work.
PATIENCE = 60.0
CREDENTIALS = struct.Struct("3i")


class Listening(socket.socket):
    """A socket that accepts one connection at a time. asyncio accepts as many as are waiting, so
    that one process would get all connections that arrive together."""

    is_next = True

    def accept(self) -> tuple[socket.socket, Any]:
        """Accepts the next connection, and pretends after each that no other is waiting."""
        self.is_next = not self.is_next
        if self.is_next:
            raise BlockingIOError
        return super().accept()


class Port:
    """A port with its listening socket, and the socket at which other services ask for it."""

    def __init__(self, listening: socket.socket, control: socket.socket) -> None:
        self.listening, self.control = listening, control
        control.setblocking(False)

    @property
    def address(self) -> str:
        host, port = self.listening.getsockname()[:2]
        return f"http://{f'[{host}]' if ':' in host else host}:{port}/"

    def hand_over(self) -> bool:
        """Gives the port to a service that asks for it, and returns whether one did. This service
        goes on until it is ended."""
        try:
            asking, _ = self.control.accept()
        except OSError:
            return False
        with asking:
            if user_of(asking) not in (os.getuid(), 0):
                return False
            asking.settimeout(PATIENCE)
            with contextlib.suppress(OSError):
                socket.send_fds(asking, [b"."], [self.listening.fileno(), self.control.fileno()])
                return True
        return False

    def close(self) -> None:
        self.listening.close()
        self.control.close()


def user_of(connection: socket.socket) -> int:
    """The number of the user at the other end of a connection."""
    _, user, _ = CREDENTIALS.unpack(
        connection.getsockopt(socket.SOL_SOCKET, socket.SO_PEERCRED, CREDENTIALS.size))
    return user


def name_of(listening: socket.socket) -> str:
    """The Unix address at which a port is asked for."""
    return "\0chtab-page/{}/{}".format(*listening.getsockname()[:2])


def port_at(host: str, port: int, takes_over: bool = False) -> Port:
    """The port of an address: taken over from the service that listens there if `takes_over`, and
    otherwise a new one."""
    family, kind, protocol, _, address = (
        socket.getaddrinfo(host, port, type=socket.SOCK_STREAM, flags=socket.AI_PASSIVE)[0])
    listening = Listening(family, kind, protocol)
    listening.setsockopt(socket.SOL_SOCKET, socket.SO_REUSEADDR, 1)
    try:
        listening.bind(address)
    except OSError as fault:
        listening.close()
        if fault.errno != errno.EADDRINUSE:
            raise
        if takes_over:
            return taken_over(address)
        raise ChtabError(
            f"port {port} of {host} is taken: a second service there would share its requests; "
            "give --takeover to replace one") from None
    control = socket.socket(socket.AF_UNIX)
    try:
        control.bind(name_of(listening))
    except OSError:
        # Another service still has the Unix address of a port that it has left. This service works,
        # but its port can't be taken over.
        control.bind("")
    control.listen()
    return Port(listening, control)


def taken_over(address: tuple[Any, ...]) -> Port:
    """Asks a running service for its port."""
    host, port = address[:2]
    try:
        with socket.socket(socket.AF_UNIX) as asking:
            asking.settimeout(PATIENCE)
            asking.connect(f"\0chtab-page/{host}/{port}")
            if user_of(asking) != os.getuid():
                raise ChtabError(f"the service at port {port} of {host} is another user's")
            _, found, _, _ = socket.recv_fds(asking, 1, 2)
    except OSError:
        found = []
    if len(found) != 2:
        raise ChtabError(
            f"what listens at port {port} of {host} is no service of this kind and of this user, "
            "which could be taken over")
    for number in found:
        os.set_inheritable(number, False)
    return Port(Listening(fileno=found[0]), socket.socket(fileno=found[1]))


def notify(state: str) -> None:
    """Reports a state of the service to systemd, if it waits for that (`Type=notify`)."""
    name = os.environ.get("NOTIFY_SOCKET")
    if name:
        with socket.socket(socket.AF_UNIX, socket.SOCK_DGRAM) as there, contextlib.suppress(
            OSError
        ):
            there.sendto(state.encode(), "\0" + name[1:] if name.startswith("@") else name)
