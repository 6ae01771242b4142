"""Answers of JSON that are sent in one piece. aiohttp sends the head and the body of an answer by a
call of the system each, which takes as long as finding a route."""
from __future__ import annotations

import email.utils
import functools
import time
from collections.abc import Mapping
from typing import Any

from aiohttp import hdrs, web
from aiohttp.http import HttpVersion10, HttpVersion11

CONTENT_TYPE = "application/json; charset=utf-8"


def lines_of(headers: Mapping[str, str]) -> str:
    """Headers as the lines of a head."""
    return "".join([f"{name}: {value}\r\n" for name, value in headers.items()])


@functools.lru_cache(1)
def date_at(second: int) -> str:
    """The value of the header Date at a second of the epoch."""
    return email.utils.formatdate(second, usegmt=True)


class JsonAnswer(web.StreamResponse):
    """An answer of status 200 with a text of JSON. `lines` are the headers of all such answers, and
    further ones may be added to `headers`."""

    def __init__(self, text: str, lines: str) -> None:
        super().__init__()
        self.text, self.lines = text.encode(), lines
        # Whether the connection stays open; None where the request decides.
        self.stays_open: bool | None = None

    @property
    def keep_alive(self) -> bool | None:
        return self.stays_open

    def force_close(self) -> None:
        self.stays_open = False

    @property
    def content_length(self) -> int | None:
        return len(self.text)

    @content_length.setter
    def content_length(self, value: int | None) -> None:
        raise RuntimeError("the text of an answer says how long it is")

    async def prepare(self, request: web.BaseRequest) -> Any:
        """Makes the head."""
        version = request.version
        if self.stays_open is None:
            self.stays_open = request.keep_alive
        connection = ""
        if self.stays_open and version == HttpVersion10:
            connection = "Connection: keep-alive\r\n"
        elif not self.stays_open and version == HttpVersion11:
            connection = "Connection: close\r\n"
        more = lines_of(self.headers) if self.headers else ""
        head = (
            f"HTTP/{version.major}.{version.minor} 200 OK\r\nContent-Type: {CONTENT_TYPE}\r\n"
            f"{self.lines}{more}Content-Length: {len(self.text)}\r\n"
            f"Date: {date_at(int(time.time()))}\r\n{connection}\r\n")
        self.bytes = (
            head.encode() if request.method == hdrs.METH_HEAD else head.encode() + self.text)
        self.writer = request.writer
        return self.writer

    async def write_eof(self, data: bytes = b"") -> None:
        """Sends the answer."""
        await self.writer.write_eof(self.bytes)
