"""Fetches what a URL gives, whole or not at all, within a number of seconds.

A source is in other hands. It may send one byte each few seconds, end in the middle, or send on to another place. Each such fault
is a BadFile that says what was wrong.
"""
from __future__ import annotations

import http.client
import socket
import threading
import time
import urllib.error
import urllib.request
from typing import IO, Any, Optional
from urllib.parse import urlsplit

from dispatch_tools.formats.files import BadFile

SCHEMES = ('http', 'https')
PIECE = 1 << 16


class Deadline:
    """Ends a connection when its time has come, wherever it waits then."""

    def __init__(self, seconds: float) -> None:
        self.seconds, self.has_come = seconds, False
        self.end = time.monotonic() + seconds
        self.socket: Optional[socket.socket] = None
        self.timer = threading.Timer(seconds, self.come)
        self.timer.daemon = True

    def __enter__(self) -> Deadline:
        self.timer.start()
        return self

    def __exit__(self, *_: object) -> None:
        self.timer.cancel()

    def watch(self, connected: Optional[socket.socket]) -> None:
        self.socket = connected
        if self.has_come:
            self.come()

    def come(self) -> None:
        self.has_come = True
        if self.socket is not None:
            try:
                # Not that of a socket with TLS, which would go on in the clear.
                socket.socket.shutdown(self.socket, socket.SHUT_RDWR)
            except OSError:
                pass


class Redirects(urllib.request.HTTPRedirectHandler):
    """Follows a redirect to http and https, and to the same host unless others are allowed."""

    def __init__(self, may_leave: bool) -> None:
        self.may_leave = may_leave

    def redirect_request(
        self, req: urllib.request.Request, fp: IO[bytes], code: int, msg: str, headers: http.client.HTTPMessage, newurl: str,
    ) -> Optional[urllib.request.Request]:
        here, there = urlsplit(req.full_url), urlsplit(newurl)
        what = ''
        if there.scheme not in SCHEMES or here.scheme == 'https' != there.scheme:
            what = 'which is not fetched'
        elif here.hostname != there.hostname and not self.may_leave:
            what = 'which is another host'
        if what:
            fp.close()
            raise BadFile(req.full_url, None, f'it sends on to {newurl}, {what}')
        return super().redirect_request(req, fp, code, msg, headers, newurl)


def handlers(deadline: Deadline) -> list[urllib.request.BaseHandler]:
    """What opens URLs of both kinds over connections that a deadline watches."""
    class Plain(http.client.HTTPConnection):
        def connect(self) -> None:
            super().connect()
            deadline.watch(self.sock)

    class Secure(http.client.HTTPSConnection):
        def connect(self) -> None:
            super().connect()
            deadline.watch(self.sock)

    class OpenPlain(urllib.request.HTTPHandler):
        def http_open(self, req: urllib.request.Request) -> http.client.HTTPResponse:
            return self.do_open(Plain, req)

    class OpenSecure(urllib.request.HTTPSHandler):
        def https_open(self, req: urllib.request.Request) -> http.client.HTTPResponse:
            connection: Any = Secure
            return self.do_open(connection, req)
    return [OpenPlain(), OpenSecure()]


def fetch(url: str, seconds: float, most: int, may_leave: bool = False) -> bytes:
    """The whole body that a URL gives within so many seconds, of at most so many bytes; BadFile if there is none."""
    with Deadline(seconds) as deadline:
        try:
            with urllib.request.build_opener(*handlers(deadline), Redirects(may_leave)).open(url, timeout=seconds) as answer:
                return whole_body(url, answer, most)
        except (BadFile, OSError, http.client.HTTPException, ValueError) as error:
            if isinstance(error, urllib.error.HTTPError):
                error.close()
            # What the deadline has cut off looks like anything.
            if deadline.has_come or time.monotonic() >= deadline.end:
                raise BadFile(url, None, f'it has not come whole in {seconds:g} seconds') from error
            raise error if isinstance(error, BadFile) else BadFile(url, None, said_of(error)) from error


def said_of(error: Exception) -> str:
    """What an error says; some say nothing but what they are."""
    if isinstance(error, http.client.IncompleteRead):
        return 'it ends before its end'
    reason = getattr(error, 'reason', None) or getattr(error, 'strerror', None) or error
    return str(reason) or type(error).__name__


def whole_body(url: str, answer: Any, most: int) -> bytes:
    """The body of an answer, which says how long it is, or where it ends."""
    if answer.status != 200:
        raise BadFile(url, None, f'its status is {answer.status}')
    if answer.length is None and not answer.chunked:
        raise BadFile(url, None, 'it does not say how long it is, so nobody knows whether it is whole')
    body = bytearray()
    while piece := answer.read1(PIECE):
        body += piece
        if len(body) > most:
            raise BadFile(url, None, f'this is longer than {most} bytes')
    if answer.length:
        raise BadFile(url, None, f'it ends {answer.length} bytes before its end')
    return bytes(body)
