"""An HTTP server with bounds, upon that of the standard library.

A request has a deadline for its head and one for its body, and its bytes are counted. What one server might take for the end of a
request and another one not is refused, and the connection is closed: a body where none belongs, a length twice, a broken header.

So many connections are open at most. If one more comes, the one that has waited longest for its request is closed. Of the
connections that are being answered, some places are kept for those that the server knows, such as by a token.
"""
from __future__ import annotations

import io
import json
import re
import socket
import sys
import threading
import time
from collections.abc import Callable, Iterable
from http.server import BaseHTTPRequestHandler, ThreadingHTTPServer
from typing import Any, Optional

# The seconds within which the head of a request has come, and its body; those for which a connection may wait for its next request;
# and those within which an answer is taken.
HEAD_TIME, BODY_TIME, IDLE_TIME, ANSWER_TIME = 10.0, 10.0, 60.0, 30.0

# A head has so many bytes at most.
LONGEST_HEAD = 131_072

# So many connections are open at most, and so many of those that are not known are answered at once.
MOST_OPEN, MOST_UNKNOWN = 96, 64

# The first line of a request, and a header of it.
REQUEST_LINE = re.compile(rb'[A-Z]{1,16} /[\x21-\x7e]* HTTP/1\.[01]\r?\n')
HEADER_LINE = re.compile(rb"[!#$%&'*+.^_`|~0-9A-Za-z-]+:[\t\x20-\x7e\x80-\xff]*\r?\n")

# A request says these at most once.
ONCE = ('Host', 'Content-Length', 'Content-Type', 'Authorization', 'Origin', 'Connection')


class Asks(Exception):
    """A request that is refused, with a status and words."""


class TooLong(Exception):
    """More bytes come than a request may have."""


class Incoming(io.RawIOBase):
    """What comes over a connection: so many bytes at most, until a deadline."""

    def __init__(self, connection: socket.socket) -> None:
        self.connection = connection
        self.until, self.left = 0.0, 0

    def allow(self, seconds: float, size: int) -> None:
        self.until, self.left = time.monotonic() + seconds, size

    def readable(self) -> bool:
        return True

    def readinto(self, into: Any) -> int:
        seconds = self.until - time.monotonic()
        if seconds <= 0:
            raise TimeoutError
        if self.left <= 0:
            raise TooLong
        self.connection.settimeout(seconds)
        count = self.connection.recv_into(memoryview(into)[:self.left])
        self.left -= count
        return count


class Lines(io.BufferedReader):
    """A connection that is read, with the lines that were taken from it one by one."""

    def __init__(self, incoming: Incoming) -> None:
        super().__init__(incoming)
        self.taken: list[bytes] = []

    def readline(self, size: Optional[int] = -1) -> bytes:
        line = super().readline(size)
        self.taken.append(line)
        return line


class Slots:
    """The connections that are open: which wait for a request, the longest first, and which are being answered and known."""

    def __init__(self, most: int = MOST_OPEN, most_unknown: int = MOST_UNKNOWN) -> None:
        self.most, self.most_unknown = most, most_unknown
        self.lock = threading.Lock()
        self.waiting: dict[socket.socket, bool] = {}
        self.answered: dict[socket.socket, bool] = {}

    def enter(self, connection: socket.socket) -> bool:
        """Takes up a connection, and may close another one for it; whether there was a place."""
        with self.lock:
            if len(self.waiting) + len(self.answered) >= self.most and not self.close_one():
                return False
            self.waiting[connection] = False
            return True

    def close_one(self) -> bool:
        """Closes the connection that has waited longest, of those that were not known when they were last answered if there is one."""
        chosen = next((one for one, is_known in self.waiting.items() if not is_known), next(iter(self.waiting), None))
        if chosen is None:
            return False
        del self.waiting[chosen]
        try:
            chosen.shutdown(socket.SHUT_RDWR)
        except OSError:
            pass
        return True

    def answer(self, connection: socket.socket, is_known: bool) -> bool:
        """A connection has asked; whether it is answered now."""
        with self.lock:
            if not is_known and sum(not known for known in self.answered.values()) >= self.most_unknown:
                return False
            self.waiting.pop(connection, None)
            self.answered[connection] = is_known
            return True

    def wait(self, connection: socket.socket) -> None:
        """A connection was answered, and waits for its next request."""
        with self.lock:
            if connection in self.answered:
                self.waiting[connection] = self.answered.pop(connection)

    def leave(self, connection: socket.socket) -> None:
        with self.lock:
            self.waiting.pop(connection, None)
            self.answered.pop(connection, None)


class BoundedServer(ThreadingHTTPServer):
    """A server with slots."""
    daemon_threads = True
    request_queue_size = 256

    def __init__(self, address: tuple[str, int], handler: type[BoundedHandler]) -> None:
        self.address_family = socket.AF_INET6 if ':' in address[0] else socket.AF_INET
        self.slots = Slots()
        super().__init__(address, handler)

    def process_request(self, request: Any, client_address: Any) -> None:
        if self.slots.enter(request):
            super().process_request(request, client_address)
        else:
            self.shutdown_request(request)

    def process_request_thread(self, request: Any, client_address: Any) -> None:
        try:
            super().process_request_thread(request, client_address)
        finally:
            self.slots.leave(request)

    def handle_error(self, request: Any, client_address: Any) -> None:
        """A client that goes away in the middle of an answer is no fault."""
        if not isinstance(sys.exc_info()[1], (ConnectionError, TimeoutError)):
            super().handle_error(request, client_address)


class BoundedHandler(BaseHTTPRequestHandler):
    """Reads requests within their bounds; what is no request is refused, and its connection is closed."""
    server: BoundedServer
    rfile: Lines
    protocol_version = 'HTTP/1.1'
    sys_version = ''
    default_request_version = 'HTTP/1.1'
    head_time = HEAD_TIME

    # What each answer says beside.
    headers_of_all: Iterable[tuple[str, str]] = ()

    def is_known(self) -> bool:
        """Whether who asks has one of the places that are kept."""
        return False

    def log_message(self, format: str, *args: Any) -> None:
        """Prints nothing about requests."""

    def setup(self) -> None:
        super().setup()
        self.rfile.close()
        self.incoming = Incoming(self.connection)
        self.incoming.allow(self.head_time, LONGEST_HEAD)
        self.rfile = Lines(self.incoming)

    def handle_one_request(self) -> None:
        """Waits for a request, and answers it."""
        try:
            if not self.rfile.peek(1):
                self.close_connection = True
                return
            self.incoming.allow(self.head_time, LONGEST_HEAD)
            self.rfile.taken = []
            super().handle_one_request()
            self.server.slots.wait(self.connection)
            self.incoming.allow(IDLE_TIME, LONGEST_HEAD)
        except TooLong:
            self.send_error(431)
        except TimeoutError:
            self.close_connection = True

    def parse_request(self) -> bool:
        """Reads the head of a request; whether it is one that is answered."""
        if not super().parse_request():
            return False
        fault = self.fault()
        if fault is not None:
            self.send_error(400, fault)
            return False
        if not self.server.slots.answer(self.connection, self.is_known()):
            self.send_error(503, 'too many ask at once')
            return False
        return True

    def fault(self) -> Optional[str]:
        """What is wrong with the head of a request, or None."""
        first, *lines, last = self.rfile.taken
        if not REQUEST_LINE.fullmatch(first):
            return 'this is no request'
        if last not in (b'\r\n', b'\n') or not all(HEADER_LINE.fullmatch(line) for line in lines):
            return 'a header is broken'
        for name in ONCE:
            if len(self.headers.get_all(name, ())) > 1:
                return f'{name} is there twice'
        if 'Transfer-Encoding' in self.headers:
            return 'a body has its length before it'
        length = self.headers.get('Content-Length', '0')
        if not re.fullmatch('[0-9]{1,9}', length):
            return 'the length of the body is no number'
        if self.command != 'POST' and int(length):
            return f'{self.command} has no body'
        return None

    def answer(self, answer: Callable[[], None]) -> None:
        """Answers a request, or says why not."""
        try:
            answer()
        except Asks as asks:
            status, words = asks.args
            self.send_error(status, words)

    def body(self, longest: int) -> bytes:
        """The body of a request."""
        length = self.headers.get('Content-Length')
        if length is None:
            raise Asks(411, 'the length of the body is missing')
        if int(length) > longest:
            raise Asks(413, f'a body has {longest} bytes at most')
        self.incoming.allow(BODY_TIME, longest)
        data = self.rfile.read(int(length))
        if len(data) < int(length):
            raise Asks(400, 'the body is cut')
        return data

    def send_error(self, code: int, message: Optional[str] = None, explain: Optional[str] = None) -> None:
        """Says why a request is refused, and closes the connection."""
        self.close_connection = True
        words = message or self.responses.get(code, ('refused', ''))[0]
        self.send(json.dumps({'error': words}).encode(), 'application/json; charset=utf-8', code)

    def send(self, data: bytes, kind: str, status: int = 200, more: Iterable[tuple[str, str]] = ()) -> None:
        self.send_head(kind, status, [('Content-Length', str(len(data))), *more])
        self.wfile.write(data)

    def send_head(self, kind: str, status: int = 200, more: Iterable[tuple[str, str]] = ()) -> None:
        """The head of an answer. Who asked has so many seconds for each part of the answer to take it."""
        self.connection.settimeout(ANSWER_TIME)
        self.send_response(status)
        for name, value in [('Content-Type', kind), *more, *self.headers_of_all]:
            self.send_header(name, value)
        if self.close_connection:
            self.send_header('Connection', 'close')
        self.end_headers()
