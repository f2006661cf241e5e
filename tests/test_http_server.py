"""The bounded HTTP server: what is no request, clients that send slowly or nothing, and the places that are kept."""
from __future__ import annotations

import socket
import threading
import time
import unittest
from typing import Optional

from dispatch_tools.live.http_server import BoundedHandler, BoundedServer, Slots
from tests.patience import PATIENCE


class Echo(BoundedHandler):
    """Says which body came. Whoever says so is known."""

    def is_known(self) -> bool:
        return bool(self.headers.get('Authorization') == 'known')

    def do_GET(self) -> None:
        self.send(b'got', 'text/plain')

    def do_POST(self) -> None:
        self.answer(lambda: self.send(b'got ' + self.body(16), 'text/plain'))


def request(first: str, *headers: str, body: str = '') -> bytes:
    return '\r\n'.join([first, *headers, '', body]).encode('latin-1')


GET = request('GET / HTTP/1.1', 'Host: desk')


class Server(unittest.TestCase):
    def setUp(self) -> None:
        class Quick(Echo):
            """A handler of this test alone."""

        self.handler = Quick
        self.server = BoundedServer(('127.0.0.1', 0), Quick)
        thread = threading.Thread(target=self.server.serve_forever, args=(0.02,), daemon=True)
        thread.start()
        self.addCleanup(self.server.server_close)
        self.addCleanup(self.server.shutdown)

    def line(self, sent: bytes = b'') -> socket.socket:
        """A connection, over which this was sent."""
        line = socket.create_connection(('127.0.0.1', self.server.server_port), timeout=PATIENCE)
        self.addCleanup(line.close)
        line.sendall(sent)
        return line

    def until_closed(self, line: socket.socket) -> bytes:
        """All that comes until the server closes a connection."""
        came = b''
        try:
            while more := line.recv(65_536):
                came += more
        except ConnectionResetError:
            pass
        return came

    def said(self, sent: bytes) -> bytes:
        """What the server says until it closes the connection."""
        return self.until_closed(self.line(sent))

    def one_answer(self, line: socket.socket) -> None:
        came = b''
        while not came.endswith(b'got'):
            more = line.recv(65_536)
            self.assertTrue(more, came)
            came += more


class Requests(Server):
    def test_a_body_where_none_belongs_is_no_next_request(self) -> None:
        hidden = 'GET /hidden HTTP/1.1\r\nHost: desk\r\n\r\n'
        for headers in ([f'Content-Length: {len(hidden)}'], ['Transfer-Encoding: chunked'], ['transfer-encoding:\tidentity'],
                        ['Content-Length: 0', f'Content-Length: {len(hidden)}'], [f'Content-Length : {len(hidden)}'], ['Content-Length: -1'],
                        ['Content-Length: 0, 0'], ['Content-Length:'], [f'Content-Length: {len(hidden)}', 'Transfer-Encoding: chunked']):
            came = self.said(request('GET / HTTP/1.1', 'Host: desk', *headers, body=hidden))
            self.assertEqual((came[:13], came.count(b'HTTP/1.1')), (b'HTTP/1.1 400 ', 1), headers)
            self.assertIn(b'\r\nConnection: close\r\n', came)
            self.assertNotIn(b'got', came)

    def test_what_a_body_has_twice_or_in_chunks_is_refused(self) -> None:
        for headers in (['Content-Length: 4', 'Content-Length: 4'], ['Content-Length: 4', 'Content-Length: 2'], ['Transfer-Encoding: chunked'],
                        ['Content-Length: 4', 'Transfer-Encoding: chunked'], ['Content-Length: +4'], ['Content-Length: 4', 'Host: other']):
            came = self.said(request('POST / HTTP/1.1', 'Host: desk', *headers, body='abcd'))
            self.assertEqual((came[:13], came.count(b'HTTP/1.1')), (b'HTTP/1.1 400 ', 1), headers)
        self.assertEqual(self.said(request('POST / HTTP/1.1', 'Host: desk', body='abcd'))[9:12], b'411')
        self.assertEqual(self.said(request('POST / HTTP/1.1', 'Host: desk', 'Content-Length: 17', body='abcd'))[9:12], b'413')

    def test_what_is_no_request_is_refused(self) -> None:
        for sent in (b'GET /\r\nHost: desk\r\n\r\n', b'GET\xa0/ HTTP/1.1\r\nHost: desk\r\n\r\n', b'get / HTTP/1.1\r\nHost: desk\r\n\r\n',
                     b'GET http://desk/ HTTP/1.1\r\nHost: desk\r\n\r\n', b'GET / HTTP/1.1\r\nHost: desk\r\n folded: 1\r\n\r\n',
                     b'GET / HTTP/1.1\r\nHost: desk\r\nno header\r\n\r\n', b'GET / HTTP/1.1\r\nHost: de\rX: sk\r\n\r\n',
                     b'GET / HTTP/1.1\r\nHost: desk\r\nX: \x00\r\n\r\n', b'GET / HTTP/3.0\r\nHost: desk\r\n\r\n', b'GET / x\r\n\r\n',
                     b'BREW / HTTP/1.1\r\nHost: desk\r\n\r\n', b'GET / HTTP/1.1\r\nFrom nobody\r\nHost: desk\r\n\r\n', b'\r\n\r\n'):
            self.assertNotIn(b'got', self.said(sent), sent)
        cut = self.line(GET[:-2])
        cut.shutdown(socket.SHUT_WR)
        self.assertNotIn(b'got', self.until_closed(cut))

    def test_good_requests_are_answered_one_behind_another(self) -> None:
        line = self.line(GET + request('POST / HTTP/1.1', 'Host: desk', 'Content-Length: 4', body='abcd') + GET)
        came = b''
        while came.count(b'got') < 3:
            came += line.recv(65_536)
        self.assertEqual(came.count(b'HTTP/1.1 200 '), 3)
        self.assertIn(b'got abcd', came)
        line.sendall(request('GET / HTTP/1.1', 'Host: desk', 'Content-Length: 0'))
        self.one_answer(line)
        self.assertIn(b'got', self.said(request('GET / HTTP/1.0', 'Host: desk')))

    def test_a_head_has_a_length_and_a_body_is_whole(self) -> None:
        self.assertEqual(self.said(request('GET / HTTP/1.1', *[f'X-{number}: {"x" * 30_000}' for number in range(9)]))[9:12], b'431')
        self.assertEqual(self.said(b'GET /' + b'x' * 70_000)[9:12], b'414')
        line = self.line(request('POST / HTTP/1.1', 'Host: desk', 'Content-Length: 4', body='ab'))
        line.shutdown(socket.SHUT_WR)
        self.assertEqual(self.until_closed(line)[9:12], b'400')


class Slow(Server):
    def test_a_head_that_comes_byte_by_byte_has_a_deadline(self) -> None:
        self.handler.head_time = 0.4
        line, began = self.line(), time.monotonic()
        line.settimeout(0.05)
        closed: Optional[float] = None
        while closed is None and time.monotonic() - began < PATIENCE:
            try:
                line.sendall(b'G')
                if line.recv(100) == b'':
                    closed = time.monotonic() - began
            except TimeoutError:
                pass
            except ConnectionError:
                closed = time.monotonic() - began
        self.assertIsNotNone(closed)

    def test_who_sends_nothing_or_slowly_shuts_nobody_out(self) -> None:
        held = [self.line(b'GET / HTTP/1.1\r\nHo' if number % 2 else b'') for number in range(150)]
        for headers in ['Host: desk'], ['Host: desk', 'Authorization: known']:
            self.one_answer(self.line(request('GET / HTTP/1.1', *headers)))
        for line in held:
            line.settimeout(0.01)
        self.assertGreaterEqual(sum(map(self.is_closed, held)), 50)
        self.assertLessEqual(len(self.server.slots.waiting) + len(self.server.slots.answered), self.server.slots.most)

    def is_closed(self, line: socket.socket) -> bool:
        try:
            return line.recv(1) == b''
        except TimeoutError:
            return False
        except ConnectionError:
            return True

    def test_places_are_kept_for_who_is_known(self) -> None:
        self.server.slots.most_unknown = 0
        came = self.said(GET)
        self.assertEqual(came[9:12], b'503')
        self.one_answer(self.line(request('GET / HTTP/1.1', 'Host: desk', 'Authorization: known')))


class OfSlots(unittest.TestCase):
    def connections(self, many: int) -> list[socket.socket]:
        found = []
        for _ in range(many):
            pair = socket.socketpair()
            found.append(pair[0])
            for one in pair:
                self.addCleanup(one.close)
        return found

    def test_the_one_that_waits_longest_is_closed_and_known_ones_last(self) -> None:
        first, second, third, fourth, fifth, sixth = self.connections(6)
        slots = Slots(3, 2)
        self.assertTrue(all([slots.enter(first), slots.enter(second), slots.enter(third)]))
        self.assertTrue(slots.answer(first, True) and slots.answer(second, False))
        slots.wait(first)
        self.assertTrue(slots.enter(fourth))
        self.assertEqual([*slots.waiting], [first, fourth])
        self.assertTrue(slots.enter(fifth))
        self.assertEqual([*slots.waiting], [first, fifth])
        self.assertTrue(slots.answer(fifth, True))
        self.assertTrue(slots.enter(sixth))
        self.assertEqual([*slots.waiting], [sixth])
        self.assertTrue(slots.answer(sixth, False))
        self.assertFalse(slots.enter(first))
        slots.leave(fifth)
        self.assertTrue(slots.enter(first))
        self.assertFalse(slots.answer(first, False))
        self.assertTrue(slots.answer(first, True))


if __name__ == '__main__':
    unittest.main()
