"""Sources in other hands: wrong clocks, answers that are none, reports that contradict each other, and messages that are too much."""
from __future__ import annotations

import contextlib
import io
import os
import socket
import threading
import time
import unittest
from typing import Any, Sequence
from unittest import mock

from dispatch_tools.commands import gtfs_rt_in as gtfs_rt_in_command
from dispatch_tools.dev.feeds import write_feed
from dispatch_tools.formats.files import BadFile
from dispatch_tools.formats.protobuf import BadMessage, decode, encode, Message, MOST_FIELDS, MOST_PARTS, read_message, Reading
from dispatch_tools.live import trips
from dispatch_tools.live.feed_file import append
from tests.folders import read
from tests.patience import PATIENCE
from tests.test_realtime import call, MIDNIGHT, Realtime


def vehicle(trip: str, sequence: int, at: int, status: int = 2) -> Message:
    return {'vehicle': {'trip': {'trip_id': trip}, 'current_stop_sequence': sequence, 'current_status': status, 'timestamp': MIDNIGHT + at}}


def message(now: int, *entities: Message) -> bytes:
    entity = [{'id': str(number), **one} for number, one in enumerate(entities)]
    return encode({'header': {'gtfs_realtime_version': '2.0', 'timestamp': MIDNIGHT + now}, 'entity': entity})


class Clocks(Realtime):
    """r1: event 1 leaves A 28800, 2 arrives B 29400, 3 leaves B 29400, 4 arrives C 30600; g1: 5 leaves B 29700, 6 arrives C 31200."""

    def at(self, clock: int) -> Any:
        return mock.patch('dispatch_tools.live.gtfs_rt_in.time.time', lambda: float(MIDNIGHT + clock))

    def test_a_message_ahead_of_the_clock_says_nothing(self) -> None:
        late = self.update('r1', call(1, departure=29100))
        with self.at(28000):
            said, lines = self.heard(28121, late, options=())
            self.assertEqual(lines, [])
            self.assertIn("gtfs_rt_in: messages ahead of this computer's clock (for those of another day there is --replay): ", said)
            # The next one is none out of order.
            self.assertEqual(self.heard(28010, late, options=()), ('', ['delay event 1 300', 'now 28010']))
            self.assertEqual(self.heard(28120, late, options=()), ('', ['delay event 1 300', 'now 28010', 'now 28120']))

    def test_a_message_after_the_day_says_nothing_even_in_a_replay(self) -> None:
        late = self.update('r1', call(1, departure=29100))
        for now in 118200, 31200 + 6 * 3600 + 1, -1:
            said, lines = self.heard(now, late)
            self.assertEqual(lines, [])
            self.assertIn('gtfs_rt_in: messages of another day, or without a time: ', said)
        self.assertEqual(self.heard(28000, late)[1], ['delay event 1 300', 'now 28000'])
        said, lines = self.heard(28060, self.update('r1', call(1, departure=118200)))
        self.assertEqual(lines[2:], ['now 28060'])
        self.assertIn('times outside of the service day: r1, call 1, departure\n', said)

    def test_reports_of_times_that_cannot_be_say_nothing(self) -> None:
        said, lines = self.heard(28000, vehicle('r1', 2, -60))
        self.assertEqual(lines, ['now 28000'])
        self.assertIn(f'reports before the service day: the vehicle of r1 of {MIDNIGHT - 60}\n', said)
        late = {'trip_update': {**self.update('r1', call(1, departure=29100))['trip_update'], 'timestamp': MIDNIGHT + 28061}}
        said, lines = self.heard(28060, late, vehicle('g1', 2, 90_000))
        self.assertEqual(lines[1:], ['now 28060'])
        self.assertIn(f'reports later than their message: an update of r1 of {MIDNIGHT + 28061}\n', said)
        self.assertIn(f'reports later than their message: the vehicle of g1 of {MIDNIGHT + 90_000}\n', said)
        self.assertEqual(self.heard(28061, late)[1][2:], ['delay event 1 300', 'now 28061'])


class Contradicted(Realtime):
    def test_an_event_that_passed_at_another_time_is_said(self) -> None:
        self.heard(29500, self.update('r1', call(1, departure=28830), call(2, arrival=29430)))
        said, lines = self.heard(29510, self.update('r1', call(1, departure=28830), call(2, arrival=29460)))
        self.assertEqual(lines[3:], ['now 29510'])
        what = 'events that passed at another time than is told now, which recall could take back'
        self.assertIn(f'gtfs_rt_in: {what}: r1, call 2, arrival (event 2) passed at 29430, and not 29460\n', said)
        self.assertIn(f'{what}: 1 in all\n', said)
        # It has not even left.
        said, _ = self.heard(29520, self.update('r1', call(1, departure=29600)))
        self.assertIn(f'{what}: r1, call 1, departure (event 1) passed at 28830, and not 29600\n', said)

    def test_a_vehicle_before_what_has_passed_is_said(self) -> None:
        self.heard(29500, self.update('r1', call(1, departure=28830), call(2, arrival=29430)))
        self.assertEqual(self.heard(29520, vehicle('r1', 2, 29520, status=1))[0], '')
        said, _ = self.heard(29530, vehicle('r1', 2, 29530))
        self.assertIn('vehicles before events that have passed, which recall could take back: r1, call 2, is before call 2, arrival (event 2)\n', said)

    def test_a_delay_of_the_train_alone_is_that_of_its_next_event(self) -> None:
        def late(delay: int) -> Message:
            return {'trip_update': {'trip': {'trip_id': 'r1'}, 'delay': delay}}
        self.assertEqual(self.heard(28700, late(300)), ('', ['delay event 1 300', 'now 28700']))
        self.assertEqual(self.heard(29200, late(300))[1][2:], ['pass 1 29100', 'now 29200'])
        self.assertEqual(self.heard(29210, late(420))[1][4:], ['delay event 2 420', 'now 29210'])
        calls = {'trip_update': {**self.update('g1', call(1, departure=30060))['trip_update'], 'delay': 900}}
        self.assertEqual(self.heard(29220, calls)[1][6:], ['delay event 5 360', 'now 29220'])


class Answers:
    """A server of sources, which answers each request with the next bytes, a piece each few seconds."""

    def __init__(self, *answers: bytes | Sequence[bytes]) -> None:
        self.answers = [[one] if isinstance(one, bytes) else list(one) for one in answers]
        self.socket = socket.create_server(('127.0.0.1', 0))
        self.url = f'http://127.0.0.1:{self.socket.getsockname()[1]}/'
        threading.Thread(target=self.run, daemon=True).start()

    def run(self) -> None:
        for pieces in self.answers:
            with contextlib.suppress(OSError):
                connected, _ = self.socket.accept()
                with connected:
                    connected.recv(1 << 16)
                    for piece in pieces:
                        connected.sendall(piece)
                        if len(pieces) > 1:
                            time.sleep(0.02)
        self.socket.close()


def whole(body: bytes) -> bytes:
    return b'HTTP/1.1 200 OK\r\nContent-Length: %d\r\n\r\n%b' % (len(body), body)


def redirect(to: str) -> bytes:
    return b'HTTP/1.1 302 Found\r\nContent-Length: 0\r\nLocation: %b\r\n\r\n' % to.encode()


class InAnswers(Realtime):
    MESSAGE = message(28000, Realtime.update('r1', call(1, departure=29100)))
    DUE = ['delay event 1 300', 'now 28000']

    def fetched(self, *answers: bytes | Sequence[bytes], options: Sequence[str] = ('--replay',)) -> tuple[int, str]:
        return self.call(gtfs_rt_in_command, self.net, self.feed, Answers(*answers).url, *options)


class Fetched(InAnswers):
    def test_bad_answers_are_said(self) -> None:
        ok = b'HTTP/1.1 200 OK\r\n'
        for what, *answers in (
            ('Remote end closed connection without response', b''), ('\\x00\\x01 no answer', b'\0\1 no answer\r\n\r\n'),
            (': it ends 50 bytes before its end', whole(self.MESSAGE + b'x' * 50)[:-50]), (': it ends before its end', ok + b'Transfer-Encoding: chunked\r\n\r\n9\r\nabc'),
            (': it ends before its end', ok + b'Transfer-Encoding: chunked\r\n\r\n1\r\na\r\n'),
            (': it does not say how long it is, so nobody knows whether it is whole', ok + b'\r\n' + self.MESSAGE),
            (': its status is 206', b'HTTP/1.1 206 Partial Content\r\nContent-Length: 0\r\n\r\n'), (': Not Found', b'HTTP/1.1 404 Not Found\r\n\r\n'),
            ('got more than 100 headers', ok + b'a: b\r\n' * 200 + b'\r\n'), ("nonnumeric port: 'x'", redirect('http://127.0.0.1:x/')),
            ("Redirection to url 'file:///etc/passwd' is not allowed", redirect('file:///etc/passwd')),
            (': it sends on to ftp://127.0.0.1/, which is not fetched', redirect('ftp://127.0.0.1/')),
            (': it sends on to http://localhost:1/, which is another host', redirect('http://localhost:1/')),
            ('Connection refused', redirect('http://127.0.0.1:1/')), ('infinite loop', *[redirect('/again')] * 12),
        ):
            assert isinstance(what, str)
            status, said = self.fetched(*[one for one in answers if isinstance(one, bytes)])
            self.assertEqual((status, 'sources that cannot be read: ' in said), (2, True), said)
            self.assertIn(what, said)
        self.assertFalse(os.path.exists(self.feed))

    def test_whole_answers_are_taken(self) -> None:
        chunked = b'HTTP/1.1 200 OK\r\nTransfer-Encoding: chunked\r\n\r\n%x\r\n%b\r\n0\r\n\r\n' % (len(self.MESSAGE), self.MESSAGE)
        for answers in [whole(self.MESSAGE)], [chunked], [redirect('/there'), whole(self.MESSAGE)]:
            self.assertEqual(self.fetched(*answers), (0, ''))
            self.assertEqual(read(self.feed).splitlines(), self.DUE)
            os.remove(self.feed)
        other = Answers(whole(self.MESSAGE)).url.replace('127.0.0.1', 'localhost')
        self.assertEqual(self.fetched(redirect(other), options=['--replay', '--other-hosts']), (0, ''))
        self.assertEqual(read(self.feed).splitlines(), self.DUE)

    def test_an_answer_has_an_end(self) -> None:
        body = whole(self.MESSAGE)
        trickles = [body[:1]] * 3 + [body[place:place + 1] for place in range(1, 30)]
        for pieces in [body[place:place + 1] for place in range(len(body))], [body[:40], *trickles], [b'HTTP/1.1 100 Continue\r\n\r\n'] * 200:
            begun = time.monotonic()
            with mock.patch('dispatch_tools.live.gtfs_rt_in.TIMEOUT', 0.3):
                status, said = self.fetched(pieces)
            self.assertLess(time.monotonic() - begun, PATIENCE)
            self.assertEqual(status, 2)
            self.assertIn(': it has not come whole in 0.3 seconds\n', said)
        self.assertFalse(os.path.exists(self.feed))


class Ended(Exception):
    """A test ends what would go on for ever."""


class Again(InAnswers):
    """Reads again and again; the fourth pause ends it."""

    def again(self, *options: str) -> str:
        pauses = iter([None, None, None])

        def sleep(_: float) -> None:
            if next(pauses, Ended) is Ended:
                raise Ended
        said = io.StringIO()
        with contextlib.redirect_stderr(said), mock.patch('dispatch_tools.live.gtfs_rt_in.time.sleep', sleep), self.assertRaises(Ended):
            gtfs_rt_in_command.main([self.net, self.feed, *options, '--replay', '--every=30'])
        return said.getvalue()

    def test_what_is_wrong_with_a_source_ends_nothing(self) -> None:
        cut, garbage = b'HTTP/1.1 200 OK\r\nTransfer-Encoding: chunked\r\n\r\n9\r\nabc', b'\0\n'
        url = Answers(cut, cut, garbage, whole(self.MESSAGE)).url
        bad = os.path.join(self.folder, 'bad')
        said = self.again(url, bad)
        self.assertEqual(read(self.feed).splitlines(), self.DUE)
        self.assertEqual([line.split(': ')[1] for line in said.splitlines()], [*['sources that cannot be read'] * 3, url])
        self.assertIn(f'gtfs_rt_in: {url}: this can be read again\n', said)

    def test_a_feed_that_cannot_be_written_gets_its_lines_later(self) -> None:
        folder = write_feed(os.path.join(self.folder, 'm'), {'1': self.MESSAGE, '2': message(28060, self.update('r1', call(1, departure=29160)))})
        faults = iter([True, True, True, False, False, False, False])

        def full(feed: str, lines: Sequence[str]) -> int:
            if next(faults):
                raise BadFile(feed, None, 'No space left on device')
            return append(feed, lines)
        with mock.patch('dispatch_tools.live.gtfs_rt_in.append', full):
            said = self.again(os.path.join(folder, '1'), os.path.join(folder, '2'))
        self.assertEqual(read(self.feed).splitlines(), [*self.DUE, 'delay event 1 360', 'now 28060'])
        self.assertEqual(said.count('feeds that cannot be written: '), 1)

    def test_half_a_line_of_the_feed_is_not_known(self) -> None:
        with open(self.feed, 'w', encoding='ascii') as file:
            file.write('delay event 1 300')
        self.assertEqual(self.fetched(whole(self.MESSAGE)), (0, ''))
        self.assertEqual(read(self.feed).splitlines(), ['delay event 1 300 (broken off)', *self.DUE])


class TooMuch(unittest.TestCase):
    def refused(self, data: bytes, what: str) -> None:
        with self.assertRaisesRegex(BadMessage, what):
            decode(data)

    def test_parts_of_a_message_are_counted(self) -> None:
        self.refused(b'\x12\x00' * (MOST_PARTS + 1), f'more than {MOST_PARTS} entities and calls')
        update = b'\x12\x00' * MOST_PARTS
        for data, kind in (update, 'TripUpdate'), (update, 'FeedMessage'):
            self.assertEqual(len(*decode(data, kind).values()), MOST_PARTS)
        entity = encode({'entity': [{'id': '1', 'trip_update': update}]})
        self.refused(entity, f'more than {MOST_PARTS} entities and calls')

    def test_fields_of_a_message_are_counted(self) -> None:
        for field in b'\x78\x00', b'\x0a\x00':
            with self.assertRaisesRegex(BadMessage, f'more than {MOST_FIELDS} fields'):
                read_message(field * 11, 'FeedMessage', 0, 22, Reading(fields=10))
        self.assertEqual(read_message(b'\x78\x00' * 10, 'FeedMessage', 0, 20, Reading(fields=10)), {})

    def test_few_lines_of_a_kind_are_shown(self) -> None:
        said = trips.Said()
        with contextlib.redirect_stderr(io.StringIO()) as told:
            for number in range(3 * trips.SHOWN):
                said.tell('trips that the network has not', f'trip {number // 2}')
        lines = told.getvalue().splitlines()
        self.assertEqual((len(lines), said.counts.total()), (trips.SHOWN + 1, 3 * trips.SHOWN))
        self.assertEqual(lines[-1], f'gtfs_rt_in: trips that the network has not: more than {trips.SHOWN}, and no more are shown')


if __name__ == '__main__':
    unittest.main()
