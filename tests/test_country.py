"""What is said of a country of regions: by what its boards and its regions say, and on its page."""
from __future__ import annotations

import contextlib
import fcntl
import http.client
import io
import subprocess
import threading
import unittest
from pathlib import Path
from typing import Optional

from dispatch_tools.commands import state as state_command
from dispatch_tools.commands.split import boundary_text
from dispatch_tools.days.split import Cut
from dispatch_tools.desk.country import page_of, Pages
from dispatch_tools.here import words_of
from dispatch_tools.live.board import Skipped
from dispatch_tools.live.country import Country, line_of, metrics_of, wait_words
from dispatch_tools.live.health import CRITICAL, UNKNOWN, WARNING, WELL
from dispatch_tools.live.state import Fed, State, state_of, Told
from dispatch_tools.oracle.journals import at_rest
from tests.folders import InFolder
from tests.patience import PATIENCE
from tests.test_live import DELAYED, HEAD, InStore

# Event 9 of region 2, due at 1000, follows events 1 and 2 of region 1 by 60 and 30 seconds; event 10 of region 2, due at 1000,
# follows event 3 of region 3; event 4 of region 1, due at 2000, follows event 11 of region 2.
CUTS = [Cut(1, 1, 2, 9, 60, 1000), Cut(2, 1, 2, 9, 30, 1000), Cut(3, 3, 2, 10, 0, 1000), Cut(11, 2, 1, 4, 5, 2000)]

SERVING = State(0, 12, 4096, [Fed(15, 0, 3), Fed(7, 0, 70)], {}, 'serving')


def board(region: int, text: str, is_kept: int = 0) -> bytes:
    return f'{is_kept} board/{region}/6 '.encode() + text.encode().hex().encode()


def word(region: int, state: State = SERVING, is_kept: int = 0) -> bytes:
    return f'{is_kept} state/{region} '.encode() + state.line().encode().hex().encode()


class Lines(unittest.TestCase):
    def test_a_state_is_read_as_it_was_said(self) -> None:
        for state in SERVING, State(2, 0, 0, [], {}, ''), State(1, 5, 6, [Fed(1, 2, 3)], {9: 300, 10: 0}, 'journal at 85 %; feed 1 waits; told 5'):
            self.assertEqual(state_of(state.line().encode()), state)

    def test_no_line_ends_within_a_state(self) -> None:
        line = State(1, 0, 0, [], {}, 'one\ntwo' + 'x' * 5000).line()
        self.assertNotIn('\n', line)
        self.assertIsNotNone(state_of(line.encode()))

    def test_what_has_another_form_is_no_state(self) -> None:
        good = SERVING.line()
        for line in ('', good[1:], good + '\n', good + 'x' * 400, good.replace('status 0', 'status 4'), good.replace('15 0 3 7', '15 0 3'),
                     good.replace('told ', 'told 9'), good.replace('told ', 'told \u00b2 5'), good.replace('feeds ', 'feeds ' + '1 2 3 ' * 63),
                     good.replace('entries 12', f'entries {"9" * 16}')):
            self.assertIsNone(state_of(line.encode()), line)
        self.assertIsNone(state_of(None))
        self.assertIsNone(state_of(good.encode() + b'\xff'))


class OfCountry(unittest.TestCase):
    def setUp(self) -> None:
        self.said = io.StringIO()
        self.country = Country(CUTS, Skipped('regions'), 100.0, 30)

    def hear(self, now: float, *lines: bytes) -> None:
        with contextlib.redirect_stderr(self.said):
            for number, line in enumerate(lines, 1):
                self.country.hear(number, line, now)

    def all_well(self, now: float, *told: tuple[int, int]) -> None:
        self.hear(now, board(1, '1; 900, 2; 900, 4; 2000'), board(2, '9; 1000, 10; 1000, 11; 1900'), board(3, '3; 1000'))
        self.hear(now, word(1), word(2, State(0, 1, 1, SERVING.feeds, dict(told), 'serving')), word(3))

    def line(self, now: float) -> str:
        return line_of(self.country.look(now))

    def test_nothing_is_known_before_regions_have_spoken(self) -> None:
        self.assertEqual(self.country.look(101.0).status, UNKNOWN)
        self.assertEqual(self.country.look(131.0).status, CRITICAL)

    def test_all_well(self) -> None:
        self.all_well(110.0)
        look = self.country.look(111.0)
        self.assertEqual((look.status, line_of(look)), (WELL, 'OK 3 regions: all serve; the boundaries are at rest'))

    def test_what_a_relay_has_not_told_waits(self) -> None:
        self.all_well(110.0)
        self.hear(111.0, board(1, '1; 1240, 2; 1200'))
        look = self.country.look(112.0)
        waiting = look.waits[1, 2]
        self.assertEqual([wait_words(wait) for wait in waiting], ['event 9 is told 00:16:40, and region 1 asks for 00:21:40'])
        self.assertEqual(sum(map(len, look.waits.values())), 1)
        self.assertEqual(line_of(look), 'OK 3 regions: all serve; 1 event of boundaries wait')
        # Told, it waits no longer; half a minute untold is critical.
        self.all_well(140.0)
        self.hear(141.0, board(1, '1; 1240, 2; 1200'))
        look = self.country.look(143.0)
        self.assertEqual((look.status, look.waits[1, 2][0].since), (CRITICAL, 112.0))
        self.assertIn('region 2 its relay has not told 1 event for 31 s', line_of(look))
        self.hear(144.0, word(2, State(0, 2, 2, SERVING.feeds, {9: 300}, 'serving')))
        self.assertEqual(self.line(145.0), 'OK 3 regions: all serve; the boundaries are at rest')

    def test_a_correction_down_waits_too(self) -> None:
        self.all_well(110.0, (9, 300))
        waiting = self.country.look(111.0).waits[1, 2]
        self.assertEqual([(wait.event, wait.asked, wait.told) for wait in waiting], [(9, 1000, 1300)])

    def test_before_all_neighbours_are_heard_what_was_told_stays(self) -> None:
        self.hear(110.0, board(1, '1; 900'), word(2, State(0, 1, 1, [], {9: 300}, 'serving')))
        self.assertEqual(self.country.look(111.0).waits[1, 2], [])
        self.hear(112.0, board(1, '2; 1400'))
        self.assertEqual([wait.asked for wait in self.country.look(113.0).waits[1, 2]], [1430])

    def test_who_is_silent_is_named(self) -> None:
        self.all_well(110.0)
        self.hear(130.0, *map(word, (1, 3)), board(1, '1; 900'), board(2, '9; 1000'))
        look = self.country.look(145.0)
        self.assertEqual({number: found.status for number, found in look.found.items()}, {1: WELL, 2: CRITICAL, 3: WARNING})
        self.assertEqual(line_of(look), 'CRITICAL 3 regions: region 2 says nothing for 35 s; region 3 its boards say nothing for 35 s; '
                                        'the boundaries are at rest')

    def test_what_the_broker_had_kept_is_no_sign_of_life(self) -> None:
        self.all_well(110.0)
        self.hear(144.0, word(1), board(1, '1; 900'), word(2), board(2, '9; 1000'), word(3, is_kept=1), board(3, '3; 1500', is_kept=1))
        look = self.country.look(145.0)
        self.assertEqual(look.found[3].said, ['says nothing for 35 s', 'its boards say nothing for 35 s'])
        # Its time counts: it is the last one.
        self.assertEqual([wait.asked for wait in look.waits[3, 2]], [1500])

    def test_the_worst_is_what_is_known_to_be_critical(self) -> None:
        self.all_well(110.0)
        self.hear(111.0, word(1, State(3, 0, 0, [], {}, 'cannot be read')), word(3, State(2, 0, 0, [], {}, 'no server runs')))
        self.assertEqual(self.country.look(112.0).status, CRITICAL)
        self.hear(113.0, word(3))
        self.assertEqual(self.country.look(114.0).status, UNKNOWN)

    def test_a_region_is_believed_about_itself_alone(self) -> None:
        self.all_well(110.0)
        self.hear(111.0, board(3, '1; 5000, 3; 1000'), board(2, '1; 5000'), board(77, '1; 5000'), b'0 board/1/6 1; 5000', b'0 state/1 xx', b'0 feed/1 00',
                  word(77), b'', b'0 state/1 ' + b'00' * 5000, board(1, '1; 5000')[2:])
        self.assertEqual(self.line(112.0), 'OK 3 regions: all serve; the boundaries are at rest')
        self.assertEqual(self.country.skipped.count, 10)
        self.assertIn('line 1 is skipped: region 3 reports a time of an event that is not its own', self.said.getvalue())

    def test_figures(self) -> None:
        self.all_well(110.0)
        self.hear(111.0, board(1, '1; 1240, 2; 1200'))
        self.country.look(112.0)
        text = metrics_of(self.country, self.country.look(115.0))
        for line in ('dispatcher_region_status{region="1"} 0', 'dispatcher_region_silent_seconds{region="3"} 5',
                     'dispatcher_region_waiting_lines{region="1",feed="2"} 0', 'dispatcher_region_entries{region="1"} 12',
                     'dispatcher_boundary_waiting_events{from="1",to="2"} 1', 'dispatcher_boundary_waiting_seconds{from="1",to="2"} 3',
                     'dispatcher_boundary_waiting_events{from="2",to="1"} 0', 'dispatcher_boundary_waiting_events{from="3",to="2"} 0'):
            self.assertIn(f'{line}\n', text)
        kinds = [line.split()[2] for line in text.splitlines() if line.startswith('# TYPE ')]
        self.assertEqual(len(kinds), len(set(kinds)))

    def test_what_a_page_shows_is_text(self) -> None:
        self.all_well(110.0)
        self.hear(111.0, word(1, State(1, 0, 0, [], {}, '<script>alert(1)</script>&"')), board(1, '1; 1240'))
        page = page_of(self.country, self.country.look(112.0))
        self.assertNotIn('<script', page)
        self.assertIn('&lt;script&gt;alert(1)&lt;/script&gt;', page)
        self.assertIn('event 9 is told 00:16:40, and region 1 asks for 00:21:40', page)
        self.assertEqual(page.count('<tr>'), 2 + 3 + 3)


class Served(unittest.TestCase):
    def setUp(self) -> None:
        self.country = Country(CUTS, Skipped('regions'), 0.0, 30)
        self.server = Pages(0, ['country.example'], self.country, threading.Lock())
        self.addCleanup(self.server.server_close)
        threading.Thread(target=self.server.serve_forever, daemon=True).start()
        self.addCleanup(self.server.shutdown)

    def get(self, path: str, host: Optional[str] = None, **headers: str) -> tuple[int, str, str]:
        line = http.client.HTTPConnection('127.0.0.1', self.server.server_port, timeout=PATIENCE)
        self.addCleanup(line.close)
        line.request('GET', path, headers={'Host': host or f'127.0.0.1:{self.server.server_port}', **headers})
        came = line.getresponse()
        return came.status, came.getheader('Content-Security-Policy') or '', came.read().decode()

    def test_page_figures_and_line(self) -> None:
        status, policy, page = self.get('/')
        self.assertEqual(status, 200)
        self.assertTrue(policy.startswith("default-src 'none'"), policy)
        self.assertIn('<h2>Boundaries</h2>', page)
        self.assertEqual(self.get('/metrics')[0], 200)
        status, _, line = self.get('/health')
        self.assertEqual(status, 503)
        self.assertTrue(line.startswith('CRITICAL 3 regions: region 1 says nothing'), line)
        self.assertEqual(self.get('/', 'country.example')[0], 200)
        self.assertEqual(self.get('/../etc/passwd')[0], 404)

    def test_no_other_site_is_answered(self) -> None:
        self.assertEqual(self.get('/', 'evil.example')[0], 403)
        self.assertEqual(self.get('/metrics', Origin='http://evil.example')[0], 403)


class Commands(InFolder):
    def test_regions_prints_what_waits(self) -> None:
        table = Path(self.folder, 'Boundary.csv')
        table.write_text(boundary_text(CUTS))
        lines = [board(1, '1; 1240, 2; 900, 4; 2000'), board(2, '11; 1900'), board(3, '3; 900'), *map(word, (1, 2, 3))]
        done = subprocess.run([*words_of('regions'), table], input=b''.join(line + b'\n' for line in lines), capture_output=True)
        self.assertEqual(done.stdout.decode().splitlines(), [
            'OK 3 regions: all serve; 1 event of boundaries wait', '1 -> 2: event 9 is told 00:16:40, and region 1 asks for 00:21:40'])
        self.assertEqual((done.returncode, done.stderr), (0, b''))

    def test_told_reads_on_where_it_was(self) -> None:
        feed = Path(self.folder, 'relay')
        feed.write_bytes(b'delay event 9 300\ndelay event 10 5\ncost\ndelay event 9 99')
        told = Told(str(feed))
        self.assertEqual(told.look(), {9: 300, 10: 5})
        with open(feed, 'ab') as file:
            file.write(b'0\ndelay event 9 99999999\n')
        self.assertEqual(told.look(), {9: 990, 10: 5})
        feed.write_bytes(b'delay event 7 1\n')
        self.assertEqual(told.look(), {7: 1})


class Said(InStore):
    def said(self) -> Optional[State]:
        with contextlib.redirect_stdout(io.StringIO()) as out:
            self.assertEqual(state_command.main([str(self.store), str(self.store / 'room'), str(self.store / 'relay'), '--patience=1']), 0)
        return state_of(out.getvalue().encode().removesuffix(b'\n'))

    def test_a_region_says_how_it_is(self) -> None:
        state = self.said()
        assert state is not None
        self.assertEqual((state.status, state.feeds), (UNKNOWN, []))
        self.write(at_rest([HEAD, DELAYED]))
        for number, text in enumerate(('1 delay event 1 60 -> 1 ok\n', ''), 1):
            (self.store / f'reply-{number}.txt').write_text(text)
        (self.store / 'room').write_text('delay event 1 60\n')
        (self.store / 'relay').write_text('delay event 9 300\n')
        (self.store / 'lock').write_text('')
        with open(self.store / 'lock', 'rb') as file:
            fcntl.flock(file, fcntl.LOCK_EX)
            state = self.said()
        assert state is not None
        self.assertEqual((state.status, state.said, state.entries), (CRITICAL, 'feed 2 waits with 1 lines', 1))
        self.assertEqual(([(feed.answered, feed.waiting) for feed in state.feeds], state.told), ([(1, 0), (0, 1)], {9: 300}))
        state = self.said()
        assert state is not None
        self.assertTrue(state.said.startswith('no server runs'), state.said)


if __name__ == '__main__':
    unittest.main()
