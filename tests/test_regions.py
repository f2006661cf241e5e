"""Networks cut into regions: nothing is lost, and relays that have come to rest give the times of the whole."""
from __future__ import annotations

import contextlib
import io
import os
import re
import random
import subprocess
import tempfile
import unittest
from pathlib import Path
from typing import Any, Iterator
from unittest import mock

from dispatch_tools.commands import from_gtfs, split as split_tool
from dispatch_tools.commands.split import boundary_text, split
from dispatch_tools.days.trains import Limits
from dispatch_tools.days.split import Cut, parts_of, regions_of
from dispatch_tools.dev.feeds import DATE, SMALL, write_feed
from dispatch_tools.formats.files import BadFile
from dispatch_tools.formats.giv import read_network
from dispatch_tools.formats.names import read_events, read_stops, read_trains
from dispatch_tools.here import words_of
from dispatch_tools.live.relay import read_boundary, Relay
from dispatch_tools.model.messages import DelayEvent, Message
from dispatch_tools.model.network import Network
from dispatch_tools.model.railway import apply, Rows, sound_times
from tests.folders import InFolder, read
from tests.patience import comes_to_be
from tests.samples import CASES, network
from tests.test_gtfs import trips_and_times

MIDDLES = {11 * line + 6 for line in range(8)}


def day() -> Network:
    return read_network(os.path.join(CASES, 'networks', 'forty_trains', 'net'))


class Server:
    """A region's rows and times, as a server keeps them, and the relay that reports to it what its neighbours' boards show."""

    def __init__(self, number: int, regions: Any) -> None:
        self.network = Network(regions[number].events, regions[number].activities)
        self.rows = Rows(self.network)
        self.relay = Relay([cut for region in regions.values() for cut in region.cuts if cut.region == number])
        self.shown: dict[int, int] = {}

    def hear(self, message: Message) -> None:
        apply(self.network, self.rows, message)

    def shows(self) -> Iterator[tuple[int, int]]:
        """The lines of its boards that differ from those shown before."""
        for event, due in zip(self.network.events, sound_times(self.network, self.rows)):
            if event.stop in MIDDLES and self.shown.get(event.id) != due:
                self.shown[event.id] = due
                yield event.id, due

    def told(self, lines: Any) -> bool:
        """Whether lines of boards move anything here."""
        answers = [answer for line in lines for answer in self.relay.tell([line])]
        for event, delay in answers:
            self.hear(DelayEvent(event, delay))
        return bool(answers)


class Cuts(unittest.TestCase):
    def test_sum_of_parts(self) -> None:
        whole = day()
        for count in (None, 2, 4):
            regions = split(whole, regions_of(whole, parts_of(whole, MIDDLES), count))
            self.assertEqual(len(regions), count or 16)
            self.assertEqual(sorted(event for region in regions.values() for event in region.events), whole.events)
            kept = [activity for region in regions.values() for activity in region.activities]
            cuts = [(cut.here, cut.there) for region in regions.values() for cut in region.cuts]
            rest = set(whole.activities) - set(kept)
            self.assertEqual(sorted(cuts), sorted((activity.tail, activity.head) for activity in rest))
            self.assertEqual(len(kept) + len(cuts), len(whole.activities))

    def test_pair_is_never_cut(self) -> None:
        whole = read_network(network('connection'))
        regions = split(whole, regions_of(whole, parts_of(whole, {2}), None))
        self.assertEqual([{6, 7} <= {one.id for one in region.activities} for region in regions.values()].count(True), 1)

    def test_every_number_of_regions_gets_as_many(self) -> None:
        whole = day()
        parts = parts_of(whole, MIDDLES)
        sizes = [1 if place < 700 else part for place, part in enumerate(parts)]
        for some in parts, sizes:
            for count in range(1, len(set(some)) + 1):
                self.assertEqual(set(regions_of(whole, some, count)), {*range(1, count + 1)})
            with self.assertRaises(BadFile):
                regions_of(whole, some, len(set(some)) + 1)

    def test_numbers_of_regions_that_are_none(self) -> None:
        folder = os.path.join(CASES, 'networks', 'forty_trains', 'net')
        for number, what in ('0', 'is no whole number from 1'), ('-1', 'no whole number'), ('x', 'no whole number'), ('17', '17 is above 16'):
            words = [*words_of('split'), folder, ','.join(map(str, MIDDLES)), '/nowhere/x', '--regions', number]
            done = subprocess.run(words, capture_output=True, text=True)
            self.assertEqual((done.returncode, done.stdout), (2, ''))
            self.assertIn(what, done.stderr)

    def test_command(self) -> None:
        with tempfile.TemporaryDirectory() as folder:
            words = [*words_of('split'), os.path.join(CASES, 'networks', 'forty_trains', 'net'),
                     ','.join(map(str, sorted(MIDDLES))), folder, '--regions', '2']
            done = subprocess.run(words, capture_output=True, text=True)
            self.assertEqual(done.returncode, 0, done.stderr)
            events = [len(read_network(os.path.join(folder, f'region-{number}', 'net')).events) for number in (1, 2)]
            self.assertEqual(events, [400, 400])
            cuts = {number: read_boundary(os.path.join(folder, f'region-{number}', 'Boundary.csv')) for number in (1, 2)}
            self.assertTrue(cuts[1])
            stops = {event.id: event.stop for event in day().events}
            for number in 1, 2:
                ends = {cut.here for cut in cuts[number]} | {cut.there for cut in cuts[3 - number]}
                boards = ','.join(map(str, sorted({stops[event] for event in ends})))
                self.assertEqual(Path(folder, f'region-{number}', 'boards').read_text(), f'{boards}\n')


class Feeds(InFolder):
    """A line from A over B, C and D to E, with two trains each way, and another one that crosses it in C."""
    TRIPS = [
        'r1 R 0 - A 08:00 B 08:10 C 08:20 D 08:30 E 08:40', 'r2 R 0 - A 08:30 B 08:40 C 08:50 D 09:00 E 09:10',
        'r3 R 1 - E 08:05 D 08:15 C 08:25 B 08:35 A 08:45', 'r4 R 1 - E 08:35 D 08:45 C 08:55 B 09:05 A 09:15', 'g1 G 0 - F 08:10 C 08:28 G 08:50',
    ]

    def setUp(self) -> None:
        super().setUp()
        stops = [SMALL['stops.txt'][0], *(f'{stop},{stop},' for stop in 'ABCDEFG')]
        self.feed = write_feed(os.path.join(self.folder, 'feed'), {**SMALL, **trips_and_times(*self.TRIPS), 'stops.txt': stops})

    def cut(self, *words: str) -> tuple[int, list[str], str]:
        out = io.StringIO()
        with contextlib.redirect_stdout(out):
            status, said = self.call(split_tool, self.feed, *words)
        return status, out.getvalue().splitlines(), said

    def test_are_cut_as_their_networks_are(self) -> None:
        self.assertEqual(self.call(from_gtfs, self.feed, DATE, self.net)[0], 0)
        whole, folder = read_network(self.net), os.path.join(self.folder, 'regions')
        status, lines, said = self.cut('C', folder, f'--date={DATE}')
        self.assertEqual(status, 0, said)
        # In each direction A and B with two trains into C or from there, so D and E; the drive from F, and that to G.
        sizes = [int(line.split()[2]) for line in lines]
        self.assertEqual(sorted(sizes), [2, 2, 8, 8, 8, 8])
        nets = [read_network(os.path.join(folder, f'region-{number}', 'net')) for number in range(1, 7)]
        self.assertEqual([len(net.events) for net in nets], sizes)
        self.assertEqual(sorted(event for net in nets for event in net.events), whole.events)
        cuts = [cut for number in range(1, 7) for cut in read_boundary(os.path.join(folder, f'region-{number}', 'Boundary.csv'))]
        self.assertEqual(len(cuts) + sum(len(net.activities) for net in nets), len(whole.activities))
        self.assertIn('stations 7, events 36', said)

    def test_regions_have_names(self) -> None:
        folder = os.path.join(self.folder, 'regions')
        self.assertEqual(self.cut('C', folder, f'--date={DATE}', '--regions=1')[0], 0)
        self.assertEqual(self.call(from_gtfs, self.feed, DATE, self.net)[0], 0)
        for name in 'Events.csv', 'Trains.csv', 'Stops.csv', 'Changes.csv', 'Day.csv', 'Activities-expanded.giv':
            self.assertEqual(read(folder, 'region-1', 'net', name), read(self.net, name))
        self.assertEqual(self.cut('C', folder, f'--date={DATE}')[0], 0)
        for number in range(1, 7):
            net = os.path.join(folder, f'region-{number}', 'net')
            ids = {event.id for event in read_network(net).events}
            self.assertEqual({name.event for name in read_events(net)}, ids)
            self.assertLessEqual({train.event for train in read_trains(net)}, ids)
            if 'A' in read_stops(net).values() and 1 in ids:
                self.assertEqual([(train.name, train.trip) for train in read_trains(net)], [('Red 08:00', 'r1'), ('Red 08:30', 'r2')])
                self.assertEqual(sorted(read_stops(net).values()), ['A', 'B', 'C'])

    def test_too_large_ones_are_told_where_to_cut_and_then_are_cut(self) -> None:
        with mock.patch('dispatch_tools.commands.from_gtfs.PROGRAM', Limits(events=20)):
            status, said = self.call(from_gtfs, self.feed, DATE, self.net)
        self.assertEqual(status, 2)
        # In C four trains of R may be left for G, and G for both directions of R.
        self.assertIn('or cut it into regions by dispatch-tools split with --date= (stations, the events of the parts without them, and the '
                      'changes there, which would be kept for ever: C: parts of 16, 16, 2, at most 6 changes cut; ', said)
        with mock.patch('dispatch_tools.commands.split.PROGRAM', Limits(events=20)):
            self.assertEqual(self.cut('C', os.path.join(self.folder, 'regions'), f'--date={DATE}')[0], 0)
            status, _, said = self.cut('B', os.path.join(self.folder, 'more'), f'--date={DATE}')
        self.assertEqual(status, 2)
        self.assertRegex(said, 'split: region [0-9] would have [0-9]+ events and .* choose more regions, or more boundary stops')

    def test_cut_where_few_change(self) -> None:
        # Without B and without D no part has more than 26 events, and nobody changes there.
        with mock.patch('dispatch_tools.commands.from_gtfs.PROGRAM', Limits(events=30)):
            _, said = self.call(from_gtfs, self.feed, DATE, self.net)
        self.assertIn(': B: parts of 28, 8, at most 0 changes cut; D: parts of 28, 8, at most 0 changes cut; C: parts of 16, 16, 2, at most 6', said)

    def test_changes_that_are_cut_are_counted(self) -> None:
        _, lines, _ = self.cut('C', os.path.join(self.folder, 'regions'), f'--date={DATE}')
        self.assertEqual(self.call(from_gtfs, self.feed, DATE, self.net)[0], 0)
        changes = [one for one in read_network(self.net).activities if one.kind == 'change']
        counts = [re.search(r' cut \(changes ([0-9]+), passengers ([0-9]+)\)', line) for line in lines]
        self.assertEqual(sum(int(one[1]) for one in counts if one), len(changes))
        self.assertEqual(sum(int(one[2]) for one in counts if one), len(changes))

    def test_words_that_are_wrong_are_told(self) -> None:
        for words, what in ((['X', 'out', f'--date={DATE}'], 'no train calls at stop X'), (['C', 'out', '--no-headways'], 'unrecognized arguments'),
                            (['C', 'out', '--date=20261301'], 'is no date'), (['C', 'out', f'--date={DATE}', '--regions=9'], '9 is above 6')):
            with self.subTest(words):
                status, _, said = self.cut(*words)
                self.assertEqual(status, 2)
                self.assertIn(what, said)


class Relays(unittest.TestCase):
    def settle(self, servers: Any) -> None:
        """Relays until nothing is reported any more, at most so many rounds."""
        for _ in range(50):
            lines = [line for server in servers.values() for line in server.shows()]
            if not any([server.told(lines) for server in servers.values()]):
                return
        self.fail('the relays do not come to rest')

    def test_times_of_the_whole(self) -> None:
        whole, draws = day(), random.Random(7)
        for count in (2, 4, None):
            regions = split(whole, regions_of(whole, parts_of(whole, MIDDLES), count))
            servers = {number: Server(number, regions) for number in regions}
            inner = [event.id for event in whole.events if event.stop not in MIDDLES]
            rows = Rows(whole)
            for event in draws.sample(inner, 60):
                for delay in (draws.randrange(900), draws.randrange(300)):
                    message = DelayEvent(event, delay)
                    apply(whole, rows, message)
                    owner = next(server for server in servers.values() if event in server.network.event_place)
                    owner.hear(message)
                self.settle(servers)
            due = dict(zip((event.id for event in whole.events), sound_times(whole, rows)))
            came: dict[int, int] = {}
            for server in servers.values():
                came.update(zip((event.id for event in server.network.events), sound_times(server.network, server.rows)))
            self.assertEqual(came, due)


CUTS = [Cut(1, 1, 2, 9, 60, 1000), Cut(2, 1, 2, 9, 30, 1000), Cut(3, 3, 2, 10, 0, 1000)]


class Lines(unittest.TestCase):
    def setUp(self) -> None:
        folder = tempfile.TemporaryDirectory()
        self.addCleanup(folder.cleanup)
        self.table = os.path.join(folder.name, 'Boundary.csv')
        self.feed = os.path.join(folder.name, 'lines')
        with open(self.table, 'w', encoding='ascii') as file:
            file.write(boundary_text(CUTS))

    def run_tool(self, lines: bytes, name: str, *words: str) -> tuple[str, str]:
        """What a tool writes and says that reads these lines."""
        done = subprocess.run([*words_of(name), *words], input=lines, capture_output=True)
        self.assertEqual(done.returncode, 0, done.stderr)
        return done.stdout.decode(), done.stderr.decode()

    def relayed(self, lines: bytes, *words: str) -> tuple[str, str]:
        return self.run_tool(lines, 'relay', self.table, '--region=2', *words)

    def fed(self, lines: bytes) -> str:
        """What stands in the feed after a relay has read these lines and ended."""
        self.assertEqual(self.relayed(lines, f'--feed={self.feed}'), ('', ''))
        with open(self.feed, encoding='ascii') as file:
            return file.read()

    def test_lines(self) -> None:
        out, said = self.relayed(b'1; 950\n1; 950\n2; 1000\n1; 900\n2; 900\n7; 5\n1; 990')
        self.assertEqual((out, said), ('delay event 9 10\ndelay event 9 30\ndelay event 9 0\n', ''))

    def test_lines_of_whole_boards(self) -> None:
        out, said = self.relayed(b'1; 950, 2; 1000, 3; 1001\n1; 950, 2; 900, 3; 1001\n1; 900, 2; 900, 3; 1001\n')
        self.assertEqual((out, said), ('delay event 9 30\ndelay event 10 1\ndelay event 9 10\ndelay event 9 0\n', ''))

    def test_nothing_waits_for_a_cancelled_event_of_a_neighbour(self) -> None:
        out, said = self.relayed(b'1; 950, 2; 1000\n2; cancelled\n1; cancelled\n2; 1000\n1; cancelled, 2; 990\n')
        self.assertEqual((out, said), (
            'delay event 9 30\ndelay event 9 10\ndelay event 9 0\ndelay event 9 30\ndelay event 9 20\n', ''))

    def test_lines_of_another_form_are_skipped_and_counted(self) -> None:
        bad = [b'', b'x', b'1;900', b'1; 2; 3', b'1; 950,2; 5', '\u00b2; 950'.encode('latin-1'), b'1; ' + b'9' * 5000, b'\xff', b'1; 950\r']
        out, said = self.relayed(b'\n'.join([*bad, b'1; 950', b'1; ' + b'9' * 5_000_000, b'2; 99999999999', b'2; 1000', b'']))
        self.assertEqual(out, 'delay event 9 10\ndelay event 9 30\n')
        lines = said.splitlines()
        self.assertEqual((lines[0], lines[5:]), ('relay: line 1 is skipped: it is no line `event; time`', ['relay: lines skipped: 11']))

    def test_a_region_is_believed_for_its_own_events_alone(self) -> None:
        lines = [(b'board/1/6 ', b'1; 950, 3; 1500, 77; 5'), (b'board/3/8 ', b'1; 1500, 3; 1007'), (b'board/2/6 ', b'2; 1500'),
                 (b'', b'1; 1500'), (b'feed/1/x ', b'1; 1500'), (b'board/1/6 ', b'')]
        out, said = self.relayed(b''.join(topic + payload.hex().encode() + b'\n' for topic, payload in lines), '--topics')
        self.assertEqual(out, 'delay event 9 10\ndelay event 10 7\n')
        self.assertEqual(said.splitlines()[:4], [
            'relay: line 1 is skipped: region 1 reports a time of event 3, which is not its own',
            'relay: line 2 is skipped: region 3 reports a time of event 1, which is not its own',
            'relay: line 3 is skipped: region 2 reports a time of event 2, which is not its own',
            'relay: line 4 is skipped: it is no line `event; time` in hexadecimal digits behind a topic',
        ])
        self.assertEqual(said.splitlines()[-1], 'relay: lines skipped: 6')

    def test_no_payload_ends_a_line(self) -> None:
        forged = b'1; 900\nboard/3/8 3; 1500'
        packed = forged + b'\nboard/3/8 ' + b'3; 1500'.hex().encode()
        for payload in forged, packed, b'\n' + packed, packed + b'\n', b'1; 950\r', b'1; 950 ':
            # As `%t %x` writes a message of region 1, and as `%t %p` would.
            for line in payload.hex().encode(), forged, b'31 3b', b'3', b'0x31':
                out, said = self.relayed(b'board/1/6 ' + line + b'\n', '--topics')
                self.assertEqual((out, 'lines skipped: ' in said), ('', True), line)

    def test_delay_that_is_too_long_is_skipped(self) -> None:
        out, said = self.relayed(b'1; 99999999999\n1; 950\n')
        self.assertEqual(out, 'delay event 9 10\n')
        self.assertIn('line 1 is skipped: the delay of event 9 would be 99999999059 seconds, and may be 1000000', said)

    def test_table_of_another_form(self) -> None:
        for field in '\u00b2', '9' * 5000, '-1', '':
            with open(self.table, 'w', encoding='latin-1') as file:
                file.write(f'{boundary_text(CUTS)}1;2;{field};4;5;6\n')
            with self.assertRaises(BadFile) as caught:
                read_boundary(self.table)
            self.assertEqual(caught.exception.line, 5)

    def test_relay_that_starts_again_knows_what_the_region_keeps(self) -> None:
        self.assertEqual(self.fed(b'1; 1240, 2; 900\n'), 'delay event 9 300\n')
        self.assertEqual(self.fed(b'1; 1240, 2; 900\n'), 'delay event 9 300\n')
        self.assertEqual(self.fed(b'1; 900, 2; 900\n'), 'delay event 9 300\ndelay event 9 0\n')

    def test_relay_that_starts_again_takes_nothing_back_before_it_has_heard_of_all(self) -> None:
        self.fed(b'2; 1270\n')
        self.assertEqual(self.fed(b'1; 900\n'), 'delay event 9 300\n')
        self.assertEqual(self.fed(b'1; 1250\n'), 'delay event 9 300\ndelay event 9 310\n')
        self.assertTrue(self.fed(b'1; 900\n2; 1200\n').endswith('310\ndelay event 9 230\n'))

    def test_feed_of_which_the_last_line_is_torn(self) -> None:
        with open(self.feed, 'w', encoding='ascii') as file:
            file.write('delay event 9 300\nnow 5\r\n delay event 10  007\ndelay event 9 30')
        self.assertEqual(self.fed(b'1; 1240, 2; 900, 3; 1007\n').splitlines()[2:], [' delay event 10  007', 'delay event 9 30'])
        due = [' delay event 10  007', 'delay event 9 30 (broken off)', 'delay event 10 8']
        self.assertEqual(self.fed(b'1; 1240, 2; 900, 3; 1008\n').splitlines()[2:], due)

    def test_lines_of_a_control_room_are_appended(self) -> None:
        payloads = [b'drop 5', b'drop 5\nkeep 6', b'delay event 1 60\n', b'dr', b'# late', b'', b'\xff', b' time 007', b'a' * 2000]
        tool = 'append'
        with open(self.feed, 'wb') as file:
            file.write(b'delay event 12 60')
        said = self.run_tool(b''.join(payload.hex().encode() + b'\n' for payload in payloads) + b'drop 7\n64726f702038', tool, self.feed, '--payloads')[1]
        self.assertEqual(read(self.feed), 'delay event 12 60 (broken off)\ndrop 5\n# late\n time 007\n')
        self.assertEqual(said.splitlines()[0], 'append: line 2 is skipped: it is no payload of one line of a feed')
        self.assertEqual(said.splitlines()[-1], 'append: lines skipped: 7')
        said = self.run_tool(b'keep 5\nkep 5\n\nkeep 6', tool, self.feed)[1]
        self.assertEqual(read(self.feed).splitlines()[4:], ['keep 5', ''])
        self.assertEqual(said, 'append: line 2 is skipped: it is no line of a feed\nappend: lines skipped: 1\n')
        done = subprocess.run([*words_of(tool), os.path.dirname(self.feed)], input=b'keep 5\n', capture_output=True)
        self.assertEqual((done.returncode, done.stderr.count(b'\n')), (2, 1))

    def test_feed_that_is_no_file(self) -> None:
        pipe = f'{self.feed}.pipe'
        os.mkfifo(pipe)
        for name in os.path.dirname(self.feed), os.path.join(self.feed, 'x'), pipe:
            words = [*words_of('relay'), self.table, '--region=2', '--feed', name]
            done = subprocess.run(words, input=b'', capture_output=True)
            self.assertEqual((done.returncode, done.stderr.count(b'\n')), (2, 1), done.stderr)

    def test_whole_boards(self) -> None:
        out, said = self.run_tool(b'1; 950\n2; 7\n\n1; 960\n3; 8', 'board')
        self.assertEqual(out, '1; 960, 2; 7\n')
        self.assertEqual(said, 'board: line 3 is skipped: it is no line `event; time`\nboard: lines skipped: 1\n')
        out, said = self.run_tool(b'1; 950\n2; 7\n1; cancelled\n3; canceled\n', 'board')
        self.assertEqual((out, said.count('is skipped')), ('1; cancelled, 2; 7\n', 1))

    def test_whole_boards_are_written_again(self) -> None:
        words = [*words_of('board'), '--again=1']
        with subprocess.Popen(words, stdin=subprocess.PIPE, stdout=subprocess.PIPE, bufsize=0) as board:
            assert board.stdin is not None and board.stdout is not None
            board.stdin.write(b'1; 950\n2; 7\n')
            for _ in range(3):
                self.assertEqual(board.stdout.readline(), b'1; 950, 2; 7\n')
            board.stdin.close()
            self.assertEqual(board.stdout.read(), b'')

    def test_whole_boards_are_sent_by_a_command_until_it_succeeds(self) -> None:
        sent = f'{self.feed}.sent'
        command = f'cat >> {sent}; echo >> {sent}; test $(wc -l < {sent}) -gt 2 || (echo no broker >&2; exit 5)'
        words = [*words_of('board'), '--again=1', '--send', 'sh', '-c', command]
        with subprocess.Popen(words, stdin=subprocess.PIPE, stderr=subprocess.PIPE, bufsize=0) as board:
            assert board.stdin is not None and board.stderr is not None
            board.stdin.write(b'1; 950\n2; 7\n')
            self.assertTrue(comes_to_be(lambda: os.path.exists(sent) and read(sent).count('\n') >= 3))
            board.stdin.close()
            self.assertEqual(board.stderr.read(), b'board: sh: it ends with status 5: no broker\n')
        self.assertEqual(set(read(sent).splitlines()), {'1; 950, 2; 7'})

    def test_whole_boards_are_written_as_lines_come(self) -> None:
        words = [*words_of('board')]
        with subprocess.Popen(words, stdin=subprocess.PIPE, stdout=subprocess.PIPE, bufsize=0) as board:
            assert board.stdin is not None and board.stdout is not None
            for line, due in (b'1; 950\n', b'1; 950\n'), (b'1; 950\n2; 7', None), (b'0\n', b'1; 950, 2; 70\n'):
                board.stdin.write(line)
                if due:
                    self.assertEqual(board.stdout.readline(), due)
            board.stdin.close()
            self.assertEqual(board.stdout.read(), b'')


if __name__ == '__main__':
    unittest.main()
