"""What stands beside a live server: its journal read as it grows, what is known by it, and what scripts wait for. No server runs."""
from __future__ import annotations

import os
import shutil
import stat
import subprocess
import tempfile
import unittest
from pathlib import Path

from dispatch_tools.commands import gtfs_rt_out
from dispatch_tools.formats.files import BadFile
from dispatch_tools.formats.giv import read_network
from dispatch_tools.formats.journal import Blocks, Head, Journal, text_of
from dispatch_tools.formats.protobuf import decode, encode
from dispatch_tools.formats.runtext import Entry
from dispatch_tools.commands import gtfs_rt_in as gtfs_rt_in_command
from dispatch_tools.live.known import Known
from dispatch_tools.live.serving import command_of, Server
from dispatch_tools.model.messages import Adopt, DelayEvent, Drop, First, Message, Now
from dispatch_tools.model.railway import apply, cost_of, Rows, sound_times
from dispatch_tools.oracle.journals import at_rest, block
from tests.folders import read
from tests.samples import lines_of_run, network, TOP
from tests.test_gtfs import InNetwork, trips_and_times

HEAD = b'dm-store 1\npenalty 3600\nplans 16\nfeeds 2\n'
DELAYED = b'feed 1 1\n1 delay event 1 60 -> 1 ok\nfeed 2 0\n'
PLANNED = b'''feed 1 0
feed 2 2
1 plan 100 -> 1 plan optimal cost 940000 bound 940000 choices 2 nodes 1
choice drop 5
choice first 5 3
bound 940000
3 adopt -> 2 ok
'''
# Midnight of 24 December 2026, by `date -d '2026-12-24 00:00 +0000' +%s`.
MIDNIGHT = 1798070400
# Feed 2 has a message that is refused, and a line that is malformed.
LAST = b'feed 1 1\n3 now 150 -> 3 ok\nfeed 2 2\n4 now 140 -> 3 refused back 150\n5 malformed\n'


class InStore(unittest.TestCase):
    def setUp(self) -> None:
        self.store = Path(tempfile.mkdtemp())
        self.addCleanup(shutil.rmtree, self.store)

    def write(self, journal: bytes) -> None:
        (self.store / 'journal').write_bytes(journal)


class Journals(InStore):
    def test_entries_come_as_blocks_are_opened(self) -> None:
        journal = Journal(str(self.store))
        self.write(b'~')
        self.assertEqual((journal.read(), journal.head), ([], None))
        self.write(at_rest([HEAD]))
        self.assertEqual((journal.read(), journal.head, journal.logs), ([], Head(3600, 16, 2), [[], []]))
        self.write(at_rest([HEAD, DELAYED])[:-1] + b'~' + block(PLANNED)[1:] + b'~')
        self.assertEqual(journal.read(), [Entry(1, 1, DelayEvent(1, 60))])
        self.write(at_rest([HEAD, DELAYED, PLANNED]))
        self.assertEqual(journal.read(), [Entry(2, 3, Adopt((Drop(5), First(5, 3))))])
        self.assertEqual(journal.read(), [])
        self.write(at_rest([HEAD, DELAYED, PLANNED, LAST]))
        self.assertEqual(journal.read(), [Entry(1, 3, Now(150))])
        self.assertEqual([[item.line for item in log] for log in journal.logs], [[1, 3], [1, 3, 4, 5]])

    def test_each_front_has_the_blocks_that_are_whole(self) -> None:
        whole = at_rest([HEAD, DELAYED, PLANNED])
        ends = [len(at_rest([HEAD, DELAYED, PLANNED][:count])) - 1 for count in range(4)]
        for size in range(len(whole)):
            self.write(whole[:size])
            journal = Journal(str(self.store))
            journal.read()
            self.assertEqual(journal.blocks, sum(end <= size for end in ends) - 1, size)

    def test_journal_that_is_begun_anew_is_told(self) -> None:
        self.write(at_rest([HEAD, DELAYED]))
        journal, blocks = Journal(str(self.store)), Blocks(str(self.store / 'journal'))
        self.assertEqual((len(journal.read()), blocks.read(), blocks.read()), (1, [HEAD, DELAYED], []))
        self.write(at_rest([HEAD]))
        self.assertIsNone(blocks.read())
        with self.assertRaisesRegex(BadFile, 'another one'):
            journal.read()

    def test_blocks_of_more_than_a_piece_are_read(self) -> None:
        large = b'x' * 9_000_000
        self.write(at_rest([HEAD, large, b'y']))
        blocks = Blocks(str(self.store / 'journal'))
        self.assertEqual([blocks.read(), blocks.read() == [large, b'y'], blocks.read()], [[HEAD], True, []])

    def test_entries_of_a_round_are_in_order(self) -> None:
        self.write(at_rest([HEAD, b'feed 1 1\n1 now 7 -> 2 ok\nfeed 2 1\n1 now 5 -> 1 ok\n']))
        self.assertEqual([entry.message for entry in Journal(str(self.store)).read()], [Now(5), Now(7)])

    def test_carry_enters_what_was_free_before_its_entry(self) -> None:
        """The order of the entries counts, and not that of the feeds."""
        plan = PLANNED.split(b'feed 2 ')[1].split(b'\n', 1)[1].split(b'3 adopt')[0]
        net = read_network(network('connection'))
        cases: list[tuple[int, int, Adopt]] = [(2, 3, Adopt((First(5, 3),))), (3, 2, Adopt((Drop(5), First(5, 3))))]
        for lock, carry, due in cases:
            last = f'feed 1 1\n2 lock 5 -> {lock} ok\nfeed 2 1\n3 carry -> {carry} ok\n'.encode()
            self.write(at_rest([HEAD, DELAYED, b'feed 1 0\nfeed 2 1\n' + plan, last]))
            entries = Journal(str(self.store), net).read()
            self.assertEqual([entry.message for entry in entries if isinstance(entry.message, Adopt)], [due])
            with self.assertRaisesRegex(BadFile, 'has another form'):
                Journal(str(self.store)).read()

    def test_what_is_no_journal_is_told(self) -> None:
        self.assertEqual(Journal(str(self.store)).read(), [])
        for blocks, said in (([b'dm-store 2\n'], 'line 1 of block 1'), ([HEAD, b'feed 1 0\n'], 'line 2 of block 2'),
                             ([HEAD, DELAYED + b'x\n'], 'line 4 of block 2')):
            self.write(at_rest(blocks))
            with self.assertRaisesRegex(BadFile, said):
                Journal(str(self.store)).read()


def program(folder: Path, script: str) -> str:
    """A program that stands for the dispatcher."""
    path = folder / 'program'
    path.write_text(f'#!/bin/sh\n{script}\n', encoding='utf-8')
    path.chmod(path.stat().st_mode | stat.S_IXUSR)
    return str(path)


class Texts(InStore):
    def test_program_is_asked_with_the_words_of_the_head(self) -> None:
        self.write(at_rest([HEAD]))
        told = text_of(program(self.store, 'printf "%s " "$@"'), 'net', str(self.store), ['--event-delays=late'])
        self.assertEqual(told.decode(), f'text net {self.store} feed feed --penalty=3600 --plans=16 --event-delays=late ')

    def test_head_is_all_that_is_read(self) -> None:
        """What a carried plan entered is known of its network alone."""
        self.write(at_rest([HEAD, b'feed 1 1\n1 carry -> 1 ok\nfeed 2 0\n']))
        self.assertEqual(text_of(program(self.store, 'echo done'), 'net', str(self.store)), b'done\n')

    def test_what_it_refuses_is_told(self) -> None:
        self.write(b'~')
        with self.assertRaisesRegex(BadFile, 'has no head yet'):
            text_of('program', 'net', str(self.store))
        self.write(at_rest([HEAD]))
        with self.assertRaisesRegex(BadFile, 'status 3: refused store head'):
            text_of(program(self.store, 'echo refused store head; exit 3'), 'net', str(self.store))


class Replies(InStore):
    def test_last_answer_is_found_as_the_file_grows(self) -> None:
        server = Server('program', 'net', str(self.store), ['feed'])
        reply = Path(server.reply(0))
        reply.write_bytes(b'')
        self.assertEqual((reply.name, server.answered(0)), ('reply-1.txt', 0))
        plan = PLANNED.split(b'feed 2 2\n')[1]
        for size, last in ((3, 0), (len(plan) - 17, 1), (len(plan) - 1, 1), (len(plan), 3)):
            reply.write_bytes(plan[:size])
            self.assertEqual(server.answered(0), last, size)
        reply.write_bytes(plan + b'40 malformed\n')
        self.assertEqual(server.answered(0), 40)

    def test_server_that_ends_is_told(self) -> None:
        server = Server(program(self.store, 'echo refused store locked; exit 3'), 'net', str(self.store / 'store'), [str(self.store / 'feed')])
        with self.assertRaisesRegex(BadFile, 'refused store locked'):
            server.start()


class Realtime(InNetwork):
    """Two trains, whose server has two feeds: the first has what gtfs_rt_in.py writes."""

    def setUp(self) -> None:
        super().setUp()
        agency = ['agency_name,agency_url,agency_timezone', 'X,https://example.org,UTC']
        self.made({**trips_and_times('r1 R 0 - A 08:00 B 08:10 C 08:30', 'g1 G 0 - B 08:15 C 08:40'), 'agency.txt': agency}, '--reserve=0%')
        self.feed, self.store = os.path.join(self.folder, 'feed'), os.path.join(self.folder, 'store')
        os.mkdir(self.store)

    def journal(self, *parts: bytes) -> None:
        Path(self.store, 'journal').write_bytes(at_rest([HEAD, *parts]))

    def test_what_the_store_has_entered_is_known(self) -> None:
        Path(self.feed).write_text('delay event 1 300\ndelay event 1 120\n', encoding='ascii')
        net = read_network(self.net)
        # The other feed has reported another delay behind the first line, and the second one is not answered yet.
        self.journal(b'feed 1 1\n1 delay event 1 300 -> 1 ok\nfeed 2 1\n1 delay event 1 500 -> 2 ok\n')
        known = Known(net, self.feed, self.store)
        self.assertEqual(known.now().event_delays[0], 120)
        self.assertEqual(Known(net, self.feed, self.store, 2).now().event_delays[0], 120)
        self.journal(b'feed 1 1\n1 delay event 1 300 -> 1 ok\nfeed 2 1\n1 delay event 1 500 -> 2 ok\n',
                     b'feed 1 1\n2 delay event 1 120 -> 3 ok\nfeed 2 1\n3 delay event 1 60 -> 4 ok\n')
        self.assertEqual(known.now().event_delays[0], 60)
        with self.assertRaisesRegex(BadFile, 'has no feed 3'):
            Known(net, self.feed, self.store, 3).now()

    def test_only_what_the_server_does_not_show_is_told(self) -> None:
        self.journal(b'feed 1 0\nfeed 2 1\n1 delay event 1 300 -> 1 ok\n')
        Path(self.feed).write_text('', encoding='ascii')
        update = {'trip': {'trip_id': 'r1'}, 'stop_time_update': [{'stop_sequence': 1, 'departure': {'delay': 300}}]}
        message = {'header': {'gtfs_realtime_version': '2.0', 'timestamp': MIDNIGHT + 7 * 3600}, 'entity': [{'id': '1', 'trip_update': update}]}
        name = os.path.join(self.folder, 'in.pb')
        Path(name).write_bytes(encode(message))
        status, said = self.call(gtfs_rt_in_command, self.net, self.feed, name, '--text', self.store, '--replay')
        self.assertEqual((status, [line for line in read(self.feed).splitlines() if not line.startswith('now')]), (0, []), said)

    def test_times_of_a_store_go_out(self) -> None:
        self.journal(b'feed 1 1\n1 delay event 1 60 -> 1 ok\nfeed 2 0\n')
        net = read_network(self.net)
        messages: list[Message] = [DelayEvent(1, 60)]
        rows = Rows(net)
        apply(net, rows, messages[0])
        times = sound_times(net, rows)
        text = Path(self.folder, 'text')
        text.write_text('\n'.join([*lines_of_run(net, messages, times, cost_of(net, rows, times, 0)), '']), encoding='ascii')
        out = os.path.join(self.folder, 'out.pb')
        done = self.call(gtfs_rt_out, self.net, self.store, out, '--dispatcher', program(Path(self.folder), f'cat {text}'))
        self.assertEqual(done, (0, ''))
        with open(out, 'rb') as file:
            late = decode(file.read())['entity'][0]['trip_update']
        self.assertEqual([call.get('arrival', {}).get('delay') for call in late['stop_time_update']], [None, 60, 60])


class Commands(InStore):
    def test_a_store_is_begun_where_its_journal_has_no_byte(self) -> None:
        self.assertEqual(command_of(self.store), ['serve', '--new'])
        self.write(b'')
        self.assertEqual(command_of(self.store), ['serve', '--new'])
        self.write(at_rest([HEAD]))
        self.assertEqual(command_of(self.store), ['serve'])


class Unit(unittest.TestCase):
    @unittest.skipUnless(shutil.which('systemd-analyze'), 'systemd-analyze is not here')
    def test_systemd_reads_it(self) -> None:
        unit = Path(TOP, 'examples', 'live', 'dispatcher@.service').read_text(encoding='utf-8')
        with tempfile.TemporaryDirectory() as folder:
            path = Path(folder, 'dispatcher@day.service')
            path.write_text(unit.replace('/usr/local/bin/dispatcher', '/bin/true'), encoding='utf-8')
            done = subprocess.run(['systemd-analyze', 'verify', path], capture_output=True, text=True)
        self.assertEqual([line for line in done.stderr.splitlines() if 'dispatcher@' in line], [])


if __name__ == '__main__':
    unittest.main()
