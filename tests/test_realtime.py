"""GTFS-Realtime both ways: the wire format beside an independent decoder, what a run writes, and what of a message is new."""
from __future__ import annotations

import contextlib
import io
import os
import re
import shutil
import socket
import subprocess
import unittest
import urllib.request
from typing import Any, Sequence

from dispatch_tools.commands import gtfs_rt_in
from dispatch_tools.dev.feeds import DATE, write_feed
from dispatch_tools.formats.giv import read_network
from dispatch_tools.formats.protobuf import BadMessage, decode, encode, Message, Recent, SCHEMA, varint
from dispatch_tools.formats.realtime import beginning
from dispatch_tools.commands import gtfs_rt_out as gtfs_rt_out_command
from dispatch_tools.live import gtfs_rt_out
from dispatch_tools.model.messages import Cancel, DelayActivity, DelayEvent, Drop, Message as Entered, Now, Pass, Restore
from dispatch_tools.model.railway import admit, cost_of, Rows, rows_after, sound_times
from tests.folders import read
from tests.patience import PATIENCE
from tests.samples import lines_of_run, TOP
from tests.test_gtfs import InNetwork, trips_and_times

# Midnight of 24 December 2026 in Berlin, worked out by `date -d '2026-12-24 00:00 +0100' +%s`.
MIDNIGHT = 1798066800


class WireFormat(unittest.TestCase):
    def test_bytes_are_those_of_the_standard(self) -> None:
        self.assertEqual(varint(300), b'\xac\x02')
        self.assertEqual(varint(-1), b'\xff' * 9 + b'\x01')
        message = {'header': {'gtfs_realtime_version': '2.0', 'timestamp': 150}}
        self.assertEqual(encode(message), b'\x0a\x08\x0a\x032.0\x18\x96\x01')
        self.assertEqual(decode(encode(message)), message)

    def test_negative_delays_come_back(self) -> None:
        self.assertEqual(decode(encode({'delay': -60, 'time': 5}, 'StopTimeEvent'), 'StopTimeEvent'), {'delay': -60, 'time': 5})

    def test_unknown_fields_are_passed_over(self) -> None:
        known = encode({'id': 'x'}, 'FeedEntity')
        self.assertEqual(decode(b'\xf8\x07\x01' + b'\xfd\x07abcd' + b'\xf9\x07abcdefgh' + known + b'\xfa\x07\x02hi', 'FeedEntity'), {'id': 'x'})

    def test_parts_that_were_read_lately_are_the_same(self) -> None:
        recent = Recent('StopTimeUpdate')
        for late in (60, 0, 0, 90):
            calls = [{'stop_sequence': 1, 'departure': {'delay': 60}}, {'stop_sequence': 2, 'arrival': {'delay': late}}]
            message = {'entity': [{'id': 'x', 'trip_update': {'trip': {'trip_id': 't'}, 'stop_time_update': calls}}]}
            recent.begin()
            self.assertEqual(decode(encode(message), recent=recent), message)
        self.assertEqual((len(recent.before), len(recent.now)), (2, 2))

    def test_broken_ones_are_told(self) -> None:
        for data in b'\x0a', b'\x0a\x05ab', b'\x08\x01', b'\x0b', b'\x0a\x02\x0a\xff', b'\xff' * 11, b'\x12\x03\x0a\x01\xff':
            with self.subTest(data), self.assertRaises(BadMessage):
                decode(data)


def call(sequence: int, **times: int) -> Message:
    return {'stop_sequence': sequence, **{kind: {'time': MIDNIGHT + at} for kind, at in times.items()}}


class Realtime(InNetwork):
    def setUp(self) -> None:
        super().setUp()
        agency = ['agency_name,agency_url,agency_timezone', 'X,https://example.org,Europe/Berlin']
        self.made({**trips_and_times('r1 R 0 - A 08:00 B 08:10 C 08:30', 'g1 G 0 - B 08:15 C 08:40'), 'agency.txt': agency}, '--reserve=0%')
        self.feed = os.path.join(self.folder, 'feed')
        self.count = 0

    def named(self, now: int, *entities: Message) -> str:
        """The name of a file with a message."""
        self.count += 1
        name = os.path.join(self.folder, f'm{self.count}')
        entity = [{'id': str(number), **one} for number, one in enumerate(entities)]
        with open(name, 'wb') as file:
            file.write(encode({'header': {'gtfs_realtime_version': '2.0', 'timestamp': MIDNIGHT + now}, 'entity': entity}))
        return name

    def heard(self, now: int, *entities: Message, options: Sequence[str] = ('--replay',)) -> tuple[str, list[str]]:
        """What is said, and the lines of the feed, after a message."""
        name = self.named(now, *entities)
        self.last = name
        status, said = self.call(gtfs_rt_in, self.net, self.feed, name, *options)
        self.assertEqual(status, 0, said)
        return said, read(self.feed).splitlines() if os.path.exists(self.feed) else []

    @staticmethod
    def update(trip: str, *calls: Message, **more: Any) -> Message:
        return {'trip_update': {'trip': {'trip_id': trip, **more}, 'stop_time_update': list(calls)}}


class In(Realtime):
    # r1: event 1 leaves A 28800, 2 arrives B 29400, 3 leaves B 29400, 4 arrives C 30600; g1: 5 leaves B 29700, 6 arrives C 31200.
    def test_train_that_is_late_at_each_call_is_one_delay(self) -> None:
        said, lines = self.heard(28700, self.update('r1', call(1, departure=29100), call(2, arrival=29700, departure=29700), call(3, arrival=30900)))
        self.assertEqual((said, lines), ('', ['delay event 1 300', 'now 28700']))

    def test_only_the_difference_is_new(self) -> None:
        self.heard(28700, self.update('r1', call(1, departure=29100), call(2, arrival=29700)))
        _, lines = self.heard(28710, self.update('r1', call(1, departure=29100), call(2, arrival=29760, departure=29760), call(3, arrival=30960)))
        self.assertEqual(lines[2:], ['delay event 2 360', 'now 28710'])
        _, lines = self.heard(28720, self.update('r1', call(1, departure=28860), call(2, arrival=29460)))
        self.assertEqual(lines[4:], ['delay event 1 60', 'delay event 2 0', 'now 28720'])

    def test_calls_that_are_past_have_passed(self) -> None:
        _, lines = self.heard(29500, self.update('r1', call(1, departure=28830), call(2, arrival=29430, departure=29600)))
        self.assertEqual(lines, ['pass 1 28830', 'pass 2 29430', 'delay event 3 200', 'now 29500'])

    def test_vehicle_at_a_stop_has_passed_what_is_before(self) -> None:
        vehicle = {'trip': {'trip_id': 'r1'}, 'current_stop_sequence': 2, 'current_status': 1, 'timestamp': MIDNIGHT + 29450}
        _, lines = self.heard(29460, {'vehicle': vehicle})
        self.assertEqual(lines, ['pass 1 28800', 'pass 2 29400', 'now 29460'])

    def test_vehicle_of_a_late_train_has_passed_when_it_was_shown_to(self) -> None:
        # r1 leaves A 300 seconds late, so it comes to B at 29700; g1 waits for its passengers, who need 180 seconds, until 29880.
        self.heard(28700, self.update('r1', call(1, departure=29100), call(2, arrival=29700)))
        def vehicle(trip: str, sequence: int) -> Message:
            return {'vehicle': {'trip': {'trip_id': trip}, 'current_stop_sequence': sequence}}
        self.assertEqual(self.heard(29940, vehicle('r1', 3))[1][2:], ['pass 1 29100', 'pass 2 29700', 'pass 3 29700', 'now 29940'])
        self.assertEqual(self.heard(29950, vehicle('g1', 2))[1][6:], ['pass 5 29880', 'now 29950'])

    def test_text_of_a_run_says_what_is_known(self) -> None:
        net = read_network(self.net)
        rows = rows_after(net, Rows(net), DelayEvent(1, 300))
        times = sound_times(net, rows)
        run = write_feed(os.path.join(self.folder, 'run'), {'text': lines_of_run(net, [DelayEvent(1, 300)], times, cost_of(net, rows, times, 0))})
        _, lines = self.heard(28700, self.update('r1', call(2, arrival=29700)), options=[f'--text={run}/text', '--replay'])
        self.assertEqual(lines, ['now 28700'])

    def test_what_cannot_be_said_is_told_by_name(self) -> None:
        said, lines = self.heard(28000, self.update('x9', call(1, departure=28800)), self.update('r1', call(7, arrival=28800)),
                                 {'is_deleted': 1, **self.update('x8')})
        self.assertEqual(lines, ['now 28000'])
        for line in ('trips that the network has not: x9 20261224', 'calls that the network has not: r1, call 7'):
            self.assertIn(f'gtfs_rt_in: {line}\n', said)
        self.assertNotIn('x8', said)

    def gone(self, trip: str, relation: int = 3) -> Message:
        return {'trip_update': {'trip': {'trip_id': trip, 'schedule_relationship': relation}}}

    def test_a_cancelled_trip_is_cancelled_until_a_message_has_it_no_more(self) -> None:
        _, lines = self.heard(28000, self.gone('r1'))
        self.assertEqual(lines, ['cancel 1', 'cancel 2', 'cancel 3', 'cancel 4', 'now 28000'])
        self.assertEqual(self.heard(28010, self.gone('r1', 7))[1][5:], ['now 28010'])
        _, lines = self.heard(28020, self.update('r1', call(1, departure=28800)))
        self.assertEqual(lines[6:], ['restore 1', 'restore 2', 'restore 3', 'restore 4', 'now 28020'])
        self.assertEqual(self.heard(28030, self.gone('r1'))[1][-2:], ['cancel 4', 'now 28030'])
        self.assertEqual(self.heard(28040, self.update('g1', call(1, departure=29700)))[1][-3:], ['restore 3', 'restore 4', 'now 28040'])

    def test_what_a_dispatcher_has_cancelled_stays_so(self) -> None:
        store = os.path.join(self.folder, 'text')
        with open(store, 'w', encoding='ascii') as file:
            file.writelines(f'{line}\n' for line in lines_of_run(read_network(self.net), [Cancel(5), Cancel(6)]))
        _, lines = self.heard(28000, self.update('g1', call(1, departure=29700)), options=('--replay', f'--text={store}'))
        self.assertEqual(lines, ['now 28000'])

    def test_what_has_passed_is_not_cancelled(self) -> None:
        self.heard(29000, self.update('r1', call(1, departure=28800)))
        self.assertEqual(self.heard(29010, self.gone('r1'))[1][2:], ['cancel 2', 'cancel 3', 'cancel 4', 'now 29010'])

    SKIP_B = {'stop_sequence': 2, 'schedule_relationship': 1}

    def test_the_changes_at_a_skipped_call_are_dropped(self) -> None:
        said, lines = self.heard(28000, self.update('r1', self.SKIP_B))
        change, = (one.id for one in read_network(self.net).activities if one.kind == 'change')
        self.assertEqual(lines, [f'drop {change}', 'now 28000'])
        self.assertIn('calls that are skipped, whose changes are dropped: r1, call 2', said)
        self.assertEqual(self.heard(28010, self.update('r1', self.SKIP_B))[1][2:], ['now 28010'])

    def test_a_skipped_call_is_past_where_a_later_one_is(self) -> None:
        passing = self.update('r1', call(1, departure=28800), self.SKIP_B, call(3, arrival=30600))
        self.assertEqual(self.heard(30000, passing)[1][1:], ['pass 1 28800', 'now 30000'])
        self.assertEqual(self.heard(30700, passing)[1][3:], ['pass 4 30600', 'pass 2 29400', 'pass 3 29400', 'now 30700'])

    def test_calls_through_which_trains_run_stand_in_a_file(self) -> None:
        name = os.path.join(self.folder, 'Skipped.csv')
        def shown(now: int, *entities: Message) -> list[str]:
            self.heard(now, *entities, options=('--replay', f'--skipped={name}'))
            return read(name).splitlines()[1:]
        self.assertEqual(shown(28000, self.update('r1', self.SKIP_B)), ['1;2'])
        self.assertEqual(shown(28010, self.update('r1', self.SKIP_B), self.gone('g1')), ['1;2'])
        self.assertEqual(shown(28020, self.update('r1', call(2, arrival=29400))), [])
        self.assertEqual(shown(28030, self.update('r1', self.SKIP_B)), ['1;2'])
        self.assertEqual(shown(28040, self.gone('g1')), [])

    def test_a_train_that_skips_its_last_calls_ends_early_and_one_that_skips_its_first_begins_late(self) -> None:
        last = self.update('r1', call(2, arrival=29400, departure=29500), {'stop_sequence': 3, 'schedule_relationship': 1})
        said, lines = self.heard(28000, last)
        self.assertEqual(lines, ['cancel 3', 'cancel 4', 'now 28000'])
        self.assertIn('trains that skip their first or last calls, which are cancelled: r1', said)
        self.assertEqual(self.heard(28010, self.update('r1', call(3, arrival=30600)))[1][3:], ['restore 3', 'restore 4', 'now 28010'])
        first = self.update('r1', {'stop_sequence': 1, 'schedule_relationship': 1}, call(2, departure=29400))
        self.assertEqual(self.heard(28020, first)[1][6:], ['cancel 1', 'cancel 2', 'now 28020'])
        whole = self.update('r1', *({'stop_sequence': place, 'schedule_relationship': 1} for place in (1, 2, 3)))
        self.assertEqual(self.heard(28030, whole)[1][9:], ['cancel 3', 'cancel 4', 'now 28030'])
        # What it does not do has not passed, whatever is told of it.
        self.heard(28040, self.update('r1', call(1, departure=28800)))
        late = self.heard(30700, self.update('r1', call(2, arrival=29400, departure=29500), {'stop_sequence': 3, 'schedule_relationship': 1}))[1]
        self.assertEqual(late[17:], ['cancel 3', 'cancel 4', 'pass 2 29400', 'now 30700'])

    def test_an_added_trip_runs_as_the_reserve_train_that_fits(self) -> None:
        name = os.path.join(self.net, 'Cancelled.csv')
        with open(name, 'w', encoding='ascii') as file:
            file.write('5\n6\n')
        def added(at: int, route: str, *stops: str) -> Message:
            calls = [{'stop_id': stop, 'departure' if place == 0 else 'arrival': {'time': MIDNIGHT + at + 1000 * place}} for place, stop in enumerate(stops)]
            return {'trip_update': {'trip': {'trip_id': 'extra', 'route_id': route, 'schedule_relationship': 1}, 'stop_time_update': calls}}
        options = ('--replay', '--cancelled=Cancelled.csv')
        for one in added(29700 + 901, '', 'B', 'C'), added(29700, 'X', 'B', 'A'):
            said, lines = self.heard(28000 + self.count, one, options=options)
            self.assertIn('trips that are added, for which no reserve train fits: extra', said)
        _, lines = self.heard(28010, added(29760, '', 'B', 'C'), options=options)
        self.assertEqual(lines[2:], ['restore 5', 'restore 6', 'delay event 5 60', 'now 28010'])
        _, lines = self.heard(28020, added(29820, '', 'B', 'C'), options=options)
        self.assertEqual(lines[6:], ['delay event 5 120', 'now 28020'])
        # A process that goes on knows which train runs for which trip, however late it is, and cancels it with the trip.
        gone = {'trip_update': {'trip': {'trip_id': 'extra', 'schedule_relationship': 3}}}
        named = [self.named(28030, added(29700, '', 'B', 'C')), self.named(28040, added(31700, '', 'B', 'C')), self.named(28050, gone)]
        self.assertEqual(self.call(gtfs_rt_in, self.net, self.feed, *named, *options)[0], 0)
        self.assertEqual(read(self.feed).splitlines()[8:], ['delay event 5 0', 'now 28030', 'delay event 5 2000', 'now 28040', 'cancel 5', 'cancel 6', 'now 28050'])

    def test_times_that_fall_say_nothing(self) -> None:
        said, lines = self.heard(28000, self.update('r1', call(1, departure=29100), call(2, arrival=29000)))
        self.assertEqual(lines, ['delay event 1 300', 'now 28000'])
        self.assertIn('times that fall: r1, call 2, arrival\n', said)

    def test_messages_out_of_order_or_twice_say_nothing(self) -> None:
        _, lines = self.heard(28000, self.update('r1', call(1, departure=29100)))
        said, after = self.heard(27000, self.update('r1', call(1, departure=29500)))
        self.assertEqual(after, lines)
        self.assertIn('messages out of order: ', said)
        status, said = self.call(gtfs_rt_in, self.net, self.feed, '--replay', self.last, self.last)
        self.assertIn('messages that come twice: ', said)
        self.assertEqual(read(self.feed).splitlines(), lines)

    def test_broken_message_is_told(self) -> None:
        write_feed(os.path.join(self.folder, 'bad'), {'m': b'\x0a\x05ab'})
        status, said = self.call(gtfs_rt_in, self.net, self.feed, '--replay', os.path.join(self.folder, 'bad', 'm'))
        self.assertEqual(status, 2)
        self.assertIn('this is no message (a field at byte 2 is longer than its message)', said)
        self.assertFalse(os.path.exists(self.feed))


class Written(Realtime):
    def written(self, *messages: Any) -> bytes:
        net = read_network(self.net)
        rows = Rows(net)
        for count, message in enumerate(messages):
            refusal, after = admit(net, rows, count, message)
            self.assertIsNone(refusal)
            assert after is not None
            rows = after
        times = sound_times(net, rows)
        folder = write_feed(os.path.join(self.folder, 'run'), {'text': lines_of_run(net, messages, times, cost_of(net, rows, times, 0))})
        out = os.path.join(self.folder, 'out.pb')
        self.assertEqual(self.call(gtfs_rt_out_command, self.net, os.path.join(folder, 'text'), out), (0, ''))
        with open(out, 'rb') as file:
            return file.read()

    def written_again(self, *messages: Any) -> bytes:
        shutil.rmtree(os.path.join(self.folder, 'run'))
        return self.written(*messages)


class Out(Written):
    def test_calls_have_delays_and_times_or_nothing_is_known(self) -> None:
        message = decode(self.written(DelayEvent(1, 60), Now(28000)))
        self.assertEqual(message['header'], {'gtfs_realtime_version': '2.0', 'incrementality': 0, 'timestamp': MIDNIGHT + 28000})
        late, other = (one['trip_update'] for one in message['entity'])
        self.assertEqual(late['trip'], {'trip_id': 'r1', 'start_date': DATE, 'schedule_relationship': 0})
        self.assertEqual([call.get('arrival', {}).get('delay') for call in late['stop_time_update']], [None, 60, 60])
        self.assertEqual(late['stop_time_update'][1], {
            'stop_sequence': 2, 'stop_id': 'B', 'schedule_relationship': 0, 'arrival': {'delay': 60, 'time': MIDNIGHT + 29460},
            'departure': {'delay': 60, 'time': MIDNIGHT + 29460}})
        self.assertEqual([call['schedule_relationship'] for call in other['stop_time_update']], [2, 2])
        self.assertNotIn('departure', other['stop_time_update'][0])

    def test_cancelled_train_and_train_that_ends_early(self) -> None:
        message = decode(self.written(Cancel(3), Cancel(4), Cancel(5), Cancel(6), DelayEvent(1, 60)))
        early, gone = (one['trip_update'] for one in message['entity'])
        self.assertEqual(gone['trip'], {'trip_id': 'g1', 'start_date': DATE, 'schedule_relationship': 3})
        self.assertNotIn('stop_time_update', gone)
        self.assertEqual(early['stop_time_update'][1:], [
            {'stop_sequence': 2, 'stop_id': 'B', 'schedule_relationship': 0, 'arrival': {'delay': 60, 'time': MIDNIGHT + 29460}},
            {'stop_sequence': 3, 'stop_id': 'C', 'schedule_relationship': 1},
        ])
        again = decode(self.written_again(Cancel(5), Cancel(6), Restore(5), Restore(6)))
        self.assertEqual([one['trip_update']['trip']['schedule_relationship'] for one in again['entity']], [0, 0])

    def test_trains_of_frequencies_are_told_by_their_times_alone(self) -> None:
        shutil.rmtree(self.net)
        frequencies = ['trip_id,start_time,end_time,headway_secs', 'r1,08:00:00,08:10:00,300']
        agency = ['agency_name,agency_url,agency_timezone', 'X,https://example.org,Europe/Berlin']
        self.made({**trips_and_times('r1 R 0 - A 07:00 B 07:10'), 'agency.txt': agency, 'frequencies.txt': frequencies})
        first, second = (one['trip_update'] for one in decode(self.written(DelayEvent(1, 60), Now(28000)))['entity'])
        self.assertEqual(first['trip'], {'trip_id': 'r1', 'start_time': '08:00:00', 'start_date': DATE})
        self.assertEqual(first['stop_time_update'][0]['departure'], {'time': MIDNIGHT + 28860})
        self.assertEqual(second['trip']['start_time'], '08:05:00')
        # What comes out goes in again, by the time at which the train begins.
        self.assertEqual(self.call(gtfs_rt_in, self.net, self.feed, '--replay', os.path.join(self.folder, 'out.pb')), (0, ''))
        self.assertEqual(read(self.feed).splitlines(), ['delay event 1 60', 'now 28000'])

    def alerts(self, data: bytes) -> list[Message]:
        return [one['alert'] for one in decode(data)['entity'] if 'alert' in one]

    @staticmethod
    def said(alert: Message) -> tuple[str, str]:
        return alert['header_text']['translation'][0]['text'], alert['description_text']['translation'][0]['text']

    def test_dropped_changes_are_alerts(self) -> None:
        # r1 arrives at B at 29400, its passengers need 180 seconds, and g1 leaves at 29700: with 121 seconds of delay they miss it.
        change = next(one for one in read_network(self.net).activities if one.kind == 'change')
        alert, = self.alerts(self.written(Drop(change.id), DelayEvent(1, 121), Now(28000)))
        self.assertEqual([(one['trip']['trip_id'], one['stop_id']) for one in alert['informed_entity']], [('r1', 'B'), ('g1', 'B')])
        self.assertEqual(self.said(alert), ('Red 08:00: no connection to Green 08:15 at Boll', 'Green 08:15 does not wait at Boll for Red 08:00.'))
        self.assertEqual(alert['active_period'], [{'end': MIDNIGHT + 29700}])
        self.assertEqual(self.alerts(self.written_again(Drop(change.id), Pass(change.head, 29700), Now(29700))), [])

    def test_a_dropped_change_that_is_met_all_the_same_is_said_as_such(self) -> None:
        change = next(one for one in read_network(self.net).activities if one.kind == 'change')
        met = ('Red 08:00: connection to Green 08:15 at Boll as things stand', 'Green 08:15 does not wait, but leaves Boll late enough.')
        self.assertEqual(self.said(*self.alerts(self.written(Drop(change.id), DelayEvent(1, 120)))), met)
        late = DelayActivity(change.id, 1)
        self.assertNotEqual(self.said(*self.alerts(self.written_again(Drop(change.id), late, DelayEvent(1, 120)))), met)

    def test_a_cancelled_train_has_no_alert_of_a_change(self) -> None:
        change = next(one for one in read_network(self.net).activities if one.kind == 'change')
        self.assertEqual(self.alerts(self.written(Drop(change.id), DelayEvent(1, 600), Cancel(5), Cancel(6))), [])

    def test_what_comes_out_goes_in_as_the_same_delay(self) -> None:
        data = self.written(DelayEvent(1, 60), Now(28000))
        name = os.path.join(self.folder, 'out.pb')
        self.assertTrue(data)
        self.assertEqual(self.call(gtfs_rt_in, self.net, self.feed, '--replay', name), (0, ''))
        self.assertEqual(read(self.feed).splitlines(), ['delay event 1 60', 'now 28000'])

    @unittest.skipUnless(shutil.which('protoc'), 'protoc (protobuf-compiler of Debian) is not here')
    def test_an_independent_decoder_reads_the_same(self) -> None:
        data = self.written(DelayEvent(1, 60), Now(28000))
        told = subprocess.run(['protoc', '--decode_raw'], input=data, capture_output=True, check=True).stdout.decode()
        told = re.sub(r'\s+', ' ', told)
        self.assertTrue(told.startswith(f'1 {{ 1: "2.0" 2: 0 3: {MIDNIGHT + 28000} }} 2 {{ 1: "trip-1" 3 {{ 1 {{ 1: "r1" 3: "{DATE}" 4: 0 }} '), told)
        self.assertIn(f'2 {{ 1: 2 4: "B" 5: 0 2 {{ 1: 60 2: {MIDNIGHT + 29460} }} 3 {{ 1: 60 2: {MIDNIGHT + 29460} }} }}', told)


class Again(Written):
    """A file that is handed out, and taken in from its URL."""

    def test_is_handed_out_and_taken_in(self) -> None:
        self.written(DelayEvent(1, 60), Now(28000))
        out = os.path.join(self.folder, 'out.pb')
        with contextlib.redirect_stderr(io.StringIO()) as said, gtfs_rt_out.serving(out, 0) as server:
            url = f'http://127.0.0.1:{server.server_port}/'
            self.assertEqual(said.getvalue(), f'gtfs_rt_out: {url} hands out {out}\n')
            self.assertEqual(self.call(gtfs_rt_in, self.net, self.feed, '--replay', url), (0, ''))
            self.assertEqual(read(self.feed).splitlines(), ['delay event 1 60', 'now 28000'])
            with urllib.request.urlopen(url) as answer:
                self.assertEqual(answer.headers['Content-Type'], 'application/x-protobuf')
            os.remove(out)
            status, told = self.call(gtfs_rt_in, self.net, self.feed, '--replay', url)
            self.assertEqual((status, 'sources that cannot be read: ' in told), (2, True))
            server.shutdown()

    def test_what_is_told_again_is_as_a_new_process_tells_it(self) -> None:
        self.written(DelayEvent(1, 60), Now(28000))
        text, out = os.path.join(self.folder, 'run', 'text'), os.path.join(self.folder, 'out.pb')
        writer = gtfs_rt_out.Writer(gtfs_rt_out_command.words_of([self.net, text, out]))
        writer.write()
        late: Entered = DelayEvent(1, 120)
        days: list[list[Entered]] = [
            [Now(28100)], [late, Now(28200)], [late, Now(28300)], [Pass(1, 28750), Now(28800)],
        ]
        for messages in days:
            new = self.written_again(*messages)
            writer.write()
            with open(out, 'rb') as file:
                self.assertEqual(file.read(), new)

    def test_is_written_anew_where_the_text_is_another_one(self) -> None:
        self.written(DelayEvent(1, 60), Now(28000))
        text, out = os.path.join(self.folder, 'run', 'text'), os.path.join(self.folder, 'out.pb')
        writer = gtfs_rt_out.Writer(gtfs_rt_out_command.words_of([self.net, text, out]))
        seen = writer.write_again(None)
        os.remove(out)
        self.assertEqual(writer.write_again(seen), seen)
        self.assertFalse(os.path.exists(out))
        with contextlib.redirect_stderr(io.StringIO()) as said:
            with open(text, 'a', encoding='ascii') as file:
                file.write('half a')
            self.assertEqual((writer.write_again(seen), writer.write_again(seen)), (seen, seen))
        self.assertFalse(os.path.exists(out))
        self.assertEqual(said.getvalue().count('is no text of a run'), 1)

    def test_a_file_that_could_not_be_written_is_tried_again(self) -> None:
        self.written(DelayEvent(1, 60), Now(28000))
        text, folder = os.path.join(self.folder, 'run', 'text'), os.path.join(self.folder, 'public')
        out = os.path.join(folder, 'out.pb')
        writer = gtfs_rt_out.Writer(gtfs_rt_out_command.words_of([self.net, text, out]))
        with open(folder, 'wb'):
            pass
        with contextlib.redirect_stderr(io.StringIO()) as said:
            seen = writer.write_again(None)
        self.assertIn('public', said.getvalue())
        os.remove(folder)
        os.mkdir(folder)
        seen = writer.write_again(seen)
        self.assertTrue(os.path.exists(out))
        os.remove(out)
        self.assertEqual(writer.write_again(seen), seen)
        self.assertFalse(os.path.exists(out))

    def test_who_asks_nothing_shuts_nobody_out(self) -> None:
        self.written(DelayEvent(1, 60), Now(28000))
        out = os.path.join(self.folder, 'out.pb')
        with contextlib.redirect_stderr(io.StringIO()), gtfs_rt_out.serving(out, 0) as server:
            held = [socket.create_connection(('127.0.0.1', server.server_port), timeout=PATIENCE) for _ in range(150)]
            with urllib.request.urlopen(f'http://127.0.0.1:{server.server_port}/', timeout=PATIENCE) as answer:
                self.assertEqual(len(answer.read()), os.path.getsize(out))
            closed = 0
            for line in held:
                line.settimeout(0.01)
                with contextlib.suppress(TimeoutError), line:
                    closed += line.recv(1) == b''
            self.assertGreaterEqual(closed, 50)
            server.shutdown()


class Schema(unittest.TestCase):
    """The table of the reader and the file for protoc say the same."""
    KINDS = {'string': 'text', 'int32': 'signed', 'int64': 'signed', 'uint32': 'number', 'uint64': 'number', 'bool': 'number'}

    def messages(self) -> dict[str, Any]:
        """The fields of each message of the file, as the table has them; an enumeration is a number."""
        found: dict[str, Any] = {}
        way, enums = list[str](), set[str]()
        for line in read(TOP, 'dispatch_tools', 'formats', 'gtfs-realtime.proto').splitlines():
            words = line.replace(';', ' ').split()
            if words[:1] == ['enum']:
                enums.add(words[1])
            if words[:1] in (['message'], ['enum']) and not line.rstrip().endswith('}'):
                way.append(words[1])
                found.setdefault(words[1], {})
            elif words[:1] == ['}']:
                way.pop()
            elif words[:1] and words[0] in ('optional', 'required', 'repeated'):
                kind = 'number' if words[1] in enums else self.KINDS.get(words[1], words[1])
                found[way[-1]][int(words[4])] = (words[2], ('*' if words[0] == 'repeated' else '') + kind)
        return {name: fields for name, fields in found.items() if fields}

    def test_is_that_of_the_file_for_protoc(self) -> None:
        self.assertEqual(self.messages(), SCHEMA)

    @unittest.skipUnless(shutil.which('protoc'), 'protoc (protobuf-compiler of Debian) is not here')
    def test_protoc_reads_what_is_written(self) -> None:
        data = encode({'header': {'gtfs_realtime_version': '2.0', 'timestamp': 7}, 'entity': [{'id': 'x', 'trip_update': {
            'trip': {'trip_id': 't'}, 'stop_time_update': [{'stop_sequence': 3, 'arrival': {'delay': -5}, 'schedule_relationship': 0}]}}]})
        words = ['protoc', '--decode=transit_realtime.FeedMessage', f'--proto_path={TOP}/dispatch_tools/formats', os.path.join(TOP, 'dispatch_tools', 'formats', 'gtfs-realtime.proto')]
        told = subprocess.run(words, input=data, capture_output=True, check=True).stdout.decode()
        self.assertEqual(re.sub(r'\s+', ' ', told), (
            'header { gtfs_realtime_version: "2.0" timestamp: 7 } entity { id: "x" trip_update { trip { trip_id: "t" } '
            'stop_time_update { stop_sequence: 3 arrival { delay: -5 } schedule_relationship: SCHEDULED } } } '))


class Days(unittest.TestCase):
    def test_begin_twelve_hours_before_noon(self) -> None:
        self.assertEqual(beginning('2026-12-24', 'Europe/Berlin'), MIDNIGHT)
        # On 29 March 2026 clocks go forward: noon is eleven hours behind midnight, so that day begins at 23:00 of the day before.
        self.assertEqual(beginning('2026-03-29', 'Europe/Berlin') - beginning('2026-03-28', 'Europe/Berlin'), 23 * 3600)


if __name__ == '__main__':
    unittest.main()
