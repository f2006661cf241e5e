"""Timetables that are small and would be a long work, and names in them that say something else than they seem to."""
from __future__ import annotations

import os
import time
import unittest
import zipfile
from typing import Mapping
from unittest import mock

from dispatch_tools.commands import from_gtfs, gtfs_rt_in, gtfs_rt_out, to_gtfs
from dispatch_tools.days.carry import name_of_next_day
from dispatch_tools.dev.feeds import DATE, File, SMALL, write_feed
from dispatch_tools.formats.names import name_of_trip, named_trip, read_labels, read_stops, read_trains, read_trips, shown
from dispatch_tools.formats.protobuf import decode, encode
from dispatch_tools.model.messages import Now
from tests.folders import read
from tests.patience import PATIENCE
from tests.samples import lines_of_run
from tests.test_gtfs import InNetwork, trips_and_times
from tests.test_realtime import MIDNIGHT

FREQUENCIES = 'trip_id,start_time,end_time,headway_secs'
AGENCY = ['agency_name,agency_url,agency_timezone', 'X,https://example.org,Europe/Berlin']


class LongWork(InNetwork):
    def refused(self, feed: str, what: str) -> None:
        """The feed is refused soon, by name, and nothing is written."""
        begun = time.monotonic()
        status, said = self.call(from_gtfs, feed, DATE, self.net)
        self.assertEqual(status, 2)
        self.assertIn(what, said)
        self.assertLess(time.monotonic() - begun, PATIENCE)
        self.assertFalse(os.path.exists(self.net))

    def feed(self, files: Mapping[str, File]) -> str:
        return write_feed(os.path.join(self.folder, 'feed'), {**SMALL, **files})

    def test_a_zip_file_of_empty_lines(self) -> None:
        name = os.path.join(self.folder, 'feed.zip')
        with zipfile.ZipFile(name, 'w', zipfile.ZIP_DEFLATED) as archive:
            for file, lines in SMALL.items():
                archive.writestr(file, ''.join(f'{line}\n' for line in lines))
            with archive.open('transfers.txt', 'w') as member:
                member.write(b'transfer_type\n')
                for _ in range(300):
                    member.write(b'\n' * 1_000_000)
        self.assertLess(os.path.getsize(name), 300_000)
        self.refused(name, 'feed.zip/transfers.txt: ')
        self.refused(name, ' bytes of the zip file would be 300000014 unpacked, which is more than 100 times as many, or than 4294967296')

    def test_a_file_of_empty_lines(self) -> None:
        with mock.patch('dispatch_tools.formats.gtfs_rows.MOST_EMPTY_ROWS', 1_000):
            self.refused(self.feed({'stops.txt': [*SMALL['stops.txt'], *[''] * 500, *[',,'] * 501]}),
                         'stops.txt, line 1005: more than 1000 rows of the file are empty')

    def test_frequencies_of_a_second(self) -> None:
        rows = ['r1,00:00:00,24:00:00,1'] * 20_000
        self.refused(self.feed({'frequencies.txt': [FREQUENCIES, *rows]}),
                     'frequencies.txt, line 4: column headway_secs: the frequencies so far make more than 200000 trains')

    def test_pairs_of_trains_that_frequencies_repeat(self) -> None:
        trips = trips_and_times('r1 R 0 - A 08:00 B 08:10', 'g1 G 0 - B 08:15 C 08:40')
        rows = [f'{trip},04:00:00,24:00:00,60' for trip in ('r1', 'g1')]
        transfers = ['from_stop_id,to_stop_id,from_trip_id,to_trip_id,transfer_type', 'B,B,r1,g1,1']
        self.refused(self.feed({**trips, 'frequencies.txt': [FREQUENCIES, *rows], 'transfers.txt': transfers}),
                     'the rows of transfers.txt for trips up to line 2 join more than 1000000 pairs of trains')

    def test_stops_one_in_another(self) -> None:
        stops = [f'{place},Stop,{place + 1}' for place in range(50_000)] + ['50000,Stop,']
        self.refused(self.feed({'stops.txt': [*SMALL['stops.txt'], *stops]}), 'column parent_station: more than 10 stops stand one in another')

    def test_a_connection_is_guaranteed_by_the_last_row_for_it(self) -> None:
        trips = trips_and_times('r1 R 0 - A 08:00 B 08:10', 'g1 G 0 - B 08:15 C 08:40')
        rows = ['B,B,r1,g1,1,60', 'B,B,r1,g1,1,120', 'A,B,r1,g1,1,60', 'A,B,r1,g1,2,60']
        head = 'from_stop_id,to_stop_id,from_trip_id,to_trip_id,transfer_type,min_transfer_time'
        net, said = self.made({**trips, 'transfers.txt': [head, *rows]})
        self.assertEqual(self.activities(net, 'change'), [('r1 B', 'g1 B', 120)])
        self.assertIn('besides: guaranteed connections: 1\n', said)


class Names(InNetwork):
    def test_an_at_within_a_trip_is_no_end_of_it(self) -> None:
        for trip in 'X', 'X@06:30:00', 'X@20261224', '@', 'a@b', 'a@@b', 'X@', '@@@20261224@06:30:00':
            for day, start in ('', ''), ('20261223', ''), ('', '06:30:00'), ('20261223', '125:10:00'):
                self.assertEqual(named_trip(name_of_trip(trip, day, start)), (trip, day, start))
            self.assertEqual(named_trip(name_of_next_day(name_of_trip(trip, '', '06:30:00'), '20261223')), (trip, '20261223', '06:30:00'))
        self.assertEqual((name_of_trip('X'), named_trip('a@b')), ('X', ('a@b', '', '')))

    def test_a_trip_with_an_at_goes_in_and_out_by_its_own_id(self) -> None:
        trips = trips_and_times('X@08:00:00 R 0 - A 08:00 B 08:10', 'g@1 G 0 - B 08:15 C 08:40')
        net, _ = self.made({**trips, 'agency.txt': AGENCY, 'frequencies.txt': [FREQUENCIES, 'g@1,08:55:00,09:00:00,300']})
        self.assertEqual([train.trip for train in read_trains(self.net)], ['X@@08:00:00', 'g@@1@08:55:00'])
        folder = write_feed(os.path.join(self.folder, 'run'), {'text': lines_of_run(net, [Now(28000)])})
        text, out, late = os.path.join(folder, 'text'), os.path.join(self.folder, 'out.pb'), os.path.join(self.folder, 'late')
        self.assertEqual(self.call(gtfs_rt_out, self.net, text, out), (0, ''))
        with open(out, 'rb') as file:
            self.assertEqual([one['trip_update']['trip'] for one in decode(file.read())['entity']], [
                {'trip_id': 'X@08:00:00', 'start_date': DATE, 'schedule_relationship': 0},
                {'trip_id': 'g@1', 'start_time': '08:55:00', 'start_date': DATE}])
        self.assertEqual(self.call(to_gtfs, self.net, text, late), (0, ''))
        self.assertEqual({line.split(',')[0] for line in read(late, 'stop_times.txt').splitlines()[1:]}, {'X@08:00:00', 'g@@1@08:55:00'})
        # 8:55:00 is a time as 08:55:00 is.
        update = {'trip': {'trip_id': 'g@1', 'start_time': '8:55:00'}, 'stop_time_update': [{'stop_sequence': 1, 'departure': {'delay': 60}}]}
        first = {'trip': {'trip_id': 'X@08:00:00'}, 'stop_time_update': [{'stop_sequence': 1, 'departure': {'delay': 120}}]}
        entity = [{'id': str(number), 'trip_update': one} for number, one in enumerate((update, first))]
        message = write_feed(os.path.join(self.folder, 'm'), {'1': encode({'header': {'timestamp': MIDNIGHT + 28000}, 'entity': entity})})
        feed = os.path.join(self.folder, 'lines')
        self.assertEqual(self.call(gtfs_rt_in, self.net, feed, os.path.join(message, '1'), '--replay'), (0, ''))
        events = {train.trip: train.event for train in read_trains(self.net)}
        self.assertEqual(sorted(read(feed).splitlines()), sorted([
            f'delay event {events["X@@08:00:00"]} 120', f'delay event {events["g@@1@08:55:00"]} 60', 'now 28000']))

    def test_names_do_not_turn_the_text_beside_them_round(self) -> None:
        stops = [SMALL['stops.txt'][0], 'A,\u202eAhl,', 'B,Bo\u2067ll,', 'C,Zu\u0308rich \u6771\u4eac \u05d0\u200f,']
        self.made({'stops.txt': stops, 'trips.txt': [SMALL['trips.txt'][0], 'R,S,r\u202e1,0,'],
                   'routes.txt': [SMALL['routes.txt'][0], 'R,R\u202eed,2'],
                   'stop_times.txt': [line.replace('r1,', 'r\u202e1,') for line in SMALL['stop_times.txt']]})
        self.assertEqual(list(read_stops(self.net).values()), ['\\u202eAhl', 'Bo\\u2067ll', 'Zu\u0308rich \u6771\u4eac \u05d0\u200f'])
        self.assertEqual((list(read_labels(self.net).values()), list(read_trips(self.net).values())), (['R\\u202eed 08:00'], ['r\\u202e1']))
        train, = read_trains(self.net)
        self.assertEqual((train.name, train.trip), ('R\\u202eed 08:00', 'r\u202e1'))
        self.assertEqual(shown('a\u202ab\u2069'), 'a\\u202ab\\u2069')


if __name__ == '__main__':
    unittest.main()
