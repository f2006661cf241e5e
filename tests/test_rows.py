"""Rows of feeds that are odd: none is taken in silence, none refuses a feed that can do without it, and errors name their line."""
from __future__ import annotations

import os
import tracemalloc
import zipfile
from typing import Mapping
from unittest import mock

from dispatch_tools.commands import from_gtfs
from dispatch_tools.dev.feeds import DATE, File, lines_in, SMALL, write_feed
from dispatch_tools.formats.files import BadFile, in_one_line
from dispatch_tools.formats.names import read_trains
from tests.folders import read
from tests.test_gtfs import InNetwork, trips_and_times

FREQUENCIES = 'trip_id,start_time,end_time,headway_secs,exact_times'


class OddRows(InNetwork):
    def trips(self) -> list[str]:
        return [train.trip for train in read_trains(self.net)]

    def test_frequency_whose_end_is_not_behind_its_start(self) -> None:
        rows = ['r1,09:00:00,08:00:00,600,1', 'r1,10:00:00,10:31:00,1800,1', 'r1,12:00:00,12:00:00,600,1']
        _, said = self.made({'frequencies.txt': [FREQUENCIES, *rows]})
        self.assertEqual(self.trips(), ['r1@10:00:00', 'r1@10:30:00'])
        self.assertIn('left out: rows of frequencies.txt whose end is not behind their start: 2 (first: frequencies.txt, line 2)', said)

    def test_trip_that_only_repeats_and_never_does(self) -> None:
        files = trips_and_times('r1 R 0 - A 08:00 B 08:10', 'g1 G 0 - A 09:00 C 09:30')
        _, said = self.made({**files, 'frequencies.txt': [FREQUENCIES, 'r1,09:00:00,08:00:00,600,']})
        self.assertEqual(self.trips(), ['g1'])
        self.assertIn('left out: trips of frequencies.txt that never leave: 1', said)

    def test_exact_times_of_a_frequency(self) -> None:
        for exact, count in ('', 2), ('0', 2), ('1', 0):
            _, said = self.made({'frequencies.txt': [FREQUENCIES, f'r1,10:00:00,10:31:00,1800,{exact}']})
            self.assertEqual(self.trips(), ['r1@10:00:00', 'r1@10:30:00'])
            self.assertEqual(f'besides: trains of frequencies without exact times, which leave about so often: {count}' in said, count > 0, said)

    def test_trip_that_stands_beside_its_frequency(self) -> None:
        files = trips_and_times('r1 R 0 - A 08:00 B 08:10', 'r1@10:00:00 R 0 - A 10:00 B 10:20')
        net, said = self.made({**files, 'frequencies.txt': [FREQUENCIES, 'r1,10:00:00,10:31:00,1800,1']})
        self.assertEqual(self.trips(), ['r1@@10:00:00', 'r1@10:30:00'])
        self.assertEqual([event.time - 36000 for event in net.events], [0, 1200, 1800, 2400])
        self.assertIn('left out: trains of frequencies that are trips of the feed, too: 1', said)

    def test_nobody_arrives_where_nobody_may_leave(self) -> None:
        heading, *calls = SMALL['stop_times.txt']
        files = {'stop_times.txt': [f'{heading},drop_off_type', f'{calls[0]},0', f'{calls[1]},1', f'{calls[2]},3']}
        numbers = write_feed(os.path.join(self.folder, 'numbers'), {'p': ['trip_id,stop_id,number', 'r1,B,7', 'r1,C,5']})
        words: list[tuple[list[str], int]] = [([], 1000), ([f'--passengers={numbers}/p'], 5000)]
        for options, last in words:
            net, said = self.made(files, *options)
            self.assertEqual([event.weight for event in net.events], [0, 0, 0, last])
            self.assertIn('besides: arrivals where nobody may leave the train, which count as none: 1', said)
        self.assertIn('left out: numbers of passengers of which no arrival is there: 1', said)

    def test_number_of_a_stop_that_a_trip_calls_at_twice(self) -> None:
        files = trips_and_times('r1 R 0 - A 08:00 B 08:10 C 08:20 B 08:30', 'r2 R 0 - A 09:00 B 09:10')
        numbers = write_feed(os.path.join(self.folder, 'numbers'), {'p': ['trip_id,stop_id,number', 'r1,B,7', 'r1,C,5', 'r2,B,3']})
        net, said = self.made(files, f'--passengers={numbers}/p')
        self.assertEqual([event.weight for event in net.events if event.kind == 'arrival'], [7000, 5000, 0, 3000])
        self.assertIn('besides: arrivals at a stop where the trip has its number of passengers already, which count as none: 1', said)

    def test_trains_keep_no_headway_to_buses(self) -> None:
        routes = ['route_id,route_short_name,route_type', 'R,Red,2', 'G,Green,3', 'E,Express,101']
        files: dict[str, File] = {**trips_and_times('r1 R 0 - A 08:00 B 08:10', 'g1 G 0 - A 08:01 B 08:31', 'e1 E 0 - A 08:02 B 08:09',
                                   'g2 G 0 - A 08:03 B 08:33'), 'routes.txt': routes}
        net, _ = self.made(files, '--types=all')
        self.assertEqual(self.activities(net, 'headway'), [
            ('r1 A', 'e1 A', 120), ('e1 A', 'r1 A', 120), ('g1 A', 'g2 A', 120), ('g2 A', 'g1 A', 120),
        ])


class RowsLeftOut(InNetwork):
    def test_transfer_without_its_time(self) -> None:
        files = trips_and_times('r1 R 0 - A 08:00 B 08:10', 'g1 G 0 - B 08:14 C 08:30')
        transfers = ['from_stop_id,to_stop_id,transfer_type,min_transfer_time', 'A,A,2,60', 'B,B,2,', 'C,C,2,']
        net, said = self.made({**files, 'transfers.txt': transfers})
        self.assertEqual(self.activities(net, 'change'), [('r1 B', 'g1 B', 180)])
        self.assertIn('left out: rows of transfers.txt of type 2 without a min_transfer_time: 2 (first: transfers.txt, line 3)', said)

    def test_calls_of_flexible_services(self) -> None:
        files = trips_and_times('r1 R 0 - A 08:00 B 08:10 C 08:30')
        heading, *calls = lines_in(files, 'stop_times.txt')
        flexible = ['r1,,,,4,08:00:00,09:00:00', 'r1,,,C,5,08:00:00,09:00:00']
        files['stop_times.txt'] = [f'{heading},start_pickup_drop_off_window,end_pickup_drop_off_window', *calls[:1], *flexible, *calls[1:]]
        net, said = self.made(files)
        self.assertEqual([event.time - 28800 for event in net.events], [0, 600, 600, 1800])
        what = 'left out: calls of flexible services, without a stop or with a window of time: 2 (first: stop_times.txt, line 3)'
        self.assertIn(what, said)

    def test_first_rows_of_a_zip_file_and_of_a_folder_are_told_alike(self) -> None:
        files = {**SMALL, 'transfers.txt': ['from_stop_id,to_stop_id,transfer_type,min_transfer_time', 'A,B,2,']}
        folder = write_feed(os.path.join(self.folder, 'feed'), files)
        with zipfile.ZipFile(os.path.join(self.folder, 'feed.zip'), 'w') as archive:
            for name in os.listdir(folder):
                archive.write(os.path.join(folder, name), name)
        for feed in folder, f'{folder}.zip':
            self.assertIn('left out: rows of transfers.txt of type 2 without a min_transfer_time: 1 (first: transfers.txt, line 2)',
                          self.call(from_gtfs, feed, DATE, self.net)[1])


class LinesOfErrors(InNetwork):
    def said_of(self, files: Mapping[str, File]) -> str:
        """What is said of a feed that is refused."""
        feed = write_feed(os.path.join(self.folder, f'feed{len(os.listdir(self.folder))}'), {**SMALL, **files})
        status, said = self.call(from_gtfs, feed, DATE, self.net)
        self.assertEqual((status, said.count('\n')), (2, 1))
        return said

    def test_times_that_fall_over_a_call_without_times(self) -> None:
        heading, first, _, _ = SMALL['stop_times.txt']
        said = self.said_of({'stop_times.txt': [heading, first, 'r1,,,B,2', 'r1,07:30:00,07:30:00,C,3']})
        self.assertIn('stop_times.txt, line 4: column arrival_time: 07:30:00 is before 08:00:00 of line 2', said)

    def test_quote_that_does_not_close(self) -> None:
        stops = [f'{name},Place,' for name in 'DEFGHIJK']
        said = self.said_of({'stops.txt': [*SMALL['stops.txt'], 'X,"Place,', *stops]})
        self.assertIn('stops.txt, line 5: a quote opens in this record and does not close\n', said)
        said = self.said_of({'stops.txt': [*SMALL['stops.txt'], 'X,"Place,', *stops * 5000]})
        self.assertIn('stops.txt, line 5: this is no record, or a quote in it does not close', said)
        said = self.said_of({'stops.txt': [*SMALL['stops.txt'], 'X,"Place,', *stops, 'Y,"Place",', 'Z,"Place",a,b']})
        self.assertIn('stops.txt, line 5: ', said)

    def test_a_record_of_two_lines_is_told_by_its_first(self) -> None:
        self.assertIn('stops.txt, line 5: 4 fields, and 3 columns', self.said_of({'stops.txt': [*SMALL['stops.txt'], 'X,"a', 'b",,z']}))
        self.made({'stops.txt': [*SMALL['stops.txt'], 'X,"a', 'b",']})
        said = self.said_of({'stops.txt': [*SMALL['stops.txt'], 'X,"a', 'b",', 'X,,']})
        self.assertIn('stops.txt, line 7: column stop_id: stop X stands twice', said)

    def test_what_is_said_is_short_and_without_controls(self) -> None:
        said = self.said_of({'routes.txt': ['route_id,route_type', f'R,{"x" * 5000}']})
        self.assertRegex(said, r'routes.txt, line 2: column route_type: "x+ \.\. x+" is no whole number\n$')
        self.assertLess(len(said), 500)
        said = self.said_of({'routes.txt': ['route_id,route_type', 'R,\x1b[2J\x07']})
        self.assertIn(r'"\x1b[2J\x07" is no whole number', said)
        self.assertEqual(str(BadFile('a\nb', None, 'Zürich\u2028')), r'a\nb: Zürich\u2028')
        self.assertEqual(in_one_line('a' * 300), 'a' * 300)

    def test_a_zip_file_of_one_long_line_takes_little_memory(self) -> None:
        feed = os.path.join(self.folder, 'feed.zip')
        with zipfile.ZipFile(feed, 'w', zipfile.ZIP_DEFLATED) as archive:
            for name, lines in SMALL.items():
                archive.writestr(name, '\n'.join(lines) if name != 'stops.txt' else b'x' * (48 << 20))
        self.assertLess(os.path.getsize(feed), 100_000)
        tracemalloc.start()
        with mock.patch('dispatch_tools.formats.gtfs_rows.MOST_UNPACKED', 10_000):
            status, said = self.call(from_gtfs, feed, DATE, self.net)
        _, most = tracemalloc.get_traced_memory()
        tracemalloc.stop()
        self.assertEqual(status, 2)
        self.assertIn('stops.txt, line 1: a record of more than 1000000 characters begins here', said)
        self.assertLess(most, 16 << 20)

    def test_names_with_line_ends_and_quotes_stand_in_one_line_of_their_table(self) -> None:
        self.made({'stops.txt': [*SMALL['stops.txt'][:2], 'B,"Boll\n""Nord""; 2",', SMALL['stops.txt'][3]]})
        self.assertIn('2;"Boll ""Nord""; 2"\n', read(self.net, 'Stops.csv'))
