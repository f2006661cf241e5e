"""Connections of a feed: what rows of transfers.txt say of which trains, guaranteed ones by name, vehicles that go on, other stretches."""
from __future__ import annotations

import contextlib
import io
import os
import unittest
from typing import Any, Sequence

from dispatch_tools.commands import find, from_gtfs
from dispatch_tools.dev.feeds import DATE, File, SHIPPED, SMALL, write_feed
from dispatch_tools.formats.giv import read_network
from dispatch_tools.model.network import Network
from dispatch_tools.model.railway import Rows, sound_times
from tests.folders import read
from tests.test_gtfs import InNetwork, PASSENGERS, trips_and_times

HEADING = 'from_stop_id,to_stop_id,from_trip_id,to_trip_id,from_route_id,to_route_id,transfer_type,min_transfer_time'
STOPS = [SMALL['stops.txt'][0], *(f'{stop},{name},' for stop, name in zip('ABCDEF', ('Ahl', 'Boll', 'Calm', 'Dorn', 'Elm', 'Fall')))]
TRIPS = [
    'r1 R 0 - A 08:00 B 08:10', 'g1 G 0 - B 08:14 D 08:30', 'g2 G 0 - B 08:18 D 08:34', 'g3 G 0 - B 08:22 D 08:38', 'g4 G 0 - B 08:26 D 08:42',
]


class Connections(InNetwork):
    def with_transfers(self, trips: Sequence[str], *rows: str, options: Sequence[str] = (), **files: Any) -> tuple[Network, str]:
        transfers = {'stops.txt': STOPS, 'transfers.txt': [HEADING, *rows]}
        net, said = self.made({**trips_and_times(*trips), **transfers, **files}, *options)
        self.assertEqual(sound_times(net, Rows(net)), [event.time for event in net.events])
        return net, said

    def changes(self, *rows: str, trips: Sequence[str] = TRIPS, options: Sequence[str] = (),
                **files: Any) -> tuple[list[tuple[str, str, int]], str]:
        net, said = self.with_transfers(trips, *rows, options=options, **files)
        return self.activities(net, 'change'), said


class Ranking(Connections):
    """Of the rows that are true of two trains the most special holds: for g1, g2 and g3 the change takes longer than there is time."""
    # Each row forbids or allows; those behind are more special.
    ROWS = [
        ('B,B,,,,,2,540', 'g3'), ('B,B,,,,G,2,720', 'g4'), ('B,B,,,R,,2,240', 'g1'), ('B,B,,,R,G,2,540', 'g3'), ('B,B,,g1,,,2,100', 'g1'),
        ('B,B,r1,,,,2,700', 'g3'), ('B,B,,g1,R,,2,800', 'g3'), ('B,B,r1,,,G,2,900', 'g4'), ('B,B,r1,g2,,,2,400', 'g2'),
    ]

    def test_rows_for_trips_and_routes_beat_those_for_stops(self) -> None:
        # What holds for each of g1..g4 with the first rows, worked out by hand: 180 is --change.
        # rows: 1 all 540 | 2 to G 720 | 3 from R 240 | 4 R>G 540 | 5 >g1 100 | 6 r1> 700 | 7 R>g1 800 | 8 r1>G 900 | 9 r1>g2 400
        due = [('g3', 540), ('g3', 720), ('g1', 240), ('g3', 540), ('g1', 100), ('g3', 700), ('g3', 700), ('g4', 900), ('g2', 400)]
        rows = [row for row, _ in self.ROWS]
        for count, (trip, least) in enumerate(due, 1):
            with self.subTest(rows[count - 1]):
                for order in rows[:count], rows[:count][::-1]:
                    self.assertEqual(self.changes(*order)[0], [('r1 B', f'{trip} B', least)])

    def test_rows_for_other_trips_say_nothing(self) -> None:
        self.assertEqual(self.changes('B,B,r9,,,,3,', 'B,B,,g9,,,3,', 'B,B,,,G,,3,')[0], [('r1 B', 'g1 B', 180)])

    def test_forbidden_ones_are_passed_over(self) -> None:
        self.assertEqual(self.changes('B,B,r1,g1,,,3,')[0], [('r1 B', 'g2 B', 180)])
        self.assertEqual(self.changes('B,B,,,R,G,3,')[0], [])

    def test_last_of_two_equal_rows_holds_and_is_told(self) -> None:
        changes, said = self.changes('B,B,r1,g3,,,1,', 'B,B,r1,g3,,,3,')
        self.assertEqual(changes, [('r1 B', 'g1 B', 180)])
        self.assertIn('left out: rows of transfers.txt for what a later row is for, too: 1 (first: transfers.txt, line 3)', said)

    def test_unknown_routes_are_told(self) -> None:
        feed = write_feed(os.path.join(self.folder, 'feed'), {**SMALL, 'transfers.txt': [HEADING, 'B,B,,,Q,,0,']})
        status, said = self.call(from_gtfs, feed, DATE, self.net)
        self.assertEqual(status, 2)
        self.assertIn('transfers.txt, line 2: column from_route_id: there is no route Q', said)


class Guaranteed(Connections):
    def rows(self) -> list[str]:
        return read(self.net, 'Changes.csv').splitlines()

    def test_has_its_weight_and_tells_where_it_came_from(self) -> None:
        changes, said = self.changes('B,B,r1,g2,,,1,')
        self.assertEqual(changes, [('r1 B', 'g2 B', 0)])
        self.assertIn('besides: guaranteed connections: 1', said)
        self.assertEqual(self.rows(), ['# id;from trip;to trip;stop;bound;weight;came from;to stop',
                                       '6;r1;g2;B;0;1;guaranteed: transfers.txt, line 2;B'])
        net, _ = self.with_transfers(TRIPS, 'B,B,r1,g2,,,1,', options=['--guaranteed=12.5'])
        self.assertEqual([one.weight for one in net.activities if one.kind == 'change'], [12500])

    def test_has_the_passengers_of_the_file(self) -> None:
        write_feed(os.path.join(self.folder, 'numbers'), {'p': ['trip_id,stop_id,number,to_trip_id', 'r1,B,40,', 'r1,B,7,g2', 'r1,B,9,g9']})
        options = [f'--passengers={self.folder}/numbers/p', '--guaranteed=3']
        net, said = self.with_transfers(TRIPS, 'B,B,r1,g2,,,1,', options=options)
        self.assertEqual([one.weight for one in net.activities if one.kind == 'change'], [7000])
        self.assertIn('left out: numbers of passengers of which no arrival is there: 1', said)

    def test_is_made_between_trains_of_one_route_and_after_a_long_time(self) -> None:
        trips = ['r1 R 0 - A 08:00 B 08:10', 'r2 R 0 - B 10:00 C 10:10', 'r3 R 1 - B 08:20 A 08:30']
        self.assertEqual(self.changes('B,B,r1,r2,,,1,60', 'B,B,r1,r3,,,1,', trips=trips)[0], [('r1 B', 'r2 B', 60), ('r1 B', 'r3 B', 0)])

    def test_never_asks_for_more_than_the_timetable_has(self) -> None:
        changes, said = self.changes('B,B,r1,g1,,,1,600')
        self.assertEqual(changes, [('r1 B', 'g1 B', 240)])
        self.assertIn('besides: guaranteed connections for which the timetable has less time than their min_transfer_time: 1', said)

    def test_is_told_where_the_trains_do_not_meet_or_do_not_run(self) -> None:
        changes, said = self.changes('D,B,g1,r1,,,1,', 'B,B,r1,x9,,,1,', 'C,C,r1,g2,,,1,')
        self.assertEqual(changes, [('r1 B', 'g1 B', 180)])
        self.assertIn('left out: guaranteed connections at which the trains do not meet, or are one vehicle: 2', said)
        self.assertIn('left out: rows of transfers.txt for trips that do not run, or are not chosen: 1', said)

    def test_leads_from_each_train_of_a_frequency_to_the_next_of_the_other(self) -> None:
        frequencies: dict[str, Any] = {'frequencies.txt': ['trip_id,start_time,end_time,headway_secs', 'r1,08:00:00,08:10:00,300']}
        changes, _ = self.changes('B,B,r1,g2,,,1,', **frequencies)
        self.assertEqual(changes, [('r1@08:00:00 B', 'g2 B', 0), ('r1@08:05:00 B', 'g2 B', 0)])


class OtherStations(Connections):
    TRIPS = ['r1 R 0 - A 08:00 B 08:10', 'g1 G 0 - C 08:12 D 08:20', 'g2 G 0 - C 08:20 D 08:30', 'g3 G 1 - B 08:30 E 08:40']

    def test_rows_between_them_make_changes(self) -> None:
        self.assertEqual(self.changes('B,C,,,,,2,300', trips=self.TRIPS)[0], [('r1 B', 'g3 B', 180), ('r1 B', 'g2 C', 300)])
        self.assertEqual(self.changes('B,C,,,,,3,', 'C,B,,,,,2,60', trips=self.TRIPS)[0], [('r1 B', 'g3 B', 180)])

    def test_rows_for_trips_hold_for_these_alone(self) -> None:
        trips = [*self.TRIPS, 'r2 R 0 - A 08:01 B 08:11']
        self.assertEqual(self.changes('B,C,r1,,,,2,120', trips=trips)[0], [
            ('r1 B', 'g3 B', 180), ('r1 B', 'g1 C', 120), ('r2 B', 'g3 B', 180)])

    def test_own_station_goes_before_another(self) -> None:
        trips = [*self.TRIPS[:3], 'g3 G 0 - B 08:25 D 08:40']
        self.assertEqual(self.changes('B,C,,,,,2,60', trips=trips)[0], [('r1 B', 'g3 B', 180)])

    def test_guaranteed_ones_are_locked_if_that_is_asked(self) -> None:
        net, _ = self.with_transfers(['r1 R 0 - A 08:00 B 08:10', 'g1 G 0 - B 08:15 D 08:30', 'g2 G 0 - B 08:17 E 08:34'], 'B,B,r1,g1,,,1,60',
                                     options=['--lock-guaranteed'])
        numbers = {ends: one.id for one, ends in zip((one for one in net.activities if one.kind == 'change'), self.activities(net, 'change'))}
        self.assertEqual(read(self.net, 'Locked.txt'), f"lock {numbers['r1 B', 'g1 B', 60]}\n")

    def test_guaranteed_one_leads_to_another_station(self) -> None:
        self.assertEqual(self.changes('B,C,r1,g1,,,1,90', trips=self.TRIPS)[0], [('r1 B', 'g1 C', 90), ('r1 B', 'g3 B', 180)])


class Vehicles(Connections):
    TRIPS = ['r1 R 0 - A 08:00 B 08:10', 'g1 G 0 - B 08:20 C 08:30', 'g2 G 0 - C 08:40 D 08:50']

    def test_go_on_with_passengers_or_without(self) -> None:
        net, said = self.with_transfers(self.TRIPS, ',,r1,g1,,,4,', ',,g1,g2,,,5,', ',,g2,r9,,,4,', ',,g1,r1,,,4,')
        self.assertEqual(self.activities(net, 'turnaround'), [('r1 B', 'g1 B', 30), ('g1 C', 'g2 C', 300)])
        self.assertEqual([one.weight for one in net.activities if one.kind == 'turnaround'], [1000, 0])
        self.assertEqual(self.activities(net, 'change'), [])
        for line in ('besides: turnarounds that passengers ride: 1', 'besides: turnarounds of linked trips at which all get out: 1',
                     'left out: rows of transfers.txt for trips that do not run, or are not chosen: 1',
                     'left out: in-seat transfers to trips that begin before the others end: 1'):
            self.assertIn(line, said)

    def test_are_one_turnaround_with_a_block(self) -> None:
        trips = ['r1 R 0 V A 08:00 B 08:10', 'g1 G 0 V B 08:20 C 08:30']
        net, _ = self.with_transfers(trips, ',,r1,g1,,,4,')
        self.assertEqual(self.activities(net, 'turnaround'), [('r1 B', 'g1 B', 30)])


class DayBefore(InNetwork):
    def test_trains_run_past_midnight(self) -> None:
        trips = trips_and_times('r1 R 0 V A 23:50 B 24:10 C 24:30 D 24:50', 'g1 G 0 V C 00:40 E 00:50', 'g2 G 0 - A 23:00 B 23:30')
        files: dict[str, File] = {**trips, 'stops.txt': STOPS, 'calendar_dates.txt': ['service_id,date,exception_type', 'S,20261223,1']}
        net, said = self.made(files, '--day-before')
        events = [line.split(';')[2:] for line in read(self.net, 'Events.csv').splitlines()[1:]]
        self.assertEqual(events[:4], [
            ['r1@20261223', '2', 'B', 'departure', '00:10:00'], ['r1@20261223', '3', 'C', 'arrival', '00:30:00'],
            ['r1@20261223', '3', 'C', 'departure', '00:30:00'], ['r1@20261223', '4', 'D', 'arrival', '00:50:00']])
        self.assertEqual(self.activities(net, 'change')[0], ('r1@20261223 C', 'g1 C', 180))
        self.assertIn('besides: trains of the service day before that run past midnight: 1', said)
        self.assertIn('left out: calls before midnight of trains of the service day before: 1', said)
        self.assertEqual(len(self.made(files)[0].events), 10)

    def night(self, *transfers: str) -> tuple[Network, str]:
        """A train that arrives in C at 23:50, one that leaves there at 0:12, both of the day before, and one of the day itself."""
        trips = trips_and_times('r1 R 0 - A 23:10 B 23:30 C 23:50', 'g1 G 0 - C 24:12 E 24:30', 'g2 G 0 - C 08:00 E 08:20', 'r2 R 0 - A 22:00 B 22:10')
        files: dict[str, File] = {**trips, 'stops.txt': STOPS, 'calendar_dates.txt': ['service_id,date,exception_type', 'S,20261223,1'],
                                  **({'transfers.txt': [HEADING, *transfers]} if transfers else {})}
        return self.made(files, '--day-before')

    def test_connections_over_midnight_are_made(self) -> None:
        for transfers, lower in ((), 180), (('C,C,r1,g1,,,1,240',), 240), (('C,C,r1,g1,,,1,',), 0):
            net, said = self.night(*transfers)
            self.assertIn(('r1@20261223 C', 'g1@20261223 C', lower), self.activities(net, 'change'))
            self.assertIn('besides: connections over midnight, from an arrival that stands at midnight: 1', said)
            self.assertEqual('guaranteed connections: 2' in said, bool(transfers))
            self.assertIn('besides: trains of the service day before that run past midnight: 1', said)
            self.assertEqual(self.activities(net, 'drive')[0], ('r1@20261223 B', 'r1@20261223 C', 0))
            self.assertNotIn('left out: calls before midnight', said)

    def test_a_guaranteed_one_may_take_longer_than_the_longest_change(self) -> None:
        trips = trips_and_times('r1 R 0 - A 21:10 B 21:30', 'g1 G 0 - B 24:12 E 24:30', 'g2 G 0 - C 08:00 E 08:20')
        files: dict[str, File] = {**trips, 'stops.txt': STOPS, 'calendar_dates.txt': ['service_id,date,exception_type', 'S,20261223,1'],
                                  'transfers.txt': [HEADING, 'B,B,r1,g1,,,1,60']}
        net, said = self.made(files, '--day-before')
        self.assertIn(('r1@20261223 B', 'g1@20261223 B', 60), self.activities(net, 'change'))
        self.assertNotIn('do not meet', said)

    def test_what_lies_before_midnight_stands_there_and_counts_nothing(self) -> None:
        net, _ = self.night()
        events = {tuple(line.split(';')[2:6]): (net.events[place], line.split(';')[6]) for place, line in enumerate(read(self.net, 'Events.csv').splitlines()[1:])}
        arrival, printed = events['r1@20261223', '3', 'C', 'arrival']
        self.assertEqual((arrival.time, arrival.weight, printed), (0, 0, '-00:10:00'))
        self.assertEqual([event.id for event in net.events], list(range(1, len(net.events) + 1)))
        self.assertNotIn('r2@20261223', {trip for trip, *_ in events})
        self.assertEqual(sound_times(net, Rows(net)), [event.time for event in net.events])
        self.assertIn(';Red 23:30;r1@20261223;', read(self.net, 'Trains.csv'))

    def test_a_change_that_the_timetable_has_no_longer_time_for_from_midnight_is_shorter(self) -> None:
        net, _ = self.night('C,C,r1,g1,,,1,1200')
        self.assertIn(('r1@20261223 C', 'g1@20261223 C', 720), self.activities(net, 'change'))

    def test_trains_of_a_day_before_without_service_are_none(self) -> None:
        files: dict[str, File] = {**trips_and_times('r1 R 0 - A 23:50 B 24:10 C 24:30'), 'calendar_dates.txt': ['service_id,date,exception_type', 'S,20261223,2']}
        self.assertEqual(len(self.made(files, '--day-before')[0].events), 4)


class Stretches(InNetwork):
    TRIPS = ['r1 R 0 - A 08:00 B 08:10 C 08:20', 'g1 G 0 - A 08:30 B 08:40 C 08:50']

    def headways(self, *lines: str) -> tuple[list[int], str]:
        write_feed(os.path.join(self.folder, f'h{len(os.listdir(self.folder))}'), {'h': ['from_stop_id,to_stop_id,seconds,type', *lines]})
        name = os.path.join(self.folder, f'h{len(os.listdir(self.folder)) - 1}', 'h')
        net, said = self.made(trips_and_times(*self.TRIPS), f'--headways={name}', '--headway=90')
        return [lower for _, _, lower in self.activities(net, 'headway')], said

    def test_have_headways_of_their_own(self) -> None:
        bounds, said = self.headways('A,B,240,')
        self.assertEqual(bounds, [240, 240, 90, 90])
        self.assertIn('besides: pairs of headways as --headways says: 1', said)

    def test_by_kind_of_vehicle(self) -> None:
        self.assertEqual(self.headways('A,B,240,', 'A,B,150,rail', ',,60,2', ',,400,bus')[0], [150, 150, 60, 60])

    def test_without_headways_are_told(self) -> None:
        bounds, said = self.headways('B,C,0,')
        self.assertEqual(bounds, [90, 90])
        self.assertIn('left out: stretches for which --headways says 0 seconds: 1', said)

    def test_broken_files_are_told(self) -> None:
        for line, what in ('A,X,60,', 'column to_stop_id:'), (',,60,', 'column type: neither stops'), ('A,B,60,boat', '"boat" is neither'), ('A,B,x,', 'column seconds'):
            with self.subTest(line):
                folder = write_feed(os.path.join(self.folder, f'f{len(os.listdir(self.folder))}'), {'h': ['from_stop_id,to_stop_id,seconds,type', line]})
                feed = write_feed(os.path.join(folder, 'feed'), SMALL)
                status, said = self.call(from_gtfs, feed, DATE, self.net, f'--headways={folder}/h')
                self.assertEqual(status, 2)
                self.assertIn(what, said)


class Branches(Connections):
    """Trains of one route from A and from D, which share the way from B to C."""
    TRIPS = ['r1 R 0 - A 08:00 B 08:10 C 08:20', 'r2 R 1 - C 08:05 B 08:15 D 08:25', 'r3 R 1 - C 08:25 B 08:35 D 08:45', 'r4 R 1 - C 08:10 B 08:20 A 08:30']

    def test_have_a_change_from_one_to_the_other(self) -> None:
        changes, said = self.changes(trips=self.TRIPS)
        self.assertEqual(changes, [('r1 B', 'r2 B', 180)])
        self.assertIn('besides: changes between branches of one route: 1', said)

    def test_of_more_stations_each_has_its_own(self) -> None:
        changes, _ = self.changes(trips=[*self.TRIPS, 'r5 R 1 - C 08:15 B 08:25 E 08:35'])
        self.assertEqual(changes, [('r1 B', 'r2 B', 180), ('r1 B', 'r5 B', 180)])

    def test_are_forbidden_by_rows_as_others_are(self) -> None:
        self.assertEqual(self.changes('B,B,r1,r2,,,3,', trips=self.TRIPS)[0], [('r1 B', 'r3 B', 180)])
        self.assertEqual(self.changes('B,B,,,R,R,3,', trips=self.TRIPS)[0], [])

    def test_parts_of_a_route_meet_unless_they_are_one_vehicle(self) -> None:
        self.assertEqual(self.changes(trips=['r1 R 0 - A 08:00 B 08:10', 'r2 R 0 - B 08:20 C 08:30'])[0], [('r1 B', 'r2 B', 180)])
        self.assertEqual(self.changes(trips=['r1 R 0 V A 08:00 B 08:10', 'r2 R 0 V B 08:20 C 08:30'])[0], [])


class SingleTrack(InNetwork):
    def pairs(self, *trips: Any, row: str = 'A,B,60', options: Sequence[str] = ('--no-headways',)) -> tuple[list[tuple[str, str, int]], str]:
        folder = write_feed(os.path.join(self.folder, f's{len(os.listdir(self.folder))}'), {'s': ['from_stop_id,to_stop_id,seconds', row]})
        net, said = self.made(trips_and_times(*trips), f'--single-track={folder}/s', *options)
        self.assertEqual(sound_times(net, Rows(net)), [event.time for event in net.events])
        self.assertEqual(len(net.pairs) * 2, len(self.activities(net, 'headway')))
        return self.activities(net, 'headway'), said

    def test_joins_trains_from_both_ends(self) -> None:
        # Ten minutes on the track, and one until it is clear; r2 needs twelve.
        pairs, said = self.pairs('r1 R 0 - A 08:00 B 08:10', 'r2 R 1 - B 08:20 A 08:32')
        self.assertEqual(pairs, [('r1 A', 'r2 B', 660), ('r2 B', 'r1 A', 780)])
        self.assertIn('besides: pairs on a single track, of trains that come from its two ends: 1', said)
        self.assertEqual(self.pairs('r1 R 0 - A 08:00 B 08:10', 'r2 R 1 - B 08:20 A 08:32', row='B,A,0')[0], [
            ('r1 A', 'r2 B', 600), ('r2 B', 'r1 A', 720)])

    def test_joins_each_with_the_last_before_and_the_first_behind(self) -> None:
        pairs, _ = self.pairs(
            'r1 R 0 - A 08:00 B 08:10', 'r2 R 0 - A 08:05 B 08:15', 'r3 R 1 - B 08:30 A 08:40', 'r4 R 1 - B 08:35 A 08:45', 'r5 R 0 - A 09:00 B 09:10')
        self.assertEqual([(one, other) for one, other, _ in pairs[::2]], [
            ('r1 A', 'r3 B'), ('r2 A', 'r3 B'), ('r2 A', 'r4 B'), ('r3 B', 'r5 A'), ('r4 B', 'r5 A')])

    def test_never_asks_for_more_than_the_timetable_has(self) -> None:
        pairs, said = self.pairs('r1 R 0 - A 08:00 B 08:10', 'r2 R 1 - B 08:07 A 08:17')
        self.assertEqual(pairs, [('r1 A', 'r2 B', 420), ('r2 B', 'r1 A', 660)])
        self.assertIn('besides: pairs on a single track for which the timetable has less time than the drive and --single-track: 1', said)

    def test_what_makes_no_pair_is_told(self) -> None:
        pairs, said = self.pairs('r1 R 0 - A 08:00 B 08:10', 'r2 R 1 - B 08:00 A 08:10')
        self.assertEqual(pairs, [])
        self.assertIn('left out: pairs on a single track of trains that leave at the same time: 1', said)
        pairs, said = self.pairs('r1 R 0 V A 08:00 B 08:10', 'r2 R 1 V B 08:20 A 08:30')
        self.assertEqual(pairs, [])
        self.assertIn('left out: pairs on a single track of two trips of one vehicle: 1', said)
        self.assertIn('left out: stretches of --single-track on which no train runs: 1', self.pairs('r1 R 0 - A 08:00 C 08:10')[1])

    def test_stands_beside_headways_of_one_direction(self) -> None:
        pairs, _ = self.pairs('r1 R 0 - A 08:00 B 08:10', 'r2 R 0 - A 08:30 B 08:40', 'r3 R 1 - B 08:15 A 08:25', options=())
        self.assertEqual(pairs[::2], [('r1 A', 'r2 A', 120), ('r1 A', 'r3 B', 660), ('r3 B', 'r2 A', 660)])

    def test_broken_files_are_told(self) -> None:
        for rows, what in ((['A,X,0'], 'column to_stop_id: '), (['A,A,0'], 'column to_stop_id: this is the station'), (['A,B,x'], 'column seconds'),
                           (['A,B,0', 'B,A,0'], 'line 3: column from_stop_id: this stretch stands twice')):
            with self.subTest(rows):
                folder = write_feed(os.path.join(self.folder, f'f{len(os.listdir(self.folder))}'), {'s': ['from_stop_id,to_stop_id,seconds', *rows]})
                feed = write_feed(os.path.join(folder, 'feed'), SMALL)
                status, said = self.call(from_gtfs, feed, DATE, self.net, f'--single-track={folder}/s')
                self.assertEqual(status, 2)
                self.assertIn(what, said)


class Find(InNetwork):
    def setUp(self) -> None:
        super().setUp()
        self.call(from_gtfs, SHIPPED, DATE, self.net, f'--passengers={PASSENGERS}')

    def found(self, *words: str) -> tuple[int, list[str]]:
        out = io.StringIO()
        with contextlib.redirect_stdout(out):
            status, _ = self.call(find, self.net, *words)
        return status, out.getvalue().splitlines()

    def test_by_route_train_or_trip_and_stop(self) -> None:
        line = ('36: RB 2 09:08 (west) arrives at Corben (CO-2) at 09:26:00, RE 1 09:10 (back) leaves CO-1 at 09:30:00; '
                '240 seconds, 6 passengers, transfers.txt, line 3')
        self.assertEqual(self.found('RB 2 09:08', 'RE 1', 'Corben'), (0, [line]))
        self.assertEqual(self.found('west', 'back', 'CO-2'), (0, [line]))
        self.assertEqual(self.found('west', 'back', '--line=drop'), (0, ['drop 36']))
        self.assertEqual(self.found('west', 'back', 'Birkfeld')[0], 1)

    def test_events_by_train_and_stop(self) -> None:
        # The trip `back` calls at Corben, from which it begins at 09:30, and `out` passes through there at 08:40 to 08:42.
        self.assertEqual(self.found('RE 1 09:10', '--at=corben', '--kind=departure'),
                         (0, ['25: RE 1 09:10 (back) leaves Corben (CO-1) at 09:30:00']))
        self.assertEqual(self.found('back', '--at', 'CO-1', '--kind', 'departure', '--late', '480'), (0, ['delay event 25 480']))
        names = [row.split(';') for row in read(self.net, 'Events.csv').splitlines()[1:]]
        due = [f'delay event {row[0]} 0' for row in names if row[2] == 'west']
        self.assertEqual(self.found('west', '--at', 'all', '--late', '0'), (0, due))
        self.assertEqual(self.found('west', '--at', 'Dornhalt')[0], 1)

    def test_words_that_do_not_go_together(self) -> None:
        for words in ('west',), ('west', 'back', '--at=Corben'), ('west', 'back', '--late=60'), ('west', '--at=Corben', '--line=drop'):
            with self.subTest(words), self.assertRaises(SystemExit), contextlib.redirect_stderr(io.StringIO()):
                find.main([self.net, *words])

    def test_all_of_two_routes(self) -> None:
        status, lines = self.found('RB 2', 'RE 1')
        trips = {tuple(row.split(';')[1:3]) for row in read(self.net, 'Changes.csv').splitlines()[1:]}
        due = [pair for pair in trips if pair[0] in ('east', 'west', 'noon') and pair[1] in ('out', 'back')]
        self.assertEqual((status, len(lines)), (0, len(due)))

    def test_numbers_are_those_of_the_network(self) -> None:
        net = read_network(self.net)
        rows = [row.split(';') for row in read(self.net, 'Changes.csv').splitlines()[1:]]
        self.assertEqual([int(row[0]) for row in rows], [one.id for one in net.activities if one.kind == 'change'])
        self.assertEqual([int(row[4]) for row in rows], [one.lower for one in net.activities if one.kind == 'change'])

    def test_network_without_names_is_told(self) -> None:
        os.remove(os.path.join(self.net, 'Changes.csv'))
        self.assertEqual(self.found('RB 2', 'RE 1')[0], 2)


if __name__ == '__main__':
    unittest.main()
