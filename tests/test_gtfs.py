"""Networks of feeds: what becomes of a service day, what is said of the rest, and how broken feeds are reported."""
from __future__ import annotations

import os
import re
import time
import unittest
from collections import Counter
from typing import Any, Mapping, Sequence
from unittest import mock

from dispatch_tools.commands import from_gtfs, to_gtfs
from dispatch_tools.days.trains import Limits
from dispatch_tools.dev.feeds import DATE, EXAMPLE, File, large_feed, lines_in, SHIPPED, SMALL, write_feed, zipped
from dispatch_tools.formats.giv import read_network
from dispatch_tools.formats.names import read_events, read_labels, read_stops, read_trains
from dispatch_tools.model.network import Network
from dispatch_tools.model.railway import cost_of, Rows, sound_times
from dispatch_tools.pictures.diagram import drawing
from dispatch_tools.pictures.scene import read_scene
from tests.folders import InFolder, read
from tests.patience import PATIENCE
from tests.samples import CASES, lines_of_run, network, text, TOP

NET_FILES = ['Activities-expanded.giv', 'Events-expanded.giv', 'Events.csv', 'Stops.csv', 'Trains.csv']
SAID = [
    '2026-12-24: trains 8 (2 by frequencies), routes 4',
    'stations 6, events 36, activities 51: drives 18, waits 10, turnarounds 1, changes 8, headways 14', 'changes at Corben: 7',
    'changes at Birkfeld: 1', 'left out: trips that do not run on the day: 1',
    'besides: guaranteed connections: 1',
]
PASSENGERS = os.path.join(EXAMPLE, 'passengers.csv')


class InNetwork(InFolder):
    def made(self, files: Mapping[str, File], *options: str, date: str = DATE) -> tuple[Network, str]:
        """The network of a small feed with some of its files replaced, and what is said of it."""
        feed = write_feed(os.path.join(self.folder, f'feed{len(os.listdir(self.folder))}'), {**SMALL, **files})
        status, said = self.call(from_gtfs, feed, date, self.net, *options)
        self.assertEqual(status, 0, said)
        return read_network(self.net), said

    def activities(self, net: Network, kind: str) -> list[tuple[str, str, int]]:
        """The activities of a kind: the trips and stops that they join, and their bounds."""
        names = {name.event: f'{name.trip} {name.stop}' for name in read_events(self.net)}
        return [(names[one.tail], names[one.head], one.lower) for one in net.activities if one.kind == kind]


def trips_and_times(*trips: Any) -> dict[str, File]:
    """The files of trips, each written as NAME ROUTE DIRECTION BLOCK and then STOP TIME for each call; `-` for no block."""
    trip_lines, time_lines = [SMALL['trips.txt'][0]], [SMALL['stop_times.txt'][0]]
    for trip in trips:
        name, route, direction, block, *calls = trip.split()
        trip_lines.append(f'{route},S,{name},{direction},{block.strip("-")}')
        for sequence, (stop, at) in enumerate(zip(calls[::2], calls[1::2]), 1):
            time_lines.append(f'{name},{at}:00,{at}:00,{stop},{sequence}')
    return {'trips.txt': trip_lines, 'stop_times.txt': time_lines}


class ShippedFeed(InNetwork):
    def test_makes_the_stored_network(self) -> None:
        sources = [SHIPPED, zipped(SHIPPED, os.path.join(self.folder, 'a.zip'))]
        sources.append(zipped(SHIPPED, os.path.join(self.folder, 'b.zip'), 'six/'))
        for source in sources:
            status, said = self.call(from_gtfs, source, '2026-12-24', self.net, f'--passengers={PASSENGERS}')
            self.assertEqual(status, 0, said)
            self.assertEqual(sorted(os.listdir(self.net)), sorted([*NET_FILES, 'Changes.csv', 'Day.csv']))
            self.assertEqual(read(self.net, 'Day.csv'), '# day;zone\n2026-12-24;Europe/Berlin\n')
            for name in NET_FILES:
                self.assertEqual(read(self.net, name), read(network('six_stations'), name), name)
        self.assertEqual(said.splitlines(), SAID)

    def test_its_run_is_a_case_of_the_gate(self) -> None:
        for name, case in ('feed', ('six_stations_planned', 'f')), ('text', ('six_stations_planned', 'text')):
            self.assertEqual(read(EXAMPLE, name), read(CASES, 'runs', *case))
        self.assertEqual(read(EXAMPLE, 'text'), read(CASES, 'runs', 'six_stations_checked', 't'))

    def test_its_picture_is_that_of_the_plan(self) -> None:
        scene = read_scene(network('six_stations'), text('six_stations_planned'))
        self.assertEqual(read(EXAMPLE, 'picture.svg'), '\n'.join(drawing(scene, [1, 2, 3, 4], 28800, 37200)) + '\n')

    def test_runs_on_a_workday_without_the_train_of_holidays(self) -> None:
        status, said = self.call(from_gtfs, SHIPPED, '20261223', self.net)
        self.assertEqual(status, 0, said)
        trips = [train.trip for train in read_trains(self.net)]
        self.assertIn('early', trips)
        self.assertNotIn('noon', trips)

    def test_another_day_has_no_train(self) -> None:
        status, said = self.call(from_gtfs, SHIPPED, '20270201', self.net)
        self.assertEqual(status, 2)
        self.assertIn('has no train on 2027-02-01 that is chosen: 0 services run then, and its dates go from 2026-12-01 to 2027-01-31', said)

    def test_the_page_shows_what_comes_out(self) -> None:
        self.assertEqual(self.call(from_gtfs, SHIPPED, DATE, self.net, f'--passengers={PASSENGERS}')[1].splitlines(), SAID)
        self.assertEqual(self.call(to_gtfs, self.net, text('six_stations_planned'), self.net), (0, ''))
        names = ['Events.csv', 'Trains.csv', 'Stops.csv', 'stop_times.txt', 'delays.csv', 'Activities-expanded.giv']
        lines = {*SAID, *read(EXAMPLE, 'feed').splitlines(), *read(EXAMPLE, 'text').splitlines()}
        lines.update(line for name in names for line in read(self.net, name).splitlines())
        page = read(TOP, 'docs', 'GTFS.md')
        # What other commands print there is compared by `dispatch-tools docs`.
        blocks = [block.splitlines() for block in re.findall('```text\n(.*?)```', page, re.DOTALL) if '-->' not in block]
        shown = [line for block in blocks if lines.intersection(block) for line in block]
        self.assertGreater(len(shown), 15)
        self.assertEqual([line for line in shown if line not in lines and not line.startswith('from_gtfs: ')], [])

    def test_numbers_tell_their_names(self) -> None:
        folder = network('six_stations')
        self.assertEqual(read_stops(folder)[3], 'Corben')
        self.assertEqual(read_labels(folder)[11], 'S 3 08:25')
        night = [name for name in read_events(folder) if name.trip == 'night']
        self.assertEqual([(name.stop, name.time) for name in night], [
            ('DO', '23:40:00'), ('CO-1', '24:00:00'), ('CO-1', '24:02:00'), ('AR', '24:45:00'),
        ])


class Events(InNetwork):
    def test_times_between_stops_with_times_are_spread(self) -> None:
        times = SMALL['stop_times.txt']
        net, said = self.made({'stop_times.txt': [*times[:2], 'r1,,,B,2', times[3]]})
        self.assertEqual([event.time - 28800 for event in net.events], [0, 900, 900, 1800])
        self.assertIn('besides: times between two stops with times, spread evenly: 1', said)

    def test_calls_stand_in_the_order_of_their_sequence(self) -> None:
        times = SMALL['stop_times.txt']
        net, _ = self.made({'stop_times.txt': [times[0], *reversed(times[1:])]})
        self.assertEqual([event.time - 28800 for event in net.events], [0, 600, 660, 1800])

    def test_frequencies_are_rolled_out_before_their_end(self) -> None:
        frequencies = ['trip_id,start_time,end_time,headway_secs', 'r1,23:00:00,24:30:00,1800', 'r1,24:00:00,24:10:00,600']
        net, said = self.made({'frequencies.txt': frequencies})
        self.assertEqual([train.trip for train in read_trains(self.net)], ['r1@23:00:00', 'r1@23:30:00', 'r1@24:00:00'])
        self.assertEqual(net.events[-1].time, 24 * 3600 + 1800)
        self.assertIn('left out: trains that two frequencies make at the same time: 1', said)

    def test_passengers_are_those_of_the_file(self) -> None:
        numbers = os.path.join(self.folder, 'numbers')
        write_feed(numbers, {'p': ['trip_id,stop_id,number', 'r1,C,12.5', 'r1,A,3']})
        net, said = self.made({}, f'--passengers={numbers}/p')
        self.assertEqual([event.weight for event in net.events], [0, 0, 0, 12500])
        self.assertIn('besides: arrivals without a number of passengers, which count as none: 1', said)
        self.assertIn('left out: numbers of passengers of which no arrival is there: 1', said)

    def test_trips_of_unknown_services_are_told(self) -> None:
        trips = [*SMALL['trips.txt'], 'R,X,r9,0,']
        self.assertIn('left out: trips of services that no calendar names: 1', self.made({'trips.txt': trips})[1])

    def test_trains_are_chosen_by_time_and_route(self) -> None:
        files = trips_and_times(
            'r1 R 0 - A 08:00 B 08:10', 'r2 R 0 - A 09:00 B 09:10', 'g1 G 0 - A 09:00 C 09:30',
        )
        _, said = self.made(files, '--from=08:05', '--to=08:30')
        self.assertEqual([train.trip for train in read_trains(self.net)], ['r1'])
        self.assertIn('left out: trains outside of --from and --to: 2', said)
        self.made(files, '--routes=Green')
        self.assertEqual([train.trip for train in read_trains(self.net)], ['g1'])


class Activities(InNetwork):
    def test_drives_have_a_reserve_and_waits_a_longest_bound(self) -> None:
        net, _ = self.made({}, '--reserve=7.5%', '--dwell=45')
        self.assertEqual(self.activities(net, 'drive'), [('r1 A', 'r1 B', 555), ('r1 B', 'r1 C', 1055)])
        self.assertEqual(self.activities(net, 'wait'), [('r1 B', 'r1 B', 45)])
        net, _ = self.made({}, '--dwell=90')
        self.assertEqual(self.activities(net, 'wait'), [('r1 B', 'r1 B', 60)])

    def test_turnarounds_join_the_trips_of_a_block(self) -> None:
        net, said = self.made(trips_and_times(
            'r2 R 1 V C 08:33 A 09:00', 'r1 R 0 V A 08:00 C 08:30', 'g1 G 0 V A 09:10 B 09:20', 'g2 G 0 V C 09:30 B 09:40',
            'g3 G 0 V C 09:35 B 09:50',
        ))
        self.assertEqual(self.activities(net, 'turnaround'), [
            ('r1 C', 'r2 C', 180), ('r2 A', 'g1 A', 300), ('g1 B', 'g2 C', 300),
        ])
        self.assertIn('left out: turnarounds between trips of a block that overlap: 1', said)
        self.assertIn('besides: turnarounds that lead from one station to another: 1', said)
        self.assertIn('besides: turnarounds for which the timetable has less time than --turn: 1', said)

    def changes(self, options: Sequence[str], *trips: Any, **files: Any) -> tuple[list[tuple[str, str, int]], str]:
        net, said = self.made({**trips_and_times(*trips), **files}, *options)
        return self.activities(net, 'change'), said

    def test_changes_lead_to_the_next_train_that_is_reached(self) -> None:
        red = 'r1 R 0 - A 08:00 B 08:10 C 08:30'
        greens = [f'g{m} G 0 - B 08:{m} D 08:{m + 9}' for m in (12, 13, 14)]
        stops = {'stops.txt': [*SMALL['stops.txt'], 'D,Dorn,']}
        self.assertEqual(self.changes([], red, *greens, **stops)[0], [('r1 B', 'g13 B', 180)])
        self.assertEqual(self.changes(['--change=181'], red, *greens, **stops)[0], [('r1 B', 'g14 B', 181)])
        self.assertEqual(self.changes(['--change=0', '--longest-change=119'], red, *greens, **stops)[0], [])

    def test_changes_lead_to_both_directions_of_another_route(self) -> None:
        changes, _ = self.changes(
            [], 'r1 R 0 - A 08:00 B 08:10', 'g1 G 0 - B 08:20 C 08:30',
            'g2 G 1 - B 08:25 D 08:35', 'r2 R 0 - A 08:05 B 08:15 C 08:25',
            **{'stops.txt': [*SMALL['stops.txt'], 'D,Dorn,']},
        )
        due = [('r1 B', 'g1 B', 180), ('r1 B', 'g2 B', 180), ('r2 B', 'g1 B', 180), ('r2 B', 'g2 B', 180)]
        self.assertEqual(changes, due)

    def test_changes_never_lead_back(self) -> None:
        changes, _ = self.changes(
            [], 'r1 R 0 V A 08:00 B 08:10', 'r2 R 1 - B 08:20 A 08:30',
            'g1 G 0 - B 08:20 A 08:30', 'g2 G 1 V B 08:21 C 08:30',
        )
        self.assertEqual(changes, [])

    def test_changes_are_made_between_the_stops_of_a_station_as_transfers_say(self) -> None:
        trips = ['r1 R 0 - A 08:00 B1 08:10', 'g1 G 0 - B2 08:14 C 08:30', 'g2 G 0 - B3 08:16 C 08:30']
        stops = ['A,Ahl,', 'B,Boll,', 'B1,Boll 1,B', 'B2,Boll 2,B', 'B3,Boll 3,B', 'C,Calm,']
        files = {'stops.txt': [SMALL['stops.txt'][0], *stops]}
        heading = 'from_stop_id,to_stop_id,transfer_type,min_transfer_time,from_trip_id'

        def with_transfers(*lines: str) -> tuple[list[tuple[str, str, int]], str]:
            return self.changes([], *trips, **files, **{'transfers.txt': [heading, *lines]})
        self.assertEqual(with_transfers()[0], [('r1 B1', 'g1 B2', 180)])
        self.assertEqual(with_transfers('B1,B2,2,300,')[0], [('r1 B1', 'g2 B3', 180)])
        self.assertEqual(with_transfers('B,B,2,360,', 'B1,B2,2,240,')[0], [('r1 B1', 'g1 B2', 240)])
        self.assertEqual(with_transfers('B,B,2,360,')[0], [('r1 B1', 'g2 B3', 360)])
        self.assertEqual(with_transfers('B1,B,3,,')[0], [])
        self.assertEqual(with_transfers('B,B2,1,,')[0], [('r1 B1', 'g1 B2', 0)])
        changes, _ = with_transfers('B1,B2,2,900,r1', 'A,C,2,100,')
        self.assertEqual(changes, [('r1 B1', 'g2 B3', 180)])

    def test_nobody_changes_where_passengers_may_not_leave_or_board(self) -> None:
        files = trips_and_times('r1 R 0 - A 08:00 B 08:10', 'g1 G 0 - B 08:20 C 08:30')
        heading, *calls = lines_in(files, 'stop_times.txt')
        for column, trip in ('drop_off_type', 'r1'), ('pickup_type', 'g1'):
            lines = [f'{line},{int(line.startswith(trip))}' for line in calls]
            net, _ = self.made({**files, 'stop_times.txt': [f'{heading},{column}', *lines]})
            self.assertEqual(self.activities(net, 'change'), [])

    def test_trains_that_would_wait_for_each_other_do_not(self) -> None:
        changes, said = self.changes(
            ['--change=0'], 'r1 R 0 - A 08:00 B 08:10 D 08:10 C 08:10 A 08:20',
            'g1 G 0 - A 08:00 C 08:10 E 08:10 B 08:10 F 08:20',
            **{'stops.txt': [*SMALL['stops.txt'], 'D,Dorn,', 'E,Elm,', 'F,Fall,']},
        )
        self.assertEqual(len(changes), 2)
        self.assertIn('left out: changes without time between trains that would wait for each other: 1', said)

    def test_headways_are_pairs_of_trains_that_follow_each_other(self) -> None:
        trips = [
            'r1 R 0 - A 08:00 B 08:10', 'g1 G 0 - A 08:01 B 08:09', 'r2 R 0 - A 08:30 B 08:40', 'g2 G 0 - A 08:30 B 08:40',
            'r3 R 1 - B 08:02 A 08:12',
        ]
        net, said = self.made(trips_and_times(*trips))
        self.assertEqual(self.activities(net, 'headway'), [
            ('r1 A', 'g1 A', 60), ('g1 A', 'r1 A', 60), ('g1 A', 'g2 A', 120), ('g2 A', 'g1 A', 120),
        ])
        self.assertEqual(len(net.pairs), 2)
        self.assertIn('left out: headways between departures at the same time: 1', said)
        self.assertIn('besides: headways for which the timetable has less time than --headway: 1', said)
        net, _ = self.made(trips_and_times(*trips), '--no-headways')
        self.assertEqual(self.activities(net, 'headway'), [])


class LargeFeeds(InNetwork):
    def test_two_thousand_trips_are_read_soon_and_meet_their_own_bounds(self) -> None:
        feed = write_feed(os.path.join(self.folder, 'feed'), large_feed(2000))
        archive = zipped(feed, os.path.join(self.folder, 'feed.zip'))
        began = time.process_time()
        status, said = self.call(from_gtfs, archive, DATE, self.net)
        self.assertLess(time.process_time() - began, PATIENCE)
        self.assertEqual(status, 0, said)
        net = read_network(self.net)
        kinds = Counter(activity.kind for activity in net.activities)
        self.assertEqual(len(net.events), 2000 * 38)
        self.assertTrue(all(kinds[kind] > 1000 for kind in ('drive', 'wait', 'turnaround', 'change', 'headway')), kinds)
        times = sound_times(net, Rows(net))
        self.assertEqual(times, [event.time for event in net.events])
        self.assertEqual(cost_of(net, Rows(net), times, 3600), 0)

    def test_too_many_events_are_refused(self) -> None:
        every_second = ['trip_id,start_time,end_time,headway_secs', 'r1,00:00:00,24:00:00,1']
        feed = write_feed(os.path.join(self.folder, 'feed'), {**SMALL, 'frequencies.txt': every_second})
        status, said = self.call(from_gtfs, feed, DATE, self.net)
        self.assertEqual(status, 2)
        self.assertRegex(said, '^from_gtfs: the network would have 345600 events, and may have 100000: .*--routes= .*R 345600.*--from=')
        self.assertFalse(os.path.exists(self.net))
        status, said = self.call(from_gtfs, feed, DATE, self.net, '--from=08:00', '--to=08:10', '--no-headways')
        self.assertEqual(status, 0, said)
        self.assertEqual(len(read_trains(self.net)), 2401)

    def test_too_many_activities_are_refused(self) -> None:
        feed = write_feed(os.path.join(self.folder, 'feed'), SMALL)
        with mock.patch('dispatch_tools.commands.from_gtfs.PROGRAM', Limits(activities=2)):
            status, said = self.call(from_gtfs, feed, DATE, self.net)
        self.assertEqual(status, 2)
        self.assertIn('the network would have more than 2 activities: leave out changes by a shorter --longest-change=', said)
        self.assertFalse(os.path.exists(self.net))


# What makes the small feed a broken one: its files, what is said, and options.
BROKEN: list[tuple[dict[str, File], str]] = [
    ({'stops.txt': None}, 'stops.txt: there is no such file'),
    ({'stops.txt': ['stop_name', 'Ahl']}, 'stops.txt, line 1: there is no column stop_id'),
    ({'stops.txt': ['stop_id,stop_id', 'A,A']}, 'stops.txt, line 1: column stop_id stands twice'),
    ({'stops.txt': ['stop_id,stop_name', 'A,Ahl', 'A,Ahl']}, 'stops.txt, line 3: column stop_id: stop A stands twice'),
    ({'stops.txt': ['stop_id', 'A', 'B,Boll']}, 'stops.txt, line 3: 2 fields, and 1 columns'),
    ({'stops.txt': ['stop_id,parent_station', 'A,X']}, 'stops.txt, line 2: column parent_station: there is no stop X'),
    ({'stops.txt': ['stop_id,parent_station', 'A,B', 'B,A']}, 'column parent_station: A is a parent of itself'),
    ({'stops.txt': b'stop_id,stop_name\nA,\xff\n'}, 'stops.txt, line 2: column stop_name: this is not in UTF-8'),
    ({'routes.txt': ['route_id,route_type', 'R,rail']}, 'routes.txt, line 2: column route_type: "rail" is no whole number'),
    ({'routes.txt': ['route_id,route_type', 'R,2', 'R,2']}, 'routes.txt, line 3: column route_id: route R stands twice'),
    ({'calendar.txt': None}, 'there is neither calendar.txt nor calendar_dates.txt'),
    ({'calendar.txt': [SMALL['calendar.txt'][0], 'S,1,1,1,2,1,1,1,20260101,20261231']}, 'column thursday: 2 is above 1'),
    ({'calendar.txt': [SMALL['calendar.txt'][0], 'S,1,1,1,1,1,1,1,20260101,20261331']}, 'column end_date: "20261331" is no date'),
    ({'calendar_dates.txt': ['service_id,date,exception_type', 'S,20261224,0']}, 'line 2: column exception_type: 0 is neither 1 nor 2'),
    ({'trips.txt': ['route_id,service_id,trip_id', 'Q,S,r1']}, 'trips.txt, line 2: column route_id: there is no route Q'),
    ({'trips.txt': ['route_id,service_id,trip_id', 'R,S,r1', 'R,S,r1']}, 'trips.txt, line 3: column trip_id: trip r1 stands twice'),
    ({'trips.txt': ['route_id,service_id,trip_id', 'R,X,r1']}, 'has no train on 2026-12-24 that is chosen: 1 services run then, and its dates go from 2026-01-01 to 2026-12-31'),
    ({'frequencies.txt': ['trip_id,start_time,end_time,headway_secs', 'r1,08:00:00,,600']}, 'column end_time: nothing stands here'),
    ({'frequencies.txt': ['trip_id,start_time,end_time,headway_secs', 'r1,08:00:00,09:00:00,0']}, 'column headway_secs: 0 is no time'),
    ({'transfers.txt': ['from_stop_id,to_stop_id,transfer_type', 'A,X,0']}, 'line 2: column to_stop_id: there is no stop X'),
    ({'transfers.txt': ['from_stop_id,to_stop_id,transfer_type,min_transfer_time', 'A,A,2,x']}, 'line 2: column min_transfer_time: "x" is no whole number'),
    ({'frequencies.txt': ['trip_id,start_time,end_time,headway_secs,exact_times', 'r1,08:00:00,09:00:00,600,2']}, 'line 2: column exact_times: 2 is above 1'),
]

# What breaks the line of the second stop.
BROKEN_CALLS = [
    ('r1,8:1:00,08:11:00,B,2', 'column arrival_time: "8:1:00" is no time'),
    ('r1,08:10:00,278:00:00,B,2', 'column departure_time: 278:00:00 is not before 277:46:40'),
    ('r1,08:10:00,08:09:00,B,2', 'column departure_time: 08:09:00 is before the arrival at 08:10:00'),
    ('r1,07:50:00,08:09:00,B,2', 'column arrival_time: 07:50:00 is before 08:00:00'),
    ('r1,08:10:00,08:11:00,X,2', 'column stop_id: there is no stop X'),
    ('r1,08:10:00,08:11:00,B,x', 'column stop_sequence: "x" is no whole number'),
    (f'r1,08:10:00,08:11:00,B,{"9" * 5000}', 'column stop_sequence: 9999'),
    ('r1,08:10:00,08:11:00,B,1', 'column stop_sequence: 1 stands twice in the trip'),
    ('r9,08:10:00,08:11:00,B,2', 'column trip_id: there is no trip r9'),
    ('r1,,,B,0', 'column arrival_time: the first and the last stop of a trip need a time'),
]

BROKEN_WORDS: list[tuple[str, list[str], str]] = [
    ('20261301', [], 'argument DATE: "20261301" is no date'), (DATE, ['--reserve=101%'], '"101%" is no share from 0% to 100%'),
    (DATE, ['--headway=0'], '"0" is no whole number from 1 to 1000000'), (DATE, ['--types=trains'], '"trains" is neither all'),
    (DATE, ['--from=8'], '"8" is no time, as 06:30'), (DATE, ['--routes=Blue'], 'has no route Blue'),
    (DATE, ['--types=bus'], 'no route is chosen by --types and --routes; the feed has 2 of type 2'),
    (DATE, ['--passengers=nowhere'], 'nowhere: No such file or directory'),
]


class BrokenFeeds(InNetwork):
    def refused(self, feed: str, what: str, *options: str, date: str = DATE) -> None:
        status, said = self.call(from_gtfs, feed, date, self.net, *options)
        self.assertEqual(status, 2)
        self.assertIn(what, said)
        self.assertFalse(os.path.exists(self.net))

    def test_are_told_by_file_line_and_column(self) -> None:
        for number, (files, what) in enumerate(BROKEN):
            with self.subTest(what):
                self.refused(write_feed(os.path.join(self.folder, str(number)), {**SMALL, **files}), what)

    def test_are_told_by_the_line_of_a_call(self) -> None:
        heading, first, _, last = SMALL['stop_times.txt']
        for number, (line, what) in enumerate(BROKEN_CALLS):
            with self.subTest(what):
                files: dict[str, File] = {**SMALL, 'stop_times.txt': [heading, first, line, last]}
                self.refused(write_feed(os.path.join(self.folder, str(number)), files), f'stop_times.txt, line 3: {what}')

    def test_words_are_told(self) -> None:
        feed = write_feed(os.path.join(self.folder, 'feed'), SMALL)
        for date, options, what in BROKEN_WORDS:
            with self.subTest(what):
                self.refused(feed, what, *options, date=date)

    def test_are_told_where_they_cannot_be_read(self) -> None:
        self.refused(os.path.join(self.folder, 'none'), 'none: No such file or directory')
        name = os.path.join(self.folder, 'feed')
        with open(name, 'wb') as file:
            file.write(b'no archive')
        self.refused(name, 'feed: no zip file that can be read (File is not a zip file)')

    def test_leave_what_stood_there(self) -> None:
        self.made({})
        before = {name: read(self.net, name) for name in os.listdir(self.net)}
        feed = write_feed(os.path.join(self.folder, 'broken'), {**SMALL, 'stops.txt': None})
        self.assertEqual(self.call(from_gtfs, feed, DATE, self.net)[0], 2)
        self.assertEqual({name: read(self.net, name) for name in os.listdir(self.net)}, before)

    def test_leave_no_part_where_a_file_cannot_be_written(self) -> None:
        os.makedirs(os.path.join(self.net, 'Trains.csv'))
        feed = write_feed(os.path.join(self.folder, 'feed'), SMALL)
        status, said = self.call(from_gtfs, feed, DATE, self.net)
        self.assertEqual(status, 2, said)
        self.assertEqual([name for name in os.listdir(self.net) if name.startswith('.')], [])


class Back(InNetwork):
    def late(self, net: str, name: str) -> tuple[Any, str]:
        return self.call(to_gtfs, net, name, os.path.join(self.folder, 'late'))

    def test_times_that_hold_are_written(self) -> None:
        status, said = self.late(network('six_stations'), text('six_stations_planned'))
        self.assertEqual((status, said), (0, ''))
        calls = read(self.folder, 'late', 'stop_times.txt').splitlines()
        self.assertEqual(calls[0], 'trip_id,arrival_time,departure_time,stop_id,stop_sequence')
        self.assertEqual([line for line in calls if line.startswith(('out,', 'west,', 'night,', 'shuttle@08:25'))], [
            'out,08:00:00,08:00:00,AR,1', 'out,08:20:00,08:21:00,BI,2', 'out,08:40:00,08:49:00,CO-1,3', 'out,09:05:45,09:05:45,DO,4',
            'shuttle@08:25:00,08:25:00,08:25:00,BI,1', 'shuttle@08:25:00,08:45:00,08:46:00,CO-1,2',
            'shuttle@08:25:00,09:05:00,09:05:00,DO,3', 'west,09:16:00,09:16:00,FA,1', 'west,09:32:45,09:34:00,CO-2,2',
            'west,09:52:00,09:52:00,EL,3', 'night,23:42:00,23:42:00,DO,1', 'night,24:00:36,24:02:00,CO-1,2', 'night,24:45:00,24:45:00,AR,3',
        ])
        self.assertEqual(read(self.folder, 'late', 'delays.csv').splitlines(), [
            'trip_id,route,headsign,departure_delay,arrival_delay,largest_delay,at_stop,at_sequence', 'out,RE 1,Dornhalt,0,345,420,CO-1,3',
            'east,RB 2,Farnsee,0,0,0,EL,1', 'shuttle@08:25:00,S 3,Dornhalt,0,0,0,BI,1', 'shuttle@08:55:00,S 3,Dornhalt,0,0,0,BI,1',
            'west,RB 2,Elmtal,480,0,480,FA,1', 'back,RE 1,Arnau,45,0,45,DO,1', 'noon,RB 2,Farnsee,0,0,0,EL,1', 'night,N 4,Arnau,120,0,120,DO,1',
        ])

    def test_times_of_the_timetable_come_back_from_a_day_on_time(self) -> None:
        _, said = self.made({})
        write_feed(os.path.join(self.folder, 'run'), {'text': lines_of_run(read_network(self.net))})
        self.assertEqual(self.late(self.net, os.path.join(self.folder, 'run', 'text')), (0, ''))
        self.assertEqual(read(self.folder, 'late', 'stop_times.txt').splitlines(), SMALL['stop_times.txt'])

    def test_a_bad_text_is_told_and_nothing_is_written(self) -> None:
        status, said = self.late(network('six_stations'), text('late_first_train'))
        self.assertEqual(status, 2)
        self.assertRegex(said, r'^to_gtfs: .*late_first_train/text, line 17: this is no text of a run over the network \(form\)\n$')
        self.assertFalse(os.path.exists(os.path.join(self.folder, 'late')))
        status, said = self.late(network('connection'), text('late_first_train'))
        self.assertRegex(said, '^to_gtfs: .*Events.csv: No such file or directory\n$')


if __name__ == '__main__':
    unittest.main()
