"""Reads timetables in GTFS: which trips run on a service day, and where and when they call.

A feed is a zip file or a folder with the files of the GTFS reference (https://gtfs.org/documentation/schedule/reference/). Times
are in seconds from the beginning of the service day, and go on past midnight. If something breaks the reference, `files.BadFile`
names the file, the line and the column. Rows of trips that nobody asks for are not looked at.
"""
from __future__ import annotations

import os
from collections import Counter
from dataclasses import dataclass, field
from datetime import date
from typing import Collection, Iterator, NamedTuple, Optional

from dispatch_tools.formats.files import BadFile
from dispatch_tools.formats.gtfs_rows import clock, Feed, LATEST, Row

WEEKDAYS = ('monday', 'tuesday', 'wednesday', 'thursday', 'friday', 'saturday', 'sunday')
DEEPEST_STOP = 10
MOST_REPEATED = 200_000

# Kinds of routes by what `route_type` may be: the basic numbers, and the ranges of the extended ones.
TYPES = {
    'rail': {2, *range(100, 200)},
    'subway': {1, *range(400, 405)},
    'tram': {0, *range(900, 907)},
    'bus': {3, 11, 800, *range(200, 210), *range(700, 717)},
    'ferry': {4, 1000, 1200},
}


# ---- What is reported of a feed


class Told(Counter[str]):
    """How often what was found, and the row at which first, where it is one."""

    def __init__(self) -> None:
        super().__init__()
        self.first: dict[str, Row] = {}

    def row(self, what: str, row: Row) -> None:
        self[what] += 1
        self.first.setdefault(what, row)

    def take(self, other: Told) -> None:
        """Adds what another one reports."""
        self.update(other)
        self.first = other.first | self.first

    def in_print(self) -> Iterator[str]:
        for what, count in sorted(self.items()):
            row = self.first.get(what)
            if count:
                yield f'{what}: {count}' + (f' (first: {os.path.basename(row.file)}, line {row.line})' if row else '')


# ---- Stops


@dataclass(frozen=True)
class Stops:
    """The station that each stop belongs to, in the order of the file, and what each stop is called."""
    stations: dict[str, str]
    names: dict[str, str]


def read_stops(feed: Feed) -> Stops:
    parents: dict[str, str] = {}
    names: dict[str, str] = {}
    rows: dict[str, Row] = {}
    for row in feed.rows('stops.txt', ['stop_id']):
        stop = row.text('stop_id')
        if stop in parents:
            raise row.fault('stop_id', f'stop {stop} stands twice')
        parents[stop], names[stop], rows[stop] = row['parent_station'], row.name('stop_name') or stop, row
    return Stops({stop: station_of(stop, parents, rows) for stop in parents}, names)


def station_of(stop: str, parents: dict[str, str], rows: dict[str, Row]) -> str:
    """The last of a stop's parents, which is itself where it has none."""
    seen = {stop}
    station = stop
    while parents[station]:
        row, station = rows[station], parents[station]
        if station not in parents:
            raise row.fault('parent_station', f'there is no stop {station}')
        if station in seen:
            raise row.fault('parent_station', f'{station} is a parent of itself')
        if len(seen) >= DEEPEST_STOP:
            raise row.fault('parent_station', f'more than {DEEPEST_STOP} stops stand one in another')
        seen.add(station)
    return station


# ---- Days


@dataclass(frozen=True)
class Services:
    """The services that a feed names, those that run on a day, and all dates that it names."""
    known: set[str]
    running: set[str]
    dates: set[date]

    def span(self) -> str:
        return f'its dates go from {min(self.dates)} to {max(self.dates)}' if self.dates else 'it has no dates'


def read_services(feed: Feed, day: date) -> Services:
    if not feed.has('calendar.txt') and not feed.has('calendar_dates.txt'):
        raise BadFile(feed.name, None, 'there is neither calendar.txt nor calendar_dates.txt')
    services = Services(set(), set(), set())
    for row in feed.rows_if_any('calendar.txt', ['service_id', *WEEKDAYS, 'start_date', 'end_date']):
        first, last = row.date('start_date'), row.date('end_date')
        services.known.add(row.text('service_id'))
        services.dates.update((first, last))
        if row.number(WEEKDAYS[day.weekday()], 1) and first <= day <= last:
            services.running.add(row['service_id'])
    for row in feed.rows_if_any('calendar_dates.txt', ['service_id', 'date', 'exception_type']):
        services.known.add(row.text('service_id'))
        services.dates.add(row.date('date'))
        if row.date('date') == day:
            change_service(services.running, row)
    return services


def change_service(running: set[str], row: Row) -> None:
    """Takes in what an exception says of its day."""
    kind = row.number('exception_type', 2)
    if kind == 0:
        raise row.fault('exception_type', '0 is neither 1 nor 2')
    if kind == 1:
        running.add(row['service_id'])
    else:
        running.discard(row['service_id'])


# ---- Trips


@dataclass(frozen=True)
class Route:
    id: str
    name: str
    type: int

    @property
    def kind(self) -> str:
        """The kind of vehicle, as trains and buses are two, or the number of the type where it is of none."""
        return next((kind for kind, types in TYPES.items() if self.type in types), str(self.type))


# The time of a call that has none yet.
UNTIMED = -1


@dataclass(slots=True)
class Call:
    """A stop that a trip calls at, whether passengers may board and leave there, and the line of the file that says so.

    A call of a day has both times; while the file is read they may be UNTIMED.
    """
    line: int
    stop: str
    sequence: int
    arrival: int
    departure: int
    boards: bool
    leaves: bool

    @property
    def is_timed(self) -> bool:
        return self.arrival != UNTIMED


@dataclass
class Trip:
    """A trip; one of the service day before names that day, as 20261223."""
    id: str
    route: Route
    direction: str
    short_name: str
    headsign: str
    block: str
    calls: list[Call] = field(default_factory=list)
    day_before: str = ''


@dataclass(frozen=True)
class Frequency:
    """From a first departure on, before an end, a trip leaves again and again; if not at exact times, then about so often."""
    start: int
    end: int
    every: int
    is_exact: bool

    @property
    def departures(self) -> range:
        return range(self.start, self.end, self.every)


@dataclass
class Day:
    """What a feed has on a day: its trips, how some of them repeat, and what was left out and why."""
    trips: dict[str, Trip]
    frequencies: dict[str, list[Frequency]]
    left_out: Told
    timed_between: int = 0


def read_routes(feed: Feed) -> dict[str, Route]:
    routes: dict[str, Route] = {}
    for row in feed.rows('routes.txt', ['route_id', 'route_type']):
        route = row.text('route_id')
        if route in routes:
            raise row.fault('route_id', f'route {route} stands twice')
        name = row.name('route_short_name') or row.name('route_long_name') or route
        routes[route] = Route(route, name, row.number('route_type', 9999))
    return routes


def read_day(
    feed: Feed, stops: Stops, services: Services, routes: dict[str, Route], chosen: Collection[str], day_before: str = '',
) -> Day:
    """The trips of the chosen routes on the day of the services, which may be the one before."""
    day = Day({}, {}, Told())
    others: set[str] = set()
    for row in feed.rows('trips.txt', ['route_id', 'service_id', 'trip_id']):
        trip = row.text('trip_id')
        if trip in day.trips or trip in others:
            raise row.fault('trip_id', f'trip {trip} stands twice')
        if row['route_id'] not in routes:
            raise row.fault('route_id', f'there is no route {row["route_id"]}')
        if row['route_id'] not in chosen:
            day.left_out['trips of other types or routes'] += 1
            others.add(trip)
        elif row['service_id'] not in services.running:
            is_known = row['service_id'] in services.known
            day.left_out['trips that do not run on the day' if is_known else 'trips of services that no calendar names'] += 1
            others.add(trip)
        else:
            day.trips[trip] = trip_of(row, routes)
            day.trips[trip].day_before = day_before
    read_calls(feed, stops, day, others)
    read_frequencies(feed, day, others)
    return day


def trip_of(row: Row, routes: dict[str, Route]) -> Trip:
    direction = row['direction_id'] and str(row.number('direction_id', 1))
    short_name, headsign, block = (row.name(column) for column in ('trip_short_name', 'trip_headsign', 'block_id'))
    return Trip(row['trip_id'], routes[row['route_id']], direction, short_name, headsign, block)


def read_calls(feed: Feed, stops: Stops, day: Day, others: set[str]) -> None:
    """Gives each trip of a day its calls."""
    columns = ['trip_id', 'arrival_time', 'departure_time', 'stop_id', 'stop_sequence']
    for row in feed.rows('stop_times.txt', columns):
        trip = row['trip_id']
        if trip in day.trips and (not row['stop_id'] or row['start_pickup_drop_off_window']):
            day.left_out.row('calls of flexible services, without a stop or with a window of time', row)
        elif trip in day.trips:
            day.trips[trip].calls.append(call_of(row, stops))
        elif trip not in others:
            raise row.fault('trip_id', f'there is no trip {trip}')
    for one in list(day.trips.values()):
        if len(one.calls) < 2:
            day.left_out['trips with fewer than two stops'] += 1
            del day.trips[one.id]
        else:
            one.calls.sort(key=lambda call: call.sequence)
            check_calls(feed, one.calls)
            day.timed_between += fill_times(feed, one.calls)


def call_of(row: Row, stops: Stops) -> Call:
    """The call of a row, at which one time stands for both where one alone is there."""
    if row['stop_id'] not in stops.stations:
        raise row.fault('stop_id', f'there is no stop {row["stop_id"]}')
    times = [time for time in (row.time('arrival_time'), row.time('departure_time')) if time is not None] or [UNTIMED]
    return Call(
        row.line, row['stop_id'], row.number('stop_sequence', 10 ** 9), times[0], times[-1], row.number('pickup_type', 3, 0) != 1,
        row.number('drop_off_type', 3, 0) != 1,
    )


def fill_times(feed: Feed, calls: list[Call]) -> int:
    """Spreads the calls without times evenly between those with times, which do not fall; how many they are."""
    for end in calls[0], calls[-1]:
        if not end.is_timed:
            raise feed.fault('stop_times.txt', end.line, 'arrival_time', 'the first and the last stop of a trip need a time')
    known = [place for place, call in enumerate(calls) if call.is_timed]
    for before, after in zip(known, known[1:]):
        start, length = calls[before].departure, calls[after].arrival - calls[before].departure
        for place in range(before + 1, after):
            time = start + length * (place - before) // (after - before)
            calls[place].arrival = calls[place].departure = time
    return len(calls) - len(known)


def check_calls(feed: Feed, calls: list[Call]) -> None:
    """That the calls of a trip stand at different places in its order, and that it does not run back in time."""
    for before, call in zip(calls, calls[1:]):
        if call.sequence == before.sequence:
            raise feed.fault('stop_times.txt', call.line, 'stop_sequence', f'{call.sequence} stands twice in the trip')
    timed = [call for call in calls if call.is_timed]
    for call in timed:
        if call.departure < call.arrival:
            what = f'{clock(call.departure)} is before the arrival at {clock(call.arrival)}'
            raise feed.fault('stop_times.txt', call.line, 'departure_time', what)
    for before, call in zip(timed, timed[1:]):
        if call.arrival < before.departure:
            what = f'{clock(call.arrival)} is before {clock(before.departure)} of line {before.line}'
            raise feed.fault('stop_times.txt', call.line, 'arrival_time', what)


def given_time(row: Row, column: str) -> int:
    time = row.time(column)
    if time is None:
        raise row.fault(column, 'nothing stands here')
    return time


def read_frequencies(feed: Feed, day: Day, others: set[str]) -> None:
    """Takes in how trips repeat."""
    repeated = 0
    for row in feed.rows_if_any('frequencies.txt', ['trip_id', 'start_time', 'end_time', 'headway_secs']):
        trip = row.text('trip_id')
        if trip in day.trips:
            start, end = given_time(row, 'start_time'), given_time(row, 'end_time')
            every = row.number('headway_secs', LATEST)
            if every == 0:
                raise row.fault('headway_secs', '0 is no time between two trips')
            frequency = Frequency(start, end, every, row.number('exact_times', 1, 0) == 1)
            day.frequencies.setdefault(trip, []).append(frequency)
            repeated += len(frequency.departures)
            if repeated > MOST_REPEATED:
                raise row.fault('headway_secs', f'the frequencies so far make more than {MOST_REPEATED} trains')
            if not frequency.departures:
                day.left_out.row('rows of frequencies.txt whose end is not behind their start', row)
        elif trip not in others:
            raise row.fault('trip_id', f'there is no trip {trip}')


# ---- Transfers

# What a row may name of the train that arrives and of the one that leaves, the most special first: of the rows that are true of two
# trains, the first in this order holds.
RANKS = (
    ('trip', 'trip'), ('trip', 'route'), ('route', 'trip'), ('trip', ''), ('', 'trip'), ('route', 'route'), ('route', ''), ('', 'route'),
    ('', ''),
)


class End(NamedTuple):
    """Where a train is left or boarded, and its trip and route."""
    stop: str
    trip: str
    route: str

    def named(self, what: str) -> str:
        """The trip or the route, or nothing."""
        return self.trip if what == 'trip' else self.route if what == 'route' else ''


@dataclass(frozen=True)
class Transfer:
    """What a row says: its type, how long a change takes at least, or None if there is none, its line, and what it names."""
    kind: int
    least: Optional[int]
    line: int
    ends: tuple[End, End]


@dataclass
class Transfers:
    """How long a change takes at least: what rows say, by what they name, and within a station else `usual` seconds.

    `walks` are the other stations to which rows lead from a station, `promised` the connections between two trips that are guaranteed,
    and `linked` the trips that one vehicle runs one after the other, with passengers (type 4) or without (5).
    """
    usual: int
    stations: dict[str, str]
    said: dict[tuple[str, str], dict[tuple[str, ...], Transfer]] = field(default_factory=dict)
    walks: dict[str, set[str]] = field(default_factory=dict)
    promised: dict[tuple[End, End], Transfer] = field(default_factory=dict)
    linked: list[Transfer] = field(default_factory=list)
    left_out: Told = field(default_factory=Told)

    def between(self, arriving: End, leaving: End) -> tuple[Optional[int], Optional[Transfer]]:
        """How long a change takes at least, or None if there is none, and the row that says so, if one does."""
        stop, other = arriving.stop, leaving.stop
        station, beyond = self.stations[stop], self.stations[other]
        for rank in RANKS:
            rows = self.said.get(rank)
            if not rows:
                continue
            names = arriving.named(rank[0]), leaving.named(rank[1])
            for pair in (stop, other), (stop, beyond), (station, other), (station, beyond):
                found = rows.get((*pair, *names))
                if found is not None:
                    return found.least, found
        return (self.usual if station == beyond else None), None

    def take(self, rank: tuple[str, str], row: Row, transfer: Transfer) -> None:
        """Takes in a row for changes."""
        ends = transfer.ends
        key = ends[0].stop, ends[1].stop, ends[0].named(rank[0]), ends[1].named(rank[1])
        rows = self.said.setdefault(rank, {})
        if key in rows:
            self.left_out.row('rows of transfers.txt for what a later row is for, too', row)
        rows[key] = transfer
        start, end = (self.stations[end.stop] for end in ends)
        if transfer.least is not None and start != end:
            self.walks.setdefault(start, set()).add(end)
        if rank == RANKS[0]:
            self.promised.pop(ends, None)
            if transfer.kind == 1:
                self.promised[ends] = transfer


def read_transfers(feed: Feed, stops: Stops, routes: Collection[str], usual: int) -> Transfers:
    transfers = Transfers(usual, stops.stations)
    for row in feed.rows_if_any('transfers.txt', ['transfer_type']):
        kind = row.number('transfer_type', 5, 0)
        ends = end_of(row, 'from', kind, stops, routes), end_of(row, 'to', kind, stops, routes)
        if kind > 3:
            transfers.linked.append(Transfer(kind, None, row.line, ends))
        elif kind == 2 and not row['min_transfer_time']:
            transfers.left_out.row('rows of transfers.txt of type 2 without a min_transfer_time', row)
        else:
            rank = rank_of(ends[0]), rank_of(ends[1])
            transfers.take(rank, row, Transfer(kind, least_change(row, kind, usual), row.line, ends))
    return transfers


def end_of(row: Row, side: str, kind: int, stops: Stops, routes: Collection[str]) -> End:
    """What a row names of one of two trains: for a vehicle that goes on the trip, and for a change at least the stop."""
    column = f'{side}_stop_id'
    stop = row.text(column) if kind <= 3 else row[column]
    if stop and stop not in stops.stations:
        raise row.fault(column, f'there is no stop {stop}')
    route = row[f'{side}_route_id']
    if route and route not in routes:
        raise row.fault(f'{side}_route_id', f'there is no route {route}')
    return End(stop, row.text(f'{side}_trip_id') if kind > 3 else row[f'{side}_trip_id'], route)


def rank_of(end: End) -> str:
    """What a row names of a train beside the stop; a trip goes before its route."""
    return 'trip' if end.trip else 'route' if end.route else ''


def least_change(row: Row, kind: int, usual: int) -> Optional[int]:
    """How long a change takes by a row. The train of a timed one waits, so it takes no time if the row gives none."""
    if kind == 3:
        return None
    if kind == 2:
        return row.number('min_transfer_time', LATEST)
    return row.number('min_transfer_time', LATEST, 0 if kind == 1 else usual)


# ---- The time zone


def read_zone(feed: Feed) -> str:
    """The time zone of the feed's agencies, or nothing if it gives none."""
    return next((row.name('agency_timezone') for row in feed.rows_if_any('agency.txt', []) if row['agency_timezone']), '')
