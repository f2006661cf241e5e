"""A network of a service day of a timetable in GTFS, with its files."""
from __future__ import annotations

import argparse
import re
from collections import Counter
from dataclasses import dataclass
from datetime import date, timedelta
from fractions import Fraction
from typing import Iterator, Optional

from dispatch_tools.days.expand import expand, Expanded, GUARANTEED, Link
from dispatch_tools.days.trains import Headways, Limits, mark_reserve, Notes, Passengers, Reach, Refused, Rules, trains_of, Window
from dispatch_tools.formats.giv import decimal, network_files
from dispatch_tools.formats.gtfs import (
    Day, read_day, read_routes, read_services, read_stops, read_transfers, read_zone, Route, Stops, TYPES,
)
from dispatch_tools.formats.gtfs_rows import clock, date_of, Feed, read_rows, Row, told_as
from dispatch_tools.formats.names import ChangeName, DayName, EventName, in_print, StopName, TrainName
from dispatch_tools.model.messages import Lock
from dispatch_tools.model.network import Change, KINDS
from dispatch_tools.words import time_of_day, whole_between

LONGEST_BOUND = 1_000_000
MOST_PASSENGERS = 1_000_000
STATIONS_SHOWN = 20

# The longest line that is printed.
LONGEST_LINE = 1000

# The columns of Changes.csv.
CHANGES = ('id', 'from trip', 'to trip', 'stop', 'bound', 'weight', 'came from', 'to stop')

# The file of the events of reserve trains.
CANCELLED = 'Cancelled.csv'

# The lines that lock guaranteed connections.
LOCKED = 'Locked.txt'

# Later than all times of a day.
EVER = 10 ** 9


# ---- Words


def share(text: str) -> Fraction:
    """Reads a share such as 7% or 7.5%."""
    found = re.fullmatch(r'([0-9]{1,3}(?:\.[0-9]{1,3})?)%', text)
    if found is None or Fraction(found[1]) > 100:
        raise argparse.ArgumentTypeError(f'"{text}" is no share from 0% to 100%')
    return Fraction(found[1]) / 100


def service_day(text: str) -> date:
    day = date_of(text.replace('-', ''))
    if day is None:
        raise argparse.ArgumentTypeError(f'"{text}" is no date, as 20261128')
    return day


def kinds_of_routes(text: str) -> Optional[set[int]]:
    """Reads kinds of routes, by word or number; None for all."""
    if text == 'all':
        return None
    kinds: set[int] = set()
    for word in text.split(','):
        if word not in TYPES and not re.fullmatch('[0-9]{1,4}', word):
            raise argparse.ArgumentTypeError(f'"{word}" is neither all, a number nor one of {", ".join(TYPES)}')
        kinds |= TYPES[word] if word in TYPES else {int(word)}
    return kinds


def names_of_routes(text: str) -> list[str]:
    return text.split(',')


def add_choices(words: argparse.ArgumentParser) -> None:
    """The options that choose trains, and say how many passengers they have."""
    kinds = f'all, or some of {", ".join(TYPES)} and numbers of route_type, separated by commas (rail)'
    words.add_argument('--types', metavar='KINDS', type=kinds_of_routes, default='rail', help=kinds)
    some = 'routes by id or short name, separated by commas (all)'
    words.add_argument('--routes', metavar='NAMES', type=names_of_routes, help=some)
    later = 'only trains that run at this time or later, such as 06:30'
    words.add_argument('--from', metavar='TIME', type=time_of_day, dest='start', default=0, help=later)
    earlier = 'only trains that run at this time or earlier'
    words.add_argument('--to', metavar='TIME', type=time_of_day, dest='end', default=EVER, help=earlier)
    words.add_argument('--day-before', action='store_true', help='also trains of the day before that run past midnight')
    numbers = 'file trip_id,stop_id,number: how many leave a trip at a stop (1 each); with to_trip_id, how many change to it'
    words.add_argument('--passengers', metavar='FILE', help=numbers)
    taking = 'share of these passengers who take each change (10%%)'
    words.add_argument('--changing', metavar='SHARE', type=share, default='10%', help=taking)
    guaranteed = 'passengers who take a guaranteed connection (as for other changes)'
    words.add_argument('--guaranteed', metavar='NUMBER', type=passengers_given, help=guaranteed)
    locks = 'also write Locked.txt: the lines that lock guaranteed connections, for a feed; else a plan may drop one'
    words.add_argument('--lock-guaranteed', action='store_true', help=locks)
    reserve = 'file trip_id: reserve trains, which stand in the network and in Cancelled.csv, for --cancelled'
    words.add_argument('--reserve-trains', metavar='FILE', help=reserve)


def add_rules(words: argparse.ArgumentParser) -> None:
    """The options that say how long activities take."""
    spare = 'share of a scheduled drive that a late train can make up (7%%)'
    words.add_argument('--reserve', metavar='SHARE', type=share, default='7%', help=spare)
    for name, usual, what in (
        ('dwell', 30, 'least seconds of a wait'), ('turn', 300, 'least seconds of a turnaround'),
        ('change', 180, 'seconds of a change if transfers.txt gives none'),
        ('longest-change', 1800, 'most seconds from the arrival to the departure of a change'),
        ('headway', 120, 'seconds that a train keeps behind another one'),
    ):
        seconds = whole_between(1 if name == 'headway' else 0, LONGEST_BOUND)
        words.add_argument(f'--{name}', metavar='SECONDS', type=seconds, default=usual, help=f'{what} ({usual})')
    stretches = 'file from_stop_id,to_stop_id,seconds[,type]: headways of a stretch, of a kind of vehicle, or of both; 0 for none'
    words.add_argument('--headways', metavar='FILE', help=stretches)
    single = 'file from_stop_id,to_stop_id,seconds: stretches with one track, and the seconds until the other direction may enter'
    words.add_argument('--single-track', metavar='FILE', help=single)
    words.add_argument('--no-headways', action='store_true', help='make no headways')


# ---- From a feed to a network


def chosen_routes(
    feed: Feed, routes: dict[str, Route], types: Optional[set[int]], names: Optional[list[str]],
) -> set[str]:
    """The routes of these kinds that are named so by id or short name; Refused if there is none."""
    for name in names or []:
        if not any(name in (route.id, route.name) for route in routes.values()):
            raise Refused(f'{feed.name} has no route {name}')
    chosen = {
        route.id for route in routes.values()
        if (types is None or route.type in types) and (names is None or route.id in names or route.name in names)
    }
    if not chosen:
        counts = Counter(route.type for route in routes.values())
        have = ', '.join(f'{count} of type {kind}' for kind, count in sorted(counts.items())) or 'none'
        raise Refused(f'no route is chosen by --types and --routes; the feed has {have}')
    return chosen


def read_passengers(name: Optional[str], feed: Feed, stops: Stops) -> Passengers:
    """The numbers of a file in thousandths, by trip and stop."""
    if name is None:
        return Passengers()
    numbers: dict[tuple[str, str], int] = {}
    changes: dict[tuple[str, str, str], int] = {}
    with told_as(name), open(name, 'rb') as file:
        for row in read_rows(name, file, ['trip_id', 'stop_id', 'number']):
            key = row.text('trip_id'), row.text('stop_id')
            if key[1] not in stops.stations:
                raise row.fault('stop_id', f'{feed.name} has no stop {key[1]}')
            number = passengers_of(row['number'])
            if not 0 <= number <= MOST_PASSENGERS * 1000:
                raise row.fault('number', f'"{row["number"]}" is no number from 0 to {MOST_PASSENGERS}')
            other = row['to_trip_id']
            if key in numbers and not other or (*key, other) in changes:
                raise row.fault('stop_id', f'trip {key[0]} and stop {key[1]} stand twice')
            if other:
                changes[*key, other] = number
            else:
                numbers[key] = number
    return Passengers(numbers, changes)


def read_headways(name: Optional[str], feed: Feed, stops: Stops, usual: int) -> Headways:
    """The seconds of a file by stretch and kind of vehicle."""
    rule = Headways(usual)
    if name is None:
        return rule
    with told_as(name), open(name, 'rb') as file:
        for row in read_rows(name, file, ['from_stop_id', 'to_stop_id', 'seconds']):
            ends = row['from_stop_id'], row['to_stop_id']
            if not any(ends) and not row['type']:
                raise row.fault('type', 'neither stops nor a kind of vehicle')
            if any(ends):
                stretch_of(row, feed, stops)
            if row['type'] and row['type'] not in TYPES and not re.fullmatch('[0-9]{1,4}', row['type']):
                raise row.fault('type', f'"{row["type"]}" is neither a number nor one of {", ".join(TYPES)}')
            kind = Route('', '', int(row['type'])).kind if row['type'].isdecimal() else row['type']
            key = stops.stations.get(ends[0], ''), stops.stations.get(ends[1], ''), kind
            if key in rule.said:
                raise row.fault('from_stop_id', 'this stretch stands twice')
            rule.said[key] = row.number('seconds', LONGEST_BOUND)
    return rule


def stretch_of(row: Row, feed: Feed, stops: Stops) -> tuple[str, str]:
    """The two stations that a row names."""
    for column in 'from_stop_id', 'to_stop_id':
        if row[column] not in stops.stations:
            raise row.fault(column, f'{feed.name} has no stop {row[column]}')
    return stops.stations[row['from_stop_id']], stops.stations[row['to_stop_id']]


def read_reserve(name: Optional[str]) -> set[str]:
    """The trips and trains that a file names."""
    if name is None:
        return set()
    with told_as(name), open(name, 'rb') as file:
        return {row['trip_id'] for row in read_rows(name, file, ['trip_id'])}


def read_single_track(name: Optional[str], feed: Feed, stops: Stops) -> dict[frozenset[str], int]:
    """The seconds of a file by the two ends of a stretch."""
    single: dict[frozenset[str], int] = {}
    if name is None:
        return single
    with told_as(name), open(name, 'rb') as file:
        for row in read_rows(name, file, ['from_stop_id', 'to_stop_id', 'seconds']):
            ends = frozenset(stretch_of(row, feed, stops))
            if len(ends) < 2:
                raise row.fault('to_stop_id', 'this is the station where the stretch begins')
            if ends in single:
                raise row.fault('from_stop_id', 'this stretch stands twice')
            single[ends] = row.number('seconds', LONGEST_BOUND)
    return single


def passengers_given(text: str) -> int:
    """Reads a number of passengers, in thousandths."""
    number = passengers_of(text)
    if not 0 <= number <= MOST_PASSENGERS * 1000:
        raise argparse.ArgumentTypeError(f'"{text}" is no number from 0 to {MOST_PASSENGERS}')
    return number


def passengers_of(text: str) -> int:
    """A decimal number in thousandths, of which further digits are dropped; -1 where it is none."""
    if not re.fullmatch(r'[0-9]{1,12}(\.[0-9]*)?', text):
        return -1
    return int(Fraction(text) * 1000)


@dataclass
class Made:
    """A network with what it was made of."""
    stops: Stops
    expanded: Expanded
    notes: Notes
    day: Optional[DayName] = None
    locks_guaranteed: bool = False


def make(feed: Feed, words: argparse.Namespace, limits: Limits) -> Made:
    """The network that the words ask for."""
    stops, routes, services = read_stops(feed), read_routes(feed), read_services(feed, words.date)
    chosen = chosen_routes(feed, routes, words.types, words.routes)
    day = read_day(feed, stops, services, routes, chosen)
    notes = Notes(day.left_out)
    before = day_before(feed, stops, routes, chosen, words.date) if words.day_before else None
    transfers = read_transfers(feed, stops, routes, words.change)
    reach = Reach(words.longest_change, frozenset(row.ends[0].trip for row in transfers.promised.values()))
    trains = trains_of(day, before, Window(words.start, words.end), stops.stations, notes, limits, reach)
    if not trains:
        running = len(services.running)
        raise Refused(f'{feed.name} has no train on {words.date} that is chosen: {running} services run then, and {services.span()}')
    mark_reserve(trains, read_reserve(words.reserve_trains), notes)
    passengers = read_passengers(words.passengers, feed, stops)
    headways = None if words.no_headways else read_headways(words.headways, feed, stops, words.headway)
    single = read_single_track(words.single_track, feed, stops)
    rules = Rules(words.reserve, words.dwell, words.turn, words.longest_change, headways, words.changing, words.guaranteed, single)
    expanded = expand(trains, stops.stations, passengers, transfers, rules, notes, limits)
    notes.left_out.take(transfers.left_out)
    notes.left_out['numbers of passengers of which no arrival is there'] += passengers.unused
    notes.besides['times between two stops with times, spread evenly'] += day.timed_between
    return Made(stops, expanded, notes, DayName(str(words.date), read_zone(feed)), words.lock_guaranteed)


def day_before(feed: Feed, stops: Stops, routes: dict[str, Route], chosen: set[str], day: date) -> Day:
    """The trips of the service day before a day."""
    before = day - timedelta(days=1)
    return read_day(feed, stops, read_services(feed, before), routes, chosen, before.strftime('%Y%m%d'))


# ---- What is written


def texts_of(made: Made) -> dict[str, str]:
    """The files of a network, and those of its names."""
    expanded = made.expanded
    stops = [StopName(number, made.stops.names[station]) for station, number in expanded.stations.items()]
    trains = [
        TrainName(
            train.moments[0].event.id, train.label, train.name, train.trip.route.name, train.trip.direction, train.trip.headsign,
            train.trip.block, train.trip.route.id,
        )
        for train in expanded.trains
    ]
    events = [
        EventName(
            one.event.id, train.moments[0].event.id, train.name, one.call.sequence, one.call.stop, one.event.kind,
            clock(one.scheduled),
        )
        for train in expanded.trains for one in train.moments
    ]
    days = {} if made.day is None else {'Day.csv': in_print(DayName._fields, [made.day])}
    reserve = [[moment.event.id] for train in expanded.trains if train.is_reserve for moment in train.moments]
    return {
        **network_files(expanded.events, expanded.activities),
        **days,
        **({CANCELLED: in_print(['event'], reserve)} if reserve else {}),
        **({LOCKED: ''.join(guaranteed_locks(expanded))} if made.locks_guaranteed else {}),
        'Stops.csv': in_print(['id', *StopName._fields[1:]], stops),
        'Events.csv': in_print(EventName._fields, events),
        'Trains.csv': in_print(['first event', *TrainName._fields[1:]], trains),
        'Changes.csv': in_print(CHANGES, (change_name(*one) for one in expanded.changes)),
    }


def guaranteed_locks(expanded: Expanded) -> Iterator[str]:
    """The lines of a feed that lock the guaranteed connections."""
    return (f'{Lock(Change(number))}\n' for number, link in expanded.changes if link.origin.startswith(GUARANTEED))


def change_name(number: int, link: Link) -> ChangeName:
    tail, head = link.tail, link.head
    return ChangeName(
        number, tail.train.name, head.train.name, tail.call.stop, link.lower, decimal(link.weight), link.origin, head.call.stop,
    )


def summary(made: Made, words: argparse.Namespace) -> Iterator[str]:
    """What the network comes to, and what the feed has that is not in it."""
    expanded = made.expanded
    repeated = sum(train.repeats for train in expanded.trains)
    routes = {train.trip.route.id for train in expanded.trains}
    yield f'{words.date}: trains {len(expanded.trains)} ({repeated} by frequencies), routes {len(routes)}'
    kinds = Counter(activity.kind for activity in expanded.activities)
    counts = ', '.join(f'{kind}s {kinds[kind]}' for kind in KINDS)
    reserve = sum(train.is_reserve for train in expanded.trains)
    if reserve:
        yield f'reserve trains {reserve}, which are cancelled at the start with --cancelled={CANCELLED}'
    yield f'stations {len(expanded.stations)}, events {len(expanded.events)}, activities {len(expanded.activities)}: {counts}'
    names = {number: made.stops.names[station] for station, number in expanded.stations.items()}
    yield from stations_with_changes(names, expanded.changes_at)
    yield from made.notes.in_print()


def stations_with_changes(names: dict[int, str], changes: Counter[int]) -> Iterator[str]:
    ordered = sorted(changes.items(), key=lambda item: (-item[1], item[0]))
    for station, count in ordered[:STATIONS_SHOWN]:
        yield f'changes at {names[station]}: {count}'
    rest = ordered[STATIONS_SHOWN:]
    if rest:
        yield f'changes at {len(rest)} more stations: {sum(count for _, count in rest)}'
