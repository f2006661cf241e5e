"""What the numbers of a network stand for: its stops, events and trains by the names of a timetable.

`Stops.csv`, `Events.csv`, `Trains.csv`, `Changes.csv` and `Day.csv` stand beside the two files of a network. They are in UTF-8, a
record a line, with semicolons between the fields and quotes around a field that needs them. Lines that begin with `#` are
comments. Of stops and trains two columns are enough: a number and a name.
"""
from __future__ import annotations

import csv
import io
import os
import re
from typing import Callable, Iterable, NamedTuple, TypeVar

from dispatch_tools.formats.files import BadFile
from dispatch_tools.formats.giv import whole
from dispatch_tools.formats.quoted import is_text, quoted_records

Named = TypeVar('Named')

# What gives text another direction than that of its own letters.
TURNING = re.compile('[\u202a-\u202e\u2066-\u2069]')


class StopName(NamedTuple):
    stop: int
    name: str


class EventName(NamedTuple):
    """An event, the first event of its train, the trip, the stop with its place in the trip, and the scheduled time, as 06:30:00."""
    event: int
    train: int
    trip: str
    sequence: int
    stop: str
    kind: str
    time: str


class TrainName(NamedTuple):
    """A train, by its first event: how it is called, the trip, its route by name, and what else the timetable says of it; older networks
    have no id of the route."""
    event: int
    name: str
    trip: str
    route: str
    direction: str
    headsign: str
    block: str
    route_id: str = ''


class ChangeName(NamedTuple):
    """A change: the trips and the stops that it leads from and to, the seconds that it takes, its passengers, and where it came from."""
    change: int
    trip: str
    next_trip: str
    stop: str
    lower: int
    passengers: str
    origin: str
    next_stop: str


class DayName(NamedTuple):
    """The service day of a network, as 2026-12-24, and the time zone that its times are in."""
    day: str
    zone: str


class NamedTrip(NamedTuple):
    """The trip of a train, its service day where it is the one before, as 20261127, and when it leaves where a frequency made it."""
    trip: str
    day: str
    start: str


def name_of_trip(trip: str, day: str = '', start: str = '') -> str:
    """The name of a train: TRIP, TRIP@06:30:00, TRIP@20261127 or TRIP@20261127@25:10:00, where each @ of the trip stands twice."""
    return '@'.join([trip.replace('@', '@@'), *(part for part in (day, start) if part)])


def named_trip(name: str) -> NamedTrip:
    """What the name of a train says. One with a single @ that is not written so is that of a trip as it stands."""
    found = re.fullmatch('((?:[^@]|@@)*)(?:@([0-9]{8}))?(?:@([0-9]{2,3}:[0-9]{2}:[0-9]{2}))?', name)
    if found is None:
        return NamedTrip(name, '', '')
    trip, day, start = (part or '' for part in found.groups())
    return NamedTrip(trip.replace('@@', '@'), day, start)


def trip_in_feed(name: str) -> str:
    """The trip_id of a train in a feed in which each train is a trip: its trip, or its name where a frequency or a day made it."""
    named = named_trip(name)
    return name if named.day or named.start else named.trip


def shown(name: str) -> str:
    """A name as people get to see it: what would turn round the text beside it as its number."""
    return TURNING.sub(lambda found: found[0].encode('unicode_escape').decode(), name)


def in_print(columns: Iterable[str], rows: Iterable[Iterable[object]]) -> str:
    """The text of a file of names."""
    text = io.StringIO()
    text.write(f'# {";".join(columns)}\n')
    csv.writer(text, delimiter=';', lineterminator='\n').writerows(rows)
    return text.getvalue()


def records(folder: str, name: str, row: Callable[..., Named]) -> list[tuple[int, Named]]:
    """The line of each record, and what `row` makes of its fields; BadFile if it makes nothing."""
    path = os.path.join(folder, name)
    try:
        with open(path, 'rb') as file:
            return [(line, made(path, line, fields, row)) for line, fields in quoted_records(path, file, ';', '#') if any(fields)]
    except OSError as error:
        raise BadFile(path, None, error.strerror or 'cannot be read') from error


def made(path: str, line: int, fields: list[str], row: Callable[..., Named]) -> Named:
    """What `row` makes of the fields of a record."""
    if not is_text(''.join(fields)):
        raise BadFile(path, line, 'this is not in UTF-8')
    try:
        return row(*[field.strip() for field in fields])
    except (TypeError, ValueError) as error:
        raise BadFile(path, line, 'this is no record of the file') from error


def numbered(folder: str, name: str) -> list[tuple[int, int, str]]:
    """The line, the number and the name in the first two fields of each record; none where there is no such file."""
    if not os.path.exists(os.path.join(folder, name)):
        return []
    rows = records(folder, name, lambda number, label, *_: (whole(number), shown(label)))
    return [(line, *row) for line, row in rows]


def read_stops(folder: str) -> dict[int, str]:
    """The names of stops, where Stops.csv is there."""
    return {number: name for _, number, name in numbered(folder, 'Stops.csv')}


def read_labels(folder: str) -> dict[int, str]:
    """The names of trains by the ids of their first events, where Trains.csv is there."""
    return {number: name for _, number, name in numbered(folder, 'Trains.csv')}


def read_trips(folder: str) -> dict[int, str]:
    """The trips of trains by the ids of their first events, where Trains.csv is there and has them."""
    if not os.path.exists(os.path.join(folder, 'Trains.csv')):
        return {}
    return dict(row for _, row in records(folder, 'Trains.csv', lambda number, _, trip='', *__: (whole(number), shown(trip))))


def read_events(folder: str) -> list[EventName]:
    def event(number: str, train: str, trip: str, sequence: str, stop: str, kind: str, time: str) -> EventName:
        return EventName(whole(number), whole(train), trip, whole(sequence), stop, kind, time)
    return [row for _, row in records(folder, 'Events.csv', event)]


def read_trains(folder: str) -> list[TrainName]:
    rows = records(folder, 'Trains.csv', lambda event, name, *names: TrainName(whole(event), shown(name), *names))
    return [row for _, row in rows]


def read_changes(folder: str) -> list[ChangeName]:
    def change(number: str, trip: str, next_trip: str, stop: str, lower: str, *rest: str) -> ChangeName:
        passengers, origin, next_stop = rest
        return ChangeName(whole(number), trip, next_trip, stop, whole(lower), passengers, origin, next_stop)
    return [row for _, row in records(folder, 'Changes.csv', change)]


def read_day_name(folder: str) -> DayName:
    """The service day of a network; nothing if no file names it."""
    if not os.path.exists(os.path.join(folder, 'Day.csv')):
        return DayName('', '')
    return next((row for _, row in records(folder, 'Day.csv', DayName)), DayName('', ''))
