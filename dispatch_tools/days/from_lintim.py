"""A network of LinTim's files that the program cannot read as they are."""
from __future__ import annotations

import argparse
import os
import re
from collections import Counter
from dataclasses import dataclass, field
from fractions import Fraction
from typing import Iterator, Mapping, NamedTuple, Optional, Sequence

from dispatch_tools.days.trains import Notes, PROGRAM, Refused
from dispatch_tools.formats.files import BadFile, text_of
from dispatch_tools.formats.giv import network_files, records
from dispatch_tools.formats.gtfs_rows import Row
from dispatch_tools.formats.names import in_print, StopName
from dispatch_tools.model.network import Activity, Event, KINDS

LARGEST_ID = 2 ** 32 - 1
LARGEST_TIME = 1_000_000_000
LARGEST_BOUND = 1_000_000
LARGEST_WEIGHT = 1_000_000

# What the columns of a file may be called, in the usual order of the file.
EXPANDED_EVENTS = {
    'id': ('event-id', 'id'), 'periodic-id': ('periodic-id', 'periodic-event-id'), 'type': ('type',), 'time': ('time',),
    'weight': ('passengers', 'weight'), 'stop': ('stop-id', 'stop'),
}
EXPANDED_ACTIVITIES = {
    'id': ('activity-id', 'id'), 'periodic-id': ('periodic-id', 'periodic-activity-id'), 'type': ('type',),
    'tail': ('tail-event-id', 'tail-event', 'tail', 'from-event'), 'head': ('head-event-id', 'head-event', 'head', 'to-event'),
    'lower': ('lower-bound', 'lower'), 'upper': ('upper-bound', 'upper'), 'weight': ('passengers', 'weight'),
}
PERIODIC_EVENTS = {
    'id': ('event-id', 'event-index', 'id'), 'type': ('type',), 'stop': ('stop-id', 'stop'), 'line': ('line-id', 'line'),
    'weight': ('passengers', 'weight'),
}
PERIODIC_ACTIVITIES = {
    'id': ('activity-id', 'activity-index', 'id'), 'type': ('type',),
    'tail': ('from-event', 'tail-event-id', 'tail-event', 'tail'), 'head': ('to-event', 'head-event-id', 'head-event', 'head'),
    'lower': ('lower-bound', 'lower'), 'upper': ('upper-bound', 'upper'), 'weight': ('passengers', 'weight'),
}
TIMETABLE = {'id': ('event-id', 'event-index', 'id'), 'time': ('time',)}
DELAYS = {'id': ('id', 'event-id', 'activity-id'), 'delay': ('delay',)}
STOPS = {'id': ('stop-id', 'id'), 'short': ('short-name', 'short'), 'long': ('long-name', 'long')}


# ---- Files


def columns_of(name: str, known: Mapping[str, tuple[str, ...]]) -> list[str]:
    """The columns of a file by its first comment, where that names some; else those that stand there as a rule."""
    first = text_of(name).lstrip().split('\n', 1)[0].strip()
    if first.startswith('#'):
        meanings = {called: column for column, names in known.items() for called in names}
        found = [meanings.get(word.strip().strip('"').lower(), '-') for word in first.lstrip('#').split(';')]
        if set(found) != {'-'}:
            return found
    return list(known)


def rows_of(folder: str, name: str, known: Mapping[str, tuple[str, ...]], needed: Sequence[str]) -> Iterator[Row]:
    """The records of a file by column; BadFile if a needed column is missing in one."""
    path = os.path.join(folder, name)
    columns = columns_of(path, known)
    for column in needed:
        if columns.count(column) != 1:
            raise BadFile(path, 1, f'there is no one column for {column}, as {" or ".join(known[column])}')
    for line, fields in records(folder, name):
        row = Row(path, line, dict(zip(columns, fields)))
        for column in needed:
            if column not in row.fields:
                raise row.fault(column, 'the record ends before it')
        yield row


def number_of(row: Row, column: str) -> Fraction:
    """The number of a column, which may have decimals and an exponent, and is not below 0."""
    text = row[column]
    if not re.fullmatch(r'[0-9]{1,20}(\.[0-9]*)?([eE][+-]?[0-9]{1,2})?', text):
        raise row.fault(column, f'"{text}" is no number from 0')
    return Fraction(text)


def within(row: Row, column: str, number: int, most: int) -> int:
    if number > most:
        raise row.fault(column, f'{row[column]} is above {most}')
    return number


def id_of(row: Row, column: str) -> int:
    number = number_of(row, column)
    if number.denominator != 1:
        raise row.fault(column, f'"{row[column]}" is no whole number')
    return within(row, column, int(number), LARGEST_ID)


def weight_of(row: Row) -> int:
    """Passengers in thousandths, of which further digits are dropped."""
    return within(row, 'weight', int(number_of(row, 'weight') * 1000), LARGEST_WEIGHT * 1000)


@dataclass
class Units:
    """How many seconds a time unit has, and what was rounded so far."""
    seconds: Fraction
    notes: Notes = field(default_factory=Notes)

    def time(self, row: Row, column: str) -> int:
        """A time in whole seconds, the nearest ones."""
        seconds = number_of(row, column) * self.seconds
        if seconds.denominator != 1:
            self.notes.besides['times that are no whole seconds, rounded'] += 1
        return within(row, column, round(seconds), LARGEST_TIME)

    def bound(self, row: Row, column: str) -> int:
        """A bound or a delay in whole seconds, those that are enough."""
        seconds = number_of(row, column) * self.seconds
        if seconds.denominator != 1:
            self.notes.besides['bounds and delays that are no whole seconds, rounded up'] += 1
        return within(row, column, -(-seconds.numerator // seconds.denominator), LARGEST_BOUND)


def kind_of(row: Row, kinds: Sequence[str], what: str, notes: Notes) -> Optional[str]:
    """The kind of a row, or None if the program has no such kind."""
    kind = row['type'].lower()
    if kind in kinds:
        return kind
    notes.left_out[f'{what} of type {kind or "none"}'] += 1
    return None


# ---- Expanded files


@dataclass
class Network:
    """Events and activities, with the ids that they have or come from in a periodic timetable."""
    events: list[Event]
    activities: list[Activity]
    periodic_events: dict[int, int]
    periodic_activities: dict[int, int]

    def check_size(self) -> None:
        if len(self.events) > PROGRAM.events or len(self.activities) > PROGRAM.activities:
            raise Refused(
                f'the network would have more than {PROGRAM.events} events or {PROGRAM.activities} activities; with --period choose a '
                'shorter stretch by --from= and --to='
            )


def read_expanded(folder: str, units: Units) -> Network:
    events, periodic_events = [], {}
    for row in rows_of(folder, 'Events-expanded.giv', EXPANDED_EVENTS, ['id', 'type', 'time', 'weight']):
        kind = kind_of(row, ('departure', 'arrival'), 'events', units.notes)
        if kind is not None:
            stop = id_of(row, 'stop') if row['stop'] else 0
            events.append(Event(id_of(row, 'id'), kind, units.time(row, 'time'), weight_of(row), stop))
            periodic_events[events[-1].id] = id_of(row, 'periodic-id') if row['periodic-id'] else 0
    known = {event.id for event in events}
    activities, periodic_activities = [], {}
    needed = ['id', 'type', 'tail', 'head', 'lower', 'weight']
    for row in rows_of(folder, 'Activities-expanded.giv', EXPANDED_ACTIVITIES, needed):
        kind = kind_of(row, KINDS, 'activities', units.notes)
        if kind is None:
            continue
        ends, lower = (id_of(row, 'tail'), id_of(row, 'head')), units.bound(row, 'lower')
        if is_held(kind, ends, known, lower, units.notes):
            activities.append(Activity(id_of(row, 'id'), kind, *ends, lower, weight_of(row)))
            periodic_activities[activities[-1].id] = id_of(row, 'periodic-id') if row['periodic-id'] else 0
    return Network(events, activities, periodic_events, periodic_activities)


def is_held(kind: str, ends: tuple[int, int], known: set[int], lower: int, notes: Notes) -> bool:
    """Whether the program would take an activity with these ends."""
    if not known.issuperset(ends):
        notes.left_out['activities whose events are not there'] += 1
    elif kind == 'headway' and lower == 0:
        notes.left_out['headways of no length'] += 1
    else:
        return True
    return False


def delay_file(folder: str, name: str, known: set[int], units: Units) -> str:
    """The text of a delay file, without the delays of what is not in the network."""
    lines = ['# id; delay\n']
    for row in rows_of(folder, name, DELAYS, ['id', 'delay']):
        if id_of(row, 'id') in known:
            lines.append(f'{id_of(row, "id")}; {units.bound(row, "delay")}\n')
        else:
            units.notes.left_out[f'delays in {name} of what is not there'] += 1
    return ''.join(lines)


# ---- Periodic timetables


class Span(NamedTuple):
    """From when to when a timetable is rolled out, and its period, in seconds."""
    start: int
    end: int
    period: int

    def times(self, first: int) -> range:
        """All times within, of which one is `first` or whole periods from it."""
        return range(self.start + (first - self.start) % self.period, self.end + 1, self.period)


def roll_out(folder: str, span: Span, units: Units) -> Network:
    """The network of a periodic timetable over a span."""
    network = Network([], [], {}, {})
    places = roll_events_out(network, folder, span, units)
    needed = ['id', 'type', 'tail', 'head', 'lower', 'upper', 'weight']
    for row in rows_of(folder, 'Activities-periodic.giv', PERIODIC_ACTIVITIES, needed):
        for kind, tail, head, lower, weight in rolled_activities(row, places, span, units):
            activity = Activity(len(network.activities) + 1, kind, tail, head, lower, weight)
            network.activities.append(activity)
            network.periodic_activities[activity.id] = id_of(row, 'id')
            network.check_size()
    return network


def roll_events_out(network: Network, folder: str, span: Span, units: Units) -> dict[int, dict[int, int]]:
    """Gives a network the events of a periodic timetable; the new id of each by the periodic one and the time."""
    rows = rows_of(folder, 'Timetable-periodic.tim', TIMETABLE, ['id', 'time'])
    times = {id_of(row, 'id'): units.time(row, 'time') for row in rows}
    places: dict[int, dict[int, int]] = {}
    for row in rows_of(folder, 'Events-periodic.giv', PERIODIC_EVENTS, ['id', 'type', 'stop', 'weight']):
        kind, periodic = kind_of(row, ('departure', 'arrival'), 'events', units.notes), id_of(row, 'id')
        if kind is None:
            continue
        if periodic not in times or periodic in places:
            what = f'event {periodic} stands twice' if periodic in places else f'Timetable-periodic.tim has no event {periodic}'
            raise row.fault('id', what)
        places[periodic] = {}
        for time in span.times(times[periodic]):
            event = Event(len(network.events) + 1, kind, time, weight_of(row), id_of(row, 'stop'))
            network.events.append(event)
            network.periodic_events[event.id] = periodic
            places[periodic][time] = event.id
            network.check_size()
    return places


def rolled_activities(
    row: Row, places: dict[int, dict[int, int]], span: Span, units: Units,
) -> Iterator[tuple[str, int, int, int, int]]:
    """The activities of a periodic one: kind, tail, head, lower bound and weight of each."""
    kind = kind_of(row, KINDS, 'periodic activities', units.notes)
    if kind is None:
        return
    tails, heads = places.get(id_of(row, 'tail')), places.get(id_of(row, 'head'))
    if not tails or not heads:
        units.notes.left_out['periodic activities whose events are not there'] += 1
        return
    lower = units.bound(row, 'lower')
    if kind == 'headway':
        yield from rolled_headways(tails, heads, lower, span.period - units.bound(row, 'upper'), units.notes)
        return
    first, upper = next(iter(heads)), units.bound(row, 'upper')
    for time, tail in tails.items():
        at = time + lower + (first - time - lower) % span.period
        if at > time + upper:
            units.notes.besides['activities above their upper bound'] += 1
        if at in heads:
            yield kind, tail, heads[at], lower, weight_of(row)
        else:
            units.notes.left_out['activities that lead out of the stretch of time'] += 1


def rolled_headways(
    tails: dict[int, int], heads: dict[int, int], lower: int, opposite: int, notes: Notes,
) -> Iterator[tuple[str, int, int, int, int]]:
    """Both ways between the times of two events that follow each other: `lower` from a tail, `opposite` from a head."""
    ordered = sorted(
        [(time, True, event) for time, event in tails.items()] + [(time, False, event) for time, event in heads.items()]
    )
    for (time, is_tail, first), (after, is_other_tail, second) in zip(ordered, ordered[1:]):
        if is_tail == is_other_tail:
            continue
        tail, head = (first, second) if is_tail else (second, first)
        if time == after or lower < 1 or opposite < 1:
            notes.left_out['headways of no length, or between events at the same time'] += 1
        else:
            yield 'headway', tail, head, lower, 0
            yield 'headway', head, tail, opposite, 0


# ---- What is written


def network_of(words: argparse.Namespace, units: Units) -> Network:
    """The network that the words ask for."""
    if words.period is not None:
        return roll_out(words.source, Span(words.start, words.end, int(words.period * units.seconds)), units)
    network = read_expanded(words.source, units)
    network.check_size()
    return network


def texts_of(words: argparse.Namespace, network: Network, units: Units) -> dict[str, str]:
    """The files of a network, those of its delays, and the names of its stops."""
    texts = network_files(network.events, network.activities, network.periodic_events, network.periodic_activities)
    if words.event_delays is not None:
        texts[words.event_delays] = delay_file(words.source, words.event_delays, set(network.periodic_events), units)
    if words.activity_delays is not None:
        texts[words.activity_delays] = delay_file(words.source, words.activity_delays, set(network.periodic_activities), units)
    if words.stops is not None:
        texts['Stops.csv'] = in_print(['id', *StopName._fields[1:]], names_of_stops(words.stops))
    return texts


def names_of_stops(name: str) -> list[StopName]:
    """The stops of a file with what they are called, by the long name where there is one."""
    stops = []
    for row in rows_of(*os.path.split(name), STOPS, ['id']):
        called = row['long'] or row['short'] or row['id']
        stops.append(StopName(id_of(row, 'id'), called.encode('latin-1').decode('utf-8', 'replace')))
    return stops


def summary(network: Network, notes: Notes) -> Iterator[str]:
    kinds = Counter(activity.kind for activity in network.activities)
    counts = ', '.join(f'{kind}s {kinds[kind]}' for kind in KINDS)
    yield f'events {len(network.events)}, activities {len(network.activities)}: {counts}'
    yield from notes.in_print()
