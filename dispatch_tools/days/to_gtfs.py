"""The disposition timetable in the form of GTFS."""
from __future__ import annotations

import csv
import io
import os
from dataclasses import dataclass
from typing import Iterable, Optional, Sequence

from dispatch_tools.formats.files import BadFile
from dispatch_tools.formats.giv import read_cancelled, read_network
from dispatch_tools.formats.gtfs_rows import clock, Feed
from dispatch_tools.formats.names import EventName, named_trip, read_events, read_trains, TrainName, trip_in_feed
from dispatch_tools.formats.lines import Bad
from dispatch_tools.formats.runtext import read_run, Run
from dispatch_tools.model.messages import cancelled_after
from dispatch_tools.model.network import Event

STOP_TIMES = ('trip_id', 'arrival_time', 'departure_time', 'stop_id', 'stop_sequence')
DELAYS = ('trip_id', 'route', 'headsign', 'departure_delay', 'arrival_delay', 'largest_delay', 'at_stop', 'at_sequence')


@dataclass
class Happening:
    """An event by its names, and when it happens."""
    name: EventName
    scheduled: int
    time: int
    is_cancelled: bool = False

    @property
    def delay(self) -> int:
        return self.time - self.scheduled

    def __str__(self) -> str:
        return f'the {self.name.kind} at {self.name.stop}, call {self.name.sequence}'


@dataclass(frozen=True)
class Stay:
    """For how many seconds a trip stands at its first stop before it leaves, and at its last stop behind its arrival."""
    before: int = 0
    behind: int = 0


def read_text(name: str, events: int) -> Run:
    """The run of a text over so many events; BadFile if it is no whole text."""
    try:
        with open(name, 'rb') as file:
            return read_run(file.read(), events)
    except OSError as error:
        raise BadFile(name, None, error.strerror or 'cannot be read') from error
    except Bad as error:
        line, kind = error.args
        raise BadFile(name, line, f'this is no text of a run over the network ({kind})') from error


def happenings_by_train(net: str, text: str, cancelled: Optional[str] = None) -> dict[int, list[Happening]]:
    """What happens to each train, in the order of the timetable."""
    events: dict[int, Event] = {event.id: event for event in read_network(net).events}
    run = read_text(text, len(events))
    times, off = run.times, cancelled_after((entry.message for entry in run.journal), read_cancelled(net, cancelled))
    trains: dict[int, list[Happening]] = {}
    for name in read_events(net):
        for ids, what in (events.keys(), 'the network'), (times.keys(), text):
            if name.event not in ids:
                raise BadFile(os.path.join(net, 'Events.csv'), None, f'event {name.event} is not in {what}')
        trains.setdefault(name.train, []).append(Happening(name, events[name.event].time, times[name.event], name.event in off))
    return trains


def those_that_run(happenings: list[Happening]) -> tuple[list[Happening], Optional[str]]:
    """What of a train is not cancelled, and what is to be said of it, if anything is."""
    left = [one for one in happenings if not one.is_cancelled]
    trip, gone = happenings[0].name.trip, len({one.name.sequence for one in happenings} - {one.name.sequence for one in left})
    if len(left) == len(happenings):
        return left, None
    return left, f'trip {trip}: calls that are cancelled and left out: {gone}' if left else f'trip {trip}: it is cancelled, and left out'


def never_falling(times: Sequence[int]) -> list[int]:
    """The times of a train, each that is above one behind it put down to that.

    Only an event that has passed is not held back by those before it, so it is the later one that is known.
    """
    left = list(times)
    for place in reversed(range(len(left) - 1)):
        left[place] = min(left[place], left[place + 1])
    return left


def without_falls(happenings: list[Happening]) -> Optional[str]:
    """Puts each time of a train that is above one behind it down to that; what is to be said of it, if there are any."""
    falls = [
        (one, least) for one, least in zip(happenings, never_falling([one.time for one in happenings])) if one.time > least
    ]
    said = [f'{one}, {clock(one.time)} as {clock(least)}' for one, least in falls]
    for one, least in falls:
        one.time = least
    trip = happenings[0].name.trip
    return f'trip {trip}: its times fall, so some are written as one that follows: {len(said)}, first {said[0]}' if said else None


def stays_of(name: Optional[str], trips: Iterable[str]) -> dict[str, Stay]:
    """How long trips of a feed stand at their ends; those that frequencies made as the trip that repeats."""
    if name is None:
        return {}
    ends: dict[str, list[tuple[int, int]]] = {}
    with Feed(name) as feed:
        for row in feed.rows('stop_times.txt', ['trip_id', 'arrival_time', 'departure_time', 'stop_sequence']):
            arrival, departure = row.time('arrival_time'), row.time('departure_time')
            if arrival is not None and departure is not None:
                call = row.number('stop_sequence', 10 ** 9), max(0, departure - arrival)
                known = ends.setdefault(row['trip_id'], [call, call])
                ends[row['trip_id']] = [min(known[0], call), max(known[1], call)]
    stays = {trip: Stay(first[1], last[1]) for trip, (first, last) in ends.items()}
    return {trip: stays.get(trip_in_feed(trip), stays.get(named_trip(trip).trip, Stay())) for trip in trips}


def calls_of(happenings: list[Happening], stay: Stay) -> Iterable[tuple[object, ...]]:
    """The rows of a train in stop_times.txt."""
    by_call: dict[int, dict[str, Happening]] = {}
    for one in happenings:
        by_call.setdefault(one.name.sequence, {})[one.name.kind] = one
    for sequence, ends in sorted(by_call.items()):
        some = next(iter(ends.values()))
        arrival = ends['arrival'].time if 'arrival' in ends else max(0, some.time - stay.before)
        departure = ends['departure'].time if 'departure' in ends else some.time + stay.behind
        yield trip_in_feed(some.name.trip), clock(arrival), clock(departure), some.name.stop, sequence


def delays_of(train: TrainName, happenings: list[Happening]) -> tuple[object, ...]:
    """The row of a train in delays.csv."""
    latest = max(happenings, key=lambda one: one.delay)
    return (
        trip_in_feed(train.trip), train.route, train.headsign, happenings[0].delay, happenings[-1].delay, latest.delay, latest.name.stop,
        latest.name.sequence,
    )


def in_print(columns: Iterable[str], rows: Iterable[Iterable[object]]) -> str:
    text = io.StringIO()
    writer = csv.writer(text, lineterminator='\n')
    writer.writerow(columns)
    writer.writerows(rows)
    return text.getvalue()


def stay_of(stay: Stay, happenings: list[Happening]) -> Stay:
    """How long a train stands at the ends that it has: it stands at no other stop as at its first and its last."""
    return Stay(0 if happenings[0].is_cancelled else stay.before, 0 if happenings[-1].is_cancelled else stay.behind)


def texts_of(net: str, text: str, feed: Optional[str], cancelled: Optional[str] = None) -> tuple[dict[str, str], list[str]]:
    """The files of a run, by name, and what is to be said of its times."""
    whole = happenings_by_train(net, text, cancelled)
    left = {train: those_that_run(happenings) for train, happenings in whole.items()}
    trains = {train: running for train, (running, _) in left.items() if running}
    said = [line for _, line in left.values() if line]
    names = [train for train in read_trains(net) if train.event in trains]
    said += [line for train in names if (line := without_falls(trains[train.event]))]
    stays = stays_of(feed, {train.trip for train in names})
    calls = (call for train in names for call in calls_of(
        trains[train.event], stay_of(stays.get(train.trip, Stay()), whole[train.event])))
    delays = (delays_of(train, trains[train.event]) for train in names)
    return {'stop_times.txt': in_print(STOP_TIMES, calls), 'delays.csv': in_print(DELAYS, delays)}, said
