"""Whose train a message of GTFS-Realtime means, at which of its calls, and which of its events do not take place."""
from __future__ import annotations

import os
import sys
from bisect import bisect_left
from collections import Counter, defaultdict
from dataclasses import dataclass, field
from typing import Iterable, Iterator, Optional, Sequence

from dispatch_tools.formats.files import in_one_line, write_all
from dispatch_tools.formats.giv import whole
from dispatch_tools.formats.gtfs_rows import seconds_of
from dispatch_tools.formats.names import EventName, in_print, records, TrainName
from dispatch_tools.formats.protobuf import Message
from dispatch_tools.formats.realtime import by_key, key_of, Named, TRIPS_GONE, TRIPS_TAKEN
from dispatch_tools.model.network import Network

# A reserve train runs for an added trip that leaves at most so many seconds before or behind it.
RESERVE_WITHIN = 900

# So many lines of a kind are printed.
SHOWN = 1_000

# A call of a train: the train's first event, and the place of the call in the trip.
CallOf = tuple[int, int]


@dataclass
class Said:
    """What the script says to people: each line once, how often it found what, and what is wrong with a source now."""
    counts: Counter[str] = field(default_factory=Counter)
    lines: dict[str, set[str]] = field(default_factory=lambda: defaultdict(set))
    faults: dict[str, str] = field(default_factory=dict)

    def tell(self, what: str, which: str) -> None:
        self.counts[what] += 1
        lines = self.lines[what]
        if which in lines or len(lines) > SHOWN:
            return
        lines.add(which)
        self.say(f'{what}: {in_one_line(which)}' if len(lines) <= SHOWN else f'{what}: more than {SHOWN}, and no more are shown')

    def say(self, line: str) -> None:
        print(f'gtfs_rt_in: {line}', file=sys.stderr, flush=True)

    def fault(self, source: str, what: str) -> None:
        """Says what is wrong with a source or a feed, unless that was said last."""
        self.counts['sources that cannot be read'] += 1
        if self.faults.get(source) != what:
            self.say(f'sources that cannot be read: {in_one_line(what)}')
        self.faults[source] = what

    def well(self, source: str) -> None:
        if self.faults.pop(source, None) is not None:
            self.say(f'{in_one_line(source)}: this can be read again')


@dataclass
class Trips:
    """The trains of a network by what messages call them and their calls; the events, by place, that reserve trains have; and which of
    these trains runs for which added trip."""
    network: Network
    named: Named
    said: Said
    reserve: set[int]
    added: dict[tuple[str, str, str], int] = field(default_factory=dict)

    def __post_init__(self) -> None:
        self.trains = by_key(self.named)
        self.calls: dict[int, dict[object, list[EventName]]] = {train: {} for train in self.named.events}
        self.stops: dict[int, dict[object, list[int]]] = {train: {} for train in self.named.events}
        for train, events in self.named.events.items():
            for one in events:
                self.calls[train].setdefault(one.sequence, []).append(one)
                self.stops[train].setdefault(one.stop, []).append(one.sequence)

    def train_of(self, trip: Message) -> Optional[int]:
        """The train of a TripDescriptor that runs, or is cancelled; otherwise None, with a report that says why."""
        key = key_of(trip, self.named.day)
        relation = trip.get('schedule_relationship', 0)
        train = self.trains.get(key, self.trains.get((*key[:2], ''), self.added.get(key)))
        if train is None or relation not in TRIPS_TAKEN | set(TRIPS_GONE):
            self.said.tell('trips that the network has not', ' '.join(part for part in key if part))
            return None
        return train

    def place_of(self, name: EventName) -> int:
        return self.network.event_place[name.event]

    def places_of(self, train: int) -> list[int]:
        return [self.place_of(name) for name in self.named.events[train]]

    def reserve_for(self, update: Message, taken: set[int]) -> Optional[int]:
        """The reserve train that runs for an added trip: the one that did so far, or one of its route, or with its stops, that leaves about
        when it does."""
        trip, calls = update.get('trip', {}), update.get('stop_time_update', ())
        key = key_of(trip, self.named.day)
        if key in self.added:
            return self.added[key]
        train = self.nearest(trip, calls, taken | set(self.added.values()))
        if train is None:
            self.said.tell('trips that are added, for which no reserve train fits', ' '.join(part for part in key if part))
            return None
        self.said.counts['trips that are added, for which a reserve train runs'] += 1
        self.added[key] = train
        return train

    def nearest(self, trip: Message, calls: Sequence[Message], taken: set[int]) -> Optional[int]:
        """The reserve train that nobody has and that leaves nearest to an added trip, of its route or with its stops."""
        at = self.first_time(trip, calls)
        stops = [call['stop_id'] for call in calls if 'stop_id' in call]
        found = []
        for train, events in self.named.events.items():
            places = self.places_of(train)
            fits = trip.get('route_id') == route_of(self.named.trains[train]) or stops and stops == list(dict.fromkeys(one.stop for one in events))
            if at is not None and fits and train not in taken and self.reserve.issuperset(places):
                found.append((abs(self.network.events[places[0]].time - at), train))
        distance, train = min(found, default=(RESERVE_WITHIN + 1, 0))
        return train if distance <= RESERVE_WITHIN else None

    def first_time(self, trip: Message, calls: Sequence[Message]) -> Optional[int]:
        """When an added trip begins, in seconds of the service day: as it is planned, or else as its first call is reported."""
        planned = seconds_of(str(trip.get('start_time', '')))
        if planned is not None:
            return planned
        for call in calls[:1]:
            for kind in 'departure', 'arrival':
                if call.get(kind, {}).get('time'):
                    return int(call[kind]['time']) - self.named.begin
        return None

    def events_at(self, train: int, sequence: object, stop: object, behind: int) -> list[EventName]:
        """The events of a train at a call, by its place in the trip or else by the first such stop not before another place."""
        if sequence is None:
            places = self.stops[train].get(stop, [])
            place = bisect_left(places, behind)
            sequence = places[place] if place < len(places) else None
        return self.calls[train].get(sequence, [])

    def changes_at(self, events: Iterable[EventName]) -> Iterator[int]:
        """The changes to or from some events, by place."""
        places = {self.place_of(name) for name in events}
        for place, (activity, tail, head) in enumerate(zip(self.network.activities, self.network.tails, self.network.heads)):
            if activity.kind == 'change' and (tail in places or head in places):
                yield place

    def cut_off(self, train: int, skipped: set[int]) -> set[int]:
        """The events of a train, by place, that do not take place where it skips these calls: all up to its first arrival at a call that
        it makes, and all from its last departure on. Between these it runs through."""
        events = self.named.events[train]
        made = [place for place, name in enumerate(events) if name.sequence not in skipped]
        if not made:
            return set(self.places_of(train))
        begin = next((place for place in made if events[place].kind == 'departure'), len(events))
        end = next((place for place in reversed(made) if events[place].kind == 'arrival'), -1)
        return {self.place_of(name) for place, name in enumerate(events) if not begin <= place <= end}

    def through(self, train: int, skipped: set[int]) -> set[CallOf]:
        """The calls that a train skips while it runs through."""
        gone = self.cut_off(train, skipped)
        return {(train, name.sequence) for name in self.named.events[train] if name.sequence in skipped and self.place_of(name) not in gone}


def route_of(train: TrainName) -> str:
    """The id of a train's route, or its name in a network that has no ids."""
    return train.route_id or train.route


# ---- Calls that trains skip, in a file


def read_skipped(path: str) -> set[CallOf]:
    """The calls of a file; none where it is not there."""
    if not os.path.exists(path):
        return set()
    rows = records(os.path.dirname(path), os.path.basename(path), lambda train, sequence: (whole(train), whole(sequence)))
    return {row for _, row in rows}


def write_skipped(path: str, calls: Iterable[CallOf]) -> None:
    write_all(os.path.dirname(path) or '.', {os.path.basename(path): in_print(('first event', 'stop_sequence'), sorted(calls))})
