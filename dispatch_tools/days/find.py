"""Changes by their trains and their stop, and events by their train and their stop."""
from __future__ import annotations

from dataclasses import dataclass
from typing import Iterator, Optional

from dispatch_tools.formats.files import BadFile
from dispatch_tools.formats.giv import read_network
from dispatch_tools.formats.names import ChangeName, EventName, read_changes, read_events, read_stops, read_trains, TrainName


@dataclass(frozen=True)
class Found:
    """A change, its two trains, and the names of its two events."""
    change: ChangeName
    train: TrainName
    next_train: TrainName
    arrival: EventName
    departure: EventName
    station: str

    def __str__(self) -> str:
        return (
            f'{self.change.change}: {self.train.name} ({self.train.trip}) arrives at {self.station} ({self.arrival.stop}) at '
            f'{self.arrival.time}, {self.next_train.name} ({self.next_train.trip}) leaves {self.departure.stop} at '
            f'{self.departure.time}; {self.change.lower} seconds, {self.change.passengers} passengers, {self.change.origin}'
        )


def all_changes(net: str) -> Iterator[Found]:
    """The changes of a network, by names."""
    network = read_network(net)
    events = {name.event: name for name in read_events(net)}
    trains = {name.event: name for name in read_trains(net)}
    stations = read_stops(net)
    for change in read_changes(net):
        place = network.activity_place.get(change.change)
        if place is None or network.activities[place].kind != 'change':
            raise BadFile(f'{net}/Changes.csv', None, f'{change.change} is no change of the network')
        activity = network.activities[place]
        if activity.tail not in events or activity.head not in events:
            raise BadFile(f'{net}/Events.csv', None, f'an event of change {change.change} is missing')
        arrival, departure = events[activity.tail], events[activity.head]
        stop = network.events[network.tails[place]].stop
        pair = trains[arrival.train], trains[departure.train]
        yield Found(change, *pair, arrival, departure, stations.get(stop, str(stop)))


@dataclass(frozen=True)
class FoundEvent:
    """An event, its train, and the name of its station."""
    event: EventName
    train: TrainName
    station: str

    def __str__(self) -> str:
        verb = 'arrives at' if self.event.kind == 'arrival' else 'leaves'
        return f'{self.event.event}: {self.train.name} ({self.train.trip}) {verb} {self.station} ({self.event.stop}) at {self.event.time}'


def all_events(net: str) -> Iterator[FoundEvent]:
    """The events of a network, by names."""
    network = read_network(net)
    trains = {name.event: name for name in read_trains(net)}
    stations = read_stops(net)
    for name in read_events(net):
        place = network.event_place.get(name.event)
        if place is None:
            raise BadFile(f'{net}/Events.csv', None, f'{name.event} is no event of the network')
        if name.train not in trains:
            raise BadFile(f'{net}/Trains.csv', None, f'the train of event {name.event} is missing')
        stop = network.events[place].stop
        yield FoundEvent(name, trains[name.train], stations.get(stop, str(stop)))


def is_called(train: TrainName, word: str) -> bool:
    return word.casefold() in (one.casefold() for one in (train.name, train.route, train.trip))


def find_events(net: str, train: str, stop: Optional[str], kind: Optional[str]) -> list[FoundEvent]:
    """The events of the trains that are called so, at a stop and of a kind where these are given."""
    return [
        found for found in all_events(net)
        if is_called(found.train, train) and kind in (None, found.event.kind) and (
            stop is None or stop.casefold() in (one.casefold() for one in (found.station, found.event.stop))
        )
    ]


def find(net: str, train: str, next_train: str, stop: Optional[str]) -> list[Found]:
    """The changes between trains that are called so, at a stop where one is given."""
    return [
        found for found in all_changes(net)
        if is_called(found.train, train) and is_called(found.next_train, next_train) and (
            stop is None or stop.casefold() in (one.casefold() for one in (found.station, found.change.stop, found.change.next_stop))
        )
    ]
