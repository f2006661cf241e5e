"""The lines that cancel a train or a part of it, and gaps in what trains still run."""
from __future__ import annotations

from typing import Iterable, Iterator, NamedTuple, Optional, Sequence

from dispatch_tools.formats.files import BadFile
from dispatch_tools.formats.giv import read_network, whole
from dispatch_tools.formats.names import read_stops, records, shown, TrainName
from dispatch_tools.model.messages import Cancel, Restore
from dispatch_tools.model.network import Network
from dispatch_tools.pictures.scene import clock_time, trains_of

# At most so many trains or times are named where a word may mean several.
NAMED = 5


class Gap(NamedTuple):
    """A train whose events that are left are no whole run: the place of the first event of the train, that of the event at which it is
    seen, and what is wrong there."""
    first: int
    at: int
    what: str


def gaps(network: Network, trains: Iterable[Sequence[int]], cancelled: Sequence[bool]) -> Iterator[Gap]:
    """The gaps of trains: events behind a cancelled one to which nobody brings the train, and drives of which one end is cancelled."""
    for train in trains:
        left = [place for place in train if not cancelled[place]]
        if not left or len(left) == len(train):
            continue
        begin, end = train.index(left[0]), train.index(left[-1])
        inside = next((place for place in train[begin:end] if cancelled[place]), None)
        if inside is not None:
            yield Gap(train[0], inside, 'it is cancelled, and the train runs on behind it')
        elif begin and network.events[left[0]].kind == 'arrival':
            yield Gap(train[0], left[0], 'the train arrives, and the departure before it is cancelled')
        elif end + 1 < len(train) and network.events[left[-1]].kind == 'departure':
            yield Gap(train[0], left[-1], 'the train leaves, and the arrival behind it is cancelled')


def read_names(net: str) -> list[TrainName]:
    """The trains of Trains.csv, of which a number and a name are enough."""
    def named(event: str, name: str, *more: str) -> TrainName:
        trip, route, direction, headsign, block = [*more, '', '', '', '', ''][:5]
        return TrainName(whole(event), shown(name), trip, route, direction, headsign, block)
    return [row for _, row in records(net, 'Trains.csv', named)]


class Part(NamedTuple):
    """The stops from which and to which a train does not run; None for its first and its last."""
    start: Optional[str]
    end: Optional[str]


class Trains:
    """The trains of a network by name, each a list of the places of its events."""

    def __init__(self, net: str) -> None:
        self.net = net
        self.network = read_network(net)
        self.trains = {self.network.events[train[0]].id: train for train in trains_of(self.network)}
        self.names = [name for name in read_names(net) if name.event in self.trains]
        self.stops = read_stops(net)

    def called(self, word: str) -> list[TrainName]:
        """The train of a trip, or else those of a vehicle, or else the one of this name; BadFile if there is none, or if several have
        the name."""
        for field in 'trip', 'block', 'name':
            found = [train for train in self.names if word and getattr(train, field) == word]
            if field == 'name' and len(found) > 1:
                trips = ', '.join(train.trip for train in found[:NAMED])
                raise BadFile(self.net, None, f'{len(found)} trains are called {word}: name a trip, as {trips}')
            if found:
                return found
        raise BadFile(self.net, None, f'no trip, vehicle or train is called {word}')

    def is_at(self, place: int, stop: str) -> bool:
        """Whether an event is at a stop, which is named or numbered."""
        number = self.network.events[place].stop
        return stop.casefold() in (str(number), self.stops.get(number, '').casefold())

    def at(self, train: Sequence[int], kind: str, stop: str) -> int:
        """The one event of a kind of a train at a stop, by its place in the train; BadFile if there is none, or several."""
        found = [number for number, place in enumerate(train) if self.network.events[place].kind == kind and self.is_at(place, stop)]
        verb = 'leaves' if kind == 'departure' else 'reaches'
        if not found:
            raise BadFile(self.net, None, f'the train never {verb} {stop}')
        if len(found) > 1:
            times = ', '.join(f'{clock_time(self.network.events[train[number]].time)} (event {self.network.events[train[number]].id})'
                              for number in found[:NAMED])
            raise BadFile(self.net, None, f'the train {verb} {stop} {len(found)} times: {times}')
        return found[0]

    def part(self, train: Sequence[int], part: Part) -> Sequence[int]:
        """The events of a train from the departure at one stop to the arrival at another."""
        begin = 0 if part.start is None else self.at(train, 'departure', part.start)
        end = len(train) - 1 if part.end is None else self.at(train, 'arrival', part.end)
        if end < begin:
            raise BadFile(self.net, None, f'the train reaches {part.end} before it leaves {part.start}')
        return train[begin:end + 1]


class Cancelled(NamedTuple):
    """The lines that cancel trains, or let them run again, and what somebody should know of it."""
    lines: list[Cancel | Restore]
    notes: list[str]


def cancelled(net: str, word: str, part: Part, restores: bool) -> Cancelled:
    """The lines for the trains that are called so, or a part of the one train that is; BadFile if there are none."""
    trains = Trains(net)
    network, named = trains.network, trains.called(word)
    if len(named) > 1 and part != Part(None, None):
        trips = ', '.join(train.trip for train in named[:NAMED])
        raise BadFile(net, None, f'{word} is {len(named)} trains: name one trip, as {trips}')
    found = [trains.part(trains.trains[train.event], part) for train in named]
    places = [place for run in found for place in run]
    if restores:
        return Cancelled([Restore(network.events[place].id) for place in places], [])
    flags = [False] * len(network.events)
    for place in places:
        flags[place] = True
    notes = [f'event {network.events[gap.at].id}: {gap.what}' for gap in gaps(network, [trains.trains[train.event] for train in named], flags)]
    labels = {place: name.name for name in trains.names for place in trains.trains[name.event]}
    for activity, tail, head in zip(network.activities, network.tails, network.heads):
        if activity.kind == 'turnaround' and flags[tail] and not flags[head]:
            notes.append(f'its vehicle was to run {labels.get(head, f"event {network.events[head].id}")}, which now waits for no vehicle: '
                         'cancel that too if there is no other')
    return Cancelled([Cancel(network.events[place].id) for place in places], notes)
