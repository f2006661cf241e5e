"""The trains of a day with their events, and the rules by which a network is made of them."""
from __future__ import annotations

from collections import Counter
from dataclasses import dataclass, field, replace
from fractions import Fraction
from functools import cached_property
from itertools import chain
from typing import Callable, Iterable, Iterator, Optional, Sequence, TypeVar

from dispatch_tools.formats.gtfs import Call, Day, End, Told, Trip
from dispatch_tools.formats.gtfs_rows import clock
from dispatch_tools.formats.names import name_of_trip, named_trip
from dispatch_tools.model.cuts import Calls, in_words, stations_that_part
from dispatch_tools.model.network import Event

Item = TypeVar('Item')

ONE_PASSENGER = 1000

WHOLE_DAY = 24 * 3600


class Refused(Exception):
    """There is no network that the program would load."""


@dataclass(frozen=True)
class Limits:
    """The most events and activities of a network; by default those of the program."""
    events: int = 100_000
    activities: int = 500_000


PROGRAM = Limits()


@dataclass(frozen=True)
class Headways:
    """The seconds between departures: by two stations and the kind of vehicle, by two stations, by the kind, or else the usual ones.

    What is not said of stations or of the kind is empty in a key; 0 seconds make none.
    """
    usual: int
    said: dict[tuple[str, str, str], int] = field(default_factory=dict)

    def between(self, start: str, end: str, kind: str) -> tuple[int, bool]:
        """The seconds, and whether they are said."""
        for key in (start, end, kind), (start, end, ''), ('', '', kind):
            if key in self.said:
                return self.said[key], True
        return self.usual, False


@dataclass(frozen=True)
class Rules:
    """How long activities take; times in seconds, shares of one. No headways are made where theirs are None.

    `guaranteed` are the passengers of a guaranteed connection, in thousandths, or None if they are as those of other changes.
    `single` are the seconds between an arrival from a single track and a departure into it, by the two stations at its ends.
    """
    reserve: Fraction
    dwell: int
    turn: int
    longest_change: int
    headways: Optional[Headways]
    changing: Fraction
    guaranteed: Optional[int] = None
    single: dict[frozenset[str], int] = field(default_factory=dict)


@dataclass(frozen=True)
class Window:
    """A stretch of the day; a train is in it that runs at any time within, or from which one changes over midnight into its first hours."""
    start: int
    end: int

    def has(self, train: Train) -> bool:
        return train.begins <= self.end and (train.ends >= self.start or self.start == 0)


@dataclass
class Notes:
    """How often what was found while a network was made: what was left out, and what else a planner should know."""
    left_out: Told = field(default_factory=Told)
    besides: Told = field(default_factory=Told)
    paired: int = 0

    def in_print(self) -> Iterator[str]:
        for title, told in ('left out', self.left_out), ('besides', self.besides):
            yield from (f'{title}: {line}' for line in told.in_print())


# ---- Trains and their events


@dataclass
class Train:
    """A trip that runs once, so many seconds after the times of its calls; it repeats where a frequency made it, at exact times or not. A
    reserve train is cancelled at the start."""
    name: str
    trip: Trip
    shift: int
    repeats: bool
    is_exact: bool = True
    moments: list[Moment] = field(default_factory=list)
    linked: set[str] = field(default_factory=set)
    is_reserve: bool = False

    @property
    def begins(self) -> int:
        return self.trip.calls[0].departure + self.shift

    @property
    def ends(self) -> int:
        return self.trip.calls[-1].arrival + self.shift

    @property
    def events(self) -> int:
        """How many events it has past midnight."""
        later = [call for call in self.trip.calls if call.departure + self.shift >= 0]
        return max(0, 2 * len(later) - 2)

    @cached_property
    def stations(self) -> set[str]:
        """Where it calls."""
        return {moment.beyond for moment in self.moments}

    @property
    def label(self) -> str:
        return f'{self.trip.route.name} {self.trip.short_name or clock(self.begins if self.begins >= 0 else self.begins + WHOLE_DAY)[:-3]}'

    def shares_vehicle(self, other: Train) -> bool:
        block = self.trip.block
        if other.name in self.linked:
            return True
        return block != '' and block == other.trip.block and not (self.repeats or other.repeats)


@dataclass(slots=True)
class Moment:
    """An event, the train and the call that it is of, and the station that the train comes from or goes to."""
    event: Event
    train: Train
    call: Call
    beyond: str

    @property
    def is_early(self) -> bool:
        """Whether it lies before midnight."""
        return self.event.time < 0

    @property
    def scheduled(self) -> int:
        """The time of the timetable, also where that of the event is midnight, since it lies before."""
        return self.train.shift + (self.call.departure if self.event.kind == 'departure' else self.call.arrival)

    @property
    def end(self) -> End:
        trip = self.train.trip
        return End(self.call.stop, trip.id, trip.route.id)


@dataclass(frozen=True)
class Reach:
    """How long before midnight one may arrive to change past it: the longest change, or any time by a trip with a guaranteed connection."""
    longest_change: int = 0
    promised: frozenset[str] = frozenset()

    def of(self, trip: Trip) -> int:
        return WHOLE_DAY if trip.id in self.promised else self.longest_change


def trains_of(
    day: Day, before: Optional[Day], window: Window, stations: dict[str, str], notes: Notes, limits: Limits, reach: Reach = Reach(),
) -> list[Train]:
    """The trips of a day, and of the one before, that run within a window, in the order in which they begin; Refused if they have
    too many events. Those of the day before from which one may change to a train past midnight are among them."""
    trains: list[Train] = []
    events: Counter[str] = Counter()
    ways: Counter[tuple[str, ...]] = Counter()
    calls = Calls()
    for train in chain(all_trains(day, notes), towards_midnight(before, reach) if before else ()):
        if window.has(train):
            events[train.trip.route.id] += train.events
            way = tuple(stations[call.stop] for call in train.trip.calls)
            ways[way] += 1
            calls.take(way, (train.trip.route.id, train.trip.direction or way[-1]))
            if events.total() <= limits.events:
                trains.append(train)
            notes.besides['trains of frequencies without exact times, which leave about so often'] += not train.is_exact
        else:
            notes.left_out['trains outside of --from and --to'] += 1
    if events.total() > limits.events:
        most = ', '.join(f'{route} {count}' for route, count in events.most_common(5))
        raise Refused(
            f'the network would have {events.total()} events, and may have {limits.events}: choose routes by --routes= '
            f'(most events: {most}), or a part of the day by --from= and --to=; or cut it into regions by dispatch-tools split with --date='
            f'{in_words(stations_that_part(ways), calls, limits.events)}'
        )
    trains.sort(key=lambda train: (train.begins, train.name))
    return trains


def mark_reserve(trains: Iterable[Train], named: set[str], notes: Notes) -> None:
    """Marks the reserve trains, which are named by themselves or by their trips."""
    found: set[str] = set()
    for train in trains:
        names = {train.name, train.trip.id} & named
        train.is_reserve = bool(names)
        found |= names
    notes.left_out['reserve trains that do not run on the day, or are not chosen'] += len(named - found)


def with_reserve(ordered: Sequence[Item], is_reserve: Callable[[Item], bool], pairs: Callable[[Sequence[Item]], Iterable[tuple[Item, Item]]],
                 ) -> Iterator[tuple[Item, Item]]:
    """The pairs of what is no reserve, as if there were none; and those with a reserve, as if it were none."""
    yield from pairs([one for one in ordered if not is_reserve(one)])
    if any(map(is_reserve, ordered)):
        yield from ((one, other) for one, other in pairs(ordered) if is_reserve(one) or is_reserve(other))


def neighbours(ordered: Sequence[Item]) -> Iterator[tuple[Item, Item]]:
    return zip(ordered, ordered[1:])


def all_trains(day: Day, notes: Notes) -> Iterator[Train]:
    for trip in day.trips.values():
        frequencies = day.frequencies.get(trip.id)
        if frequencies is None:
            yield Train(name_of_trip(trip.id), trip, 0, False)
            continue
        starts = Counter(start for one in frequencies for start in one.departures)
        exact = {start for one in frequencies if one.is_exact for start in one.departures}
        notes.left_out['trips of frequencies.txt that never leave'] += not starts
        for start, count in starts.items():
            notes.left_out['trains that two frequencies make at the same time'] += count - 1
            if f'{trip.id}@{clock(start)}' in day.trips:
                notes.left_out['trains of frequencies that are trips of the feed, too'] += 1
            else:
                name = name_of_trip(trip.id, start=clock(start))
                yield Train(name, trip, start - trip.calls[0].departure, True, start in exact)


def towards_midnight(before: Day, reach: Reach) -> Iterator[Train]:
    """The trains of the day before, by the clock of the day, from the last stop on that they leave before they may be changed from to a
    train past midnight."""
    for train in all_trains(before, Notes()):
        shift, trip = train.shift - WHOLE_DAY, train.trip
        first = next((place for place, call in enumerate(trip.calls) if place and call.arrival + shift >= -reach.of(trip)), None)
        if first is not None:
            block = trip.block and f'{trip.block}@{trip.day_before}'
            name = name_of_trip(trip.id, trip.day_before, named_trip(train.name).start)
            yield Train(name, replace(trip, calls=trip.calls[first - 1:], block=block), shift, train.repeats, train.is_exact)


@dataclass
class Passengers:
    """How many passengers leave a trip at a stop, in thousandths, and how many of them change to another trip there; one at each arrival
    and each change if nothing is said of it."""
    numbers: Optional[dict[tuple[str, str], int]] = None
    changes: dict[tuple[str, str, str], int] = field(default_factory=dict)
    used: set[tuple[str, ...]] = field(default_factory=set)

    def leaving(self, train: Train, call: Call, left: set[str], notes: Notes) -> int:
        """How many leave at a call, where passengers have left the train at some stops before."""
        if not call.leaves:
            notes.besides['arrivals where nobody may leave the train, which count as none'] += 1
            return 0
        if self.numbers is None:
            return 0 if train.is_reserve else ONE_PASSENGER
        for key in (train.name, call.stop), (train.trip.id, call.stop):
            if key in self.numbers and call.stop in left:
                notes.besides['arrivals at a stop where the trip has its number of passengers already, which count as none'] += 1
                return 0
            if key in self.numbers:
                self.used.add(key)
                left.add(call.stop)
                return self.numbers[key]
        notes.besides['arrivals without a number of passengers, which count as none'] += 1
        return 0

    def changing(self, arrival: Moment, departure: Moment, rules: Rules, is_guaranteed: bool) -> int:
        """How many change from an arrival to a departure."""
        for train in arrival.train.name, arrival.train.trip.id:
            for other in departure.train.name, departure.train.trip.id:
                key = train, arrival.call.stop, other
                if key in self.changes:
                    self.used.add(key)
                    return self.changes[key]
        if is_guaranteed and rules.guaranteed is not None:
            return rules.guaranteed
        return ONE_PASSENGER if self.numbers is None else int(arrival.event.weight * rules.changing)

    @property
    def unused(self) -> int:
        return len(self.numbers or ()) + len(self.changes) - len(self.used)


def give_moments(trains: list[Train], stations: dict[str, str], passengers: Passengers, notes: Notes) -> dict[str, int]:
    """Gives each train its events, with ids from 1; the number of each station."""
    called = {stations[call.stop] for train in trains for call in train.trip.calls}
    numbers = {station: number for number, station in enumerate((one for one in stations if one in called), 1)}
    event = 0
    for train in trains:
        calls = train.trip.calls
        left: set[str] = set()
        for tail, head in zip(calls, calls[1:]):
            ends = stations[tail.stop], stations[head.stop]
            departure = Event(event + 1, 'departure', tail.departure + train.shift, 0, numbers[ends[0]])
            arrives = head.arrival + train.shift
            weight = passengers.leaving(train, head, left, notes if arrives >= 0 else Notes())
            arrival = Event(event + 2, 'arrival', arrives, weight, numbers[ends[1]])
            train.moments += [Moment(departure, train, tail, ends[1]), Moment(arrival, train, head, ends[0])]
            event += 2
    return numbers
