"""Finds the stations at which a railway falls into parts. There a network that is too large may be cut."""
from __future__ import annotations

from collections import Counter, defaultdict
from typing import Iterable, Iterator, NamedTuple, Sequence

SHOWN = 3


class Parting(NamedTuple):
    """A station, and the events of the parts that the others fall into without it, from the most."""
    station: str
    events: list[int]


class Calls:
    """Which lines arrive at stations, how often, and which leave: a line is a route and where it goes."""

    def __init__(self) -> None:
        self.arrivals: dict[str, Counter[tuple[str, str]]] = defaultdict(Counter)
        self.departures: dict[str, set[tuple[str, str]]] = defaultdict(set)

    def take(self, stations: Sequence[str], line: tuple[str, str]) -> None:
        """A train of a line that calls at stations."""
        for station in stations[1:]:
            self.arrivals[station][line] += 1
        for station in stations[:-1]:
            self.departures[station].add(line)

    def changes_at(self, station: str) -> int:
        """At most so many changes are there: from each arrival one to each line of another route."""
        leaving = Counter(route for route, _ in self.departures[station])
        return sum(count * (leaving.total() - leaving[route]) for (route, _), count in self.arrivals[station].items())


class Visit(NamedTuple):
    """A station on the way from the first one to where a walk stands, and the neighbours that it has not been to from there."""
    station: str
    left: Iterator[str]


def legs_of(runs: Counter[tuple[str, ...]]) -> dict[str, Counter[str]]:
    """The events of the drives between two stations, both ways together, by each of the two; runs are stations in order."""
    legs: dict[str, Counter[str]] = {}
    for stations, times in runs.items():
        for start, end in zip(stations, stations[1:]):
            if start != end:
                legs.setdefault(start, Counter())[end] += 2 * times
                legs.setdefault(end, Counter())[start] += 2 * times
    return legs


def stations_that_part(runs: Counter[tuple[str, ...]]) -> list[Parting]:
    """The stations without which a railway falls apart, that with the least largest part first; none where no single one parts it."""
    legs = legs_of(runs)
    order: dict[str, int] = {}
    found: list[Parting] = []
    for station in legs:
        if station not in order:
            found += partings(station, legs, order)
    return sorted(found, key=lambda one: (one.events[0], one.station))


def partings(first: str, legs: dict[str, Counter[str]], order: dict[str, int]) -> Iterable[Parting]:
    """Those of the stations that can be reached from one, by a walk in depth. A station parts what the walk came to behind it, where
    nothing of that leads back beyond it. Each drive is counted at the end that the walk came to later."""
    lowest: dict[str, int] = {}
    below: dict[str, int] = {}
    parts: dict[str, list[int]] = {}
    way: list[Visit] = []

    def come_to(station: str) -> None:
        order[station] = lowest[station] = len(order)
        below[station] = 0
        way.append(Visit(station, iter(legs[station])))

    come_to(first)
    while way:
        station, left = way[-1]
        other = next(left, None)
        if other is None:
            way.pop()
            if way:
                before = way[-1].station
                below[before] += below[station]
                lowest[before] = min(lowest[before], lowest[station])
                if lowest[station] >= order[before]:
                    parts.setdefault(before, []).append(below[station])
        elif other not in order:
            come_to(other)
            below[other] += legs[station][other]
        else:
            lowest[station] = min(lowest[station], order[other])
            is_new = order[other] < order[station] and not (len(way) > 1 and way[-2].station == other)
            below[station] += legs[station][other] * is_new
    for station, events in parts.items():
        rest = below[first] - sum(events)
        whole = sorted(filter(None, [*events, rest]), reverse=True)
        if len(whole) > 1:
            yield Parting(station, whole)


def in_words(found: list[Parting], calls: Calls, most: int) -> str:
    """Says to people where to cut: first where few people change, among the stations without which no part has too many events."""
    if not found:
        return ' at several stations, none of which parts it alone'

    def dearness(one: Parting) -> tuple[bool, int, int, str]:
        is_large = one.events[0] > most
        return is_large, one.events[0] if is_large else 0, calls.changes_at(one.station), one.station

    shown = '; '.join(
        f'{one.station}: parts of {", ".join(map(str, one.events[:SHOWN]))}, at most {calls.changes_at(one.station)} changes cut'
        for one in sorted(found, key=dearness)[:SHOWN]
    )
    return f' (stations, the events of the parts without them, and the changes there, which would be kept for ever: {shown})'
