"""Networks of a shape: single, hub, ring or mesh."""
from __future__ import annotations

from dataclasses import dataclass
from fractions import Fraction
from random import Random
from typing import Iterable, Sequence

from dispatch_tools.days.expand import expand, Expanded
from dispatch_tools.days.trains import Headways, Notes, Passengers, Rules, Train
from dispatch_tools.days.from_gtfs import Made
from dispatch_tools.formats.gtfs import Call, Route, Stops, Transfers, Trip
from dispatch_tools.model.network import Activity, Event

BEGIN = 6 * 3600
RUN, DWELL = 300, 60
TEN_PASSENGERS = 10_000

# How long a section of a single track is taken behind a train, and how many trains behind one it may have to wait for.
CLEAR, AHEAD = 30, 2


@dataclass(frozen=True)
class Sizes:
    lines: int
    trains: int
    stations: int
    number: int


# The sizes of each shape where none are given.
USUAL = {
    'single': Sizes(1, 30, 13, 1), 'hub': Sizes(40, 4, 0, 1), 'ring': Sizes(4, 8, 12, 1), 'mesh': Sizes(30, 4, 49, 1),
}


def trip(line: str, direction: int, number: int, stops: Sequence[str], times: Sequence[tuple[int, int]], block: str = '') -> Trip:
    """A trip over stops, with the arrival and the departure at each."""
    calls = [
        Call(0, stop, place, arrival, departure, place < len(stops) - 1, place > 0)
        for place, (stop, (arrival, departure)) in enumerate(zip(stops, times))
    ]
    return Trip(f'{line}.{direction}.{number}', Route(line, line, 2), str(direction), '', stops[-1], block, calls)


def even(start: int, runs: Iterable[int], dwell: int = DWELL) -> list[tuple[int, int]]:
    """The times of a trip that stands as long at each station."""
    times = [(start, start)]
    for run in runs:
        times.append((times[-1][1] + run, times[-1][1] + run + dwell))
    return times


# ---- Shapes


def single_trips(sizes: Sizes) -> list[Trip]:
    """Trains of both directions, at each station at once where they meet; each train turns at the end where one is due."""
    sections = sizes.stations - 1 + (sizes.stations - 1) % 2
    stops = [f'S{place}' for place in range(sections + 1)]
    every = 2 * (RUN + DWELL)
    trips = []
    for number in range(sizes.trains):
        times = even(BEGIN + every * number, [RUN] * sections)
        turned = number + sections // 2 + 1
        trips.append(trip('Forth', 0, number, stops, times, f'V{number}' if turned < sizes.trains else ''))
        since = number - sections // 2 - 1
        trips.append(trip('Back', 1, number, stops[::-1], times, f'V{since}' if since >= 0 else ''))
    return trips


def hub_trips(sizes: Sizes) -> list[Trip]:
    """Lines that are in the hub around each full hour; four of them share the tracks to and from it."""
    trips = []
    for line in range(sizes.lines):
        stops = [f'From {line}', f'In {line // 4}', 'Hub', f'Out {line // 4}', f'To {line}']
        for number in range(sizes.trains):
            there = BEGIN + 3600 * (number + 1) + 60 * (line % 4)
            times = [
                (there - 1260, there - 1260), (there - 660, there - 600), (there - 300, there + 120), (there + 420, there + 480),
                (there + 1080, there + 1080),
            ]
            trips.append(trip(f'L{line}', 0, number, stops, times))
    return trips


def ring_trips(sizes: Sizes) -> list[Trip]:
    """Trains that go around four times, and lines every quarter of an hour to and from stations of the ring."""
    rounds, run, dwell = 4, 240, 30
    ring = [f'R{place}' for place in range(sizes.stations)]
    lap = sizes.stations * (run + dwell)
    trips = []
    for direction, stops in enumerate((ring, ring[::-1])):
        for number in range(sizes.trains):
            times = even(BEGIN + lap * number // sizes.trains, [run] * (rounds * sizes.stations), dwell)
            trips.append(trip(f'Ring {direction}', direction, number, stops * rounds + stops[:1], times))
    for line in range(sizes.lines):
        there = ring[line * sizes.stations // sizes.lines]
        for number in range(rounds * lap // 900):
            start = BEGIN + 900 * number + 120 * line
            trips.append(trip(f'Out {line}', 0, number, [there, f'O{line}'], even(start, [600])))
            trips.append(trip(f'In {line}', 1, number, [f'O{line}', there], even(start, [600])))
    return trips


def mesh_trips(sizes: Sizes) -> list[Trip]:
    """Lines across a square of stations, drawn, each half an hour from train to train in both directions."""
    draws = Random(sizes.number)
    side = max(2, round(sizes.stations ** 0.5))
    legs: dict[frozenset[str], int] = {}
    trips = []
    for line in range(sizes.lines):
        stops = [f'{row}.{column}' for row, column in across(draws, side)]
        runs = [legs.setdefault(frozenset(ends), draws.randrange(240, 421, 30)) for ends in zip(stops, stops[1:])]
        for direction in (0, 1):
            start = BEGIN + 30 * draws.randrange(60)
            for number in range(sizes.trains):
                way, there = (stops, runs) if direction == 0 else (stops[::-1], runs[::-1])
                trips.append(trip(f'M{line}', direction, number, way, even(start + 1800 * number, there)))
    return trips


def across(draws: Random, side: int) -> list[tuple[int, int]]:
    """A way through a square from its first row to its last, which turns one way alone."""
    row, column, step = 0, draws.randrange(side), draws.choice((-1, 1))
    way = [(row, column)]
    while row < side - 1:
        if draws.random() < 0.4 and 0 <= column + step < side:
            column += step
        else:
            row += 1
        way.append((row, column))
    return way if draws.random() < 0.5 else [(column, row) for row, column in way]


def sections_of(expanded: Expanded) -> list[Activity]:
    """The headways of a single track, between each departure into a section and those that follow it there, from either end."""
    sections: dict[frozenset[int], list[Event]] = {}
    lower = RUN - int(RUN * Fraction(7, 100)) + CLEAR
    for train in expanded.trains:
        for tail, head in zip(train.moments[::2], train.moments[1::2]):
            sections.setdefault(frozenset((tail.event.stop, head.event.stop)), []).append(tail.event)
    found: list[Activity] = []
    for events in sections.values():
        events.sort(key=lambda event: event.time)
        for place, first in enumerate(events):
            for second in events[place + 1:place + 1 + AHEAD]:
                for ends in (first, second), (second, first):
                    number = len(expanded.activities) + len(found) + 1
                    found.append(Activity(number, 'headway', ends[0].id, ends[1].id, lower, 0))
    return found


# ---- Networks

TRIPS = {'single': single_trips, 'hub': hub_trips, 'ring': ring_trips, 'mesh': mesh_trips}


def made(shape: str, sizes: Sizes) -> Made:
    """The network of a shape; Refused if it is too large."""
    trips = TRIPS[shape](sizes)
    stations = {call.stop: call.stop for one in trips for call in one.calls}
    numbers = {(one.id, call.stop): TEN_PASSENGERS for one in trips for call in one.calls}
    headway = {'single': None, 'hub': 60}.get(shape, 120)
    headways = None if headway is None else Headways(headway)
    rules = Rules(Fraction(7, 100), 30, 300, 900, headways, Fraction(1, 10))
    notes = Notes()
    trains = sorted((Train(one.id, one, 0, False) for one in trips), key=lambda train: (train.begins, train.name))
    expanded = expand(trains, stations, Passengers(numbers), Transfers(120, stations), rules, notes)
    if shape == 'single':
        expanded.activities += sections_of(expanded)
    return Made(Stops(stations, {stop: stop for stop in stations}), expanded, notes)
