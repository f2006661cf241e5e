"""Draws days of source delays over any network: which messages are reported, and when.

The network, the seed and the number of a day determine the day. A delay of an event is reported at the scheduled time of that
event, and a delay of an activity at that of its tail. A blocked stretch is reported when it is blocked.
"""
from __future__ import annotations

import math
import os
import re
from dataclasses import dataclass
from random import Random
from typing import Callable, NamedTuple

from dispatch_tools.formats.files import BadFile, text_of
from dispatch_tools.model.messages import DelayActivity, DelayEvent, Statement
from dispatch_tools.model.network import Event, Network
from dispatch_tools.pictures.scene import trains_of

KINDS = ('delays', 'slow', 'blocked', 'line', 'mixed')
HOUR = 3600

# What is above is cut off, and a blocked stretch is left at least this far apart.
LONGEST = 4 * HOUR
APART = 120


class Told(NamedTuple):
    """A message, and from when on it is known."""
    time: int
    message: Statement


@dataclass(frozen=True)
class Drawing:
    """How days are drawn: of which kind, how probable a delay of a train is, and how long delays are, in seconds."""
    kind: str
    probability: float
    size: Callable[[Random], float]

    def seconds(self, draws: Random) -> int:
        return max(1, min(LONGEST, round(self.size(draws))))


# ---- Sizes


def size_of(text: str) -> Callable[[Random], float]:
    """Reads a distribution: exponential:MEAN, lognormal:MEDIAN:SIGMA, or histogram:FILE with lines FROM;TO;COUNT. ValueError else."""
    kind, *rest = text.split(':', 1)
    numbers = re.fullmatch(r'([0-9.]+)(?::([0-9.]+))?', rest[0]) if rest else None
    middle = float(numbers[1]) if numbers and kind != 'histogram' else 0.0
    if kind == 'exponential' and numbers and not numbers[2] and middle > 0:
        return lambda draws: draws.expovariate(1 / middle)
    if kind == 'lognormal' and numbers and numbers[2] and middle > 0:
        sigma = float(numbers[2])
        return lambda draws: draws.lognormvariate(math.log(middle), sigma)
    if kind == 'histogram' and rest:
        return histogram(rest[0])
    raise ValueError(f'"{text}" is neither exponential:MEAN, lognormal:MEDIAN:SIGMA nor histogram:FILE')


def histogram(name: str) -> Callable[[Random], float]:
    """Draws evenly within a class of a file, a class by its count; lines that begin with # are comments."""
    classes: list[tuple[float, float]] = []
    counts: list[float] = []
    for number, line in enumerate(text_of(name).splitlines(), 1):
        fields = line.split(';')
        if line.strip() and not line.startswith('#'):
            try:
                low, high, count = map(float, fields)
            except ValueError as error:
                raise BadFile(name, number, 'this is no line FROM;TO;COUNT') from error
            classes.append((low, high))
            counts.append(count)
    if not any(counts):
        raise BadFile(name, None, 'it has no classes')
    return lambda draws: draws.uniform(*draws.choices(classes, counts)[0])


# ---- What a network is made of


class Lines:
    """The trains of a network, those that call at the same stops together, and the stretches from stop to stop."""

    def __init__(self, network: Network) -> None:
        self.network = network
        self.trains: list[list[int]] = trains_of(network)
        lines: dict[tuple[int, ...], list[list[int]]] = {}
        for train in self.trains:
            lines.setdefault(tuple(network.events[place].stop for place in train), []).append(train)
        self.lines = [lines[stops] for stops in sorted(lines)]
        stretches: dict[tuple[int, int], list[int]] = {}
        for place, activity in enumerate(network.activities):
            if activity.kind == 'drive':
                ends = network.tails[place], network.heads[place]
                stretches.setdefault(tuple(network.events[end].stop for end in ends), []).append(place)  # type: ignore[arg-type]
        self.stretches = [stretches[ends] for ends in sorted(stretches)]

    def span(self) -> tuple[int, int]:
        """The first and the last scheduled time."""
        times = [event.time for event in self.network.events]
        return min(times), max(times)

    def tail(self, drive: int) -> Event:
        """The event at which a drive begins."""
        return self.network.events[self.network.tails[drive]]


# ---- Days


def drawn_day(lines: Lines, drawing: Drawing, seed: int, day: int) -> list[Told]:
    """The messages of a day, in the order of time."""
    draws = Random(f'{seed} {day}')
    kind = drawing.kind
    told: list[Told] = []
    if kind in ('delays', 'mixed'):
        told += train_delays(lines, drawing, draws)
    if kind == 'mixed':
        kind = draws.choice(('slow', 'blocked', 'line'))
    if kind == 'slow':
        told += slow_stretch(lines, drawing, draws)
    elif kind == 'blocked':
        told += blocked_hour(lines, draws)
    elif kind == 'line':
        told += late_line(lines, drawing, draws)
    return sorted(told, key=lambda one: (one.time, one.message.KIND, one.message.numbers()))


def train_delays(lines: Lines, drawing: Drawing, draws: Random) -> list[Told]:
    """Each train with some probability has a delay at one of its events."""
    told = []
    for train in lines.trains:
        if draws.random() < drawing.probability:
            event = lines.network.events[draws.choice(train)]
            told.append(Told(event.time, DelayEvent(event.id, drawing.seconds(draws))))
    return told


def slow_stretch(lines: Lines, drawing: Drawing, draws: Random) -> list[Told]:
    """For two hours each drive over one stretch takes so much longer."""
    stretch = draws.choice(lines.stretches)
    start = lines.tail(draws.choice(stretch)).time
    longer = drawing.seconds(draws)
    drives = [place for place in stretch if start <= lines.tail(place).time <= start + 2 * HOUR]
    return [Told(lines.tail(place).time, DelayActivity(lines.network.activities[place].id, longer)) for place in drives]


def blocked_hour(lines: Lines, draws: Random) -> list[Told]:
    """No train leaves over one stretch for an hour; then they follow each other."""
    stretch = draws.choice(lines.stretches)
    start = lines.tail(draws.choice(stretch)).time
    waiting = sorted({lines.tail(place) for place in stretch if start <= lines.tail(place).time < start + HOUR},
                     key=lambda event: (event.time, event.id))
    return [
        Told(start, DelayEvent(event.id, start + HOUR + APART * place - event.time)) for place, event in enumerate(waiting)
        if start + HOUR + APART * place > event.time
    ]


def late_line(lines: Lines, drawing: Drawing, draws: Random) -> list[Told]:
    """Each train of one line is late from its first event on."""
    firsts = [lines.network.events[train[0]] for train in draws.choice(lines.lines)]
    return [Told(event.time, DelayEvent(event.id, drawing.seconds(draws))) for event in firsts]


def told_lines(told: list[Told]) -> list[str]:
    """The messages as lines of a feed. Of two messages of one event the later one holds."""
    return [str(one.message) for one in told]


def delays_of_shape(shape: str, number: int, folder: str) -> tuple[str, list[str]]:
    """Writes the network of a shape into a folder, and gives its folder and the lines of a drawn day."""
    from dispatch_tools.formats.files import write_all
    from dispatch_tools.days.from_gtfs import texts_of
    from dispatch_tools.formats.giv import read_network
    from dispatch_tools.days.shapes import USUAL, made

    net = os.path.join(folder, 'net')
    write_all(net, texts_of(made(shape, USUAL[shape])))
    drawing = Drawing('mixed', 0.3, size_of('exponential:300'))
    return net, told_lines(drawn_day(Lines(read_network(net)), drawing, number, 1))
