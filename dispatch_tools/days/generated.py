"""A generated day with feeds."""
from __future__ import annotations

import os
from typing import Iterable, Iterator, Optional

from dispatch_tools.formats.giv import write_records
from dispatch_tools.model.network import Activity, Event

MASK = 2**64 - 1

# The most bytes of a feed.
FEED = 262_144


class Draws:
    """Drawn numbers, all determined by a first one."""

    def __init__(self, number: int) -> None:
        self.state = number

    def below(self, limit: int) -> int:
        self.state = (self.state * 6364136223846793005 + 1442695040888963407) & MASK
        return (self.state >> 33) % limit


def departure(train: int, leg: int) -> int:
    return 20 * train + 2 * leg + 1


def scheduled(train: int, leg: int) -> int:
    return 21600 + 30 * train + 400 * leg


def events(trains: int) -> Iterator[Event]:
    for train in range(trains):
        for leg in range(10):
            event, time = departure(train, leg), scheduled(train, leg)
            stop = 11 * (train % 8) + leg + 1
            yield Event(event, 'departure', time, 0, stop)
            yield Event(event + 1, 'arrival', time + 330, 10_000, stop + 1)


def activities(trains: int) -> Iterator[Activity]:
    """The activities, whose ids ascend from 1."""
    for number, row in enumerate(activity_rows(trains), 1):
        yield Activity(number, *row)


def activity_rows(trains: int) -> Iterator[tuple[str, int, int, int, int]]:
    """Each activity's kind, tail, head, bound and weight."""
    for train in range(trains):
        for leg in range(10):
            yield 'drive', departure(train, leg), departure(train, leg) + 1, 300, 0
        for leg in range(9):
            yield 'wait', departure(train, leg) + 1, departure(train, leg + 1), 40, 0
    for train in range(trains - 8):
        for leg in range(10):
            first, second = departure(train, leg), departure(train + 8, leg)
            yield 'headway', first, second, 120, 0
            yield 'headway', second, first, 120, 0
    for train in range(trains - 1):
        yield 'change', departure(train, 4) + 1, departure(train + 1, 5), 60, 5_000


def delays(draws: Draws, trains: int) -> Iterator[str]:
    while True:
        event = draws.below(20 * trains) + 1
        yield f'delay event {event} {draws.below(900) + 1}\n'


def a_train(draws: Draws, trains: int) -> tuple[int, int]:
    return draws.below(trains), draws.below(10)


def mixed(draws: Draws, trains: int) -> Iterator[str]:
    count = sum(1 for _ in activities(trains))
    clock = 21600
    passed: list[int] = []
    while True:
        train, leg = a_train(draws, trains)
        kind = draws.below(12)
        if kind < 3:
            yield f'delay event {departure(train, leg)} {draws.below(900)}\n'
        elif kind == 3:
            yield f'delay activity {draws.below(count) + 1} {draws.below(300)}\n'
        elif kind == 4:
            word = 'keep' if draws.below(2) == 0 else 'drop'
            yield f'{word} {count - draws.below(max(trains - 1, 1))}\n'
        elif kind == 5 and trains > 8:
            first, second = departure(train % (trains - 8), leg), departure(train % (trains - 8) + 8, leg)
            yield f'first {second} {first}\n' if draws.below(2) == 0 else f'first {first} {second}\n'
        elif kind == 6:
            passed.append(departure(train, leg))
            yield f'pass {passed[-1]} {scheduled(train, leg) + draws.below(120)}\n'
        elif kind == 7 and passed:
            yield f'recall {passed.pop()}\n'
        elif kind == 8:
            clock += draws.below(3)
            yield f'now {clock}\n'
        elif kind == 9:
            yield 'cost\n'
        elif kind == 10:
            yield 'read\n'
        else:
            yield f'time {departure(train, leg) + 1}\n'


def plans(draws: Draws, trains: int, word: str) -> Iterator[str]:
    source = delays(draws, trains)
    for number in range(1, 129):
        yield next(source)
        if number % 8 == 0:
            yield f'{word} 4096\n'
            yield 'adopt\n'
            yield 'cost\n'


def questions(draws: Draws, trains: int) -> Iterator[str]:
    while True:
        yield 'cost\n' if draws.below(4) == 0 else f'time {draws.below(20 * trains) + 1}\n'


def write_feed(folder: str, name: str, lines: Iterable[str], count: Optional[int] = None) -> None:
    """Writes the first lines: as many as a feed may hold, and at most `count`."""
    size = 0
    with open(os.path.join(folder, name), 'w') as file:
        for number, line in enumerate(lines, 1):
            size += len(line)
            if size > FEED or (count is not None and number > count):
                return
            file.write(line)


def write_day(number: int, trains: int, folder: str) -> None:
    write_records(os.path.join(folder, 'net'), events(trains), activities(trains))
    write_feed(folder, 'empty', [])
    write_feed(folder, 'delays', delays(Draws(number), trains), 500)
    write_feed(folder, 'full', delays(Draws(number), trains))
    write_feed(folder, 'mixed', mixed(Draws(number), trains))
    write_feed(folder, 'plans', plans(Draws(number), trains, 'plan'))
    write_feed(folder, 'solved', plans(Draws(number), trains, 'solve'))
    write_feed(folder, 'questions', questions(Draws(number), trains))
