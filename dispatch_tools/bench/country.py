"""Writes the largest network and feeds to it into a folder: dispatch-tools country NUMBER FOLDER

FOLDER gets net/Events-expanded.giv and net/Activities-expanded.giv of 5,000 trains over ten legs each. They have 100,000 events
and 500,000 activities. Of these 310,000 are changes, and 95,000 are headways in pairs. FOLDER also gets these feeds, drawn from
NUMBER:

    empty          nothing
    feed1 .. 16    262,144 bytes each: delays of events and activities, changes kept and dropped, questions for times and costs
    questions      questions for times and costs alone, as many as a feed may hold
    delays, activity-delays, drops, keeps      3,000 lines of one kind each

A train leaves every 12 seconds. Every fortieth train shares its tracks. Changes lead to departures 3 to 30 minutes later.
"""
from __future__ import annotations

import bisect
import os
from itertools import chain
from typing import Iterator, Sequence

from dispatch_tools.days.generated import Draws, write_feed
from dispatch_tools.formats.giv import write_records
from dispatch_tools.model.network import Activity, Event
from dispatch_tools.words import command_line

# The kind, tail, head, bound and weight of an activity.
Row = tuple[str, int, int, int, int]

TRAINS = 5_000
LEGS = 10
CHANGES = 310_000
HEADWAYS = 47_500
APART = 40


def departure(train: int, leg: int) -> int:
    return 20 * train + 2 * leg + 1


def scheduled(train: int, leg: int) -> int:
    return 21_600 + 12 * train + 400 * leg


def events() -> Iterator[Event]:
    for train in range(TRAINS):
        for leg in range(LEGS):
            stop = 11 * (train % APART) + leg + 1
            yield Event(departure(train, leg), 'departure', scheduled(train, leg), 0, stop)
            yield Event(departure(train, leg) + 1, 'arrival', scheduled(train, leg) + 330, 10_000, stop + 1)


def runs() -> Iterator[Row]:
    """Drives and waits: kind, tail, head, bound and weight."""
    for train in range(TRAINS):
        for leg in range(LEGS):
            yield 'drive', departure(train, leg), departure(train, leg) + 1, 300, 0
        for leg in range(LEGS - 1):
            yield 'wait', departure(train, leg) + 1, departure(train, leg + 1), 40, 0


def headways() -> Iterator[Row]:
    pairs = ((train, leg) for train in range(TRAINS - APART) for leg in range(LEGS))
    for _, (train, leg) in zip(range(HEADWAYS), pairs):
        first, second = departure(train, leg), departure(train + APART, leg)
        yield 'headway', first, second, 120, 0
        yield 'headway', second, first, 120, 0


def changes(draws: Draws) -> Iterator[Row]:
    """Changes from drawn arrivals to departures that are drawn from those 180 to 1,800 seconds later."""
    departures = sorted((scheduled(train, leg), departure(train, leg)) for train in range(TRAINS) for leg in range(LEGS))
    count = 0
    while count < CHANGES:
        train, leg = draws.below(TRAINS), draws.below(LEGS)
        time = scheduled(train, leg) + 330
        first, last = (bisect.bisect(departures, (time + wait, 0)) for wait in (180, 1_800))
        if first < last:
            count += 1
            yield 'change', departure(train, leg) + 1, departures[first + draws.below(last - first)][1], 60, 1_000


def write_network(draws: Draws, folder: str) -> list[int]:
    """Writes the files, and gives the ids of the changes."""
    rows = chain(runs(), headways(), changes(draws))
    activities = [Activity(number, *row) for number, row in enumerate(rows, 1)]
    write_records(folder, events(), activities)
    return [activity.id for activity in activities if activity.kind == 'change']


def lines(draws: Draws, changes_of: list[int], kind: str) -> Iterator[str]:
    """Lines of one kind, without end."""
    while True:
        if kind == 'delays':
            yield f'delay event {draws.below(20 * TRAINS) + 1} {draws.below(60)}\n'
        elif kind == 'activity-delays':
            yield f'delay activity {draws.below(19 * TRAINS) + 1} {draws.below(60)}\n'
        elif kind in ('drops', 'keeps'):
            yield f'{kind[:-1]} {changes_of[draws.below(CHANGES)]}\n'
        else:
            yield 'cost\n' if draws.below(2) else f'time {draws.below(20 * TRAINS) + 1}\n'


def mixed(draws: Draws, changes_of: list[int]) -> Iterator[str]:
    kinds = ['delays', 'activity-delays', 'drops', 'drops', 'keeps', 'keeps', 'questions', 'questions', 'questions']
    sources = {kind: lines(draws, changes_of, kind) for kind in kinds}
    while True:
        yield next(sources[kinds[draws.below(len(kinds))]])


def main(argv: Sequence[str] | None = None) -> int:
    words = command_line(__doc__)
    words.add_argument('number', metavar='NUMBER', type=int, help='number from which all is drawn')
    words.add_argument('folder', metavar='FOLDER', help='folder for the network and the feeds')
    given = words.parse_args(argv)
    folder, draws = given.folder, Draws(given.number)
    changes_of = write_network(draws, os.path.join(folder, 'net'))
    write_feed(folder, 'empty', iter(()))
    for feed in range(1, 17):
        write_feed(folder, f'feed{feed}', mixed(draws, changes_of))
    for kind in ('delays', 'activity-delays', 'drops', 'keeps'):
        write_feed(folder, kind, lines(draws, changes_of, kind), 3_000)
    write_feed(folder, 'questions', lines(draws, changes_of, 'questions'))
    return 0
