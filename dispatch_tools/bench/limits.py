"""Runs at the limits: dispatch-tools limits DISPATCHER [CASE..]

DISPATCHER is the built program. Each case runs at half its size and at its whole size, with a stack of 8 MiB. Then its text is
checked, and its journal followed:

    along      a chain of 100,000 events whose ids rise along it; the first event is delayed
    against    the same chain with ids that fall along it
    broad      100,000 events with 500,000 activities, five out of each
    feeds      64 feeds of 262,144 bytes of delays: nearly as many entries as a day may have, and a text of some 80 MB
    deep       a plan whose tree is 8,191 choices deep: each choice has one leaf below it, and beside that the next choice
    apart      a plan by parts of 5,461 parts: so many late trains, each with one change that is to be kept or dropped
    long       no run, but the longest text that is checked, 512 MiB: that of a feed of some 28 million malformed lines

A row has the seconds of processor and the most megabytes of each command at either size. A line says if a command ends otherwise
than it should, or needs more than 2.3 times the memory at twice the size. The status is then 1.
"""
from __future__ import annotations

import os
import tempfile
from typing import Callable, Sequence

from dispatch_tools.bench.measured import measured, Measured
from dispatch_tools.days.generated import FEED
from dispatch_tools.formats.giv import write_records
from dispatch_tools.model.network import Activity, Event
from dispatch_tools.words import add_program, command_line

EVENTS = 100_000
FEEDS = 64
DEPTH = 8_191
PARTS = 5_461
TEXT = 536_870_912
STACK = 8 << 20
GROWTH = 2.3

# The kind, time and passengers of an event; the kind, tail, head, bound and passengers of an activity.
Events = list[tuple[str, int, int]]
Activities = list[tuple[str, int, int, int, int]]

# Writes the files of a case at a share of its size, and gives the names of its feeds.
Making = Callable[[str, int], list[str]]


def write_net(folder: str, events: Events, activities: Activities) -> None:
    """Writes the files of a network, whose ids ascend from 1."""
    write_records(
        os.path.join(folder, 'net'),
        (Event(number, kind, time, 1000 * weight, 1) for number, (kind, time, weight) in enumerate(events, 1)),
        (Activity(number, kind, tail, head, lower, 1000 * weight)
         for number, (kind, tail, head, lower, weight) in enumerate(activities, 1)),
    )


def write_feeds(folder: str, feeds: list[tuple[str, str]]) -> list[str]:
    for name, text in feeds:
        with open(os.path.join(folder, name), 'w') as file:
            file.write(text)
    return [name for name, _ in feeds]


def kind_at(place: int) -> str:
    return 'arrival' if place % 2 else 'departure'


def chain(count: int, id_at: Callable[[int], int]) -> tuple[Events, Activities]:
    """The events and activities of a chain, of which the event at each place has the id of that place."""
    events = [('', 0, 0)] * count
    for place in range(count):
        events[id_at(place) - 1] = kind_at(place), 10 * place, 1
    activities = [('drive' if place % 2 == 0 else 'wait', id_at(place), id_at(place + 1), 10, 1) for place in range(count - 1)]
    return events, activities


def along(folder: str, part: int) -> list[str]:
    count = EVENTS // part
    write_net(folder, *chain(count, lambda place: place + 1))
    return write_feeds(folder, [('f', f'delay event 1 60\ntime {count}\ncost\n')])


def against(folder: str, part: int) -> list[str]:
    count = EVENTS // part
    write_net(folder, *chain(count, lambda place: count - place))
    return write_feeds(folder, [('f', f'delay event {count} 60\ntime 1\ncost\n')])


def broad(folder: str, part: int) -> list[str]:
    count = EVENTS // part
    events = [(kind_at(place), 10 * place, 1) for place in range(count)]
    activities: Activities = []
    for place in range(count):
        for step in range(1, 6):
            head = (place + 2 * step - 1) % count
            if head > place:
                kind = 'drive' if place % 2 == 0 else 'wait'
                activities.append((kind, place + 1, head + 1, 5, 1))
    write_net(folder, events, activities)
    return write_feeds(folder, [('f', 'delay event 1 60\nplan 1\ncost\n')])


def feeds(folder: str, part: int) -> list[str]:
    write_net(folder, *chain(1_000, lambda place: place + 1))
    names = []
    for number in range(1, FEEDS + 1):
        lines, size, turn = [], 0, 0
        while True:
            line = f'delay event {(17 * turn + number) % 1_000 + 1} {turn % 7}\n'
            if size + len(line) > FEED // part:
                break
            lines.append(line)
            size += len(line)
            turn += 1
        names += write_feeds(folder, [(f'f{number}', ''.join(lines))])
    return names


def deep(folder: str, part: int) -> list[str]:
    """A late train with a change to each of many others, which costs much if it is kept, and little if it is dropped."""
    count = (DEPTH + 1) // part - 1
    events = [('departure', 100, 0), ('arrival', 200, 0)]
    activities = [('drive', 1, 2, 100, 0)]
    for _ in range(count):
        events += [('departure', 220, 0), ('arrival', 300, 1_000)]
        head = len(events) - 1
        activities += [('drive', head, head + 1, 80, 0), ('change', 2, head, 20, 1)]
    write_net(folder, events, activities)
    return write_feeds(folder, [('f', 'delay event 1 600\nplan 16384\n')])


def apart(folder: str, part: int) -> list[str]:
    """Many late trains, each with a change to a train of its own: three nodes decide each, and all of them have as many as there may be."""
    events: Events = []
    activities: Activities = []
    count = PARTS // part
    for _ in range(count):
        events += [('departure', 100, 0), ('arrival', 200, 0), ('departure', 220, 0), ('arrival', 300, 1)]
        first = len(events) - 3
        activities += [('drive', first, first + 1, 100, 0), ('drive', first + 2, first + 3, 80, 0), ('change', first + 1, first + 2, 20, 1)]
    write_net(folder, events, activities)
    delays = ''.join(f'delay event {4 * number + 1} 600\n' for number in range(count))
    return write_feeds(folder, [('f', f'{delays}solve 16384\n')])


def lines_within(size: int) -> int:
    """How many malformed lines, numbered from 1, a log has in so many bytes."""
    count, digits = 0, 1
    while True:
        many, each = 9 * 10 ** (digits - 1), digits + len(' malformed\n')
        if many * each > size:
            return count + size // each
        count, size, digits = count + many, size - many * each, digits + 1


def long(folder: str, part: int) -> list[str]:
    """Writes the text itself, so that there are no feeds."""
    events = 4
    write_net(folder, *chain(events, lambda place: place + 1))
    times = ''.join(f'{place + 1}; {10 * place}\n' for place in range(events))
    tail = f'end\nboards 0\ntimes 0\n{times}cost 0\ndone\n'
    head = 'dm-run 2\npenalty 10\nfeeds 1\nentries 0\nfeed 1 '
    count = lines_within(TEXT // part - len(head) - len(tail) - len(f'{TEXT}\n'))
    with open(os.path.join(folder, 'text'), 'w') as file:
        file.write(f'{head}{count}\n')
        file.writelines(f'{line} malformed\n' for line in range(1, count + 1))
        file.write(tail)
    return []


CASES = {'along': along, 'against': against, 'broad': broad, 'feeds': feeds, 'deep': deep, 'apart': apart, 'long': long}


def sized(program: str, make: Making, part: int) -> tuple[dict[str, Measured], float]:
    """What each command takes at a size of a case, and the text's megabytes."""
    with tempfile.TemporaryDirectory() as folder:
        names = make(folder, part)
        ends = {}
        if names:
            words = [program, 'run', 'net', '--penalty=10', '--batch=100000', *names]
            ends['run'] = measured(words, folder=folder, output='text', stack=STACK)
        for command in ('check', 'follow'):
            words = [program, command, 'net', '--penalty=10', 'text']
            ends[command] = measured(words, folder=folder, output='answer', stack=STACK)
        size = os.path.getsize(os.path.join(folder, 'text')) / 1e6
    return ends, size


def judge(program: str, name: str) -> bool:
    """Whether a case ends as it should; prints its rows."""
    (half, _), (whole, size) = sized(program, CASES[name], 2), sized(program, CASES[name], 1)
    good = True
    for what, less in half.items():
        more = whole[what]
        seconds = f'{less.seconds:8.2f} s {more.seconds:8.2f} s'
        memory = f'{less.megabytes:8.0f} MB {more.megabytes:8.0f} MB'
        print(f'{name:<8} {what:<7}{seconds}  {memory}   text {size:.1f} MB', flush=True)
        if (less.status, more.status) != (0, 0):
            print(f'{name}: {what} ends with status {less.status} at half the size and {more.status} at the whole')
            good = False
        if more.megabytes > GROWTH * less.megabytes:
            print(f'{name}: {what} needs {more.megabytes / less.megabytes:.1f} times the memory at twice the size')
            good = False
    return good


def main(argv: Sequence[str] | None = None) -> int:
    words = command_line(__doc__)
    add_program(words)
    words.add_argument('cases', metavar='CASE', nargs='*', help=', '.join(CASES))
    given = words.parse_args(argv)
    if unknown := [name for name in given.cases if name not in CASES]:
        words.error(f'"{unknown[0]}" is no case; cases are {", ".join(CASES)}')
    good = [judge(given.program, name) for name in given.cases or CASES]
    return 0 if all(good) else 1
