"""Works out the summary of a generated day apart from the program: dispatch-tools summary NUMBER TRAINS [PENALTY [PROGRAM]]

It delays the events of the day as the first 500 lines of the feed `delays` say. It pushes each event along the activities that
bind until nothing moves, and prints the seven lines of `gen`. With the path of the program it also compares them with what
`PROGRAM gen` prints. Then it compares what a run of the day's files and that feed should come to with what `PROGRAM run` prints.
"""
from __future__ import annotations

import subprocess
import tempfile
from collections import deque
from typing import Iterable, Mapping, Sequence

from dispatch_tools.days import generated as day
from dispatch_tools.model.network import Activity
from dispatch_tools.words import command_line

# Lines of the generator's feed.
LINES = 500


def said(number: int, trains: int) -> list[str]:
    """The lines of the feed."""
    lines = day.delays(day.Draws(number), trains)
    return [next(lines).rstrip('\n') for _ in range(LINES)]


def delayed(number: int, trains: int) -> dict[int, int]:
    """The delay of each delayed event: the last one that a line gives it."""
    words = [line.split() for line in said(number, trains)]
    return {int(event): int(delay) for _, _, event, delay in words}


def planned(trains: int) -> dict[int, tuple[int, int]]:
    """Each event's scheduled time and weight, in thousandths of passengers."""
    return {event.id: (event.time, event.weight) for event in day.events(trains)}


def least_times(events: Mapping[int, tuple[int, int]], delays: Mapping[int, int], activities: Iterable[Activity]) -> dict[int, int]:
    times = {event: time + delays.get(event, 0) for event, (time, _) in events.items()}
    behind: dict[int, list[tuple[int, int]]] = {event: [] for event in events}
    for activity in activities:
        if activity.kind != 'headway' or events[activity.tail][0] < events[activity.head][0]:
            behind[activity.tail].append((activity.head, activity.lower))
    moved = deque(events)
    while moved:
        tail = moved.popleft()
        for head, lower in behind[tail]:
            if times[head] < times[tail] + lower:
                times[head] = times[tail] + lower
                moved.append(head)
    return times


def cost_of(events: Mapping[int, tuple[int, int]], times: Mapping[int, int]) -> int:
    """No change is dropped, so that the penalty is charged for none."""
    return sum(weight * (times[event] - time) for event, (time, weight) in events.items())


def summary(number: int, trains: int) -> str:
    events = planned(trains)
    activities = list(day.activities(trains))
    times = least_times(events, delayed(number, trains), activities)
    headways = sum(1 for activity in activities if activity.kind == 'headway')
    changes = sum(1 for activity in activities if activity.kind == 'change')
    numbers = {
        'dm-gen': 1,
        'events': len(events),
        'activities': len(activities),
        'choices': changes + headways // 2,
        'entries': LINES,
        'cost': cost_of(events, times),
        'sum': sum(times.values()),
    }
    return ''.join(f'{name} {value}\n' for name, value in numbers.items())


def run_text(number: int, trains: int, penalty: int) -> str:
    """What a run of the day's files and the feed prints."""
    events = planned(trains)
    times = least_times(events, delayed(number, trains), list(day.activities(trains)))
    lines = list(enumerate(said(number, trains), 1))
    return '\n'.join([
        'dm-run 2', f'penalty {penalty}', 'feeds 1', f'entries {LINES}',
        *(f'entry {place} feed 1 line {place} {line}' for place, line in lines),
        f'feed 1 {LINES}',
        *(f'{place} {line} -> {place} ok' for place, line in lines),
        'end', 'boards 0', f'times {LINES}',
        *(f'{event}; {time}' for event, time in times.items()),
        f'cost {cost_of(events, times)}', 'done', '',
    ])


def printed(program: str, *words: str) -> str:
    return subprocess.run([program, *words], capture_output=True, check=True, text=True).stdout


def compare(number: int, trains: int, penalty: int, program: str) -> None:
    told = printed(program, 'gen', str(number), str(trains), f'--penalty={penalty}')
    assert told == summary(number, trains), 'gen prints another summary'
    with tempfile.TemporaryDirectory() as folder:
        day.write_day(number, trains, folder)
        told = printed(program, 'run', f'{folder}/net', f'{folder}/delays', f'--penalty={penalty}')
    assert told == run_text(number, trains, penalty), 'run prints another text'
    print('gen and run print the same')


def main(argv: Sequence[str] | None = None) -> int:
    words = command_line(__doc__)
    words.add_argument('number', metavar='NUMBER', type=int, help='number from which the day is drawn')
    words.add_argument('trains', metavar='TRAINS', type=int, help='number of trains')
    words.add_argument('penalty', metavar='PENALTY', nargs='?', type=int, default=3600, help='penalty in seconds (3600)')
    words.add_argument('program', metavar='PROGRAM', nargs='?', help='the built program')
    given = words.parse_args(argv)
    print(summary(given.number, given.trains), end='')
    if given.program:
        compare(given.number, given.trains, given.penalty, given.program)
    return 0
