#!/usr/bin/env python3
"""Plays a night over two days' servers: python3 play.py DISPATCHER [FOLDER]

DISPATCHER is the built program. Both days are generated, with 24 trains in the morning. Besides a night train runs from 23:40 to
0:50, and at 0:20 a local train waits for it. In the evening the night train is fifteen minutes late, and its local train is told to
wait no more. At midnight the second day begins: dispatch-tools carry carries over what still holds of the first. Then the night train
leaves a stop three minutes later than that, which is reported to both servers.

The script prints what was carried, and the times of the night train by both servers. They have to be the same, but for the day. The
status is 1 if something differs. With a FOLDER all files stay there; it must be new or empty.
"""
from __future__ import annotations

import os
import shutil
import subprocess
import sys
import tempfile
from typing import Sequence

HERE = os.path.dirname(os.path.abspath(__file__))
TOP = os.path.join(HERE, '..', '..')
sys.path.insert(0, os.path.join(os.path.dirname(os.path.abspath(__file__)), '..', '..'))

from dispatch_tools.days import generated as day  # noqa: E402
from dispatch_tools.formats.files import BadFile  # noqa: E402
from dispatch_tools.formats.giv import read_network, write_records  # noqa: E402
from dispatch_tools.model.network import Activity, Event  # noqa: E402
from dispatch_tools.formats.runtext import read_run  # noqa: E402
from dispatch_tools.pictures.scene import clock_time  # noqa: E402
from dispatch_tools.live.serving import Server  # noqa: E402
from dispatch_tools.here import words_of  # noqa: E402
from dispatch_tools.words import add_program, command_line  # noqa: E402

TRAINS = 24
WHOLE_DAY = 86_400

# The night train, by its events: the kind, the time from midnight on, and the stop. Its ids begin here.
NIGHT = [('departure', -1200, 60), ('arrival', -660, 61), ('departure', -600, 61), ('arrival', 600, 62), ('departure', 720, 62),
         ('arrival', 3000, 63)]
FIRST_OF_NIGHT = 9001

# The local train: it leaves the stop where the night train has arrived, with eight passengers that change.
LOCAL = [('departure', 1200, 62), ('arrival', 2400, 64)]
FIRST_OF_LOCAL = 9101
CHANGE = 9999
EVENING = ['delay event 9001 900', 'pass 9001 86100', f'drop {CHANGE}', 'now 86340']
AT_NIGHT = ['delay event 9005 1020']


def train(first: int, calls: Sequence[tuple[str, int, int]], midnight: int) -> list[Event]:
    """The events of a train that do not lie before a network's day."""
    return [
        Event(first + place, kind, midnight + time, 2000 if kind == 'arrival' else 0, stop)
        for place, (kind, time, stop) in enumerate(calls) if midnight + time >= 0
    ]


def ways(events: Sequence[Event], first: int) -> list[Activity]:
    """Drives and waits along a train, as long as they are planned; a wait may be shortened to 60 seconds."""
    return [
        Activity(first + place, 'drive' if tail.kind == 'departure' else 'wait', tail.id, head.id,
                 head.time - tail.time if tail.kind == 'departure' else 60, 0)
        for place, (tail, head) in enumerate(zip(events, events[1:]))
    ]


def write_network(folder: str, midnight: int) -> None:
    """A day's network, in which the night train crosses midnight at that second."""
    night, local = train(FIRST_OF_NIGHT, NIGHT, midnight), train(FIRST_OF_LOCAL, LOCAL, midnight)
    changing = Activity(CHANGE, 'change', FIRST_OF_NIGHT + 3, FIRST_OF_LOCAL, 120, 8000)
    activities = [*day.activities(TRAINS), *ways(night, FIRST_OF_NIGHT), *ways(local, FIRST_OF_LOCAL), changing]
    write_records(folder, [*day.events(TRAINS), *night, *local], activities)


class Day:
    """A day's server with its feeds."""

    def __init__(self, program: str, folder: str, name: str, feeds: Sequence[str], midnight: int) -> None:
        self.folder = os.path.join(folder, name)
        self.net = os.path.join(self.folder, 'net')
        self.server = Server(program, self.net, os.path.join(self.folder, 'store'), [os.path.join(self.folder, feed) for feed in feeds])
        self.lines = [0] * len(self.server.feeds)
        write_network(self.net, midnight)

    def tell(self, feed: int, lines: Sequence[str]) -> None:
        """Appends lines to a feed, and waits until they are answered."""
        if lines:
            self.lines[feed] += len(lines)
            self.server.append(feed, lines)
            self.server.wait_for(self.lines)

    def times(self) -> dict[int, int]:
        """Ends the server; the times that it kept."""
        return read_run(self.server.stop(), len(read_network(self.net).events)).times


def text_so_far(today: Day) -> str:
    """A file with the text of what a day's store holds."""
    name = os.path.join(today.folder, 'so-far')
    with open(name, 'wb') as file:
        subprocess.run(today.server.words('text'), stdout=file, check=True)
    return name


def carried(today: Day, next_day: Day) -> list[str]:
    """The lines that carry a day on to the next."""
    words = [*words_of('carry'), today.net, text_so_far(today), f'--to={next_day.net}']
    done = subprocess.run(words, stdout=subprocess.PIPE, text=True, check=True)
    return done.stdout.splitlines()


def played(today: Day, next_day: Day) -> int:
    """Plays the night; how many times differ."""
    today.server.start()
    today.tell(0, EVENING)
    lines = carried(today, next_day)
    print(*(f'carried: {line}' for line in lines), sep='\n')
    next_day.server.start()
    next_day.tell(0, lines)
    today.tell(0, AT_NIGHT)
    next_day.tell(1, AT_NIGHT)
    before, after = today.times(), next_day.times()
    shared = [event for event in sorted(before) if event in after and event >= FIRST_OF_NIGHT]
    for event in shared:
        print(f'event {event}: {clock_time(before[event])} by the first server, {clock_time(after[event])} by the second')
    return sum(before[event] != after[event] + WHOLE_DAY for event in shared)


def main() -> int:
    words = command_line(__doc__)
    add_program(words)
    words.add_argument('folder', metavar='FOLDER', nargs='?', help='where files stay (a folder that is removed at the end)')
    given = words.parse_args()
    folder = os.path.abspath(given.folder or tempfile.mkdtemp(prefix='midnight-'))
    days = [Day(given.program, folder, 'first', ['north'], WHOLE_DAY), Day(given.program, folder, 'second', ['carried', 'north'], 0)]
    try:
        differing = played(*days)
    except (BadFile, subprocess.CalledProcessError) as bad:
        print(bad)
        return 1
    finally:
        for one in days:
            one.server.kill()
        if not given.folder:
            shutil.rmtree(folder)
    print(f'{differing} times differ')
    return 1 if differing else 0


if __name__ == '__main__':
    sys.exit(main())
