#!/usr/bin/env python3
"""Plays a morning into a live server: python3 play.py DISPATCHER [FOLDER] [--pace=120]

DISPATCHER is the built program. The railway is that of ../day: forty trains, whose delays two control rooms report when their
events are scheduled. Each minute of the morning, from 6:00 to 7:40, the rooms report the clock and what has passed. Trains run as
the server says. Every twenty minutes a third feed asks for a plan, and adopts it. At 7:00 the script kills the server, and starts
it again. A minute of the morning takes half a second; --pace says how many seconds of the morning go by in one.

The script prints each line with its answer, but for the clock and what has passed. At the end it tells the server to end. Then
`check` judges the text, each line must have been answered once, and what a reply file showed when the server was killed must
still stand there. The times are compared with those of a second reading of the rules. The status is 1 if something differs. With
a FOLDER all files stay there; it must be new or empty. Look into FOLDER/store while the morning goes on.
"""
from __future__ import annotations

import os
import shutil
import statistics
import subprocess
import sys
import tempfile
import time
from typing import Iterator

HERE = os.path.dirname(os.path.abspath(__file__))
DAY = os.path.join(HERE, '..', 'day')
sys.path.insert(0, os.path.join(os.path.dirname(os.path.abspath(__file__)), '..', '..'))

from dispatch_tools.days.delays import Told  # noqa: E402
from dispatch_tools.formats.files import BadFile  # noqa: E402
from dispatch_tools.formats.giv import read_network  # noqa: E402
from dispatch_tools.formats.journal import Journal  # noqa: E402
from dispatch_tools.model.messages import Adopt, DelayActivity, DelayEvent, Now, Pass  # noqa: E402
from dispatch_tools.model.network import Network  # noqa: E402
from dispatch_tools.days.playing import Played  # noqa: E402
from dispatch_tools.model.railway import Rows, sound_times  # noqa: E402
from dispatch_tools.formats.runtext import due_items, heard, read_run  # noqa: E402
from dispatch_tools.pictures.scene import clock_time  # noqa: E402
from dispatch_tools.live.serving import Server, read  # noqa: E402
from dispatch_tools.words import add_program, command_line, whole_between  # noqa: E402

BEGIN, END, KILLED, STEP, BETWEEN_PLANS = 6 * 3600, 7 * 3600 + 2400, 7 * 3600, 60, 1200
NORTH, SOUTH, PLANS = range(3)
ROOMS = ['north', 'south', 'plans']
LAST_STOP_OF_NORTH = 44
NODES = 4096


def event_of(network: Network, message: DelayEvent | DelayActivity) -> int:
    """The place of the event that a delay names, or of the one from which its activity leads."""
    return network.event_place[message.event] if isinstance(message, DelayEvent) else network.tails[network.activity_place[message.activity]]


def delays_told(network: Network) -> list[Told]:
    """The delays of the two rooms, each with the scheduled time of its event."""
    told = []
    for room in ROOMS[:2]:
        for line in read(os.path.join(DAY, room)).decode().splitlines():
            message = heard(line)
            if isinstance(message, (DelayEvent, DelayActivity)):
                told.append(Told(network.events[event_of(network, message)].time, message))
    return sorted(told, key=lambda one: one.time)


class Morning:
    """A morning, the server that answers it, and what the trains do."""

    def __init__(self, program: str, folder: str) -> None:
        net = os.path.join(folder, 'net')
        shutil.copytree(os.path.join(DAY, 'net'), net)
        feeds = [os.path.join(folder, room) for room in ROOMS]
        self.server = Server(program, net, os.path.join(folder, 'store'), feeds, ['--boards=4,48'])
        self.network = read_network(net)
        self.played = Played(self.network, Rows(self.network), clock=True, ahead=delays_told(self.network))
        self.lines: list[list[str]] = [[], [], []]
        self.shown: list[bytes] = []
        self.journal = Journal(self.server.store)
        self.took: list[float] = []

    def room_of(self, line: str) -> int:
        """Which room reports a line: the one that has the event's stop. The north has the clock."""
        message = heard(line)
        if isinstance(message, Now):
            return NORTH
        assert isinstance(message, (DelayEvent, DelayActivity, Pass)), line
        place = self.network.event_place[message.event] if isinstance(message, Pass) else event_of(self.network, message)
        return NORTH if self.network.events[place].stop <= LAST_STOP_OF_NORTH else SOUTH

    def told(self, now: int) -> list[list[str]]:
        """The lines that are reported or asked at a time, for each feed."""
        count, told = len(self.played.lines), [[], [], []]  # type: tuple[int, list[list[str]]]
        self.played.tell(now)
        for line in self.played.lines[count:]:
            told[self.room_of(line)].append(line)
        if (now - BEGIN) % BETWEEN_PLANS == 0 and now > BEGIN:
            told[PLANS] = [f'plan {NODES}', 'adopt', 'cost']
        return told

    def step(self, now: int) -> None:
        """Appends the lines of a time to the feeds, and waits for the answers. The trains follow what was adopted."""
        begun = time.perf_counter()
        for feed, lines in enumerate(self.told(now)):
            self.lines[feed] += lines
            if lines:
                self.server.append(feed, lines)
        self.server.wait_for([len(lines) for lines in self.lines])
        self.took.append(time.perf_counter() - begun)
        before = [len(log) for log in self.journal.logs] or [0, 0, 0]
        for entry in self.journal.read():
            for decision in entry.message.decisions if isinstance(entry.message, Adopt) else ():
                self.played.rows.decide(self.network, decision)
        self.show(now, before)

    def show(self, now: int, before: list[int]) -> None:
        """Prints the answers behind so many of each feed, but for those to `pass` and `now`."""
        for room, log, count in zip(ROOMS, self.journal.logs, before):
            for item in log[count:]:
                if item.said and item.answer and not isinstance(item.said, (Pass, Now)):
                    plan = item.answer.value if item.answer.kind == 'plan' else None
                    value = f' {plan.mark} cost {plan.cost} bound {plan.bound}' if plan else f' {item.answer.value or ""}'.rstrip()
                    print(f'{clock_time(now)} {room}: {item.said} -> {item.answer.kind}{value}', flush=True)

    def restart(self, now: int) -> None:
        """Kills the server, and starts it again."""
        self.server.kill()
        self.shown = [read(self.server.reply(feed)) for feed in range(len(ROOMS))]
        self.server.start()
        # Each start writes the journal to a new file, and all that was read stands in it.
        self.journal = Journal(self.server.store)
        self.journal.read()
        print(f'{clock_time(now)} the server was killed, and started again', flush=True)

    def faults(self) -> Iterator[str]:
        """Ends the server; what is not as it should be."""
        text = self.server.stop()
        checked = subprocess.run([self.server.program, 'check', self.server.net, self.server.text], capture_output=True, text=True)
        print(f'check: {checked.stdout.strip()}')
        if checked.returncode:
            yield f'check says: {checked.stdout.strip()}'
        run = read_run(text, len(self.network.events))
        for feed, room in enumerate(ROOMS):
            due = due_items(read(self.server.feeds[feed]).decode())
            if [(item.line, item.said) for item in run.logs[feed].items] != due:
                yield f'{room}: {len(due)} lines were due, and {len(run.logs[feed].items)} were answered'
            if not read(self.server.reply(feed)).startswith(self.shown[feed]):
                yield f'{room}: a reply that was shown is no longer there'
        times = dict(zip((event.id for event in self.network.events), sound_times(self.network, self.played.rows)))
        differing = sum(run.times[event] != at for event, at in times.items())
        print(f'{sum(map(len, self.lines))} lines, {len(run.journal)} entries, {differing} of {len(times)} times differ')
        if differing:
            yield f'{differing} times are not those of the second reading'


def played(morning: Morning, pace: int) -> list[str]:
    """Plays the morning, `pace` seconds of it in one; what is not as it should be."""
    morning.server.start()
    begun = time.monotonic()
    for now in range(BEGIN, END + 1, STEP):
        time.sleep(max(0.0, begun + (now - BEGIN) / pace - time.monotonic()))
        if now == KILLED:
            morning.restart(now)
        morning.step(now)
    faults = list(morning.faults())
    print(f'the lines of a minute were answered in {1000 * statistics.median(morning.took):.0f} ms in the middle, '
          f'{1000 * max(morning.took):.0f} at the worst')
    return faults


def main() -> int:
    words = command_line(__doc__)
    add_program(words)
    words.add_argument('folder', metavar='FOLDER', nargs='?', help='where files stay (a folder that is removed at the end)')
    words.add_argument('--pace', type=whole_between(1, 1_000_000), default=120, metavar='N', help='how many seconds of the morning go by in one (120)')
    given = words.parse_args()
    folder = os.path.abspath(given.folder or tempfile.mkdtemp(prefix='live-'))
    morning = None
    try:
        morning = Morning(given.program, folder)
        faults = played(morning, given.pace)
    except BadFile as bad:
        faults = [str(bad)]
    finally:
        if morning is not None:
            morning.server.kill()
        if not given.folder:
            shutil.rmtree(folder)
    for fault in faults:
        print(fault)
    return 1 if faults else 0


if __name__ == '__main__':
    sys.exit(main())
