#!/usr/bin/env python3
"""Measures a country that runs on this machine (services.py): measure.py FOLDER [--times T] [--lines L] [--seed S]

FOLDER is that of the country. The script works as the control rooms do, over the broker, and prints

- the time from a report in one region to the neighbour's board, T times (40): the report makes an event at a boundary so late that
  an event of the neighbour has to wait. The time begins before the client that sends the report is started. It takes each report
  back, and waits until that has come through, too;
- how many reports a second the country takes: each control room sends L delays of drawn events (1,000) at one go. The time ends when
  each server has answered all of them, and the later one when each relay has told all that the boards ask for;
- the most memory of each kind of process.

With --whole NET, the network of which split has made the regions, it says at the end how many times of the regions' stores differ from
those of a second reading of the rules over the whole network.

The control rooms of the country have reported delays of events and nothing else. The script takes all of them back before it begins.
"""
from __future__ import annotations

import os
import random
import re
import statistics
import subprocess
import sys
import time
from collections import defaultdict
from pathlib import Path
from typing import Callable, Iterator, NamedTuple

HERE = os.path.dirname(os.path.abspath(__file__))
sys.path.insert(0, os.path.join(HERE, '..', '..'))

from dispatch_tools.days.split import Cut  # noqa: E402
from dispatch_tools.formats.giv import event_row, EVENTS, PLAIN_EVENT, read_network, rows_of_file  # noqa: E402
from dispatch_tools.live.board import times_of  # noqa: E402
from dispatch_tools.live.health import read_shown, reply_of  # noqa: E402
from dispatch_tools.live.relay import read_boundary  # noqa: E402
from dispatch_tools.formats.runtext import read_run  # noqa: E402
from dispatch_tools.model.messages import DelayEvent  # noqa: E402
from dispatch_tools.model.railway import apply, Rows, sound_times  # noqa: E402
from dispatch_tools.words import command_line, whole_between, whole_path  # noqa: E402

PATIENCE = 300.0

# All is at rest if no feed has grown for so many seconds.
QUIET = 5.0

KINDS = {'serve': 'server', 'relay': 'relay', 'append': 'control room', 'board': 'a board', 'state': 'state', 'mosquitto': 'broker',
         'regions': 'page'}


class Across(NamedTuple):
    """Seconds from a report to the board of its own region, and to that of the neighbour."""
    own: float
    neighbour: float


class Country:
    """What is known of a country by its folder."""

    def __init__(self, folder: str, seed: int) -> None:
        self.folder, self.draws = Path(folder), random.Random(seed)
        self.numbers = sorted(int(path.name.removeprefix('region-')) for path in self.folder.glob('region-*'))
        self.cuts = [cut for number in self.numbers for cut in read_boundary(str(self.region(number) / 'Boundary.csv'))]
        self.behind = {cut.there for cut in self.cuts}
        self.stops: dict[int, int] = {}
        self.events: dict[int, list[int]] = {}
        self.due: dict[int, int] = {}
        self.size: dict[int, int] = {}
        for number in self.numbers:
            events = [event for _, event in rows_of_file(str(self.region(number) / 'net'), EVENTS, event_row, PLAIN_EVENT)]
            self.stops.update({event.id: event.stop for event in events})
            self.due.update({event.id: event.time for event in events})
            self.size[number] = len(events)
            self.events[number] = [event.id for event in events if event.id not in self.behind]

    def region(self, number: int) -> Path:
        return self.folder / f'region-{number}'

    def client(self, number: int, *words: str) -> list[str]:
        return ['env', f'XDG_CONFIG_HOME={self.folder}/of-room-{number}', 'mosquitto_pub', '-q', '1', '-t', f'feed/{number}', *words]

    def say(self, number: int, line: str) -> None:
        subprocess.run(self.client(number, '-m', line), check=True)

    def board(self, region: int, event: int) -> Path:
        return self.region(region) / 'net' / f'board-{self.stops[event]}.txt'

    # ---- Across a boundary

    def across(self) -> Across:
        """Reports a delay that crosses a boundary, and takes it back."""
        cut = self.draws.choice([cut for cut in self.cuts if cut.here not in self.behind])
        late = cut.scheduled - cut.lower + self.draws.randrange(600, 900)
        came = self.shown_after(cut, late - self.due[cut.here], late, late + cut.lower)
        self.shown_after(cut, 0, self.due[cut.here], cut.scheduled)
        return came

    def shown_after(self, cut: Cut, delay: int, own: int, neighbours: int) -> Across:
        """The times from a report until both boards show what is due."""
        boards = [Growing(self.board(cut.home, cut.here), cut.here), Growing(self.board(cut.region, cut.there), cut.there)]
        begun = time.monotonic()
        self.say(cut.home, f'delay event {cut.here} {delay}')
        return Across(*(wait_until(lambda: board.time() == due) - begun for board, due in zip(boards, (own, neighbours))))

    # ---- At one go

    def storm(self, lines: int) -> tuple[float, float]:
        """The seconds until all reports of all rooms are answered, and until all is at rest."""
        begun, before = time.monotonic(), {number: len(self.room(number).read_bytes().splitlines()) for number in self.numbers}
        self.send({number: [(self.draws.choice(self.events[number]), self.draws.randrange(900)) for _ in range(lines)]
                   for number in self.numbers})
        answered = wait_until(lambda: all(read_shown(reply_of(str(self.region(number) / 'store'), 1), 0.0).line >= before[number] + lines
                                          for number in self.numbers), 0.02)
        return answered - begun, self.rest() - begun

    def take_back(self) -> None:
        """Takes back all delays that the rooms have reported."""
        self.send({number: [(event, 0) for event, delay in self.reported(number).items() if delay] for number in self.numbers})
        self.rest()

    def reported(self, number: int) -> dict[int, int]:
        """The last delay of each event by the lines of a room, which are all delays of events."""
        lines = self.room(number).read_text().splitlines()
        return {int(event): int(delay) for event, delay in (line.removeprefix('delay event ').split() for line in lines)}

    def send(self, delays: dict[int, list[tuple[int, int]]]) -> None:
        """Sends delays of events of all rooms at once, each room by one client."""
        clients = []
        for number, drawn in delays.items():
            client = subprocess.Popen(self.client(number, '-l'), stdin=subprocess.PIPE, text=True)
            assert client.stdin is not None
            client.stdin.write(''.join(f'delay event {event} {delay}\n' for event, delay in drawn))
            client.stdin.close()
            clients.append(client)
        for client in clients:
            client.wait()

    def room(self, number: int) -> Path:
        return self.region(number) / 'room'

    def rest(self) -> float:
        """The moment since which nothing has moved."""
        last, sizes = time.monotonic(), list(self.sizes())
        while time.monotonic() - last < QUIET:
            time.sleep(0.02)
            now = list(self.sizes())
            if now != sizes:
                last, sizes = time.monotonic(), now
        return last

    def sizes(self) -> Iterator[int]:
        for number in self.numbers:
            for name in ('room', 'relay', 'store/journal', 'store/reply-2.txt'):
                yield os.path.getsize(self.region(number) / name)

    # ---- Compared with the whole

    def differing(self, net: str, program: str) -> tuple[int, int]:
        """How many times of the regions are not those of the whole network with the lines of all rooms, and how many there are."""
        whole = read_network(net)
        rows = Rows(whole)
        for number in self.numbers:
            for event, delay in self.reported(number).items():
                apply(whole, rows, DelayEvent(event, delay))
        due = dict(zip((event.id for event in whole.events), sound_times(whole, rows)))
        came: dict[int, int] = {}
        for number in self.numbers:
            words = [program, 'text', 'net', 'store', 'room', 'relay']
            done = subprocess.run(words, cwd=self.region(number), capture_output=True, check=True)
            came.update(read_run(done.stdout, self.size[number]).times)
        return sum(came.get(event) != time for event, time in due.items()) + len(came.keys() ^ due.keys()), len(due)

    # ---- Memory

    def memory(self) -> dict[str, list[int]]:
        """The most memory of each process of the country, in kilobytes, by kind."""
        found: dict[str, list[int]] = defaultdict(list)
        for process in Path('/proc').glob('[0-9]*'):
            try:
                if not os.path.realpath(process / 'cwd').startswith(str(self.folder)):
                    continue
                words = (process / 'cmdline').read_text().split('\0')
                most = re.search('^VmHWM:\\s+([0-9]+) kB$', (process / 'status').read_text(), re.MULTILINE)
            except OSError:
                continue
            kind = next((kind for word, kind in KINDS.items() if word in words[:4]), None)
            if kind is not None and most is not None:
                found[kind].append(int(most[1]))
        return found


class Growing:
    """The last time of an event on a board, in what is written there from now on."""

    def __init__(self, path: Path, event: int) -> None:
        self.file, self.event, self.last, self.rest = path.open('rb'), event, -1, b''
        self.file.seek(0, os.SEEK_END)

    def time(self) -> int:
        *lines, self.rest = (self.rest + self.file.read()).split(b'\n')
        for line in lines:
            for event, shown in times_of(line) or ():
                if event == self.event and shown is not None:
                    self.last = shown
        return self.last


def wait_until(is_so: Callable[[], bool], pause: float = 0.001) -> float:
    """Waits until something is so; the moment."""
    end = time.monotonic() + PATIENCE
    while not is_so():
        if time.monotonic() > end:
            raise SystemExit('what should come does not come')
        time.sleep(pause)
    return time.monotonic()


def said_of(values: list[float]) -> str:
    return f'{1000 * statistics.median(values):.0f} ms in the middle, {1000 * min(values):.0f} at the least, {1000 * max(values):.0f} at the worst'


def main() -> None:
    words = command_line(__doc__)
    words.add_argument('folder', metavar='FOLDER', type=whole_path, help='folder of the country')
    words.add_argument('--times', type=whole_between(1, 10_000), default=40, metavar='T', help='how many reports cross a boundary (40)')
    words.add_argument('--lines', type=whole_between(1, 60_000), default=1_000, metavar='L', help='how many lines each room sends at one go (1000)')
    words.add_argument('--seed', type=whole_between(0, 999_999), default=7, metavar='S', help='from which all is drawn (7)')
    words.add_argument('--whole', metavar='NET', help='folder of the whole network, with which the times are compared')
    words.add_argument('--dispatcher', metavar='PROGRAM', default='dispatcher', help='the built program (dispatcher in the path)')
    given = words.parse_args()
    country = Country(given.folder, given.seed)
    country.take_back()
    came = [country.across() for _ in range(given.times)]
    print(f'a report to the board of its own region: {said_of([one.own for one in came])}')
    print(f"a report to the neighbour's board: {said_of([one.neighbour for one in came])}", flush=True)
    answered, rest = country.storm(given.lines)
    count = given.lines * len(country.numbers)
    print(f'{count} reports of {len(country.numbers)} control rooms at one go: {count / answered:.0f} a second are answered; '
          f'all at rest after {rest:.1f} s', flush=True)
    for kind, kilobytes in country.memory().items():
        print(f'{kind}: {len(kilobytes)} of {min(kilobytes) / 1000:.0f} to {max(kilobytes) / 1000:.0f} MB')
    if given.whole is not None:
        differing, events = country.differing(given.whole, given.dispatcher)
        print(f'{differing} of {events} times differ from those of the whole')
        sys.exit(1 if differing else 0)


if __name__ == '__main__':
    main()
