#!/usr/bin/env python3
"""Plays a morning over a country of regions that answer at once: live.py DISPATCHER [FOLDER] [--regions N] [--faults F] [--seed S]

DISPATCHER is the built program. The script generates a country, and cuts it into N regions (3, or up to 10). Each region has the
services of `dispatcher-region`: a `dispatcher serve` with a store, which has a feed for its control room and one for its relay, what
fills these feeds, and what sends its boards and its state. A Mosquitto with TLS and the shipped access list passes them on. Whatever
ends is started again, as systemd would do.

The morning has reports of all control rooms: delays, corrections of delays, passed events and the clock. At five moments the script
waits until nothing moves any more. Then the times of all regions together must be those of one server over the whole network, event
by event. With --faults so many times a server, a relay, a control room's client, the boards' clients, what says the state, or the
broker is killed (SIGKILL) while reports go on. Between the third moment and the fourth, region 2 is away for --away seconds by this
computer's clock, in which reports go on. What a reply file showed when its server was killed must still stand there at the end.

All the time `dispatch-tools regions` listens. At each moment its line must say that all is well and at rest, and while region 2 is
away for longer than it has patience (10 s), that region 2 says nothing.

The status is 1 if something differs. With a FOLDER, which must be new or empty, the files stay there. The script needs Debian's
`mosquitto`, `mosquitto-clients` and `openssl`.
"""
from __future__ import annotations

import os
import random
import subprocess
import sys
import tempfile
import time
import urllib.error
import urllib.request
from typing import Any, Optional

HERE = os.path.dirname(os.path.abspath(__file__))
sys.path.insert(0, os.path.join(HERE, '..', '..'))

from broker import Tls  # noqa: E402
from services import broker_of, Keeper, page_of, SCRIPT, services_of, surroundings  # noqa: E402
from dispatch_tools.formats.files import BadFile, write_all  # noqa: E402
from dispatch_tools.formats.giv import read_network  # noqa: E402
from dispatch_tools.model.network import Network  # noqa: E402
from dispatch_tools.live.relay import read_boundary  # noqa: E402
from dispatch_tools.formats.runtext import read_run  # noqa: E402
from dispatch_tools.here import words_of  # noqa: E402
from dispatch_tools.words import command_line, whole_between, whole_path  # noqa: E402

MIDDLES = [11 * line + 6 for line in range(8)]
MOMENTS = 5
REPORTS = 40

# A board's line comes again after so many seconds, and all is at rest if nothing was started and nothing has grown for so long.
AGAIN = 2
QUIET = 6 * AGAIN
PATIENCE = 240.0

# For how many seconds a region may say nothing before the page of the country calls that critical.
SILENCE = 10


class Region:
    """A region's folder and its services, and the lines of its control room."""

    def __init__(self, country: Country, number: int) -> None:
        self.country, self.number = country, number
        self.folder = os.path.join(country.folder, f'region-{number}')
        self.network = read_network(self.path('net'))
        self.said: list[str] = []
        self.shown = b''
        subprocess.run([SCRIPT, f'begin-{number}'], env=country.environment, check=True)
        self.services = services_of(country.folder, number, country.environment, self.note)

    def path(self, name: str) -> str:
        return os.path.join(self.folder, name)

    def note(self) -> None:
        """Notes what the server shows before it is killed."""
        self.shown = max(self.shown, read(self.path('store/reply-1.txt')).rpartition(b'\n')[0], key=len)

    def say(self, line: str) -> None:
        """Sends a line of the control room, again if the broker does not take it."""
        words = self.country.broker.client(f'room-{self.number}', 'mosquitto_pub', '-q', '1', '-t', f'feed/{self.number}', '-m', line)
        while subprocess.run(words, capture_output=True).returncode:
            time.sleep(0.2)

    def report(self, line: str) -> None:
        self.said.append(line)
        self.say(line)

    def confirm(self) -> bool:
        """Whether the feed has the lines of the room, of each event the last one last; what it has not is sent again."""
        stands = {key_of(line): line for line in read(self.path('room')).decode('latin-1').split('\n')[:-1]}
        lost = [line for key, line in {key_of(line): line for line in self.said}.items() if stands.get(key) != line]
        for line in lost:
            self.say(line)
        return not lost

    def times(self) -> dict[int, int]:
        """The times by what its store holds."""
        command = [self.country.program, 'text', 'net', 'store', 'room', 'relay']
        done = subprocess.run(command, cwd=self.folder, capture_output=True, check=True)
        return read_run(done.stdout, len(self.network.events)).times


class Country:
    """A generated network, its regions, the broker, and what keeps all running."""

    def __init__(self, given: Any, folder: str) -> None:
        self.program, self.folder, self.draws = given.dispatcher, folder, random.Random(given.seed)
        self.environment = surroundings(folder, self.program, AGAIN, given.page, SILENCE)
        self.net = os.path.join(folder, 'net')
        subprocess.run([*words_of('day'), str(given.seed), str(given.trains), folder], check=True)
        subprocess.run(script('split', self.net, ','.join(map(str, MIDDLES)), folder, '--regions', str(given.regions)), check=True)
        self.network: Network = read_network(self.net)
        self.numbers = range(1, given.regions + 1)
        self.boundaries = [os.path.join(folder, f'region-{number}', 'Boundary.csv') for number in self.numbers]
        self.behind = {cut.there for name in self.boundaries for cut in read_boundary(name)}
        self.broker = Tls(folder, given.port, given.regions)
        self.regions = [Region(self, number) for number in self.numbers]
        self.home: dict[int, Region] = {event.id: region for region in self.regions for event in region.network.events}
        self.said: list[str] = []
        services = [broker_of(folder), *(service for region in self.regions for service in region.services)]
        # The port of the page, and how often it was wrong.
        self.page, self.wrong = given.page, 0
        self.keeper = Keeper([*services, page_of(folder, self.environment)])
        # What may be killed.
        self.services = services

    def health(self) -> str:
        """The line of the page of the country."""
        try:
            with urllib.request.urlopen(f'http://127.0.0.1:{self.page}/health', timeout=20) as came:
                return str(came.read().decode())
        except urllib.error.HTTPError as error:
            return error.read().decode()

    def demand(self, words: str) -> None:
        """Notes whether the page does not say what it should."""
        line = self.health()
        if words not in line:
            self.wrong += 1
            print(f'the page of the country does not say "{words}", but: {line}', end='', flush=True)

    # -- What is reported

    def report(self, now: int) -> None:
        """A line that its region's room reports at a time, or the clock, which all rooms report."""
        kind = self.draws.randrange(10)
        if kind == 0:
            self.said.append(f'now {now}')
            for region in self.regions:
                region.report(f'now {now}')
            return
        event = self.draws.choice([event for event in self.network.events if event.id not in self.behind])
        line = f'delay event {event.id} {self.draws.randrange(900)}'
        if kind == 1:
            line = self.corrected() or line
        elif kind < 4 and event.time < now and not any(said.startswith(f'pass {event.id} ') for said in self.said):
            line = f'pass {event.id} {event.time + self.draws.randrange(300)}'
        self.said.append(line)
        self.home[int(line.split()[-2])].report(line)

    def corrected(self) -> Optional[str]:
        """A correction down of a delay that was reported, or none where none is left that is not 0."""
        last = {key_of(line): int(line.split()[-1]) for line in self.said if line.startswith('delay')}
        late = [key for key, delay in last.items() if delay]
        if not late:
            return None
        key = self.draws.choice(late)
        return f'{key} {self.draws.randrange(last[key])}'

    def fault(self) -> str:
        """Kills a service that runs; which one."""
        service = self.draws.choice([one for one in self.services if one.is_wanted and one.process is not None])
        service.kill()
        return service.name

    # -- At rest

    def sizes(self) -> list[int]:
        names = [region.path(name) for region in self.regions for name in ('room', 'relay', 'store/journal')]
        return [*(os.path.getsize(name) if os.path.exists(name) else 0 for name in names), *(service.starts for service in self.services)]

    def settle(self) -> None:
        """Waits until for a while nothing was started and no feed and no journal has grown, and each feed has what its room said."""
        end, quiet, before = time.monotonic() + PATIENCE, time.monotonic(), self.sizes()
        while time.monotonic() - quiet < QUIET or not all([region.confirm() for region in self.regions]):
            time.sleep(0.2)
            now = self.sizes()
            if now != before:
                quiet, before = time.monotonic(), now
            if time.monotonic() > end:
                raise SystemExit('the regions do not come to rest')

    def differing(self) -> int:
        """How many times of the regions differ from those of one server that has all lines."""
        feed = os.path.join(self.folder, 'feed')
        write_all(self.folder, {'feed': ''.join(f'{line}\n' for line in self.said)})
        done = subprocess.run([self.program, 'run', self.net, feed], capture_output=True, check=True)
        due = read_run(done.stdout, len(self.network.events)).times
        came: dict[int, int] = {}
        for region in self.regions:
            came.update(region.times())
        return sum(came.get(event) != time for event, time in due.items()) + len(came.keys() ^ due.keys())

    def lost(self) -> int:
        """Of how many regions a reply that was shown does not stand any more."""
        return sum(not read(region.path('store/reply-1.txt')).startswith(region.shown) for region in self.regions)


def key_of(line: str) -> str:
    """What a line is about, so that of two about the same the last one counts."""
    return line.rpartition(' ')[0]


def read(name: str) -> bytes:
    if not os.path.exists(name):
        return b''
    with open(name, 'rb') as file:
        return file.read()


def script(name: str, *words: str) -> list[str]:
    return [*words_of(name), *words]


def set_away(region: Region, is_away: bool) -> None:
    """Ends all services of a region, or lets them be started again."""
    for service in region.services:
        if is_away:
            service.kill(for_now=False)
        service.is_wanted = not is_away


def moment(country: Country, number: int, faults: int, away: int) -> int:
    """Plays a fifth of the morning, and gives how many times differ at its end."""
    killed: list[str] = []
    if number == 3:
        set_away(country.regions[1], True)
    for count in range(REPORTS):
        country.report(21_600 + 60 * (number * REPORTS + count) // 2)
        while len(killed) < (count + 1) * faults // REPORTS:
            killed.append(country.fault())
            time.sleep(country.draws.random())
        if number == 3:
            time.sleep(away / REPORTS)
    if number == 3:
        if away > 2 * SILENCE:
            country.demand('region 2 says nothing for ')
        set_away(country.regions[1], False)
    country.settle()
    country.demand(f'OK {len(country.regions)} regions: all serve; the boundaries are at rest')
    differing = country.differing()
    away_too = f', region 2 away for {away} s' if number == 3 else ''
    print(f'moment {number + 1}: {len(country.said)} lines, {len(killed)} kills{away_too}: {differing} times differ', flush=True)
    return differing


def main() -> None:
    words = command_line(__doc__)
    words.add_argument('dispatcher', metavar='DISPATCHER', type=whole_path, help='the built program')
    words.add_argument('folder', metavar='FOLDER', nargs='?', type=whole_path, help='where files stay (a folder that is removed at the end)')
    words.add_argument('--regions', type=whole_between(2, 10), default=3, metavar='N', help='how many regions, 2 to 10 (3)')
    words.add_argument('--trains', type=whole_between(80, 5_000), default=80, metavar='T', help='how many trains, of 20 events each (80)')
    words.add_argument('--faults', type=whole_between(0, 10_000), default=0, metavar='F', help='how often something is killed (0)')
    words.add_argument('--away', type=whole_between(0, 3600), default=30, metavar='SECONDS', help='how long region 2 is away (30)')
    words.add_argument('--seed', type=whole_between(0, 999_999), default=7, metavar='S', help='from which the morning is drawn (7)')
    words.add_argument('--port', type=whole_between(1, 65_535), default=18833, metavar='P', help='the port of the broker (18833)')
    words.add_argument('--page', type=whole_between(1, 65_535), default=18834, metavar='P', help='the port of the page (18834)')
    given = words.parse_args()
    folder: Optional[str] = given.folder
    with tempfile.TemporaryDirectory() as other:
        if folder is not None:
            os.makedirs(folder, exist_ok=True)
        sys.exit(played(given, folder or other))


def played(given: Any, folder: str) -> int:
    """Plays the morning; the status."""
    if os.listdir(folder):
        raise BadFile(folder, None, 'this folder is not empty')
    country = Country(given, folder)
    country.keeper.start()
    try:
        shares = [given.faults * (number + 1) // MOMENTS - given.faults * number // MOMENTS for number in range(MOMENTS)]
        # It ends at the first moment that differs, so that the files show it.
        differing = next(filter(None, (moment(country, number, share, given.away) for number, share in enumerate(shares))), 0)
        lost = country.lost()
    finally:
        country.keeper.end()
    starts = sum(service.starts - 1 for service in country.services)
    print(f'{given.regions} regions, {len(country.network.events)} events, {starts} starts after kills: '
          f'{differing} times differ, {lost} regions lost a reply, the page was wrong {country.wrong} times')
    return 1 if differing or lost or country.wrong else 0


if __name__ == '__main__':
    main()
