#!/usr/bin/env python3
"""Runs a whole country on this machine, as systemd would: services.py FOLDER [DISPATCHER] [--page P]

FOLDER is that of the country, in which split, `broker.py` and `dispatcher-region begin-N` have made what they make. The script starts
the broker, the page of the country at 127.0.0.1:P (8090), and of each region the server, its relay, and what passes on lines, boards and
the state. What ends is started again. It runs until it gets SIGTERM or SIGINT, and then ends all of them; the servers print their
texts (FOLDER/region-N/text). DISPATCHER is the built program (`dispatcher` in the path). What services say stands in FOLDER/said. The
script needs Debian's `mosquitto` and `mosquitto-clients`.
"""
from __future__ import annotations

import os
import signal
import subprocess
import sys
import threading
import time
from pathlib import Path
from typing import Callable, Iterable, Mapping, Optional

HERE = os.path.dirname(os.path.abspath(__file__))
TOP = os.path.join(HERE, '..', '..')
sys.path.insert(0, TOP)

from dispatch_tools.words import command_line, whole_between, whole_path  # noqa: E402

KINDS = ('server', 'room', 'relay', 'boards', 'state')
SCRIPT = os.path.join(HERE, 'dispatcher-region')

# How many seconds the servers have to print their texts, how often is looked whether all run, and how long it is from a start of a
# service to its next one at least.
PATIENCE, TICK, BETWEEN = 60.0, 0.2, 1.0


def surroundings(folder: str, program: Optional[str], again: int = 5, page: int = 8090, patience: int = 30) -> dict[str, str]:
    """What services find: the country, the program and the commands, and how often and where they say something."""
    path = os.pathsep.join([TOP, HERE, os.path.join(HERE, '..', 'live'), os.environ['PATH']])
    named = {} if program is None else {'DISPATCHER': program}
    numbers = {'DISPATCHER_AGAIN': str(again), 'DISPATCHER_PAGE': str(page), 'DISPATCHER_PATIENCE': str(patience)}
    return {**os.environ, 'PATH': path, 'DISPATCHER_COUNTRY': folder, **numbers, **named}


class Service:
    """A process with all that it starts. If it ends, what is left of it is ended, and it is started again."""

    def __init__(self, name: str, command: list[str], said: str, environment: Mapping[str, str], folder: Optional[str] = None,
                 before: Callable[[], object] = lambda: None) -> None:
        self.name, self.command, self.said, self.environment, self.folder = name, command, said, environment, folder
        self.before = before
        self.process: Optional[subprocess.Popen[bytes]] = None
        self.is_wanted = True
        self.starts, self.started = 0, -BETWEEN
        self.one = threading.Lock()

    def tend(self) -> None:
        """Starts what should run and does not."""
        with self.one:
            has_ended = self.process is None or self.process.poll() is not None
            if self.is_wanted and has_ended and time.monotonic() - self.started >= BETWEEN:
                self.end()
                self.starts, self.started = self.starts + 1, time.monotonic()
                with open(self.said, 'ab') as said:
                    self.process = subprocess.Popen(self.command, cwd=self.folder, env=self.environment, stdin=subprocess.DEVNULL,
                                                    stdout=said, stderr=said, start_new_session=True)

    def kill(self, for_now: bool = True) -> None:
        """Kills it, and for now it is started again."""
        with self.one:
            self.is_wanted = for_now
            self.end()

    def end(self, sign: int = signal.SIGKILL) -> None:
        if self.process is not None:
            self.before()
            try:
                os.killpg(self.process.pid, sign)
            except ProcessLookupError:
                pass
            self.process.wait()
            self.process = None


class Keeper:
    """Keeps services running."""

    def __init__(self, services: list[Service]) -> None:
        self.services = services
        self.is_over = threading.Event()
        self.tending = threading.Thread(target=self.tend, daemon=True)

    def start(self) -> None:
        self.tending.start()

    def tend(self) -> None:
        while not self.is_over.wait(TICK):
            for service in self.services:
                service.tend()

    def end(self) -> None:
        self.is_over.set()
        self.tending.join()
        for service in self.services:
            service.kill(for_now=False)


def broker_of(folder: str) -> Service:
    return Service('broker', ['mosquitto', '-c', 'mosquitto.conf'], said_by(folder, 'broker'), os.environ, folder)


def page_of(folder: str, environment: Mapping[str, str]) -> Service:
    return Service('page', [SCRIPT, 'page'], said_by(folder, 'page'), environment)


def services_of(folder: str, number: int, environment: Mapping[str, str], before: Callable[[], object] = lambda: None) -> list[Service]:
    """The services of a region. Before its server ends, something may be done."""
    names = [f'{kind}-{number}' for kind in KINDS]
    server, *others = (Service(name, [SCRIPT, name], said_by(folder, name), environment) for name in names)
    server.before = before
    return [server, *others]


def said_by(folder: str, name: str) -> str:
    """The file that gets what a service says."""
    os.makedirs(os.path.join(folder, 'said'), exist_ok=True)
    return os.path.join(folder, 'said', name)


def stop(servers: Iterable[Service]) -> None:
    """Tells servers to end and to print their texts."""
    wanted = [server for server in servers if server.process is not None]
    for server in wanted:
        server.is_wanted = False
        store = Path(server.environment['DISPATCHER_COUNTRY'], f'region-{server.name.rpartition("-")[2]}', 'store')
        if store.is_dir():
            (store / 'stop').touch()
    for server in wanted:
        if server.process is not None:
            server.process.wait(PATIENCE)


def main() -> None:
    words = command_line(__doc__)
    words.add_argument('folder', metavar='FOLDER', type=whole_path, help='folder of the country')
    words.add_argument('dispatcher', metavar='DISPATCHER', nargs='?', type=whole_path, help='the built program (dispatcher in the path)')
    words.add_argument('--page', type=whole_between(1, 65_535), default=8090, metavar='P', help='the port of the page (8090)')
    given = words.parse_args()
    numbers = sorted(int(path.name.removeprefix('region-')) for path in Path(given.folder).glob('region-*'))
    environment = surroundings(given.folder, given.dispatcher, page=given.page)
    regions = [services_of(given.folder, number, environment) for number in numbers]
    keeper = Keeper([broker_of(given.folder), page_of(given.folder, environment), *(service for region in regions for service in region)])
    told = threading.Event()
    for sign in signal.SIGTERM, signal.SIGINT:
        signal.signal(sign, lambda *_: told.set())
    keeper.start()
    told.wait()
    try:
        stop(region[0] for region in regions)
    finally:
        keeper.end()


if __name__ == '__main__':
    main()
