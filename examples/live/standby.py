#!/usr/bin/env python3
"""Kills a server and goes on with its standby, again and again: python3 standby.py DISPATCHER [--lives=20] [--seed=1]

DISPATCHER is the built program. rsync (Debian's package of that name) has to be there. In each life a source reports delays of the
railway of ../day to a server, a hundred lines a second. The script dispatcher-standby copies its journal and its feed over rsync's
own protocol, five times a second. At a random moment the server is killed, and a second server is started over the copy.

The script says how many answered lines the copy lacked, and for how many seconds of reports that is. What the copy had must be
answered by the second server as it was by the first, line by line. Then the source appends what the second server lacks, and all
lines have to be answered. The status is 1 if anything differs.
"""
from __future__ import annotations

import os
import random
import shutil
import subprocess
import sys
import tempfile
import time
from dataclasses import dataclass
from typing import Iterator, Optional

HERE = os.path.dirname(os.path.abspath(__file__))
DAY = os.path.join(HERE, '..', 'day')
sys.path.insert(0, os.path.join(os.path.dirname(os.path.abspath(__file__)), '..', '..'))

from dispatch_tools.formats.files import BadFile  # noqa: E402
from dispatch_tools.formats.giv import read_network  # noqa: E402
from dispatch_tools.formats.journal import Journal  # noqa: E402
from dispatch_tools.formats.runtext import Item  # noqa: E402
from dispatch_tools.live.serving import Server, read  # noqa: E402
from dispatch_tools.words import add_program, command_line, whole_between  # noqa: E402

A_SECOND = 100


@dataclass
class Life:
    """What came of a server that was killed: the answers that it had shown, and those that its copy had."""
    shown: list[Item]
    copied: list[Item]
    went_on: list[Item]


class Primary:
    """A server over a copy of the day, whose folder an rsync of its own gives to the network."""

    def __init__(self, program: str, folder: str, port: int) -> None:
        self.folder = os.path.join(folder, 'primary')
        self.net = os.path.join(self.folder, 'net')
        shutil.copytree(os.path.join(DAY, 'net'), self.net)
        self.server = Server(program, self.net, os.path.join(self.folder, 'store'), [os.path.join(self.folder, 'north')])
        self.config = os.path.join(folder, 'rsyncd.conf')
        self.port = port
        self.daemon: Optional[subprocess.Popen[bytes]] = None

    def start(self) -> None:
        with open(self.config, 'w', encoding='utf-8') as file:
            file.write(f'use chroot = no\naddress = 127.0.0.1\n[day]\npath = {self.folder}\nread only = yes\nlist = no\n')
        self.server.start()
        words = ['rsync', '--daemon', '--no-detach', f'--port={self.port}', f'--config={self.config}', '--log-file=/dev/null']
        self.daemon = subprocess.Popen(words)

    def end(self) -> None:
        self.server.kill()
        if self.daemon is not None:
            self.daemon.terminate()
            self.daemon.wait()


def items_of(store: str) -> list[Item]:
    """The answers that a store's journal has."""
    journal = Journal(store)
    journal.read()
    return journal.logs[0] if journal.logs else []


def reported(draws: random.Random, events: list[int]) -> Iterator[str]:
    while True:
        yield f'delay event {draws.choice(events)} {draws.randrange(1, 900)}'


def report_until(server: Server, lines: Iterator[str], ends: float) -> list[str]:
    """Reports lines as time goes on, and gives those that were reported."""
    told: list[str] = []
    begun = time.monotonic()
    while time.monotonic() < ends:
        due = int((time.monotonic() - begun) * A_SECOND) - len(told)
        new = [next(lines) for _ in range(due)]
        if new:
            server.append(0, new)
            told += new
        time.sleep(0.01)
    return told


def lived(program: str, folder: str, port: int, draws: random.Random) -> Life:
    """A life: a server that is killed while a standby follows it, and the server that goes on."""
    primary = Primary(program, folder, port)
    standby = os.path.join(folder, 'standby')
    events = [event.id for event in read_network(primary.net).events]
    follower = None
    second = Server(program, os.path.join(standby, 'net'), os.path.join(standby, 'store'), [os.path.join(standby, 'north')])
    try:
        primary.start()
        follower = subprocess.Popen([os.path.join(HERE, 'dispatcher-standby'), 'standby', f'rsync://127.0.0.1:{port}/day', '0.2'],
                                    env={**os.environ, 'DISPATCHER_DAYS': folder}, stderr=subprocess.DEVNULL)
        primary.server.wait_until(lambda: os.path.exists(os.path.join(second.store, 'journal')))
        told = report_until(primary.server, reported(draws, events), time.monotonic() + 0.5 + draws.random())
        primary.end()
        time.sleep(0.1)
        follower.terminate()
        follower.wait()
        copied = items_of(second.store)
        second.start()
        lines = len(read(second.feeds[0]).split(b'\n')[:-1])
        second.append(0, told[lines:])
        second.wait_for([len(told)])
        return Life(items_of(primary.server.store), copied, items_of(second.store))
    finally:
        primary.end()
        second.kill()
        if follower is not None and follower.poll() is None:
            follower.kill()


def faults_of(life: Life) -> Iterator[str]:
    """What is not as it should be."""
    if life.copied != life.shown[:len(life.copied)]:
        yield 'the copy has other answers than the server that was killed'
    if life.went_on[:len(life.copied)] != life.copied:
        yield 'the second server answers otherwise than the copy says'
    if [item.line for item in life.went_on] != list(range(1, len(life.went_on) + 1)):
        yield 'a line was left out, or answered twice'


def main() -> int:
    words = command_line(__doc__)
    add_program(words)
    words.add_argument('--lives', type=whole_between(1, 10_000), default=20, metavar='N', help='how many servers are killed (20)')
    words.add_argument('--seed', type=whole_between(0, 999_999_999), default=1, metavar='N', help='number from which moments are drawn (1)')
    words.add_argument('--port', type=whole_between(1024, 65_535), default=8730, metavar='N', help='port for rsync (8730)')
    given = words.parse_args()
    draws, status, most = random.Random(given.seed), 0, 0
    for number in range(1, given.lives + 1):
        folder = tempfile.mkdtemp(prefix='standby-')
        try:
            life = lived(given.program, folder, given.port, draws)
            faults = list(faults_of(life))
        except BadFile as bad:
            faults = [str(bad)]
        finally:
            shutil.rmtree(folder)
        for fault in faults:
            print(f'life {number}: {fault}')
            status = 1
        if not faults:
            most = max(most, len(life.shown) - len(life.copied))
    print(f'{given.lives} lives; of what was answered a copy lacked at most {most} lines, {most / A_SECOND:.2f} seconds of reports')
    return status


if __name__ == '__main__':
    sys.exit(main())
