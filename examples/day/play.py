#!/usr/bin/env python3
"""Plays the day of this folder on the desk's page: python3 examples/day/play.py DISPATCHER [FOLDER] [--pace=60] [--port=8080]

DISPATCHER is the built program. The script starts a server over the day's network with a new store, and the desk beside it. It
fills two feeds minute by minute. The control room north reports the clock, what has left and arrived, and delays. The control
room south reports delays and decisions. The desk has the third feed. Trains run as the journal says, so what is decided on the
page counts.

Open the address that is printed, and type the token that is printed too: then the day begins. Report delays, plan and adopt. With
--pace=60 a minute of the day takes a second. Ctrl-C ends the server, and so does the end of this script. If the port is taken, the
desk has another one. With a FOLDER, which must be new or empty, the store, the feeds and the text of the run stay there.
"""
from __future__ import annotations

import os
import secrets
import signal
import socket
import subprocess
import sys
import tempfile
import time

HERE = os.path.dirname(os.path.abspath(__file__))
TOP = os.path.join(HERE, '..', '..')
sys.path.insert(0, os.path.join(os.path.dirname(os.path.abspath(__file__)), '..', '..'))

from dispatch_tools.formats.files import BadFile  # noqa: E402
from dispatch_tools.formats.giv import read_network  # noqa: E402
from dispatch_tools.formats.journal import Journal  # noqa: E402
from dispatch_tools.model.messages import Decision, DelayActivity, DelayEvent, Drop, First, Keep, Message, Now  # noqa: E402
from dispatch_tools.model.network import Network  # noqa: E402
from dispatch_tools.days.playing import Played  # noqa: E402
from dispatch_tools.model.railway import apply, Rows, sound_times  # noqa: E402
from dispatch_tools.formats.runtext import heard  # noqa: E402
from dispatch_tools.live.serving import Server  # noqa: E402
from dispatch_tools.here import words_of  # noqa: E402
from dispatch_tools.words import add_program, command_line, whole_between  # noqa: E402

# The day begins at 6:00. A room reports at most one thing in APART seconds, and a delay is known AHEAD seconds before the train leaves.
BEGIN, APART, AHEAD = 21_600, 120, 60

# What ends this script, and with it the server.
ENDS = (signal.SIGINT, signal.SIGTERM, signal.SIGHUP)

# What the rooms report beside trains that leave and arrive.
Told = DelayEvent | DelayActivity | Decision


def time_of(network: Network, message: Told) -> int:
    """The scheduled time of the event that a message names, or of the one from which its activity leads."""
    if isinstance(message, (DelayEvent, First)):
        return network.events[network.event_place[message.event]].time
    return network.events[network.tails[network.activity_place[message.activity]]].time


def told_by(network: Network, name: str) -> list[tuple[int, Told]]:
    """The delays and decisions of a room's file, each with the time at which it is reported. All other lines are left out."""
    with open(os.path.join(HERE, name), encoding='ascii') as file:
        said = [heard(line.rstrip('\n')) for line in file]
    told = [one for one in said if isinstance(one, (DelayEvent, DelayActivity, Keep, Drop, First))]
    return [(max(BEGIN, min(BEGIN + APART * turn, time_of(network, one) - AHEAD)), one) for turn, one in enumerate(told)]


class Tracks:
    """What trains do: they run as the journal of the store says."""

    def __init__(self, network: Network, store: str) -> None:
        self.network, self.rows = network, Rows(network)
        self.journal = Journal(store)

    def read(self) -> None:
        """Applies the entries that are new in the journal, whichever feed they are of."""
        for entry in self.journal.read():
            apply(self.network, self.rows, entry.message)

    def happened(self, now: int) -> list[Message]:
        """What has left and arrived by now and was not reported yet, and the clock."""
        times = sound_times(self.network, self.rows)
        return [*Played(self.network, self.rows).passing(now, times, 0), Now(now)]

    def is_over(self) -> bool:
        return all(time is not None for time in self.rows.passed)


def fill(network: Network, server: Server, pace: int) -> None:
    """Fills the feeds of both rooms minute by minute until all trains have arrived."""
    tracks = Tracks(network, server.store)
    told = [told_by(network, name) for name in ('north', 'south')]
    now = BEGIN
    while not tracks.is_over():
        tracks.read()
        for feed, messages in enumerate(told):
            server.append(feed, [str(message) for at, message in messages if now - 60 < at <= now])
        server.append(0, [*map(str, tracks.happened(now))])
        time.sleep(60 / pace)
        now += 60


def free_port(port: int) -> int:
    """This port of this computer, or 0, for any that is free, if it is taken."""
    with socket.socket() as line:
        line.setsockopt(socket.SOL_SOCKET, socket.SO_REUSEADDR, 1)
        try:
            line.bind(('127.0.0.1', port))
        except OSError:
            print(f'port {port} is taken: the desk has another one', flush=True)
            return 0
    return port


def end(*_: object) -> None:
    raise KeyboardInterrupt


def page_of(server: Server, token: str, port: int) -> subprocess.Popen[str]:
    """The desk's page."""
    words = [*words_of('desk'), server.net, server.store, server.feeds[2], '--feed=3', '--feeds=north,south,desk']
    return subprocess.Popen([*words, f'--port={free_port(port)}', f'--token={token}', f'--program={server.program}'], stdout=subprocess.PIPE, text=True)


def wait_for_token(page: subprocess.Popen[str], token: str) -> None:
    """Prints the address and the token, and waits until somebody has typed it; BadFile if the desk ends before."""
    assert page.stdout is not None
    for place in range(2):
        said = page.stdout.readline()
        if not said:
            raise BadFile('desk', None, 'the desk has ended')
        if place == 0:
            print(f'{said.strip()}\ntoken {token}\nthe day begins when the token is typed', flush=True)


def play(program: str, folder: str, pace: int, port: int) -> None:
    """Plays the day in a folder; BadFile if the server ends with an unexpected status."""
    net, token, name = os.path.join(HERE, 'net'), secrets.token_urlsafe(16), os.path.join(folder, 'token')
    with open(os.open(name, os.O_WRONLY | os.O_CREAT | os.O_TRUNC, 0o600), 'w', encoding='ascii') as file:
        file.write(token)
    feeds = [os.path.join(folder, name) for name in ('north', 'south', 'desk')]
    server = Server(program, net, os.path.join(folder, 'store'), feeds)
    # Ctrl-C is for this script, which ends what it starts.
    before = signal.signal(signal.SIGINT, signal.SIG_IGN)
    page = None
    try:
        server.start()
        page = page_of(server, name, port)
        signal.signal(signal.SIGINT, before)
        wait_for_token(page, token)
        fill(read_network(net), server, pace)
        print('the day is over; Ctrl-C ends the server', flush=True)
        page.wait()
    except KeyboardInterrupt:
        pass
    finally:
        for signalled in ENDS:
            signal.signal(signalled, signal.SIG_IGN)
        if page is not None:
            page.terminate()
        server.stop()


def main() -> int:
    words = command_line(__doc__)
    add_program(words)
    words.add_argument('folder', nargs='?', metavar='FOLDER', help='where the store, the feeds and the text stay; new or empty')
    words.add_argument('--pace', type=whole_between(1, 3_600), default=60, metavar='N', help='how many seconds of the day go by in one (60)')
    words.add_argument('--port', type=whole_between(0, 65_535), default=8080, metavar='N', help='the port of the desk, or another if it is taken (8080)')
    given = words.parse_args()
    for signalled in ENDS[1:]:
        signal.signal(signalled, end)
    with tempfile.TemporaryDirectory() as other:
        folder = given.folder or other
        os.makedirs(folder, exist_ok=True)
        if os.listdir(folder):
            print(f'play.py: {folder} is not empty', file=sys.stderr)
            return 2
        try:
            play(given.program, folder, given.pace, given.port)
        except BadFile as fault:
            print(f'play.py: {fault}', file=sys.stderr)
            return 1
    return 0


if __name__ == '__main__':
    sys.exit(main())
