"""Serves the dispatcher's desk, a page that is live: dispatch-tools desk NET STORE FEED [--port=8080] [--token=FILE] [--program=DISPATCHER]

NET is the folder of a network. STORE is the folder in which a server (`dispatcher serve NET STORE FEED ..`) keeps its day. FEED
is the desk's own feed, one of those of the server: the first, or the K-th with --feed=K. Open http://127.0.0.1:8080/ in a
browser.

The page shows the day of the journal: late trains, the diagram of a line, the board of a stop, alerts, the last entries. Whoever
types the token of FILE may report and decide. Each report or decision is a line that the desk appends to FEED. The server's reply
appears beside it. Without --token the page only shows.

The desk first works out times itself, by a second reading of the rules. It then compares them with those of DISPATCHER
(`follow`), which is right if they differ. The page says up to which entry the two agree. What a plan would change, windows and
waiting rules always come from DISPATCHER.

The page listens on the loopback address. For another address give --listen=ADDRESS. Then put a proxy with TLS before it, and say
with --host=NAME by which name the page is called there. docs/DESK.md describes the page.
"""
from __future__ import annotations

import argparse
import os
import shlex
import signal
import sys
import tempfile
from typing import Sequence

from dispatch_tools.desk.alerts import Marks
from dispatch_tools.desk.asking import found_program
from dispatch_tools.desk.day import Day, Names
from dispatch_tools.desk.feed import Feed
from dispatch_tools.desk.rights import hosts_of, is_loopback, others_read, read_token, Rights
from dispatch_tools.desk.room import Room, Settings
from dispatch_tools.desk.server import PageServer
from dispatch_tools.formats.files import BadFile, speak_utf8
from dispatch_tools.formats.giv import read_network, start_rows
from dispatch_tools.formats.names import read_labels, read_stops, read_trips
from dispatch_tools.words import add_network, add_start, command_line, start_options, whole_between

TOP = os.path.dirname(os.path.dirname(os.path.abspath(__file__)))


def arguments(argv: Sequence[str] | None) -> argparse.ArgumentParser:
    words = command_line(__doc__, allow_abbrev=False)
    add_network(words)
    words.add_argument('store', metavar='STORE', help='folder in which the server keeps its day')
    words.add_argument('own', metavar='FEED', help="the desk's own feed; created if it does not exist")
    number = 'number of FEED among the feeds of the server, from 1 to 64 (1)'
    words.add_argument('--feed', type=whole_between(1, 64), default=1, metavar='K', help=number)
    words.add_argument('--feeds', default='', metavar='NAME,NAME,..', help='names of the feeds of the server, for the page')
    words.add_argument('--port', type=whole_between(0, 65_535), default=8080, metavar='N', help='port, 0 for a free one (8080)')
    words.add_argument('--token', metavar='FILE', help='file with the token, and a name in its second line; without it the page only shows')
    program = 'the built program (DISPATCHER in the environment, else where it was built)'
    words.add_argument('--program', metavar='DISPATCHER', help=program)
    words.add_argument('--listen', default='127.0.0.1', metavar='ADDRESS', help='address of the page (127.0.0.1)')
    starts = 'the command that starts the server; with it the page has a button for it'
    words.add_argument('--start', default='', metavar='COMMAND', help=starts)
    called = 'a name by which the page is called, such as that of a proxy with TLS; may be given several times'
    words.add_argument('--host', action='append', default=[], metavar='NAME', help=called)
    alerts = ('late', 5, 'a train is late by'), ('waits', 3, 'a train waits for another'), ('silent', 5, 'a feed says nothing for')
    for name, minutes, what in alerts:
        words.add_argument(f'--{name}', type=whole_between(1, 1_440), default=minutes, metavar='MINUTES',
                           help=f'an alert says that {what} so many minutes or more ({minutes})')
    add_start(words)
    return words


def room_of(given: argparse.Namespace, folder: str, name: str) -> Room:
    """The room that the words ask for; BadFile if a file is not good."""
    network = read_network(given.net)
    start = start_rows(network, given.net, given.event_delays, given.activity_delays, given.cancelled)
    names = Names(read_stops(given.net), read_labels(given.net), read_trips(given.net), [name for name in given.feeds.split(',') if name])
    options = start_options(given)
    marks = Marks(60 * given.late, 60 * given.waits, 60 * given.silent)
    settings = Settings(given.store, marks, found_program(given.program, TOP), given.net, folder, options, given.token is not None, name,
                        shlex.split(given.start))
    try:
        feed = Feed(given.own)
    except OSError as error:
        raise BadFile(given.own, None, error.strerror or 'cannot be written') from error
    return Room(Day(network, start, names, given.feed), feed, settings)


def warn(given: argparse.Namespace, room: Room) -> None:
    """Says on standard error what somebody should know."""
    if not is_loopback(given.listen):
        print(f'desk: {given.listen} is not the loopback address. Whoever reads what goes over the wire has the token: put TLS before it.',
              file=sys.stderr)
    if given.token is not None and others_read(given.token):
        print(f'desk: others than you may read {given.token}', file=sys.stderr)
    if room.settings.program is None:
        print('desk: without a built program all times are those of the second reading; see --program', file=sys.stderr)


def main(argv: Sequence[str] | None = None) -> int:
    given = arguments(argv).parse_args(argv)
    speak_utf8()
    signal.signal(signal.SIGTERM, lambda *_: sys.exit(0))
    with tempfile.TemporaryDirectory() as folder:
        try:
            holder = None if given.token is None else read_token(given.token)
            token = holder.token if holder else None
            room = room_of(given, folder, holder.name if holder else '')
            server = PageServer((given.listen, given.port), room, Rights(frozenset(), token))
        except (BadFile, OSError) as fault:
            sys.exit(f'desk: {fault}')
        port = server.server_address[1]
        server.rights = Rights(hosts_of(given.listen, port, given.host), token)
        warn(given, room)
        room.start()
        print(f'http://{given.listen if ":" not in given.listen else f"[{given.listen}]"}:{port}/', flush=True)
        try:
            server.serve_forever()
        except KeyboardInterrupt:
            room.stopped.set()
    return 0
