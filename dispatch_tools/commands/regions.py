"""Shows a country of regions on one page, and says how it is to monitoring: dispatch-tools regions BOUNDARY.. [--serve=PORT]

    mosquitto_sub -F '%r %t %x' -t board/+/+ -t state/+ .. | dispatch-tools regions region-*/Boundary.csv --serve=8090

Each BOUNDARY is a table of cut activities that split made for a region. The script reads from standard input what the regions say
on their boards (`dispatch-tools board`) and of themselves (`dispatch-tools state`): a message a line, 1 if the broker had kept it
and else 0, its topic, board/N/S or state/N, and what was sent, in hexadecimal digits, with spaces between. A region is believed only
about itself and its own events.

At http://127.0.0.1:PORT/ stands the page: how each region is, its feeds and what waits in them, when it was heard; and at each
boundary, the events that wait for a time which their region was not told yet. /metrics has the figures for Prometheus. /health has
one line, with HTTP's status 200, or 503 if something is critical or nothing is known of a region.

Critical: a region says that of itself, or has said nothing for longer than --patience seconds, or an event behind a boundary waits
so long for its region's relay. Warning: a region says that of itself, or its boards say nothing for so long. Whoever is asked
before a region has said anything does not know.

Without --serve the script reads all its lines, prints the line of /health and what waits, and ends with its status: 0 well, 1
warning, 2 critical, 3 unknown. With --serve it ends, with status 1, when its standard input does. It skips lines of another form.
Standard error shows the first few of these, and at the end how many there were.
"""
from __future__ import annotations

import sys
import threading
import time
from io import BufferedIOBase
from typing import Sequence

from dispatch_tools.desk.country import Pages
from dispatch_tools.formats.files import BadFile, speak_utf8
from dispatch_tools.live.board import Skipped, standard_input, whole_lines
from dispatch_tools.live.country import Country, line_of, wait_words
from dispatch_tools.live.relay import read_boundary
from dispatch_tools.words import command_line, whole_between

# What waits is looked at each so many seconds, so that the page knows since when.
LOOK = 5.0


def hear(country: Country, lock: threading.Lock, file: BufferedIOBase) -> None:
    """Takes up all that comes."""
    number, looked = 0, 0.0
    for lines in whole_lines(file, LOOK):
        now = time.monotonic()
        with lock:
            for number, line in enumerate(lines, number + 1):
                country.hear(number, line, now)
            if now - looked >= LOOK:
                country.look(now)
                looked = now


def main(argv: Sequence[str] | None = None) -> int:
    words = command_line(__doc__)
    words.add_argument('boundaries', metavar='BOUNDARY', nargs='+', help='Boundary.csv of a region')
    words.add_argument('--serve', metavar='PORT', type=whole_between(0, 65_535), help='port of the page on this computer (0: any)')
    words.add_argument('--host', metavar='NAME', action='append', default=[], help='a name by which the page is called, as behind TLS')
    patience = 'seconds that a region may say nothing, and that an event may wait (30)'
    words.add_argument('--patience', metavar='S', type=whole_between(1, 86_400), default=30, help=patience)
    given = words.parse_args(argv)
    speak_utf8()
    skipped, lock = Skipped('regions'), threading.Lock()
    try:
        cuts = [cut for name in given.boundaries for cut in read_boundary(name)]
        country = Country(cuts, skipped, time.monotonic(), given.patience)
        if given.serve is not None:
            serve(country, lock, given.serve, given.host)
        hear(country, lock, standard_input())
        skipped.end()
    except BadFile as fault:
        print(f'regions: {fault}', file=sys.stderr)
        return 2
    except OSError as error:
        print(f'regions: port {given.serve}: {error.strerror}', file=sys.stderr)
        return 2
    return 1 if given.serve is not None else said(country)


def serve(country: Country, lock: threading.Lock, port: int, names: list[str]) -> None:
    """Serves the page on this computer from now on."""
    server = Pages(port, names, country, lock)
    threading.Thread(target=server.serve_forever, daemon=True).start()
    print(f'regions: http://127.0.0.1:{server.server_port}/ shows the country', file=sys.stderr, flush=True)


def said(country: Country) -> int:
    """Prints how the country is; its status."""
    look = country.look(time.monotonic())
    print(line_of(look))
    for (home, region), waiting in look.waits.items():
        for wait in waiting:
            print(f'{home} -> {region}: {wait_words(wait)}')
    return look.status
