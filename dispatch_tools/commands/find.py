"""Finds changes of a network by their trains and their stop, and events by their train and their stop:

    dispatch-tools find NET FROM TO [STOP] [--line keep|drop]
    dispatch-tools find NET TRAIN --at STOP [--kind arrival|departure] [--late SECONDS]

NET is a network that from_gtfs made, with its files of names. FROM is the train that arrives, and TO the train that leaves. Name
a train by its name ("RB 2 09:08"), its route ("RB 2") or its trip. STOP is the name of a station, or the id of a stop; `--at all`
is every stop. The script prints a line for each change, with its number and what it joins, or for each event, with its number,
its train and its time. With --line it prints only the lines of a feed that keep or drop these changes, and with --late only those
that report so many seconds of delay at these events.

The status is 0. It is 1 if there is no such change or event, and 2 if a file is not good.
"""
from __future__ import annotations

import argparse
import sys
from typing import Sequence

from dispatch_tools.days.find import find, find_events
from dispatch_tools.formats.files import BadFile, in_one_line, speak_utf8
from dispatch_tools.model.railway import LARGEST_DELAY
from dispatch_tools.words import command_line, whole_between


def words_read(argv: Sequence[str] | None) -> argparse.Namespace:
    words = command_line(__doc__, allow_abbrev=False)
    words.add_argument('net', metavar='NET', help='folder of a network, with its files of names')
    words.add_argument('train', metavar='FROM', help='the train that arrives; with --at any train')
    words.add_argument('next_train', metavar='TO', nargs='?', help='the train that leaves')
    words.add_argument('stop', metavar='STOP', nargs='?', help='station or stop (all)')
    words.add_argument('--line', choices=('keep', 'drop'), help='print lines of a feed that keep or drop the changes')
    words.add_argument('--at', metavar='STOP', help='find the events of a train at this station or stop, or at all')
    words.add_argument('--kind', choices=('arrival', 'departure'), help='only such events (both)')
    late = 'print lines of a feed that report this delay at the events'
    words.add_argument('--late', type=whole_between(0, LARGEST_DELAY), metavar='SECONDS', help=late)
    read = words.parse_args(argv)
    if (read.at is None) == (read.next_train is None):
        words.error('name either TO or --at')
    if read.at is None and (read.kind or read.late is not None) or read.at is not None and read.line:
        words.error('--line goes with TO, and --kind and --late with --at')
    return read


def lines_found(read: argparse.Namespace) -> list[str]:
    """A line for each change or event that is found."""
    if read.at is None:
        changes = find(read.net, read.train, read.next_train, read.stop)
        return [f'{read.line} {one.change.change}' if read.line else in_one_line(str(one), 1000) for one in changes]
    events = find_events(read.net, read.train, None if read.at == 'all' else read.at, read.kind)
    return [in_one_line(str(one), 1000) if read.late is None else f'delay event {one.event.event} {read.late}' for one in events]


def main(argv: Sequence[str] | None = None) -> int:
    read = words_read(argv)
    speak_utf8()
    try:
        found = lines_found(read)
    except (BadFile, KeyError) as error:
        print(f'find: {error}', file=sys.stderr)
        return 2
    for line in found:
        print(line)
    if not found:
        print(f'find: there is no such {"change" if read.at is None else "event"}', file=sys.stderr)
    return 0 if found else 1
