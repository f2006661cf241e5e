"""Reports what looks wrong in a network and in feeds, though the server accepts it: dispatch-tools lint NET [FEED ..] [--cancelled=NAME]

NET is the folder of a network, and each FEED a file of lines. The script prints a line for each thing that it finds, with the
file and the line. It looks for

    activities that run back in time, or for which the timetable has less time than their lower bound
    columns that look swapped: times and weights, tails and heads
    trains that jump between stops: a wait from one stop to another, a drive from a stop to itself
    headways in one direction only, changes that nobody can make, and changes longer than a day
    stops of Stops.csv without events
    feed lines that are malformed, that name ids which are not in the network, or that are refused whatever has happened
    trains with a gap: events are cancelled, and the train runs on behind them, or leaves and never arrives

Of each kind it prints at most 20 lines, and then how many more there are. The status is 0 if it finds nothing, 1 if it finds
something, and 2 if NET is no network or a FEED cannot be read.
"""
from __future__ import annotations

import sys
from typing import Sequence

from dispatch_tools.days.lint import oddities, read_files, tell
from dispatch_tools.formats.files import BadFile, speak_utf8
from dispatch_tools.words import add_network, command_line


def main(argv: Sequence[str] | None = None) -> int:
    words = command_line(__doc__)
    add_network(words)
    words.add_argument('feeds', metavar='FEED', nargs='*', help='feed, a file of lines')
    words.add_argument('--cancelled', metavar='NAME', help='file in NET with events that are cancelled at the start, if any')
    given = words.parse_args(argv)
    speak_utf8()
    try:
        count = tell(list(oddities(read_files(given.net), given.feeds, given.cancelled)))
    except BadFile as fault:
        print(f'lint: {fault}', file=sys.stderr)
        return 2
    return 1 if count else 0
