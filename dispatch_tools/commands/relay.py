"""Passes on to a region's server what the boards of its neighbours show:

    mosquitto_sub -F '%t %x' -t board/M/+ .. | dispatch-tools relay BOUNDARY.. --region N --topics --feed FILE
    dispatch-tools relay BOUNDARY.. --region N < lines of boards

Each BOUNDARY is a table of cut activities that split made for a region. Those that lead into region N count. The script reads
from standard input the lines of the boards of all neighbours, in any order. A line is `event; time`, as in the file of a board,
or `event; time, event; time, ..`, as board writes it. With --topics each line is a topic, board/M/S, a space, and such a line
in hexadecimal digits, as `mosquitto_sub -F '%t %x'` writes a message. Then nothing in a message of region M can end the line that
begins with its topic, and region M is believed only about its own events.

For each event E of region N that has to wait, it writes a line `delay event E D` at once. D is in seconds. The times on the
boards and the bounds of the cut activities say when E can happen at the earliest. D is how much later that is than the schedule
of E. A correction down is written, too. If nothing changes, nothing is written, so a line that comes twice does no harm. A region
has one relay, and this relay knows all tables, because a delay replaces the one before.

With --feed the script appends its lines to FILE, as the control room does. `tail -n +1 -f FILE` feeds the region's server from
it. When the relay is started again, it reads in FILE what it had reported to the region. Until it has times of all events for
which an event waits, it reports no less than that. Without --feed the lines go to standard output, and nothing is known from
before.

It waits for the rest of a line that is broken off. It skips a line of another form, a time that a region reports of another
region's event, and a time that would need a delay above 1,000,000 seconds. Standard error shows the first few of these, and at
the end how many there were.
"""
from __future__ import annotations

import sys
from typing import Sequence

from dispatch_tools.days.split import MOST_REGIONS
from dispatch_tools.formats.files import BadFile, speak_utf8
from dispatch_tools.live.board import Skipped, standard_input
from dispatch_tools.live.relay import FeedFile, read_boundary, relay, Relay
from dispatch_tools.words import command_line, whole_between


def main(argv: Sequence[str] | None = None) -> int:
    words = command_line(__doc__)
    words.add_argument('boundaries', metavar='BOUNDARY', nargs='+', help='Boundary.csv of a neighbour')
    words.add_argument('--region', type=whole_between(1, MOST_REGIONS), required=True, metavar='N', help='region to be told')
    words.add_argument('--topics', action='store_true', help='each line begins with its topic, board/M/S')
    words.add_argument('--feed', metavar='FILE', help='file that feeds the region (standard output)')
    given = words.parse_args(argv)
    speak_utf8()
    skipped = Skipped('relay')
    try:
        cuts = [cut for name in given.boundaries for cut in read_boundary(name) if cut.region == given.region]
        feed = FeedFile(given.feed) if given.feed else None
        told = Relay(cuts, feed.told() if feed else ())
        relay(told, standard_input(), given.topics, feed.write if feed else lambda line: print(line, flush=True), skipped)
    except BadFile as fault:
        print(f'relay: {fault}', file=sys.stderr)
        return 2
    except BrokenPipeError:
        return 1
    finally:
        skipped.end()
    return 0
