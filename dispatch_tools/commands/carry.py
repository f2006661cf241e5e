"""Prints the lines of a feed that lead to where a day stands: dispatch-tools carry NET TEXT [--to=NEXT]

TEXT is the text of a run over the network NET, or what `dispatcher text` prints of a store. The lines say what holds behind its
last entry: delays, choices, locks, what has passed or is cancelled, and the clock. What was corrected since is left out, and so are
questions and plans. So a day whose journal is full goes on in a new store: let the lines be answered before any source says more.

With --to the lines are for NEXT, the network of the next day, in which the trains that run past midnight stand again. An event of
NET is found there by its trip (both have Events.csv and Day.csv, as dispatch-tools from_gtfs writes them with --day-before), or
else by its id, kind and stop. Its time there is --shift seconds earlier. Where the way of a train before an event is not in NEXT,
the event gets as its delay what it is late at the end of TEXT.

With --check=DISPATCHER, the built program, a server answers the lines, and the times and the cost by `follow` have to be those of
TEXT. The status is 0 if all is carried. It is 1 if something could not be, or the times differ, which standard error says. It is
2 if a file is not good.
"""
from __future__ import annotations

import sys
from typing import Sequence

from dispatch_tools.days.carry import differs, lines_of_the_day, read_days, rows_of_next_day, without_cycles
from dispatch_tools.formats.files import BadFile, speak_utf8
from dispatch_tools.formats.giv import read_network, start_rows
from dispatch_tools.model.railway import Rows
from dispatch_tools.pictures.scene import read_text, rows_of
from dispatch_tools.words import add_run, command_line, start_options, whole_between, whole_path


def main(argv: Sequence[str] | None = None) -> int:
    words = command_line(__doc__)
    add_run(words)
    words.add_argument('--to', metavar='NEXT', help='folder of the network of the next day')
    words.add_argument('--shift', metavar='S', type=whole_between(1, 999_999_999), help='seconds from midnight to midnight (86400)')
    words.add_argument('--check', metavar='DISPATCHER', type=whole_path, help='the built program, which has to find the same times')
    given = words.parse_args(argv)
    if given.check and (given.to or start_options(given)):
        words.error('--check goes with NET and TEXT alone')
    if given.shift is not None and not given.to:
        words.error('--shift goes with --to')
    speak_utf8()
    try:
        network = read_network(given.net)
        start = start_rows(network, given.net, given.event_delays, given.activity_delays, given.cancelled)
        run = read_text(given.text, network)
        if given.to:
            days = read_days(given.net, network, given.to, given.shift)
            begun = Rows(days.after)
            messages, left_out = without_cycles(days.after, begun, rows_of_next_day(days, rows_of(network, start, run, given.text), begun))
            lines = [*map(str, messages)]
        else:
            lines, left_out = lines_of_the_day(network, start, run, given.text), []
        print(''.join(f'{line}\n' for line in lines), end='')
        is_other = bool(given.check) and differs(given.check, given.net, given.text, run.penalty, lines)
    except BadFile as bad:
        print(f'carry: {bad}', file=sys.stderr)
        return 2
    for line in map(str, left_out):
        print(f'carry: "{line}" is left out: with the others it would close a cycle', file=sys.stderr)
    if is_other:
        print('carry: the program finds other times than the text has', file=sys.stderr)
    return 1 if left_out or is_other else 0
