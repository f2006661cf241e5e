"""Draws days of source delays over any network: dispatch-tools scenarios NET FOLDER --seed=S --days=N --kind=KIND [OPTION..]

    delays    each train has, with --probability, a delay at one of its events
    slow      for two hours each drive over one stretch takes longer
    blocked   for an hour no train leaves over one stretch
    line      the trains of one line are late from their first event on
    mixed     delays, and one of the others

--size says how long delays are, in seconds: exponential:MEAN, lognormal:MEDIAN:SIGMA, or histogram:FILE with lines FROM;TO;COUNT.

For each day FOLDER gets `day-N.csv` (time;message), which says what becomes known and when, and a feed `day-N`. Every --every
minutes the feed reports what has become known, marks what has happened as passed, and moves the clock. With --no-clock it only
reports. With --dispatcher the program plans the choices of the next --ahead minutes each time, and the script enters them as
lines, as a control room would. Then the feed is the day as it went.

The network, the seed and the number of a day determine the day, however many other days there are.
"""
from __future__ import annotations

import sys
from typing import Sequence

from dispatch_tools.days.scenarios import add_drawing_words, drawing_of, made
from dispatch_tools.formats.files import BadFile
from dispatch_tools.words import add_network, command_line, whole_between


def main(argv: Sequence[str] | None = None) -> int:
    words = command_line(__doc__)
    add_network(words)
    words.add_argument('folder', metavar='FOLDER', help='folder for the days')
    add_drawing_words(words)
    words.add_argument('--no-clock', action='store_true', help='mark no event as passed, and leave the clock alone')
    words.add_argument('--dispatcher', metavar='PROGRAM', help='the built program, if it is to plan')
    words.add_argument('--penalty', type=whole_between(0, 1_000_000), default=3600, metavar='T', help='penalty in seconds (3600)')
    given = words.parse_args(argv)
    drawing = drawing_of(words, given)
    try:
        made(given, drawing)
    except BadFile as fault:
        print(f'scenarios: {fault}', file=sys.stderr)
        return 2
    return 0
