"""Makes a network of LinTim's files that the program cannot read as they are:

    dispatch-tools from_lintim SOURCE DIR [OPTION..]
    dispatch-tools from_lintim SOURCE DIR --period=T [--unit=S] --from=TIME --to=TIME

The first form reads Events-expanded.giv and Activities-expanded.giv in SOURCE, and writes them anew into DIR. The new files have
numbers without exponents, times and bounds in whole seconds, and only those kinds of events and activities that the program
knows. Ids stay, so files of delays stay valid. The files that --event-delays and --activity-delays name are written anew, too.

The second form rolls a periodic timetable out. It reads Events-periodic.giv, Activities-periodic.giv and Timetable-periodic.tim
in SOURCE. The period has T time units, and a time unit has S seconds. Each event happens once in every period from TIME to TIME.
Each activity leads from there to the first time of its head that its lower bound allows. A headway becomes a pair between times
that follow each other. In the other direction it takes the period less its upper bound. Ids count from 1, and the column of
periodic ids says where they come from.

The script finds columns by the names in a file's first line, a comment. Without that line they must be in the usual order of
these files. Standard error says what was left out. The status is 0. It is 2, and no file is written, if a file is not good.
docs/LINTIM.md has the details.
"""
from __future__ import annotations

import argparse
import sys
from fractions import Fraction
from typing import Optional, Sequence

from dispatch_tools.days.trains import Refused
from dispatch_tools.days.from_lintim import LARGEST_BOUND, network_of, summary, texts_of, Units
from dispatch_tools.formats.files import BadFile, write_all
from dispatch_tools.words import command_line, time_of_day, whole_between


def words_read(given: Optional[Sequence[str]]) -> argparse.Namespace:
    words = command_line(__doc__, allow_abbrev=False)
    words.usage = '%(prog)s SOURCE DIR [OPTION..]'
    words.add_argument('source', metavar='SOURCE', help='folder with the files of LinTim')
    words.add_argument('folder', metavar='DIR', help='folder for the network')
    words.add_argument('--event-delays', metavar='NAME', help='file in SOURCE with delays of events')
    words.add_argument('--activity-delays', metavar='NAME', help='file in SOURCE with delays of activities')
    words.add_argument('--stops', metavar='FILE', help='file of stops, such as Stop.giv, of which Stops.csv is made')
    unit = 'seconds of a time unit, from 1 to 3600 (1; 60 with --period)'
    words.add_argument('--unit', metavar='SECONDS', type=whole_between(1, 3600), help=unit)
    period = 'time units of a period; the script then rolls a periodic timetable out'
    words.add_argument('--period', metavar='UNITS', type=whole_between(1, LARGEST_BOUND), help=period)
    words.add_argument('--from', metavar='TIME', type=time_of_day, dest='start', help='with --period: first time, such as 06:30')
    words.add_argument('--to', metavar='TIME', type=time_of_day, dest='end', help='with --period: last time')
    read = words.parse_args(given)
    if (read.period is None) != (read.start is None) or (read.period is None) != (read.end is None):
        words.error('--period, --from and --to belong together')
    if read.period is not None and (read.event_delays or read.activity_delays):
        words.error('delays are of expanded files, and those of --period have ids of their own')
    return read


def main(argv: Sequence[str] | None = None) -> int:
    words = words_read(argv)
    units = Units(Fraction(words.unit or (1 if words.period is None else 60)))
    try:
        network = network_of(words, units)
        write_all(words.folder, texts_of(words, network, units))
    except (BadFile, Refused) as error:
        print(f'from_lintim: {error}', file=sys.stderr)
        return 2
    for line in summary(network, units.notes):
        print(line, file=sys.stderr)
    return 0
