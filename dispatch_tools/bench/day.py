"""Writes a generated day into a folder: dispatch-tools day NUMBER TRAINS FOLDER

FOLDER gets net/Events-expanded.giv, net/Activities-expanded.giv and these feeds, drawn from NUMBER:

    empty      nothing
    delays     500 delays of events, those of the generator
    full       delays of events, as many as a feed may hold
    mixed      every kind of line, as many as a feed may hold: delays of events and activities up and down, changes kept and
               dropped, pairs turned, passed events and recalls, the clock, and questions
    plans      delays; after each eighth a plan, its adoption and a question, up to the 16 plans of a feed
    solved     the same with plans by parts
    questions  times and costs alone, as many as a feed may hold

The trains run alike, 30 seconds apart, over ten legs each. Every eighth train shares its tracks, so the departures of its legs
are headway pairs. A change joins each train to the next.
"""
from __future__ import annotations

from typing import Sequence

from dispatch_tools.days.generated import write_day
from dispatch_tools.words import command_line


def main(argv: Sequence[str] | None = None) -> int:
    words = command_line(__doc__)
    words.add_argument('number', metavar='NUMBER', type=int, help='number from which the day is drawn')
    words.add_argument('trains', metavar='TRAINS', type=int, help='number of trains')
    words.add_argument('folder', metavar='FOLDER', help='folder for the network and the feeds')
    given = words.parse_args(argv)
    write_day(given.number, given.trains, given.folder)
    return 0
