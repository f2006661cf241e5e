"""Writes the disposition timetable of a run in the form of GTFS:

    dispatch-tools to_gtfs NET TEXT DIR [--feed FEED] [--cancelled NAME]

NET is a network that from_gtfs made, with Events.csv and Trains.csv. TEXT is the text of a run over it. DIR gets

  stop_times.txt  the calls of each train, with their times after all entries of the run. Times past midnight count on
  delays.csv      a line for each train: how late it leaves its first stop and reaches its last one, and where it is latest, in
                  seconds after the timetable

A train that a frequency made has a name such as TRIP@06:30:00. To use these lines in a GTFS feed, add such a trip to trips.txt,
and remove the frequency of TRIP. A network has no arrival at the first stop of a train, and no departure from the last one. With
--feed give the timetable that the network was made of: a train then stands there as long as FEED says. Without it the two times
of such a call are the same.

Times of GTFS do not decrease within a trip. If a run shows that a train has passed a stop before it leaves an earlier one, it has
left the earlier one by then. The script then writes the time of the later stop for the earlier one, and names the trip on
standard error.

What is cancelled is left out, and named there. --cancelled is the file of NET with the events that were cancelled at the start.

The status is 0. It is 2, and no file is written, if a file is not good.
"""
from __future__ import annotations

import sys
from typing import Sequence

from dispatch_tools.days.to_gtfs import texts_of
from dispatch_tools.formats.files import BadFile, in_one_line, write_all
from dispatch_tools.words import command_line


def main(argv: Sequence[str] | None = None) -> int:
    words = command_line(__doc__, allow_abbrev=False)
    words.add_argument('net', metavar='NET', help='folder of a network, with its files of names')
    words.add_argument('text', metavar='TEXT', help='the text of a run over it')
    words.add_argument('folder', metavar='DIR', help='folder for the two files')
    stays = 'timetable that the network was made of; it says how long trains stand at their ends'
    words.add_argument('--feed', metavar='FEED', help=stays)
    words.add_argument('--cancelled', metavar='NAME', help='file in NET with events that are cancelled at the start, if any')
    read = words.parse_args(argv)
    try:
        texts, said = texts_of(read.net, read.text, read.feed, read.cancelled)
        write_all(read.folder, texts)
    except BadFile as error:
        print(f'to_gtfs: {error}', file=sys.stderr)
        return 2
    for line in said:
        print(f'to_gtfs: {in_one_line(line)}', file=sys.stderr)
    return 0
