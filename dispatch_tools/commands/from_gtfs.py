"""Makes a network of a service day of a timetable in GTFS:

    dispatch-tools from_gtfs FEED DATE DIR [OPTION..]

FEED is the timetable, a zip file or a folder. DATE is a service day, such as 20261128. DIR gets the two files of a network,
Events-expanded.giv and Activities-expanded.giv. It also gets five files that say what the numbers stand for: Stops.csv,
Events.csv, Trains.csv, Changes.csv and Day.csv. docs/GTFS.md has all rules. In short:

  events       each departure and arrival of a trip. A stop of the network is a station (parent_station)
  drives       take at least the scheduled time less --reserve of it
  waits        take at least --dwell seconds, or the scheduled time if that is shorter
  turnarounds  join trips of one block_id. They take at least --turn seconds, or the scheduled time if that is shorter. They also
               join trips that transfers.txt links. If passengers stay in their seats (type 4), --dwell seconds are enough
  changes      lead from an arrival to the next departure of each other route and direction at the station, or at a station to
               which transfers.txt leads. That train leaves once the change can be made, and at most --longest-change seconds
               after the arrival. A change takes the min_transfer_time of transfers.txt, or else --change seconds. It never leads
               to the same vehicle, nor to a train that next goes to the station from which the arriving train has come. It leads
               to the same route only on another branch. In transfers.txt rows for trips count before rows for routes, and these
               before rows for stops. A row of type 1 for two trips is a guaranteed connection: it becomes a change whatever the
               routes are, and however long it takes
  headways     join departures of one kind of vehicle (rail, bus ..) that follow each other from one station to the next, in both
               directions. They take --headway seconds, those of --headways, or the scheduled time if that is shorter. On a
               stretch of --single-track they also join departures from its two ends. The second train leaves when the first one
               has come through and the seconds of the file are over

A service day runs past midnight, and its times count on: 25:10:00. A trip of frequencies.txt becomes a train for each departure,
with a name such as TRIP@06:30:00. With --day-before the network also has the trains of the service day before that run past
midnight, from their first stop after midnight on. They have names such as TRIP@20261127.

With --reserve-trains some trains are in the network and cancelled at the start: Cancelled.csv has their events, for --cancelled of the
program, and `dispatch-tools cancel NET TRAIN --restore` lets one run. Nobody changes to or from them, they have no passengers but those
of --passengers, and the other trains keep their turnarounds and headways as if there were none.

Standard error says how many there are of everything, and what was left out. The status is 0. It is 2, and no file is written, if
the words or the timetable are not good, or if the network would be too large.
"""
from __future__ import annotations

import argparse
import sys
from typing import Optional, Sequence

from dispatch_tools.days.trains import PROGRAM, Refused
from dispatch_tools.days.from_gtfs import add_choices, add_rules, LONGEST_LINE, make, service_day, summary, texts_of
from dispatch_tools.formats.files import BadFile, in_one_line, write_all
from dispatch_tools.formats.gtfs_rows import Feed
from dispatch_tools.words import command_line


def words_read(given: Optional[Sequence[str]]) -> argparse.Namespace:
    words = command_line(__doc__, allow_abbrev=False)
    words.usage = '%(prog)s FEED DATE DIR [OPTION..]'
    words.add_argument('feed', metavar='FEED', help='timetable in GTFS, a zip file or a folder')
    words.add_argument('date', metavar='DATE', type=service_day, help='service day, such as 20261128')
    words.add_argument('folder', metavar='DIR', help='folder for the network')
    add_choices(words)
    add_rules(words)
    return words.parse_args(given)


def main(argv: Sequence[str] | None = None) -> int:
    words = words_read(argv)
    try:
        with Feed(words.feed) as feed:
            made = make(feed, words, PROGRAM)
        write_all(words.folder, texts_of(made))
    except (BadFile, Refused) as error:
        print(f'from_gtfs: {in_one_line(str(error), LONGEST_LINE)}', file=sys.stderr)
        return 2
    for line in summary(made, words):
        print(in_one_line(line, LONGEST_LINE), file=sys.stderr)
    return 0
