"""Makes the file of passengers of from_gtfs, of journeys: dispatch-tools passengers JOURNEYS [--once] > passengers.csv

JOURNEYS is a table with the columns journey, trip_id, from_stop_id, to_stop_id and number, as an origin-destination table that is
assigned to trains has them. Rows with the same journey follow each other: they are its legs, in order, and all have its number of
passengers. Who changes leaves a train where they change, and so counts for its lateness there and again at the end. With --once
they count at the end of the journey alone. examples/weights has an example, and says what to do with counts.

The status is 2 if the table is not good.
"""
from __future__ import annotations

import sys
from typing import Sequence

from dispatch_tools.days.weights import passengers_text, read_journeys
from dispatch_tools.formats.files import BadFile, speak_utf8
from dispatch_tools.words import command_line


def main(argv: Sequence[str] | None = None) -> int:
    words = command_line(__doc__)
    words.add_argument('journeys', metavar='JOURNEYS', help='table of journeys')
    words.add_argument('--once', action='store_true', help='each passenger counts at the end of the journey alone')
    read = words.parse_args(argv)
    speak_utf8()
    try:
        print(passengers_text(read_journeys(read.journeys), read.once), end='')
    except BadFile as fault:
        print(f'passengers: {fault}', file=sys.stderr)
        return 2
    return 0
