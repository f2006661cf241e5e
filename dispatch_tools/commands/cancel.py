"""Makes the lines that cancel a train, or a part of it: dispatch-tools cancel NET TRAIN [--from STOP] [--to STOP] [--restore] >> FEED

NET is the folder of a network with its file Trains.csv. TRAIN is a trip_id, or else a vehicle (the block_id; all its trips are then
cancelled), or else the name of a train that no other train has. The command prints a line `cancel E` for each event of the train, in
the order in which it runs, and changes nothing.

  --from STOP  the train ends at STOP: its departure there and all events behind it are cancelled
  --to STOP    the train begins at STOP: all events before its departure there are cancelled, its arrival there among them
  --restore    prints lines `restore E` in place of them, so that the train, or the part, runs again

STOP is a name or a number of Stops.csv. Events that have passed cannot be cancelled: the server refuses these lines by name, and
takes the others.

Standard error says what a dispatcher should know. With both --from and --to the train runs before and behind the part: the server
then takes it that somebody brings it. And the next trip of a cancelled vehicle waits for it no longer. The status is 0, or 2 if there
is no such train or stop.
"""
from __future__ import annotations

import sys
from typing import Sequence

from dispatch_tools.days.cancel import cancelled, Part
from dispatch_tools.formats.files import BadFile, in_one_line, speak_utf8
from dispatch_tools.words import add_network, command_line


def main(argv: Sequence[str] | None = None) -> int:
    words = command_line(__doc__, allow_abbrev=False)
    add_network(words)
    words.add_argument('train', metavar='TRAIN', help='trip, vehicle or name of a train')
    words.add_argument('--from', dest='start', metavar='STOP', help='stop at which the train ends')
    words.add_argument('--to', dest='end', metavar='STOP', help='stop at which the train begins')
    words.add_argument('--restore', action='store_true', help='let it run again')
    given = words.parse_args(argv)
    speak_utf8()
    try:
        found = cancelled(given.net, given.train, Part(given.start, given.end), given.restore)
    except BadFile as fault:
        print(f'cancel: {fault}', file=sys.stderr)
        return 2
    print(''.join(f'{line}\n' for line in found.lines), end='')
    for note in found.notes:
        print(in_one_line(f'cancel: {note}'), file=sys.stderr)
    return 0
