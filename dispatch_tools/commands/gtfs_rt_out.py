"""Writes the disposition timetable of a run as GTFS-Realtime:

    dispatch-tools gtfs_rt_out NET SOURCE OUT.pb [--skipped FILE] [--zone ZONE] [--now SECONDS] [--serve PORT] [--every SECONDS]

NET is a network that from_gtfs made. SOURCE is the text of a run over it, or the folder of a live server's store. A store may
be in use: the program PROGRAM of --dispatcher prints its text. OUT.pb gets a FeedMessage, and is replaced by a rename. It has

  - a TripUpdate for each train, with the delay and the time of each call. It is NO_DATA if nothing was reported of the train, and
    no other train holds it up. A cancelled train is CANCELED. A call of which all events are cancelled is SKIPPED, and so is one
    through which the train runs, by the FILE that gtfs_rt_in --skipped writes;
  - an Alert for each change that is dropped, whose trains run, and whose train has not left. It says so if that train leaves late
    enough all the same, or if one of both does not stop there.

The time of the message is that of the last `now` of the run. --now gives another one, in seconds since 1970. Without either it is
the time of this computer.

With --every the script looks at SOURCE again and again, so many seconds apart. If SOURCE has changed, it writes OUT.pb anew. If
it cannot, such as when a text is not whole yet, OUT.pb stays as it is, and the next look tries again. With --serve it also hands
out OUT.pb over HTTP, on this computer only (127.0.0.1). It then looks every ten seconds unless --every says otherwise.

The status is 0. It is 2, and no file is written, if a file is not good.
"""
from __future__ import annotations

import argparse
import sys
import time
from typing import Sequence

from dispatch_tools.formats.files import BadFile, in_one_line
from dispatch_tools.live.gtfs_rt_out import serving, USUAL, Writer
from dispatch_tools.words import add_start, command_line, whole_between


def words_of(argv: Sequence[str] | None) -> argparse.Namespace:
    """What the words of the command line ask for."""
    words = command_line(__doc__, allow_abbrev=False)
    words.add_argument('net', metavar='NET', help='folder of a network, with its files of names')
    words.add_argument('source', metavar='SOURCE', help='text of a run over it, or folder of a store')
    words.add_argument('out', metavar='OUT.pb', help='file to write')
    words.add_argument('--skipped', metavar='FILE', help='file of the calls through which trains run, which gtfs_rt_in writes')
    words.add_argument('--zone', metavar='ZONE', help='time zone, such as Europe/Berlin (that of Day.csv)')
    words.add_argument('--now', metavar='SECONDS', type=int, help='time of the message, in seconds since 1970')
    words.add_argument('--serve', metavar='PORT', type=whole_between(0, 65_535), help='port on which to hand out OUT.pb (0: any)')
    again = 'look at SOURCE again and again, so many seconds apart'
    words.add_argument('--every', metavar='SECONDS', type=whole_between(1, 86_400), help=again)
    program = 'the built program, which prints the text of a store (dispatcher in the path)'
    words.add_argument('--dispatcher', metavar='PROGRAM', default='dispatcher', help=program)
    add_start(words)
    return words.parse_args(argv)


def main(argv: Sequence[str] | None = None) -> int:
    read = words_of(argv)
    try:
        writer = Writer(read)
        seen = writer.state()
        writer.write()
        if read.serve is not None:
            serving(read.out, read.serve)
        while read.every or read.serve is not None:
            time.sleep(read.every or USUAL)
            seen = writer.write_again(seen)
    except (BadFile, KeyError) as error:
        print(f'gtfs_rt_out: {in_one_line(str(error), 1000)}', file=sys.stderr)
        return 2
    except OSError as error:
        print(f'gtfs_rt_out: port {read.serve}: {error.strerror}', file=sys.stderr)
        return 2
    return 0
