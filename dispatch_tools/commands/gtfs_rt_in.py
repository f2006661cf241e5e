"""Reads TripUpdates and VehiclePositions of GTFS-Realtime, and appends what they report to a feed:

    dispatch-tools gtfs_rt_in NET FEEDFILE SOURCE.. [--text KNOWN [--number K]] [--zone ZONE] [--every SECONDS] [--skipped FILE] [--replay]

NET is a network that from_gtfs made. FEEDFILE is a feed of the program; it need not exist yet. Each SOURCE is a file with a
FeedMessage, or the URL (http, https) of one. The script reads the sources once, in their order. With --every it reads them again
and again, so many seconds apart.

It compares a message with what is known: the entries of KNOWN, and after them the lines of FEEDFILE. KNOWN is the text of a run,
or the folder of a live server's store, of which FEEDFILE is feed K. Of a store it takes the entries that are there whenever it
reads the sources, and the lines of FEEDFILE that are not answered yet. It appends these lines:

    delay event E S   if the message has event E later than all that is before it explains. So a train that is late at each later
                      call gets one source delay. A source delay that is larger than what the message says now is made smaller
    pass E T          if event E has happened, at T
    cancel E, restore E   if the message cancels the trip of event E, or skips all calls of it up to there or from there on; and once
                      it does not any more. What somebody else has cancelled stays
    drop A            if the message skips a call between others at which change A begins or ends
    now T             the time in the header of the message

An added trip runs as the reserve train (--cancelled=NAME, as from_gtfs --reserve-trains writes it) of its route, or with its stops,
that leaves at most 15 minutes before or behind it; without one it is reported on standard error. A script that is started again
knows such a trip once a message adds it. With --skipped the calls through which trains run stand in FILE, for gtfs_rt_out.

T is in seconds of the service day, and S in seconds. Standard error has a line for each thing that the script cannot report or
that is not good: calls that are skipped, trips that are added, trips and calls that the network does not have, messages that are
out of order or come twice, times that decrease, events that passed at another time than the message says. At the end it says
how many there were of each.

A message says nothing if its time is more than two minutes ahead of this computer's clock, or more than six hours after the last
event of the network. With --replay, for messages of another day, the computer's clock does not count. A report in it says nothing
if it is from before the day, or later than its message.

A source that cannot be read is reported, and with --every it is read again. It has 30 seconds for all of its answer, which has to
say how long it is. It may send on to another URL of its host, and with --other-hosts to one of another host.

The status is 0. It is 2 if a file is not good, or if a source cannot be read.
"""
from __future__ import annotations

import sys
import time
from typing import Sequence

from dispatch_tools.formats.files import BadFile
from dispatch_tools.formats.giv import read_network, start_rows
from dispatch_tools.formats.realtime import read_named
from dispatch_tools.formats.runtext import MOST_FEEDS
from dispatch_tools.live.gtfs_rt_in import listen, Listener, Writer
from dispatch_tools.live.known import Known
from dispatch_tools.live.trips import read_skipped, Said
from dispatch_tools.words import command_line, whole_between


def main(argv: Sequence[str] | None = None) -> int:
    words = command_line(__doc__, allow_abbrev=False)
    words.add_argument('net', metavar='NET', help='folder of a network, with its files of names')
    words.add_argument('feed', metavar='FEEDFILE', help='feed to which the script appends')
    words.add_argument('sources', metavar='SOURCE', nargs='+', help='files, or URLs of http and https')
    words.add_argument('--text', metavar='KNOWN', help='text of a run, or folder of a store: what is known besides FEEDFILE')
    which = 'number of FEEDFILE among the feeds of the store (1)'
    words.add_argument('--number', metavar='K', type=whole_between(1, MOST_FEEDS), default=1, help=which)
    words.add_argument('--cancelled', metavar='NAME', help='file of NET with the events that are cancelled at the start, as those of reserve trains')
    words.add_argument('--skipped', metavar='FILE', help='file of the calls through which trains run, for gtfs_rt_out')
    words.add_argument('--zone', metavar='ZONE', help='time zone, such as Europe/Berlin (that of Day.csv)')
    words.add_argument('--every', metavar='SECONDS', type=whole_between(1, 86_400), help='read the sources again and again, so many seconds apart')
    words.add_argument('--replay', action='store_true', help="the messages are of another day: this computer's clock does not count")
    words.add_argument('--other-hosts', action='store_true', help='a URL may send on to another host')
    read = words.parse_args(argv)
    try:
        network = read_network(read.net)
        start = start_rows(network, read.net, cancelled=read.cancelled)
        known = Known(network, read.feed, read.text, read.number, start)
        reserve = {place for place, is_cancelled in enumerate(start.cancelled) if is_cancelled}
        through = read_skipped(read.skipped) if read.skipped else set()
        listener = Listener(network, read_named(read.net, read.zone), known.now(), Said(), read.replay, known.own(), reserve, through)
        writer = Writer(read.feed, read.skipped)
        could = [listen(listener, writer, source, read.other_hosts) for source in read.sources]
        while read.every:
            time.sleep(read.every)
            if known.journal:
                listener.rows = known.now(writer.unwritten)
            for source in read.sources:
                listen(listener, writer, source, read.other_hosts)
    except BadFile as error:
        print(f'gtfs_rt_in: {error}', file=sys.stderr)
        return 2
    for what, count in sorted(listener.said.counts.items()):
        print(f'gtfs_rt_in: {what}: {count} in all', file=sys.stderr)
    return 0 if all(could) else 2
