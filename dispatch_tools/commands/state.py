"""Says again and again how a region is, for the page of the country: dispatch-tools state STORE FEED.. [--send COMMAND]

    dispatch-tools state store room relay --every=5 --send mosquitto_pub -q 1 -r -s -t state/1

STORE is the store of a region's server, and FEED.. are the server's feeds, in its order. The last feed is that of the relay. The
script prints a line each time: the status and the words of health, entries, bytes of the journal, of each feed the last line that
is answered, the lines that wait and the seconds since it was changed, and the delays that the relay has reported. With --send and
the words of a command it runs the command for each line, which is the command's standard input. `dispatch-tools regions` reads
these lines.

If something cannot be read, the line has status 3, and says why. Without --every the script prints one line and ends.
"""
from __future__ import annotations

import argparse
import time
from typing import Sequence

from dispatch_tools.formats.files import BadFile, speak_utf8
from dispatch_tools.live.board import Sender
from dispatch_tools.live.health import measure, UNKNOWN
from dispatch_tools.live.state import state, State, Told
from dispatch_tools.words import command_line, whole_between


def now(store: str, feeds: Sequence[str], told: Told, patience: int) -> State:
    """The state at this moment."""
    try:
        return state(measure(store, feeds, time.time()), told.look(), patience)
    except BadFile as bad:
        return State(UNKNOWN, 0, 0, [], {}, bad.without_paths())


def main(argv: Sequence[str] | None = None) -> int:
    words = command_line(__doc__)
    words.add_argument('store', metavar='STORE', help='folder of the store')
    words.add_argument('feeds', metavar='FEED', nargs='+', help='the feeds of the server, in its order; the last one is that of the relay')
    words.add_argument('--every', metavar='SECONDS', type=whole_between(1, 3600), help='say it again each so many seconds')
    words.add_argument('--patience', metavar='S', type=whole_between(1, 3600), default=2, help='seconds that a line may wait for its answer (2)')
    words.add_argument('--send', metavar='COMMAND', nargs=argparse.REMAINDER, help='a command that sends a line; all words behind are its own')
    given = words.parse_args(argv)
    speak_utf8()
    told, sender = Told(given.feeds[-1]), Sender(given.send, 'state') if given.send else None
    while True:
        line = now(given.store, given.feeds, told, given.patience).line()
        try:
            if sender is None:
                print(line, flush=True)
            else:
                sender.send(line)
        except BrokenPipeError:
            return 1
        if given.every is None:
            return 0
        time.sleep(given.every)
