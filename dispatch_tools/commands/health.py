"""Says how a live server is: dispatch-tools health STORE [FEED ..]

STORE is the store's folder. FEED .. are the server's feeds, in its order. With them the script also says which lines wait for an
answer. It prints one line, as monitoring wants it, and ends with the status of the worst thing that it found: 0 well, 1 warning,
2 critical, 3 unknown. It takes no lock, and reads no more of the store than the head of the journal and the ends of the replies.

Critical: no server runs over the store, a line of a feed waits for its answer longer than --patience seconds, a feed is full, or
with --net the files of the network are others than those that the store was begun over: its next start is refused.
If a line waits that is not so old yet, the script looks again until it is answered, or so many seconds have gone by. Warning: the
journal or a feed has 80 % of what it may hold, the entries are 80 % of what a day may have, or a source has said nothing for
longer than --quiet seconds. While a plan is searched, lines wait: let --patience be longer than that.

With --metrics=FILE it also writes the figures in the text format that Prometheus and its node exporter read. FILE is replaced as
a whole. Seconds are those since the file was changed, by the clock of its file system.
"""
from __future__ import annotations

import os
import time
from typing import Sequence

from dispatch_tools.formats.files import BadFile, speak_utf8, write_all
from dispatch_tools.live.health import CRITICAL, is_begun_over, judge, line_of, measure, metrics_of, STATUS_WORDS, UNKNOWN
from dispatch_tools.words import command_line, whole_between


def main(argv: Sequence[str] | None = None) -> int:
    words = command_line(__doc__)
    words.add_argument('store', metavar='STORE', help='folder of the store')
    words.add_argument('feeds', metavar='FEED', nargs='*', help='the feeds of the server, in its order')
    seconds = whole_between(1, 999_999)
    words.add_argument('--patience', metavar='S', type=seconds, default=5, help='seconds that a line may wait for its answer (5)')
    words.add_argument('--net', metavar='NET', help='folder of the network, to be told of other files than the store was begun over')
    words.add_argument('--quiet', metavar='S', type=seconds, help='seconds that a source may say nothing; any if not given')
    words.add_argument('--metrics', metavar='FILE', help='file that gets the figures, for Prometheus')
    given = words.parse_args(argv)
    speak_utf8()
    try:
        measured = measure(given.store, given.feeds, time.time())
        is_same = given.net is None or is_begun_over(given.store, given.net)
        if given.metrics:
            folder, name = os.path.split(os.path.abspath(given.metrics))
            write_all(folder, {name: metrics_of(measured)})
    except BadFile as bad:
        print(f'{STATUS_WORDS[UNKNOWN]} {bad}')
        return UNKNOWN
    found = judge(measured, given.patience, given.quiet)
    if not is_same:
        found.add(CRITICAL, 'the store was begun over other files of the network')
    print(line_of(measured, found))
    return found.status
