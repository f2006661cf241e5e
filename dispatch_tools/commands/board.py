"""Prints all times of a board in one line whenever one has changed: tail -n +1 -f BOARD | board | mosquitto_pub -l -r ..

It reads the lines `event; time` of a board from standard input. When a time has changed, it writes one line `event; time, event;
time, ..` with the last time of every event so far. So a broker that retains the last line of a topic retains the whole board.
Whoever has this one line has lost nothing. If several lines come together, it writes one line for all of them.

With --again=SECONDS it writes its last line again when nothing has come for so long. So what a broker loses that is killed comes
again by itself. With --send and the words of a command it runs the command for each line, which is the command's standard input:

    tail -n +1 -F BOARD | dispatch-tools board --again=5 --send mosquitto_pub -q 1 -r -s -t board/1/6

If the command fails, standard error says so, and the line comes again. A `mosquitto_pub -l` that speaks TLS never connects again
once its broker was killed, and says nothing of it.

It skips lines of another form. Standard error shows the first few of these, and at the end how many there were.
"""
from __future__ import annotations

import argparse
from typing import Sequence

from dispatch_tools.live.board import Sender, Skipped, standard_input, whole_boards
from dispatch_tools.words import command_line, whole_between


def main(argv: Sequence[str] | None = None) -> int:
    words = command_line(__doc__)
    words.add_argument('--again', metavar='SECONDS', type=whole_between(1, 3600), help='write the last line again after so long')
    words.add_argument('--send', metavar='COMMAND', nargs=argparse.REMAINDER, help='a command that sends a line; all words behind are its own')
    given = words.parse_args(argv)
    skipped, sender = Skipped('board'), Sender(given.send) if given.send else None
    try:
        for line in whole_boards(standard_input(), skipped, given.again):
            if sender is None:
                print(line, flush=True)
            else:
                sender.send(line)
    except BrokenPipeError:
        return 1
    finally:
        skipped.end()
    return 0
