"""Appends the lines of standard input to a feed: dispatch-tools append FEED < LINES

    mosquitto_sub -F %x -t feed/N .. | dispatch-tools append FEED --payloads

Lines that come together go in one write. They stand in FEED whole or not at all. The script skips a line that has none of the
forms of a feed's lines, and half a line at the end. Standard error shows the first few of these, and at the end how many there
were.

With --payloads each line of standard input is the payload of a message, in hexadecimal digits, as `mosquitto_sub -F %x` writes
it. So nothing in a payload can end a line: it is one line of the feed, or it is skipped.

The status is 0. It is 2 if FEED cannot be written, for example because the disk is full. With --payloads the script says so once,
and tries again each second, since nobody sends the payload again.
"""
from __future__ import annotations

import sys
import time
from typing import Iterable, Iterator, Optional, Sequence

from dispatch_tools.formats.files import BadFile
from dispatch_tools.formats.runtext import heard
from dispatch_tools.live.board import Skipped, standard_input, unpacked, whole_lines
from dispatch_tools.live.feed_file import append
from dispatch_tools.words import command_line

AGAIN = 1.0


def lines_of(come: Iterable[Optional[bytes]], number: int, are_payloads: bool, skipped: Skipped) -> Iterator[str]:
    """The lines that may stand in a feed, of those that have come behind so many."""
    for number, line in enumerate(come, number + 1):
        line = unpacked(line) if are_payloads else line
        text = None if line is None else line.decode('latin-1')
        if text is None or '\n' in text or heard(text) is None:
            skipped.skip(number, 'it is no payload of one line of a feed' if are_payloads else 'it is no line of a feed')
        else:
            yield text


def put(feed: str, lines: list[str]) -> None:
    """Appends lines as soon as that can be done."""
    is_said = False
    while True:
        try:
            append(feed, lines)
            return
        except BadFile as fault:
            if not is_said:
                print(f'append: {fault}; this is tried again each second', file=sys.stderr, flush=True)
            is_said = True
            time.sleep(AGAIN)


def main(argv: Sequence[str] | None = None) -> int:
    words = command_line(__doc__)
    words.add_argument('feed', metavar='FEED', help='feed; it is made if it does not exist')
    words.add_argument('--payloads', action='store_true', help='each line of standard input is a payload in hexadecimal digits')
    given = words.parse_args(argv)
    skipped, number = Skipped('append'), 0
    try:
        append(given.feed, [])
        for come in whole_lines(standard_input()):
            lines = list(lines_of(come, number, given.payloads, skipped))
            number += len(come)
            (put if given.payloads else append)(given.feed, lines)
    except BadFile as fault:
        print(f'append: {fault}', file=sys.stderr)
        return 2
    finally:
        skipped.end()
    return 0
