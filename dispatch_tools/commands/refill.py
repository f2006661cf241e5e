"""Puts the lines of a feed back from its reply file: dispatch-tools refill FEED REPLY

REPLY is the file in which a server shows what it answered FEED, such as STORE/reply-1.txt. After a power cut FEED may lack lines
that were answered. The script appends these lines to the whole lines of FEED. Then the server can go on with it. It writes a
blank line or a comment back as a blank line, and a malformed line as a line that says so, since REPLY says no more about them.

While it runs, no server and no source may have FEED open. If a line of FEED is not the one that was answered, the script writes
nothing, and the status is 1. Then FEED is another feed, or somebody changed it.
"""
from __future__ import annotations

import os
import sys
from typing import Iterator, Sequence

from dispatch_tools.formats.files import BadFile, speak_utf8
from dispatch_tools.formats.lines import Bad, Text
from dispatch_tools.formats.runtext import heard, Item, read_whole_item
from dispatch_tools.live.feed_file import append, take_turn
from dispatch_tools.words import command_line

MALFORMED = 'a line that was malformed'


def items_of(reply: bytes) -> Iterator[Item]:
    """The items of a reply file, up to the first that is not whole."""
    text = Text(reply)
    try:
        while text.has_more():
            yield read_whole_item(text, 2)
    except Bad:
        return


def line_of(item: Item) -> str:
    """The line that an item answers."""
    return MALFORMED if item.said is None else str(item.said)


def behind(name: str, feed: bytes, items: list[Item]) -> list[str]:
    """The lines that are missing behind the whole lines of a feed; BadFile if one that is there was not answered so."""
    whole = [line.removesuffix(b'\r').decode(errors='replace') for line in feed.split(b'\n')[:-1]]
    for item in items:
        if item.line <= len(whole) and heard(whole[item.line - 1]) != item.said:
            raise BadFile(name, item.line, 'this is not the line that was answered')
    missing = {item.line: line_of(item) for item in items if item.line > len(whole)}
    return [missing.get(number, '') for number in range(len(whole) + 1, max(missing, default=0) + 1)]


def put_back(name: str, lines: list[str]) -> None:
    """Puts lines behind the whole lines of a feed, in place of a line that was broken off, and waits until they are on the disk."""
    with open(name, 'r+b') as file:
        take_turn(file.fileno())
        file.truncate(file.read().rfind(b'\n') + 1)
    append(name, lines)
    with open(name, 'rb') as file:
        os.fsync(file.fileno())


def main(argv: Sequence[str] | None = None) -> int:
    words = command_line(__doc__)
    words.add_argument('feed', metavar='FEED', help='feed that lacks lines')
    words.add_argument('reply', metavar='REPLY', help='its reply file, such as STORE/reply-1.txt')
    given = words.parse_args(argv)
    speak_utf8()
    try:
        with open(given.feed, 'rb') as feed, open(given.reply, 'rb') as reply:
            lines = behind(given.feed, feed.read(), list(items_of(reply.read())))
        if lines:
            put_back(given.feed, lines)
    except (BadFile, OSError) as fault:
        sys.exit(f'refill: {fault}')
    print(f'{len(lines)} lines were put back')
    return 0
