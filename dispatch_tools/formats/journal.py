"""Reads the journal of a live server as it grows, and the text of the run that a store holds.

docs/FORMATS.md describes the form of a journal. A block that stands in it never changes. So a reader needs no lock, and goes on
where it ended.
"""
from __future__ import annotations

import os
import re
import subprocess
from typing import BinaryIO, NamedTuple, Optional, Sequence

from dispatch_tools.formats.files import BadFile
from dispatch_tools.formats.lines import Bad, NUMBER, Text
from dispatch_tools.formats.runtext import Entry, Item, MOST_FEEDS, PLANNED, read_items
from dispatch_tools.model.messages import Adopt, AdoptLast, CarryOver, STATEMENTS
from dispatch_tools.model.network import Network
from dispatch_tools.model.parts import PlanByParts
from dispatch_tools.model.railway import apply, Plan, refusal_at_once, Rows, still_free

# How the front of a block is spelled: an open gate, and the length of the content.
HEAD = re.compile(rb'\+(0|[1-9][0-9]*)\n')
VERSION = b'dm-store 1\n'

# So many bytes are read at once, and more where a block has more.
PIECE = 8_388_608


class Stands(NamedTuple):
    """The contents of the blocks of a file, and the end behind them."""
    contents: list[bytes]
    end: bytes


class Head(NamedTuple):
    """What a journal goes with."""
    penalty: int
    plans: int
    feeds: int


def read_blocks(file: bytes) -> Stands:
    """What stands in a file: blocks count up to the first whose gate is not open or which is not whole."""
    contents, place = [], 0
    while head := HEAD.match(file, place):
        length = int(head[1])
        if head.end() + length > len(file):
            break
        contents.append(file[head.end():head.end() + length])
        place = head.end() + length
    return Stands(contents, file[place:])


def at_end(text: Text) -> None:
    """Bad if something stands behind the line read last."""
    if text.has_more():
        raise Bad(text.number + 1, 'form')


def read_head(content: bytes) -> Head:
    """The head of a journal; Bad at the first line of another form."""
    text = Text(content)
    text.read('dm-store', '1')
    (penalty,), (plans,), (feeds,) = (text.read('penalty', NUMBER), text.read('plans', NUMBER), text.read('feeds', MOST_FEEDS))
    at_end(text)
    return Head(penalty, plans, feeds)


class Answered(NamedTuple):
    """An item of a feed's log, by the number of the feed, and the entry that it made, where it made one."""
    feed: int
    item: Item
    entry: Optional[Entry]


def number_of_entry(item: Item) -> int:
    """The entry that an answer names, or 0."""
    return 0 if item.answer is None else item.answer.entry or 0


class Rounds:
    """The rounds of a journal, one after the other: what `adopt` enters is the plan, of either kind, that its feed was answered last, and
    `carry` what is free of it. For `carry` the network is wanted, and the rows at the start if some events are cancelled there."""

    def __init__(self, head: Head, network: Optional[Network] = None, start: Optional[Rows] = None) -> None:
        self.head, self.network = head, network
        self.plans: dict[int, Plan | PlanByParts] = {}
        self.rows = None if network is None else start.copy() if start else Rows(network)

    def read(self, content: bytes) -> list[Answered]:
        """The items of the next round with their entries; Bad at the first line of another form."""
        text = Text(content)
        answered = [
            self.answered(text, feed, item) for feed in range(1, self.head.feeds + 1) for item in read_items(text, 2, feed)
        ]
        at_end(text)
        return answered if self.network is None or self.rows is None else self.carried_over(self.network, self.rows, answered)

    def carried_over(self, network: Network, rows: Rows, answered: list[Answered]) -> list[Answered]:
        """The items with what each `carry` entered: those choices that were free in the rows before its entry."""
        places = [place for place, one in enumerate(answered) if one.entry is not None]
        for place in sorted(places, key=lambda place: number_of_entry(answered[place].item)):
            one = answered[place]
            assert one.entry is not None
            entry = one.entry
            if isinstance(one.item.said, CarryOver) and isinstance(entry.message, Adopt):
                entry = entry._replace(message=still_free(network, rows, entry.message.decisions))
                answered[place] = one._replace(entry=entry)
            if refusal_at_once(network, rows, entry.message) is None:
                apply(network, rows, entry.message)
        return answered

    def answered(self, text: Text, feed: int, item: Item) -> Answered:
        """An item with its entry. That of a `carry` has all choices of the plan yet."""
        if item.answer is None or item.said is None:
            return Answered(feed, item, None)
        if item.answer.kind in PLANNED:
            self.plans[feed] = item.answer.value
        if item.answer.kind != 'ok':
            return Answered(feed, item, None)
        if isinstance(item.said, STATEMENTS):
            return Answered(feed, item, Entry(feed, item.line, item.said))
        text.demand(isinstance(item.said, AdoptLast) or isinstance(item.said, CarryOver) and self.network is not None, 'form')
        plan = self.plans.get(feed)
        if plan is None:
            text.refuse()
        return Answered(feed, item, Entry(feed, item.line, Adopt(plan.choices)))


def journal_of(store: str) -> str:
    """The name of a store's journal."""
    return os.path.join(store, 'journal')


class Blocks:
    """The blocks of a file, read as it grows. The file may come into being later, and may be taken away and begun anew."""

    def __init__(self, name: str) -> None:
        self.name = name
        self.behind = 0
        self.file: Optional[tuple[int, int]] = None

    def read(self) -> Optional[list[bytes]]:
        """The contents of the blocks that have come since the last call, or some of many; None if the file is another one now, or is
        gone."""
        try:
            with open(self.name, 'rb') as file:
                status = os.fstat(file.fileno())
                now = (status.st_dev, status.st_ino)
                if self.file is not None and (self.file != now or status.st_size < self.behind):
                    return None
                self.file = now
                return self.taken(file)
        except FileNotFoundError:
            return [] if self.file is None else None

    def taken(self, file: BinaryIO) -> list[bytes]:
        """The contents of the next blocks of a file, read in pieces that have one at least."""
        size = PIECE
        while True:
            file.seek(self.behind)
            data = file.read(size)
            contents, end = read_blocks(data)
            if contents or len(data) < size:
                self.behind += len(data) - len(end)
                return contents
            size *= 2


class Journal:
    """The journal of a store, read as it grows: its head, if it has one, the items of each feed, and the entries that they made. For those
    of `carry` the network is wanted, and the rows at the start if some events are cancelled there."""

    def __init__(self, store: str, network: Optional[Network] = None, start: Optional[Rows] = None) -> None:
        self.network, self.start = network, start
        self.name = journal_of(store)
        self.file = Blocks(self.name)
        self.rounds: Optional[Rounds] = None
        self.logs: list[list[Item]] = []
        self.entries: list[Entry] = []
        self.blocks = 0

    @property
    def head(self) -> Optional[Head]:
        return None if self.rounds is None else self.rounds.head

    def read(self) -> list[Entry]:
        """Reads what has come, and gives its entries; BadFile if it cannot be read, is another one, or has another form."""
        before = len(self.entries)
        while contents := self.contents():
            for content in contents:
                self.take_block(content)
        return self.entries[before:]

    def begin(self) -> Optional[Head]:
        """Reads the head alone, and gives it where it has one; BadFile as for all of it."""
        for content in self.contents()[:1]:
            self.take_block(content)
        return self.head

    def take_block(self, content: bytes) -> None:
        """Takes the content of the next block; BadFile if it has another form."""
        self.blocks += 1
        try:
            self.take(content)
        except Bad as bad:
            raise BadFile(self.name, None, f'line {bad.args[0]} of block {self.blocks} has another form') from bad

    def contents(self) -> list[bytes]:
        try:
            contents = self.file.read()
        except OSError as error:
            raise BadFile(self.name, None, error.strerror or 'cannot be read') from error
        if contents is None:
            raise BadFile(self.name, None, 'it is another one than before')
        return contents

    def take(self, content: bytes) -> None:
        """Takes the content of the next block."""
        if self.rounds is None:
            self.rounds = Rounds(read_head(content), self.network, self.start)
            self.logs = [[] for _ in range(self.rounds.head.feeds)]
            return
        entered: list[tuple[int, Entry]] = []
        for feed, item, entry in self.rounds.read(content):
            self.logs[feed - 1].append(item)
            if entry is not None and item.answer is not None:
                entered.append((number_of_entry(item), entry))
        self.entries += [entry for _, entry in sorted(entered)]


def text_of(program: str, net: str, store: str, options: Sequence[str] = ()) -> bytes:
    """The text of the run that a store holds, as the program prints it beside a server; BadFile if it prints none.

    The program wants the words of the server. Penalty, plans and the number of feeds stand in the journal; options that say how the
    network is read are to be given again.
    """
    journal = Journal(store)
    head = journal.begin()
    if head is None:
        raise BadFile(journal.name, None, 'it has no head yet: has the server begun?')
    penalty, plans, feeds = head
    words = [program, 'text', net, store, *['feed'] * feeds, f'--penalty={penalty}', f'--plans={plans}', *options]
    try:
        done = subprocess.run(words, capture_output=True)
    except OSError as error:
        raise BadFile(program, None, error.strerror or 'cannot be run') from error
    if done.returncode:
        said = (done.stdout or done.stderr).decode('utf-8', 'replace').splitlines()
        raise BadFile(store, None, f'`{program} text` ends with status {done.returncode}: {said[0] if said else ""}')
    return done.stdout
