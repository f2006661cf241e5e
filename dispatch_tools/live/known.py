"""What is known of a network before a message: the entries of a text or of a store, and behind them the lines of a feed."""
from __future__ import annotations

import os
from typing import Iterable, Optional, Sequence

from dispatch_tools.formats.files import BadFile, text_of
from dispatch_tools.formats.journal import Journal
from dispatch_tools.formats.runtext import due_items
from dispatch_tools.live.gtfs_rt_out import read_text
from dispatch_tools.model.messages import Cancel, Message as Entered, Pass, Restore, Said as Line, STATEMENTS
from dispatch_tools.model.network import Network
from dispatch_tools.model.railway import apply, refusal_at_once, Rows


def own_after(network: Network, own: set[int], line: Optional[Line | Entered]) -> set[int]:
    """The events that a feed has cancelled, by place, after one more line of it."""
    if isinstance(line, Cancel) and line.event in network.event_place:
        return own | {network.event_place[line.event]}
    if isinstance(line, (Restore, Pass)) and line.event in network.event_place:
        return own - {network.event_place[line.event]}
    return own


class Known:
    """What is known of a network: the entries of a text, or those of a store as they come, and behind them the lines of a feed; of these
    the ones that are refused say nothing, and of a store's feed the ones that it has answered stand in its entries."""

    def __init__(self, network: Network, feed: str, source: Optional[str] = None, number: int = 1, start: Optional[Rows] = None) -> None:
        self.network, self.feed, self.number = network, feed, number
        self.rows = start.copy() if start else Rows(network)
        self.journal = Journal(source, network, self.rows.copy()) if source and os.path.isdir(source) else None
        if source and not self.journal:
            self.enter(self.rows, [entry.message for entry in read_text(source, len(network.events)).journal])

    def enter(self, rows: Rows, messages: Iterable[Entered]) -> None:
        for message in messages:
            if refusal_at_once(self.network, rows, message) is None:
                apply(self.network, rows, message)

    def answered(self) -> int:
        """How many lines of the feed its store has answered."""
        if self.journal is None:
            return 0
        self.enter(self.rows, [entry.message for entry in self.journal.read()])
        if not 1 <= self.number <= len(self.journal.logs):
            raise BadFile(self.journal.name, None, f'it is of {len(self.journal.logs)} feeds, and has no feed {self.number}')
        log = self.journal.logs[self.number - 1]
        return log[-1].line if log else 0

    def own(self) -> set[int]:
        """The events that the feed's own lines have cancelled, by place."""
        own: set[int] = set()
        for _, said in due_items(text_of(self.feed)) if os.path.exists(self.feed) else ():
            own = own_after(self.network, own, said)
        return own

    def now(self, unwritten: Sequence[str] = ()) -> Rows:
        """The rows by all that is known now, and by lines that the feed has not yet."""
        answered = self.answered()
        rows = self.rows.copy()
        behind = text_of(self.feed).split('\n')[answered:-1] if os.path.exists(self.feed) else []
        lines = due_items(''.join(f'{line}\n' for line in [*behind, *unwritten]))
        self.enter(rows, [said for _, said in lines if isinstance(said, STATEMENTS)])
        return rows
