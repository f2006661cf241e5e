"""The desk's own feed, to which lines are appended one at a time."""
from __future__ import annotations

import os
from itertools import islice
from typing import Optional, Sequence

from dispatch_tools.formats.lines import read_form
from dispatch_tools.formats.runtext import heard, LINES
from dispatch_tools.live.feed_file import append
from dispatch_tools.model.messages import AskPlan, AskSolve, Said

# What may be entered or asked on the page. The clock and other questions are for other feeds, and a plan is adopted by its line.
TOLD = ('delay event', 'delay activity', 'pass', 'recall', 'keep', 'drop', 'first', 'unlock', 'plan', 'solve')


def line_of(kind: object, numbers: object) -> Optional[str]:
    """The line of a kind with numbers, or None if the page may not write such a line."""
    if kind not in TOLD or not isinstance(numbers, list) or len(numbers) > 2:
        return None
    if any(type(number) is not int or number < 0 for number in numbers):
        return None
    words = [*str(kind).split(), *map(str, numbers)]
    return None if read_form({str(kind): LINES[str(kind)]}, words) is None else ' '.join(words)


class Feed:
    """A feed to which one desk appends. If it does not exist, it is made."""

    def __init__(self, path: str) -> None:
        self.path = path
        self.lines = 0
        self.size = 0
        with open(path, 'ab'):
            pass

    def tell(self, lines: Sequence[str]) -> int:
        """Appends lines to the feed, and gives the number of the first; BadFile if they cannot be written, and then none is."""
        begin = append(self.path, lines)
        with open(self.path, 'rb') as file:
            self.count(file.fileno(), begin)
        return self.lines + 1

    def count(self, file: int, end: int) -> None:
        """Counts the lines before a byte that have come since the last time."""
        if end < self.size:
            self.lines = self.size = 0
        while piece := os.pread(file, min(1 << 20, end - self.size), self.size):
            self.lines += piece.count(b'\n')
            self.size += len(piece)

    def next_line(self) -> int:
        """The number that the next line will have."""
        with open(self.path, 'rb') as file:
            self.count(file.fileno(), os.fstat(file.fileno()).st_size)
        return self.lines + 1

    def asks_for_a_plan(self, behind: int) -> bool:
        """Whether a line behind this one asks for a plan of either kind."""
        with open(self.path, encoding='latin-1', newline='\n') as file:
            found = (heard(line.rstrip('\n').removesuffix('\r')) for line in islice(file, behind, None))
            return any(isinstance(said, (AskPlan, AskSolve)) for said in found)

    def said(self, most: int) -> list[Optional[Said]]:
        """What the first lines say."""
        with open(self.path, encoding='latin-1', newline='\n') as file:
            return [heard(line.rstrip('\n').removesuffix('\r')) for _, line in zip(range(most), file)]
