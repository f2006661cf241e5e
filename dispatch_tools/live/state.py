"""How a region is, in one line that it sends over the broker, and what a country's page reads of it."""
from __future__ import annotations

import os
import re
from dataclasses import dataclass, field
from typing import Optional, Sequence

from dispatch_tools.formats.files import BadFile, in_one_line
from dispatch_tools.formats.runtext import heard as heard_in_feed, MOST_FEEDS
from dispatch_tools.live.board import LONGEST_LINE
from dispatch_tools.live.health import Found, judge, Measured
from dispatch_tools.model.messages import DelayEvent
from dispatch_tools.model.railway import LARGEST_DELAY

# Numbers of a line, of which nobody needs longer ones.
NUMBER = '[0-9]{1,15}'
LIST = f'(?:{NUMBER}(?: {NUMBER})*)?'
LINE = re.compile(f'status ([0-3]); entries ({NUMBER}); journal ({NUMBER}); feeds ({LIST}); told ({LIST}); said (.*)')

# What is said has so many characters at most.
LONGEST_SAID = 300


@dataclass(frozen=True)
class Fed:
    """A feed of a region: the number of the last line that is answered, how many lines wait, and the seconds since it was changed."""
    answered: int
    waiting: int
    age: int


@dataclass(frozen=True)
class State:
    """How a region is: a status of health, entries, bytes of the journal, feeds, the delays that its relay reported, and words."""
    status: int
    entries: int
    journal: int
    feeds: Sequence[Fed]
    told: dict[int, int] = field(default_factory=dict)
    said: str = ''

    def line(self) -> str:
        feeds = ' '.join(f'{feed.answered} {feed.waiting} {feed.age}' for feed in self.feeds)
        told = ' '.join(f'{event} {delay}' for event, delay in self.told.items())
        said = in_one_line(self.said, LONGEST_SAID)[:LONGEST_SAID]
        return f'status {self.status}; entries {self.entries}; journal {self.journal}; feeds {feeds}; told {told}; said {said}'


def state_of(line: Optional[bytes]) -> Optional[State]:
    """The state that a line says, or None if it is of another form."""
    try:
        text = None if line is None or len(line) > LONGEST_LINE else line.decode('utf-8')
    except UnicodeDecodeError:
        return None
    found = None if text is None else LINE.fullmatch(text)
    if found is None or len(found[6]) > LONGEST_SAID:
        return None
    feeds, told = ([int(number) for number in found[place].split()] for place in (4, 5))
    if len(feeds) % 3 or len(feeds) > 3 * MOST_FEEDS or len(told) % 2:
        return None
    fed = [Fed(*feeds[place:place + 3]) for place in range(0, len(feeds), 3)]
    return State(int(found[1]), int(found[2]), int(found[3]), fed, dict(zip(told[::2], told[1::2])), found[6])


class Told:
    """The last delay of each event in a feed that a relay writes, read on from where the last look ended."""

    def __init__(self, name: str) -> None:
        self.name, self.read, self.of = name, 0, dict[int, int]()

    def look(self) -> dict[int, int]:
        """The delays by event; BadFile if the feed cannot be read. Half a line reports none."""
        try:
            with open(self.name, 'rb') as file:
                if os.fstat(file.fileno()).st_size < self.read:
                    self.read, self.of = 0, {}
                file.seek(self.read)
                data = file.read()
        except OSError as error:
            raise BadFile(self.name, None, error.strerror or 'cannot be read') from error
        whole = data[:data.rfind(b'\n') + 1]
        self.read += len(whole)
        for line in whole.decode('latin-1').split('\n')[:-1]:
            said = heard_in_feed(line.removesuffix('\r'))
            if isinstance(said, DelayEvent) and said.seconds <= LARGEST_DELAY:
                self.of[said.event] = said.seconds
        return self.of


def state(measured: Measured, told: dict[int, int], patience: int) -> State:
    """The state of a store with its feeds. A line that waits is looked at for so many seconds."""
    found: Found = judge(measured, patience, None)
    feeds = [Fed(shown.line, given.waiting, int(given.age)) for shown, given in zip(measured.shown, measured.feeds)]
    return State(found.status, measured.entries, measured.journal, feeds, told, '; '.join(found.said) or 'serving')
