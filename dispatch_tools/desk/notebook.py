"""What the desks of a day tell each other beside the journal: their names, what somebody has seen, which lines are one action, and who has
closed the day.

It stands in a file of the store's folder, `desks`, of which each line is an object of JSON. Each desk appends to it and reads it. The
server does not know it. A line that is broken off or of another form says nothing.
"""
from __future__ import annotations

import json
import sys
import time
from bisect import bisect_right, insort
from dataclasses import asdict, dataclass
from typing import Any, Callable, NamedTuple, Optional

from dispatch_tools.formats.files import BadFile
from dispatch_tools.live.feed_file import append

# The bytes that are read of the file at most, the characters that a text in it has at most, and the lines of an action.
MOST_READ, MOST_TEXT, MOST_LINES = 1 << 22, 400, 4_096


class Seen(NamedTuple):
    """Who has seen an alert, when, by the clock on the wall, and how many seconds it was about then."""
    who: str
    at: str
    level: int


class Closed(NamedTuple):
    """Who has closed the day, and when, by the clock on the wall."""
    who: str
    at: str


@dataclass(frozen=True)
class Action:
    """Lines of the desk's feed that one press of a button wrote: the first and the last, in words, and the line that they take back, or 0."""
    first: int
    last: int
    says: str
    undoes: int = 0


def is_text(value: object) -> bool:
    return isinstance(value, str) and len(value) <= MOST_TEXT


def is_number(value: object) -> bool:
    return type(value) is int and 0 <= value < 2 ** 53


# The kinds of lines, and what each of their values has to be.
FORMS: dict[str, dict[str, Callable[[object], bool]]] = {
    'name': {'feed': is_number, 'line': is_number, 'name': is_text},
    'seen': {'kind': is_text, 'key': is_text, 'level': is_number, 'who': is_text, 'at': is_text},
    'action': {'feed': is_number, 'first': is_number, 'last': is_number, 'says': is_text, 'undoes': is_number},
    'closed': {'who': is_text, 'at': is_text}, 'open': {},
}


def read_note(line: bytes) -> Optional[dict[str, Any]]:
    """A line of the file, or None if it says nothing."""
    try:
        value: Any = json.loads(line)
    except (ValueError, RecursionError):
        return None
    note: dict[str, Any] = value if isinstance(value, dict) else {}
    form = FORMS.get(str(note.get('is')))
    if form is None or set(note) != {'is', *form} or not all(fits(note[name]) for name, fits in form.items()):
        return None
    return note


def wall_time() -> str:
    return time.strftime('%H:%M:%S')


class Notebook:
    """The file, as far as it was read, for the desk of one feed. What cannot be written there holds for this desk alone."""

    def __init__(self, path: str, feed: int) -> None:
        self.path, self.feed = path, feed
        self.read_to = 0
        self.names: dict[int, list[tuple[int, str]]] = {}
        self.seen: dict[tuple[str, str], Seen] = {}
        self.actions: dict[int, Action] = {}
        self.first_of: dict[int, int] = {}
        self.undone: dict[int, int] = {}
        self.closed: Optional[Closed] = None

    def read(self) -> None:
        """Takes up the whole lines that are new."""
        try:
            with open(self.path, 'rb') as file:
                file.seek(self.read_to)
                data = file.read(max(0, MOST_READ - self.read_to))
        except OSError:
            return
        whole = data[:data.rfind(b'\n') + 1]
        self.read_to += len(whole)
        for line in whole.split(b'\n')[:-1]:
            note = read_note(line)
            if note is not None:
                self.take(note)

    def take(self, note: dict[str, Any]) -> None:
        if note['is'] == 'name':
            insort(self.names.setdefault(note['feed'], []), (note['line'], note['name']), key=lambda one: one[:1])
        elif note['is'] == 'seen':
            self.seen[note['kind'], note['key']] = Seen(note['who'], note['at'], note['level'])
        elif note['is'] in ('closed', 'open'):
            self.closed = Closed(note['who'], note['at']) if note['is'] == 'closed' else None
        elif note['feed'] == self.feed:
            self.act(Action(note['first'], note['last'], note['says'], note['undoes']))

    def act(self, action: Action) -> None:
        if not action.first <= action.last < action.first + MOST_LINES:
            return
        self.actions[action.first] = action
        self.first_of.update(dict.fromkeys(range(action.first, action.last + 1), action.first))
        if action.undoes:
            self.undone[action.undoes] = action.first

    def write(self, note: dict[str, Any]) -> None:
        """Appends a line and takes it up."""
        try:
            append(self.path, [json.dumps(note)])
            self.read()
        except BadFile as fault:
            print(f'desk: {fault}', file=sys.stderr, flush=True)
            self.take(note)

    def see(self, kind: str, key: str, seen: Seen) -> None:
        self.write({'is': 'seen', 'kind': kind, 'key': key[:MOST_TEXT], 'level': seen.level, 'who': seen.who, 'at': seen.at})

    def close(self, who: str) -> None:
        self.write({'is': 'closed', 'who': who, 'at': wall_time()})

    def reopen(self) -> None:
        """Says that a server runs again over a day that was closed."""
        self.write({'is': 'open'})

    def called(self, line: int, name: str) -> None:
        """Whoever writes to the feed from this line on has a name."""
        if self.name_of(self.feed, line) != name:
            self.write({'is': 'name', 'feed': self.feed, 'line': line, 'name': name})

    def did(self, action: Action) -> None:
        self.write({'is': 'action', 'feed': self.feed, **asdict(action)})

    def name_of(self, feed: int, line: int) -> str:
        """The name of who wrote a line; nothing if it has none."""
        names = self.names.get(feed, [])
        at = bisect_right(names, (line,), key=lambda one: one[:1])
        return names[at - 1][1] if at else ''
