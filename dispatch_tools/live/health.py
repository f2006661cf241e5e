"""How a live server is."""
from __future__ import annotations

import hashlib
import os
import re
import time
from dataclasses import dataclass, field
from typing import Iterator, Optional, Sequence

from dispatch_tools.formats.files import BadFile, in_one_line
from dispatch_tools.formats.giv import ACTIVITIES, EVENTS
from dispatch_tools.formats.journal import Head, journal_of, read_blocks, read_head
from dispatch_tools.formats.lines import Bad
from dispatch_tools.formats.runtext import heard
from dispatch_tools.model.messages import Nothing
from dispatch_tools.model.railway import MOST_ENTRIES

# The most bytes of a journal and of a feed of a server.
JOURNAL = 134_217_728
FEED = 67_108_864

# The part of a limit, in hundredths, from which on there is a warning.
NEAR = 80

WELL, WARNING, CRITICAL, UNKNOWN = range(4)
STATUS_WORDS = ('OK', 'WARNING', 'CRITICAL', 'UNKNOWN')

# The first line of an item in a reply file: the number of the line, and the entry that it names, if it names one.
ITEM = re.compile(rb'^([0-9]+) .*?(?:-> ([0-9]+) .*)?$', re.MULTILINE)

# So many bytes of a reply file's end are looked at first.
END = 65_536


@dataclass(frozen=True)
class Shown:
    """What a reply file shows last: the number of a line, the largest entry in its end, and how old the file is."""
    line: int
    entry: int
    age: float


@dataclass(frozen=True)
class Given:
    """A feed as it stands: its bytes, how old it is, how many due lines are not answered, and the number of the last of these."""
    size: int
    age: float
    waiting: int
    last: int


@dataclass(frozen=True)
class Measured:
    """A store as it stands; of the feeds where they were named."""
    store: str
    is_served: bool
    head: Optional[Head]
    journal: int
    shown: Sequence[Shown]
    feeds: Sequence[Given]

    @property
    def entries(self) -> int:
        return max((one.entry for one in self.shown), default=0)


@dataclass
class Found:
    """The worst status so far, and what was found wrong."""
    status: int = WELL
    said: list[str] = field(default_factory=list)

    def add(self, status: int, what: str) -> None:
        self.status = max(self.status, status)
        self.said.append(what)

    def near(self, what: str, now: int, most: int) -> None:
        """A warning where something has most of what it may have."""
        if now * 100 >= most * NEAR:
            self.add(WARNING, f'{what} at {now * 100 // most} %')


# ---- What stands there


def is_locked(name: str, table: str = '/proc/locks') -> bool:
    """Whether somebody holds a lock on a file, by the list of the system: to try the lock would disturb a server that starts."""
    try:
        status = os.stat(name)
        with open(table, encoding='ascii') as file:
            lines = file.read().splitlines()
    except FileNotFoundError:
        return False
    wanted = (os.major(status.st_dev), os.minor(status.st_dev), status.st_ino)
    return any(place_of(line) == wanted for line in lines)


def place_of(line: str) -> Optional[tuple[int, int, int]]:
    """The device and the inode that a line of the list of locks names, unless its holder waits for it."""
    found = re.fullmatch('[0-9]+: FLOCK .* ([0-9a-f]+):([0-9a-f]+):([0-9]+) .*', line)
    return None if found is None else (int(found[1], 16), int(found[2], 16), int(found[3]))


def age_of(status: os.stat_result, now: float) -> float:
    """Seconds since a file was changed; none where its clock is ahead."""
    return max(0.0, now - status.st_mtime)


def read_journal_head(name: str) -> tuple[Optional[Head], int]:
    """The head of a journal, None where it has none yet, and the bytes of the journal; BadFile if it is no journal."""
    try:
        with open(name, 'rb') as file:
            front, size = file.read(1024), os.fstat(file.fileno()).st_size
    except OSError as error:
        raise BadFile(name, None, error.strerror or 'cannot be read') from error
    contents = read_blocks(front).contents
    try:
        return (read_head(contents[0]) if contents else None), size
    except Bad as bad:
        raise BadFile(name, bad.args[0], 'this is no head of a journal') from bad


def last_items(data: bytes) -> Iterator[re.Match[bytes]]:
    """The first lines of the items that stand whole in the end of a reply file. What stands in front of its first line feed may be
    the rest of a line."""
    whole = data[:data.rfind(b'\n') + 1]
    return ITEM.finditer(whole, whole.find(b'\n') + 1 if len(data) >= END else 0)


def read_shown(name: str, now: float) -> Shown:
    """What a reply file shows last. It is read from its end, as far back as an item goes: that of a plan may be long."""
    try:
        with open(name, 'rb') as file:
            status = os.fstat(file.fileno())
            size = END
            while True:
                file.seek(max(0, status.st_size - size))
                items = list(last_items(file.read()))
                if items or size >= status.st_size:
                    break
                size *= 2
    except OSError as error:
        raise BadFile(name, None, error.strerror or 'cannot be read') from error
    entry = max((int(item[2]) for item in items if item[2]), default=0)
    return Shown(int(items[-1][1]) if items else 0, entry, age_of(status, now))


def behind_line(data: bytes, line: int) -> bytes:
    """What stands behind so many lines."""
    place = 0
    for _ in range(line):
        place = data.find(b'\n', place) + 1
        if not place:
            return b''
    return data[place:]


def due_lines(data: bytes) -> list[int]:
    """The numbers, from 1, of the whole lines that are owed an answer."""
    lines = enumerate(data.split(b'\n')[:-1], 1)
    return [number for number, line in lines if not isinstance(heard(line.removesuffix(b'\r').decode('latin-1')), Nothing)]


def read_given(name: str, answered: int, now: float) -> Given:
    """A feed of which so many lines are answered."""
    try:
        with open(name, 'rb') as file:
            status = os.fstat(file.fileno())
            due = due_lines(behind_line(file.read(FEED), answered))
    except OSError as error:
        raise BadFile(name, None, error.strerror or 'cannot be read') from error
    return Given(status.st_size, age_of(status, now), len(due), answered + due[-1] if due else answered)


def reply_of(store: str, feed: int) -> str:
    """The name of the file that shows the answers of a feed, from 1."""
    return os.path.join(store, f'reply-{feed}.txt')


def is_answered(store: str, feed: int, line: int, patience: float) -> bool:
    """Whether the answer to a line of a feed is shown, which is waited for."""
    ends = time.monotonic() + patience
    while read_shown(reply_of(store, feed), 0.0).line < line:
        if time.monotonic() > ends:
            return False
        time.sleep(0.1)
    return True


def measure(store: str, feeds: Sequence[str], now: float) -> Measured:
    """A store as it stands, with its feeds where they are named; BadFile if something cannot be read or is no such file."""
    head, size = read_journal_head(journal_of(store))
    if head is not None and feeds and len(feeds) != head.feeds:
        raise BadFile(store, None, f'its journal is of {head.feeds} feeds, and {len(feeds)} are named')
    count = 0 if head is None else head.feeds
    shown = [read_shown(reply_of(store, number), now) for number in range(1, count + 1)]
    given = [read_given(name, one.line, now) for name, one in zip(feeds, shown)]
    return Measured(store, is_locked(os.path.join(store, 'lock')), head, size, shown, given)


def sums_in(name: str) -> Optional[set[tuple[str, str]]]:
    """The check sums of a list as `sha256sum` writes it, each with the name of a file in some folder; None where there is no list."""
    try:
        with open(name, encoding='utf-8', errors='replace') as file:
            lines = [line.partition('  ') for line in file.read().split('\n')[:-1]]
    except FileNotFoundError:
        return None
    except OSError as error:
        raise BadFile(name, None, error.strerror or 'cannot be read') from error
    return {(total, path.rpartition('/')[2]) for total, _, path in lines}


def is_begun_over(store: str, net: str) -> bool:
    """Whether a store lists the files of a network as they are now, or none, as a store of before."""
    listed = sums_in(os.path.join(store, 'files'))
    if listed is None:
        return True
    for name in EVENTS, ACTIVITIES:
        path = os.path.join(net, name)
        try:
            with open(path, 'rb') as file:
                total = hashlib.file_digest(file, 'sha256').hexdigest()
        except OSError as error:
            raise BadFile(path, None, error.strerror or 'cannot be read') from error
        if (total, name) not in listed:
            return False
    return True


# ---- What is said of it


def judge(measured: Measured, patience: int, quiet: Optional[int]) -> Found:
    """What is wrong with a store, and how much."""
    found = Found()
    if not measured.is_served:
        found.add(CRITICAL, 'no server runs')
    if measured.head is None:
        found.add(WARNING, 'the journal has no head yet')
    found.near('journal', measured.journal, JOURNAL)
    found.near('entries', measured.entries, MOST_ENTRIES)
    for number, feed in enumerate(measured.feeds, 1):
        if feed.size >= FEED:
            found.add(CRITICAL, f'feed {number} is full')
        found.near(f'feed {number}', feed.size, FEED)
        if feed.waiting and not (measured.is_served and is_answered(measured.store, number, feed.last, patience - feed.age)):
            found.add(CRITICAL, f'feed {number} waits with {feed.waiting} lines')
        if quiet is not None and feed.age > quiet:
            found.add(WARNING, f'feed {number} says nothing for {feed.age:.0f} s')
    return found


def line_of(measured: Measured, found: Found) -> str:
    """The line that people and monitoring read."""
    last = min((one.age for one in measured.shown), default=None)
    ages = 'none' if last is None else f'{last:.0f} s ago'
    said = '; '.join(found.said) or 'serving'
    lines = ', '.join(str(one.line) for one in measured.shown)
    return (f'{STATUS_WORDS[found.status]} {in_one_line(measured.store)}: {said} | entries {measured.entries}, journal '
            f'{measured.journal} of {JOURNAL} bytes, lines answered {lines or "none"}, last answer {ages}')


def label(text: str) -> str:
    """A value of a label, in the quotes that the text format wants."""
    escaped = text.replace('\\', r'\\').replace('"', r'\"').replace('\n', r'\n')
    return f'"{"".join(one if one.isprintable() else "?" for one in escaped)}"'


# The figures with what each means, in the order in which they are written.
FIGURES = {
    'up': 'whether a server runs over the store',
    'journal_bytes': 'bytes of the journal',
    'journal_limit_bytes': 'the most bytes that a journal may have',
    'entries': 'entries of the journal, by the last answers',
    'answered_line': 'number of the last line of a feed that was answered',
    'reply_age_seconds': 'seconds since a feed was answered last',
    'feed_bytes': 'bytes of a feed',
    'feed_age_seconds': 'seconds since a feed was changed last',
    'waiting_lines': 'lines of a feed that wait for an answer',
}


def figures_of(measured: Measured) -> Iterator[tuple[str, Optional[int], float]]:
    """Each figure with the number of its feed, where it is one of a feed."""
    yield 'up', None, int(measured.is_served)
    yield 'journal_bytes', None, measured.journal
    yield 'journal_limit_bytes', None, JOURNAL
    yield 'entries', None, measured.entries
    for number, shown in enumerate(measured.shown, 1):
        yield 'answered_line', number, shown.line
        yield 'reply_age_seconds', number, shown.age
    for number, feed in enumerate(measured.feeds, 1):
        yield 'feed_bytes', number, feed.size
        yield 'feed_age_seconds', number, feed.age
        yield 'waiting_lines', number, feed.waiting


def metrics_of(measured: Measured) -> str:
    """The figures in the text format, each kind with a line on what it is."""
    values: dict[str, list[str]] = {name: [] for name in FIGURES}
    for name, feed, value in figures_of(measured):
        of_feed = '' if feed is None else f',feed="{feed}"'
        values[name].append(f'dispatcher_{name}{{store={label(measured.store)}{of_feed}}} {value:.10g}')
    return ''.join(
        f'# HELP dispatcher_{name} {FIGURES[name]}\n# TYPE dispatcher_{name} gauge\n' + '\n'.join(lines) + '\n'
        for name, lines in values.items() if lines
    )
