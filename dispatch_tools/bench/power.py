"""Cuts the power of a server's disk at each of its calls, and says whether anything was lost:

    dispatch-tools power DISPATCHER [IMAGES] [--seed=N] [--folder=DIR]

A server answers a day of three feeds under `strace`, a line of each in a round. It ends, and a second one goes on with more
lines. First the order of their calls is judged. Before a block is written, each feed from which lines were taken is synced; then
come the block, a sync, its gate, a sync, and only then what is shown. A file that is put anew is written and synced under another
name, takes its name by a rename, and the folder is synced before anything else is written.

Then images are built of what a loss of power may leave, up to IMAGES of them (4,000). At each moment each write since its file's
last sync is there, is not there, or is torn at a byte; the end of a longer file may be zeros; names that were given since the
folder's last sync are there or are not; a feed has what was read of it before its last sync, or more. A server is started on each
image. It has to go on: whatever a reply file showed at that moment is the beginning of the log, and each line of the feeds is
answered once. Only if a reply file ends in zeros may a start refuse it, by its name; without that file the next start goes on.

The script prints what differs, with the folder, which stays there. The status is then 1.
"""
from __future__ import annotations

import argparse
import random
import re
import shutil
import subprocess
import tempfile
from collections.abc import Callable, Iterable, Iterator, Sequence
from dataclasses import dataclass, field
from itertools import zip_longest
from pathlib import Path
from typing import NamedTuple, Optional

from dispatch_tools.bench.kill import part_of, Wrong
from dispatch_tools.bench.recording import Cut, Event, FeedSynced, FolderSynced, Made, Recording, Renamed, Synced, Took, Wrote
from dispatch_tools.days.generated import write_day
from dispatch_tools.formats.runtext import due_items, read_run
from dispatch_tools.live.serving import command_of
from dispatch_tools.words import add_program, command_line

IMAGES = 4000

# How many images of a moment are drawn, besides those in which only its last call is torn.
DRAWN = 12

TRAINS = 20
PATIENCE = 120
TRACED = 'openat,open,read,write,pwrite64,lseek,ftruncate,fsync,fdatasync,rename,renameat,renameat2,close'

# What the feeds hold in the first life, and what is appended for the second.
FIRST = (
    b'delay event 1 60\ncost\ntime 2\nplan 30\nadopt\nread\nno line\ndelay event 21 120\ncost\n',
    b'cost\n   \ndelay event 41 30\r\n# a word\ndelay event 41 0\npass 1 22000\ncost\n',
    b'read\ntime 3\n',
)
SECOND = (b'delay event 2 90\nsolve 10\ncost\n', b'time 5\ndelay event 61 30\n', b'now 22001\n')


# ---- what the order of the calls has to be

class Order:
    """Judges the order of the events of one life."""

    def __init__(self, names: dict[str, int]) -> None:
        self.names = dict(names)
        self.unsynced: set[int] = set()
        self.unsynced_feeds: set[int] = set()
        self.block: Optional[str] = None
        self.renamed = False
        self.commits = self.put_anew = 0

    def name_of(self, file: int) -> str:
        return next((name for name, held in self.names.items() if held == file), '')

    def of_journal(self, event: Wrote) -> Iterator[str]:
        journal = event.file
        if event.data == b'+':
            if self.block is None or journal in self.unsynced:
                yield 'a gate is opened before its block is synced'
            self.block = 'open'
        elif event.data[:1].isdigit():
            if journal in self.unsynced:
                yield 'a block is written before the journal is synced'
            if self.unsynced_feeds:
                yield f'a block is written before feed {min(self.unsynced_feeds) + 1} is synced'
            self.block = 'shut'
        elif event.data == b'~':
            if journal in self.unsynced:
                yield 'a closed gate is written before the cut is synced'
        else:
            yield f'the journal gets {event.data[:20]!r}'

    def of_write(self, event: Wrote) -> Iterator[str]:
        name = self.name_of(event.file)
        if self.renamed:
            yield f'{name} is written before the folder is synced'
        if name == 'journal':
            yield from self.of_journal(event)
        elif name.startswith('reply-') and not name.endswith('.new'):
            if self.block is not None or self.names.get('journal') in self.unsynced:
                yield f'{name} shows what is not yet on the disk'
        self.unsynced.add(event.file)

    def of_sync(self, event: Synced) -> Iterator[str]:
        self.unsynced.discard(event.file)
        if self.name_of(event.file) == 'journal' and self.block == 'open':
            self.block = None
            self.commits += 1
        yield from ()

    def of_rename(self, event: Renamed) -> Iterator[str]:
        file = self.names.pop(event.old)
        if file in self.unsynced:
            yield f'{event.new} is put anew before it is synced'
        self.names[event.new] = file
        self.renamed = True
        self.put_anew += 1

    def faults(self, event: Event) -> Iterator[str]:
        if isinstance(event, Made):
            self.names[event.name] = event.file
        elif isinstance(event, Wrote):
            yield from self.of_write(event)
        elif isinstance(event, Cut):
            self.unsynced.add(event.file)
        elif isinstance(event, Synced):
            yield from self.of_sync(event)
        elif isinstance(event, Renamed):
            yield from self.of_rename(event)
        elif isinstance(event, FolderSynced):
            self.renamed = False
        elif isinstance(event, Took):
            self.unsynced_feeds.add(event.feed)
        else:
            self.unsynced_feeds.discard(event.feed)


def order_of(events: Iterable[Event], names: dict[str, int]) -> tuple[Order, list[str]]:
    """What was seen of one life, and what is wrong of the order of its calls."""
    order = Order(names)
    return order, [fault for event in events for fault in order.faults(event)]


# ---- what a loss of power may leave

@dataclass
class File:
    """A file: what its last sync put on the disk, and what was done to it since."""
    kept: bytes = b''
    since: list[Wrote | Cut] = field(default_factory=list)


def written(old: bytes, at: int, data: bytes) -> bytes:
    return old[:at].ljust(at, b'\0') + data + old[at + len(data):]


class Tear(NamedTuple):
    """What is left of a write: so many of its bytes, and zeros behind them if it made the file longer. None of it: no bytes."""
    bytes: int
    zeros: bool = False


def torn(file: File, tears: list[Optional[Tear]]) -> tuple[bytes, bool]:
    """What a loss of power leaves of a file, and whether it ends in zeros. A tear for each call since its last sync; none: all of it.
    A file is not longer than the bytes that reached it, or zeros."""
    now, whole, zeros = file.kept, True, False
    for call, tear in zip_longest(file.since, tears):
        if isinstance(call, Cut):
            now = now if tear else now[:call.size]
            continue
        data = call.data if tear is None else call.data[:tear.bytes]
        if call.at + len(call.data) > len(now):
            if not whole or call.at > len(now):
                continue
            whole = len(data) == len(call.data)
            if tear and tear.zeros and not whole:
                now, zeros = written(now, call.at, data.ljust(len(call.data), b'\0')), True
                continue
        now = written(now, call.at, data)
    return now, zeros


class Image(NamedTuple):
    """What a loss of power left: the files by name, the feeds' lengths, what was shown until then, and which files end in zeros."""
    files: dict[str, bytes]
    feeds: tuple[int, ...]
    shown: tuple[bytes, ...]
    zeros: frozenset[str]


class Disk:
    """The files of a store as a server sees them, and what a loss of power may leave of them."""

    def __init__(self, feeds: int) -> None:
        self.files: dict[int, File] = {}
        self.names: dict[str, int] = {}
        self.kept_names: dict[str, int] = {}
        self.named: list[Made | Renamed] = []
        self.taken = [0] * feeds
        self.kept_feeds = [0] * feeds

    def goes(self, event: Event) -> None:
        """An event happens."""
        if isinstance(event, Made):
            self.files[event.file] = File()
            self.names[event.name] = event.file
            self.named.append(event)
        elif isinstance(event, (Wrote, Cut)):
            self.files[event.file].since.append(event)
        elif isinstance(event, Synced):
            self.files[event.file] = File(self.seen(event.file))
        elif isinstance(event, Renamed):
            self.names[event.new] = self.names.pop(event.old)
            self.named.append(event)
        elif isinstance(event, FolderSynced):
            self.kept_names, self.named = dict(self.names), []
        elif isinstance(event, Took):
            self.taken[event.feed] = event.end
        else:
            self.kept_feeds[event.feed] = max(self.kept_feeds[event.feed], self.taken[event.feed])

    def seen(self, file: int) -> bytes:
        """What a read of a file returns."""
        now = self.files[file].kept
        for call in self.files[file].since:
            now = now[:call.size] if isinstance(call, Cut) else written(now, call.at, call.data)
        return now

    def seen_by_name(self) -> dict[str, bytes]:
        return {name: self.seen(file) for name, file in self.names.items()}

    def names_left(self, there: list[bool]) -> dict[str, int]:
        """The names on the disk, where so many of those that were given since the last sync are there."""
        names, now = dict(self.kept_names), dict(self.kept_names)
        for event, stays in zip(self.named, there):
            file = event.file if isinstance(event, Made) else now[event.old]
            now[event.name if isinstance(event, Made) else event.new] = file
            if stays and isinstance(event, Renamed):
                names.pop(event.old, None)
            if stays:
                names[event.name if isinstance(event, Made) else event.new] = file
        return names

    def image(self, tears: dict[int, list[Optional[Tear]]], there: list[bool], feeds: tuple[int, ...]) -> Image:
        """What is left, where the calls of each file since its last sync are torn so."""
        left = {name: torn(self.files[file], tears.get(file, [])) for name, file in self.names_left(there).items()}
        seen = self.seen_by_name()
        shown = tuple(seen.get(f'reply-{feed + 1}.txt', b'') for feed in range(len(feeds)))
        zeros = frozenset(name for name, (_, ends_so) in left.items() if ends_so)
        return Image({name: now for name, (now, _) in left.items()}, feeds, shown, zeros)

    def tears_of(self, file: int, tear: Optional[Tear]) -> list[Optional[Tear]]:
        """Of the calls since the last sync, all but the last are there, and the last is torn so."""
        others: list[Optional[Tear]] = [None for _ in self.files[file].since[1:]]
        return [*others, tear]

    @staticmethod
    def edges(size: int) -> list[Optional[Tear]]:
        """Ways in which a write of so many bytes is torn."""
        places = sorted({0, 1, 2, size // 2, size - 1} & set(range(size)))
        return [None, *(Tear(place) for place in places), *(Tear(place, True) for place in places[:2])]

    def drawn_tears(self, draws: random.Random) -> dict[int, list[Optional[Tear]]]:
        return {number: [self.drawn_tear(call, draws) for call in file.since] for number, file in self.files.items()}

    @staticmethod
    def drawn_tear(call: Wrote | Cut, draws: random.Random) -> Optional[Tear]:
        if draws.random() < 0.4:
            return None
        return Tear(draws.randrange(len(call.data)) if isinstance(call, Wrote) and call.data else 0, draws.random() < 0.1)

    def images(self, lengths: list[int], draws: random.Random, drawn: int) -> Iterator[Image]:
        """What a loss of power may leave at this moment."""
        least, most = tuple(self.kept_feeds), tuple(lengths)
        everything = [True] * len(self.named)
        yield self.image({number: [Tear(0)] * len(file.since) for number, file in self.files.items()}, [False] * len(self.named), least)
        for number, file in self.files.items():
            if file.since:
                last = file.since[-1]
                for tear in self.edges(len(last.data)) if isinstance(last, Wrote) else [None, Tear(0)]:
                    yield self.image({number: self.tears_of(number, tear)}, everything, least)
        for _ in range(drawn):
            feeds = tuple(draws.choice([low, high, draws.randint(low, high)]) for low, high in zip(least, most))
            yield self.image(self.drawn_tears(draws), [draws.random() < 0.5 for _ in self.named], feeds)


# ---- a server, and starts of it

class Day:
    """A day in a folder, and the servers over it."""

    def __init__(self, program: str, folder: Path) -> None:
        self.program, self.folder = program, folder
        self.store = folder / 'store'
        self.feeds = [folder / f'feed-{number}' for number in range(1, len(FIRST) + 1)]

    def words(self) -> list[str]:
        return [self.program, *command_of(self.store), str(self.folder / 'net'), str(self.store), *map(str, self.feeds), '--batch=1']

    def served(self) -> subprocess.CompletedProcess[bytes]:
        """A server that answers all that stands in the feeds, and ends."""
        return self.told(self.words())

    def told(self, words: list[str]) -> subprocess.CompletedProcess[bytes]:
        (self.store / 'stop').touch()
        done = subprocess.run(words, capture_output=True, timeout=PATIENCE, check=False)
        (self.store / 'stop').unlink()
        return done


class Life(NamedTuple):
    """What a life did, the files by name before and after it, and how long the feeds were."""
    events: list[Event]
    before: dict[str, int]
    after: dict[str, int]
    lengths: list[int]


def strace(trace: Path, words: list[str]) -> list[str]:
    """The words that record the calls of a program."""
    return ['strace', '-f', '-xx', '-s', '100000000', '-e', f'trace={TRACED}', '-o', str(trace), *words]


def recorded_life(store: Path, feeds: list[Path], before: dict[str, int], trace: Path, run: Callable[[], object]) -> Life:
    """The life over a store that `run` records in the file `trace`."""
    sizes = {file: (store / name).stat().st_size for name, file in before.items()}
    run()
    recording = Recording(store, feeds, before, sizes)
    with trace.open() as lines:
        events = list(recording.events(lines))
    return Life(events, before, recording.names, [path.stat().st_size for path in feeds])


def recorded(day: Day) -> Iterator[Life]:
    """Two lives, the second over what the first left."""
    day.store.mkdir()
    files: dict[str, int] = {}
    trace = day.folder / 'trace'

    def run() -> None:
        done = day.told(strace(trace, day.words()))
        if done.returncode != 0:
            raise Wrong(f'a server ended with {done.returncode}: {done.stdout[-200:]!r} {done.stderr[-200:]!r}')
    for more in (FIRST, SECOND):
        for path, text in zip(day.feeds, more):
            with path.open('ab') as feed:
                feed.write(text)
        life = recorded_life(day.store, day.feeds, files, trace, run)
        yield life
        files = life.after


def items_of(text: bytes, feed: int) -> list[tuple[int, object]]:
    return [(item.line, item.said) for item in read_run(text, 20 * TRAINS).logs[feed].items]


def put(day: Day, image: Image, texts: list[bytes]) -> None:
    """Makes a store and feeds as an image has them."""
    shutil.rmtree(day.store, ignore_errors=True)
    day.store.mkdir()
    for name, data in image.files.items():
        (day.store / name).write_bytes(data)
    for path, text, size in zip(day.feeds, texts, image.feeds):
        path.write_bytes(text[:size])


def started(day: Day, image: Image) -> bytes:
    """The text of the server that goes on with an image. A reply file that ends in zeros may be refused, and is then taken away."""
    for _ in range(len(FIRST) + 1):
        done = day.served()
        refused = re.fullmatch(rb'refused store reply (\d+)\n', done.stdout)
        name = f'reply-{int(refused[1])}.txt' if refused else ''
        if done.returncode == 3 and name in image.zeros and (day.store / name).exists():
            (day.store / name).unlink()
            continue
        if done.returncode != 0:
            raise Wrong(f'the start ended with {done.returncode}: {done.stdout[-200:]!r}')
        return done.stdout
    raise Wrong('each start was refused')


def judge(day: Day, image: Image, texts: list[bytes]) -> None:
    """A start on an image goes on: nothing that was shown is lost, and each line is answered once."""
    put(day, image, texts)
    text = started(day, image)
    for feed, (shown, size) in enumerate(zip(image.shown, image.feeds)):
        if not part_of(text, feed + 1).startswith(shown):
            raise Wrong(f'feed {feed + 1}: the text has not what was shown, {shown[-100:]!r}')
        if (day.store / f'reply-{feed + 1}.txt').read_bytes() != part_of(text, feed + 1):
            raise Wrong(f'reply-{feed + 1}.txt is not the log of the text')
        given = texts[feed][:size].decode()
        if items_of(text, feed) != due_items(given[:given.rfind('\n') + 1]):
            raise Wrong(f'feed {feed + 1}: not each line was answered once')


def images_of(lives: Iterable[Life], draws: random.Random) -> Iterator[tuple[str, Image]]:
    """All images of the lives, each with the moment at which it was left."""
    disk = Disk(len(FIRST))
    for number, life in enumerate(lives, 1):
        disk.taken = [0] * len(FIRST)
        for place, event in enumerate(life.events, 1):
            disk.goes(event)
            if not isinstance(event, (Took, FeedSynced)):
                for image in disk.images(life.lengths, draws, DRAWN):
                    yield f'life {number}, event {place} ({type(event).__name__})', image


def distinct(images: Iterable[tuple[str, Image]]) -> list[tuple[str, Image]]:
    seen: set[object] = set()
    kept = []
    for moment, image in images:
        key = (tuple(sorted(image.files.items())), image.feeds, image.shown)
        if key not in seen:
            seen.add(key)
            kept.append((moment, image))
    return kept


def judged_order(lives: Iterable[Life]) -> Iterator[str]:
    for number, life in enumerate(lives, 1):
        order, faults = order_of(life.events, life.before)
        yield from (f'life {number}: {fault}' for fault in faults)
        if order.commits < 3 or order.put_anew <= len(FIRST):
            yield f'life {number}: only {order.commits} commits and {order.put_anew} files put anew were seen'


def tried(given: argparse.Namespace, folder: Path) -> str:
    first, second = Day(given.program, folder / 'recorded'), Day(given.program, folder / 'started')
    for day in (first, second):
        day.folder.mkdir()
        write_day(7, TRAINS, str(day.folder))
    lives = list(recorded(first))
    wrong = list(judged_order(lives))
    if wrong:
        raise Wrong('\n'.join(wrong))
    texts = [path.read_bytes() for path in first.feeds]
    images = distinct(images_of(lives, random.Random(given.seed)))
    chosen = images if len(images) <= given.images else random.Random(given.seed).sample(images, given.images)
    for moment, image in chosen:
        try:
            judge(second, image, texts)
        except Wrong as fault:
            raise Wrong(f'{moment}: {fault}') from None
    events = sum(len(life.events) for life in lives)
    return f'{events} events in the order that they have to have; {len(chosen)} of {len(images)} images lose nothing'


def arguments(argv: Sequence[str] | None) -> argparse.Namespace:
    words = command_line(__doc__)
    add_program(words)
    words.add_argument('images', metavar='IMAGES', nargs='?', type=int, default=IMAGES, help='most images that are tried (%(default)s)')
    words.add_argument('--seed', metavar='N', type=int, default=1, help='number from which all is drawn (1)')
    words.add_argument('--folder', metavar='DIR', default=None, help='folder in which the day is made')
    return words.parse_args(argv)


def main(argv: Sequence[str] | None = None) -> int:
    given = arguments(argv)
    if not shutil.which('strace'):
        print('strace is not installed')
        return 1
    folder = Path(tempfile.mkdtemp(prefix='power-', dir=given.folder))
    try:
        print(tried(given, folder))
    except Wrong as wrong:
        print(f'{wrong}\n{folder}')
        return 1
    shutil.rmtree(folder)
    return 0
