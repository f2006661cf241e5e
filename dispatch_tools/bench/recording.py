"""What a recording of a server's calls says of its files."""
from __future__ import annotations

import re
from collections.abc import Iterable, Iterator
from dataclasses import dataclass
from pathlib import Path
from typing import NamedTuple, Optional


# ---- what a recording says

class Made(NamedTuple):
    """A new file has this name."""
    name: str
    file: int


class Wrote(NamedTuple):
    """Bytes were written from an offset on."""
    file: int
    at: int
    data: bytes


class Cut(NamedTuple):
    """A file was cut to a length."""
    file: int
    size: int


class Synced(NamedTuple):
    """A file was synced."""
    file: int


class Renamed(NamedTuple):
    """A file took another's name."""
    old: str
    new: str


class FolderSynced(NamedTuple):
    """The folder was synced."""


class Took(NamedTuple):
    """A feed was read up to here."""
    feed: int
    end: int


class FeedSynced(NamedTuple):
    """A feed was synced."""
    feed: int


Event = Made | Wrote | Cut | Synced | Renamed | FolderSynced | Took | FeedSynced


@dataclass
class Open:
    """A file of the store, a feed, or the folder, as a number of the process names it."""
    kind: str
    file: int = 0
    at: int = 0
    appends: bool = False


CALL = re.compile(r'(?:\d+ +)?(\w+)\((.*)\) += (-?\d+)')
RESUMED = re.compile(r'(\d+) +<\.\.\. \w+ resumed>(.*)')


def whole_calls(trace: Iterable[str]) -> Iterator[tuple[str, str, int]]:
    """The calls of a recording, each by its name, its words and its answer. One that another thread interrupted comes where it ends."""
    begun: dict[str, str] = {}
    for line in trace:
        if line.rstrip().endswith('<unfinished ...>'):
            begun[line.split()[0]] = line.rstrip().removesuffix('<unfinished ...>')
            continue
        resumed = RESUMED.match(line)
        if resumed:
            line = begun.pop(resumed[1], '') + resumed[2]
        call = CALL.match(line)
        if call:
            yield call[1], call[2], int(call[3])


def strings(words: str) -> list[bytes]:
    """The strings among the words of a call, which stand there in hexadecimal."""
    return [bytes.fromhex(it.replace('\\x', '')) for it in re.findall(r'"((?:\\x[0-9a-f]{2})*)"', words)]


class Recording:
    """Reads the events of a server over a store from what strace wrote of it."""

    def __init__(self, store: Path, feeds: list[Path], files: dict[str, int], sizes: dict[int, int]) -> None:
        self.store, self.feeds = store, [str(feed) for feed in feeds]
        self.names, self.sizes = dict(files), dict(sizes)
        self.open: dict[int, Open] = {}

    def file_of(self, name: str) -> int:
        file = max(self.sizes, default=0) + 1
        self.names[name], self.sizes[file] = file, 0
        return file

    def opened(self, words: str, number: int) -> Iterator[Event]:
        path = strings(words)[0].decode()
        name = Path(path).name
        if path in self.feeds:
            self.open[number] = Open('feed', self.feeds.index(path))
        elif path == str(self.store):
            self.open[number] = Open('folder')
        elif Path(path).parent == self.store and re.search('O_WRONLY|O_RDWR', words):
            if name not in self.names:
                yield Made(name, self.file_of(name))
            self.open[number] = Open('file', self.names[name], appends='O_APPEND' in words)
            if 'O_TRUNC' in words and self.sizes.get(self.names[name]):
                self.sizes[self.names[name]] = 0
                yield Cut(self.names[name], 0)
        else:
            self.open[number] = Open('other')

    def wrote(self, held: Open, data: bytes, at: Optional[int] = None) -> Wrote:
        place = at if at is not None else self.sizes[held.file] if held.appends else held.at
        if at is None:
            held.at = place + len(data)
        self.sizes[held.file] = max(self.sizes[held.file], place + len(data))
        return Wrote(held.file, place, data)

    def of_file(self, name: str, words: str, answer: int, held: Open) -> Iterator[Event]:
        """What a call does to a file of the store."""
        if name == 'read':
            held.at += answer
        elif name == 'lseek':
            held.at = answer
        elif name == 'write':
            yield self.wrote(held, strings(words)[0][:answer])
        elif name == 'pwrite64':
            yield self.wrote(held, strings(words)[0][:answer], int(words.rsplit(',', 1)[1]))
        elif name == 'ftruncate':
            size = int(words.rsplit(',', 1)[1])
            self.sizes[held.file] = size
            yield Cut(held.file, size)
        elif name in ('fsync', 'fdatasync'):
            yield Synced(held.file)

    def of_feed(self, name: str, answer: int, held: Open) -> Iterator[Event]:
        if name == 'read' and answer > 0:
            held.at += answer
            yield Took(held.file, held.at)
        elif name in ('fsync', 'fdatasync'):
            yield FeedSynced(held.file)

    def renamed(self, words: str) -> Iterator[Event]:
        old, new = (Path(it.decode()) for it in strings(words)[:2])
        if old.parent == self.store and old.name in self.names:
            self.names[new.name] = self.names.pop(old.name)
            yield Renamed(old.name, new.name)

    def events(self, trace: Iterable[str]) -> Iterator[Event]:
        for name, words, answer in whole_calls(trace):
            if answer < 0:
                continue
            if name in ('open', 'openat'):
                yield from self.opened(words, answer)
            elif name.startswith('rename'):
                yield from self.renamed(words)
            else:
                number = int(re.split('[,<]', words)[0])
                held = self.open.get(number, Open('other'))
                if name == 'close':
                    self.open.pop(number, None)
                elif held.kind == 'file':
                    yield from self.of_file(name, words, answer, held)
                elif held.kind == 'feed':
                    yield from self.of_feed(name, answer, held)
                elif held.kind == 'folder' and name in ('fsync', 'fdatasync'):
                    yield FolderSynced()
