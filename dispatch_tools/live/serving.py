"""Starts a live server for a script, feeds it, waits for its answers, and ends it."""
from __future__ import annotations

import os
import re
import subprocess
import time
from typing import Callable, Iterable, Optional, Sequence

from dispatch_tools.formats.files import BadFile, in_one_line
from dispatch_tools.live.feed_file import append

# How many seconds are waited for what a server is to do.
PATIENCE = 120.0

# Each item of a reply file begins with the number of its line, and no other line does.
ITEM = re.compile(rb'^([0-9]+) ', re.MULTILINE)


def command_of(store: str | os.PathLike[str]) -> list[str]:
    """The word of a command that serves over a store, and the one by which a store is begun where nothing was begun yet."""
    journal = os.path.join(store, 'journal')
    return ['serve'] if os.path.exists(journal) and os.path.getsize(journal) else ['serve', '--new']


class Server:
    """A server over the network of a folder, with a store and feeds. What it prints and says goes into `text` and `said` beside the
    store's folder."""

    def __init__(self, program: str, net: str, store: str, feeds: Sequence[str], options: Sequence[str] = ()) -> None:
        self.program, self.net, self.store, self.feeds, self.options = program, net, store, list(feeds), list(options)
        self.text, self.said = (os.path.join(os.path.dirname(store), name) for name in ('text', 'said'))
        self.behind = [0] * len(self.feeds)
        self.last = [0] * len(self.feeds)
        self.process: Optional[subprocess.Popen[bytes]] = None

    def words(self, *command: str) -> list[str]:
        return [self.program, *command, self.net, self.store, *self.feeds, *self.options]

    def start(self, patience: float = PATIENCE) -> float:
        """Starts the server, and waits until it has put its reply files anew, as it does before it answers; how many seconds that took."""
        os.makedirs(self.store, exist_ok=True)
        for feed in self.feeds:
            open(feed, 'ab').close()
        begun, before = time.monotonic(), self.replies()
        with open(self.text, 'wb') as text, open(self.said, 'wb') as said:
            self.process = subprocess.Popen(self.words(*command_of(self.store)), stdout=text, stderr=said)
        self.wait_until(lambda: all(now and now != then for now, then in zip(self.replies(), before)), patience)
        return time.monotonic() - begun

    def wait_until(self, is_so: Callable[[], bool], patience: float = PATIENCE, pause: float = 0.002) -> None:
        """Waits until something is so; BadFile if the server ends before, or it takes too long."""
        ends = time.monotonic() + patience
        while not is_so():
            if self.process is None or self.process.poll() is not None:
                raise BadFile(self.program, None, f'the server has ended: {in_one_line(self.last_words())}')
            if time.monotonic() > ends:
                raise BadFile(self.program, None, f'the server does not do in {patience:.0f} s what it should')
            time.sleep(pause)

    def last_words(self) -> str:
        return (read(self.text)[:200] + b' ' + read(self.said)[:200]).decode('utf-8', 'replace')

    def append(self, feed: int, lines: Iterable[str]) -> None:
        """Appends lines to a feed, from 0, all or none."""
        append(self.feeds[feed], list(lines))

    def reply(self, feed: int) -> str:
        """The name of the file that shows what a feed, from 0, is answered."""
        return os.path.join(self.store, f'reply-{feed + 1}.txt')

    def replies(self) -> list[int]:
        """By what each reply file differs from another one of its name; 0 if there is none."""
        names = [self.reply(feed) for feed in range(len(self.feeds))]
        return [os.stat(name).st_ino if os.path.exists(name) else 0 for name in names]

    def answered(self, feed: int) -> int:
        """The number of the last line of a feed, from 0, whose answer is shown; 0 if none is."""
        with open(self.reply(feed), 'rb') as file:
            file.seek(self.behind[feed])
            whole = file.read().rpartition(b'\n')[0]
        if whole:
            self.behind[feed] += len(whole) + 1
            for found in ITEM.finditer(whole):
                self.last[feed] = int(found[1])
        return self.last[feed]

    def wait_for(self, lines: Sequence[int], patience: float = PATIENCE) -> None:
        """Waits until each feed is answered up to such a line."""
        self.wait_until(lambda: all(self.answered(feed) >= line for feed, line in enumerate(lines)), patience)

    def stop(self, patience: float = PATIENCE) -> bytes:
        """Tells the server to end; the text that it prints."""
        assert self.process is not None, 'the server was started'
        stop = os.path.join(self.store, 'stop')
        open(stop, 'ab').close()
        try:
            status = self.process.wait(patience)
        finally:
            os.remove(stop)
        if status:
            raise BadFile(self.program, None, f'the server ends with status {status}: {in_one_line(self.last_words())}')
        return read(self.text)

    def kill(self) -> None:
        """Ends the server where it stands."""
        if self.process is not None:
            self.process.kill()
            self.process.wait()


def read(name: str) -> bytes:
    with open(name, 'rb') as file:
        return file.read()
