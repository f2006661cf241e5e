"""A day of a live server on which something is done to it, and what its next start has to do."""
from __future__ import annotations

import subprocess
import time
from pathlib import Path
from typing import Any, NamedTuple

from dispatch_tools.bench.kill import part_of, Wrong
from dispatch_tools.live.serving import command_of
PATIENCE = 120

# What the feeds hold: lines that are answered, and lines that are not. When the plan is carried over, one of its choices is
# locked, and of another one a train is cancelled.
FEEDS = (
    b'# the first feed\ndelay event 1 900\n\ncost\ntime 2\nsolve 30\nadopt\nread\nno line\ndelay event 21 120\n'
    b'lock 621\ncancel 165\ncarry\nrestore 165\n',
    b'cost\n   \ndelay event 41 30\r\n# a word\ndelay event 41 0\npass 1 22000\n',
    b'read\n',
)


class End(NamedTuple):
    """How a program ended."""
    status: int
    text: bytes


class Day:
    """A day in a folder, and what its server is started with."""

    def __init__(self, program: str, folder: Path) -> None:
        self.program, self.folder = program, folder
        self.store = folder / 'store'
        self.feeds = [folder / f'feed-{number}' for number in range(1, len(FEEDS) + 1)]
        self.options: list[str] = []

    def words(self, *command: str) -> list[str]:
        return [self.program, *command, str(self.folder / 'net'), str(self.store), *map(str, self.feeds), *self.options]

    def ran(self, *command: str, **how: Any) -> End:
        done = subprocess.run(self.words(*command), capture_output=True, timeout=PATIENCE, check=False, **how)
        return End(done.returncode, done.stdout)

    def served(self, *command: str, **how: Any) -> End:
        """Serves until all that stands in the feeds is answered; by this command, or by the one that the store wants."""
        stop = self.store / 'stop'
        if self.store.is_dir():
            stop.touch()
        end = self.ran(*(command or command_of(self.store)), **how)
        stop.unlink(missing_ok=True)
        return end

    def begun(self, said: Any = subprocess.DEVNULL, patience: float = PATIENCE, **how: Any) -> subprocess.Popen[bytes]:
        """A server that goes on, once it has replied to a new line."""
        server = subprocess.Popen(self.words(*command_of(self.store)), stdout=subprocess.PIPE, stderr=said, **how)
        self.ask(server, patience)
        return server

    def ask(self, server: subprocess.Popen[bytes], patience: float = PATIENCE) -> None:
        """Asks a server, and waits for its reply."""
        before = len(self.reply(2))
        self.append(2, b'cost\n')
        ends = time.monotonic() + patience
        while len(self.reply(2)) == before:
            if time.monotonic() > ends or server.poll() is not None:
                raise Wrong(f'a server did not answer: {server.poll()}')
            time.sleep(0.01)

    def end(self, server: subprocess.Popen[bytes], patience: float = PATIENCE) -> bytes:
        """Tells a server to end, and gives its text."""
        (self.store / 'stop').touch()
        text, _ = server.communicate(timeout=patience)
        (self.store / 'stop').unlink()
        return text

    def reply(self, feed: int) -> bytes:
        path = self.store / f'reply-{feed + 1}.txt'
        return path.read_bytes() if path.exists() else b''

    def replies(self) -> list[bytes]:
        return [self.reply(feed) for feed in range(len(FEEDS))]

    def journal(self) -> bytes:
        return (self.store / 'journal').read_bytes()

    def append(self, feed: int, text: bytes) -> None:
        with self.feeds[feed].open('ab') as file:
            file.write(text)


def expect(end: End, status: int, line: bytes | None) -> None:
    """The end has this status. If a line is given, it is all that was written."""
    if end.status != status or (line is not None and end.text != line):
        raise Wrong(f'status {end.status} in place of {status}: {end.text[-200:]!r}, in place of {line!r}')


def refused(day: Day, line: bytes) -> None:
    """A start is refused with this line, and leaves the store as it was."""
    before = day.journal(), day.replies()
    expect(day.served(), 3, line)
    if (day.journal(), day.replies()) != before:
        raise Wrong('what was refused was changed')


def goes_on(day: Day) -> bytes:
    """A start goes on: its text is good, and each reply that was shown is in it. Gives the text."""
    before = day.replies()
    end = day.served()
    expect(end, 0, None)
    (day.folder / 'printed').write_bytes(end.text)
    words = [day.program, 'check', str(day.folder / 'net'), str(day.folder / 'printed')]
    checked = subprocess.run(words, capture_output=True, timeout=PATIENCE, check=False)
    if checked.returncode != 0:
        raise Wrong(f'check: {checked.stdout!r}')
    for feed, shown in enumerate(before):
        if not part_of(end.text, feed + 1).startswith(shown):
            raise Wrong(f'reply-{feed + 1}.txt showed {len(shown)} bytes that the text has not')
    if day.replies() != [part_of(end.text, feed + 1) for feed in range(len(FEEDS))]:
        raise Wrong('the reply files are not the logs of the text')
    if day.ran('text') != End(0, end.text):
        raise Wrong('`text` prints another text')
    return end.text
