"""Kills a server again and again, and says whether anything was lost: dispatch-tools kill DISPATCHER [LIVES] [--trains=N]

Scripts append to three feeds of a generated day. Some pieces cut lines in two, and others end several lines at once. One feed is
silent for long. A server answers the feeds, is killed with SIGKILL after a random time, and is started again, LIVES times (500).
The file `stop` tells the last one to end. Then

    each reply file only grew, by whole bytes, whenever it was looked at, and is the beginning of its log in the last text
    each due line of each feed was answered once, in order, up to the last LF
    `dispatcher text` prints the last text, and each text that it printed beside a server was good and a beginning of later ones
    `dispatcher check` finds the last text good
    the times are those of the journal's messages in one feed, in their order, answered by a server that nobody kills, and by
    `dispatcher run` if its feeds may be that long

The script prints what differs, with the folder, which stays there. The status is then 1.
"""
import argparse
import random
import shutil
import signal
import subprocess
import tempfile
import threading
import time
from collections.abc import Iterator, Sequence
from pathlib import Path

from dispatch_tools.days.generated import activities, departure, Draws, FEED, mixed, write_day
from dispatch_tools.formats.runtext import due_items, read_run, Run
from dispatch_tools.live.serving import command_of
from dispatch_tools.model.messages import Adopt, Message
from dispatch_tools.words import add_program, command_line

LIVES = 500
FEEDS = 3
PLANS = 12
ODD = [
    '\n', '   \n', '# a word\n', 'delay\n', 'time  7\r\n', 'adopt\n', 'carry\n', 'x' * 1500 + '\n', 'plan 0\n', 'solve 0\n', 'delay event 1 1 1\n',
]


class Wrong(Exception):
    """Something was lost, or answered twice."""


def lines_of(number: int, trains: int) -> Iterator[str]:
    """The lines of a feed, without end: those of a generated day, lines that cancel events and lock choices, some plans of both
    kinds, which are adopted at once or carried over behind other lines, and some that are odd."""
    draws, plans, taken = random.Random(number), 0, taken_away(random.Random(number + 2000), trains)
    for line in mixed(Draws(number), trains):
        yield line
        if draws.random() < 0.1:
            yield next(taken)
        if draws.random() < 0.05:
            yield draws.choice(ODD)
        if plans < PLANS and draws.random() < 0.004:
            plans += 1
            yield f'{draws.choice(["plan", "solve"])} {draws.choice([1, 30, 300])}\n'
            yield 'adopt\n' if draws.random() < 0.5 else next(taken) + 'carry\n'


def taken_away(draws: random.Random, trains: int) -> Iterator[str]:
    """Lines that cancel events and lock choices, and later restore and unlock many of them."""
    last, taken = sum(1 for _ in activities(trains)), list[str]()
    while True:
        train, leg = draws.randrange(trains), draws.randrange(10)
        if taken and draws.random() < 0.4:
            yield taken.pop(draws.randrange(len(taken)))
        else:
            done, undone = draws.choice([('cancel', 'restore'), ('lock', 'unlock')])
            event, pair = departure(train, leg) + draws.randrange(2), f'{departure(train, leg)} {departure(train + 8, leg)}'
            what = event if done == 'cancel' else draws.choice([last - draws.randrange(trains - 1), pair])
            taken.append(f'{undone} {what}\n')
            yield f'{done} {what}\n'


class Source(threading.Thread):
    """Appends the lines of a feed to its file, in pieces, until it is told to end; the last piece ends a line."""

    def __init__(self, path: Path, number: int, trains: int, wait: float, most: int):
        super().__init__(daemon=True)
        self.path, self.lines, self.wait, self.most = path, lines_of(number, trains), wait, most
        self.draws, self.ends = random.Random(number + 1000), threading.Event()
        path.touch()

    def run(self) -> None:
        with open(self.path, 'ab', buffering=0) as file:
            left = b''
            while not self.ends.is_set() and file.tell() < self.most:
                while len(left) < 200:
                    left += next(self.lines).encode()
                cut = self.draws.randrange(1, 1 + self.draws.choice([5, 20, 200]))
                file.write(left[:cut])
                left = left[cut:]
                self.ends.wait(self.draws.random() * self.wait)
            file.write(left[: left.find(b'\n') + 1])


class Server:
    """A day, its store, and the servers that are started over it one after the other."""

    def __init__(self, program: str, folder: Path, trains: int):
        self.program, self.folder = program, folder
        self.feeds = [folder / f'feed-{number}' for number in range(1, FEEDS + 1)]
        self.store = folder / 'store'
        self.store.mkdir()
        write_day(7, trains, str(folder))
        self.seen = [b''] * FEEDS
        self.begun = 0
        self.texts: list[bytes] = []

    def words(self, *command: str) -> list[str]:
        return [self.program, *command, str(self.folder / 'net'), str(self.store), *map(str, self.feeds)]

    def start(self) -> subprocess.Popen[bytes]:
        with open(self.folder / 'printed', 'wb') as printed, open(self.folder / 'said', 'ab') as said:
            return subprocess.Popen(self.words(*command_of(self.store)), stdout=printed, stderr=said)

    def printed(self) -> bytes:
        return (self.folder / 'printed').read_bytes()

    def look(self) -> None:
        """Looks at the reply files, which only grow."""
        for feed in range(FEEDS):
            path = self.store / f'reply-{feed + 1}.txt'
            now = path.read_bytes() if path.exists() else b''
            if not now.startswith(self.seen[feed]):
                raise Wrong(f'{path.name} had {len(self.seen[feed])} bytes, and has {len(now)} that do not go on with them')
            self.seen[feed] = now

    def text(self) -> bytes:
        """The text of the store, beside a server or without one, which is to be good."""
        ran = subprocess.run(self.words('text'), capture_output=True)
        if ran.returncode != 0:
            raise Wrong(f'text ended with {ran.returncode}: {ran.stdout[-300:]!r}')
        self.check(ran.stdout)
        self.texts.append(ran.stdout)
        return ran.stdout

    def check(self, text: bytes) -> None:
        (self.folder / 'text').write_bytes(text)
        ran = subprocess.run([self.program, 'check', str(self.folder / 'net'), str(self.folder / 'text')], capture_output=True)
        if ran.returncode != 0:
            raise Wrong(f'check: {ran.stdout!r}')

    def serves(self) -> bool:
        """Whether the server that was started last has begun to answer."""
        return (self.folder / 'said').read_bytes().count(b'serving') > self.begun

    def life(self, seconds: float, draws: random.Random) -> None:
        """A server that is killed after so many seconds, in every other life counted from when it begins to answer."""
        self.begun = (self.folder / 'said').read_bytes().count(b'serving') if (self.folder / 'said').exists() else 0
        server = self.start()
        waits = draws.random() < 0.5
        ends = time.monotonic() + seconds
        while waits or time.monotonic() < ends:
            self.look()
            time.sleep(0.02)
            if server.poll() is not None:
                raise Wrong(f'the server ended by itself with {server.returncode}: {self.printed()[-300:]!r}')
            if waits and self.serves():
                waits, ends = False, time.monotonic() + seconds
        if draws.random() < 0.2 and (self.store / 'journal').exists():
            self.text()
        server.send_signal(signal.SIGKILL)
        server.wait()
        self.look()

    def last_life(self, sources: list[Source]) -> bytes:
        """The text of a last server, which is told to end once all is answered."""
        for source in sources:
            source.ends.set()
            source.join()
        server = self.start()
        sizes: list[int] = []
        while server.poll() is None:
            time.sleep(1.0)
            self.look()
            now = [len(seen) for seen in self.seen]
            if now == sizes and all(now):
                (self.store / 'stop').touch()
            sizes = now
        if server.returncode != 0:
            raise Wrong(f'the last server ended with {server.returncode}: {self.printed()[-300:]!r}')
        (self.store / 'stop').unlink()
        return self.printed()


def part_of(text: bytes, feed: int) -> bytes:
    """The items of a feed's log as they stand in a text."""
    lines = text.split(b'\n')
    begin = next(place for place, line in enumerate(lines) if line.startswith(b'feed %d ' % feed))
    end = next(place for place in range(begin, len(lines)) if lines[place] in (b'end', b'fault', b'long'))
    return b''.join(line + b'\n' for line in lines[begin + 1:end])


def told(run: Run, feed: int) -> list[tuple[int, object]]:
    return [(item.line, item.said) for item in run.logs[feed].items]


def lines_of_message(message: Message) -> list[str]:
    """A message as lines of a feed: an adopted list as its decisions."""
    return [*map(str, message.decisions)] if isinstance(message, Adopt) else [str(message)]


def judged(server: Server, text: bytes, count: int) -> Run:
    """Judges the last text."""
    run = read_run(text, count)
    for feed in range(FEEDS):
        if server.seen[feed] != part_of(text, feed + 1):
            raise Wrong(f'reply-{feed + 1}.txt is not the log of the last text')
        bytes_of = server.feeds[feed].read_text()
        due = due_items(bytes_of[: bytes_of.rfind('\n') + 1])
        if told(run, feed) != due:
            raise Wrong(f'feed {feed + 1}: {len(due)} due lines, {len(run.logs[feed].items)} items, which do not answer them')
        for before in server.texts:
            if not part_of(text, feed + 1).startswith(part_of(before, feed + 1)):
                raise Wrong(f'feed {feed + 1}: a text beside a server had other items')
    server.check(text)
    if server.text() != text:
        raise Wrong('`text` prints another text than the last server')
    return run


def times_alone(server: Server, run: Run, count: int) -> str:
    """The times of the journal's messages in one feed, answered without a crash, are those of the text. Gives the commands that answered them."""
    lines = [line for entry in run.journal for line in lines_of_message(entry.message)]
    feed, store = server.folder / 'journal-feed', server.folder / 'alone'
    feed.write_text('\n'.join(lines) + '\n')
    store.mkdir()
    (store / 'stop').touch()
    ways = {'serve': ['serve', '--new', str(server.folder / 'net'), str(store), str(feed)]}
    if feed.stat().st_size <= FEED:
        ways['run'] = ['run', str(server.folder / 'net'), str(feed)]
    for word, words in ways.items():
        ran = subprocess.run([server.program, *words], capture_output=True)
        again = read_run(ran.stdout, count)
        if (again.times, again.cost) != (run.times, run.cost):
            raise Wrong(f'the times are not those of `{word}` over the journal')
    return ' and '.join(ways)


def tried(given: argparse.Namespace, folder: Path) -> str:
    draws = random.Random(given.seed)
    server = Server(given.program, folder, given.trains)
    waits = [given.slow * wait for wait in (0.02, 0.1, 2.0)]
    sources = [Source(path, given.seed * 100 + at, given.trains, waits[at], given.bytes) for at, path in enumerate(server.feeds)]
    for source in sources:
        source.start()
    ends, lives = time.monotonic() + 60 * given.minutes, 0
    while lives < given.lives and time.monotonic() < ends:
        server.life(draws.random() ** 2 * given.seconds, draws)
        lives += 1
    text = server.last_life(sources)
    run = judged(server, text, 20 * given.trains)
    ways = times_alone(server, run, 20 * given.trains)
    items = sum(len(log.items) for log in run.logs)
    return (f'{lives} lives: {items} lines answered, {len(run.journal)} entries, {len(server.texts)} texts beside them; '
            f'the times are those of {ways}')


def arguments(argv: Sequence[str] | None) -> argparse.Namespace:
    words = command_line(__doc__)
    add_program(words)
    words.add_argument('lives', metavar='LIVES', nargs='?', type=int, default=LIVES, help='number of lives (%(default)s)')
    words.add_argument('--trains', metavar='N', type=int, default=2000, help='trains of the day (2000)')
    words.add_argument('--seed', metavar='N', type=int, default=1, help='number from which all is drawn (1)')
    words.add_argument('--seconds', metavar='S', type=float, default=2.0, help='longest life in seconds (2)')
    words.add_argument('--slow', metavar='N', type=float, default=1.0, help='how many times as slowly feeds grow (1)')
    words.add_argument('--minutes', metavar='M', type=float, default=600.0, help='no life begins after so many minutes (600)')
    words.add_argument('--bytes', metavar='N', type=int, default=FEED - 4096, help='most bytes of a feed')
    words.add_argument('--disk', metavar='FOLDER', default=None, help='folder in which the day is made')
    return words.parse_args(argv)


def main(argv: Sequence[str] | None = None) -> int:
    given = arguments(argv)
    folder = Path(tempfile.mkdtemp(prefix='kill-', dir=given.disk))
    try:
        print(tried(given, folder))
    except Wrong as wrong:
        print(f'{wrong}\n{folder}')
        return 1
    shutil.rmtree(folder)
    return 0
