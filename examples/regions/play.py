#!/usr/bin/env python3
"""Plays a day over regions that tell each other their boundary times: play.py DISPATCHER [FOLDER] [--regions N] [--port P]

DISPATCHER is the built program. The script cuts the day of ../day at the middle stops of its lines into N regions (2 or 4). It
starts a Mosquitto broker (mosquitto.conf, with a password for each user of `access`) and a server for each region on this
machine. It sends the control rooms' delays, waits until the relays are at rest, and ends the feeds. In the middle of the day
region 1 gets nothing for a while. Then the times of all regions are compared with those of one server over the whole network.

At the end the text of region 1 goes to a second site, which follows its journal. When half of the text has come, and when all
has, the times there are compared with those of the region after the same entries. The status is 1 if times differ. With a FOLDER
the files stay there. The script needs Debian's `mosquitto` and `mosquitto-clients`.

Topics: `feed/N` has the lines of control room N. `board/N/S` has the board of stop S in region N, with all its times in one line;
the broker keeps the last one. `text/N` has the lines of the text of the region's run.
"""
from __future__ import annotations

import os
import shutil
import subprocess
import sys
import tempfile
import threading
import time
from typing import Any, Iterable, NamedTuple

HERE = os.path.dirname(os.path.abspath(__file__))
sys.path.insert(0, os.path.join(os.path.dirname(os.path.abspath(__file__)), '..', '..'))

from broker import Broker  # noqa: E402
from dispatch_tools.formats.giv import read_network  # noqa: E402
from dispatch_tools.model.railway import Rows, sound_times  # noqa: E402
from dispatch_tools.live.relay import read_boundary  # noqa: E402
from dispatch_tools.formats.runtext import read_run  # noqa: E402
from dispatch_tools.pictures.scene import rows_of  # noqa: E402
from dispatch_tools.here import words_of  # noqa: E402
from dispatch_tools.words import command_line, whole_path  # noqa: E402

NET = os.path.join(HERE, '..', 'day', 'net')
MIDDLES = [11 * line + 6 for line in range(8)]

# The delays of the day: an event and its seconds, some of them corrected down later. Those of trains whose passengers change to a
# train of another region cross the boundary.
DELAYS = [(5, 420), (69, 700), (149, 640), (107, 600), (229, 500), (245, 500), (311, 420), (469, 540), (69, 100), (107, 120),
          (591, 660), (5, 60), (629, 800), (149, 0)]

# So many seconds of silence say that the relays have come to rest.
SILENCE = 2.0
PATIENCE = 120.0

# So many lines of a text stand before its journal.
HEADER = 4


class Play:
    """The processes of a play. They all end with it."""

    def __init__(self, folder: str, port: int) -> None:
        self.folder = folder
        self.broker = Broker(folder, port)
        self.running: list[subprocess.Popen[bytes]] = []
        self.last = time.monotonic()

    def start(self, command: list[str], **files: Any) -> subprocess.Popen[bytes]:
        process: subprocess.Popen[bytes] = subprocess.Popen(command, **files)
        self.running.append(process)
        return process

    def pipe(self, *commands: list[str], said: Any = subprocess.DEVNULL) -> list[subprocess.Popen[bytes]]:
        """Processes, each of which reads what the one before it writes. The last one's standard error goes to a file."""
        source: Any = None
        processes: list[subprocess.Popen[bytes]] = []
        for command in commands:
            is_last = command is commands[-1]
            files: dict[str, Any] = {'stdout': None if is_last else subprocess.PIPE, 'stderr': said if is_last else subprocess.DEVNULL}
            processes.append(self.start(command, stdin=source, **files))
            if source is not None:
                source.close()
            source = processes[-1].stdout
        return processes

    def listen(self) -> None:
        """Notes when the last line came on any topic."""
        listener = self.start(self.broker.client('watch', 'mosquitto_sub', '-q', '1', '-t', '#'), stdout=subprocess.PIPE)

        def note() -> None:
            assert listener.stdout is not None
            for _ in listener.stdout:
                self.last = time.monotonic()
        threading.Thread(target=note, daemon=True).start()

    def settle(self) -> None:
        """Waits until no line has come for a while."""
        self.last = begun = time.monotonic()
        while time.monotonic() - self.last < SILENCE:
            if time.monotonic() - begun > PATIENCE:
                raise SystemExit('the relays do not come to rest')
            time.sleep(0.05)

    def end(self) -> None:
        stop(self.running)


def stop(processes: Iterable[subprocess.Popen[bytes]]) -> None:
    for process in processes:
        process.terminate()
    for process in processes:
        process.wait()


class Region:
    """A region's folder, its server, the file of lines that fills its feed, and what appends to it: the control room and the relay."""

    def __init__(self, play: Play, number: int, boundaries: list[str]) -> None:
        self.play, self.number, self.boundaries = play, number, boundaries
        self.folder = os.path.join(play.folder, f'region-{number}')
        self.network = read_network(os.path.join(self.folder, 'net'))
        # A region without a neighbour gets its own boards, which change none of its events.
        self.neighbours = [
            other for other, name in enumerate(boundaries, 1) if any(cut.region == number for cut in read_boundary(name))
        ] or [number]
        self.stops = sorted({event.stop for event in self.network.events} & set(MIDDLES))
        self.text, self.lines, self.said = (os.path.join(self.folder, name) for name in ('text', 'lines', 'relay-said'))

    def client(self, program: str, name: str, *words: str) -> list[str]:
        """A client of the region with a name, of quality 1."""
        return self.play.broker.client(f'region-{self.number}', program, '-i', f'{name}-{self.number}', '-q', '1', *words)

    def begin(self, program: str) -> None:
        """Starts the server over a pipe, what sends its boards to the broker, and what fills its feed."""
        feed = os.path.join(self.folder, 'feed')
        os.mkfifo(feed)
        open(self.lines, 'ab').close()
        boards = ','.join(map(str, self.stops))
        with open(self.text, 'wb') as out:
            words = [program, 'run', 'net', 'feed', '--batch=1', f'--boards={boards}']
            self.dispatcher = self.play.start(words, cwd=self.folder, stdout=out)
        with open(feed, 'wb', buffering=0) as into:
            self.tail = self.play.start(['tail', '-n', '+1', '-f', self.lines], stdout=into)
        for at in self.stops:
            board = os.path.join(self.folder, 'net', f'board-{at}.txt')
            open(board, 'ab').close()
            self.play.pipe(['tail', '-n', '+1', '-f', board], words_of('board'),
                           self.client('mosquitto_pub', f'board-{at}', '-l', '-r', '-t', f'board/{self.number}/{at}'))
        self.hear()

    def hear(self) -> None:
        """Starts what appends to the lines: the control room, and the relay of the neighbours' times."""
        room = self.client('mosquitto_sub', 'feed', '-c', '-F', '%x', '-t', f'feed/{self.number}')
        words = [*words_of('relay'), *self.boundaries, '--region', str(self.number)]
        words += ['--topics', '--feed', self.lines]
        boards = [word for other in self.neighbours for word in ('-t', f'board/{other}/+')]
        with open(self.said, 'ab') as said:
            appends = [*words_of('append'), self.lines, '--payloads']
            self.hearing = self.play.pipe(room, appends, said=said)
            self.hearing += self.play.pipe(self.client('mosquitto_sub', 'relay', '-c', '-F', '%t %x', *boards), words, said=said)

    def hear_no_more(self) -> None:
        stop(self.hearing)

    def say(self, line: str) -> None:
        """Sends a line of the control room."""
        room = self.play.broker.client(f'room-{self.number}', 'mosquitto_pub', '-q', '1', '-t', f'feed/{self.number}', '-m', line)
        subprocess.run(room, check=True)

    def end(self) -> None:
        """Ends the feed, reads the text of the run, and prints what the relay said on standard error."""
        self.hear_no_more()
        stop([self.tail])
        self.dispatcher.wait()
        with open(self.said, encoding='utf-8') as file:
            sys.stderr.write(file.read())
        with open(self.text, 'rb') as file:
            self.run = read_run(file.read(), len(self.network.events))

    def times_after(self, entries: int) -> dict[int, int]:
        """The times after so many entries of its journal."""
        run = self.run._replace(journal=self.run.journal[:entries])
        rows = rows_of(self.network, Rows(self.network), run, self.text)
        return dict(zip((event.id for event in self.network.events), sound_times(self.network, rows)))


class Followed(NamedTuple):
    """What `follow` prints of the text that has come: how many entries it has, its tail, and the times by event."""
    entries: int
    tail: str
    times: dict[int, int]


def times_in(line: str) -> tuple[int, int]:
    event, time = line.split('; ')
    return int(event), int(time)


def read_followed(text: str) -> Followed:
    """Reads what `follow` prints."""
    entries, tail, *times, _ = text.splitlines()
    return Followed(int(entries.split()[1]), tail, dict(times_in(line) for line in times))


class SecondSite:
    """A site to which the text of a region's run comes over the broker, and which has the files of its network."""

    def __init__(self, play: Play, region: Region) -> None:
        self.play, self.region = play, region
        self.topic = f'text/{region.number}'
        self.text = os.path.join(play.folder, f'text-of-region-{region.number}')
        with open(self.text, 'wb') as into:
            play.start(play.broker.client('site', 'mosquitto_sub', '-i', 'site', '-c', '-q', '1', '-t', self.topic), stdout=into)
        play.settle()

    def hear(self, lines: Iterable[bytes]) -> None:
        """Sends lines of the text to the site, and waits until they are there."""
        words = self.region.client('mosquitto_pub', 'text', '-l', '-t', self.topic)
        subprocess.run(words, input=b''.join(lines), check=True)
        self.play.settle()

    def differing(self, program: str, entries: int, tail: str) -> int:
        """How many of its times differ from those of the region after so many entries. It must have these entries, and this tail."""
        words = [program, 'follow', os.path.join(self.region.folder, 'net'), self.text]
        followed = read_followed(subprocess.run(words, stdout=subprocess.PIPE, check=True, text=True).stdout)
        if (followed.entries, followed.tail) != (entries, tail):
            raise SystemExit(f'the second site has {followed.entries} entries, {followed.tail}, and not {entries}, {tail}')
        due = self.region.times_after(entries)
        return sum(followed.times.get(event) != time for event, time in due.items())


def times_of_the_whole(program: str, folder: str) -> dict[int, int]:
    """The times of one server that gets all delays."""
    feed = os.path.join(folder, 'feed')
    with open(feed, 'w', encoding='ascii') as file:
        file.writelines(f'delay event {event} {delay}\n' for event, delay in DELAYS)
    done = subprocess.run([program, 'run', NET, feed], capture_output=True, check=True)
    return read_run(done.stdout, len(read_network(NET).events)).times


def followed_otherwise(play: Play, program: str, region: Region) -> int:
    """How many times of a second site differ from the region's, when half of the journal has come, and when all has."""
    site = SecondSite(play, region)
    with open(region.text, 'rb') as file:
        lines = file.readlines()
    entries = len(region.run.journal)
    half = HEADER + entries // 2
    site.hear(lines[:half])
    torn = site.differing(program, entries // 2, f'tail torn {half + 1} 0')
    site.hear(lines[half:])
    return torn + site.differing(program, entries, 'tail whole')


def played(play: Play, program: str, count: int) -> list[Region]:
    """The regions, once the day was reported and their feeds have ended."""
    middles = ','.join(map(str, MIDDLES))
    subprocess.run([*words_of('split'), NET, middles, play.folder, '--regions', str(count)], check=True)
    boundaries = [os.path.join(play.folder, f'region-{number}', 'Boundary.csv') for number in range(1, count + 1)]
    regions = [Region(play, number, boundaries) for number in range(1, count + 1)]
    play.running.append(play.broker.start())
    play.listen()
    for region in regions:
        region.begin(program)
    play.settle()
    for number, (event, delay) in enumerate(DELAYS):
        if number == len(DELAYS) // 3:
            regions[0].hear_no_more()
        owner = next(region for region in regions if event in region.network.event_place)
        owner.say(f'delay event {event} {delay}')
    play.settle()
    regions[0].hear()
    play.settle()
    for region in regions:
        region.end()
    return regions


def main() -> None:
    words = command_line(__doc__)
    words.add_argument('dispatcher', metavar='DISPATCHER', type=whole_path, help='the built program')
    words.add_argument('folder', metavar='FOLDER', nargs='?', help='where files stay (a folder that is removed at the end)')
    words.add_argument('--regions', type=int, default=2, choices=(2, 4), metavar='N', help='how many regions, 2 or 4 (2)')
    words.add_argument('--port', type=int, default=18830, metavar='P', help='the port of the broker (18830)')
    given = words.parse_args()
    folder = os.path.abspath(given.folder) if given.folder else tempfile.mkdtemp()
    os.makedirs(folder, exist_ok=True)
    play = Play(folder, given.port)
    try:
        regions = played(play, given.dispatcher, given.regions)
        followed = followed_otherwise(play, given.dispatcher, regions[0])
    finally:
        play.end()
    due = times_of_the_whole(given.dispatcher, folder)
    if not given.folder:
        shutil.rmtree(folder)
    came = {event: time for region in regions for event, time in region.run.times.items()}
    differing = sum(came.get(event) != time for event, time in due.items())
    print(f'{given.regions} regions, {len(due)} events: {differing} times differ from those of one server')
    print(f'a second site that follows region 1: {followed} times differ from those of the region')
    sys.exit(1 if differing or followed or len(came) != len(due) else 0)


if __name__ == '__main__':
    main()
