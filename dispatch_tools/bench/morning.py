"""Plays a morning of three lines with GTFS-Realtime in and out, and compares each minute with the truth:

    dispatch-tools morning DISPATCHER [FOLDER] [--live] [--number=S] [--until=10:00]

A small simulator makes a timetable in GTFS of three lines that meet in one station, with guaranteed connections, and draws source
delays from --number. It runs trains by rules of its own, which know neither networks nor the program. A train drives for at least
93 per cent of the scheduled time, stands 30 seconds, turns in 300, keeps 120 behind the train before it, and waits for guaranteed
connections. For any other change it waits at most 300 seconds; then the change is dropped. A delay becomes known before its train
is late or while it stands. Some delays are corrected later.

Each minute the simulator reports what an agency knows, in a FeedMessage: the trains that run, with the times at which they were
at their stops; trains of two lines that have a delay of their own also with the times that it expects; trains of the third line
by the places of their vehicles. gtfs_rt_in appends that to the feed, the program runs, and gtfs_rt_out writes TripUpdates.
`protoc --decode` (Debian's protobuf-compiler), which shares no code with the tools, reads them by
dispatch_tools/formats/gtfs-realtime.proto. Each call of each train has to be at the time that the simulator expects then. Each
dropped change has to be an alert until its train has left.

With --live a server runs all morning. The reports of each minute are appended to its first feed, and dropped changes to its
second. gtfs_rt_in takes what is known from the store, and gtfs_rt_out reads the store as soon as all lines are answered.
Every half an hour the server is killed and started again. `check` judges its last text.

The script prints the first differences of each minute, and the status is then 1. With a FOLDER the files stay there.
"""
from __future__ import annotations

import contextlib
import io
import os
import random
import re
import subprocess
import tempfile
import time
from dataclasses import dataclass, field
from typing import Callable, Iterator, NamedTuple, Optional, Sequence

from dispatch_tools.bench.morning_day import (
    at_middle, BEGIN, Bound, CHANGE, Connection, DATE, DWELL, ends_of, Event, feed_files, guaranteed_pairs, HEADWAY, LINES,
    LONGEST_CHANGE, PATIENCE, Train, trains_of_morning, TURN,
)
from dispatch_tools.commands import from_gtfs, gtfs_rt_in, gtfs_rt_out
from dispatch_tools.formats.files import write_all
from dispatch_tools.formats.gtfs_rows import clock
from dispatch_tools.formats.names import read_changes
from dispatch_tools.formats.protobuf import encode, Message
from dispatch_tools.here import TOP
from dispatch_tools.live.feed_file import append
from dispatch_tools.live.serving import read, Server
from dispatch_tools.words import command_line, time_of_day, whole_between
# Midnight of that day in Berlin, by `date -d '2026-11-24 00:00 +0100' +%s`.
MIDNIGHT = 1795474800
PROTO = os.path.join(TOP, 'dispatch_tools', 'formats', 'gtfs-realtime.proto')
DELAYS, CORRECTED = 24, 6
SHOWN = 5
STORE = 'store'

# Has the lines of feeds over a network answered, and gives the words for gtfs_rt_out: what to read, and options. It may write a text.
Answer = Callable[[str, list[str], str], list[str]]


# ---- The simulator


def bounds_of(trains: list[Train]) -> Iterator[Bound]:
    """What holds between the events of trains, whatever is decided."""
    vehicles: dict[str, list[Train]] = {}
    legs: dict[tuple[str, str], list[tuple[int, Event]]] = {}
    for train in trains:
        if train.vehicle:
            vehicles.setdefault(train.vehicle, []).append(train)
        for before, after in zip(train.events, train.events[1:]):
            scheduled = train.times[after] - train.times[before]
            drives = before.kind == 'departure'
            yield Bound(before, after, scheduled - scheduled * 7 // 100 if drives else min(DWELL, scheduled))
            if drives:
                leg = train.stations[before.call], train.stations[after.call]
                legs.setdefault(leg, []).append((train.times[before], before))
    for one in vehicles.values():
        one.sort(key=ends_of)
        for first, second in zip(one, one[1:]):
            yield Bound(first.events[-1], second.events[0], min(TURN, ends_of(second)[0] - ends_of(first)[1]))
    for departures in legs.values():
        departures.sort()
        for (at, before), (then, after) in zip(departures, departures[1:]):
            yield Bound(before, after, min(HEADWAY, then - at))


def connections_of(trains: list[Train], pairs: list[tuple[str, str]]) -> Iterator[Connection]:
    """From each train to the next one of each other line and direction; a guaranteed one goes before others of its direction."""
    promised = dict(pairs)
    for train in trains:
        call = train.stations.index('Mid')
        arrival = Event(train.name, call, 'arrival')
        for line in LINES:
            for direction in (0, 1) if line != train.line else ():
                others = sorted((at_middle(one), one) for one in trains if (one.line, one.direction) == (line, direction))
                wanted = promised.get(train.name)
                guaranteed = next((one for _, one in others if one.name == wanted), None)
                reached = (one for at, one in others if CHANGE <= at - train.times[arrival] <= LONGEST_CHANGE)
                other = guaranteed or next(reached, None)
                if other is not None:
                    departure = Event(other.name, other.stations.index('Mid'), 'departure')
                    yield Connection(Bound(arrival, departure, 120 if guaranteed else CHANGE), guaranteed is not None)


@dataclass
class Delay:
    """An event is so much later than scheduled; reported from a time on, and for a while larger than it is."""
    event: Event
    seconds: int
    known: int
    at_first: int
    corrected: int

    def told(self, now: int) -> int:
        return 0 if now < self.known else self.at_first if now < self.corrected else self.seconds


def drawn_delays(trains: list[Train], number: int) -> list[Delay]:
    """Source delays of trains of A and B, each of another train; known twenty minutes before, or while the train stands already."""
    draws = random.Random(number)
    late = draws.sample([train for train in trains if train.line != 'C'], DELAYS)
    delays = []
    for count, train in enumerate(late):
        event = draws.choice(train.events)
        seconds = draws.randrange(60, 900, 5)
        known = train.times[event] - draws.randrange(-seconds // 2, 1200)
        corrected = known + draws.randrange(120, 600) if count < CORRECTED else 0
        delays.append(Delay(event, seconds, known, seconds + 300 if corrected else seconds, min(corrected, train.times[event])))
    return delays


@dataclass
class World:
    """The railway: what is scheduled, what holds, what was decided, and what has happened by now."""
    trains: list[Train]
    bounds: list[Bound]
    connections: list[Connection]
    delays: list[Delay]
    now: int = 0
    happened: dict[Event, int] = field(default_factory=dict)
    dropped: set[Connection] = field(default_factory=set)

    def __post_init__(self) -> None:
        self.scheduled = {event: at for train in self.trains for event, at in train.times.items()}
        self.order = sorted(self.scheduled, key=lambda event: (self.scheduled[event], event.call, event.kind))

    def expected(self, told: Callable[[Delay], int]) -> dict[Event, int]:
        """When each event happens, by the delays as they are reported; what has not happened yet happens now at the earliest."""
        late = {delay.event: told(delay) for delay in self.delays}
        held = [*self.bounds, *(one.bound for one in self.connections if one not in self.dropped)]
        into: dict[Event, list[Bound]] = {}
        for bound in held:
            into.setdefault(bound.after, []).append(bound)
        times: dict[Event, int] = {}
        changes = True
        while changes:
            changes = False
            for event in self.order:
                at = self.happened.get(event)
                if at is None:
                    behind = [times[bound.before] + bound.seconds for bound in into.get(event, ()) if bound.before in times]
                    at = max(self.scheduled[event] + late.get(event, 0), self.now, *behind)
                if times.get(event) != at:
                    times[event] = at
                    changes = True
        return times

    def known(self) -> dict[Event, int]:
        return self.expected(lambda delay: delay.told(self.now))

    def go_to(self, now: int) -> None:
        """Lets everything happen until a time."""
        for event, at in self.expected(lambda delay: delay.seconds).items():
            if at <= now:
                self.happened.setdefault(event, at)
        self.now = now

    def decide(self) -> list[Connection]:
        """Drops the connections for which a train would wait too long, the longest wait first; each changes the others."""
        given_up: list[Connection] = []
        while True:
            times = self.known()
            waits = [(times[one.bound.before] + one.bound.seconds - self.leaves(one, times), one) for one in self.open_ones()]
            longest = max(waits, default=None)
            if longest is None or longest[0] <= PATIENCE:
                return given_up
            self.dropped.add(longest[1])
            given_up.append(longest[1])

    def leaves(self, connection: Connection, times: dict[Event, int]) -> int:
        """When the train of a connection would leave without it."""
        departure = connection.bound.after
        self.dropped.add(connection)
        at = self.known()[departure]
        self.dropped.remove(connection)
        return min(at, times[departure])

    def open_ones(self) -> list[Connection]:
        return [
            one for one in self.connections
            if not one.is_guaranteed and one not in self.dropped and one.bound.after not in self.happened
            and self.scheduled[one.bound.after] - self.now < LONGEST_CHANGE
        ]


# ---- What an agency reports


def message_of(world: World) -> Message:
    """The FeedMessage of a minute."""
    times = world.known()
    late = {delay.event.train for delay in world.delays if delay.told(world.now)}
    entities = []
    for train in world.trains:
        has_begun = any(event in world.happened for event in train.events)
        trip = {'trip_id': train.name, 'start_date': DATE}
        if train.line == 'C' and has_begun:
            entities.append({'id': train.name, 'vehicle': place_of(world, train) | {'trip': trip}})
        elif train.line != 'C' and (has_begun or train.name in late):
            events = [one for one in train.events if one in world.happened or train.name in late and times[one] > world.now]
            entities.append({'id': train.name, 'trip_update': {'trip': trip, 'stop_time_update': calls_of(events, times)}})
    header = {'gtfs_realtime_version': '2.0', 'incrementality': 0, 'timestamp': MIDNIGHT + world.now}
    return {'header': header, 'entity': entities}


def calls_of(events: list[Event], times: dict[Event, int]) -> list[Message]:
    calls: dict[int, Message] = {}
    for event in events:
        call = calls.setdefault(event.call, {'stop_sequence': event.call + 1})
        call[event.kind] = {'time': MIDNIGHT + times[event]}
    return [calls[call] for call in sorted(calls)]


def place_of(world: World, train: Train) -> Message:
    """Where a vehicle is: at the call of its last arrival, or on the way to the one behind its last departure."""
    last = [event for event in train.events if event in world.happened][-1]
    stands = last.kind == 'arrival'
    return {'current_stop_sequence': last.call + (1 if stands else 2), 'current_status': 1 if stands else 2,
            'timestamp': MIDNIGHT + world.now}


# ---- What comes out


class Seen(NamedTuple):
    """What a message shows: the time of each event, the calls of which nothing is known, and the changes with an alert."""
    times: dict[Event, int]
    unknown: set[tuple[str, int]]
    alerts: set[tuple[str, str]]
    now: int


def decoded(name: str) -> list[tuple[int, str, str]]:
    """The lines of a message as protoc prints it: how deep they stand, their field, and their value."""
    with open(name, 'rb') as file:
        words = ['protoc', '--decode=transit_realtime.FeedMessage', f'--proto_path={os.path.dirname(PROTO)}', PROTO]
        told = subprocess.run(words, stdin=file, capture_output=True, check=True, text=True).stdout
    lines = []
    for line in told.splitlines():
        found = re.fullmatch(r'( *)(\w+)(?: \{|: (.*))', line)
        if found:
            lines.append((len(found[1]) // 2, found[2], (found[3] or '').strip('"')))
    return lines


def seen(name: str) -> Seen:
    """What a file of GTFS-Realtime shows."""
    times: dict[Event, int] = {}
    unknown: set[tuple[str, int]] = set()
    alerts: set[tuple[str, str]] = set()
    trips: list[str] = []
    now, trip, call, kind, is_alert = 0, '', 0, '', False
    for depth, field_name, value in [*decoded(name), (0, 'entity', '')]:
        if depth == 0:
            if is_alert:
                alerts.add((trips[0], trips[1]))
            trips, is_alert = [], False
        elif field_name == 'timestamp' and depth == 1 and not now:
            now = int(value)
        elif field_name == 'alert':
            is_alert = True
        elif field_name == 'trip_id':
            trip = value
            trips.append(value)
        elif field_name == 'stop_sequence':
            call = int(value) - 1
        elif field_name in ('arrival', 'departure'):
            kind = field_name
        elif field_name == 'time':
            times[Event(trip, call, kind)] = int(value) - MIDNIGHT
        elif (field_name, value) == ('schedule_relationship', 'NO_DATA'):
            unknown.add((trip, call))
    return Seen(times, unknown, alerts, now)


def differences(world: World, shown: Seen) -> Iterator[str]:
    """Where what is shown differs from what is expected; of what nothing is known it has to be on time."""
    if shown.now != MIDNIGHT + world.now:
        yield f'the header is of {shown.now}'
    for event, at in world.known().items():
        due = world.scheduled[event] if (event.train, event.call) in shown.unknown else shown.times.get(event)
        if due != at:
            yield f'{event.train}, call {event.call + 1}, {event.kind}: {due and clock(due)}, and {clock(at)} is expected'
    alerts = {(one.bound.before.train, one.bound.after.train) for one in world.dropped if one.bound.after not in world.happened}
    for pair in sorted(alerts ^ shown.alerts):
        yield f'the change from {pair[0]} to {pair[1]}: an alert in one of the two alone'


# ---- The morning


@dataclass
class Played:
    """What a morning came to."""
    minutes: int = 0
    calls: int = 0
    differ: int = 0
    slowest: float = 0
    lines: list[str] = field(default_factory=list)
    dropped: int = 0


class Broken(Exception):
    """A tool ended with a status other than 0."""


def call(tool: Callable[[list[str]], int], *words: str) -> str:
    """What a tool says on standard error."""
    said = io.StringIO()
    with contextlib.redirect_stderr(said):
        status = tool(list(words))
    if status:
        raise Broken(said.getvalue())
    return said.getvalue()


def world_of(number: int) -> tuple[World, dict[str, str]]:
    """The railway of a number, and its timetable."""
    trains = trains_of_morning()
    pairs = guaranteed_pairs(trains)
    world = World(trains, list(bounds_of(trains)), list(connections_of(trains, pairs)), drawn_delays(trains, number))
    return world, feed_files(trains, pairs)


class Files:
    """The files of a morning. If it is live, dropped changes have a feed of their own, and what is known is taken from the store."""

    def __init__(self, folder: str, timetable: dict[str, str], is_live: bool) -> None:
        names = 'net', 'feed', 'text', 'in.pb', 'out.pb'
        self.net, self.feed, self.text, self.heard, self.out = (os.path.join(folder, name) for name in names)
        self.folder, self.is_live = folder, is_live
        self.room = os.path.join(folder, 'room') if is_live else self.feed
        self.feeds = [self.feed, self.room] if is_live else [self.feed]
        self.known = ['--text', os.path.join(folder, STORE)] if is_live else []
        source = os.path.join(folder, 'gtfs')
        write_all(source, timetable)
        call(from_gtfs.main, source, DATE, self.net)
        self.numbers = {(change.trip, change.next_trip): change.change for change in read_changes(self.net)}
        for name in self.feeds:
            open(name, 'ab').close()

    def drop(self, given_up: list[Connection]) -> None:
        append(self.room, [f'drop {self.numbers[one.bound.before.train, one.bound.after.train]}' for one in given_up])


def minute(files: Files, answer: Answer, world: World, come: Played) -> None:
    """Plays a minute: what the world reports goes in, is answered, and goes out; then it is compared."""
    given_up = world.decide()
    files.drop(given_up)
    if files.is_live:
        answer(files.net, files.feeds, files.text)
    write_all(files.folder, {'in.pb': encode(message_of(world))})
    began = time.process_time()
    said = call(gtfs_rt_in.main, files.net, files.feed, files.heard, '--replay', *files.known)
    answered = answer(files.net, files.feeds, files.text)
    call(gtfs_rt_out.main, files.net, *answered, files.out)
    come.slowest = max(come.slowest, time.process_time() - began)
    told = [*([said.strip()] if said else []), *differences(world, seen(files.out))]
    for line in told[:SHOWN]:
        print(f'{clock(world.now)}: {line}')
    come.minutes += 1
    come.calls += len(world.scheduled)
    come.differ += len(told)
    come.dropped += len(given_up)


def played(answer: Answer, world: World, timetable: dict[str, str], folder: str, until: int, every: int = 60,
           is_live: bool = False) -> Played:
    """Plays a morning minute by minute, or in longer steps, each by the tools and an answer to the feeds."""
    files, come = Files(folder, timetable, is_live), Played()
    for now in range(BEGIN - 600, until + 1, every):
        world.go_to(now)
        minute(files, answer, world, come)
    come.lines = [line for name in files.feeds for line in read(name).decode('ascii').splitlines()]
    return come


def by_program(name: str) -> Answer:
    """A run of all lines so far."""
    def answer(net: str, feeds: list[str], text: str) -> list[str]:
        with open(text, 'wb') as file:
            subprocess.run([name, 'run', net, *feeds], stdout=file, stderr=subprocess.DEVNULL, check=True)
        subprocess.run([name, 'check', net, text], stdout=subprocess.DEVNULL, check=True)
        return [text]
    return answer


class Living:
    """A server that runs all morning over two feeds, and is killed and started again after so many minutes."""

    def __init__(self, name: str, minutes: int = 30) -> None:
        self.name, self.minutes = name, minutes
        self.count = self.starts = 0
        self.server: Optional[Server] = None

    def answer(self, net: str, feeds: list[str], text: str) -> list[str]:
        if self.server is None:
            self.server = Server(self.name, net, os.path.join(os.path.dirname(text), STORE), feeds)
        if self.count % self.minutes == 0:
            self.server.kill()
            self.server.start()
            self.starts += 1
        self.count += 1
        self.server.wait_for([len(read(feed).splitlines()) for feed in feeds])
        return ['--dispatcher', self.name, self.server.store]

    def end(self) -> None:
        """Ends the day, whose text is to be good."""
        if self.server is not None:
            self.server.stop()
            subprocess.run([self.name, 'check', self.server.net, self.server.text], stdout=subprocess.DEVNULL, check=True)


def report(world: World, come: Played) -> Iterator[str]:
    kinds = [line.rsplit(' ', 2)[0] if line.startswith('delay') else line.split()[0] for line in come.lines]
    late = sum(at > world.scheduled[event] for event, at in world.known().items())
    yield f'{len(world.trains)} trains, {len(world.scheduled)} events, {len(world.connections)} connections, {len(world.delays)} delays'
    yield f'{late} events were late, {come.dropped} connections were dropped'
    yield (f'lines of the feed: {kinds.count("delay event")} delays, {kinds.count("pass")} passes, {kinds.count("now")} clocks, '
           f'{kinds.count("drop")} drops')
    yield f'{come.minutes} minutes, {come.calls} times compared, {come.differ} differ'
    yield f'the tools took {come.slowest:.2f} s of processor in the slowest minute'


def main(argv: Sequence[str] | None = None) -> int:
    words = command_line(__doc__)
    words.add_argument('dispatcher', metavar='DISPATCHER', help='the built program')
    words.add_argument('folder', nargs='?', metavar='FOLDER', help='folder in which the files stay')
    words.add_argument('--live', action='store_true', help='use a server that runs all morning')
    words.add_argument('--number', type=whole_between(0, 999_999_999), default=1, metavar='S', help='number of the delays (1)')
    words.add_argument('--until', type=time_of_day, default=10 * 3600, metavar='TIME', help='last minute (10:00)')
    given = words.parse_args(argv)
    world, timetable = world_of(given.number)
    name = os.path.abspath(given.dispatcher)
    living = Living(name)
    with tempfile.TemporaryDirectory() as other:
        try:
            answer = living.answer if given.live else by_program(name)
            come = played(answer, world, timetable, given.folder or other, given.until, is_live=given.live)
            living.end()
        finally:
            if living.server is not None:
                living.server.kill()
    for line in report(world, come):
        print(line)
    if given.live:
        print(f'the server was started {living.starts} times')
    return 1 if come.differ else 0
