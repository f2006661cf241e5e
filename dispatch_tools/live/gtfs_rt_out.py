"""The disposition timetable as GTFS-Realtime."""
from __future__ import annotations

import argparse
import os
import sys
import threading
import time
from typing import Iterable, Iterator, NamedTuple, Optional

from dispatch_tools.days.find import all_changes, Found
from dispatch_tools.days.to_gtfs import never_falling
from dispatch_tools.formats.files import BadFile, in_one_line, write_all
from dispatch_tools.formats.giv import read_cancelled, read_delays, read_network
from dispatch_tools.formats.gtfs_rows import seconds_of
from dispatch_tools.formats.journal import journal_of, text_of
from dispatch_tools.formats.names import EventName
from dispatch_tools.formats.protobuf import encode, Message
from dispatch_tools.formats.realtime import CANCELED, descriptor, Named, NO_DATA, read_named, SCHEDULED, SKIPPED
from dispatch_tools.formats.lines import Bad
from dispatch_tools.formats.runtext import read_run, Run
from dispatch_tools.live.http_server import BoundedHandler, BoundedServer
from dispatch_tools.live.trips import CallOf, read_skipped
from dispatch_tools.model.railway import decisions_of
from dispatch_tools.model.messages import cancelled_after, DelayActivity, DelayEvent, Drop, Keep, Message as Entered, Now, Pass, Recall
from dispatch_tools.words import start_options

VERSION, FULL_DATASET = '2.0', 0
UNKNOWN_CAUSE, OTHER_EFFECT = 1, 7

# How many seconds a source is left alone that is handed out.
USUAL = 10

# When a file was written last, its length, and when the file of skipped calls was.
State = tuple[int, int, int]


def read_text(name: str, events: int) -> Run:
    """The run of a text; BadFile if it is no whole one."""
    try:
        with open(name, 'rb') as file:
            return run_in(name, file.read(), events)
    except OSError as error:
        raise BadFile(name, None, error.strerror or 'cannot be read') from error


def run_in(name: str, data: bytes, events: int) -> Run:
    """The run that bytes of this name have."""
    try:
        return read_run(data, events)
    except Bad as error:
        line, kind = error.args
        raise BadFile(name, line, f'this is no text of a run over the network ({kind})') from error


def messages_of(run: Run) -> Iterator[Entered]:
    """The messages of a journal."""
    return (entry.message for entry in run.journal)


def events_told(net: str, run: Run) -> set[int]:
    """The events of which a delay or a pass was reported; of an activity its head. Only for that the network is read."""
    told = {message.event for message in messages_of(run) if isinstance(message, (DelayEvent, Pass))}
    delayed = {message.activity for message in messages_of(run) if isinstance(message, DelayActivity)}
    if delayed:
        told.update(activity.head for activity in read_network(net).activities if activity.id in delayed)
    return told


def dropped(run: Run) -> set[int]:
    """The changes that are dropped after all entries."""
    found: set[int] = set()
    for message in messages_of(run):
        for decision in decisions_of(message):
            if isinstance(decision, Drop):
                found.add(decision.activity)
            elif isinstance(decision, Keep):
                found.discard(decision.activity)
    return found


def passed(run: Run) -> set[int]:
    """The events that have passed after all entries."""
    found: set[int] = set()
    for message in messages_of(run):
        if isinstance(message, Pass):
            found.add(message.event)
        elif isinstance(message, Recall):
            found.discard(message.event)
    return found


class Call(NamedTuple):
    """A call of a train: its place in the trip, its stop, and which of the train's events it has, by their kinds."""
    sequence: int
    stop: str
    events: list[tuple[str, int]]


class Held(NamedTuple):
    """The events of a change, and the seconds that passengers need."""
    arrival: int
    departure: int
    needs: int

    def is_met(self, times: dict[int, int]) -> bool:
        """Whether passengers catch the train all the same, where it does not wait."""
        return times[self.departure] >= times[self.arrival] + self.needs


class Train(NamedTuple):
    """What does not change of a train: its events, their scheduled times, its calls, and its descriptor."""
    events: list[int]
    scheduled: list[int]
    calls: list[Call]
    trip: Message


class Body(NamedTuple):
    """What a message says of a train, but for its own time: for which times, which of its events are cancelled, whether the times are
    known, through which of its calls it runs, and in bytes."""
    times: list[int]
    gone: list[bool]
    is_known: bool
    through: list[int]
    data: bytes


def calls_of(names: list[EventName]) -> list[Call]:
    """The calls of a train, in their order."""
    calls: dict[int, Call] = {}
    for place, name in enumerate(names):
        calls.setdefault(name.sequence, Call(name.sequence, name.stop, [])).events.append((name.kind, place))
    return [calls[sequence] for sequence in sorted(calls)]


def trains_of(net: str, named: Named) -> dict[int, Train]:
    """The trains of a network, by number; BadFile if an event has no time."""
    trains = {}
    for number, train in named.trains.items():
        names = named.events[number]
        scheduled = [at for name in names if (at := seconds_of(name.time)) is not None]
        if len(scheduled) < len(names):
            raise BadFile(os.path.join(net, 'Events.csv'), None, f'an event of {train.trip} has no time')
        trains[number] = Train([name.event for name in names], scheduled, calls_of(names), descriptor(train, named.day))
    return trains


def held_changes(net: str, run: Run, named: Iterable[int], delays: Optional[str]) -> dict[int, Held]:
    """The changes with these numbers, by number, with what they take after all entries. Only for them the network is read."""
    network = read_network(net)
    late = dict(read_delays(net, delays))
    late.update((message.activity, message.seconds) for message in messages_of(run) if isinstance(message, DelayActivity))
    return {
        change: Held(activity.tail, activity.head, activity.lower + late.get(change, 0))
        for change in named for activity in [network.activities[network.activity_place[change]]]
    }


def times_of_the_rest(times: list[int], gone: list[bool]) -> list[int]:
    """The times of a train that never fall over the events that are not cancelled."""
    rest = iter(never_falling([time for time, is_gone in zip(times, gone) if not is_gone]))
    return [time if is_gone else next(rest) for time, is_gone in zip(times, gone)]


def call_message(call: Call, train: Train, times: list[int], gone: list[bool], begin: int, is_known: bool) -> Message:
    """The StopTimeUpdate of a call; without delays where a frequency made the train, for it may have no times to be late against. A call
    whose events are cancelled is skipped."""
    if all(gone[place] for _, place in call.events):
        return {'stop_sequence': call.sequence, 'stop_id': call.stop, 'schedule_relationship': SKIPPED}
    message: Message = {
        'stop_sequence': call.sequence, 'stop_id': call.stop, 'schedule_relationship': SCHEDULED if is_known else NO_DATA,
    }
    for kind, place in call.events if is_known else ():
        if gone[place]:
            continue
        delay = {} if 'start_time' in train.trip else {'delay': times[place] - train.scheduled[place]}
        message[kind] = {**delay, 'time': begin + times[place]}
    return message


def in_english(text: str) -> Message:
    return {'translation': [{'text': text, 'language': 'en'}]}


def why_not(found: Found, through: set[CallOf], is_met: bool) -> tuple[str, str]:
    """The header and the text of the alert for a change that is dropped."""
    name, next_name, station = found.train.name, found.next_train.name, found.station
    for train, event in (found.train, found.arrival), (found.next_train, found.departure):
        if (train.event, event.sequence) in through:
            return f'{name}: no connection to {next_name} at {station}', f'{train.name} does not stop at {station}.'
    if is_met:
        return f'{name}: connection to {next_name} at {station} as things stand', f'{next_name} does not wait, but leaves {station} late enough.'
    return f'{name}: no connection to {next_name} at {station}', f'{next_name} does not wait at {station} for {name}.'


def alert(found: Found, named: Named, leaves: int, said: tuple[str, str]) -> Message:
    """The alert for passengers of a change that is dropped, until the train has left."""
    trips = [
        {'trip': descriptor(train, named.day), 'stop_id': stop}
        for train, stop in ((found.train, found.change.stop), (found.next_train, found.change.next_stop))
    ]
    header, text = map(in_english, said)
    return {
        'active_period': [{'end': named.begin + leaves}], 'informed_entity': trips, 'cause': UNKNOWN_CAUSE, 'effect': OTHER_EFFECT,
        'header_text': header, 'description_text': text,
    }


class Writer:
    """Writes messages over a network, whose names are read once. What is new of a train is put into bytes anew."""

    def __init__(self, read: argparse.Namespace) -> None:
        self.read = read
        self.off_at_start = read_cancelled(read.net, read.cancelled)
        self.named = read_named(read.net, read.zone)
        self.trains = trains_of(read.net, self.named)
        self.events = {event for train in self.trains.values() for event in train.events}
        self.bodies: dict[int, Body] = {}
        self.through: set[CallOf] = set()
        self.fault = ''

    def run(self) -> Run:
        """The run of the source: a text, or what the program prints of a store."""
        source = self.read.source
        if not os.path.isdir(source):
            run = read_text(source, len(self.events))
        else:
            run = run_in(source, text_of(self.read.dispatcher, self.read.net, source, start_options(self.read)), len(self.events))
        if not self.events <= run.times.keys():
            missing = min(self.events - run.times.keys())
            raise BadFile(os.path.join(self.read.net, 'Events.csv'), None, f'event {missing} is not of the text')
        return run

    def cancelled(self, run: Run) -> set[int]:
        return cancelled_after(messages_of(run), self.off_at_start)

    def body(self, number: int, train: Train, told: set[int], off: set[int], run: Run) -> bytes:
        """What the message says of a train, if so much was reported of events, and these are cancelled."""
        shown = [run.times[event] for event in train.events]
        is_known = shown != train.scheduled or not told.isdisjoint(train.events)
        gone = [event in off for event in train.events]
        times = times_of_the_rest(shown, gone)
        through = [call.sequence for call in train.calls if (number, call.sequence) in self.through]
        before = self.bodies.get(number)
        if before is not None and before[:-1] == (times, gone, is_known, through):
            return before.data
        if all(gone):
            data = encode({'trip': {**train.trip, 'schedule_relationship': CANCELED}}, 'TripUpdate')
        else:
            none = [True] * len(gone)
            calls = [
                call_message(call, train, times, none if call.sequence in through else gone, self.named.begin, is_known) for call in train.calls
            ]
            data = encode({'trip': train.trip, 'stop_time_update': calls}, 'TripUpdate')
        self.bodies[number] = Body(times, gone, is_known, through, data)
        return data

    def updates(self, told: set[int], run: Run, now: int) -> Iterator[Message]:
        """A TripUpdate of each train."""
        stamp = encode({'timestamp': now}, 'TripUpdate')
        off = self.cancelled(run)
        for number, train in self.trains.items():
            yield {'id': f'trip-{number}', 'trip_update': self.body(number, train, told, off, run) + stamp}

    def alerts(self, run: Run) -> Iterator[Message]:
        """An Alert of each change that is dropped, whose trains run, and whose train has not left. It says where passengers reach it."""
        missed, gone = dropped(run), passed(run)
        if not missed:
            return
        held, off = held_changes(self.read.net, run, missed, self.read.activity_delays), self.cancelled(run)
        for found in all_changes(self.read.net):
            number, arrival, departure = found.change.change, found.arrival.event, found.departure.event
            if number in missed and departure not in gone and off.isdisjoint((arrival, departure)):
                said = why_not(found, self.through, held[number].is_met(run.times))
                yield {'id': f'change-{number}', 'alert': alert(found, self.named, run.times[departure], said)}

    def message(self) -> Message:
        run, now = self.run(), self.read.now
        self.through = read_skipped(self.read.skipped) if self.read.skipped else set()
        if now is None:
            clocks = [message.time for message in messages_of(run) if isinstance(message, Now)]
            now = self.named.begin + clocks[-1] if clocks else int(time.time())
        header = {'gtfs_realtime_version': VERSION, 'incrementality': FULL_DATASET, 'timestamp': now}
        entities = [*self.updates(events_told(self.read.net, run), run, now), *self.alerts(run)]
        return {'header': header, 'entity': entities}

    def write(self) -> None:
        data = encode(self.message())
        write_all(os.path.dirname(self.read.out) or '.', {os.path.basename(self.read.out): data})

    def state(self) -> Optional[State]:
        return state_of(self.read.source, self.read.skipped)

    def write_again(self, seen: Optional[State]) -> Optional[State]:
        """Writes the message anew where the source is another one than was seen; what is seen now, which is the old state where the
        message could not be written. A fault is said once."""
        now = self.state()
        if now == seen:
            return seen
        try:
            self.write()
        except (BadFile, KeyError, OSError) as error:
            fault = in_one_line(str(error), 1000)
            if fault != self.fault:
                print(f'gtfs_rt_out: {fault}', file=sys.stderr, flush=True)
            self.fault = fault
            return seen
        self.fault = ''
        return now


# ---- Again and again


class Handing(BoundedHandler):
    """Hands out one file, whatever is asked for."""
    out = ''

    def do_GET(self) -> None:
        try:
            with open(self.out, 'rb') as file:
                data = file.read()
        except OSError:
            self.send_error(404)
            return
        self.send(data, 'application/x-protobuf')


def serving(out: str, port: int) -> BoundedServer:
    """A server of a file on this computer, from now on."""
    server = BoundedServer(('127.0.0.1', port), type('HandingOut', (Handing,), {'out': out}))
    threading.Thread(target=server.serve_forever, daemon=True).start()
    print(f'gtfs_rt_out: http://127.0.0.1:{server.server_port}/ hands out {out}', file=sys.stderr, flush=True)
    return server


def state_of(source: str, skipped: Optional[str] = None) -> Optional[State]:
    """By what one state of a text, or of a store's journal, and of a file of skipped calls differs from another."""
    try:
        found = os.stat(journal_of(source) if os.path.isdir(source) else source)
        more = os.stat(skipped).st_mtime_ns if skipped and os.path.exists(skipped) else 0
    except OSError:
        return None
    return found.st_mtime_ns, found.st_size, more
