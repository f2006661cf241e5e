"""Messages of GTFS-Realtime as lines of a feed."""
from __future__ import annotations

import hashlib
import time
from dataclasses import dataclass, field
from typing import Iterable, Iterator, Optional

from dispatch_tools.formats.files import BadFile
from dispatch_tools.formats.names import EventName
from dispatch_tools.formats.protobuf import BadMessage, decode, LONGEST_FILE, Message, Recent
from dispatch_tools.formats.realtime import ADDED, Named, NO_DATA, SKIPPED, STOPPED_AT, TRIPS_GONE
from dispatch_tools.live.feed_file import append
from dispatch_tools.live.fetching import fetch, SCHEMES
from dispatch_tools.live.known import own_after
from dispatch_tools.live.trips import CallOf, Said, Trips, write_skipped
from dispatch_tools.model.network import Network
from dispatch_tools.model.messages import Cancel, DelayEvent, Drop, Message as Entered, Pass, Restore
from dispatch_tools.model.railway import (
    active_activities, apply, LARGEST_DELAY, LARGEST_PASSED, push, refusal_at_once, Rows, waits_and_spans,
)


# How many seconds a source has for all of its answer.
TIMEOUT = 30

# How many seconds a message may be ahead of this computer's clock, and of the last event of the network.
AHEAD = 120
AFTER_THE_DAY = 6 * 3600


def seconds_before(time: str) -> int:
    """How many seconds before midnight a time lies; a sign stands before such a one."""
    if not time.startswith('-'):
        return 0
    hours, minutes, seconds = (int(part) if part.isdecimal() else 0 for part in (*time[1:].split(':'), '', '')[:3])
    return 3600 * hours + 60 * minutes + seconds


@dataclass
class Told:
    """What a message says of events, by place: when they happen, which have happened, at the latest at a time, and which are cancelled, or
    run; of which trains it says anything; the calls through which trains run, and the changes there, by place."""
    times: dict[int, int] = field(default_factory=dict)
    past: dict[int, int] = field(default_factory=dict)
    gone: dict[int, bool] = field(default_factory=dict)
    trains: set[int] = field(default_factory=set)
    through: set[CallOf] = field(default_factory=set)
    skipped: set[int] = field(default_factory=set)


@dataclass
class Listener:
    """A network with what was reported of it, and until when; the events, by place, that the feed itself has cancelled; those that are
    cancelled at the start, which reserve trains have; and the calls through which trains run."""
    network: Network
    named: Named
    rows: Rows
    said: Said
    is_replay: bool = False
    own: set[int] = field(default_factory=set)
    reserve: set[int] = field(default_factory=set)
    through: set[CallOf] = field(default_factory=set)
    latest: dict[str, int] = field(default_factory=dict)
    seen: set[bytes] = field(default_factory=set)

    def __post_init__(self) -> None:
        self.trips = Trips(self.network, self.named, self.said, self.reserve)
        self.last = min(max((event.time for event in self.network.events), default=0) + AFTER_THE_DAY, LARGEST_PASSED)
        places = self.network.event_place
        self.event_names = {places[one.event]: one for events in self.named.events.values() for one in events if one.event in places}
        self.recent = Recent('StopTimeUpdate')

    def is_new(self, kind: str, stamp: int, what: str) -> bool:
        """Whether nothing newer of this kind was reported."""
        if stamp < self.latest.get(kind, self.rows.clock + self.named.begin if self.rows.clock else 0):
            self.said.tell('messages out of order', f'{what} of {stamp}')
            return False
        self.latest[kind] = stamp
        return True

    def is_timely(self, stamp: int, source: str) -> bool:
        """Whether a message may be of this time. One that is ahead of all clocks would make all later ones late."""
        now = stamp - self.named.begin
        if not 0 <= now <= self.last:
            self.said.tell('messages of another day, or without a time', f'{source} of {stamp}')
            return False
        if not self.is_replay and stamp > time.time() + AHEAD:
            self.said.tell("messages ahead of this computer's clock (for those of another day there is --replay)", f'{source} of {stamp}')
            return False
        return True

    def stamp_of(self, report: Message, now: int, what: str) -> Optional[int]:
        """The second of the world of a report in a message; None if it can be of no such time."""
        header = now + self.named.begin
        stamp = int(report.get('timestamp') or header)
        if stamp > header or stamp < self.named.begin:
            self.said.tell('reports later than their message' if stamp > header else 'reports before the service day', f'{what} of {stamp}')
            return None
        return stamp

    def is_news(self, place: int, at: int) -> bool:
        """Whether nothing is known of when an event passed. What is told otherwise than it passed is said, and changes nothing."""
        before = self.rows.passed[place]
        if before is not None and at != before:
            name = self.event_names[place]
            self.said.tell('events that passed at another time than is told now, which recall could take back',
                           f'{name.trip}, call {name.sequence}, {name.kind} (event {name.event}) passed at {before}, and not {at}')
        return before is None

    # -- Messages

    def take_update(self, update: Message, told: Told, now: int) -> None:
        relation = update.get('trip', {}).get('schedule_relationship', 0)
        train = self.trips.reserve_for(update, told.trains) if relation == ADDED else self.trips.train_of(update.get('trip', {}))
        if train is None:
            return
        trip = self.named.trains[train].trip
        stamp = self.stamp_of(update, now, f'an update of {trip}')
        if stamp is None or not self.is_new(f'update of {trip}', stamp, f'an update of {trip}'):
            return
        told.trains.add(train)
        told.gone.update(dict.fromkeys(self.trips.places_of(train), relation in TRIPS_GONE))
        if relation in TRIPS_GONE:
            return
        if 'delay' in update and not update.get('stop_time_update'):
            self.take_delay(train, update['delay'], told, now)
        skipped = self.take_calls(train, update, told)
        if skipped:
            self.take_skipped(train, skipped, told, now)

    def take_calls(self, train: int, update: Message, told: Told) -> set[int]:
        """Takes in the times of the calls of a train; the calls that it skips."""
        trip, is_added = self.named.trains[train].trip, update['trip'].get('schedule_relationship') == ADDED
        skipped = set()
        last, behind = None, 0
        for call in update.get('stop_time_update', ()):
            events = self.trips.events_at(train, None if is_added else call.get('stop_sequence'), call.get('stop_id'), behind)
            where = f'{trip}, call {call.get("stop_sequence", call.get("stop_id", ""))}'
            if not events:
                self.said.tell('calls that the network has not', where)
                continue
            behind = events[0].sequence
            how = call.get('schedule_relationship', 0)
            if how == SKIPPED:
                skipped.add(events[0].sequence)
            if how in (SKIPPED, NO_DATA):
                continue
            for name in events:
                last = self.take_time(name, call.get(name.kind), last, told, where)
        return skipped

    def take_skipped(self, train: int, skipped: set[int], told: Told, now: int) -> None:
        """A train that skips its first or last calls begins late or ends early. It runs through what else it skips, and has done so where
        a later call is past; nobody changes there."""
        trip = self.named.trains[train].trip
        gone, through = self.trips.cut_off(train, skipped), self.trips.through(train, skipped)
        told.gone.update(dict.fromkeys(gone, True))
        for place in gone:
            told.times.pop(place, None)
        if gone:
            self.said.tell('trains that skip their first or last calls, which are cancelled', trip)
        for _, sequence in sorted(through):
            self.said.tell('calls that are skipped, whose changes are dropped', f'{trip}, call {sequence}')
        told.through |= through
        told.skipped.update(self.trips.changes_at(name for name in self.named.events[train] if (train, name.sequence) in through))
        behind = None
        for name in reversed(self.named.events[train]):
            place = self.trips.place_of(name)
            at = self.rows.passed[place] if self.rows.passed[place] is not None else told.times.get(place)
            if at is not None and at <= now:
                behind = at
            elif behind is not None and (train, name.sequence) in through:
                told.past[place] = behind

    def take_time(self, name: EventName, said: Optional[Message], last: Optional[int], told: Told, where: str) -> Optional[int]:
        """Takes in the time of an event; gives the last time that is known of the train."""
        place = self.network.event_place[name.event]
        if said is None or not said.keys() & {'time', 'delay'}:
            return last
        early = seconds_before(name.time)
        at: int = said['time'] - self.named.begin if said.get('time') else self.network.events[place].time - early + said.get('delay', 0)
        if early:
            # It lies before midnight, and stands at midnight in the network.
            at = max(0, at)
        if last is not None and at < last:
            self.said.tell('times that fall', f'{where}, {name.kind}')
            return last
        if not 0 <= at <= self.last:
            self.said.tell('times outside of the service day', f'{where}, {name.kind}')
            return last
        if self.is_news(place, at):
            told.times[place] = at
        return at

    def take_delay(self, train: int, delay: int, told: Told, now: int) -> None:
        """Takes in the delay that a train has now: what it would have done by then has happened, and its next event has this delay."""
        for name in self.named.events[train]:
            place = self.network.event_place[name.event]
            if self.rows.passed[place] is not None or self.rows.cancelled[place] and place not in self.own | self.reserve:
                continue
            if self.network.events[place].time - seconds_before(name.time) + delay > now:
                self.take_time(name, {'delay': delay}, None, told, f'{name.trip}, call {name.sequence}')
                return
            told.past[place] = now

    def take_vehicle(self, vehicle: Message, told: Told, now: int) -> None:
        if 'trip' not in vehicle:
            self.said.tell('vehicles without a trip', str(vehicle.get('vehicle', '')))
            return
        train = self.trips.train_of(vehicle['trip'])
        if train is None or vehicle['trip'].get('schedule_relationship', 0) in TRIPS_GONE:
            return
        trip = self.named.trains[train].trip
        stamp = self.stamp_of(vehicle, now, f'the vehicle of {trip}')
        if stamp is None or not self.is_new(f'vehicle of {trip}', stamp, f'the vehicle of {trip}'):
            return
        at = self.trips.events_at(train, vehicle.get('current_stop_sequence'), vehicle.get('stop_id'), 0)
        if not at:
            self.said.tell('calls that the network has not', f'{trip}, its vehicle')
            return
        for name in self.named.events[train]:
            has_arrived = vehicle.get('current_status', 2) == STOPPED_AT and name.sequence == at[0].sequence and name.kind == 'arrival'
            place = self.network.event_place[name.event]
            passed = self.rows.passed[place]
            if name.sequence < at[0].sequence or has_arrived:
                told.past[place] = stamp - self.named.begin
            elif passed is not None and passed <= stamp - self.named.begin:
                self.said.tell('vehicles before events that have passed, which recall could take back',
                               f'{trip}, call {at[0].sequence}, is before call {name.sequence}, {name.kind} (event {name.event})')

    def take(self, data: bytes, source: str) -> list[str]:
        """The lines of a feed for what a message says beyond what is known."""
        digest = hashlib.sha256(data).digest()
        if digest in self.seen:
            self.said.tell('messages that come twice', source)
            return []
        self.recent.begin()
        message = decode(data, recent=self.recent)
        stamp = int(message.get('header', {}).get('timestamp', 0))
        if not self.is_timely(stamp, source):
            return []
        self.seen.add(digest)
        now = stamp - self.named.begin
        told = Told()
        entities = [one for one in message.get('entity', ()) if not one.get('is_deleted')]
        for kind, take in ('trip_update', self.take_update), ('vehicle', self.take_vehicle):
            parts = [one[kind] for one in entities if kind in one]
            if parts and self.is_new(kind, stamp, source):
                for part in parts:
                    take(part, told, now)
                if kind == 'trip_update' and not message['header'].get('incrementality'):
                    self.take_absent(told)
        return self.lines_of(told, now)

    def take_absent(self, told: Told) -> None:
        """A whole message that says nothing any more of a train that it had cancelled lets it run; a reserve train runs only for a trip."""
        named = {place for train in told.trains for place in self.trips.places_of(train)}
        told.gone.update(dict.fromkeys(self.own - named - self.reserve, False))
        self.through = {call for call in self.through if call[0] in told.trains}

    # -- What is new

    def lines_of(self, told: Told, now: int) -> list[str]:
        """Source delays for what is reported late, or less late than it would be; then what is past; then the clock."""
        lines = [*self.enter(self.runs_and_does_not(told)), *self.enter(self.dropped(told))]
        self.through = {call for call in self.through if call[0] not in told.trains} | told.through
        clock_then = max(now, self.rows.clock)
        past = {place: at for place, at in told.times.items() if at <= now}
        for place in told.past:
            past.setdefault(place, -1)
        ahead = {place: at for place, at in told.times.items() if place not in past}
        for place, at in self.swept(past, ahead, clock_then, told):
            event = self.network.events[place]
            lines += self.enter([DelayEvent(event.id, at) if place in ahead else Pass(event.id, at)])
        if clock_then > self.rows.clock:
            self.rows.clock = clock_then
            lines.append(f'now {clock_then}')
        return lines

    def enter(self, messages: Iterable[Entered]) -> list[str]:
        """The lines of messages that the program would not refuse; they hold from now on."""
        lines = []
        for message in messages:
            if refusal_at_once(self.network, self.rows, message) is not None:
                self.said.tell('lines that the program would refuse', str(message))
                continue
            apply(self.network, self.rows, message)
            self.own = own_after(self.network, self.own, message)
            lines.append(str(message))
        return lines

    def runs_and_does_not(self, told: Told) -> list[Entered]:
        """What is cancelled and was not; and of what this feed has cancelled, or of reserve trains, what runs now."""
        found: list[Entered] = []
        for place, is_gone in sorted(told.gone.items()):
            event, was_gone = self.network.events[place].id, self.rows.cancelled[place]
            if is_gone and not was_gone and self.rows.passed[place] is None:
                found.append(Cancel(event))
            if was_gone and not is_gone and (place in self.own or place in self.reserve):
                found.append(Restore(event))
        return found

    def dropped(self, told: Told) -> list[Entered]:
        """The changes at calls that are skipped, which nobody can make."""
        rows, network = self.rows, self.network
        return [Drop(network.activities[place].id) for place in sorted(told.skipped) if rows.kept[place] and rows.passed[network.heads[place]] is None
                and not (rows.cancelled[network.tails[place]] or rows.cancelled[network.heads[place]])]

    def swept(self, past: dict[int, int], ahead: dict[int, int], now: int, told: Told) -> Iterator[tuple[int, int]]:
        """By place: the times of events that are past, and the source delays that are other than before; in an order in which nothing
        stands before what it rests on. What is past without a reported time was as soon as all that stands before it allows."""
        network, rows = self.network, self.rows
        after = rows.copy()
        for place, at in past.items():
            if at >= 0 and after.passed[place] is None:
                after.passed[place] = 0
        held = active_activities(network, after)
        waits_for, spans = waits_and_spans(network, rows, held)
        base = [event.time for event in network.events]
        ready = [place for place, count in enumerate(waits_for) if not count]
        for place in ready:
            told_before = rows.passed[place]
            if told_before is not None:
                base[place] = told_before
            elif place in past:
                shown = max(base[place], network.events[place].time + rows.event_delays[place])
                base[place] = past[place] if past[place] >= 0 else min(shown, told.past[place])
                yield place, base[place]
            else:
                scheduled, delay = network.events[place].time, rows.event_delays[place]
                base[place] = max(base[place], now)
                if place in ahead and max(base[place], scheduled + delay) != ahead[place]:
                    fresh = ahead[place] - scheduled if ahead[place] > base[place] else 0
                    if fresh != delay and (fresh or scheduled + delay > base[place]):
                        delay = min(fresh, LARGEST_DELAY)
                        yield place, delay
                    if ahead[place] < base[place]:
                        self.said.counts['calls told earlier than they can be by what stands before them'] += 1
                base[place] = max(base[place], scheduled + delay)
            push(network, place, held, spans, base, waits_for, ready)


# ---- Files and sources


def read_source(source: str, may_leave: bool = False) -> bytes:
    """The bytes of a file or of what a URL gives."""
    if source.partition('://')[0].lower() in SCHEMES:
        return fetch(source, TIMEOUT, LONGEST_FILE, may_leave)
    try:
        with open(source, 'rb') as file:
            data = file.read(LONGEST_FILE + 1)
    except OSError as error:
        raise BadFile(source, None, error.strerror or 'cannot be read') from error
    if len(data) > LONGEST_FILE:
        raise BadFile(source, None, f'this is longer than {LONGEST_FILE} bytes')
    return data


@dataclass
class Writer:
    """The feed, and the lines that it could not take yet; the file of calls through which trains run, if any, and those that it has."""
    feed: str
    through: Optional[str] = None
    unwritten: list[str] = field(default_factory=list)
    written: Optional[set[CallOf]] = None

    def write(self, lines: list[str], said: Said) -> bool:
        """Appends lines, behind those of before; whether it could."""
        self.unwritten += lines
        try:
            if self.unwritten:
                append(self.feed, self.unwritten)
        except BadFile as error:
            if said.faults.get(self.feed) != str(error):
                said.say(f'feeds that cannot be written: {error}')
            said.faults[self.feed] = str(error)
            return False
        said.faults.pop(self.feed, None)
        self.unwritten = []
        return True

    def write_through(self, calls: set[CallOf], said: Said) -> bool:
        """Writes the file of skipped calls where they are others than it has; whether it could."""
        if self.through is None or calls == self.written:
            return True
        try:
            write_skipped(self.through, calls)
        except BadFile as error:
            if said.faults.get(self.through) != str(error):
                said.say(f'files of skipped calls that cannot be written: {error}')
            said.faults[self.through] = str(error)
            return False
        said.faults.pop(self.through, None)
        self.written = set(calls)
        return True


def listen(listener: Listener, writer: Writer, source: str, may_leave: bool = False) -> bool:
    """Takes what a source gives now; whether it could be read, and the feed be written."""
    try:
        lines = listener.take(read_source(source, may_leave), source)
    except (BadFile, BadMessage) as error:
        listener.said.fault(source, str(error) if isinstance(error, BadFile) else f'{source}: this is no message ({error})')
        return False
    listener.said.well(source)
    is_written = writer.write(lines, listener.said)
    return writer.write_through(listener.through, listener.said) and is_written
