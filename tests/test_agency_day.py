"""A day of an agency, in and out. Two lines meet; a trip runs past midnight; one transfer is guaranteed, one forbidden; a trip is cancelled,
one ends early, one runs through a stop, and one is added. What comes out is read by protoc, or else by a decoder that was made here of the
file for protoc, and compared with a second reading of the rules, which knows the tables of the timetable alone.
"""
from __future__ import annotations

import os
import random
import re
import shutil
import subprocess
import unittest
from dataclasses import dataclass, field, replace
from typing import Any, NamedTuple, Optional

from dispatch_tools.commands import from_gtfs, gtfs_rt_in, gtfs_rt_out
from dispatch_tools.dev.feeds import DATE, SMALL, write_feed
from dispatch_tools.formats.giv import read_network, start_rows
from dispatch_tools.formats.protobuf import encode, Message
from dispatch_tools.formats.runtext import due_items
from dispatch_tools.model.railway import admit, cost_of, sound_times
from tests.folders import read
from tests.samples import lines_of_run, TOP
from tests.test_gtfs import InNetwork
from tests.test_realtime import MIDNIGHT

SCHEMA = os.path.join(TOP, 'dispatch_tools', 'formats', 'gtfs-realtime.proto')


def at(time: str) -> int:
    hours, minutes, seconds = map(int, f'{time}:00'.split(':')[:3])
    return 3600 * hours + 60 * minutes + seconds


# The calls of each trip: stop, arrival, departure. All drives take 20 minutes, so 1,116 seconds without the reserve of 7%.
TRIPS = {
    'r1': ('R', [('A', '08:00', '08:00'), ('B', '08:20', '08:22'), ('C', '08:42', '08:43'), ('D', '09:03', '09:03')]),
    'r2': ('R', [('A', '08:40', '08:40'), ('B', '09:00', '09:02'), ('C', '09:22', '09:23'), ('D', '09:43', '09:43')]),
    'x1': ('R', [('A', '08:20', '08:20'), ('B', '08:40', '08:42'), ('C', '09:02', '09:03'), ('D', '09:23', '09:23')]),
    'g1': ('G', [('E', '08:05', '08:05'), ('B', '08:25', '08:27'), ('F', '08:47', '08:47')]),
    'g2': ('G', [('E', '08:30', '08:30'), ('B', '08:50', '08:52'), ('F', '09:12', '09:12')]),
    'rn': ('R', [('A', '23:40', '23:40'), ('B', '24:00', '24:02'), ('C', '24:22', '24:22')]),
    'gn': ('G', [('E', '23:50', '23:50'), ('B', '24:10', '24:12'), ('F', '24:32', '24:32')]),
}

# Where passengers change, by the rules of GTFS.md: trip, trip, and the seconds. That from r1 is guaranteed, without a time; from g2 to r2 it
# is forbidden; from g1 the next train of R leaves 2,220 seconds later, from r2 none of G does; nobody changes to a reserve train.
CHANGES = {('r1', 'g1'): 0, ('rn', 'gn'): 180}

FEED = {
    **SMALL,
    'agency.txt': ['agency_name,agency_url,agency_timezone', 'X,https://example.org,Europe/Berlin'],
    'stops.txt': ['stop_id,stop_name,parent_station', *(f'{stop},Stop {stop},' for stop in 'ABCDEF')],
    'trips.txt': [SMALL['trips.txt'][0], *(f'{route},S,{trip},0,' for trip, (route, _) in TRIPS.items())],
    'stop_times.txt': [SMALL['stop_times.txt'][0], *(
        f'{trip},{arrival}:00,{departure}:00,{stop},{number}'
        for trip, (_, calls) in TRIPS.items() for number, (stop, arrival, departure) in enumerate(calls, 1)
    )],
    'transfers.txt': ['from_stop_id,to_stop_id,from_trip_id,to_trip_id,transfer_type', 'B,B,r1,g1,1', 'B,B,g2,r2,3'],
}


# ---- The second reading


@dataclass
class Facts:
    """What is so when a message has been heard: the delays of events, which events have passed and when, the first and the last call that a
    trip makes, the calls through which it runs, trips that do not run, changes that nobody waits for, and the clock."""
    clock: int
    late: dict[tuple[str, int, str], int] = field(default_factory=dict)
    passed: dict[tuple[str, int, str], int] = field(default_factory=dict)
    ends: dict[str, tuple[int, int]] = field(default_factory=dict)
    through: set[tuple[str, int]] = field(default_factory=set)
    gone: set[str] = field(default_factory=set)
    dropped: set[tuple[str, str]] = field(default_factory=set)


def runs(facts: Facts, event: tuple[str, int, str]) -> bool:
    trip, call, kind = event
    first, last = facts.ends.get(trip, (1, len(TRIPS[trip][1])))
    return trip not in facts.gone and first <= call <= last and (call, kind) not in ((first, 'arrival'), (last, 'departure'))


def times_by(facts: Facts) -> dict[tuple[str, int, str], int]:
    """When all takes place: not before the timetable and its delay, nor before the clock, nor before what it waits for."""
    least: dict[tuple[str, int, str], int] = {}
    planned: dict[tuple[str, int, str], int] = {}
    waits: dict[tuple[str, int, str], list[tuple[tuple[str, int, str], int]]] = {}
    for trip, (_, calls) in TRIPS.items():
        for call, (_, arrival, departure) in enumerate(calls, 1):
            for kind, clock in (('arrival', arrival), ('departure', departure)):
                if (call, kind) not in ((1, 'arrival'), (len(calls), 'departure')):
                    planned[trip, call, kind] = at(clock)
        for call in range(2, len(calls) + 1):
            waits[trip, call, 'arrival'] = [((trip, call - 1, 'departure'), 1116)]
            waits[trip, call, 'departure'] = [((trip, call, 'arrival'), 30)]
    for (trip, other), needs in CHANGES.items():
        if (trip, other) not in facts.dropped:
            waits[other, 2, 'departure'].append(((trip, 2, 'arrival'), needs))
    for _ in range(len(planned)):
        for event, time in planned.items():
            bound = max(time + facts.late.get(event, 0), facts.clock)
            for before, span in waits.get(event, ()):
                if runs(facts, event) and runs(facts, before):
                    bound = max(bound, least.get(before, planned[before]) + span)
            least[event] = facts.passed.get(event, bound)
    return least


class Shown(NamedTuple):
    """What a message says of a call: how, and the delay and the time of arrival and departure."""
    how: str
    arrival: Any = None
    departure: Any = None


def published(facts: Facts) -> dict[str, Any]:
    """What is to come out, by trip: CANCELED, or its calls."""
    times = times_by(facts)
    said: dict[str, Any] = {}
    for trip, (_, calls) in TRIPS.items():
        own = {event: times[event] for event in times if event[0] == trip}
        is_known = any(time != planned_at(event) for event, time in own.items()) or any(event[0] == trip for event in (*facts.late, *facts.passed))
        if not any(runs(facts, event) for event in own):
            said[trip] = 'CANCELED'
            continue
        said[trip] = []
        for call in range(1, len(calls) + 1):
            kinds = [kind for kind in ('arrival', 'departure') if (trip, call, kind) in own and runs(facts, (trip, call, kind))]
            if not kinds or (trip, call) in facts.through:
                said[trip].append(Shown('SKIPPED'))
            elif not is_known:
                said[trip].append(Shown('NO_DATA'))
            else:
                both = {kind: (own[trip, call, kind] - planned_at((trip, call, kind)), MIDNIGHT + own[trip, call, kind]) for kind in kinds}
                said[trip].append(Shown('SCHEDULED', both.get('arrival'), both.get('departure')))
    return said


def planned_at(event: tuple[str, int, str]) -> int:
    trip, call, kind = event
    return at(TRIPS[trip][1][call - 1][1 if kind == 'arrival' else 2])


# ---- Two decoders


# Of the file for protoc, by hand: the fields that come out, by message.
FIELDS: dict[str, dict[int, tuple[str, str]]] = {
    'FeedMessage': {1: ('header', 'FeedHeader'), 2: ('entity', 'FeedEntity')},
    'FeedHeader': {1: ('gtfs_realtime_version', 'text'), 2: ('incrementality', 'number'), 3: ('timestamp', 'number')},
    'FeedEntity': {1: ('id', 'text'), 3: ('trip_update', 'TripUpdate'), 5: ('alert', 'Alert')},
    'TripUpdate': {1: ('trip', 'TripDescriptor'), 2: ('stop_time_update', 'StopTimeUpdate'), 4: ('timestamp', 'number')},
    'TripDescriptor': {1: ('trip_id', 'text'), 3: ('start_date', 'text'), 4: ('schedule_relationship', 'number')},
    'StopTimeUpdate': {1: ('stop_sequence', 'number'), 2: ('arrival', 'StopTimeEvent'), 3: ('departure', 'StopTimeEvent'), 4: ('stop_id', 'text'),
                       5: ('schedule_relationship', 'number')},
    'StopTimeEvent': {1: ('delay', 'number'), 2: ('time', 'number')},
    'Alert': {1: ('active_period', 'TimeRange'), 5: ('informed_entity', 'EntitySelector'), 6: ('cause', 'number'), 7: ('effect', 'number'),
              10: ('header_text', 'TranslatedString'), 11: ('description_text', 'TranslatedString')},
    'TimeRange': {1: ('start', 'number'), 2: ('end', 'number')},
    'EntitySelector': {4: ('trip', 'TripDescriptor'), 5: ('stop_id', 'text')},
    'TranslatedString': {1: ('translation', 'Translation')},
    'Translation': {1: ('text', 'text'), 2: ('language', 'text')},
}
NAMES: dict[tuple[str, str], dict[int, str]] = {
    ('FeedHeader', 'incrementality'): {0: 'FULL_DATASET'},
    ('TripDescriptor', 'schedule_relationship'): {0: 'SCHEDULED', 3: 'CANCELED'},
    ('StopTimeUpdate', 'schedule_relationship'): {0: 'SCHEDULED', 1: 'SKIPPED', 2: 'NO_DATA'},
    ('Alert', 'cause'): {1: 'UNKNOWN_CAUSE'},
    ('Alert', 'effect'): {7: 'OTHER_EFFECT'},
}

# The fields of a message by name, each with all of its values.
Fields = dict[str, list[Any]]


def number_at(data: bytes, place: int) -> tuple[int, int]:
    value = shift = 0
    while True:
        value |= (data[place] & 127) << shift
        place, shift = place + 1, shift + 7
        if data[place - 1] < 128:
            return value - (1 << 64) if value >> 63 else value, place


def by_hand(data: bytes, kind: str = 'FeedMessage') -> Fields:
    """The fields of a message, by the table above."""
    found: Fields = {}
    place = 0
    while place < len(data):
        key, place = number_at(data, place)
        name, what = FIELDS[kind][key >> 3]
        value, place = number_at(data, place)
        if key & 7 == 2:
            piece, place = data[place:place + value], place + value
            found.setdefault(name, []).append(piece.decode() if what == 'text' else by_hand(piece, what))
        else:
            found.setdefault(name, []).append(NAMES.get((kind, name), {}).get(value, value))
    return found


def by_protoc(data: bytes) -> Fields:
    """The fields of a message, as protoc prints them."""
    words = ['protoc', '--decode=transit_realtime.FeedMessage', f'--proto_path={os.path.dirname(SCHEMA)}', SCHEMA]
    lines = iter(subprocess.run(words, input=data, capture_output=True, check=True).stdout.decode().splitlines())
    def block() -> Fields:
        found: Fields = {}
        for line in lines:
            name, _, value = line.strip().partition(' ')
            if name == '}':
                break
            said: Any = block() if value == '{' else value.strip('"') if value.startswith('"') else int(value) if re.fullmatch('-?[0-9]+', value) else value
            found.setdefault(name.rstrip(':'), []).append(said)
        return found
    return block()


def shown(message: Fields) -> dict[str, Any]:
    """What comes out, by trip, as `published` has it."""
    said: dict[str, Any] = {}
    for entity in message['entity']:
        for update in entity.get('trip_update', ()):
            trip, = update['trip']
            assert trip['start_date'] == [DATE]
            name, = trip['trip_id']
            assert name not in said
            if trip['schedule_relationship'] == ['CANCELED']:
                assert 'stop_time_update' not in update
                said[name] = 'CANCELED'
                continue
            calls = update['stop_time_update']
            assert [(call['stop_sequence'], call['stop_id']) for call in calls] == [
                ([number], [stop]) for number, (stop, *_) in enumerate(TRIPS[name][1], 1)]
            said[name] = [Shown(call['schedule_relationship'][0], *(
                (call[kind][0]['delay'][0], call[kind][0]['time'][0]) if kind in call else None for kind in ('arrival', 'departure')
            )) for call in calls]
    return said


# ---- Drawn messages


@dataclass
class Drawn:
    """What a message says of a trip: that it is cancelled; or the first and the last call that it makes, those between that it skips, and the
    delay of its first departure."""
    how: int
    first: int = 1
    last: int = 0
    through: frozenset[int] = frozenset()
    delay: int = 0

    def entity(self, trip: str) -> Message:
        name, more = ('extra', {'route_id': 'R', 'start_time': '08:20:00'}) if trip == 'x1' else (trip, {})
        if self.how == CANCELED:
            return update(name, how=CANCELED, **more)
        calls = []
        for call, (place, *_) in enumerate(TRIPS[trip][1], 1):
            one = stop(call, 0 if self.first <= call <= self.last and call not in self.through else SKIPPED)
            if call == self.first:
                one['departure'] = {'time': MIDNIGHT + planned_at((trip, call, 'departure')) + self.delay}
            calls.append({**one, 'stop_id': place})
        return update(name, *calls, how=self.how, **more)


def drawn_update(draws: random.Random, trip: str) -> Drawn:
    calls = len(TRIPS[trip][1])
    if draws.random() < 0.25:
        return Drawn(CANCELED)
    first = draws.choice([1, 1, 1, 2])
    last = draws.choice([calls, calls, calls, calls - 1])
    if first >= last:
        first, last = 1, calls
    through = frozenset(call for call in range(first + 1, last) if draws.random() < 0.3)
    return Drawn(ADDED if trip == 'x1' else 0, first, last, through, draws.choice([0, 0, 300, 900, 1500]))


def take(facts: Facts, said: dict[str, Drawn]) -> None:
    """What holds behind a message. Who is not named runs, but for the reserve train, which stays as it is; and who starts the converter
    again has to name an added trip before it knows it."""
    facts.through = set()
    for trip in TRIPS:
        one = said.get(trip, Drawn(0, 1, len(TRIPS[trip][1])))
        if trip == 'x1' and (trip not in said or one.how == CANCELED):
            continue
        facts.gone.discard(trip)
        facts.ends.pop(trip, None)
        if one.how == CANCELED:
            facts.gone.add(trip)
        elif trip in said:
            facts.ends[trip] = (one.first, one.last)
            facts.through |= {(trip, call) for call in one.through}
    for before, behind in CHANGES:
        if {(before, 2), (behind, 2)} & facts.through and runs(facts, (before, 2, 'arrival')) and runs(facts, (behind, 2, 'departure')):
            facts.dropped.add((before, behind))
    told = {(trip, one.first, 'departure'): one.delay for trip, one in said.items() if one.how != CANCELED}
    for event in sorted(told, key=planned_at):
        was = facts.late.get(event, 0)
        base = times_by(replace(facts, late={**facts.late, event: 0}))[event]
        wanted = told[event] if planned_at(event) + told[event] > base else 0
        if max(base, planned_at(event) + was) != planned_at(event) + told[event] and wanted != was and (wanted or planned_at(event) + was > base):
            facts.late[event] = wanted


# ---- The day


def stop(number: int, how: int = 0, **delays: int) -> Message:
    return {'stop_sequence': number, 'schedule_relationship': how, **{kind: {'delay': delay} for kind, delay in delays.items()}}


def update(trip: str, *calls: Message, how: int = 0, **more: object) -> Message:
    return {'trip_update': {'trip': {'trip_id': trip, 'start_date': DATE, 'schedule_relationship': how, **more}, 'stop_time_update': list(calls)}}


SKIPPED, ADDED, CANCELED = 1, 1, 3


class Day(InNetwork):
    def setUp(self) -> None:
        super().setUp()
        given = write_feed(os.path.join(self.folder, 'given'), {'reserve.csv': ['trip_id', 'x1']})
        feed = write_feed(os.path.join(self.folder, 'feed-of-tables'), FEED)
        options = ['--no-headways', '--lock-guaranteed', f'--reserve-trains={given}/reserve.csv']
        status, said = self.call(from_gtfs, feed, DATE, self.net, *options)
        self.assertEqual(status, 0, said)
        self.feed, self.skipped = os.path.join(self.folder, 'lines'), os.path.join(self.folder, 'Skipped.csv')
        self.network = read_network(self.net)
        names = [line.split(';') for line in read(self.net, 'Events.csv').splitlines()[1:]]
        self.events = {(trip, int(call), kind): int(event) for event, _, trip, call, _, kind, _ in names}

    def tell(self, *lines: str) -> None:
        with open(self.feed, 'a', encoding='ascii') as file:
            file.writelines(f'{line}\n' for line in lines)

    def hear(self, now: str, *entities: Message) -> list[str]:
        """The lines that a message becomes, but for the clock."""
        before = read(self.feed).splitlines() if os.path.exists(self.feed) else []
        header = {'gtfs_realtime_version': '2.0', 'incrementality': 0, 'timestamp': MIDNIGHT + at(now)}
        name = os.path.join(self.folder, 'in.pb')
        with open(name, 'wb') as file:
            file.write(encode({'header': header, 'entity': [{'id': str(place), **one} for place, one in enumerate(entities)]}))
        options = ['--replay', '--cancelled=Cancelled.csv', f'--skipped={self.skipped}']
        status, self.said = self.call(gtfs_rt_in, self.net, self.feed, name, *options)
        self.assertEqual(status, 0, self.said)
        lines = read(self.feed).splitlines()[len(before):]
        self.assertEqual(lines.pop(), f'now {at(now)}')
        return lines

    def written(self) -> bytes:
        """What comes out of the run of all lines so far. Nothing of it is refused."""
        rows = start_rows(self.network, self.net, cancelled='Cancelled.csv')
        messages: list[Any] = []
        for _, message in due_items(read(self.feed)):
            refusal, after = admit(self.network, rows, len(messages), message)  # type: ignore[arg-type]
            self.assertIsNone(refusal, message)
            assert after is not None
            rows = after
            messages.append(message)
        times = sound_times(self.network, rows)
        text, out = os.path.join(self.folder, 'text'), os.path.join(self.folder, 'out.pb')
        with open(text, 'w', encoding='ascii') as file:
            file.writelines(f'{line}\n' for line in lines_of_run(self.network, messages, times, cost_of(self.network, rows, times, 0)))
        options = ['--cancelled=Cancelled.csv', f'--skipped={self.skipped}']
        self.assertEqual(self.call(gtfs_rt_out, self.net, text, out, *options), (0, ''))
        with open(out, 'rb') as data:
            return data.read()

    def comes_out(self, facts: Facts, *alerts: Optional[tuple[str, str]]) -> None:
        """What comes out is what the facts ask for; with these alerts, if any are given."""
        data = self.written()
        readings = [by_hand(data), *([by_protoc(data)] if shutil.which('protoc') else [])]
        for message in readings:
            self.assertEqual(message, readings[0])
            self.assertEqual(message['header'], [{
                'gtfs_realtime_version': ['2.0'], 'incrementality': ['FULL_DATASET'], 'timestamp': [MIDNIGHT + facts.clock]}])
            self.assertEqual(shown(message), published(facts))
            said = [one['alert'][0] for one in message['entity'] if 'alert' in one]
            if alerts == (None,):
                continue
            self.assertEqual([tuple(one[what][0]['translation'][0]['text'][0] for what in ('header_text', 'description_text')) for one in said], list(alerts))

    def named(self, *events: tuple[str, int, str]) -> list[int]:
        return [self.events[event] for event in events]

    def lines(self, word: str, trip: str, *calls: tuple[int, str]) -> list[str]:
        own = calls or tuple((call, kind) for name, call, kind in sorted(self.events, key=lambda event: self.events[event]) if name == trip)
        return [f'{word} {event}' for event in self.named(*((trip, call, kind) for call, kind in own))]

    def test_the_network_is_what_the_rules_say(self) -> None:
        self.assertEqual({event: self.network.events[self.network.event_place[number]].time for event, number in self.events.items()},
                         times_by(Facts(0)))
        changes = {one.id: (one.tail, one.head, one.lower) for one in self.network.activities if one.kind == 'change'}
        self.assertEqual(sorted(changes.values()), sorted(
            (*self.named((trip, 2, 'arrival'), (other, 2, 'departure')), needs) for (trip, other), needs in CHANGES.items()))
        guaranteed, = (number for number, change in changes.items() if change[2] == 0)
        self.assertEqual(read(self.net, 'Locked.txt'), f'lock {guaranteed}\n')
        self.assertEqual(read(self.net, 'Cancelled.csv').splitlines()[1:], [str(event) for (trip, *_), event in self.events.items() if trip == 'x1'])

    def test_a_day_goes_in_and_comes_out(self) -> None:
        r1, r2, g1 = update('r1', stop(1, departure=900)), update('r2', stop(1, departure=0)), update('g1', stop(1, departure=0))
        extra = update('extra', stop(1, departure=120), how=ADDED, route_id='R', start_time='08:25:00')
        extra['trip_update']['stop_time_update'][0] = {'stop_id': 'A', 'departure': {'time': MIDNIGHT + at('08:22')}}
        # r1 leaves A a quarter of an hour late, g2 is cancelled, and a trip is added.
        lines = self.hear('07:50', r1, r2, g1, update('g2', how=CANCELED), extra)
        late = {('r1', 1, 'departure'): 900, ('x1', 1, 'departure'): 120}
        self.assertEqual(sorted(lines), sorted([
            *self.lines('cancel', 'g2'), *self.lines('restore', 'x1'),
            *(f'delay event {self.events[event]} {delay}' for event, delay in late.items())]))
        facts = Facts(at('07:50'), late=late, gone={'g2'})
        self.assertEqual(times_by(facts)['g1', 2, 'departure'], at('08:33:36'))
        self.comes_out(facts)
        # r2 ends at C; r1 runs through B, where passengers change to g1.
        through = update('r1', stop(1, departure=900), stop(2, SKIPPED), stop(3, arrival=42, departure=12))
        short = update('r2', stop(1, departure=0), stop(4, SKIPPED))
        lines = self.hear('08:01', through, short, g1, update('g2', how=CANCELED), extra)
        change, other = (one.id for one in self.network.activities if one.kind == 'change')
        self.assertEqual(lines, [*self.lines('cancel', 'r2', (3, 'departure'), (4, 'arrival')), f'drop {change}'])
        self.assertIn('calls that are skipped, whose changes are dropped: r1, call 2', self.said)
        facts = Facts(at('08:01'), late=late, gone={'g2'}, ends={'r2': (1, 3)}, through={('r1', 2)}, dropped={('r1', 'g1')})
        gone = ('Red 08:00: no connection to Green 08:05 at Stop B', 'Red 08:00 does not stop at Stop B.')
        self.comes_out(facts, gone)
        # The agency speaks of g2 no more, so it runs; r2 runs to its end again, and begins at B.
        begins = update('r2', stop(1, SKIPPED), stop(2, departure=60))
        lines = self.hear('08:05', through, begins, g1, extra)
        passed = {('g1', 1, 'departure'): at('08:05')}
        self.assertEqual(sorted(lines), sorted([
            *self.lines('restore', 'g2'), *self.lines('restore', 'r2', (3, 'departure'), (4, 'arrival')),
            *self.lines('cancel', 'r2', (1, 'departure'), (2, 'arrival')), f'delay event {self.events["r2", 2, "departure"]} 60',
            f'pass {self.events["g1", 1, "departure"]} {at("08:05")}']))
        late['r2', 2, 'departure'] = 60
        facts = Facts(at('08:05'), late, passed, ends={'r2': (2, 4)}, through={('r1', 2)}, dropped={('r1', 'g1')})
        self.comes_out(facts, gone)
        # Before midnight nobody speaks of those trains any more. rn is to leave after midnight, and gn waits for its passengers.
        lines = self.hear('23:35', update('rn', stop(1, departure=1500)), update('gn', stop(1, departure=0)))
        self.assertEqual(lines, [*self.lines('restore', 'r2', (1, 'departure'), (2, 'arrival')), f'delay event {self.events["rn", 1, "departure"]} 1500'])
        late['rn', 1, 'departure'] = 1500
        facts = Facts(at('23:35'), late, passed, dropped={('r1', 'g1')})
        self.assertEqual([times_by(facts)[event] for event in (('rn', 2, 'arrival'), ('gn', 2, 'departure'))], [at('24:23:36'), at('24:26:36')])
        self.comes_out(facts, ('Red 08:00: no connection to Green 08:05 at Stop B', 'Green 08:05 does not wait at Stop B for Red 08:00.'))

    def test_drawn_messages(self) -> None:
        for number in range(6):
            draws, state = random.Random(number), Facts(at('06:00'), gone={'x1'})
            for name in (self.feed, self.skipped):
                if os.path.exists(name):
                    os.remove(name)
            for count in range(4):
                state.clock += 60
                said = {trip: drawn_update(draws, trip) for trip in TRIPS if draws.random() < 0.8}
                self.hear(f'06:{count + 1:02}', *(one.entity(trip) for trip, one in said.items()))
                take(state, said)
                with self.subTest(number=number, count=count):
                    self.comes_out(state, None)

    def test_a_guaranteed_connection_is_not_dropped_for_a_skipped_call_where_it_is_locked(self) -> None:
        self.tell(*read(self.net, 'Locked.txt').splitlines())
        change = min(one.id for one in self.network.activities if one.kind == 'change')
        self.assertEqual(self.hear('07:50', update('r1', stop(1, departure=0), stop(2, SKIPPED))), [])
        self.assertIn(f'lines that the program would refuse: drop {change}', self.said)


if __name__ == '__main__':
    unittest.main()
