"""The event-activity network of trips: the events of their trains, and the activities that a planner's rules make of them.

The timetable keeps all lower bounds that are made here, and no activities form a cycle that takes no time. So the program loads
the network, and without delays its times are those of the timetable.
"""
from __future__ import annotations

import graphlib
from bisect import bisect_left
from collections import Counter, defaultdict
from dataclasses import dataclass, replace
from itertools import islice
from typing import Callable, Iterable, Iterator, NamedTuple, Optional, Sequence

from dispatch_tools.days.trains import (
    give_moments, Headways, Limits, Moment, neighbours, Notes, Passengers, PROGRAM, Refused, Rules, Train, with_reserve,
)
from dispatch_tools.formats.gtfs import Transfer, Transfers
from dispatch_tools.model.network import Activity, Event

# So many pairs of trains may be looked at that rows of transfers.txt for two trips join, each of which frequencies may repeat.
MOST_PAIRED = 1_000_000


# What the origin of a guaranteed connection begins with.
GUARANTEED = 'guaranteed: '

# ---- Activities


class Link(NamedTuple):
    """An activity that has no number yet, with its ends, and for a change where it came from."""
    kind: str
    tail: Moment
    head: Moment
    lower: int
    weight: int = 0
    origin: str = ''

    @property
    def ends(self) -> tuple[int, int]:
        return self.tail.event.id, self.head.event.id

    @property
    def scheduled(self) -> int:
        return self.head.event.time - self.tail.event.time


def runs(trains: list[Train], rules: Rules) -> Iterator[Link]:
    """Drives less the reserve, and between them waits."""
    for train in trains:
        for place, (tail, head) in enumerate(zip(train.moments, train.moments[1:])):
            scheduled = head.event.time - tail.event.time
            if place % 2 == 0:
                yield Link('drive', tail, head, scheduled - int(scheduled * rules.reserve))
            else:
                yield Link('wait', tail, head, min(rules.dwell, scheduled))


def turnarounds(trains: list[Train], linked: list[Transfer], passengers: Passengers, rules: Rules, notes: Notes) -> Iterator[Link]:
    """From the last event of a train to the first of the next one with its vehicle."""
    yield from linked_trips(trains, linked, passengers, rules, notes)
    blocks: dict[str, list[Train]] = defaultdict(list)
    for train in trains:
        if train.trip.block and train.repeats:
            notes.left_out['turnarounds of trains that a frequency made'] += 1
        elif train.trip.block:
            blocks[train.trip.block].append(train)
    for block in blocks.values():
        for before, after in with_reserve(block, lambda train: train.is_reserve, neighbours):
            if after.name in before.linked or after.begins < 0:
                continue
            if after.begins < before.ends:
                notes.left_out['turnarounds between trips of a block that overlap'] += 1
                continue
            yield turnaround(before, after, rules.turn, 0, notes)


def turnaround(before: Train, after: Train, least: int, weight: int, notes: Notes) -> Link:
    link = Link('turnaround', before.moments[-1], after.moments[0], min(least, after.begins - before.ends), weight)
    if link.tail.event.stop != link.head.event.stop:
        notes.besides['turnarounds that lead from one station to another'] += 1
    if link.lower < least:
        notes.besides['turnarounds for which the timetable has less time than --turn'] += 1
    return link


def linked_trips(trains: list[Train], linked: list[Transfer], passengers: Passengers, rules: Rules, notes: Notes) -> Iterator[Link]:
    """Turnarounds between trips of one vehicle by transfers.txt: passengers stay in their seats (type 4), or have to get out (5)."""
    by_trip = trains_by_trip(trains)
    for row in linked:
        pairs = same_day(by_trip, row, notes)
        if not pairs:
            notes.left_out['rows of transfers.txt for trips that do not run, or are not chosen'] += 1
        for before, after in pairs:
            if after.begins < 0:
                continue
            if before.repeats or after.repeats:
                notes.left_out['turnarounds of trains that a frequency made'] += 1
            elif after.begins < before.ends:
                notes.left_out['in-seat transfers to trips that begin before the others end'] += 1
            elif after.name not in before.linked:
                before.linked.add(after.name)
                after.linked.add(before.name)
                rides = row.kind == 4
                notes.besides['turnarounds that passengers ride' if rides else 'turnarounds of linked trips at which all get out'] += 1
                link = turnaround(before, after, rules.dwell if rides else rules.turn, 0, notes)
                yield link._replace(weight=passengers.changing(link.tail, link.head, rules, False) if rides else 0)


def trains_by_trip(trains: list[Train]) -> dict[str, list[Train]]:
    by_trip: dict[str, list[Train]] = defaultdict(list)
    for train in trains:
        by_trip[train.trip.id].append(train)
    return by_trip


def same_day(by_trip: dict[str, list[Train]], row: Transfer, notes: Notes) -> list[tuple[Train, Train]]:
    """The trains of the two trips of a row that are of the same service day; Refused if frequencies make too many of them."""
    first, second = (by_trip.get(end.trip, []) for end in row.ends)
    notes.paired += len(first) * len(second)
    if notes.paired > MOST_PAIRED:
        raise Refused(f'the rows of transfers.txt for trips up to line {row.line} join more than {MOST_PAIRED} pairs of trains')
    return [(one, other) for one in first for other in second if one.trip.day_before == other.trip.day_before]


# ---- Changes

Departures = dict[str, dict[tuple[str, str], list[Moment]]]


@dataclass(frozen=True)
class Changing:
    """What changes are made of: the departures of each station by route and direction, and the rules."""
    departures: Departures
    passengers: Passengers
    transfers: Transfers
    rules: Rules

    def link(self, arrival: Moment, departure: Moment, least: int, row: Optional[Transfer], is_guaranteed: bool = False) -> Link:
        weight = self.passengers.changing(arrival, departure, self.rules, is_guaranteed)
        origin = '--change' if row is None else f'transfers.txt, line {row.line}'
        return Link('change', arrival, departure, least, weight, f'{GUARANTEED}{origin}' if is_guaranteed else origin)

    def stations_from(self, station: str) -> list[str]:
        return [station, *sorted(self.transfers.walks.get(station, ()))]

    def reached(
        self, arrival: Moment, departures: list[Moment], is_wanted: Callable[[Moment, Moment], bool],
    ) -> Iterator[tuple[Moment, int, Optional[Transfer]]]:
        """The departures that are wanted and that an arrival reaches, how long the change takes at least, and the row that says so."""
        for place in range(bisect_left(departures, arrival.event.time, key=time_of), len(departures)):
            departure = departures[place]
            scheduled = departure.event.time - arrival.event.time
            if scheduled > self.rules.longest_change:
                return
            if is_wanted(arrival, departure):
                least, row = self.transfers.between(arrival.end, departure.end)
                if least is not None and least <= scheduled:
                    yield departure, least, row


def changes(
    trains: list[Train], stations: dict[str, str], passengers: Passengers, transfers: Transfers, rules: Rules, notes: Notes,
) -> Iterator[Link]:
    """Guaranteed connections; and from each arrival to the next departure of each other route and direction that can be reached at its
    station, or at one to which transfers lead."""
    departures: Departures = defaultdict(lambda: defaultdict(list))
    for moment in sorted(moments(trains), key=time_of):
        if moment.event.kind == 'departure' and moment.call.boards:
            departures[stations[moment.call.stop]][towards(moment.train, stations)].append(moment)
    changing = Changing(departures, passengers, transfers, rules)
    promised: dict[int, list[Link]] = defaultdict(list)
    for link in guaranteed(trains, changing, notes):
        promised[link.tail.event.id].append(link)
    for arrival in moments(trains):
        if arrival.event.kind == 'arrival' and arrival.call.leaves:
            links = promised.get(arrival.event.id, [])
            yield from links
            yield from next_changes(arrival, changing, {towards(link.head.train, stations) for link in links}, notes)


def towards(train: Train, stations: dict[str, str]) -> tuple[str, str]:
    """The route of a train, and its direction or last station."""
    trip = train.trip
    return trip.route.id, trip.direction or stations[trip.calls[-1].stop]


def next_changes(arrival: Moment, changing: Changing, done: set[tuple[str, str]], notes: Notes) -> Iterator[Link]:
    """The changes from an arrival to the next departures, one for each route and direction that is not done; and within its own route
    one for each station to which another branch leads."""
    branches: set[str] = set()
    for station in changing.stations_from(changing.transfers.stations[arrival.call.stop]):
        for way, others in changing.departures.get(station, {}).items():
            if way in done:
                continue
            if way[0] != arrival.train.trip.route.id:
                found = next(changing.reached(arrival, others, leads_on), None)
                if found is not None:
                    done.add(way)
                    yield changing.link(arrival, *found)
                continue
            for found in changing.reached(arrival, others, is_other_branch):
                if found[0].beyond not in branches:
                    branches.add(found[0].beyond)
                    notes.besides['changes between branches of one route'] += not found[0].is_early
                    yield changing.link(arrival, *found)


def guaranteed(trains: list[Train], changing: Changing, notes: Notes) -> Iterator[Link]:
    """The connections between two trips that are guaranteed, each from an arrival to the first departure that is not before it."""
    by_trip = trains_by_trip(trains)
    for row in changing.transfers.promised.values():
        pairs = same_day(by_trip, row, notes)
        if not pairs:
            notes.left_out['rows of transfers.txt for trips that do not run, or are not chosen'] += 1
        taken: set[int] = set()
        for one, other in sorted(pairs, key=lambda pair: (pair[0].begins, pair[1].begins)):
            found = met(one, other, row, changing)
            if found is None or found[0].event.id in taken:
                continue
            arrival, departure = found
            taken.add(arrival.event.id)
            if departure.is_early:
                continue
            scheduled = departure.event.time - arrival.event.time
            least = scheduled if row.least is None else row.least
            if least > scheduled:
                notes.besides['guaranteed connections for which the timetable has less time than their min_transfer_time'] += 1
            notes.besides['guaranteed connections'] += 1
            yield changing.link(arrival, departure, min(least, scheduled), row, True)
        if pairs and not taken:
            notes.left_out['guaranteed connections at which the trains do not meet, or are one vehicle'] += 1


def met(one: Train, other: Train, row: Transfer, changing: Changing) -> Optional[tuple[Moment, Moment]]:
    """The first arrival of a train at the stop of a row, and the first departure of another one, not before it, from its stop there."""
    stations = changing.transfers.stations

    def at(moment: Moment, kind: str, stop: str) -> bool:
        return moment.event.kind == kind and stop in (moment.call.stop, stations[moment.call.stop])

    if one is other or one.shares_vehicle(other):
        return None
    for arrival in one.moments:
        for departure in other.moments if at(arrival, 'arrival', row.ends[0].stop) and arrival.call.leaves else ():
            if at(departure, 'departure', row.ends[1].stop) and departure.call.boards and departure.event.time >= arrival.event.time:
                return arrival, departure
    return None


def moments(trains: list[Train]) -> Iterator[Moment]:
    for train in trains:
        yield from train.moments


def time_of(moment: Moment) -> int:
    return moment.event.time


def leads_on(arrival: Moment, departure: Moment) -> bool:
    """Whether a departure is of another vehicle, and does not lead to the station that the arriving train has come from."""
    return departure.beyond != arrival.beyond and not arrival.train.shares_vehicle(departure.train)


def is_other_branch(arrival: Moment, departure: Moment) -> bool:
    """Whether two trains of one route come from, and lead to, where the other one does not call."""
    comes, goes = arrival.train, departure.train
    return departure.beyond not in comes.stations and arrival.beyond not in goes.stations and not comes.shares_vehicle(goes)


def headways(trains: list[Train], stations: dict[str, str], rule: Headways, notes: Notes) -> Iterator[Link]:
    """Both ways between departures of one kind of vehicle that follow each other from one station to the next."""
    legs: dict[tuple[str, str, str], list[Moment]] = defaultdict(list)
    for moment in sorted(moments(trains), key=time_of):
        if moment.event.kind == 'departure' and not moment.is_early:
            legs[stations[moment.call.stop], moment.beyond, moment.train.trip.route.kind].append(moment)
    for ends, leg in legs.items():
        headway, is_said = rule.between(*ends)
        if headway:
            yield from headways_of(leg, headway, is_said, notes)
        else:
            notes.left_out['stretches for which --headways says 0 seconds'] += 1


def headways_of(leg: list[Moment], headway: int, is_said: bool, notes: Notes) -> Iterator[Link]:
    for first, second in with_reserve(leg, lambda moment: moment.train.is_reserve, neighbours):
        if first.train is second.train or first.train.shares_vehicle(second.train):
            notes.left_out['headways between two trips of one vehicle'] += 1
        elif first.event.time == second.event.time:
            notes.left_out['headways between departures at the same time'] += 1
        else:
            lower = min(headway, second.event.time - first.event.time)
            if lower < headway:
                notes.besides['headways for which the timetable has less time than --headway'] += 1
            notes.besides['pairs of headways as --headways says'] += is_said
            yield Link('headway', first, second, lower)
            yield Link('headway', second, first, lower)


def meetings(trains: list[Train], single: dict[frozenset[str], int], notes: Notes) -> Iterator[Link]:
    """Both ways between departures of one kind of vehicle into a single track from its two ends: of each the last from the other end
    before it, and the first behind it."""
    tracks: dict[tuple[frozenset[str], str], list[Drive]] = defaultdict(list)
    for train in trains:
        for departure, arrival in zip(train.moments[::2], train.moments[1::2]):
            ends = frozenset((departure.beyond, arrival.beyond))
            if ends in single and not departure.is_early:
                tracks[ends, train.trip.route.kind].append(Drive(departure, arrival.event.time - departure.event.time))
    for (ends, _), drives in tracks.items():
        drives.sort(key=lambda drive: drive.departure.event.time)
        for first, second in with_reserve(drives, lambda drive: drive.departure.train.is_reserve, opposed):
            yield from meeting(first, second, single[ends], notes)
    for ends in single.keys() - {ends for ends, _ in tracks}:
        notes.left_out['stretches of --single-track on which no train runs'] += 1


class Drive(NamedTuple):
    """A departure into a stretch, and how long the timetable has the train on it."""
    departure: Moment
    takes: int


def opposed(drives: Sequence[Drive]) -> Iterator[tuple[Drive, Drive]]:
    """Of drives in the order of time, each with the last one before it that leads the other way, and with the first one behind it."""
    latest: dict[str, Drive] = {}
    waiting: list[Drive] = []
    for drive in drives:
        beyond = drive.departure.beyond
        before = next((one for end, one in latest.items() if end != beyond), None)
        if waiting and waiting[0].departure.beyond != beyond:
            yield from ((one, drive) for one in waiting)
            waiting = []
        elif before is not None:
            yield before, drive
        latest[beyond] = drive
        waiting.append(drive)


def meeting(first: Drive, second: Drive, clear: int, notes: Notes) -> Iterator[Link]:
    """The pair of two drives on a single track: the other train leaves when the first one has come through and the track is clear."""
    tail, head = first.departure, second.departure
    scheduled = head.event.time - tail.event.time
    if tail.train is head.train or tail.train.shares_vehicle(head.train):
        notes.left_out['pairs on a single track of two trips of one vehicle'] += 1
    elif scheduled == 0:
        notes.left_out['pairs on a single track of trains that leave at the same time'] += 1
    else:
        lower = max(1, first.takes + clear)
        if lower > scheduled:
            notes.besides['pairs on a single track for which the timetable has less time than the drive and --single-track'] += 1
        notes.besides['pairs on a single track, of trains that come from its two ends'] += 1
        yield Link('headway', tail, head, min(lower, scheduled))
        yield Link('headway', head, tail, max(1, second.takes + clear))


def without_circles(links: list[Link], notes: Notes) -> list[Link]:
    """Without the changes that close a circle of activities that take no time, as where two trains wait for each other."""
    at_once = [link for link in links if link.scheduled == 0]
    while any(link.kind == 'change' for link in at_once):
        graph: graphlib.TopologicalSorter[int] = graphlib.TopologicalSorter()
        for link in at_once:
            graph.add(link.head.event.id, link.tail.event.id)
        try:
            graph.prepare()
            break
        except graphlib.CycleError as error:
            circle = error.args[1]
            closing = next(
                link for link in at_once if link.kind == 'change' and link.ends in zip(circle, circle[1:])
            )
            at_once.remove(closing)
            links = [link for link in links if link is not closing]
            notes.left_out['changes without time between trains that would wait for each other'] += 1
    return links


# ---- Midnight


def is_over_midnight(link: Link) -> bool:
    """Whether one changes from before midnight, or from a leg that begins before it, to a train past midnight."""
    return link.kind in ('change', 'turnaround') and not link.head.is_early


def from_midnight(trains: list[Train], links: list[Link], notes: Notes) -> tuple[list[Train], list[Link]]:
    """The trains from midnight on, and the legs before from which one changes to a train past midnight; all times before it are midnight,
    and passengers who arrive before it count in their own day."""
    needed = {link.tail.event.id for link in links if is_over_midnight(link)}
    kept = [train for train in trains if is_cut(train, needed, notes)]
    ids = {moment.event.id for moment in moments(kept)}
    links = [link for link in links if ids.issuperset(link.ends) and (link.kind in ('drive', 'wait') or not link.head.is_early)]
    notes.besides['connections over midnight, from an arrival that stands at midnight'] += sum(
        link.kind == 'change' and link.tail.is_early for link in links)
    for moment in moments(kept):
        if moment.is_early:
            moment.event = moment.event._replace(time=0, weight=0)
    return kept, [link._replace(lower=min(link.lower, link.scheduled)) if link.scheduled >= 0 else link for link in links]


def is_cut(train: Train, needed: set[int], notes: Notes) -> bool:
    """Leaves of a train what runs past midnight and the legs that are needed, and says whether anything is left."""
    legs = list(zip(train.moments[::2], train.moments[1::2]))
    first = next((place for place, (tail, head) in enumerate(legs) if not tail.is_early or head.event.id in needed), len(legs))
    calls = train.trip.calls
    train.moments, train.trip = train.moments[2 * first:], replace(train.trip, calls=calls[first:])
    is_past = any(not moment.is_early for moment in train.moments[::2])
    if train.trip.day_before:
        notes.besides['trains of the service day before that run past midnight'] += is_past
        notes.left_out['calls before midnight of trains of the service day before'] += first if is_past else 0
    return bool(train.moments)


def numbered_anew(trains: list[Train], stations: dict[str, str]) -> dict[str, int]:
    """Gives the events of trains ids from 1, and their stations numbers; the number of each station."""
    called = {stations[moment.call.stop] for moment in moments(trains)}
    numbers = {station: number for number, station in enumerate((one for one in stations if one in called), 1)}
    for event, moment in enumerate(moments(trains), 1):
        moment.event = moment.event._replace(id=event, stop=numbers[stations[moment.call.stop]])
    return numbers


@dataclass
class Expanded:
    """The network of trains, the number of each station, the changes by number, and how many begin at each station."""
    trains: list[Train]
    stations: dict[str, int]
    events: list[Event]
    activities: list[Activity]
    changes: list[tuple[int, Link]]
    changes_at: Counter[int]


def expand(
    trains: list[Train], stations: dict[str, str], passengers: Passengers, transfers: Transfers, rules: Rules, notes: Notes,
    limits: Limits = PROGRAM,
) -> Expanded:
    """The network of trains; Refused if it has too many activities."""
    numbers = give_moments(trains, stations, passengers, notes)

    def some(made: Iterable[Link]) -> Iterator[Link]:
        """As many activities as are needed to see that there are too many."""
        return islice(made, limits.activities + 1)

    links = [*runs(trains, rules), *turnarounds(trains, transfers.linked, passengers, rules, notes)]
    links += some(changes([train for train in trains if not train.is_reserve], stations, passengers, transfers, rules, notes))
    if rules.headways is not None:
        links += some(headways(trains, stations, rules.headways, notes))
    links += some(meetings(trains, rules.single, notes))
    if any(moment.is_early for moment in moments(trains)):
        trains, links = from_midnight(trains, links, notes)
        numbers = numbered_anew(trains, stations)
    links = without_circles(links, notes)
    if len(links) > limits.activities:
        raise Refused(
            f'the network would have more than {limits.activities} activities: leave out changes by a shorter --longest-change=, '
            'headways by --no-headways, or trips by --routes=, --from= and --to='
        )
    activities = [
        Activity(number, link.kind, *link.ends, link.lower, link.weight)
        for number, link in enumerate(links, 1)
    ]
    numbered = [(number, link) for number, link in enumerate(links, 1) if link.kind == 'change']
    changes_at = Counter(link.tail.event.stop for _, link in numbered)
    return Expanded(trains, numbers, [moment.event for moment in moments(trains)], activities, numbered, changes_at)
