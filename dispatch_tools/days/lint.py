"""What looks wrong in a network and in feeds."""
from __future__ import annotations

import os
from collections import Counter
from typing import Iterable, Iterator, NamedTuple, Optional

from dispatch_tools.days.cancel import gaps
from dispatch_tools.formats.files import BadFile, in_one_line, text_of
from dispatch_tools.formats.giv import ACTIVITIES, activity_row, decimal, event_row, EVENTS, rows_of_file, whole
from dispatch_tools.formats.names import numbered
from dispatch_tools.formats.runtext import due_items
from dispatch_tools.model.messages import (
    AskPlan, AskSolve, AskTime, Cancel, DelayActivity, DelayEvent, Drop, First, Keep, Lock, Now, Pass, Recall, Restore, Said, Unlock,
)
from dispatch_tools.model.network import Activity, Change, Event, Network
from dispatch_tools.model.railway import LARGEST_DELAY, LARGEST_PASSED
from dispatch_tools.pictures.scene import trains_of

DAY = 86_400

# At most so many oddities of each kind are reported. Of the others only the number is.
MOST = 20


class Oddity(NamedTuple):
    """Something odd: its kind, the file and the line, and what is odd there."""
    kind: str
    name: str
    line: int
    what: str


class Files(NamedTuple):
    """A network, the folder of its files, and the lines of its events and activities by id."""
    network: Network
    folder: str
    event_lines: dict[int, int]
    activity_lines: dict[int, int]

    def at_event(self, kind: str, event: Event, what: str) -> Oddity:
        return Oddity(kind, os.path.join(self.folder, EVENTS), self.event_lines[event.id], f'event {event.id}: {what}')

    def at_activity(self, kind: str, activity: Activity, what: str) -> Oddity:
        name = os.path.join(self.folder, ACTIVITIES)
        return Oddity(kind, name, self.activity_lines[activity.id], f'{activity.kind} {activity.id}: {what}')

    def ends(self, place: int) -> tuple[Event, Event]:
        """The events at the tail and the head of an activity."""
        return self.network.events[self.network.tails[place]], self.network.events[self.network.heads[place]]


def read_files(folder: str) -> Files:
    """The network of a folder with the lines of its records; BadFile if it is none."""
    events = list(rows_of_file(folder, EVENTS, event_row))
    activities = list(rows_of_file(folder, ACTIVITIES, activity_row))
    known = {event.id for _, event in events}
    for line, activity in activities:
        for end in (activity.tail, activity.head):
            if end not in known:
                raise BadFile(os.path.join(folder, ACTIVITIES), line, f'there is no event {end}')
    network = Network([event for _, event in events], [activity for _, activity in activities])
    return Files(
        network, folder, {event.id: line for line, event in events}, {activity.id: line for line, activity in activities},
    )


# ---- Networks


def schedule_oddities(files: Files) -> Iterator[Oddity]:
    """Activities that run back in time, and those shorter than their bounds."""
    for place, activity in enumerate(files.network.activities):
        tail, head = files.ends(place)
        slack = head.time - tail.time - activity.lower
        if files.network.pair_by_activity[place] is not None and head.time < tail.time:
            continue
        if head.time < tail.time:
            yield files.at_activity('backwards', activity, f'its head is scheduled {tail.time - head.time} s before its tail')
        elif slack < 0 and activity.kind == 'change':
            yield files.at_activity('change', activity, f'nobody can make it: {-slack} s too short for its bound of {activity.lower} s')
        elif slack < 0:
            yield files.at_activity('short', activity, f'its schedule is {-slack} s below its bound of {activity.lower} s')


def swapped_columns(files: Files) -> Iterator[Oddity]:
    """Columns whose numbers look like those of another; each is named once."""
    network = files.network
    drives = [place for place, activity in enumerate(network.activities) if activity.kind == 'drive']
    back = [place for place in drives if files.ends(place)[1].time < files.ends(place)[0].time]
    if drives and 2 * len(back) > len(drives):
        yield files.at_activity('swapped', network.activities[back[0]], 'most drives run back in time: are tail and head swapped?')
    weighted = [event for event in network.events if event.weight]
    heavy = [event for event in weighted if event.weight > 1000 * event.time and event.weight > 3_600_000]
    if weighted and 2 * len(heavy) > len(weighted):
        yield files.at_event('swapped', heavy[0], 'most events have more passengers than seconds: are time and weight swapped?')


def jumps(files: Files) -> Iterator[Oddity]:
    """Trains that wait from one stop to another, or drive from a stop to itself."""
    for place, activity in enumerate(files.network.activities):
        tail, head = files.ends(place)
        if activity.kind == 'wait' and tail.stop != head.stop:
            yield files.at_activity('jump', activity, f'the train waits from stop {tail.stop} to stop {head.stop}')
        if activity.kind == 'drive' and tail.stop == head.stop:
            yield files.at_activity('jump', activity, f'the train drives from stop {tail.stop} to the same stop')


def kind_oddities(files: Files) -> Iterator[Oddity]:
    """Drives, waits and changes between events of another kind than a train has there."""
    due = {'drive': ('departure', 'arrival'), 'wait': ('arrival', 'departure'), 'change': ('arrival', 'departure')}
    for place, activity in enumerate(files.network.activities):
        ends = tuple(event.kind for event in files.ends(place))
        if activity.kind in due and ends != due[activity.kind]:
            yield files.at_activity('kinds', activity, f'it leads from {ends[0]} to {ends[1]}')


def long_changes(files: Files) -> Iterator[Oddity]:
    for place, activity in enumerate(files.network.activities):
        tail, head = files.ends(place)
        if activity.kind == 'change' and head.time - tail.time > DAY:
            yield files.at_activity('long', activity, f'passengers would wait {head.time - tail.time} s, more than a day')


def leaving_later(files: Files) -> list[Optional[int]]:
    """For each event by place the passengers who leave its train at it or later, in thousandths; None where a train parts in two."""
    after: dict[int, list[int]] = {}
    for place, activity in enumerate(files.network.activities):
        if activity.kind in ('drive', 'wait'):
            after.setdefault(files.network.tails[place], []).append(files.network.heads[place])
    found: list[Optional[int]] = [None] * len(files.network.events)
    for place in sorted(range(len(found)), key=lambda place: files.network.events[place].time, reverse=True):
        behind = after.get(place, [])
        later = 0 if not behind else found[behind[0]] if len(behind) == 1 else None
        found[place] = None if later is None else later + files.network.events[place].weight
    return found


def crowded_changes(files: Files) -> Iterator[Oddity]:
    """Changes with more passengers than leave the train that arrives, or than leave the next one behind them."""
    leaving = leaving_later(files)
    for place, activity in enumerate(files.network.activities):
        if activity.kind != 'change':
            continue
        arrival, later = files.ends(place)[0], leaving[files.network.heads[place]]
        if activity.weight > arrival.weight:
            said = f'{decimal(activity.weight)} passengers change, and {decimal(arrival.weight)} leave the train there (event {arrival.id})'
            yield files.at_activity('crowd', activity, said)
        elif later is not None and activity.weight > later:
            said = f'{decimal(activity.weight)} passengers change, and {decimal(later)} leave the next train behind there'
            yield files.at_activity('crowd', activity, said)


def one_way_headways(files: Files) -> Iterator[Oddity]:
    for place, activity in enumerate(files.network.activities):
        if activity.kind == 'headway' and files.network.pair_by_activity[place] is None:
            yield files.at_activity('one-way', activity, 'no headway leads the other way, so the order of these trains is fixed')


def empty_stops(files: Files) -> Iterator[Oddity]:
    """Stops that Stops.csv names and no event is at."""
    used = {event.stop for event in files.network.events}
    for line, stop, name in numbered(files.folder, 'Stops.csv'):
        if stop not in used:
            yield Oddity('stop', os.path.join(files.folder, 'Stops.csv'), line, f'stop {stop} ({name}) has no event')


# ---- Feeds


def guess(line: str) -> str:
    """Why a line may be malformed, or nothing."""
    reasons = [
        ('ï»¿' in line, 'a byte order mark stands before it'), ('\t' in line, 'a tab separates nothing'),
        ('\r' in line, 'a CR stands without an LF'), (any(letter.isupper() for letter in line), 'words have small letters'),
        ('-' in line, 'numbers have no sign'), (len(line) > 1024, 'it has more than 1,024 bytes'),
    ]
    return next((f': {reason}' for holds, reason in reasons if holds), '')


def ids_of(network: Network, said: Said) -> Optional[str]:
    """What a line names that the network has not, in words."""
    if isinstance(said, (Lock, Unlock)):
        return ids_of(network, Keep(said.choice.activity) if isinstance(said.choice, Change) else First(*said.choice.numbers))
    if isinstance(said, (DelayActivity, Keep, Drop)):
        place = network.activity_place.get(said.activity)
        if place is None:
            return f'there is no activity {said.activity}'
        if not isinstance(said, DelayActivity) and network.activities[place].kind != 'change':
            return f'activity {said.activity} is no change'
    elif isinstance(said, (DelayEvent, Pass, Recall, AskTime, Cancel, Restore, First)):
        for event in (said.event, said.other) if isinstance(said, First) else (said.event,):
            if event not in network.event_place:
                return f'there is no event {event}'
        if isinstance(said, First) and network.pair_of(network.event_place[said.event], network.event_place[said.other]) is None:
            return f'events {said.event} and {said.other} are no pair'
    return None


def range_of(said: Said) -> Optional[str]:
    """What number of a line is above its limit, in words."""
    if isinstance(said, (DelayEvent, DelayActivity)) and said.seconds > LARGEST_DELAY:
        return f'{said.seconds} is above {LARGEST_DELAY}'
    if isinstance(said, (Pass, Now)) and said.time > LARGEST_PASSED:
        return f'{said.time} is above {LARGEST_PASSED}'
    if isinstance(said, (AskPlan, AskSolve)) and not 1 <= said.budget <= 16_384:
        return f'a plan has 1 to 16384 nodes, not {said.budget}'
    return None


def gap_oddities(network: Network, name: str, lines: dict[int, int]) -> Iterator[Oddity]:
    """Trains with a gap, where these events, by place with the line that says so, are cancelled."""
    flags = [place in lines for place in range(len(network.events))]
    for gap in gaps(network, trains_of(network), flags) if lines else ():
        line = lines.get(gap.at, max(lines.values()))
        yield Oddity('gap', name, line, f'event {network.events[gap.at].id} of train {network.events[gap.first].id}: {gap.what}')


def start_oddities(network: Network, folder: str, cancelled: Optional[str]) -> Iterator[Oddity]:
    """What is odd in a file of events that are cancelled at the start."""
    lines: dict[int, int] = {}
    for line, event in rows_of_file(folder, cancelled, whole) if cancelled else ():
        if event in network.event_place:
            lines[network.event_place[event]] = line
        else:
            yield Oddity('refused', os.path.join(folder, cancelled or ''), line, f'there is no event {event}')
    yield from gap_oddities(network, os.path.join(folder, cancelled or ''), lines)


def feed_oddities(network: Network, name: str) -> Iterator[Oddity]:
    """The lines of a feed that are malformed or will be refused, and trains that have a gap behind the last line."""
    text = text_of(name)
    lines = text.split('\n')
    cancelled: dict[int, int] = {}
    for number, said in due_items(text):
        if said is None:
            yield Oddity('malformed', name, number, f'malformed{guess(lines[number - 1].removesuffix(chr(13)))}')
            continue
        refused = range_of(said) or ids_of(network, said)
        if refused is not None:
            yield Oddity('refused', name, number, refused)
        elif isinstance(said, Cancel):
            cancelled[network.event_place[said.event]] = number
        elif isinstance(said, (Restore, Pass)):
            cancelled.pop(network.event_place[said.event], None)
    yield from gap_oddities(network, name, cancelled)


# ---- Words


def oddities(files: Files, feeds: Iterable[str], cancelled: Optional[str] = None) -> Iterator[Oddity]:
    for find in (swapped_columns, schedule_oddities, jumps, kind_oddities, one_way_headways, long_changes, crowded_changes, empty_stops):
        yield from find(files)
    yield from start_oddities(files.network, files.folder, cancelled)
    for feed in feeds:
        yield from feed_oddities(files.network, feed)


def tell(found: Iterable[Oddity]) -> int:
    """Prints what was found, of each kind and file at most so many lines."""
    told: Counter[tuple[str, str]] = Counter()
    for odd in found:
        told[odd.kind, odd.name] += 1
        if told[odd.kind, odd.name] <= MOST:
            print(in_one_line(f'{odd.name}, line {odd.line}: {odd.what}'))
    for (kind, name), count in told.items():
        if count > MOST:
            print(f'{name}: {count - MOST} more of the kind `{kind}`')
    return sum(told.values())
