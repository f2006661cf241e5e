"""Reads and writes the files of a network in LinTim's form, record by record.

The standard order of columns is the only one that it reads. Here weights are in thousandths of passengers; the files have
passengers.
"""
from __future__ import annotations

import os
import re
from dataclasses import dataclass
from typing import Callable, Generic, Iterable, Iterator, Mapping, Optional, TypeVar

from dispatch_tools.formats.files import BadFile, text_of
from dispatch_tools.model.network import Activity, Event, KINDS, Network
from dispatch_tools.model.railway import Rows

EVENTS = 'Events-expanded.giv'
ACTIVITIES = 'Activities-expanded.giv'

EVENT_COLUMNS = '# event-id; periodic-id; type; time; passengers; stop-id\n'
ACTIVITY_COLUMNS = '# activity-id; periodic-id; type; tail; head; lower; upper; passengers\n'

Made = TypeVar('Made')


# ---- Records that are read


def taken(field: str) -> str:
    """A field without the spaces and tabs around it, and then without one pair of quotes."""
    field = field.strip(' \t')
    if len(field) >= 2 and field[0] == field[-1] == '"':
        return field[1:-1]
    return field


def lines_of(folder: str, name: str) -> Iterator[tuple[int, str]]:
    """The lines of a file with their numbers, however they end."""
    text = text_of(os.path.join(folder, name))
    yield from enumerate(re.split('\r\n|\r|\n', text) if '\r' in text else text.split('\n'), 1)


def fields_of(line: str) -> Optional[list[str]]:
    """The fields of a record, or None if a line has none."""
    fields = [taken(field) for field in line.split(';')]
    return None if fields[0].startswith('#') or fields == [''] else fields


def records(folder: str, name: str) -> Iterator[tuple[int, list[str]]]:
    """The number of the line and the fields of each record of a file."""
    for number, line in lines_of(folder, name):
        fields = fields_of(line)
        if fields is not None:
            yield number, fields


@dataclass(frozen=True)
class Plain(Generic[Made]):
    """The form in which records are written here, and what is made of such a line: the same as of its fields, at a third of the time."""
    form: re.Pattern[str]
    row: Callable[[re.Match[str]], Made]


def rows_of_file(
    folder: str, name: str, row: Callable[..., Made], plain: Optional[Plain[Made]] = None,
) -> Iterator[tuple[int, Made]]:
    """What `row` makes of the fields of each record, with the number of its line; BadFile if it makes nothing."""
    for number, line in lines_of(folder, name):
        found = plain.form.fullmatch(line) if plain else None
        if plain and found:
            yield number, plain.row(found)
            continue
        fields = fields_of(line)
        try:
            if fields is not None:
                yield number, row(*fields)
        except (TypeError, ValueError) as error:
            raise BadFile(os.path.join(folder, name), number, 'this is no record of the file') from error


def thousandths(text: str) -> int:
    """A decimal number in thousandths; further digits are dropped."""
    if not re.fullmatch(r'[0-9]+(\.[0-9]*)?', text):
        raise ValueError(text)
    passengers, _, decimals = text.partition('.')
    return int(passengers) * 1000 + int((decimals + '000')[:3])


def whole(text: str) -> int:
    """The number that decimal digits spell."""
    if not (text.isascii() and text.isdigit()):
        raise ValueError(text)
    return int(text)


def one_of(kinds: Iterable[str], text: str) -> str:
    """A type word in small letters."""
    if text.lower() not in kinds:
        raise ValueError(text)
    return text.lower()


def event_row(number: str, _: str, kind: str, time: str, weight: str, stop: str) -> Event:
    return Event(whole(number), one_of(('departure', 'arrival'), kind), whole(time), thousandths(weight), whole(stop))


def activity_row(number: str, _: str, kind: str, tail: str, head: str, lower: str, __: str, weight: str) -> Activity:
    return Activity(whole(number), one_of(KINDS, kind), whole(tail), whole(head), whole(lower), thousandths(weight))


# Each kind as one text, however often it stands in a file.
ONE_TEXT = {kind: kind for kind in ('departure', 'arrival', *KINDS)}


def plain_weight(passengers: str, decimals: Optional[str]) -> int:
    return 1000 * int(passengers) + int(decimals or 0)


def plain_event(found: re.Match[str]) -> Event:
    number, kind, time, passengers, decimals, stop = found.groups()
    return Event(int(number), ONE_TEXT[kind], int(time), plain_weight(passengers, decimals), int(stop))


def plain_activity(found: re.Match[str]) -> Activity:
    number, kind, tail, head, lower, passengers, decimals = found.groups()
    return Activity(int(number), ONE_TEXT[kind], int(tail), int(head), int(lower), plain_weight(passengers, decimals))


PLAIN_EVENT = Plain(
    re.compile(r'([0-9]{1,10}); [0-9]{1,10}; "(departure|arrival)"; ([0-9]{1,10}); ([0-9]{1,9})(?:\.([0-9]{3}))?; ([0-9]{1,10})'), plain_event)
PLAIN_ACTIVITY = Plain(
    re.compile(
        rf'([0-9]{{1,10}}); [0-9]{{1,10}}; "({"|".join(KINDS)})"; ([0-9]{{1,10}}); ([0-9]{{1,10}}); ([0-9]{{1,10}}); [0-9]{{1,10}}; '
        r'([0-9]{1,9})(?:\.([0-9]{3}))?'), plain_activity)


def read_network(folder: str) -> Network:
    """The network of a folder's files in the standard order of columns; BadFile if they are none."""
    events = [event for _, event in rows_of_file(folder, EVENTS, event_row, PLAIN_EVENT)]
    known = {event.id for event in events}
    activities = []
    for line, activity in rows_of_file(folder, ACTIVITIES, activity_row, PLAIN_ACTIVITY):
        for end in (activity.tail, activity.head):
            if end not in known:
                raise BadFile(os.path.join(folder, ACTIVITIES), line, f'there is no event {end}')
        activities.append(activity)
    return Network(events, activities)


def read_delays(folder: str, name: Optional[str]) -> list[tuple[int, int]]:
    """The ids and delays of a delay file, of which the last one of an id holds; none where there is no name."""
    rows = rows_of_file(folder, name, lambda number, delay: (whole(number), whole(delay))) if name else []
    return [row for _, row in rows]


def read_cancelled(folder: str, name: Optional[str]) -> list[int]:
    """The ids of the events of a file that are cancelled at the start; none where there is no name."""
    return [event for _, event in rows_of_file(folder, name, whole)] if name else []


def start_rows(network: Network, folder: str, event_delays: Optional[str] = None, activity_delays: Optional[str] = None,
               cancelled: Optional[str] = None) -> Rows:
    """The rows at the start of a day, by the names of files in a folder; BadFile if one is none, or names what the network has not."""
    late, longer, gone = read_delays(folder, event_delays), read_delays(folder, activity_delays), read_cancelled(folder, cancelled)
    named = [
        (event_delays, 'event', [event for event, _ in late], network.event_place),
        (activity_delays, 'activity', [activity for activity, _ in longer], network.activity_place), (cancelled, 'event', gone, network.event_place),
    ]
    for name, kind, ids, known in named:
        unknown = next((number for number in ids if number not in known), None)
        if name and unknown is not None:
            raise BadFile(os.path.join(folder, name), None, f'there is no {kind} {unknown}')
    return Rows(network, late, longer, gone)


# ---- Records that are written


def decimal(weight: int) -> str:
    """A weight in print, as passengers."""
    passengers, rest = divmod(weight, 1000)
    return f'{passengers}.{rest:03}' if rest else str(passengers)


def event_record(event: Event, periodic: int = 0) -> str:
    """The line of an event."""
    return f'{event.id}; {periodic}; "{event.kind}"; {event.time}; {decimal(event.weight)}; {event.stop}\n'


def activity_record(activity: Activity, periodic: int = 0, upper: int = 0) -> str:
    """The line of an activity; its upper bound says nothing to the program."""
    number, kind, tail, head, lower, weight = activity
    return f'{number}; {periodic}; "{kind}"; {tail}; {head}; {lower}; {upper}; {decimal(weight)}\n'


def network_files(events: Iterable[Event], activities: Iterable[Activity], periodic_events: Optional[Mapping[int, int]] = None,
                  periodic_activities: Optional[Mapping[int, int]] = None) -> dict[str, str]:
    """The texts of a network's files by name, in the standard order of columns; periodic ids by id, or 0."""
    periodic_events, periodic_activities = periodic_events or {}, periodic_activities or {}
    event_lines = [event_record(event, periodic_events.get(event.id, 0)) for event in events]
    activity_lines = [activity_record(activity, periodic_activities.get(activity.id, 0)) for activity in activities]
    return {EVENTS: EVENT_COLUMNS + ''.join(event_lines), ACTIVITIES: ACTIVITY_COLUMNS + ''.join(activity_lines)}


def write_records(folder: str, events: Iterable[Event], activities: Iterable[Activity]) -> None:
    """Writes the files of a network, as large as it may be, record by record and without a line that names the columns."""
    os.makedirs(folder, exist_ok=True)
    with open(os.path.join(folder, EVENTS), 'w', encoding='ascii') as file:
        file.writelines(map(event_record, events))
    with open(os.path.join(folder, ACTIVITIES), 'w', encoding='ascii') as file:
        file.writelines(map(activity_record, activities))
