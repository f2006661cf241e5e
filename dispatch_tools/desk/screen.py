"""What all pages show alike: the picture of the screen, and what is looked up in it (trains, boards, lines)."""
from __future__ import annotations

import os
import re
from itertools import chain, groupby, islice
from typing import TYPE_CHECKING, Any, Optional

from dispatch_tools.desk.day import Day, Reported, SHOWN, Told
from dispatch_tools.desk.naming import few, Naming, raw
from dispatch_tools.desk.steering import cancelled_trains, cancelled_words, locks, subject_of_lock
from dispatch_tools.desk.undoing import standing, Subject, subjects_of
from dispatch_tools.formats.runtext import heard, Item
from dispatch_tools.model.messages import Decision, Drop, First, Keep
from dispatch_tools.model.network import Change, Choice
from dispatch_tools.pictures.scene import clock_time, conflicts_of, counted, duration, whole_time
from dispatch_tools.pictures.view import cost_words

if TYPE_CHECKING:
    from dispatch_tools.desk.room import Room

# Of an action so many lines are told in words.
FEW_LINES = 3

# At most so many bytes at the end of a board's file are read.
BOARD_TAIL = 1 << 20

TIME = re.compile(rb'^([0-9]{1,10}); ([0-9]{1,39})\n', re.MULTILINE)


def screen_of(room: Room) -> dict[str, Any]:
    """The picture of the screen."""
    day, followed = room.day, room.followed
    late = day.late_trains(60)
    return {
        'entries': len(day.entries), 'clock': whole_time(day.clock) if day.clock else '', 'seconds': day.clock, 'version': day.version,
        'confirmed': followed.entries if followed else None, 'second': room.settings.program is None,
        'cost': cost_words(followed.cost) if followed else '', 'who': room.who(),
        'late': [late_row(day, number) for number in late[:SHOWN]], 'lateCount': len(late), 'trains': len(day.trains),
        'cancelled': [cancelled_row(room, number) for number in cancelled_trains(day)[:SHOWN]], 'locks': [lock_row(room, choice) for choice in locks(day.reckoning.rows)[:SHOWN]],
        'alerts': room.standing.rows, 'seen': room.standing.seen_rows,
        'journal': [journal_row(room, one) for one in islice(reversed(day.last), SHOWN)],
        'told': told_rows(room), 'plan': plan_row(room),
        'began': room.rounds is not None, 'runs': room.control.runs(),
    }


def journal_row(room: Room, one: Reported) -> list[Any]:
    """An entry: its number, who made it, and what it says, in words and as the feed has it."""
    return [one.entry, room.reporter(one.feed, one.line), room.day.naming.said(one.message), raw(one.message)]


def by_whom(room: Room, subject: Subject) -> str:
    """Who said a thing last, and in which entry."""
    found = room.day.latest.get(subject)
    return '' if found is None else f'{room.reporter(found.feed, found.line)}, entry {found.entry}'


def cancelled_row(room: Room, number: int) -> list[Any]:
    """A train that is cancelled: its number, its name, which part, whom it concerns, and who has said so."""
    day = room.day
    gone = next(place for place in day.trains[number] if day.reckoning.rows.cancelled[place])
    return [number, day.naming.labels[number], *cancelled_words(day, number), by_whom(room, Subject('cancel', day.network.events[gone].id))]


def lock_row(room: Room, choice: Choice) -> list[Any]:
    """A choice that is locked: the numbers that a line names it by, how it was decided, in words, and who has locked it."""
    network, rows, naming = room.day.network, room.day.reckoning.rows, room.day.naming
    if isinstance(choice, Change):
        decided: Decision = Keep(choice.activity) if rows.kept[network.activity_place[choice.activity]] else Drop(choice.activity)
    else:
        one, other = network.event_place[choice.first], network.event_place[choice.second]
        is_first = rows.first[network.pair_at(one, other)] == one
        decided = First(choice.first, choice.second) if is_first else First(choice.second, choice.first)
    return [list(choice.numbers), naming.decision(decided), by_whom(room, subject_of_lock(choice))]


def late_row(day: Day, number: int) -> list[Any]:
    """A train that is late: its number and name, its next event with its times and its lateness, and where it will be latest, and how."""
    worst, at, ahead = day.lateness[number]
    naming, times = day.naming, day.reckoning.times
    row = [number, naming.labels[number], *(at_stop(day, ahead) if ahead is not None else ['', '', '', ''])]
    if ahead is not None and at != ahead:
        return [*row, worst, f'{duration(worst)}: {at_stop(day, at)[0]} {clock_time(times[at], True)}']
    return [*row, worst, '']


def at_stop(day: Day, place: int) -> list[str]:
    """An event without its train: what it is, as scheduled, now, and how late that is."""
    event, time = day.network.events[place], day.reckoning.times[place]
    verb = 'leaves' if event.kind == 'departure' else 'reaches'
    late = max(0, time - event.time)
    return [f'{verb} {day.naming.at(place)}', clock_time(event.time, True), clock_time(time, True), duration(late) if late else 'on time']


def told_rows(room: Room) -> list[dict[str, Any]]:
    """The lines of the desk's feed, the newest first, those of one action together."""
    day, book = room.day, room.notebook
    waiting = [Told(Item(line, heard(text), None), None, None) for line, (text, _) in sorted(room.pending.items(), reverse=True)]
    groups = groupby(chain(waiting, reversed(day.told)), lambda told: book.first_of.get(told.item.line, told.item.line))
    return [told_row(room, [*group][::-1]) for _, group in islice(groups, SHOWN)]


def told_row(room: Room, group: list[Told]) -> dict[str, Any]:
    """The row of the lines of one action: what they say, the answer or nothing, whether it is good, what an undo would set, who wrote them,
    and what stands now if they were taken back."""
    day, naming, first = room.day, room.day.naming, group[0].item.line
    action = room.notebook.actions.get(first)
    said = [naming.said(told.item.said) for told in group]
    says = '; '.join(said) if len(said) <= FEW_LINES else counted(len(said), 'line', 'lines')
    waits = any(told.item.line in room.pending for told in group)
    refused = [told for told in group if not waits and not is_good(told)]
    answer = '' if waits else answer_words(naming, group, refused)
    back = [one for told in group for one in told.back or []] if not waits else []
    sets = '; '.join(few([naming.said(one) for one in back]))
    by = room.notebook.undone.get(first)
    stands = '' if by is None else f'taken back by line {by}; now: {"; ".join(few(stands_now(day, group)))}'
    numbers = str(first) if len(group) == 1 else f'{first}–{group[-1].item.line}'
    return {
        'line': first, 'numbers': numbers, 'words': f'{action.says}: {says}' if action else says,
        'raw': '; '.join(raw(told.item.said) for told in group[:SHOWN]), 'answer': answer, 'good': None if waits else not refused,
        'sets': sets, 'who': room.notebook.name_of(day.feed, first), 'stands': stands,
    }


def is_good(told: Told) -> bool:
    return told.item.answer is not None and told.item.answer.kind not in ('refused', 'range', 'plans', 'noplan', 'old')


def answer_words(naming: Naming, group: list[Told], refused: list[Told]) -> str:
    """The answers to the lines of one action."""
    if len(group) == 1:
        return naming.answer(group[0].item.answer)
    entries = [told.entry for told in group if told.entry is not None]
    words = [f'{len(entries)} entered as {entries[0]} to {entries[-1]}'] if entries else []
    return '; '.join([*words, *few([f'{naming.said(told.item.said)}: {naming.answer(told.item.answer)}' for told in refused])])


def stands_now(day: Day, group: list[Told]) -> list[str]:
    """What stands now of what lines are about."""
    subjects = dict.fromkeys(subject for told in group for one in told.back or [] for subject in subjects_of(one))
    return [day.naming.said(standing(subject, day.reckoning.rows, day.network)) for subject in subjects]


def plan_row(room: Room) -> Optional[dict[str, Any]]:
    """The last plan of the desk's feed in short, how many of its choices were carried over and which line has taken them back, and whether
    what it would change is known."""
    plan, day = room.day.plan, room.day
    if plan is None:
        return None
    adoption = day.adoption
    return {
        'line': day.plan_line, 'entry': plan.entry, 'mark': plan.mark, 'cost': cost_words(plan.cost), 'bound': cost_words(plan.bound), 'count': len(plan.choices),
        'old': not day.adopted and plan.entry < len(day.entries), 'adopted': day.adopted,
        'carried': adoption.choices if adoption and adoption.carried else None, 'undone': room.notebook.undone.get(adoption.line) if adoption else None,
        'ready': room.effect is not None and room.effect.plan is plan, 'previewed': room.previewed() is not None,
    }


# ---- What never changes


def description(room: Room) -> dict[str, Any]:
    """The trains, stops and lines of the day."""
    day, naming = room.day, room.day.naming
    events = day.network.events
    return {
        'trains': [[naming.labels[number], day.names.trips.get(events[train[0]].id, ''), naming.at(train[0]), naming.at(train[-1]),
                    clock_time(events[train[0]].time), line_of(room, train)] for number, train in enumerate(day.trains)],
        'stops': [[stop, naming.stop(stop)] for stop in sorted(day.at_stop)],
        'lines': [f'{naming.stop(line[0])} – {naming.stop(line[-1])}' for line in room.pictures.lines],
        'span': [min((event.time for event in events), default=0), max((event.time for event in events), default=0)],
        'tells': room.settings.tells, 'program': room.settings.program is not None, 'late': room.settings.marks.late,
        'starts': bool(room.settings.start),
    }


def line_of(room: Room, train: list[int]) -> int:
    """The line that has most stops of a train; -1 if none has any."""
    stops = {room.day.network.events[place].stop for place in train}
    shared = [len(stops.intersection(line)) for line in room.pictures.lines]
    return max(range(len(shared)), key=shared.__getitem__) if any(shared) else -1


# ---- What is looked up


def train_of(day: Day, number: int) -> dict[str, Any]:
    """A train: its events, its drives and waits, the changes from and to it, and the trains that share its tracks."""
    network, naming, rows, times = day.network, day.naming, day.reckoning.rows, day.reckoning.times
    train = day.trains[number]
    mine = set(train)
    legs = [activity for place in train for activity in network.out_of[place]
            if network.heads[activity] in mine and network.activities[activity].kind in ('drive', 'wait')]
    near = [activity for place in train for activity in (*day.reckoning.into[place], *network.out_of[place])]
    changes = [activity for activity in near if network.activities[activity].kind == 'change']
    pairs = sorted({pair for activity in near if (pair := network.pair_by_activity[activity]) is not None})
    return {
        'number': number, 'name': naming.labels[number], 'trip': day.names.trips.get(network.events[train[0]].id, ''),
        'events': [event_row(day, place, naming.at(place)) for place in train],
        'legs': [[network.activities[leg].id, naming.activity(network.activities[leg].id),
                  duration(rows.activity_delays[leg]) if rows.activity_delays[leg] else ''] for leg in legs],
        'changes': [change_row(day, change) for change in changes],
        'pairs': [pair_row(day, pair) for pair in pairs
                  if all(rows.passed[place] is None and not rows.cancelled[place] for place in network.pairs[pair])],
        'times': [times[train[0]], times[train[-1]]],
    }


def change_row(day: Day, change: int) -> list[Any]:
    """A change: its id and words, whether it is kept, whether its train has left, how long that waits, whether an end is cancelled, and
    whether it is locked."""
    network, rows, number = day.network, day.reckoning.rows, day.network.activities[change].id
    tail, head = network.tails[change], network.heads[change]
    return [number, day.naming.activity(number), rows.kept[change], rows.passed[head] is not None,
            duration(day.waits[change]) if change in day.waits else '', rows.cancelled[tail] or rows.cancelled[head], Change(number) in rows.locked]


def pair_row(day: Day, pair: int) -> list[Any]:
    """A pair: the event that goes first and the other one, by id, in words with what turning it would say, a headway between, how
    long the other one waits, and whether their order is locked."""
    ends, rows = day.network.pairs[pair], day.reckoning.rows
    first = rows.first[pair]
    other = ends[0] if ends[1] == first else ends[1]
    events, naming = day.network.events, day.naming
    waits = conflicts_of(day.network, rows, day.reckoning.times, [pair], dict(zip(ends, map(day.reckoning.into.__getitem__, ends))))
    return [events[first].id, events[other].id, naming.decision(First(events[first].id, events[other].id)),
            naming.decision(First(events[other].id, events[first].id)),
            day.network.activities[day.network.headways[ends][0]].id, duration(waits[0].wait) if waits else '',
            day.network.pair_choice(pair) in rows.locked]


def event_row(day: Day, place: int, where: str) -> list[Any]:
    """An event: id, where, kind, scheduled, now, how late, whether it has passed, its own delay, both times in seconds, and whether it is
    cancelled."""
    event, time, rows = day.network.events[place], day.reckoning.times[place], day.reckoning.rows
    is_cancelled = rows.cancelled[place]
    late = 0 if is_cancelled else max(0, time - event.time)
    return [event.id, where, event.kind, clock_time(event.time, True), '–' if is_cancelled else clock_time(time, True),
            duration(late) if late else '', rows.passed[place] is not None, rows.event_delays[place], event.time, time, is_cancelled]


def board_of(room: Room, stop: int) -> dict[str, Any]:
    """The board of a stop: its events by their times as they stand, and what the server's own board shows, if there is one."""
    day = room.day
    places = day.at_stop.get(stop, [])
    times = day.reckoning.times
    shown = server_board(os.path.join(room.settings.net, f'board-{stop:d}.txt'))
    rows = [[*event_row(day, place, day.naming.train(place)), day.naming.train_of[place],
             board_time(shown, day.network.events[place].id)] for place in sorted(places, key=lambda place: (times[place], place))]
    return {'stop': stop, 'name': day.naming.stop(stop), 'events': rows, 'served': bool(shown)}


def board_time(shown: dict[int, int], event: int) -> str:
    return clock_time(shown[event], True) if event in shown else ''


def server_board(path: str) -> dict[int, int]:
    """The last time of each event at the end of a board's file; nothing if there is no file."""
    try:
        with open(path, 'rb') as file:
            file.seek(0, os.SEEK_END)
            file.seek(max(0, file.tell() - BOARD_TAIL))
            data = file.read()
    except OSError:
        return {}
    return {int(event): int(time) for event, time in TIME.findall(data)}
