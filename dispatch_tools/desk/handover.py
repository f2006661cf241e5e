"""The page for whoever takes over: what is open, what was seen, what stands, and what was decided in the last hour. It has no script."""
from __future__ import annotations

from typing import TYPE_CHECKING, Iterable, Iterator, Sequence

from dispatch_tools.desk.day import Day, Reported
from dispatch_tools.desk.naming import few
from dispatch_tools.desk.notebook import wall_time
from dispatch_tools.desk.screen import cancelled_row, late_row, lock_row, plan_row
from dispatch_tools.desk.steering import cancelled_trains, locks
from dispatch_tools.formats.markup import escaped
from dispatch_tools.model.messages import Adopt, DelayActivity, DelayEvent, Drop
from dispatch_tools.pictures.scene import whole_time
from dispatch_tools.pictures.view import cost_words

if TYPE_CHECKING:
    from dispatch_tools.desk.room import Room

# The last hour, and how many rows a table has at most.
HOUR, MOST = 3_600, 200


def handover(room: Room) -> str:
    """The page in HTML."""
    day = room.day
    clock = whole_time(day.clock) if day.clock else 'not reported'
    title = f'Handover by {room.who()}'
    return ('<!DOCTYPE html>\n<html lang="en"><head><meta charset="utf-8"><meta name="viewport" content="width=device-width,initial-scale=1">'
            f'<title>{escaped(title)}</title><link rel="stylesheet" href="/desk.css"></head><body>\n<h1>{escaped(title)}</h1>\n'
            f'<p>Clock of the day: {clock}. On the wall: {wall_time()}. {escaped(state(room))}</p>\n{"".join(sections(room))}</body></html>\n')


def state(room: Room) -> str:
    """How far the day is, what it costs, and which plan there is."""
    plan, followed = plan_row(room), room.followed
    cost = f' The day costs {cost_words(followed.cost)} at entry {followed.entries}.' if followed else ''
    if plan is None:
        return f'Entries: {len(room.day.entries)}.{cost} No plan was asked for here.'
    adopted = f'adopted as entry {plan["adopted"]}{"" if plan["undone"] is None else ", and taken back"}'
    is_what = adopted if plan['adopted'] else 'old' if plan['old'] else 'not adopted yet'
    return f'Entries: {len(room.day.entries)}.{cost} The plan of entry {plan["entry"]} is {is_what}.'


def sections(room: Room) -> Iterator[str]:
    day, standing = room.day, room.standing
    yield section('Open alerts', ['Severity', 'Since', 'What'], [[row['severity'], row['clock'], row['words']] for row in standing.rows])
    yield section('Seen alerts', ['Severity', 'Since', 'What', 'Seen by', 'At'],
                  [[row['severity'], row['clock'], row['words'], row['who'], row['at']] for row in standing.seen_rows])
    late = [late_row(day, number) for number in day.late_trains(60)[:MOST]]
    yield section('Late trains', ['Train', 'Next', 'Scheduled', 'Now', 'Late there', 'At the worst'], [[*row[1:6], row[7]] for row in late])
    yield section('Cancelled trains', ['Train', 'Part', 'Whom it concerns', 'By'], [cancelled_row(room, number)[1:] for number in cancelled_trains(day)])
    yield section('Choices that are held', ['What', 'By'], [lock_row(room, choice)[1:] for choice in locks(day.reckoning.rows)])
    yield section('Reports that hold', ['What'], [[words] for words in delays(day)])
    yield section('Changes that nobody waits for', ['What'], [[words] for words in dropped(day)])
    yield section('Decisions of the last hour', ['Entry', 'Clock', 'By', 'What'], [decided(room, one) for one in last_hour(day)])


def section(title: str, heads: Sequence[str], rows: Sequence[Sequence[object]]) -> str:
    if not rows:
        return f'<section><h2>{escaped(title)}</h2><p>None.</p></section>\n'
    more = f'<p>and {len(rows) - MOST} more</p>' if len(rows) > MOST else ''
    return (f'<section><h2>{escaped(title)}</h2><table><thead><tr>{cells("th", heads)}</tr></thead><tbody>\n'
            f'{"".join(map(row_of, rows[:MOST]))}</tbody></table>{more}</section>\n')


def row_of(row: Iterable[object]) -> str:
    return f'<tr>{cells("td", row)}</tr>\n'


def cells(kind: str, values: Iterable[object]) -> str:
    return ''.join(f'<{kind}>{escaped(str(value))}</{kind}>' for value in values)


def delays(day: Day) -> Iterator[str]:
    """The delays that somebody reported and that hold, of what has not passed."""
    rows, network = day.reckoning.rows, day.network
    for place, event in enumerate(network.events):
        if rows.event_delays[place] and rows.passed[place] is None:
            yield day.naming.said(DelayEvent(event.id, rows.event_delays[place]))
    for place, activity in enumerate(network.activities):
        if rows.activity_delays[place] and rows.passed[network.heads[place]] is None:
            yield day.naming.said(DelayActivity(activity.id, rows.activity_delays[place]))


def dropped(day: Day) -> Iterator[str]:
    """The changes that are dropped while their trains have not left."""
    rows, network = day.reckoning.rows, day.network
    for place, activity in enumerate(network.activities):
        if activity.kind == 'change' and not rows.kept[place] and rows.passed[network.heads[place]] is None:
            yield day.naming.said(Drop(activity.id))


def last_hour(day: Day) -> list[Reported]:
    """The decisions of the last hour by the clock of the day, the newest first."""
    return [one for one in reversed(day.decided) if one.clock >= day.clock - HOUR]


def decided(room: Room, one: Reported) -> list[object]:
    naming = room.day.naming
    words = naming.said(one.message)
    if isinstance(one.message, Adopt):
        words = f'{words}: {"; ".join(few([naming.decision(decision) for decision in one.message.decisions]))}'
    return [one.entry, whole_time(one.clock) if one.clock else '', room.reporter(one.feed, one.line), words]
