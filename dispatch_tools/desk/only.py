"""What of a day concerns some trains alone: those that run on a line, or call at a stop, or both."""
from __future__ import annotations

from typing import TYPE_CHECKING, Any, Iterable, NamedTuple, Optional

from dispatch_tools.desk.alerts import LATE, limited, MISSED, WAITS
from dispatch_tools.desk.day import Day, Reported, SHOWN
from dispatch_tools.desk.screen import cancelled_row, journal_row, late_row
from dispatch_tools.desk.steering import cancelled_trains
from dispatch_tools.model.messages import Cancel, DelayActivity, DelayEvent, First, Lock, Message, Pass, Recall, Restore, Unlock
from dispatch_tools.model.network import Change
from dispatch_tools.model.railway import decisions_of

if TYPE_CHECKING:
    from dispatch_tools.desk.room import Room


class Only(NamedTuple):
    """The number of a line and the id of a stop; None stands for all."""
    line: Optional[int]
    stop: Optional[int]


def trains_of(room: Room, only: Only) -> set[int]:
    """The trains that have two stops on a line at least, and call at a stop."""
    day, events = room.day, room.day.network.events
    trains: Iterable[int] = range(len(day.trains))
    if only.stop is not None:
        trains = {day.naming.train_of[place] for place in day.at_stop.get(only.stop, [])}
    if only.line is not None:
        line = set(room.pictures.lines[only.line])
        trains = [number for number in trains if len({events[place].stop for place in day.trains[number]} & line) > 1]
    return set(trains)


def places_of(day: Day, message: Message) -> list[int]:
    """The events that a message is about."""
    network = day.network
    if isinstance(message, (DelayEvent, Pass, Recall, Cancel, Restore)):
        return [network.event_place[message.event]]
    activities = [message.activity] if isinstance(message, DelayActivity) else []
    places: list[int] = []
    if isinstance(message, (Lock, Unlock)):
        if isinstance(message.choice, Change):
            activities.append(message.choice.activity)
        else:
            places += map(network.event_place.__getitem__, message.choice.numbers)
    for decision in decisions_of(message):
        if isinstance(decision, First):
            places += [network.event_place[event] for event in (decision.event, decision.other)]
        else:
            activities.append(decision.activity)
    return [*places, *(ends[network.activity_place[activity]] for activity in activities for ends in (network.tails, network.heads))]


def trains_of_message(day: Day, message: Message) -> set[int]:
    return {day.naming.train_of[place] for place in places_of(day, message)}


def trains_of_alert(day: Day, row: dict[str, Any]) -> Optional[set[int]]:
    """The trains that an alert is about; None if it is about the day."""
    if row['kind'] == LATE:
        return {int(row['key'])}
    if row['kind'] in (WAITS, MISSED):
        change = day.network.activity_place[int(row['key'])]
        return {day.naming.train_of[ends[change]] for ends in (day.network.tails, day.network.heads)}
    return None


def screen_only(room: Room, only: Only) -> dict[str, Any]:
    """Late trains, alerts and last entries, as the screen has them, of some trains alone. Alerts that are about the day stay."""
    day, trains = room.day, trains_of(room, only)
    late = [number for number in day.late_trains(60) if number in trains]
    def concerns(row: dict[str, Any]) -> bool: return not trains.isdisjoint(about) if (about := trains_of_alert(day, row)) is not None else True
    def is_about(one: Reported) -> bool: return not trains.isdisjoint(trains_of_message(day, one.message))
    journal = [one for one in reversed(day.last) if is_about(one)][:SHOWN]
    return {
        'late': [late_row(day, number) for number in late[:SHOWN]], 'lateCount': len(late), 'trains': len(trains),
        'cancelled': [cancelled_row(room, number) for number in cancelled_trains(day) if number in trains][:SHOWN],
        'alerts': limited(filter(concerns, room.standing.open_rows)), 'seen': [*filter(concerns, room.standing.seen_rows)],
        'journal': [journal_row(room, one) for one in journal],
    }
