"""What a day carries into the next one."""
from __future__ import annotations

import os
import subprocess
import tempfile
from dataclasses import dataclass
from datetime import date
from typing import Iterable, Iterator, Optional

from dispatch_tools.formats.files import BadFile, in_one_line
from dispatch_tools.formats.giv import read_network
from dispatch_tools.formats.names import name_of_trip, named_trip, read_day_name, read_events
from dispatch_tools.formats.runtext import Run
from dispatch_tools.live.serving import Server
from dispatch_tools.model.decide import in_turn
from dispatch_tools.model.messages import (
    Adopt, Cancel, Decision, DelayActivity, DelayEvent, Drop, First, Keep, Lock, Message, Now, Pass, Restore,
)
from dispatch_tools.model.network import Change, Choice, Network
from dispatch_tools.model.railway import active_activities, apply, LARGEST_DELAY, refusal_at_once, Rows, sound_times, times_of
from dispatch_tools.pictures.scene import rows_of

WHOLE_DAY = 86_400


# ---- The lines that lead from rows to others


def delays_between(network: Network, start: Rows, target: Rows) -> Iterator[Message]:
    """The delays by which rows differ."""
    for event, now, then in zip(network.events, start.event_delays, target.event_delays):
        if now != then:
            yield DelayEvent(event.id, then)
    for activity, now, then in zip(network.activities, start.activity_delays, target.activity_delays):
        if now != then:
            yield DelayActivity(activity.id, then)


def decisions_between(network: Network, start: Rows, target: Rows) -> list[Decision]:
    """The choices by which rows differ."""
    changes: list[Decision] = [
        Keep(activity.id) if then else Drop(activity.id)
        for activity, now, then in zip(network.activities, start.kept, target.kept) if now != then
    ]
    pairs: list[Decision] = [
        First(*(network.events[place].id for place in (pair if then == pair[0] else pair[::-1])))
        for pair, now, then in zip(network.pairs, start.first, target.first) if now != then
    ]
    return changes + pairs


def passes_of(network: Network, rows: Rows) -> list[Message]:
    """What has passed, by its time."""
    passed = [Pass(event.id, time) for event, time in zip(network.events, rows.passed) if time is not None]
    return [*sorted(passed, key=lambda message: (message.time, message.event))]


def clock_of(rows: Rows) -> list[Message]:
    return [Now(rows.clock)] if rows.clock else []


def restores_between(network: Network, start: Rows, target: Rows) -> Iterator[Message]:
    """Events that were cancelled and are not any more."""
    for event, now, then in zip(network.events, start.cancelled, target.cancelled):
        if now and not then:
            yield Restore(event.id)


def locks_of(start: Rows, target: Rows) -> Iterator[Message]:
    for choice in sorted(target.locked - start.locked, key=lambda choice: (len(choice.numbers), choice.numbers)):
        yield Lock(choice)


def cancels_of(network: Network, start: Rows, target: Rows) -> Iterator[Message]:
    for event, now, then in zip(network.events, start.cancelled, target.cancelled):
        if then and not now:
            yield Cancel(event.id)


def with_delays(network: Network, start: Rows, delays: Iterable[Message]) -> Rows:
    rows = start.copy()
    for message in delays:
        apply(network, rows, message)
    return rows


def straight(network: Network, start: Rows, target: Rows) -> Optional[list[Message]]:
    """The messages that lead to rows: delays, choices, locks, passes, cancelled events and the clock; None if the choices close a cycle
    where nothing has passed or is cancelled yet, or are of events that are cancelled from the start."""
    delays = [*delays_between(network, start, target), *restores_between(network, start, target)]
    rows, choices = with_delays(network, start, delays), decisions_between(network, start, target)
    decided = rows.copy()
    for choice in choices:
        decided.decide(network, choice)
    if times_of(network, rows) is None or times_of(network, decided) is None:
        return None
    try:
        turned = in_turn(network, rows, choices)
    except ValueError:
        return None
    return [*delays, *turned, *locks_of(start, target), *passes_of(network, target), *cancels_of(network, start, target), *clock_of(target)]


def as_it_went(network: Network, start: Rows, target: Rows, journal: Iterable[Message]) -> list[Message]:
    """The messages that lead to the rows after a journal: the delays as they are at last, the clock, and between them all others as they
    came. Delays and the clock close no cycle, so none is closed on the way."""
    delays = list(delays_between(network, start, target))
    rows, messages = with_delays(network, start, delays), list(delays)
    for message in journal:
        if isinstance(message, (DelayEvent, DelayActivity, Now)):
            continue
        if isinstance(message, Adopt):
            messages += in_turn(network, rows, message.decisions)
        else:
            messages.append(message)
        apply(network, rows, message)
    return messages + clock_of(target)


def messages_to(network: Network, start: Rows, target: Rows, run: Run) -> list[Message]:
    """The messages that lead to the rows after all entries of a run."""
    found = straight(network, start, target)
    if found is not None and leads_to(network, start, target, found):
        return found
    return as_it_went(network, start, target, [entry.message for entry in run.journal])


def leads_to(network: Network, start: Rows, target: Rows, messages: Iterable[Message]) -> bool:
    """Whether messages that nothing refuses at once lead to rows."""
    rows = start.copy()
    for message in messages:
        if refusal_at_once(network, rows, message) is not None:
            return False
        apply(network, rows, message)
    return vars(rows) == vars(target)


# ---- From one day to the next


@dataclass(frozen=True)
class Days:
    """Two networks, the seconds between their times, and the places of the events and activities of the one that stand in the other."""
    before: Network
    after: Network
    shift: int
    events: dict[int, int]
    activities: dict[int, int]


def has_names(folder: str) -> bool:
    return all(os.path.exists(os.path.join(folder, name)) for name in ('Events.csv', 'Day.csv'))


def name_of_next_day(trip: str, day: str) -> str:
    """How the next day's network names a train of a day, as 20261223, that runs past midnight."""
    named = named_trip(trip)
    return name_of_trip(named.trip, day, named.start)


def days_between(folder: str, other: str) -> int:
    """The days from that of one network to that of another."""
    try:
        return (date.fromisoformat(read_day_name(other).day) - date.fromisoformat(read_day_name(folder).day)).days
    except ValueError as error:
        raise BadFile(other, None, 'Day.csv of one of the networks names no day') from error


def ids_by_trip(folder: str, other: str) -> dict[int, int]:
    """The ids of the events that two networks name alike, but for the day."""
    day = read_day_name(folder).day.replace('-', '')
    there = {(one.trip, one.sequence, one.stop, one.kind): one.event for one in read_events(other)}
    named = {one.event: (name_of_next_day(one.trip, day), one.sequence, one.stop, one.kind) for one in read_events(folder)}
    return {event: there[name] for event, name in named.items() if name in there}


def same_ids(before: Network, after: Network) -> dict[int, int]:
    """The ids of the events that two networks have, of one kind and at one stop."""
    there = {event.id: event for event in after.events}
    return {
        event.id: event.id for event in before.events
        if event.id in there and (there[event.id].kind, there[event.id].stop) == (event.kind, event.stop)
    }


def events_of_both(before: Network, after: Network, ids: dict[int, int], shift: int) -> dict[int, int]:
    """The places of the events that stand in both networks, so many seconds apart. What lies before the zero of the next one stands at
    its zero there."""
    places = {before.event_place[one]: after.event_place[other] for one, other in ids.items()
              if one in before.event_place and other in after.event_place}
    return {one: other for one, other in places.items() if max(0, before.events[one].time - shift) == after.events[other].time}


def activities_of_both(before: Network, after: Network, events: dict[int, int]) -> dict[int, int]:
    """The places of the activities that stand in both networks; of several between two events, the first with the first."""
    there: dict[tuple[str, int, int], list[int]] = {}
    for place, activity in enumerate(after.activities):
        there.setdefault((activity.kind, after.tails[place], after.heads[place]), []).append(place)
    found = {}
    for place, activity in enumerate(before.activities):
        tail, head = events.get(before.tails[place]), events.get(before.heads[place])
        if tail is not None and head is not None and (left := there.get((activity.kind, tail, head))):
            found[place] = left.pop(0)
    return found


def read_days(folder: str, before: Network, other: str, shift: Optional[int]) -> Days:
    """Two networks, and what stands in both; BadFile if nothing does."""
    after = read_network(other)
    if has_names(folder) and has_names(other):
        shift = WHOLE_DAY * days_between(folder, other) if shift is None else shift
        ids = ids_by_trip(folder, other)
    else:
        shift = WHOLE_DAY if shift is None else shift
        ids = same_ids(before, after)
    events = events_of_both(before, after, ids, shift)
    if not events:
        raise BadFile(other, None, f'no event of {folder} stands there {shift} seconds earlier')
    return Days(before, after, shift, events, activities_of_both(before, after, events))


def is_early(days: Days, place: int) -> bool:
    """Whether an event of the day before lies before the zero of the next one's network, and stands at its zero there."""
    return days.before.events[place].time < days.shift


def is_shorter(days: Days, place: int) -> bool:
    """Whether an activity from before the zero takes less time in the next network than in the one before."""
    there = days.activities.get(place)
    return is_early(days, days.before.tails[place]) and (there is None or days.after.activities[there].lower < days.before.activities[place].lower)


def lateness_of(days: Days, rows: Rows) -> dict[int, int]:
    """The delay that each event of both networks gets in the next one: its own, or all of its lateness where what makes it late is not
    there, or is shorter there."""
    held, times = active_activities(days.before, rows), sound_times(days.before, rows)
    waits_for_others = {
        head for place, (tail, head) in enumerate(zip(days.before.tails, days.before.heads))
        if held[place] and (tail not in days.events or is_shorter(days, place))
    }
    late = {
        one: times[one] - max(days.shift, days.before.events[one].time) if one in waits_for_others or is_early(days, one) else rows.event_delays[one]
        for one in days.events if rows.passed[one] is None
    }
    return {days.events[one]: min(LARGEST_DELAY, max(0, delay)) for one, delay in late.items()}


def rows_of_next_day(days: Days, rows: Rows, start: Rows) -> Rows:
    """The rows of the next day's network that say what still holds of the day before."""
    target = start.copy()
    for other, delay in lateness_of(days, rows).items():
        target.event_delays[other] = max(delay, start.event_delays[other])
    for one, other in days.events.items():
        passed = rows.passed[one]
        target.passed[other] = None if passed is None else max(0, passed - days.shift)
        target.cancelled[other] = rows.cancelled[one]
    for one, other in days.activities.items():
        target.activity_delays[other] = max(rows.activity_delays[one], start.activity_delays[other])
        target.kept[other] = rows.kept[one]
    for pair, first in zip(days.before.pairs, rows.first):
        if all(place in days.events for place in pair):
            there = days.after.pair_of(days.events[pair[0]], days.events[pair[1]])
            if there is not None:
                target.first[there] = days.events[first]
    target.locked = {same for choice in rows.locked if (same := choice_of_next_day(days, choice)) is not None}
    target.clock = max(0, rows.clock - days.shift)
    return target


def choice_of_next_day(days: Days, choice: Choice) -> Optional[Choice]:
    """The choice of the next day's network that one of the day before is, or None."""
    if isinstance(choice, Change):
        activity = days.activities.get(days.before.activity_place[choice.activity])
        return None if activity is None else days.after.choice_of_activity(activity)
    ends = [days.events.get(days.before.event_place[event]) for event in choice.numbers]
    pair = None if ends[0] is None or ends[1] is None else days.after.pair_of(ends[0], ends[1])
    return None if pair is None else days.after.pair_choice(pair)


def without_cycles(network: Network, start: Rows, target: Rows) -> tuple[list[Message], list[Decision]]:
    """The messages that lead to rows, but for the choices that would close a cycle with those before them, and these."""
    found = straight(network, start, target)
    if found is not None:
        return found, []
    left_out: list[Decision] = []
    rows = with_delays(network, start, delays_between(network, start, target))
    for choice in decisions_between(network, start, target):
        tried = rows.copy()
        tried.decide(network, choice)
        if times_of(network, tried) is None:
            left_out.append(choice)
        else:
            rows = tried
    reached = target.copy()
    reached.kept, reached.first = rows.kept, rows.first
    return straight(network, start, reached) or [], left_out


# ---- The proof by the program


def followed(program: str, net: str, text: str, penalty: int) -> list[str]:
    """What `follow` prints of a text behind its first line, which has the number of entries."""
    done = subprocess.run([program, 'follow', net, text, f'--penalty={penalty}'], capture_output=True, text=True, check=False)
    if done.returncode:
        raise BadFile(text, None, f'`{program} follow` ends with status {done.returncode}: {in_one_line(done.stdout or done.stderr)}')
    return done.stdout.splitlines()[1:]


def differs(program: str, net: str, text: str, penalty: int, lines: list[str]) -> bool:
    """Whether the program, told the lines, has other times or another cost than a text says."""
    with tempfile.TemporaryDirectory() as folder:
        server = Server(program, net, os.path.join(folder, 'store'), [os.path.join(folder, 'feed')], [f'--penalty={penalty}'])
        try:
            server.start()
            server.append(0, lines)
            server.wait_for([len(lines)])
            carried = server.stop()
        finally:
            server.kill()
        name = os.path.join(folder, 'carried')
        with open(name, 'wb') as file:
            file.write(carried)
        return followed(program, net, name, penalty) != followed(program, net, text, penalty)


def lines_of_the_day(network: Network, start: Rows, run: Run, text: str) -> list[str]:
    """The lines that lead to where a day stands in its own network."""
    target = rows_of(network, start, run, text)
    messages = messages_to(network, start, target, run)
    if not leads_to(network, start, target, messages):
        raise BadFile(text, None, 'no lines were found that lead to its rows')
    return [*map(str, messages)]
