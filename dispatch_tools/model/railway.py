"""Rows, refusals, least times, costs and free choices: a second reading of the rules.

It shares no code with the program, and keeps nothing from one question to the next. It works out times by a walk along an order
of all events, and costs from all events and activities. Its words are those of docs/MODEL.md. A place is a position from 0 in a list of the network. Times are in seconds, weights in thousandths of passengers,
costs in thousandths of passenger seconds.

It does not test limits, cycles, or headways without a bound. giv.py reads the files, in the standard order of columns.
"""
from __future__ import annotations

from typing import Iterable, NamedTuple, Optional, Sequence

from dispatch_tools.model.messages import (
    Adopt, Cancel, Decision, DECISIONS, DelayActivity, DelayEvent, Drop, First, Keep, Lock, Message, Node, Now, Pass, Recall, Refusal, Restore, Unlock,
)
from dispatch_tools.model.network import Change, Choice, Network, Pair

MOST_ENTRIES = 1_000_000
LARGEST_DELAY = 1_000_000
LARGEST_PASSED = 2_000_000_000


class Rows:
    """A day so far: delays, passed times, cancelled events, kept changes and the first event of each pair, by place; the choices that are
    locked; and the clock. At the start these events, by id, are cancelled."""

    def __init__(self, network: Network, event_delays: Iterable[tuple[int, int]] = (), activity_delays: Iterable[tuple[int, int]] = (),
                 cancelled: Iterable[int] = ()) -> None:
        self.event_delays = [0] * len(network.events)
        self.activity_delays = [0] * len(network.activities)
        self.passed: list[Optional[int]] = [None] * len(network.events)
        self.cancelled = [False] * len(network.events)
        self.kept = [True] * len(network.activities)
        self.first = [min(pair, key=lambda place: (network.events[place].time, place)) for pair in network.pairs]
        self.locked: set[Choice] = set()
        self.clock = 0
        for event, delay in event_delays:
            self.event_delays[network.event_place[event]] = delay
        for activity, delay in activity_delays:
            self.activity_delays[network.activity_place[activity]] = delay
        for event in cancelled:
            self.cancelled[network.event_place[event]] = True

    def copy(self) -> Rows:
        other = object.__new__(Rows)
        other.event_delays = self.event_delays[:]
        other.activity_delays = self.activity_delays[:]
        other.passed = self.passed[:]
        other.cancelled = self.cancelled[:]
        other.kept = self.kept[:]
        other.first = self.first[:]
        other.locked = set(self.locked)
        other.clock = self.clock
        return other

    def decide(self, network: Network, decision: Decision) -> None:
        if isinstance(decision, First):
            first = network.event_place[decision.event]
            self.first[network.pair_at(first, network.event_place[decision.other])] = first
        else:
            self.kept[network.activity_place[decision.activity]] = isinstance(decision, Keep)


# ---- Times and costs


def is_active(network: Network, rows: Rows, place: int) -> bool:
    tail, head = network.tails[place], network.heads[place]
    if rows.cancelled[tail] or rows.cancelled[head] or rows.passed[head] is not None:
        return False
    pair = network.pair_by_activity[place]
    if pair is not None:
        return rows.passed[tail] is not None or rows.first[pair] == tail
    return rows.kept[place]


def active_activities(network: Network, rows: Rows) -> list[bool]:
    """Whether each activity is active, as is_active says of one."""
    passed, kept, first, cancelled = rows.passed, rows.kept, rows.first, rows.cancelled
    return [
        passed[head] is None and not (cancelled[tail] or cancelled[head])
        and (kept[place] if pair is None else passed[tail] is not None or first[pair] == tail)
        for place, (tail, head, pair) in enumerate(zip(network.tails, network.heads, network.pair_by_activity))
    ]


def floor_of(network: Network, rows: Rows, place: int) -> int:
    """The passed time of an event, or else the earliest one that its schedule, its delay and the clock allow."""
    passed = rows.passed[place]
    if passed is not None:
        return passed
    return max(network.events[place].time + rows.event_delays[place], rows.clock)


def span_of(network: Network, rows: Rows, place: int) -> int:
    return network.activities[place].lower + rows.activity_delays[place]


def waits_and_spans(network: Network, rows: Rows, held: Sequence[bool]) -> tuple[list[int], list[int]]:
    """How many held activities lead to each event, and what each activity takes."""
    waits_for = [0] * len(network.events)
    for head, is_held in zip(network.heads, held):
        waits_for[head] += is_held
    return waits_for, [activity.lower + delay for activity, delay in zip(network.activities, rows.activity_delays)]


def push(
    network: Network, place: int, held: Sequence[bool], spans: Sequence[int], times: list[int], waits_for: list[int], ready: list[int],
) -> None:
    """Puts the events behind one no earlier than its time lets them be; one that waits for no other is ready then."""
    heads, at = network.heads, times[place]
    for activity in network.out_of[place]:
        if held[activity]:
            head = heads[activity]
            times[head] = max(times[head], at + spans[activity])
            waits_for[head] -= 1
            if not waits_for[head]:
                ready.append(head)


def least_times(network: Network, rows: Rows, held: Sequence[bool]) -> Optional[list[int]]:
    """The least timetable that holds these activities, or None if they have a cycle."""
    waits_for, spans = waits_and_spans(network, rows, held)
    times = [floor_of(network, rows, place) for place in range(len(network.events))]
    settled = [place for place, count in enumerate(waits_for) if count == 0]
    for place in settled:
        push(network, place, held, spans, times, waits_for, settled)
    return times if len(settled) == len(times) else None


def times_of(network: Network, rows: Rows) -> Optional[list[int]]:
    """The least timetable of rows, or None if they have a cycle."""
    return least_times(network, rows, active_activities(network, rows))


def sound_times(network: Network, rows: Rows) -> list[int]:
    """The least timetable of rows that have no cycle."""
    times = times_of(network, rows)
    assert times is not None, 'these rows have a cycle'
    return times


def is_met(network: Network, rows: Rows, times: Sequence[int], place: int) -> bool:
    """Whether the head of an activity is late enough after its tail."""
    return times[network.heads[place]] >= times[network.tails[place]] + span_of(network, rows, place)


def charged_activities(network: Network, rows: Rows) -> list[bool]:
    """Whether each activity, where it is a change whose head has not passed, is charged for: it is dropped, or has a cancelled end."""
    cancelled = rows.cancelled
    return [not kept or cancelled[tail] or cancelled[head] for kept, tail, head in zip(rows.kept, network.tails, network.heads)]


def cost_charging(network: Network, rows: Rows, times: Sequence[int], penalty: int, charged: Sequence[bool]) -> int:
    """What lateness at arrivals costs, and the penalty for cancelled arrivals, for charged changes, and for those whose passed head comes
    too early, or whose tail is cancelled."""
    cost = 0
    for event, time, is_cancelled in zip(network.events, times, rows.cancelled):
        if event.kind == 'arrival':
            cost += event.weight * (penalty if is_cancelled else max(0, time - event.time))
    for place, activity in enumerate(network.activities):
        if activity.kind == 'change':
            has_passed = rows.passed[network.heads[place]] is not None
            missed = is_missed(network, rows, times, place) if has_passed else charged[place]
            cost += penalty * activity.weight * missed
    return cost


def is_missed(network: Network, rows: Rows, times: Sequence[int], place: int) -> bool:
    """Whether nobody makes a change whose head has passed."""
    return rows.cancelled[network.tails[place]] or not is_met(network, rows, times, place)


def cost_of(network: Network, rows: Rows, times: Sequence[int], penalty: int) -> int:
    """What rows cost at these times."""
    return cost_charging(network, rows, times, penalty, charged_activities(network, rows))


# ---- Refusals


def passed_refusal(network: Network, rows: Rows, places: Iterable[int]) -> Optional[Refusal]:
    """The refusal of the first of these events that has passed, or None."""
    for place in places:
        time = rows.passed[place]
        if time is not None:
            return Refusal('passed', (network.events[place].id, time))
    return None


def cancelled_refusal(network: Network, rows: Rows, places: Iterable[int]) -> Optional[Refusal]:
    """The refusal of the first of these events that is cancelled, or None."""
    return next((Refusal('cancelled', (network.events[place].id,)) for place in places if rows.cancelled[place]), None)


def unknown_choice(network: Network, choice: Choice, named: tuple[int, ...]) -> Optional[Refusal]:
    """The refusal of a choice that the network has not, or None. The ids stand as they are named."""
    if isinstance(choice, Change):
        if choice.activity not in network.activity_place:
            return Refusal('unknown-activity', named)
        is_change = network.activities[network.activity_place[choice.activity]].kind == 'change'
        return None if is_change else Refusal('unknown-change', named)
    for event in named:
        if event not in network.event_place:
            return Refusal('unknown-event', (event,))
    one, other = (network.event_place[event] for event in named)
    return Refusal('unknown-pair', named) if network.pair_of(one, other) is None else None


def choice_refusal(network: Network, rows: Rows, choice: Choice, named: tuple[int, ...]) -> Optional[Refusal]:
    """The first refusal of a line that decides or locks a choice, or None. The ids stand as they are named."""
    unknown = unknown_choice(network, choice, named)
    if unknown is not None:
        return unknown
    if isinstance(choice, Change):
        place = network.activity_place[choice.activity]
        ends = [network.tails[place], network.heads[place]]
        refusal = passed_refusal(network, rows, ends[1:])
    else:
        ends = [network.event_place[event] for event in named]
        refusal = passed_refusal(network, rows, ends)
    refusal = refusal or cancelled_refusal(network, rows, ends)
    return Refusal('locked', choice.numbers) if refusal is None and choice in rows.locked else refusal


def decision_refusal(network: Network, rows: Rows, decision: Decision) -> Optional[Refusal]:
    """The first refusal of a decision, or None."""
    return choice_refusal(network, rows, choice_of(decision), decision.numbers())


def lock_refusal(network: Network, rows: Rows, message: Lock | Unlock) -> Optional[Refusal]:
    """The first refusal of a lock, or of one that is taken away, or None."""
    choice = message.choice
    if isinstance(message, Lock):
        return choice_refusal(network, rows, choice, choice.numbers)
    unknown = unknown_choice(network, choice, choice.numbers)
    return Refusal('not-locked', choice.numbers) if unknown is None and choice not in rows.locked else unknown


def cancel_refusal(network: Network, rows: Rows, message: Cancel | Restore) -> Optional[Refusal]:
    """The first refusal of a cancelled event, or of one that takes place again, or None."""
    if message.event not in network.event_place:
        return Refusal('unknown-event', (message.event,))
    place = network.event_place[message.event]
    if isinstance(message, Cancel):
        return passed_refusal(network, rows, [place]) or cancelled_refusal(network, rows, [place])
    return None if rows.cancelled[place] else Refusal('not-cancelled', (message.event,))


def event_refusal(network: Network, rows: Rows, message: DelayEvent | Pass | Recall) -> Optional[Refusal]:
    """The first refusal of a delay of an event, of a pass or of a recall, or None."""
    if isinstance(message, Pass) and message.time > LARGEST_PASSED:
        return Refusal('range', (message.time,))
    if isinstance(message, DelayEvent) and message.seconds > LARGEST_DELAY:
        return Refusal('range', (message.seconds,))
    if message.event not in network.event_place:
        return Refusal('unknown-event', (message.event,))
    place = network.event_place[message.event]
    if not isinstance(message, Recall):
        return passed_refusal(network, rows, [place])
    return Refusal('not-passed', (message.event,)) if rows.passed[place] is None else None


def activity_refusal(network: Network, rows: Rows, message: DelayActivity) -> Optional[Refusal]:
    """The first refusal of a delay of an activity, or None."""
    if message.seconds > LARGEST_DELAY:
        return Refusal('range', (message.seconds,))
    if message.activity not in network.activity_place:
        return Refusal('unknown-activity', (message.activity,))
    return passed_refusal(network, rows, [network.heads[network.activity_place[message.activity]]])


def clock_refusal(rows: Rows, message: Now) -> Optional[Refusal]:
    """The first refusal of a clock, or None."""
    if message.time > LARGEST_PASSED:
        return Refusal('range', (message.time,))
    return Refusal('back', (rows.clock,)) if message.time < rows.clock else None


def refusal_at_once(network: Network, rows: Rows, message: Message) -> Optional[Refusal]:
    """The first refusal by numbers, ids, passed and cancelled events, locks and the clock, or None."""
    if isinstance(message, Adopt):
        refusals = [decision_refusal(network, rows, decision) for decision in message.decisions]
        return next((refusal for refusal in refusals if refusal is not None), None)
    if isinstance(message, DECISIONS):
        return decision_refusal(network, rows, message)
    if isinstance(message, DelayActivity):
        return activity_refusal(network, rows, message)
    if isinstance(message, Now):
        return clock_refusal(rows, message)
    if isinstance(message, (Cancel, Restore)):
        return cancel_refusal(network, rows, message)
    if isinstance(message, (Lock, Unlock)):
        return lock_refusal(network, rows, message)
    return event_refusal(network, rows, message)


def apply(network: Network, rows: Rows, message: Message) -> None:
    """Makes in rows the change of a message that nothing refuses at once."""
    if isinstance(message, DelayEvent):
        rows.event_delays[network.event_place[message.event]] = message.seconds
    elif isinstance(message, DelayActivity):
        rows.activity_delays[network.activity_place[message.activity]] = message.seconds
    elif isinstance(message, Pass):
        place = network.event_place[message.event]
        rows.passed[place], rows.cancelled[place] = message.time, False
    elif isinstance(message, Recall):
        rows.passed[network.event_place[message.event]] = None
    elif isinstance(message, Now):
        rows.clock = message.time
    elif isinstance(message, (Cancel, Restore)):
        rows.cancelled[network.event_place[message.event]] = isinstance(message, Cancel)
    elif isinstance(message, Lock):
        rows.locked.add(message.choice)
    elif isinstance(message, Unlock):
        rows.locked.discard(message.choice)
    else:
        for decision in decisions_of(message):
            rows.decide(network, decision)


def decisions_of(message: Message) -> tuple[Decision, ...]:
    """The decisions that a message makes, in their order."""
    if isinstance(message, Adopt):
        return message.decisions
    return (message,) if isinstance(message, DECISIONS) else ()


def rows_after(network: Network, rows: Rows, message: Message) -> Rows:
    """The rows after a message that nothing refuses at once."""
    after = rows.copy()
    apply(network, after, message)
    return after


def admit(network: Network, rows: Rows, count: int, message: Message) -> tuple[Optional[Refusal], Optional[Rows]]:
    """The first refusal of a message at so many entries, or None, and the rows after it, where nothing refuses it at once.

    The refusal of a cycle names none. `is_cycle` says which lists are cycles of the rows after it.
    """
    refusal = refusal_at_once(network, rows, message)
    if refusal is not None:
        return refusal, None
    after = rows_after(network, rows, message)
    if times_of(network, after) is None:
        return Refusal('cycle'), after
    return Refusal('full') if count == MOST_ENTRIES else None, after


def is_cycle(network: Network, rows: Rows, activities: Sequence[int]) -> bool:
    """Whether these activities, by id, are active and each leads to the next one, the last to the first."""
    if not activities or any(activity not in network.activity_place for activity in activities):
        return False
    places = [network.activity_place[activity] for activity in activities]
    if not all(is_active(network, rows, place) for place in places):
        return False
    return all(network.heads[place] == network.tails[after] for place, after in zip(places, places[1:] + places[:1]))


# ---- Plans


class Plan(NamedTuple):
    """A plan of the rows at an entry; its nodes stand in preorder, or are None if its leaves are no whole tree."""
    entry: int
    choices: tuple[Decision, ...]
    cost: int
    bound: int
    mark: str
    nodes: Optional[list[Node]]


def free_choices(network: Network, rows: Rows) -> list[Choice]:
    """The changes whose heads have not passed, and then the pairs of which neither event has; without those that are locked or of which
    an event is cancelled."""
    passed, cancelled = rows.passed, rows.cancelled
    changes: list[Choice] = [
        Change(activity.id) for activity, tail, head in zip(network.activities, network.tails, network.heads)
        if activity.kind == 'change' and passed[head] is None and not (cancelled[tail] or cancelled[head])
    ]
    pairs = [
        network.pair_choice(place) for place, (first, second) in enumerate(network.pairs)
        if passed[first] is None and passed[second] is None and not (cancelled[first] or cancelled[second])
    ]
    return [choice for choice in changes + pairs if choice not in rows.locked]


def still_free(network: Network, rows: Rows, choices: Iterable[Decision]) -> Adopt:
    """What `carry` enters of the choices of a plan: those that are free in the rows, in their order."""
    free = set(free_choices(network, rows))
    return Adopt(tuple(decision for decision in choices if choice_of(decision) in free))


def choice_of(decision: Decision) -> Choice:
    """The choice that a decision decides."""
    if isinstance(decision, First):
        return Pair(min(decision.event, decision.other), max(decision.event, decision.other))
    return Change(decision.activity)


def ways_of(choice: Choice) -> tuple[Decision, Decision]:
    """The two decisions of a choice, in the order of the trees below it."""
    if isinstance(choice, Change):
        return Keep(choice.activity), Drop(choice.activity)
    return First(choice.first, choice.second), First(choice.second, choice.first)


def with_decisions(network: Network, rows: Rows, decisions: Iterable[Decision]) -> Rows:
    decided = rows.copy()
    for decision in decisions:
        decided.decide(network, decision)
    return decided
