"""What the page writes as several lines: a train, or a part of it, that is cancelled or runs again, and a choice that is held; and what is
said before something is written."""
from __future__ import annotations

from typing import Iterable, Sequence

from dispatch_tools.days.cancel import gaps
from dispatch_tools.desk.day import Day
from dispatch_tools.desk.naming import few, Naming
from dispatch_tools.desk.undoing import Subject, turned_back
from dispatch_tools.model.messages import Cancel, Decision, Lock, Restore
from dispatch_tools.model.network import Change, Choice, Network
from dispatch_tools.model.railway import choice_of, decision_refusal, Rows
from dispatch_tools.pictures.scene import counted

# The parts of a train that the page cancels: all of it, from a stop on, up to a stop; and what lets it run again.
WHOLE, ENDS, BEGINS, AGAIN = 'whole', 'ends', 'begins', 'again'
PARTS = (WHOLE, ENDS, BEGINS, AGAIN)


def part_of(network: Network, train: Sequence[int], part: str, event: int) -> Sequence[int]:
    """The events of a train, by place, that are cancelled if it ends or begins at the stop of one of them, or that run again."""
    if part in (WHOLE, AGAIN):
        return train
    at = train.index(event)
    # The first departure from that stop on.
    leaves = at if network.events[event].kind == 'departure' else at + 1
    return train[leaves:] if part == ENDS else train[:leaves]


def lines_for(day: Day, part: str, places: Iterable[int]) -> list[Cancel | Restore]:
    """The lines that cancel events, or let them run again, without those of which that cannot be said."""
    rows, events = day.reckoning.rows, day.network.events
    ahead = [place for place in places if rows.passed[place] is None]
    if part == AGAIN:
        return [Restore(events[place].id) for place in ahead if rows.cancelled[place]]
    return [Cancel(events[place].id) for place in ahead if not rows.cancelled[place]]


def passengers_of(network: Network, rows: Rows, places: Iterable[int]) -> tuple[int, int]:
    """How many passengers leave at some events, and how many have a change there that is kept, in thousandths."""
    chosen = set(places)
    leaving = sum(network.events[place].weight for place in chosen if network.events[place].kind == 'arrival')
    changing = sum(activity.weight for place, activity in enumerate(network.activities)
                   if activity.kind == 'change' and rows.kept[place] and rows.passed[network.heads[place]] is None
                   and (network.tails[place] in chosen or network.heads[place] in chosen))
    return leaving, changing


def passenger_words(network: Network, rows: Rows, places: Iterable[int]) -> str:
    """Whom it concerns that some events are cancelled."""
    leaving, changing = passengers_of(network, rows, places)
    return f'{leaving / 1000:g} passengers leave the train there, and {changing / 1000:g} change'


def flags_behind(day: Day, lines: Sequence[Cancel | Restore]) -> list[bool]:
    """Which events are cancelled behind some lines, by place."""
    flags = day.reckoning.rows.cancelled[:]
    for line in lines:
        flags[day.network.event_place[line.event]] = isinstance(line, Cancel)
    return flags


def is_cancelled_words(day: Day, number: int, lines: Sequence[Cancel | Restore]) -> str:
    """Which part of a train is cancelled behind some lines, or that it runs again."""
    name, flags = day.naming.labels[number], flags_behind(day, lines)
    if not any(flags[place] for place in day.trains[number]):
        return f'{name} runs again'
    return f'{name} is cancelled {part_words(day.naming, day.trains[number], flags)}'


def warnings(day: Day, number: int, lines: Sequence[Cancel | Restore]) -> list[str]:
    """What somebody should know before a train, or a part of it, is cancelled."""
    network, rows, naming, train = day.network, day.reckoning.rows, day.naming, day.trains[number]
    places = [network.event_place[line.event] for line in lines]
    flags = flags_behind(day, lines)
    words = [f'{is_cancelled_words(day, number, lines)}: {passenger_words(network, rows, places)}.']
    words += [f'{naming.event(gap.at)}: {gap.what}.' for gap in gaps(network, [train], flags)]
    for activity, tail, head in zip(network.activities, network.tails, network.heads):
        if activity.kind == 'turnaround' and flags[tail] and not flags[head] and tail in places:
            words.append(f'Its vehicle was to run {naming.train(head)}, which waits for none now: cancel that too if there is no other.')
    return words


def part_words(naming: Naming, train: Sequence[int], cancelled: Sequence[bool]) -> str:
    """Which part of a train is cancelled."""
    gone = [place for place in train if cancelled[place]]
    if len(gone) == len(train):
        return 'whole'
    if train[-1] == gone[-1] and train[len(train) - len(gone)] == gone[0]:
        return f'from {naming.at(gone[0])} on'
    if train[0] == gone[0] and train[len(gone) - 1] == gone[-1]:
        return f'up to {naming.at(gone[-1])}'
    return f'at {counted(len(gone), "event", "events")}'


def cancelled_trains(day: Day) -> list[int]:
    """The trains of which an event is cancelled, by number."""
    flags = day.reckoning.rows.cancelled
    return sorted({day.naming.train_of[place] for place, is_cancelled in enumerate(flags) if is_cancelled}) if any(flags) else []


def cancelled_words(day: Day, number: int) -> tuple[str, str]:
    """Which part of a train is cancelled, and whom that concerns."""
    train, rows = day.trains[number], day.reckoning.rows
    gone = [place for place in train if rows.cancelled[place]]
    return part_words(day.naming, train, rows.cancelled), passenger_words(day.network, rows, gone)


def held_lines(network: Network, rows: Rows, decision: Decision) -> list[Decision | Lock]:
    """The lines that make a choice, if it is not made yet, and lock it."""
    made = rows.copy()
    made.decide(network, decision)
    lines: list[Decision | Lock] = [] if vars(made) == vars(rows) else [decision]
    return [*lines, Lock(choice_of(decision))]


def subject_of_lock(choice: Choice) -> Subject:
    return Subject('lock', *choice.numbers)


def locks(rows: Rows) -> list[Choice]:
    """The choices that are locked, changes first."""
    return sorted(rows.locked, key=lambda choice: (not isinstance(choice, Change), choice.numbers))


def still_free(naming: Naming, rows: Rows, decisions: Sequence[Decision]) -> tuple[list[Decision], list[str]]:
    """The decisions that can still be made, and in words each other one that differs from the rows, with what refuses it."""
    free, others = [], []
    for decision in decisions:
        refusal = decision_refusal(naming.network, rows, decision)
        if refusal is None:
            free.append(decision)
        elif turned_back(decision, rows, naming.network) is not None:
            others.append(f'{naming.decision(decision)} ({naming.refusal(refusal)})')
    return free, few(others)


def open_at_end(day: Day, waiting: int) -> list[str]:
    """What of a day is not over when somebody closes it, while so many lines wait."""
    ahead = sum(lateness.next is not None for lateness in day.lateness)
    words = [f'{counted(ahead, "train has", "trains have")} not arrived yet.'] if ahead else []
    words += [f'{counted(waiting, "line of this desk waits", "lines of this desk wait")} for the server.'] if waiting else []
    return [*words, 'The server ends. What is reported later waits for the next start.']
