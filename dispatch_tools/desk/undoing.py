"""The lines that take a line back."""
from __future__ import annotations

from typing import NamedTuple, Optional

from dispatch_tools.model.messages import (
    Cancel, Decision, DelayActivity, DelayEvent, Drop, First, Keep, Lock, Message, Now, Pass, Recall, Restore, Unlock,
)
from dispatch_tools.model.network import Change, Choice, Network, Pair
from dispatch_tools.model.railway import choice_refusal, decisions_of, Rows


class Subject(NamedTuple):
    """What messages are about: of two about the same, the later one holds. A pair has two events, the smaller first."""
    kind: str
    number: int
    other: int = 0


def subjects_of(message: Message) -> list[Subject]:
    """What a message is about."""
    if isinstance(message, DelayEvent):
        return [Subject('delay event', message.event)]
    if isinstance(message, DelayActivity):
        return [Subject('delay activity', message.activity)]
    if isinstance(message, (Pass, Recall)):
        return [Subject('pass', message.event)]
    if isinstance(message, (Cancel, Restore)):
        return [Subject('cancel', message.event)]
    if isinstance(message, (Lock, Unlock)):
        return [Subject('lock', *message.choice.numbers)]
    return [subject_of(decision) for decision in decisions_of(message)]


def subject_of(decision: Decision) -> Subject:
    if isinstance(decision, First):
        return Subject('first', *sorted((decision.event, decision.other)))
    return Subject('keep', decision.activity)


def standing(subject: Subject, rows: Rows, network: Network) -> Message:
    """The message that would set what the rows have anyway."""
    kind, number, other = subject
    if kind == 'delay event':
        return DelayEvent(number, rows.event_delays[network.event_place[number]])
    if kind == 'delay activity':
        return DelayActivity(number, rows.activity_delays[network.activity_place[number]])
    if kind == 'pass':
        time = rows.passed[network.event_place[number]]
        return Recall(number) if time is None else Pass(number, time)
    if kind == 'cancel':
        return Cancel(number) if rows.cancelled[network.event_place[number]] else Restore(number)
    if kind == 'lock':
        choice: Choice = Pair(number, other) if other else Change(number)
        return Lock(choice) if choice in rows.locked else Unlock(choice)
    if kind == 'keep':
        return Keep(number) if rows.kept[network.activity_place[number]] else Drop(number)
    one, two = network.event_place[number], network.event_place[other]
    return First(number, other) if rows.first[network.pair_at(one, two)] == one else First(other, number)


def reversal(said: Message, before: Rows, network: Network) -> Optional[list[Message]]:
    """The lines that take a message back, from the rows before it; None if nothing can (the clock does not go back, and what has passed or
    is cancelled is not locked again), and no lines if it changed nothing."""
    if isinstance(said, Now):
        return None
    if isinstance(said, DelayEvent):
        was = before.event_delays[network.event_place[said.event]]
        return [DelayEvent(said.event, was)] if was != said.seconds else []
    if isinstance(said, DelayActivity):
        was = before.activity_delays[network.activity_place[said.activity]]
        return [DelayActivity(said.activity, was)] if was != said.seconds else []
    if isinstance(said, Pass):
        was_cancelled = before.cancelled[network.event_place[said.event]]
        return [Recall(said.event), Cancel(said.event)] if was_cancelled else [Recall(said.event)]
    if isinstance(said, (Cancel, Restore)):
        return [Restore(said.event) if isinstance(said, Cancel) else Cancel(said.event)]
    if isinstance(said, Lock):
        return [Unlock(said.choice)]
    if isinstance(said, Unlock):
        return [Lock(said.choice)] if may_be_locked(said, before, network) else None
    if isinstance(said, Recall):
        time = before.passed[network.event_place[said.event]]
        return [Pass(said.event, time)] if time is not None else []
    turned = [turned_back(decision, before, network) for decision in decisions_of(said)]
    return [decision for decision in reversed(turned) if decision is not None]


def may_be_locked(said: Unlock, before: Rows, network: Network) -> bool:
    """Whether a choice could be locked, if it were not so already."""
    refusal = choice_refusal(network, before, said.choice, said.choice.numbers)
    return refusal is not None and refusal.reason == 'locked'


def turned_back(decision: Decision, rows: Rows, network: Network) -> Optional[Decision]:
    """The decision that the rows had before, or None if it is this one."""
    if isinstance(decision, First):
        one, other = network.event_place[decision.event], network.event_place[decision.other]
        return None if rows.first[network.pair_at(one, other)] == one else First(decision.other, decision.event)
    was: Decision = Keep(decision.activity) if rows.kept[network.activity_place[decision.activity]] else Drop(decision.activity)
    return None if was == decision else was
