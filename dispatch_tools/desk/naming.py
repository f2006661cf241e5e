"""What lines and answers say, in the names of trains and stops."""
from __future__ import annotations

from typing import Any, Optional

from dispatch_tools.formats.runtext import Answer
from dispatch_tools.model.messages import (
    Adopt, AdoptLast, AskCost, AskEntries, AskPlan, AskSolve, AskTime, Cancel, CarryOver, Decision, DelayActivity, DelayEvent, First, Keep, Lock,
    Message, Now, Pass, Recall, Refusal, Restore, Said, Statement, STATEMENTS, Unlock,
)
from dispatch_tools.model.network import Change, Choice, Network, Pair
from dispatch_tools.pictures.scene import clock_time, counted, duration
from dispatch_tools.pictures.view import cost_words


# At most so many things are named of one kind.
MOST_SAID = 8


def few(words: list[str]) -> list[str]:
    """The first of some words, and how many more there are."""
    return words if len(words) <= MOST_SAID else [*words[:MOST_SAID], f'and {len(words) - MOST_SAID} more']


class Naming:
    """The names of a network's trains and stops, and what is said of its events and activities."""

    def __init__(self, network: Network, trains: list[list[int]], stops: dict[int, str], labels: dict[int, str]) -> None:
        self.network = network
        self.stops = stops
        firsts = [network.events[train[0]].id for train in trains]
        self.labels = [labels.get(first) or f'Train {first}' for first in firsts]
        self.train_of = {place: number for number, train in enumerate(trains) for place in train}

    def stop(self, stop: int) -> str:
        return self.stops.get(stop) or f'Stop {stop}'

    def train(self, place: int) -> str:
        """The train of an event."""
        return self.labels[self.train_of[place]]

    def at(self, place: int) -> str:
        """The stop of an event."""
        return self.stop(self.network.events[place].stop)

    def event(self, place: int, leaves: str = 'leaves', reaches: str = 'reaches') -> str:
        """An event, as `RE 1 leaves Buche`."""
        verb = leaves if self.network.events[place].kind == 'departure' else reaches
        return f'{self.train(place)} {verb} {self.at(place)}'

    def place(self, event: int) -> Optional[int]:
        return self.network.event_place.get(event)

    def event_of(self, event: int) -> str:
        """An event by its id. A line may name an id that no event has."""
        place = self.place(event)
        return f'event {event}' if place is None else self.event(place)

    def activity(self, number: int) -> str:
        """An activity by its id."""
        at = self.network.activity_place.get(number)
        if at is None:
            return f'activity {number}'
        tail, head = self.network.tails[at], self.network.heads[at]
        kind = self.network.activities[at].kind
        if kind == 'drive':
            return f'{self.train(tail)} from {self.at(tail)} to {self.at(head)}'
        if kind == 'wait':
            return f'{self.train(tail)} in {self.at(tail)}'
        if kind == 'headway':
            return f'{self.train(head)} behind {self.train(tail)} at {self.at(head)}'
        return f'{self.train(tail)} to {self.train(head)} in {self.at(head)}'

    # ---- Lines

    def said(self, said: Said | Message | None) -> str:
        """A line of a feed, or a message, in words."""
        if isinstance(said, STATEMENTS):
            return self.stated(said)
        if isinstance(said, Adopt):
            return f'a plan of {counted(len(said.decisions), "choice", "choices")} is adopted'
        if isinstance(said, AskTime):
            return f'{self.event_of(said.event)}: when?'
        if isinstance(said, AskPlan):
            return f'a plan of at most {counted(said.budget, "node", "nodes")}'
        if isinstance(said, AskSolve):
            return f'a plan by parts of at most {counted(said.budget, "node", "nodes")}'
        if isinstance(said, AskCost):
            return 'what does the day cost?'
        if isinstance(said, AskEntries):
            return 'how far is the journal?'
        if isinstance(said, CarryOver):
            return 'adopt what is still free of the plan'
        return 'adopt the plan' if isinstance(said, AdoptLast) else 'a line that says nothing'

    def stated(self, said: Statement) -> str:
        """What becomes an entry, in words."""
        if isinstance(said, DelayEvent):
            return f'{self.event_of(said.event)}: {f"{duration(said.seconds)} late" if said.seconds else "not late by itself any more"}'
        if isinstance(said, DelayActivity):
            return f'{self.activity(said.activity)}: {f"{duration(said.seconds)} longer" if said.seconds else "as long as planned again"}'
        if isinstance(said, Pass):
            return self.passed(said)
        if isinstance(said, Recall):
            return self.recalled(said)
        if isinstance(said, (Cancel, Restore)):
            return f'{self.event_of(said.event)}: {"cancelled" if isinstance(said, Cancel) else "not cancelled any more"}'
        if isinstance(said, (Lock, Unlock)):
            return f'{self.choice(said.choice)}: {"locked" if isinstance(said, Lock) else "not locked any more"}'
        return f'it is {clock_time(said.time, True)}' if isinstance(said, Now) else self.decision(said)

    def passed(self, said: Pass) -> str:
        place = self.place(said.event)
        event = f'event {said.event} passed' if place is None else self.event(place, 'left', 'reached')
        return f'{event} at {clock_time(said.time, True)}'

    def recalled(self, said: Recall) -> str:
        place = self.place(said.event)
        return f'event {said.event} has not passed' if place is None else f'{self.event(place, "has not left", "has not reached")} after all'

    def choice(self, choice: Choice) -> str:
        """A choice in words."""
        if isinstance(choice, Change):
            return self.activity(choice.activity)
        one, other = self.place(choice.first), self.place(choice.second)
        return str(choice) if one is None or other is None else f'{self.train(one)} and {self.train(other)} at {self.at(one)}'

    def decision(self, decision: Decision) -> str:
        """A decision in words."""
        if isinstance(decision, First):
            one, other = self.place(decision.event), self.place(decision.other)
            if one is None or other is None:
                return str(decision)
            return f'{self.train(one)} goes before {self.train(other)} at {self.at(one)}'
        at = self.network.activity_place.get(decision.activity)
        if at is None:
            return str(decision)
        verb = 'waits' if isinstance(decision, Keep) else 'does not wait'
        tail, head = self.network.tails[at], self.network.heads[at]
        return f'{self.train(head)} {verb} for {self.train(tail)} in {self.at(head)}'

    # ---- Answers

    def answer(self, answer: Optional[Answer]) -> str:
        """An answer in words."""
        if answer is None:
            return 'malformed: the server could not read this line'
        value: Any = answer.value
        words = {
            'ok': f'entered as {answer.entry}', 'read': f'the journal has {answer.entry} entries',
            'old': f'something was entered since the plan: the journal has {answer.entry} entries now. Ask for a plan again',
            'noplan': 'there is no plan to adopt', 'plans': 'this feed has had all the plans that it may have',
        }.get(answer.kind)
        if words is not None:
            return words
        if answer.kind == 'time':
            return f'at {clock_time(value, True)}'
        if answer.kind == 'cost':
            return cost_words(value)
        if answer.kind == 'range':
            return f'refused: {value} is out of range'
        if answer.kind == 'refused':
            return f'refused: {self.refusal(value)}'
        plan = 'plan by parts' if answer.kind == 'solved' else 'plan'
        return f'{value.mark} {plan} of {counted(len(value.choices), "choice", "choices")}, {cost_words(value.cost)}'

    def refusal(self, refusal: Refusal) -> str:
        kind, said = refusal.reason, refusal.numbers
        if kind == 'passed':
            return f'{self.event_of(said[0])} has passed at {clock_time(said[1], True)}'
        if kind in ('cancelled', 'not-cancelled'):
            return f'{self.event_of(said[0])}: this is {"cancelled" if kind == "cancelled" else "not cancelled"}'
        if kind in ('locked', 'not-locked'):
            choice: Choice = Change(said[0]) if len(said) == 1 else Pair(said[0], said[1])
            return f'{self.choice(choice)}: this is {"locked" if kind == "locked" else "not locked"}'
        if kind == 'not-passed':
            return f'{self.event_of(said[0])} has not passed'
        if kind == 'back':
            return f'the clock stands at {clock_time(said[0], True)} and does not go back'
        if kind == 'cycle':
            return f'trains would wait for each other: {"; ".join(map(self.activity, said[:4]))}'
        words = {'range': 'a number is too large', 'full': 'the journal is full', 'unknown-event': 'no such event',
                 'unknown-activity': 'no such activity', 'unknown-change': 'this is no change', 'unknown-pair': 'these two share no track'}
        return ' '.join([words[kind], *map(str, said)]) if said else words[kind]


def raw(said: Said | Message | None) -> str:
    """A line as the feed has it."""
    return 'adopt' if isinstance(said, Adopt) else str(said or '')
