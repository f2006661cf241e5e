"""Networks: events, and activities between them, by place and by id."""
from __future__ import annotations

from dataclasses import dataclass
from typing import ClassVar, Iterable, NamedTuple, Optional

KINDS = ('drive', 'wait', 'turnaround', 'change', 'headway')


@dataclass(frozen=True, slots=True)
class Change:
    """The choice whether a train waits for another, by the id of the change."""

    KIND: ClassVar[str] = 'change'
    activity: int

    @property
    def numbers(self) -> tuple[int, ...]:
        return (self.activity,)

    def __str__(self) -> str:
        return f'change {self.activity}'


@dataclass(frozen=True, slots=True)
class Pair:
    """The choice which of two events goes first, by their ids, the smaller one first."""

    KIND: ClassVar[str] = 'pair'
    first: int
    second: int

    @property
    def numbers(self) -> tuple[int, ...]:
        return (self.first, self.second)

    def __str__(self) -> str:
        return f'pair {self.first} {self.second}'


Choice = Change | Pair


class Event(NamedTuple):
    id: int
    kind: str
    time: int
    weight: int
    stop: int


class Activity(NamedTuple):
    """An activity, whose tail and head are ids of events."""
    id: int
    kind: str
    tail: int
    head: int
    lower: int
    weight: int


class Network:
    """Events and activities in ascending order of ids, and the pairs of events that headways join both ways, by place."""

    def __init__(self, events: Iterable[Event], activities: Iterable[Activity]) -> None:
        self.events = sorted(events)
        self.activities = sorted(activities)
        self.event_place = {event.id: place for place, event in enumerate(self.events)}
        self.activity_place = {activity.id: place for place, activity in enumerate(self.activities)}
        self.tails = [self.event_place[activity.tail] for activity in self.activities]
        self.heads = [self.event_place[activity.head] for activity in self.activities]
        self.out_of: list[list[int]] = [[] for _ in self.events]
        self.headways: dict[tuple[int, int], list[int]] = {}
        for place, activity in enumerate(self.activities):
            self.out_of[self.tails[place]].append(place)
            if activity.kind == 'headway':
                self.headways.setdefault((self.tails[place], self.heads[place]), []).append(place)
        self.pairs = sorted(ends for ends in self.headways if ends[0] < ends[1] and ends[::-1] in self.headways)
        self.pair_place = {pair: place for place, pair in enumerate(self.pairs)}
        # Of each activity, the place of the pair that it belongs to, as a headway, or None.
        self.pair_by_activity: list[Optional[int]] = [None] * len(self.activities)
        for pair, (first, second) in enumerate(self.pairs):
            for headway in self.headways[first, second] + self.headways[second, first]:
                self.pair_by_activity[headway] = pair

    def pair_of(self, first: int, second: int) -> Optional[int]:
        """The place of the pair of two events, by place, or None."""
        return self.pair_place.get((min(first, second), max(first, second)))

    def pair_at(self, first: int, second: int) -> int:
        """The place of the pair that two events are."""
        return self.pair_place[min(first, second), max(first, second)]

    def pair_choice(self, pair: int) -> Choice:
        """The choice of a pair."""
        first, second = self.pairs[pair]
        return Pair(self.events[first].id, self.events[second].id)

    def choice_of_activity(self, place: int) -> Optional[Choice]:
        """The choice that an activity hangs on, or None."""
        if self.activities[place].kind == 'change':
            return Change(self.activities[place].id)
        pair = self.pair_by_activity[place]
        return None if pair is None else self.pair_choice(pair)
