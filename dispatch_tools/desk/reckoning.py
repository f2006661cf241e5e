"""The least timetable of a day's rows, kept up entry by entry.

It is a second reading of the rules, so that an entry is seen at once. The program's own times follow a moment later, and are
compared with it. The time of an event is the largest of its floor and of what the active activities into it ask for. An entry
changes such terms of some events. These events are worked out anew, and then those behind each time that has moved, until none
moves. Without a cycle of active activities these times are the least timetable.
"""
from __future__ import annotations

import heapq
from typing import Iterable

from dispatch_tools.model.messages import Cancel, Decision, DelayActivity, DelayEvent, First, Message, Now, Pass, Recall, Restore
from dispatch_tools.model.network import Network
from dispatch_tools.model.railway import apply, decisions_of, floor_of, Rows, times_of

# After so many steps for each event, all times are worked out at once.
PATIENCE = 4


class Cycle(Exception):
    """The rows have a cycle, which no server's rows have."""


class Reckoning:
    """Rows, and their least times by place."""

    def __init__(self, network: Network, rows: Rows) -> None:
        self.network, self.rows = network, rows
        self.into: list[list[int]] = [[] for _ in network.events]
        for place, head in enumerate(network.heads):
            self.into[head].append(place)
        self.times: list[int] = []
        self.all_anew()

    def begun(self, rows: Rows) -> Reckoning:
        """The same network with other rows."""
        other: Reckoning = object.__new__(Reckoning)
        other.network, other.into, other.rows = self.network, self.into, rows
        other.all_anew()
        return other

    def least(self, place: int, left_out: int = -1) -> int:
        """The time of an event beside the times of the others, with or without one activity that leads to it."""
        rows, network = self.rows, self.network
        time = floor_of(network, rows, place)
        if rows.passed[place] is not None or rows.cancelled[place]:
            return time
        for activity in self.into[place]:
            tail, pair = network.tails[activity], network.pair_by_activity[activity]
            holds = rows.kept[activity] if pair is None else rows.passed[tail] is not None or rows.first[pair] == tail
            if holds and activity != left_out and not rows.cancelled[tail]:
                asked = self.times[tail] + network.activities[activity].lower + rows.activity_delays[activity]
                time = max(time, asked)
        return time

    def enter(self, message: Message) -> set[int]:
        """Applies a message, and gives the places of the events whose terms it changed or whose times have moved."""
        clock = self.rows.clock
        apply(self.network, self.rows, message)
        touched = set(self.touched(message, clock))
        return touched | self.settle(touched)

    def enter_only(self, message: Message) -> None:
        """Applies a message, and leaves the times as they are until `all_anew`."""
        apply(self.network, self.rows, message)

    def all_anew(self) -> None:
        """Works out all times."""
        times = times_of(self.network, self.rows)
        if times is None:
            raise Cycle
        self.times = times

    def touched(self, message: Message, clock: int) -> Iterable[int]:
        """The events whose terms a message has changed."""
        network = self.network
        if isinstance(message, Now):
            return [place for place, event in enumerate(network.events)
                    if self.rows.passed[place] is None and event.time + self.rows.event_delays[place] < self.rows.clock > clock]
        if isinstance(message, DelayActivity):
            return [network.heads[network.activity_place[message.activity]]]
        if isinstance(message, DelayEvent):
            return [network.event_place[message.event]]
        if isinstance(message, (Pass, Recall, Cancel, Restore)):
            place = network.event_place[message.event]
            return [place, *(network.heads[activity] for activity in network.out_of[place])]
        return [place for decision in decisions_of(message) for place in self.decided(decision)]

    def decided(self, decision: Decision) -> Iterable[int]:
        if isinstance(decision, First):
            return [self.network.event_place[event] for event in (decision.event, decision.other)]
        return [self.network.heads[self.network.activity_place[decision.activity]]]

    def settle(self, touched: Iterable[int]) -> set[int]:
        """Works out anew what is touched and what stands behind it, the earliest first."""
        waiting = [(self.times[place], place) for place in set(touched)]
        heapq.heapify(waiting)
        queued = {place for _, place in waiting}
        moved: set[int] = set()
        left = PATIENCE * len(self.times)
        while waiting:
            left -= 1
            if left < 0:
                self.all_anew()
                return set(range(len(self.times)))
            _, place = heapq.heappop(waiting)
            queued.discard(place)
            time = self.least(place)
            if time == self.times[place]:
                continue
            moved.add(place)
            self.times[place] = time
            for activity in self.network.out_of[place]:
                head = self.network.heads[activity]
                if head not in queued:
                    queued.add(head)
                    heapq.heappush(waiting, (self.times[head], head))
        return moved
