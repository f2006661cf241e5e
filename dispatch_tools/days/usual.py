"""The usual policies of delay management: functions from a day so far to lines of a feed (policies.py says what a day has).

They know what is known at the time, as a control room does. A study calls them order-SECONDS and fcfs-SECONDS.
"""
from __future__ import annotations

from typing import TYPE_CHECKING, Iterator

from dispatch_tools.model.network import Change, Pair

if TYPE_CHECKING:
    from dispatch_tools.days.policies import DaySoFar


def scheduled_order(day: DaySoFar) -> Iterator[str]:
    """Leaves all as it is scheduled: trains go in their order, and each waits for its changes."""
    yield from ()


def wait_at_most(day: DaySoFar, seconds: int) -> Iterator[str]:
    """A train waits for a change if that holds it up by at most so many seconds, beside times in which no open change holds one."""
    times = day.times_without('change')
    for choice in day.free:
        if isinstance(choice, Change):
            place = day.network.activity_place[choice.activity]
            change = day.network.activities[place]
            ready = day.at(times, change.tail) + change.lower + day.rows.activity_delays[place]
            yield f'{"keep" if ready - day.at(times, change.head) <= seconds else "drop"} {change.id}'


def never_wait(day: DaySoFar) -> Iterator[str]:
    """No train waits for another one."""
    return wait_at_most(day, 0)


def first_come_first_served(day: DaySoFar) -> Iterator[str]:
    """Of two trains that share a track, the one goes first that is there first, beside times in which no open order holds a train."""
    times = day.times_without('pair')
    for choice in day.free:
        if isinstance(choice, Pair) and day.at(times, choice.first) != day.at(times, choice.second):
            first, second = sorted((choice.first, choice.second), key=lambda event: day.at(times, event))
            yield f'first {first} {second}'


def first_come_and_wait(day: DaySoFar, seconds: int) -> Iterator[str]:
    """First come, first served, and waiting so long at most."""
    yield from wait_at_most(day, seconds)
    yield from first_come_first_served(day)
