"""Policies of one's own: functions from a day so far to lines of a feed, named on a command line as `module:function`.

A day is played as it would be in a control room. Every few minutes what has become known is reported, and the policy is asked. It
gets a day so far, and gives lines `keep A`, `drop A` and `first E F`. They become lines of the day's feed. What has happened by
then cannot be decided any more, and what has not cannot happen before then.
"""
from __future__ import annotations

import importlib
import importlib.util
import os
import re
import sys
from dataclasses import dataclass
from functools import partial
from types import ModuleType
from typing import Callable, Iterable, Sequence

from dispatch_tools.days.playing import Played
from dispatch_tools.formats.files import BadFile
from dispatch_tools.formats.plan_text import read_decision
from dispatch_tools.model.messages import Decision
from dispatch_tools.model.network import Choice, Network
from dispatch_tools.model.railway import (
    active_activities, decision_refusal, free_choices, least_times, Rows, sound_times,
)
from dispatch_tools.pictures.scene import clock_time

# How a policy is named: a module, a function of it, and perhaps a number that the function gets behind the day.
NAMED = re.compile(r'([A-Za-z_][A-Za-z0-9_.]*):([A-Za-z_][A-Za-z0-9_]*)(?::([0-9]{1,9}))?')


@dataclass(frozen=True)
class DaySoFar:
    """What is known at a time of a day.

    `rows` are the delays that are known, the decisions so far, what has happened (passed, each at its time), and the clock, which
    is `now`. `times` are the times of all events by place, as they are with these rows. `free` are the choices that are still open:
    Change(activity) and Pair(first, second), by ids.
    """
    network: Network
    now: int
    rows: Rows
    times: Sequence[int]
    free: Sequence[Choice]

    def times_without(self, *kinds: str) -> list[int]:
        """The times if no open choice of these kinds ('change', 'pair') held anything."""
        left_out = {choice for choice in self.free if choice.KIND in kinds}
        held = [holds and self.network.choice_of_activity(place) not in left_out
                for place, holds in enumerate(active_activities(self.network, self.rows))]
        times = least_times(self.network, self.rows, held)
        assert times is not None, 'rows without a cycle have none where less holds'
        return times

    def at(self, times: Sequence[int], event: int) -> int:
        """The time of an event, by its id, in a list of times."""
        return times[self.network.event_place[event]]


Policy = Callable[[DaySoFar], Iterable[str]]


def policy_of(name: str) -> Policy:
    """The policy that a name says; its module is looked for in the folder where one is, too. BadFile if there is none."""
    found = NAMED.fullmatch(name)
    if found is None:
        raise BadFile(name, None, 'a policy is named as module:function or module:function:NUMBER')
    module, function, number = found.groups()
    try:
        policy: Callable[..., Iterable[str]] = getattr(module_of(module), function)
    except (ImportError, AttributeError) as error:
        raise BadFile(name, None, str(error)) from error
    if not callable(policy):
        raise BadFile(name, None, f'{function} is no function')
    if number is None:
        return policy
    return partial(with_number, policy, int(number))


def module_of(name: str) -> ModuleType:
    """A module by its name: of the folder where one is, else one that Python finds."""
    path = os.path.join(os.getcwd(), *name.split('.')) + '.py'
    if name in sys.modules or not os.path.isfile(path):
        return importlib.import_module(name)
    spec = importlib.util.spec_from_file_location(name, path)
    if spec is None or spec.loader is None:
        raise ImportError(f'{path} cannot be read')
    module = sys.modules[name] = importlib.util.module_from_spec(spec)
    spec.loader.exec_module(module)
    return module


def with_number(policy: Callable[..., Iterable[str]], number: int, day: DaySoFar) -> Iterable[str]:
    return policy(day, number)


def day_so_far(played: Played, now: int) -> DaySoFar:
    """What is known of a day at a time: what is shown up to then has happened."""
    network, rows = played.network, played.rows.copy()
    for place, at in enumerate(sound_times(network, played.rows)):
        if at <= now and rows.passed[place] is None:
            rows.passed[place] = at
    rows.clock = max(rows.clock, now)
    return DaySoFar(network, now, rows, sound_times(network, rows), free_choices(network, rows))


def decided(name: str, policy: Policy, day: DaySoFar) -> list[Decision]:
    """What a policy decides; BadFile if a line of it is none, or cannot be decided any more."""
    decisions = []
    for line in policy(day):
        decision = read_decision(line.split())
        if decision is None:
            raise BadFile(name, None, f'"{line}" is none of keep A, drop A, first E F')
        refusal = decision_refusal(day.network, day.rows, decision)
        if refusal is not None:
            raise BadFile(name, None, f'at {clock_time(day.now)} it says "{line}", which is refused: {refusal}')
        decisions.append(decision)
    return decisions


def play_by(name: str, played: Played, start: int, end: int, every: int, back: int = 3600) -> None:
    """Plays a day by a policy, which is asked each so many seconds from one time to another, and so long after that."""
    policy = policy_of(name)
    for now in range(start, end + back + 1, every):
        played.tell(now)
        day = day_so_far(played, now)
        try:
            entered = played.enter(decided(name, policy, day))
        except ValueError as error:
            raise BadFile(name, None, f'what it says at {clock_time(now)} lets trains wait for each other') from error
        if entered and not played.clock:
            played.hold_back(now, day.times)
    played.tell(None)
