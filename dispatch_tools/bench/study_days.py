"""A day by a policy: what is drawn and played, and what it came to. dispatch-tools study does this for many days, in many processes."""
from __future__ import annotations

import re
import tempfile
import threading
from dataclasses import dataclass
from typing import NamedTuple, Optional

from dispatch_tools.days.delays import Drawing, drawn_day, Lines, size_of
from dispatch_tools.days.playing import Played, Program, replanned, Replanning
from dispatch_tools.days.policies import play_by
from dispatch_tools.formats.giv import read_network
from dispatch_tools.model.network import Network
from dispatch_tools.model.railway import is_met, Rows
from dispatch_tools.pictures.scene import read_text, rows_of

BUDGET = 16_384


class Outcome(NamedTuple):
    """What a policy came to on a day."""
    day: int
    policy: str
    cost: int
    bound: int
    missed_passengers: float
    minutes_by_train: float
    minutes_by_passenger: float
    seconds: float


NUMBERS = Outcome._fields[2:]


@dataclass(frozen=True)
class Settings:
    """What a study is of; a task is a day and a policy of it."""
    dispatcher: str
    net: str
    seed: int
    kind: str
    probability: float
    size: str
    every: int
    ahead: int
    morning: int
    penalty: int


class Task(NamedTuple):
    day: int
    policy: str


def function_of(policy: str) -> Optional[str]:
    """The function that plays a policy, as MODULE:FUNCTION or MODULE:FUNCTION:NUMBER; None where the program does."""
    if ':' in policy:
        return policy
    found = re.fullmatch('(order|fcfs)-([0-9]{1,6})', policy)
    if found is None:
        return None
    name = 'wait_at_most' if found[1] == 'order' else 'first_come_and_wait'
    return f'dispatch_tools.days.usual:{name}:{found[2]}'


class Worker:
    """The network of a study, and days that are played over it."""

    def __init__(self, settings: Settings) -> None:
        self.settings = settings
        self.network = read_network(settings.net)
        self.lines = Lines(self.network)

    def outcome(self, task: Task) -> Outcome:
        settings = self.settings
        drawing = Drawing(settings.kind, settings.probability, size_of(settings.size))
        told = drawn_day(self.lines, drawing, settings.seed, task.day)
        played = Played(self.network, Rows(self.network), ahead=told)
        with tempfile.TemporaryDirectory() as folder:
            program = Program(settings.dispatcher, settings.net, settings.penalty, folder)
            self.play(program, played, task.policy)
            if task.policy == 'hindsight':
                played.lines += [f'plan {BUDGET}', 'adopt']
            cost = program.judged(played.lines)
            return self.measured(task, program, cost)

    def play(self, program: Program, played: Played, policy: str) -> None:
        settings = self.settings
        start, end = self.lines.span()
        if policy == 'windows':
            replanned(program, played, start, end, Replanning(60 * settings.every, 60 * settings.ahead))
        elif policy == 'morning':
            now = start + 60 * settings.morning
            played.tell(now)
            program.run(played.lines)
            played.enter(program.window(now, max(now, end), BUDGET))
        elif (function := function_of(policy)) is not None:
            play_by(function, played, start, end, 60 * settings.every)
        played.tell(None)
        if policy in ('never', 'always') or policy.isdecimal():
            program.run(played.lines)
            played.enter(program.ruled(policy))

    def measured(self, task: Task, program: Program, cost: int) -> Outcome:
        """What the text of a day says of it."""
        network = self.network
        run = read_text(program.path('text'), network)
        rows = rows_of(network, Rows(network), run, program.path('text'))
        times = [run.times[event.id] for event in network.events]
        plans = [item.answer.value for item in run.logs[0].items if item.answer is not None and item.answer.kind == 'plan']
        late = [max(0, time - event.time) for event, time in zip(network.events, times)]
        weights = [event.weight if event.kind == 'arrival' else 0 for event in network.events]
        ends = [late[train[-1]] for train in self.lines.trains]
        return Outcome(
            *task, cost, plans[-1].bound if plans else 0, missed(network, rows, times) / 1000, sum(ends) / 60 / len(ends),
            sum(map(int.__mul__, late, weights)) / 60 / max(1, sum(weights)), program.seconds,
        )


def missed(network: Network, rows: Rows, times: list[int]) -> int:
    """The passengers, in thousandths, whose change is dropped or was missed for good."""
    return sum(
        activity.weight for place, activity in enumerate(network.activities) if activity.kind == 'change' and (
            not rows.kept[place] if rows.passed[network.heads[place]] is None else not is_met(network, rows, times, place)
        )
    )


# The worker of this process, and who uses it: of several threads one at a time, as the seconds of a program are those of a process.
ours: list[Worker] = []
ours_used = threading.Lock()


def outcome_of(settings: Settings, task: Task) -> Outcome:
    """What a task comes to. The network is read once in a process."""
    with ours_used:
        if not ours or ours[0].settings != settings:
            ours[:] = [Worker(settings)]
        return ours[0].outcome(task)
