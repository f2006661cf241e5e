"""Plays a day: what is reported as time goes on, the clock, and windows that are planned meanwhile.

The program runs the feed so far, and plans a window over its text. The choices are entered as lines. The module also keeps rows,
by the rules of railway.py. So it need not ask the program at each line.
"""
from __future__ import annotations

import os
import resource
import subprocess
from dataclasses import dataclass, field
from typing import Callable, Optional, Sequence

from dispatch_tools.days.choices import choices_in
from dispatch_tools.days.delays import Told
from dispatch_tools.formats.files import BadFile
from dispatch_tools.formats.lines import Bad
from dispatch_tools.formats.plan_text import read_decision
from dispatch_tools.model.decide import in_turn
from dispatch_tools.model.messages import Decision, DelayEvent, Message, Now, Pass
from dispatch_tools.model.network import Network
from dispatch_tools.model.railway import apply, refusal_at_once, Rows, sound_times

# The most bytes of a feed.
FEED = 262_144


def children_seconds() -> float:
    """The seconds of processor of the commands that have ended."""
    used = resource.getrusage(resource.RUSAGE_CHILDREN)
    return used.ru_utime + used.ru_stime


@dataclass
class Program:
    """The built program over the network of a folder, and how many seconds of processor its commands took; it leaves its files in a
    folder."""
    name: str
    net: str
    penalty: int
    folder: str
    seconds: float = 0
    options: Sequence[str] = ()

    def path(self, name: str) -> str:
        return os.path.join(self.folder, name)

    def call(self, *words: str) -> str:
        """What a command prints; BadFile if it ends with another status than 0."""
        command = [self.name, *words, f'--penalty={self.penalty}', *self.options]
        began = children_seconds()
        try:
            done = subprocess.run(command, capture_output=True, text=True)
        except OSError as error:
            raise BadFile(self.name, None, error.strerror or 'cannot be run') from error
        self.seconds += children_seconds() - began
        if done.returncode != 0:
            said = (done.stdout.splitlines() or [''])[0]
            raise BadFile(' '.join(command), None, f'it ends with status {done.returncode}: {said}')
        return done.stdout

    def run(self, lines: Sequence[str], name: str = 'text') -> str:
        """The text of a run of a feed of lines, which is left under a name; BadFile if the feed is too long."""
        feed = ''.join(f'{line}\n' for line in lines)
        if len(feed) > FEED:
            raise BadFile(self.path(f'{name}.feed'), None, f'the day needs {len(feed)} bytes of a feed, which holds {FEED}')
        with open(self.path(f'{name}.feed'), 'w', encoding='ascii') as file:
            file.write(feed)
        text = self.call('run', self.net, self.path(f'{name}.feed'))
        with open(self.path(name), 'w', encoding='ascii') as file:
            file.write(text)
        return text

    def judged(self, lines: Sequence[str], name: str = 'text') -> int:
        """The cost after a feed of lines, none of which may be refused; its text is judged by `check`."""
        text = self.run(lines, name)
        if ' refused ' in text or 'malformed' in text:
            raise BadFile(self.path(name), None, 'a line of it is refused')
        verdict = self.call('check', self.net, self.path(name))
        if not verdict.startswith('good '):
            raise BadFile(self.path(name), None, f'check says: {verdict.strip()}')
        return int(text.splitlines()[-2].split()[1])

    def window(self, start: int, end: int, budget: int) -> list[Decision]:
        """The choices that the plan of a window behind the text makes."""
        told = self.call('window', self.net, self.path('text'), str(max(0, start)), str(end), str(budget))
        try:
            return list(choices_in(told.encode(), None))
        except Bad as bad:
            raise BadFile(self.name, bad.args[0], 'this is no line of a window') from bad

    def ruled(self, rule: str) -> list[Decision]:
        """The choices that a waiting rule makes behind the text."""
        told = self.call('rules', self.net, self.path('text'), rule, '1')
        decisions = [read_decision(line.split()[1:]) for line in told.splitlines() if line.startswith('choice ')]
        return [decision for decision in decisions if decision is not None]


@dataclass
class Played:
    """A day so far: the lines of its feed, and the rows after them."""
    network: Network
    rows: Rows
    clock: bool = False
    lines: list[str] = field(default_factory=list)
    ahead: list[Told] = field(default_factory=list)

    def say(self, message: Message) -> None:
        self.lines.append(str(message))
        apply(self.network, self.rows, message)

    def tell(self, now: Optional[int]) -> bool:
        """Says what is known at a time, or all that is left. Whether there was anything."""
        known = [one for one in self.ahead if now is None or one.time <= now]
        self.ahead = [one for one in self.ahead if now is not None and one.time > now]
        for one in known:
            if refusal_at_once(self.network, self.rows, one.message) is None:
                self.say(one.message)
        if self.clock and now is not None:
            self.let_pass(now)
        return bool(known)

    def let_pass(self, now: int) -> None:
        """What has happened by now passes at its time, and the clock goes on."""
        for message in self.passing(now, sound_times(self.network, self.rows), 0):
            self.say(message)
        if now > self.rows.clock:
            self.say(Now(now))

    def passing(self, now: int, times: Sequence[int], since: int) -> list[Message]:
        """What has happened by now of the events that are scheduled since some time, in the order of their times."""
        events = self.network.events
        happened = [(at, place) for place, at in enumerate(times)
                    if at <= now and events[place].time >= since and self.rows.passed[place] is None]
        return [Pass(events[place].id, at) for at, place in sorted(happened)]

    def question(self, now: int, times: Sequence[int], since: int) -> list[str]:
        """The feed with what has happened since some time, and with what is late and cannot be before now, for one question."""
        late = [
            DelayEvent(event.id, now - event.time) for event, at in zip(self.network.events, times) if since <= event.time < now < at
            and event.time + self.rows.event_delays[self.network.event_place[event.id]] < now
        ]
        return [*self.lines, *map(str, late), *map(str, self.passing(now, times, since))]

    def hold_back(self, now: int, before: Sequence[int]) -> None:
        """What had not happened by now, and which choices would let happen before, is delayed until now."""
        after = sound_times(self.network, self.rows)
        for event, was, will_be in zip(self.network.events, before, after):
            if was > now > will_be:
                self.say(DelayEvent(event.id, now - event.time))

    def enter(self, decisions: Sequence[Decision]) -> int:
        """Says choices, in an order in which none closes a cycle; how many."""
        turns = in_turn(self.network, self.rows, decisions)
        self.lines += map(str, turns)
        for decision in turns:
            self.rows.decide(self.network, decision)
        return len(turns)


@dataclass(frozen=True)
class Replanning:
    """How a day is replanned: each so many seconds the choices of the next so many, by a plan of so many nodes. What is late is still
    open so long after its schedule."""
    every: int = 600
    ahead: int = 2400
    budget: int = 4096
    back: int = 3600


def replanned(
    program: Program, played: Played, start: int, end: int, how: Replanning,
    watch: Callable[[int, int], None] = lambda now, entered: None,
) -> None:
    """Plays a day from one time to another. What is not reported by the end is reported then.

    Without a clock the feed of the day has no passed events; each question has those that matter, so that a day of any size fits.
    """
    for now in range(start, end + how.back + 1, how.every):
        played.tell(now)
        if played.lines:
            times = sound_times(played.network, played.rows)
            program.run(played.lines if played.clock else played.question(now, times, now - how.back))
            entered = played.enter(program.window(now - how.back, now + how.ahead, how.budget))
            if entered and not played.clock:
                played.hold_back(now, times)
            watch(now, entered)
    played.tell(None)
