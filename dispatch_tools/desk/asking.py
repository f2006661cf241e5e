"""What the built program is asked beside the server: the times after entries, what a window would change, and what waiting rules cost.

The journal's lines are written as the front of a run's text, and the program reads them as it does any. That enters nothing.
"""
from __future__ import annotations

import os
import threading
from typing import NamedTuple, Optional, Sequence

from dispatch_tools.days.playing import Program
from dispatch_tools.formats.files import BadFile
from dispatch_tools.formats.lines import Bad, fits, NUMBER, Text
from dispatch_tools.formats.plan_text import read_solved, read_solved_head
from dispatch_tools.formats.runtext import Entry, read_message, read_time
from dispatch_tools.model.messages import Adopt, Decision
from dispatch_tools.model.network import Network
from dispatch_tools.model.parts import PlanByParts
from dispatch_tools.model.railway import apply, cost_of, Rows, sound_times
from dispatch_tools.pictures.figures import BOUND, Curve, LEVEL, picture, Scale, Study

# The seconds of the waiting rules that are compared, and the budget of the plan beside them.
WAITS = (0, 60, 120, 180, 300, 420, 600, 900)
BUDGET = 1_024


class Followed(NamedTuple):
    """Times by place, and the cost, after so many entries."""
    entries: int
    times: list[int]
    cost: int


def tenths(cost: int) -> int:
    """A cost in tenths of passenger minutes."""
    return round(cost / 6_000)


def message_line(entry: Entry) -> str:
    """The words that stand behind the number of an entry."""
    return f'feed {entry.feed} line {entry.line} {entry.message}'


def journal_text(penalty: int, feeds: int, entries: Sequence[str]) -> str:
    """The journal lines of a text; each entry is what stands behind its number."""
    head = f'dm-run 2\npenalty {penalty}\nfeeds {feeds}\nentries {len(entries)}\n'
    return head + ''.join(f'entry {number} {entry}\n' for number, entry in enumerate(entries, 1))


class Asking:
    """The program over a network, for one penalty and number of feeds; one question at a time."""

    def __init__(self, program: Program, network: Network, feeds: int) -> None:
        self.program, self.network, self.feeds = program, network, feeds
        self.one = threading.Lock()

    def written(self, entries: Sequence[str]) -> str:
        path = self.program.path('journal')
        with open(path, 'w', encoding='ascii') as file:
            file.write(journal_text(self.program.penalty, self.feeds, entries))
        return path

    def follow(self, entries: Sequence[str]) -> Followed:
        """The times after entries; BadFile if the program does not follow them."""
        with self.one:
            told = self.program.call('follow', self.program.net, self.written(entries))
        text = Text(told.encode())
        try:
            count, = text.read('entries', NUMBER)
            text.words()
            times = dict(read_time(text) for _ in self.network.events)
            words = text.words()
            while words[0] == 'cancelled':
                words = text.words()
            cost, = text.sure(fits(words, ['cost', NUMBER]))
            return Followed(count, [times[event.id] for event in self.network.events], cost)
        except (Bad, KeyError) as bad:
            raise BadFile(self.program.name, None, 'it answers `follow` in another form') from bad

    def window(self, entries: Sequence[str], start: int, end: int, budget: int, held: Sequence[int]) -> PlanByParts:
        """The plan by parts of a window after entries, with the choices of some activities held."""
        options = ['--solve', *([f'--held={",".join(map(str, held))}'] if held else [])]
        with self.one:
            told = self.program.call('window', self.program.net, self.written(entries), str(start), str(end), str(budget), *options)
        text = Text(told.encode())
        try:
            text.words()
            words = text.words()
            if words[0] == 'held':
                words = text.words()
            return read_solved(text, len(entries), text.sure(read_solved_head(words)))
        except Bad as bad:
            raise BadFile(self.program.name, None, 'it answers `window` in another form') from bad

    def rules(self, entries: Sequence[str]) -> str:
        """A picture of what waiting rules cost after entries, beside a plan and its bound."""
        with self.one:
            path = self.written(entries)
            study = Study(self.program.name, self.program.net, path, [f'--penalty={self.program.penalty}', *self.program.options])
            never, always = study.ruled('never', BUDGET, True), study.ruled('always', 1)
            waits = [(wait, tenths(study.ruled(wait, 1).cost)) for wait in WAITS]
        ends = WAITS[0], WAITS[-1]
        levels = [('never', never.cost, LEVEL), ('always', always.cost, LEVEL), ('plan by parts', never.plan_cost, LEVEL),
                  ('proved bound', never.bound, BOUND)]
        curves = [Curve('wait at most', waits), *(Curve(name, [(end, tenths(cost)) for end in ends], style) for name, cost, style in levels)]
        title = f'Waiting rules after {len(entries)} entries'
        scales = Scale(lambda wait: f'{wait / 60:g}'), Scale(lambda cost: f'{cost / 10:,g}')
        return picture(title, 'minutes that a train waits at most', 'passenger minutes', curves, *scales)


def found_program(name: Optional[str], top: str) -> Optional[str]:
    """The built program: the one that is named, or else the one of the repository, if it is built."""
    built = os.path.join(top, 'crates', 'dispatcher', 'out', 'dispatcher')
    return name or os.environ.get('DISPATCHER') or (built if os.access(built, os.X_OK) else None)


def adoption(choices: Sequence[Decision], feed: int) -> str:
    """What stands behind the number of an entry that adopts choices."""
    return message_line(Entry(feed, 1, Adopt(tuple(choices))))


class SecondReading:
    """Answers of the same form without the program, by the rules of railway: slower, and no proof is about them."""

    def __init__(self, network: Network, start: Rows, penalty: int) -> None:
        self.network, self.start, self.penalty = network, start, penalty

    def rows_after(self, entries: Sequence[str]) -> Rows:
        """The rows after entries."""
        rows = self.start.copy()
        for entry in entries:
            message = read_message(entry.split()[4:])
            assert message is not None, 'an entry has the form of one'
            apply(self.network, rows, message)
        return rows

    def follow(self, entries: Sequence[str]) -> Followed:
        rows = self.rows_after(entries)
        times = sound_times(self.network, rows)
        return Followed(len(entries), times, cost_of(self.network, rows, times, self.penalty))

    def window(self, entries: Sequence[str], start: int, end: int, budget: int, held: Sequence[int]) -> PlanByParts:
        raise BadFile('window', None, 'this needs the built program: --program=DISPATCHER')

    def rules(self, entries: Sequence[str]) -> str:
        raise BadFile('rules', None, 'this needs the built program: --program=DISPATCHER')
