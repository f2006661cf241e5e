"""A second reading of the rules for texts of runs, which shares no code with the program."""
from __future__ import annotations

import os
import re
from dataclasses import dataclass
from typing import NamedTuple, Optional, Union

from dispatch_tools.formats.giv import read_network
from dispatch_tools.formats.lines import Bad, fits, ID, NUMBER, Text
from dispatch_tools.formats.runtext import (
    Answer, Item, MOST_BOARDS, MOST_FEEDS, MOST_NODES, PLANNED, read_item, read_message, read_planned, STANDARD_PLANS,
)
from dispatch_tools.model.messages import Adopt, AdoptLast, AskPlan, AskSolve, AskTime, CarryOver, Message, Refusal, Said, STATEMENTS
from dispatch_tools.model.network import Network
from dispatch_tools.model.parts import is_true_plan_by_parts, PlanByParts
from dispatch_tools.model.railway import admit, cost_of, is_cycle, MOST_ENTRIES, Plan, Rows, sound_times, still_free
from dispatch_tools.model.true_plans import is_true_plan

# What replaces each byte where every byte of a text is judged.
BYTES = [b'\n', b' ', b'0', b'7', b'z']


# ---- Verdicts

@dataclass(frozen=True)
class Good:
    """All of a text is true: so many entries and plans."""
    entries: int
    plans: int

    def __str__(self) -> str:
        return f'good {self.entries} {self.plans}'


@dataclass(frozen=True)
class Wrong:
    """The line of the first record that is not, from 1, and of which kind its fault is."""
    line: int
    kind: str

    def __str__(self) -> str:
        return f'bad {self.line} {self.kind}'


Verdict = Union[Good, Wrong]


class Log:
    """The items of a feed so far, with the last line and entry that they name, and the latest plan and how many there were, of both
    kinds."""

    def __init__(self, feed: int) -> None:
        self.feed = feed
        self.items: list[Item] = []
        self.stop = ''
        self.line = 0
        self.entry = 0
        self.plan: Optional[Plan | PlanByParts] = None
        self.plans = 0

    def add(self, item: Item) -> None:
        self.items.append(item)
        self.line = item.line
        if item.answer and item.answer.entry is not None:
            self.entry = item.answer.entry
        if item.answer and item.answer.kind in PLANNED:
            self.plan = item.answer.value
            self.plans += 1


class Judge:
    """Judges one text of a run over a network from rows at the start, and keeps what it has read and found true."""

    def __init__(self, network: Network, start: Rows, penalty: int, plans: int = STANDARD_PLANS) -> None:
        self.network = network
        self.penalty = penalty
        self.plans = plans
        self.version = 0
        self.history: list[tuple[int, int, Message]] = []
        self.rows = [start]
        self.logs: list[Log] = []
        self.named: set[int] = set()
        self.times: dict[int, list[int]] = {}

    def judge(self, text: bytes) -> Verdict:
        """The verdict on a text."""
        lines = Text(text)
        try:
            self.read_run(lines)
        except Bad as bad:
            return Wrong(*bad.args)
        return Good(len(self.history), sum(log.plans for log in self.logs))

    def read_journal(self, text: Text) -> int:
        """Reads the header and the entries; Bad at the first line that breaks its rule. How many feeds there are."""
        self.version, = text.read('dm-run', 2)
        text.demand(self.version > 0, 'form')
        text.demand(text.read('penalty', NUMBER) == (self.penalty,), 'form')
        feeds, = text.read('feeds', NUMBER)
        text.demand(1 <= feeds <= MOST_FEEDS, 'form')
        entries, = text.read('entries', MOST_ENTRIES)
        for _ in range(entries):
            self.read_entry(text, feeds)
        return feeds

    def read_run(self, text: Text) -> None:
        """Reads the whole text; Bad at the first record that breaks its rule."""
        feeds = self.read_journal(text)
        for feed in range(1, feeds + 1):
            self.read_log(text, feed)
        self.read_boards(text)
        self.read_timetable(text)
        text.read('done')
        if text.has_more():
            raise Bad(text.number + 1, 'form')

    def read_entry(self, text: Text, feeds: int) -> None:
        words = text.words()
        number, feed, line = text.sure(fits(words[:6], ['entry', ID, 'feed', NUMBER, 'line', ID]))
        message = read_message(words[6:]) or text.refuse()
        count = len(self.history)
        text.demand(number == count + 1 and feed <= feeds and line >= 1, 'entry')
        refusal, after = admit(self.network, self.rows[-1], count, message)
        text.demand(refusal is None, 'entry')
        self.history.append((feed, line, message))
        self.rows.append(text.sure(after))

    def read_log(self, text: Text, feed: int) -> None:
        number, count = text.read('feed', NUMBER, NUMBER)
        text.demand(number == feed, 'form')
        log = Log(feed)
        for _ in range(count):
            self.read_item(text, log)
        words = text.words()
        text.demand(words in (['end'], ['fault'], ['long']), 'form')
        log.stop = words[0]
        self.logs.append(log)

    def read_item(self, text: Text, log: Log) -> None:
        item = text.sure(read_item(text.words(), self.version))
        record, answer = text.number, item.answer
        has_plan = answer is not None and answer.kind in PLANNED
        if answer is not None and has_plan:
            item = item._replace(answer=answer._replace(value=read_planned(text, self.version, answer)))
        if not self.is_true_item(log, item):
            raise Bad(record, 'plan' if has_plan else 'reply')
        log.add(item)
        if answer is not None and answer.kind == 'ok':
            self.named.add(text.sure(answer.entry))

    def read_boards(self, text: Text) -> None:
        boards, = text.read('boards', MOST_BOARDS)
        text.demand(len(self.named) == len(self.history), 'unnamed')
        places, last = set(), 0
        for _ in range(boards):
            place, stop, entry = text.read('board', NUMBER, 'stop', NUMBER, 'dropped', ID)
            text.demand(1 <= place <= MOST_BOARDS and place not in places and stop <= ID, 'board')
            text.demand(last <= entry <= len(self.history), 'board')
            places.add(place)
            last = entry

    def read_timetable(self, text: Text) -> None:
        entries = len(self.history)
        text.demand(text.read('times', NUMBER) == (entries,), 'form')
        for event, time in zip(self.network.events, self.times_at(entries)):
            words = text.words()
            text.demand(words[0].endswith(';'), 'form')
            text.demand(text.sure(fits([words[0][:-1], *words[1:]], [ID, NUMBER])) == (event.id, time), 'time')
        text.demand(text.read('cost', NUMBER) == (self.cost_at(entries),), 'cost')

    def times_at(self, entry: int) -> list[int]:
        """The least timetable after so many entries."""
        if entry not in self.times:
            self.times[entry] = sound_times(self.network, self.rows[entry])
        return self.times[entry]

    def cost_at(self, entry: int) -> int:
        return cost_of(self.network, self.rows[entry], self.times_at(entry), self.penalty)

    def is_true_item(self, log: Log, item: Item) -> bool:
        """Whether an item is true and in order behind the items of its log."""
        if item.line <= log.line:
            return False
        said, answer = item.said, item.answer
        if said is None or answer is None:
            return True
        entry = answer.entry
        if entry is None:
            return self.is_true_without_entry(log, said, answer)
        if not log.entry <= entry <= len(self.history):
            return False
        if answer.kind == 'ok':
            return self.is_entered(log, item.line, said, entry)
        if answer.kind == 'refused':
            return self.is_refused(log, said, entry, answer.value)
        if answer.kind in PLANNED:
            return self.is_planned(log, said, entry, answer.value)
        return self.is_told(log, said, entry, answer)

    def may_have(self, nodes: int) -> bool:
        return 1 <= nodes <= MOST_NODES[self.version]

    def is_true_without_entry(self, log: Log, said: Said, answer: Answer) -> bool:
        if answer.kind == 'noplan':
            return isinstance(said, (AdoptLast, CarryOver)) and log.plan is None
        if not isinstance(said, (AskPlan, AskSolve)):
            return False
        if answer.kind == 'plans':
            return self.may_have(said.budget) and log.plans == self.plans
        return said.budget == answer.value and not self.may_have(said.budget)

    def is_entered(self, log: Log, at: int, said: Said, entry: int) -> bool:
        """Whether the line became the entry that its answer names."""
        if entry <= log.entry:
            return False
        feed, line, message = self.history[entry - 1]
        if (feed, line) != (log.feed, at):
            return False
        if isinstance(said, AdoptLast):
            return log.plan is not None and message == Adopt(log.plan.choices) and entry == log.plan.entry + 1
        if isinstance(said, CarryOver):
            return log.plan is not None and message == still_free(self.network, self.rows[entry - 1], log.plan.choices)
        return message == said

    def is_told(self, log: Log, said: Said, entry: int, answer: Answer) -> bool:
        """Whether a question is answered as the rows at that entry have it, or an adoption by entries behind those of the plan."""
        if answer.kind == 'old':
            return isinstance(said, AdoptLast) and log.plan is not None and entry > log.plan.entry
        if said.KIND != answer.kind:
            return False
        if answer.kind == 'cost':
            cost: int = answer.value
            return cost == self.cost_at(entry)
        if isinstance(said, AskTime):
            place = self.network.event_place.get(said.event)
            time: int = answer.value
            return place is not None and time == self.times_at(entry)[place]
        return True

    def is_refused(self, log: Log, said: Said, entry: int, reason: Refusal) -> bool:
        """Whether a message, a question for a time, an adoption or a carry is refused so."""
        if isinstance(said, AdoptLast):
            is_last = log.plan is not None and entry == log.plan.entry == MOST_ENTRIES
            return reason == Refusal('full') and is_last
        if isinstance(said, AskTime):
            return reason == Refusal('unknown-event', (said.event,)) and said.event not in self.network.event_place
        message: Message
        if isinstance(said, CarryOver) and log.plan is not None:
            message = still_free(self.network, self.rows[entry], log.plan.choices)
        elif isinstance(said, STATEMENTS):
            message = said
        else:
            return False
        refusal, after = admit(self.network, self.rows[entry], entry, message)
        if after is not None and refusal == Refusal('cycle'):
            return reason.reason == 'cycle' and is_cycle(self.network, after, reason.numbers)
        return reason == refusal

    def is_planned(self, log: Log, said: Said, entry: int, plan: Plan | PlanByParts) -> bool:
        """Whether a request for a plan may have one, and is answered by one of its kind that is true."""
        if not isinstance(said, (AskPlan, AskSolve)) or not self.may_have(said.budget) or log.plans >= self.plans:
            return False
        rows = self.rows[entry]
        if isinstance(plan, PlanByParts):
            return isinstance(said, AskSolve) and is_true_plan_by_parts(self.network, rows, self.penalty, said.budget, plan)
        return isinstance(said, AskPlan) and is_true_plan(self.network, rows, self.penalty, said.budget, plan)


def verdict_on(network: Network, start: Rows, penalty: int, text: bytes, plans: int = STANDARD_PLANS) -> Verdict:
    """The verdict on a text of a run over a network, from rows at the start."""
    return Judge(network, start, penalty, plans).judge(text)


# ---- Cases


def read_bytes(*names: str) -> bytes:
    with open(os.path.join(*names), 'rb') as file:
        return file.read()


def written_out(text: bytes) -> bytes:
    """The text of a file, in which a line `*N LINE` stands for N lines."""
    return re.sub(rb'^\*([0-9]+) (.*\n)', lambda found: int(found[1]) * found[2], text, flags=re.MULTILINE)


class Case(NamedTuple):
    """A line of the list of cases."""
    name: str
    due: str
    network: Network
    penalty: int
    plans: int

    def told(self, text: bytes) -> str:
        return str(verdict_on(self.network, Rows(self.network), self.penalty, text, self.plans))


def differences(folder: str, case: Case) -> list[str]:
    """A line for each text of a case (itself, its fronts, or with a byte replaced) whose verdict is not the one that is due."""
    text = written_out(read_bytes(folder, 'texts', case.name))
    if case.due == 'every front truncated':
        fronts = [text[:k] for k in range(len(text))]
        pairs = [(str(Wrong(len(front.split(b'\n')), 'truncated')), case.told(front)) for front in fronts]
    elif case.due == 'every byte judged':
        due = read_bytes(folder, 'bytes', case.name).decode().splitlines()
        told = [''.join(case.told(text[:k] + byte + text[k + 1:]) + ',' for byte in BYTES) for k in range(len(text))]
        pairs = list(zip(due, told)) if len(due) == len(told) else [(f'{len(due)} bytes', f'{len(told)} bytes')]
    else:
        pairs = [(case.due, case.told(text))]
    return [f'{case.name} {k}: stored {due}, judged {told}' for k, (due, told) in enumerate(pairs) if due != told]


def judge_cases(folder: str) -> bool:
    """Prints each stored verdict that differs; whether all agree."""
    count, differing = 0, 0
    for line in read_bytes(folder, 'cases').decode().splitlines():
        if line.startswith('#') or not line.strip():
            continue
        name, verdict, first, second, network, penalty, *plans = line.split()
        due = f'{verdict} {first} {second}'
        folder_of_network = os.path.join(folder, 'networks', network, 'net')
        case = Case(name, due, read_network(folder_of_network), int(penalty), int(plans[0]) if plans else STANDARD_PLANS)
        found = differences(folder, case)
        print(*found, sep='\n', end='\n' if found else '')
        count += 1
        differing += bool(found)
    print(f'{count} cases, of which {differing} differ')
    return differing == 0
