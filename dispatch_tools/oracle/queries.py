"""Asks questions about the journals of drawn runs, and compares the answers with a second reading:

    dispatch-tools queries DISPATCHER FROM TO [--plain]

For each number from FROM to below TO it draws a network and feeds as fuzz does, and runs the program. It asks about the text, a
beginning of it, and texts made from it by small changes. Each command of the program's usage line is asked with drawn words:

    follow     answers as the second reading does, to the byte
    journey    each journey is a walk without cancelled events, and no walk beats its arrival and its changes
    rules      the rule's choices and cost, to the byte; the gap is that to the plan's bound, one by parts with --solve; with at most
               eight choices none cost less than the bound, nor than a plan that is marked optimal
    window     the plan, one by parts with --solve, is true of the window without what is held; the choices of --minimal are some of
               the plan's, cost what is said, and none of them can be left out; what is carried over is right to the byte

The second reading shares no code with the program. The script prints each number in which something differs, with what differs
and the folder of its files. The status is then 1.

With --plain no feed cancels, restores, locks, unlocks or carries, and no plan is one by parts. Left out are delay files, cancelled
events at the start, column words, texts that are too long, and faults of reading and writing.
"""
from __future__ import annotations

import itertools
import math
import os
import random
import shutil
import subprocess
import tempfile
from collections import Counter
from typing import Callable, NamedTuple, Optional, Sequence

from dispatch_tools.formats.lines import Bad, Text
from dispatch_tools.model.network import Change, Network
from dispatch_tools.model.railway import cost_of, free_choices, is_met, Rows, sound_times, span_of, times_of, ways_of, with_decisions
from dispatch_tools.oracle.drawing import changed, drawn_feed, drawn_network, front, write_network
from dispatch_tools.oracle.judging import Judge
from dispatch_tools.oracle.windows import choice_named, fault_of_window, Window
from dispatch_tools.words import add_program, command_line

# Changed texts of each number, and the most choices that are all tried.
CHANGED = 6
FEW_CHOICES = 8
SECONDS = 100

# The status of the program and what it prints.
Answered = tuple[int, str]


class Journal(NamedTuple):
    """What a text carries at its front: the rows at the start and after each entry, the line that is bad, with its kind, and the line
    that is torn, with how many bytes of it there are; None if there is none."""
    rows: list[Rows]
    bad: Optional[tuple[int, str]]
    torn: Optional[tuple[int, int]]


def journal_of(network: Network, penalty: int, text: bytes) -> Journal:
    judge, lines = Judge(network, Rows(network), penalty), Text(text)
    try:
        judge.read_journal(lines)
    except Bad as fault:
        line, kind = fault.args
        return Journal(judge.rows, None, (line, len(lines.rest))) if kind == 'truncated' else Journal(judge.rows, (line, kind), None)
    return Journal(judge.rows, None, None)


def lines_of(*lines: str) -> str:
    return ''.join(f'{line}\n' for line in lines)


def bad_text(bad: tuple[int, str]) -> Answered:
    return 1, lines_of(f'bad {bad[0]} {bad[1]}')


def text_without_times(journal: Journal) -> Optional[Answered]:
    """The status and the text if a question needs the whole journal and it is not whole, else None."""
    if journal.bad is not None:
        return bad_text(journal.bad)
    return None if journal.torn is None else (1, lines_of(f'bad {journal.torn[0]} truncated'))


# ---- follow


def followed(network: Network, penalty: int, journal: Journal) -> Answered:
    if journal.bad is not None:
        return bad_text(journal.bad)
    rows = journal.rows[-1]
    times = sound_times(network, rows)
    tail = 'tail whole' if journal.torn is None else f'tail torn {journal.torn[0]} {journal.torn[1]}'
    shown = [f'{event.id}; {time}' for event, time in zip(network.events, times)]
    shown += [f'cancelled {event.id}' for event, is_cancelled in zip(network.events, rows.cancelled) if is_cancelled]
    return 0, lines_of(f'entries {len(journal.rows) - 1}', tail, *shown, f'cost {cost_of(network, rows, times, penalty)}')


# ---- journey


class Travel(NamedTuple):
    """A question for journeys over rows and their times."""
    network: Network
    rows: Rows
    times: list[int]
    start: int
    end: int
    after: int
    most: int

    def is_usable(self, place: int) -> bool:
        network, times = self.network, self.times
        kind, tail, head = network.activities[place].kind, network.tails[place], network.heads[place]
        if times[head] < times[tail] or kind not in ('drive', 'wait', 'change') or self.rows.cancelled[tail] or self.rows.cancelled[head]:
            return False
        caught = is_met(network, self.rows, times, place) and (self.rows.kept[place] or self.rows.passed[head] is not None)
        return kind != 'change' or caught

    def begins(self, place: int) -> bool:
        event = self.network.events[place]
        return event.kind == 'departure' and event.stop == self.start and self.times[place] >= self.after

    def ends(self, place: int) -> bool:
        event = self.network.events[place]
        return event.kind == 'arrival' and event.stop == self.end

    def fewest_changes(self) -> list[float]:
        """The fewest changes of a way to each event, by place; without end where there is none."""
        fewest: list[float] = [0 if self.begins(place) else math.inf for place in range(len(self.network.events))]
        for _ in self.network.events:
            for place, activity in enumerate(self.network.activities):
                if self.is_usable(place):
                    tail, head = self.network.tails[place], self.network.heads[place]
                    fewest[head] = min(fewest[head], fewest[tail] + (activity.kind == 'change'))
        return fewest

    def unbeaten(self) -> list[tuple[int, int]]:
        """The changes and arrivals that no walk beats, the fewest changes first."""
        fewest = self.fewest_changes()
        found: list[tuple[int, int]] = []
        for changes in range(self.most + 1):
            arrivals = [self.times[place] for place, count in enumerate(fewest) if count == changes and self.ends(place)]
            if arrivals and (not found or min(arrivals) < found[-1][1]):
                found.append((changes, min(arrivals)))
        return found

    def is_walk(self, ids: Sequence[int], arrival: int, changes: int) -> bool:
        network = self.network
        places = [network.activity_place[number] for number in ids if number in network.activity_place]
        if not places or len(places) < len(ids) or not all(map(self.is_usable, places)):
            return False
        if any(network.heads[one] != network.tails[other] for one, other in zip(places, places[1:])):
            return False
        last = network.heads[places[-1]]
        return (self.begins(network.tails[places[0]]) and self.ends(last) and self.times[last] == arrival
                and sum(network.activities[place].kind == 'change' for place in places) == changes)


def fault_of_journeys(travel: Travel, text: str) -> Optional[str]:
    """What is wrong with the journeys of a text, or None."""
    first, *lines = text.splitlines()
    found = []
    for words in map(str.split, lines):
        if words[:2] + words[3:4] + words[5:6] != ['journey', 'arrival', 'changes', 'walk']:
            return f'a line {words}'
        arrival, changes, *ids = map(int, [words[2], words[4], *words[6:]])
        if not travel.is_walk(ids, arrival, changes):
            return f'{words} is no walk'
        found.append((changes, arrival))
    due = travel.unbeaten()
    return None if (first, found) == (f'journeys {len(due)}', due) else f'found {found}, due {due}'


# ---- rules


def ruled(network: Network, rows: Rows, limit: Optional[int]) -> Rows:
    """The rows as a rule has them: no train more than `limit` seconds later for a change, or None if any time will do."""
    free = [network.activity_place[choice.activity] for choice in free_choices(network, rows) if isinstance(choice, Change)]
    free.sort(key=lambda place: (network.events[network.heads[place]].time, network.activities[place].head, network.activities[place].id))
    now = rows.copy()
    for place in free:
        now.kept[place] = False
    for place in free:
        times, kept = sound_times(network, now), now.copy()
        kept.kept[place] = True
        ready = times[network.tails[place]] + span_of(network, now, place)
        if times_of(network, kept) is not None and (limit is None or ready <= times[network.heads[place]] + limit):
            now = kept
    return now


def rule_lines(network: Network, penalty: int, rows: Rows, rule: str) -> tuple[list[str], int]:
    """The lines of a rule, and what it costs."""
    limit = {'never': 0, 'always': None}.get(rule, int(rule) if rule.isdigit() else 0)
    now = ruled(network, rows, limit)
    choices = [
        f'choice {"keep" if kept else "drop"} {activity.id}'
        for activity, kept, before in zip(network.activities, now.kept, rows.kept) if kept != before
    ]
    cost = cost_of(network, now, sound_times(network, now), penalty)
    return [f'rule {rule} cost {cost} choices {len(choices)}', *choices], cost


def least_cost(network: Network, penalty: int, rows: Rows) -> Optional[int]:
    """The least that any decisions of the free choices cost, or None if there are too many to try."""
    free = free_choices(network, rows)
    if len(free) > FEW_CHOICES:
        return None
    costs = []
    for decisions in itertools.product(*map(ways_of, free)):
        decided = with_decisions(network, rows, decisions)
        times = times_of(network, decided)
        if times is not None:
            costs.append(cost_of(network, decided, times, penalty))
    return min(costs)


def fault_of_rule(network: Network, penalty: int, rows: Rows, rule: str, kind: str, text: str) -> Optional[str]:
    """What is wrong with the text of a rule beside a plan of a kind, or None."""
    due, cost = rule_lines(network, penalty, rows, rule)
    *lines, plan, gap = text.splitlines()
    if lines != due:
        return f'due {due}'
    word, mark, _, costs, _, bounds = plan.split()
    plan_cost, bound = int(costs), int(bounds)
    if word != kind or gap != f'gap {cost - bound}' or bound > min(cost, plan_cost) or (mark == 'optimal') != (bound == plan_cost):
        return 'the plan or the gap'
    least = least_cost(network, penalty, rows)
    return None if least is None or bound <= least <= plan_cost else f'the least cost is {least}'


# ---- One number after the other


class Draws(NamedTuple):
    """What is asked of each number: a program, its commands, and whether no feed asks for a plan by parts."""
    program: str
    commands: list[str]
    is_plain: bool


class Asking:
    """Asks a program about the texts of a network's runs at a penalty."""

    def __init__(self, asked: Draws, counts: Counter[str], network: Network, penalty: int, folder: str) -> None:
        self.program, self.is_plain, self.counts = asked.program, asked.is_plain, counts
        self.network, self.penalty, self.folder = network, penalty, folder

    def call(self, *words: object) -> Answered:
        """The status and the output of the program."""
        command = [self.program, *map(str, words), f'--penalty={self.penalty}']
        done = subprocess.run(command, cwd=self.folder, stdout=subprocess.PIPE, stderr=subprocess.DEVNULL, timeout=SECONDS, check=False)
        return done.returncode, done.stdout.decode('latin-1')

    def follow(self, draws: random.Random, journal: Journal) -> Optional[str]:
        due = followed(self.network, self.penalty, journal)
        told = self.call('follow', 'net', 'text')
        return None if told == due else f'due {due}, printed {told}'

    def wanting_all(self, journal: Journal, words: Sequence[object], fault_of: Callable[[str], Optional[str]]) -> Optional[str]:
        """A question that needs the whole journal: `fault_of` says what is wrong with its text."""
        status, text = self.call(*words)
        due = text_without_times(journal)
        if due is not None:
            return None if (status, text) == due else f'{words}: due {due}, printed {status, text}'
        fault = f'status {status}' if status != 0 else fault_of(text)
        return None if fault is None else f'{words}: {fault}; printed {text}'

    def journey(self, draws: random.Random, journal: Journal) -> Optional[str]:
        events = self.network.events
        starts, ends = ([event.stop for event in events if event.kind == kind] + [9] for kind in ('departure', 'arrival'))
        start, end, after, most = draws.choice(starts), draws.choice(ends), draws.randint(0, 30), draws.choice([0, 1, 2, 4, 4, 8])
        rows = journal.rows[-1]
        travel = Travel(self.network, rows, sound_times(self.network, rows), start, end, after, most)
        self.counts['journeys'] += len(travel.unbeaten())
        words = ['journey', 'net', 'text', start, end, after, *([] if most == 4 else [f'--changes={most}'])]
        return self.wanting_all(journal, words, lambda text: fault_of_journeys(travel, text))

    def asks_by_parts(self, draws: random.Random) -> bool:
        """Whether a plan is to be one by parts."""
        by_parts = not self.is_plain and draws.random() < 0.5
        self.counts['by parts'] += by_parts
        return by_parts

    def rules(self, draws: random.Random, journal: Journal) -> Optional[str]:
        rule = draws.choice(['never', 'always', '0', '1', str(draws.randint(2, 40)), '1000000'])
        words = ['rules', 'net', 'text', rule, draws.choice([1, 2, 3, 7, 50, 1000])]
        by_parts = self.asks_by_parts(draws)
        words += ['--solve'] if by_parts else []
        kind = 'solved' if by_parts else 'plan'
        return self.wanting_all(journal, words, lambda text: fault_of_rule(self.network, self.penalty, journal.rows[-1], rule, kind, text))

    def window(self, draws: random.Random, journal: Journal) -> Optional[str]:
        begin, last = draws.randint(0, 60), len(journal.rows) - 1
        ids = [activity.id for activity in self.network.activities]
        hanging = [name for name in ids if choice_named(self.network, name) is not None]
        lists: list[list[int]] = [[], [], hanging, hanging, [*ids, 9999]]
        named = draws.choice(lists)
        held = tuple(draws.sample(named, draws.randint(0, min(len(named), 4))))
        most = draws.choice([None, None, 0, 1000, draws.randint(0, 400) * 1000, 10 ** 6 * draws.randint(0, 9), 2 ** 64 - 1])
        at = draws.choice([None, draws.randint(0, last + 1)])
        end, budget = begin + draws.randint(0, 60), draws.choice([1, 2, 3, 7, 50, 1000])
        window = Window(begin, end, budget, at, held, most, self.asks_by_parts(draws))
        words, barred = window.words(), window.without_choice(self.network)
        if text_without_times(journal) is None and window.at is not None and window.at > last:
            told = self.call(*words)
            return None if told == (3, lines_of(f'refused entry {window.at}')) else f'{words}: printed {told}'
        if text_without_times(journal) is None and barred is not None:
            told = self.call(*words)
            return None if told == (3, lines_of(f'refused window held {barred}')) else f'{words}: printed {told}'
        return self.wanting_all(journal, words, lambda text: fault_of_window(self.network, self.penalty, journal.rows, window, text))

    def fault_of(self, draws: random.Random, commands: Sequence[str], text: bytes) -> Optional[str]:
        """What differs in what a text is asked, or None."""
        with open(os.path.join(self.folder, 'text'), 'wb') as file:
            file.write(text)
        journal = journal_of(self.network, self.penalty, text)
        for command in commands:
            fault = getattr(self, command)(draws, journal)
            self.counts[command] += 1
            if fault is not None:
                return f'{command}: {fault}'
        return None


def fault_of_number(asked: Draws, counts: Counter[str], number: int, folder: str) -> Optional[str]:
    """What differs in the network, the feeds and the texts of a number, or None."""
    draws = random.Random(number)
    network = drawn_network(draws)
    write_network(draws, network, os.path.join(folder, 'net'))
    asking = Asking(asked, counts, network, draws.choice([0, 1, 10, 10, 1000, 3600]), folder)
    names = [f'feed{place}' for place in range(draws.choice([1, 1, 2]))]
    for name in names:
        with open(os.path.join(folder, name), 'w', newline='') as file:
            file.write(drawn_feed(draws, network, asked.is_plain))
    status, told = asking.call('run', 'net', *names)
    if status != 0:
        return f'the run ends with {status}'
    text = told.encode('latin-1')
    texts = [text, front(draws, text), *(changed(draws, text) for _ in range(CHANGED))]
    faults = (asking.fault_of(draws, asked.commands, other) for other in texts)
    return next((fault for fault in faults if fault is not None), None)


def commands_of(program: str) -> list[str]:
    """Which of the questions the usage line of a program names."""
    usage = subprocess.run([program], capture_output=True, text=True, check=False).stdout
    return [name for name in ('follow', 'window', 'rules', 'journey') if f'| {name} ' in usage]


def main(argv: Sequence[str] | None = None) -> int:
    words = command_line(__doc__)
    add_program(words)
    words.add_argument('begin', metavar='FROM', type=int, help='first number')
    words.add_argument('end', metavar='TO', type=int, help='number before which to end')
    words.add_argument('--plain', action='store_true', help='draw nothing cancelled, locked or carried, and no plan by parts')
    given = words.parse_args(argv)
    counts: Counter[str] = Counter()
    differing, asked = 0, Draws(given.program, commands_of(given.program), given.plain)
    for number in range(given.begin, given.end):
        folder = tempfile.mkdtemp(prefix='queries-')
        fault = fault_of_number(asked, counts, number, folder)
        if fault is None:
            shutil.rmtree(folder)
        else:
            print(f'{number}: {fault}, in {folder}')
            differing += 1
    print(', '.join(f'{count} {name}' for name, count in counts.items()))
    print(f'{differing} numbers differ')
    return 1 if differing else 0
