"""Compares plans by parts of small networks with all choice lists: dispatch-tools bounds DISPATCHER [FROM [TO]]

DISPATCHER is the built program. For each number from FROM (0) to below TO (1,000) the script draws a network, a penalty and a feed as
fuzz does, whose rows at the end leave one to nine choices free. It asks there for `plan B` and `solve B`, for B = 1, 2, 3, 7, 30 and
2^(k + 1) - 1, where k choices are free, and works out what each list of choices costs that closes no cycle. It is wrong

    if the judge (judge) does not find the text good
    if a bound is above the least cost, or a cost below it
    if `solve B` costs more than `plan B`, or has a lower bound
    if the last `solve B` is not optimal

The script prints each number in which something is wrong, with what it is and the folder of its files. The status is then 1. The
last lines say how many plans by parts there were, how many were optimal, how many of these where the plan of as many nodes
was open, and how many parts they had.
"""
from __future__ import annotations

import itertools
import os
import random
import shutil
import subprocess
import tempfile
from collections import Counter
from typing import NamedTuple, Optional, Sequence

from dispatch_tools.formats.runtext import due_items, heard, PLANNED
from dispatch_tools.model.messages import AdoptLast, AskPlan, STATEMENTS
from dispatch_tools.model.network import Network
from dispatch_tools.model.parts import PlanByParts
from dispatch_tools.model.railway import admit, cost_of, free_choices, Plan, Rows, times_of, ways_of, with_decisions
from dispatch_tools.oracle.drawing import drawn_feed, drawn_network, SECONDS, write_network
from dispatch_tools.oracle.judging import Good, Judge
from dispatch_tools.words import add_program, command_line

MOST_CHOICES = 9
BUDGETS = (1, 2, 3, 7, 30)


class Asked(NamedTuple):
    """A network and a penalty, the lines of a feed, and the rows behind them, which leave so many choices free."""
    network: Network
    penalty: int
    lines: list[str]
    rows: Rows
    free: int

    def budgets(self) -> list[int]:
        return [*BUDGETS, 2 ** (self.free + 1) - 1]

    def feed(self) -> str:
        """The lines, and behind them those that ask for the plans."""
        plans = [f'{word} {budget}' for budget in self.budgets() for word in ('plan', 'solve')]
        return ''.join(f'{line}\n' for line in [*self.lines, *plans])


class Plans(NamedTuple):
    """A plan, and one by parts, of the same rows for the same budget."""
    budget: int
    plan: Plan
    solved: PlanByParts


def rows_behind(network: Network, lines: Sequence[str]) -> Rows:
    """The rows behind the lines of a feed, without those that are refused."""
    rows = Rows(network)
    for number, line in enumerate(lines):
        said = heard(line)
        if isinstance(said, STATEMENTS):
            refusal, after = admit(network, rows, number, said)
            rows = after if refusal is None and after is not None else rows
    return rows


def drawn(draws: random.Random) -> Asked:
    """The first network and feed whose rows leave some choices free, and not too many."""
    while True:
        network = drawn_network(draws)
        lines = drawn_feed(draws, network, True).split('\n')
        lines = [line for line in lines if not isinstance(heard(line), (AskPlan, AdoptLast))]
        rows = rows_behind(network, lines)
        free = len(free_choices(network, rows))
        if 1 <= free <= MOST_CHOICES:
            return Asked(network, draws.choice([0, 1, 10, 10, 1000, 3600]), lines, rows, free)


def least_cost(asked: Asked) -> int:
    """The least that any decisions of the free choices cost."""
    costs = []
    for decisions in itertools.product(*map(ways_of, free_choices(asked.network, asked.rows))):
        decided = with_decisions(asked.network, asked.rows, decisions)
        times = times_of(asked.network, decided)
        if times is not None:
            costs.append(cost_of(asked.network, decided, times, asked.penalty))
    return min(costs)


def fault_of_plans(plans: Plans, least: int, is_last: bool) -> Optional[str]:
    """What is wrong with the plans for a budget, or None."""
    budget, plan, solved = plans
    if max(plan.bound, solved.bound) > least:
        return f'at {budget} nodes a bound, {plan.bound} or {solved.bound}, is above the least cost {least}'
    if min(plan.cost, solved.cost) < least:
        return f'at {budget} nodes a cost, {plan.cost} or {solved.cost}, is below the least one {least}'
    if solved.cost > plan.cost or solved.bound < plan.bound:
        return f'at {budget} nodes the plan by parts costs {solved.cost}, bound {solved.bound}; the plan {plan.cost}, bound {plan.bound}'
    return 'the last plan by parts is open' if is_last and solved.mark != 'optimal' else None


def plans_in(asked: Asked, text: bytes) -> Optional[list[Plans]]:
    """The plans of a text, or None if it is not good, or answers other lines or not all of them with plans."""
    judge = Judge(asked.network, Rows(asked.network), asked.penalty)
    if not isinstance(judge.judge(text), Good) or vars(judge.rows[-1]) != vars(asked.rows):
        return None
    items = judge.logs[0].items
    found = [item.answer.value for item in items if item.answer is not None and item.answer.kind in PLANNED]
    if [(item.line, item.said) for item in items] != due_items(asked.feed()) or len(found) != 2 * len(asked.budgets()):
        return None
    return [Plans(*one) for one in zip(asked.budgets(), found[::2], found[1::2])]


def fault_of(asked: Asked, text: bytes, counts: Counter[str]) -> Optional[str]:
    """What is wrong with the text of a run, or None."""
    found = plans_in(asked, text)
    if found is None:
        return 'the text of the run is not good, or its plans are not those that were asked for'
    least = least_cost(asked)
    for number, plans in enumerate(found, 1):
        fault = fault_of_plans(plans, least, number == len(found))
        if fault is not None:
            return fault
        is_optimal = plans.solved.mark == 'optimal'
        counts['plans by parts'] += 1
        counts['optimal'] += is_optimal
        counts['optimal by parts alone'] += is_optimal and plans.plan.mark == 'open'
        counts['parts'] += len(plans.solved.parts)
    return None


def fault_of_number(program: str, number: int, folder: str, counts: Counter[str]) -> Optional[str]:
    """What is wrong with the plans of a number, or None."""
    draws = random.Random(number)
    asked = drawn(draws)
    write_network(draws, asked.network, os.path.join(folder, 'net'))
    with open(os.path.join(folder, 'feed'), 'w', newline='') as file:
        file.write(asked.feed())
    command = [program, 'run', 'net', f'--penalty={asked.penalty}', 'feed']
    done = subprocess.run(command, cwd=folder, capture_output=True, timeout=SECONDS, check=False)
    if done.returncode != 0:
        return f'the run ends with {done.returncode}'
    with open(os.path.join(folder, 'text'), 'wb') as text:
        text.write(done.stdout)
    return fault_of(asked, done.stdout, counts)


def main(argv: Sequence[str] | None = None) -> int:
    words = command_line(__doc__)
    add_program(words)
    words.add_argument('begin', metavar='FROM', nargs='?', type=int, default=0, help='first number (0)')
    words.add_argument('end', metavar='TO', nargs='?', type=int, default=1000, help='number before which to end (1,000)')
    given = words.parse_args(argv)
    counts: Counter[str] = Counter()
    wrong = 0
    for number in range(given.begin, given.end):
        folder = tempfile.mkdtemp(prefix='bounds-')
        fault = fault_of_number(given.program, number, folder, counts)
        if fault is None:
            shutil.rmtree(folder)
        else:
            print(f'{number}: {fault}, in {folder}', flush=True)
            wrong += 1
    told = ', '.join(f'{counts[name]} {name}' for name in ('plans by parts', 'optimal', 'optimal by parts alone', 'parts'))
    print(f'{told}\n{wrong} numbers are wrong')
    return 1 if wrong else 0
