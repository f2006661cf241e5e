"""Times the checking of runs: dispatch-tools check DAY DISPATCHER [COUNTRY]

DAY is a folder that day wrote, COUNTRY one that country wrote, and DISPATCHER the built program. Each row runs feeds, and
checks the text of the run. It has the least processor time of both, the ratio of `check` to the run, and the ratio of the most
memory. A ratio of times has a bound, as below. The ratio of memory has the bound 2.5.

    day        delays      a full feed of delays                      0.8
               mixed       a full feed of mixed lines                 1.3
               plans       16 plans of 4,096 nodes                    1.2
               solved      16 plans by parts of 4,096 nodes           1.2
    country    questions, delays, activity-delays, drops, keeps       1.5
               feeds       1, 4, 16 and 64 full feeds at once         1.5

With COUNTRY the script also replaces one record of the text of four feeds: at the front, in the middle and at the end of the
logs. To judge such a text may take at most 1.1 times as long as to judge the good one. A ratio over its bound is marked, and the
status is then 1.
"""
from __future__ import annotations

import os
import sys
from typing import Container, NamedTuple, Sequence

from dispatch_tools.bench.measured import measured
from dispatch_tools.words import add_program, command_line

MEMORY = 2.5
REPLACED = 1.1


class Row(NamedTuple):
    """Feeds, the bound of their ratio, and how often they are timed."""
    name: str
    feeds: list[str]
    bound: float
    repeats: int


DAY = [Row('delays', ['full'], 0.8, 3), Row('mixed', ['mixed'], 1.3, 3), Row('plans', ['plans'], 1.2, 1),
       Row('solved', ['solved'], 1.2, 1)]
ONE_FEED = [Row(name, [name], 1.5, 3) for name in ('questions', 'delays', 'activity-delays', 'drops', 'keeps')]
FEEDS = [Row(f'{many} feeds', [f'feed{feed % 16 + 1}' for feed in range(many)], 1.5, 1) for many in (1, 4, 16, 64)]


def least(command: list[str], folder: str, output: str, repeats: int, statuses: Container[int]) -> tuple[float, float]:
    """The least seconds and the most megabytes of as many measurements. Only these statuses are right."""
    taken = [measured(command, folder=folder, output=output) for _ in range(repeats)]
    for each in taken:
        if each.status not in statuses:
            sys.exit(f'{" ".join(command)} ended with {each.status}')
    return min(each.seconds for each in taken), max(each.megabytes for each in taken)


def verdict_of(folder: str) -> str:
    with open(os.path.join(folder, 'verdict')) as file:
        return file.read().strip()


class Bench:
    def __init__(self, program: str) -> None:
        self.program = program
        self.over = False

    def mark(self, value: float, bound: float) -> str:
        self.over = self.over or value > bound
        return '  over' if value > bound else ''

    def check(self, folder: str, text: str, repeats: int) -> tuple[float, float]:
        command = [self.program, 'check', 'net', text, '--penalty=3600']
        return least(command, folder, 'verdict', repeats, (0, 1))

    def row(self, folder: str, row: Row) -> None:
        name, feeds, bound, repeats = row
        run, run_memory = least([self.program, 'run', 'net', '--penalty=3600', *feeds], folder, 'text', repeats, (0,))
        check, check_memory = self.check(folder, 'text', repeats)
        ratio, memory = check / run, check_memory / run_memory
        print(f'{name:<16}run {run:8.3f} s  check {check:8.3f} s{ratio:8.2f} of {bound}{self.mark(ratio, bound)}'
              f'  memory{memory:6.2f} of {MEMORY}{self.mark(memory, MEMORY)}  {verdict_of(folder)}', flush=True)

    def replaced(self, folder: str, feeds: list[str]) -> None:
        least([self.program, 'run', 'net', '--penalty=3600', *feeds], folder, 'text', 1, (0,))
        good, _ = self.check(folder, 'text', 1)
        with open(os.path.join(folder, 'text')) as file:
            lines = file.readlines()
        costs = [place for place, line in enumerate(lines) if ' cost -> ' in line]
        for name, place in (('front', costs[0]), ('middle', costs[len(costs) // 2]), ('end', costs[-1])):
            words = lines[place].split()
            words[-1] = str(int(words[-1]) + 1)
            with open(os.path.join(folder, 'replaced'), 'w') as file:
                file.writelines([*lines[:place], ' '.join(words) + '\n', *lines[place + 1:]])
            check, _ = self.check(folder, 'replaced', 1)
            print(f'{name + " replaced":<16}good{good:8.3f} s  check {check:8.3f} s{check / good:8.2f} of {REPLACED}'
                  f'{self.mark(check / good, REPLACED)}  {verdict_of(folder)}', flush=True)


def main(argv: Sequence[str] | None = None) -> int:
    words = command_line(__doc__)
    words.add_argument('day', metavar='DAY', help='folder that day wrote')
    add_program(words)
    words.add_argument('countries', metavar='COUNTRY', nargs='*', help='folder that country wrote')
    given = words.parse_args(argv)
    bench = Bench(given.program)
    for row in DAY:
        bench.row(given.day, row)
    for country in given.countries:
        for row in ONE_FEED + FEEDS:
            bench.row(country, row)
        bench.replaced(country, FEEDS[1].feeds)
    return 1 if bench.over else 0
