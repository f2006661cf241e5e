"""Prints how good the plans of generated days are, and what they cost: dispatch-tools plans PROGRAM [TRAINS ..] [--figure=FILE]

PROGRAM is the built program (`rt run` leaves crates/dispatcher/out/dispatcher). The days are those of dispatch-tools day with the
numbers 1 to 9. Each gets its 500 delays, and then `plan 16384`, or `solve 16384` for the line below it. The penalty is 3600. Costs
and bounds are in millions of thousandths of passenger seconds. The columns after them are the gap in per cent, the nodes, the
processor time of the run less that of a run without the plan, the most memory of the run, the parts of a plan by parts, and how far
the cost is above the best one that is known, if there is one.

A line is about the largest day with number 7: `plan 4096` and `adopt` after each eighth of the delays. --figure draws the mean gap of
both kinds by the number of trains.
"""
from __future__ import annotations

import math
import os
import tempfile
from typing import Iterable, Mapping, NamedTuple, Sequence

from dispatch_tools.bench.measured import measured, Measured
from dispatch_tools.days.generated import write_day
from dispatch_tools.pictures.figures import Curve, picture, Scale
from dispatch_tools.words import add_program, command_line

BUDGET = 16_384
TRAINS = [20, 40, 100, 200, 500, 2000]

# The least costs that are known, in millions, by trains, for numbers 1 to 9.
BEST = {
    20: [1361.29, 1313.78, 1388.01, 1313.49, 1335.50, 1289.03, 1365.49, 1324.13, 1303.91],
    40: [2404.51, 2319.56, 2430.01, 2351.82, 2307.57, 2304.04, 2424.22, 2417.89, 2311.79],
    100: [4434.35, 4462.54, 4440.64, 4376.76, 4385.33, 4375.58, 4260.31, 4476.96, 4432.00],
    200: [6213.40, 6329.67, 6276.89, 6144.71, 6044.66, 6303.05, 5805.17, 6253.45, 6251.35],
    500: [8033.56, 8376.92, 8364.40, 8193.75, 7612.69, 8241.48, 7569.26, 8309.44, 8372.29],
    2000: [9626.07, 9737.15, 9836.29, 9626.23, 9147.01, 9994.31, 9102.51, 9840.12, 10158.74],
}


def run(program: str, folder: str, feed: str) -> Measured:
    """What a run takes, and its text."""
    words = [program, 'run', os.path.join(folder, 'net'), '--penalty=3600', feed]
    taken = measured(words)
    if taken.status != 0:
        raise SystemExit(f'{words} ended with {taken.status}')
    return taken


def plan_of(text: str) -> list[str]:
    """The words behind `plan`, or `solved`, in the line that answers the plan."""
    for line in text.splitlines():
        words = line.split()
        if words[1:3] in (['plan', '16384'], ['solve', '16384']):
            return words[words.index('->') + 3:]
    raise SystemExit('no plan')


def write(folder: str, name: str, lines: Iterable[str]) -> str:
    path = os.path.join(folder, name)
    with open(path, 'w') as file:
        file.writelines(lines)
    return path


def adopting(delays: list[str], plans: int) -> list[str]:
    """The delays in so many parts, each followed by a plan of 4,096 nodes and its adoption."""
    lines: list[str] = []
    for k in range(plans):
        lines += delays[k * len(delays) // plans:(k + 1) * len(delays) // plans]
        lines += ['plan 4096\n', 'adopt\n']
    return lines


def behind(trains: int, number: int, cost: float) -> str:
    """How far a cost is above the best that is known, as the end of a line."""
    if trains not in BEST or cost <= BEST[trains][number - 1]:
        return ''
    best = BEST[trains][number - 1]
    return f'  {100 * (cost - best) / best:.4f} % above {best:.2f}'


class Planned(NamedTuple):
    """The gap of a plan in per cent of its cost, and whether it costs no more than the best that is known."""
    gap: float
    is_best: bool


def planned(word: str, trains: int, number: int, taken: Measured, without: float) -> Planned:
    """Prints the line of a plan."""
    mark, *rest = plan_of(taken.printed)
    values = dict(zip(rest[0::2], rest[1::2]))
    cost, bound = int(values['cost']), int(values['bound'])
    gap = 100 * (cost - bound) / cost if cost else 0.0
    above, parts = behind(trains, number, cost / 1e6), f'  {values["parts"]} parts' if 'parts' in values else ''
    print(f'{trains:6} {number:6} {word:5} {mark:8} {cost / 1e6:9.2f} {bound / 1e6:9.2f} {gap:7.3f} '
          f'{values["nodes"]:>6} {taken.seconds - without:6.2f} s {taken.megabytes:4.0f} MB{parts}{above}')
    return Planned(gap, not above)


def day(program: str, trains: int, number: int, last: bool) -> list[Planned]:
    """Prints the lines of a day: the plan, and the one by parts."""
    with tempfile.TemporaryDirectory() as folder:
        write_day(number, trains, folder)
        feed = os.path.join(folder, 'delays')
        with open(feed) as file:
            delays = file.readlines()
        without = run(program, folder, feed).seconds
        plans = [
            planned(word, trains, number, run(program, folder, write(folder, word, [*delays, f'{word} {BUDGET}\n'])), without)
            for word in ('plan', 'solve')
        ]
        if last:
            taken = run(program, folder, write(folder, 'adopted', adopting(delays, 8)))
            print(f'{trains:6} {number:6} 8 plans of 4096 nodes, adopted                '
                  f'{taken.seconds - without:6.2f} s {taken.megabytes:4.0f} MB')
        return plans


def figure(gaps: Mapping[int, Sequence[Sequence[Planned]]]) -> str:
    """A picture of the mean gaps, in thousandths of a per cent, by the number of trains."""
    curves = [
        Curve(name, [(trains, round(1000 * sum(plans[kind].gap for plans in days) / len(days))) for trains, days in gaps.items()])
        for kind, name in enumerate(('one tree', 'by parts'))
    ]
    title = f'How far the proved bound lies below the cost of a plan of {BUDGET:,} nodes'
    return picture(title, 'trains of the day', '% of the cost', curves, Scale(at=math.log2), Scale(lambda gap: f'{gap / 1000:g}'))


def main(argv: Sequence[str] | None = None) -> int:
    words = command_line(__doc__)
    add_program(words)
    words.add_argument('trains', metavar='TRAINS', nargs='*', type=int, default=TRAINS, help='trains of a day (20 to 2,000)')
    words.add_argument('--figure', metavar='FILE', help='file for a picture of the gaps (SVG)')
    given = words.parse_args(argv)
    gaps: dict[int, list[list[Planned]]] = {}
    print('trains number word  mark          cost     bound  gap, %  nodes      time memory')
    for count in given.trains:
        gaps[count] = [day(given.program, count, number, count == given.trains[-1] and number == 7) for number in range(1, 10)]
    if given.figure:
        write('', given.figure, [figure(gaps)])
    short = sum(not plan.is_best for days in gaps.values() for plans in days for plan in plans)
    print(f'{short} plans cost more than the best that is known')
    return 0
