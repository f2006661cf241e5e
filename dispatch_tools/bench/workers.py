"""Times plans that are searched by several workers: dispatch-tools workers DISPATCHER [TRAINS ..] [--solve]

For each number of trains (40, 200, 500 and 2,000) it takes the day of dispatch-tools day with number 7, its 500 delays, and
after them `plan 16384`, or with --solve `solve 16384`. It runs these with 1, 2 and 4 workers, and the delays alone with one.
All run in turn, nine times. The least time by the clock counts, less that of the delays alone. With 2,000 trains two workers
may take at most 0.7 of the time of one, and four at most 0.5. The text of several workers has to be that of one. What takes
longer or prints another text is marked, and the status is then 1. Run it on a machine that does nothing else and has four
processors.
"""
from __future__ import annotations

import os
import tempfile
from typing import Iterator, NamedTuple, Sequence

from dispatch_tools.bench.measured import measured
from dispatch_tools.bench.plans import plan_of, write
from dispatch_tools.days.generated import write_day
from dispatch_tools.words import add_program, command_line

NUMBER = 7
TRAINS = (40, 200, 500, 2_000)
WORKERS = (1, 2, 4)
REPEATS = 9
RATIOS = {2: 0.7, 4: 0.5}

# The number of trains of which the ratios are bounded.
BOUNDED = 2_000


class Searched(NamedTuple):
    """A plan's cost and bound, the text of the run, and the seconds that the plan took."""
    cost: int
    bound: int
    text: str
    seconds: float


def timed(program: str, folder: str, feed: str, workers: int) -> tuple[str, float]:
    """The text of a run, and its seconds by the clock."""
    words = [program, 'run', os.path.join(folder, 'net'), '--penalty=3600', f'--workers={workers}', feed]
    taken = measured(words)
    if taken.status != 0:
        raise SystemExit(f'{words} ended with {taken.status}')
    return taken.printed, taken.wall


def searched(program: str, trains: int, word: str) -> dict[int, Searched]:
    """What each number of workers comes to on a day."""
    with tempfile.TemporaryDirectory() as folder:
        write_day(NUMBER, trains, folder)
        delays = os.path.join(folder, 'delays')
        with open(delays, encoding='ascii') as file:
            planned = write(folder, 'planned', [*file, f'{word} 16384\n'])
        alone: list[float] = []
        least: dict[int, list[float]] = {workers: [] for workers in WORKERS}
        texts: dict[int, str] = {}
        for _ in range(REPEATS):
            alone.append(timed(program, folder, delays, 1)[1])
            for workers in WORKERS:
                texts[workers], seconds = timed(program, folder, planned, workers)
                least[workers].append(seconds)
    plans = {}
    for workers, text in texts.items():
        _, *rest = plan_of(text)
        values = dict(zip(rest[0::2], rest[1::2]))
        plans[workers] = Searched(int(values['cost']), int(values['bound']), text, min(least[workers]) - min(alone))
    return plans


def faults_of(trains: int, workers: int, plan: Searched, one: Searched) -> Iterator[str]:
    """In what a plan is over its bounds beside that of one worker."""
    if trains == BOUNDED and plan.seconds > RATIOS[workers] * one.seconds:
        yield f'over {RATIOS[workers]}'
    if plan.text != one.text:
        yield 'another text'


def print_day(program: str, trains: int, word: str) -> bool:
    """Prints the lines of a day, and says whether none is over its bounds."""
    plans = searched(program, trains, word)
    one, good = plans[1], True
    for workers, plan in plans.items():
        faults = list(faults_of(trains, workers, plan, one)) if workers > 1 else []
        good = good and not faults
        print(f'{trains:6} {workers:7} {plan.cost / 1e6:9.2f} {plan.bound / 1e6:9.2f} {plan.seconds:7.3f} s {plan.seconds / one.seconds:5.2f}'
              f'{"  " + ", ".join(faults) if faults else ""}', flush=True)
    return good


def main(argv: Sequence[str] | None = None) -> int:
    words = command_line(__doc__)
    add_program(words)
    words.add_argument('trains', metavar='TRAINS', nargs='*', type=int, default=TRAINS, help='trains of a day (40 to 2,000)')
    words.add_argument('--solve', action='store_true', help='ask for plans by parts')
    given = words.parse_args(argv)
    print('trains workers      cost     bound      time ratio')
    good = [print_day(given.program, trains, 'solve' if given.solve else 'plan') for trains in given.trains]
    return not all(good)
