"""Searches a plan by 16 workers again and again: dispatch-tools searches DISPATCHER [RUNS]

Each of RUNS runs (50) gets the 500 delays of the day of dispatch-tools day with number 7 and 100 trains, and lets 16 workers
search a plan of 16,384 nodes. It has to end with status 0 within a minute, and `DISPATCHER check` has to find its text good. The
script prints what differs, with the folder of its text, which stays there. The status is then 1. The last line says how many
different plans there were, with their costs and bounds.
"""
from __future__ import annotations

import os
import tempfile
from typing import Optional, Sequence

from dispatch_tools.bench.crowd import answer
from dispatch_tools.bench.plans import plan_of, write
from dispatch_tools.days.generated import write_day
from dispatch_tools.words import add_program, command_line

RUNS = 50
TRAINS = 100
WORKERS = 16
GOOD = b'good 500 1\n'


def fault_of(program: str, folder: str, came: Optional[tuple[int, bytes]]) -> Optional[str]:
    """What is wrong with what a run came to, or None."""
    if came is None:
        return 'it does not end in time'
    status, text = came
    if status != 0:
        return f'its status is {status}'
    with open(os.path.join(folder, 'text'), 'wb') as file:
        file.write(text)
    told = answer(program, folder, ['check', 'net', 'text', '--penalty=3600'])
    return None if told == (0, GOOD) else f'the check prints {told}'


def searched(program: str, folder: str, number: int) -> Optional[str]:
    """The words of a run's plan, or none if something differs, which is printed."""
    came = answer(program, folder, ['run', 'net', '--penalty=3600', f'--workers={WORKERS}', 'feed'])
    fault = fault_of(program, folder, came)
    if came is not None and fault is None:
        return ' '.join(plan_of(came[1].decode()))
    kept = tempfile.mkdtemp()
    write(kept, 'text', [came[1].decode(errors='replace')] if came else [])
    print(f'run {number}: {fault}: {kept}', flush=True)
    return None


def main(argv: Sequence[str] | None = None) -> int:
    words = command_line(__doc__)
    add_program(words)
    words.add_argument('runs', metavar='RUNS', nargs='?', type=int, default=RUNS, help='number of runs (%(default)s)')
    given = words.parse_args(argv)
    with tempfile.TemporaryDirectory() as folder:
        write_day(7, TRAINS, folder)
        with open(os.path.join(folder, 'delays')) as file:
            write(folder, 'feed', [*file, 'plan 16384\n'])
        plans = [searched(given.program, folder, number) for number in range(1, given.runs + 1)]
    print(f'{plans.count(None)} of {given.runs} differ; the plans:', ', '.join(sorted({plan for plan in plans if plan})))
    return None in plans
