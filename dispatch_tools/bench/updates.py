"""Times updates on a generated day: dispatch-tools updates DM_ROWS_CASES [COUNT]

DM_ROWS_CASES is the built program of dm_rows_cases. Each row makes COUNT changes of a kind (1,000,000). It has the nanoseconds of
processor time for each, less those of a day without changes. `pass` passes and recalls the last event of a day. `apart` does so with
one event of a pair between whose events 20,000 others stand. `cancel` cancels or restores all twenty events of a train that is ten
minutes late.
"""
from __future__ import annotations

import os
from typing import Sequence

from dispatch_tools.bench.measured import measured
from dispatch_tools.here import TOP
from dispatch_tools.words import command_line, whole_path

REPEATS = 3

# The program reads its cases where it runs.
CASES = os.path.join(TOP, 'crates', 'dm_rows_cases', 'data')

# How many messages a change of a kind has, where it is not one.
MESSAGES = {'cancel': 20}

KINDS = ['still', 'event', 'train', 'order', 'choice', 'pass', 'apart', 'decision', 'cancel']


def timed(words: list[str]) -> float:
    """The least processor seconds of a run."""
    runs = [measured(words, folder=CASES) for _ in range(REPEATS)]
    if any(run.status != 0 for run in runs):
        raise SystemExit(f'{words} ended with {runs[0].status}')
    return min(run.seconds for run in runs)


def main(argv: Sequence[str] | None = None) -> int:
    words = command_line(__doc__)
    words.add_argument('program', metavar='DM_ROWS_CASES', type=whole_path, help='the built program of dm_rows_cases')
    words.add_argument('count', metavar='COUNT', nargs='?', type=int, default=1_000_000, help='changes of a kind (%(default)s)')
    given = words.parse_args(argv)
    for kind in KINDS:
        count = given.count * MESSAGES.get(kind, 1)
        taken = timed([given.program, kind, str(count)]) - timed([given.program, kind, '0'])
        print(f'{kind:10} {1e9 * taken / given.count:8.0f} ns')
    return 0
