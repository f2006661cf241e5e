"""Counts the instructions of runs of a generated day: dispatch-tools instructions DISPATCHER [BEFORE]

DISPATCHER is the built program, and BEFORE another one, as of the commit before a change. The counts are those of callgrind
(Debian's `valgrind`), in millions. They are the same at each run of one feed. The day is that of dispatch-tools day with number 7
and 2,000 trains. A row is marked if its count is over its bound, and the status is then 1. Beyond another row means the count
less that row's count:

    load      the files and an empty feed                  260
    gen       gen 7 2000                                    75
    delays    a full feed of delays, beyond load            62
    mixed     a full feed of mixed lines, beyond load      160
    read      the check of the text of the empty feed
    check     that of the text of the delays, beyond read   52
"""
from __future__ import annotations

import argparse
import os
import re
import shutil
import subprocess
import tempfile
from typing import Mapping, NamedTuple, Sequence

from dispatch_tools.days import generated as day
from dispatch_tools.words import command_line, whole_path

NUMBER, TRAINS = 7, 2_000
PENALTY = '--penalty=3600'

# The texts that are checked, and the feeds that they are of.
TEXTS = {'empty-text': 'empty', 'full-text': 'full'}


class Row(NamedTuple):
    """Words of a run, the row whose count is taken off, and the bound, in millions of instructions."""
    name: str
    words: list[str]
    beyond: str | None = None
    bound: int | None = None

    def is_over(self, count: float) -> bool:
        return self.bound is not None and count > self.bound


ROWS = [
    Row('load', ['run', 'net', PENALTY, 'empty'], bound=260),
    Row('gen', ['gen', str(NUMBER), str(TRAINS), PENALTY], bound=75),
    Row('delays', ['run', 'net', PENALTY, 'full'], 'load', 62),
    Row('mixed', ['run', 'net', PENALTY, 'mixed'], 'load', 160),
    Row('read', ['check', 'net', PENALTY, 'empty-text']),
    Row('check', ['check', 'net', PENALTY, 'full-text'], 'read', 52),
]


def write_day(program: str, folder: str, texts: Mapping[str, str], trains: int = TRAINS) -> None:
    """Writes the day, and the texts of some of its feeds."""
    day.write_day(NUMBER, trains, folder)
    for text, feed in texts.items():
        with open(os.path.join(folder, text), 'wb') as file:
            subprocess.run([program, 'run', 'net', PENALTY, feed], cwd=folder, stdout=file, stderr=subprocess.DEVNULL, check=True)


def counted(program: str, folder: str, words: list[str]) -> float:
    """How many millions of instructions a run takes, of all its threads."""
    counts = os.path.join(folder, 'counts')
    command = ['valgrind', '--tool=callgrind', f'--callgrind-out-file={counts}', program, *words]
    done = subprocess.run(command, cwd=folder, stdout=subprocess.DEVNULL, stderr=subprocess.PIPE, text=True)
    if done.returncode != 0:
        raise SystemExit(f'{" ".join(command)} ended with {done.returncode}:\n{done.stderr}')
    with open(counts, encoding='utf-8') as file:
        found = re.search('^totals: ([0-9]+)$', file.read(), re.MULTILINE)
    if found is None:
        raise SystemExit(f'{" ".join(command)} left no count')
    return int(found[1]) / 1e6


def counts_of(program: str, folder: str) -> dict[str, float]:
    """The counts of all rows."""
    counts: dict[str, float] = {}
    for row in ROWS:
        counts[row.name] = counted(program, folder, row.words) - (counts[row.beyond] if row.beyond else 0)
    return counts


def arguments(argv: Sequence[str] | None) -> argparse.Namespace:
    words = command_line(__doc__)
    words.add_argument('dispatcher', metavar='DISPATCHER', type=whole_path, help='the built program')
    words.add_argument('before', metavar='BEFORE', nargs='?', type=whole_path, help='another built program')
    given = words.parse_args(argv)
    if shutil.which('valgrind') is None:
        words.error('there is no valgrind here')
    return given


def main(argv: Sequence[str] | None = None) -> int:
    given = arguments(argv)
    with tempfile.TemporaryDirectory() as folder:
        write_day(given.dispatcher, folder, TEXTS)
        now = counts_of(given.dispatcher, folder)
        before = counts_of(given.before, folder) if given.before else {}
    print('row      millions  bound' + ('  before  ratio' if before else ''))
    for row in ROWS:
        beside = f'{before[row.name]:8.1f}{now[row.name] / before[row.name]:7.2f}' if before else ''
        print(f'{row.name:<8}{now[row.name]:9.1f}{row.bound or "":>7}{beside}{"  over" if row.is_over(now[row.name]) else ""}')
    return any(row.is_over(now[row.name]) for row in ROWS)
