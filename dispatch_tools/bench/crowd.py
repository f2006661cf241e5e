"""Runs 64 feeds at once, again and again: dispatch-tools crowd DISPATCHER [RUNS] [--beside=N]

There are RUNS runs (10,000 if not given). Each answers 64 feeds of ten lines each, drawn from its number, over a generated day of
20 trains. The batches are of 1, 3, 16 and 1,000 lines in turn. N runs go on at the same time (as many as there are processors).
Of each run

    it ends with status 0 within a minute
    `DISPATCHER check` finds its text good
    each log answers all ten lines, and ends with `end`
    the logs keep to rounds of the batch

The script prints what differs, with the folder of its feeds, which stays there. The status is then 1.
"""
from __future__ import annotations

import argparse
import os
import subprocess
import tempfile
import time
from concurrent.futures import ThreadPoolExecutor
from typing import Optional, Sequence

from dispatch_tools.days.generated import Draws, mixed, write_day, write_feed
from dispatch_tools.formats.lines import Bad
from dispatch_tools.formats.runtext import read_run
from dispatch_tools.oracle.drawing import keeps_rounds
from dispatch_tools.words import add_program, command_line

RUNS = 10_000
TRAINS = 20
EVENTS = 20 * TRAINS
FEEDS = 64
LINES = 10
BATCHES = (1, 3, 16, 1_000)
SECONDS = 60


def answer(program: str, folder: str, words: list[str]) -> Optional[tuple[int, bytes]]:
    """The status of a command and what it prints; None if it does not end in time."""
    try:
        done = subprocess.run([program, *words], cwd=folder, stdout=subprocess.PIPE, stderr=subprocess.DEVNULL, timeout=SECONDS)
    except subprocess.TimeoutExpired:
        return None
    return done.returncode, done.stdout


def fault_of_text(text: bytes, batch: int) -> Optional[str]:
    """What is wrong with the logs of a text, or None."""
    try:
        run = read_run(text, EVENTS)
    except Bad as bad:
        return f'line {bad.args[0]} of its text is of another form'
    for number, log in enumerate(run.logs, 1):
        if len(log.items) != LINES or log.stop != 'end':
            return f'the log of feed {number} has {len(log.items)} items and ends with {log.stop}'
    if len(run.logs) != FEEDS:
        return f'it has {len(run.logs)} logs'
    return None if keeps_rounds(run.logs, batch) else 'the logs do not keep to rounds'


def fault_of_run(program: str, net: str, folder: str, number: int) -> Optional[str]:
    """What is wrong with a run, or None."""
    names = [f'feed-{feed}' for feed in range(1, FEEDS + 1)]
    for feed, name in enumerate(names):
        write_feed(folder, name, mixed(Draws(FEEDS * number + feed), TRAINS), LINES)
    batch = BATCHES[number % len(BATCHES)]
    came = answer(program, folder, ['run', net, f'--batch={batch}', *names])
    if came is None:
        return f'it does not end within {SECONDS} seconds'
    status, text = came
    if status != 0:
        return f'its status is {status}'
    with open(os.path.join(folder, 'text'), 'wb') as file:
        file.write(text)
    entries = text.split(b'\n', 4)[3].split()[-1].decode()
    told = answer(program, folder, ['check', net, 'text'])
    if told != (0, f'good {entries} 0\n'.encode()):
        return f'the check prints {told}'
    return fault_of_text(text, batch)


def tried(program: str, net: str, number: int) -> bool:
    """Tries a run, and prints what differs. False if something does."""
    with tempfile.TemporaryDirectory() as folder:
        fault = fault_of_run(program, net, folder, number)
        if fault is not None:
            kept = tempfile.mkdtemp()
            os.rename(folder, os.path.join(kept, 'run'))
            os.mkdir(folder)
            print(f'run {number}: {fault}: {kept}/run', flush=True)
    return fault is None


def arguments(argv: Sequence[str] | None) -> argparse.Namespace:
    words = command_line(__doc__)
    add_program(words)
    words.add_argument('runs', metavar='RUNS', nargs='?', type=int, default=RUNS, help='number of runs (%(default)s)')
    words.add_argument('--beside', metavar='N', type=int, default=os.cpu_count(), help='runs at the same time (all processors)')
    return words.parse_args(argv)


def main(argv: Sequence[str] | None = None) -> int:
    given = arguments(argv)
    begun = time.monotonic()
    with tempfile.TemporaryDirectory() as day, ThreadPoolExecutor(given.beside) as pool:
        write_day(7, TRAINS, day)
        net = os.path.join(day, 'net')
        good = sum(pool.map(lambda number: tried(given.program, net, number), range(given.runs)))
    print(f'{given.runs} runs of {FEEDS} feeds in {time.monotonic() - begun:.0f} s: {given.runs - good} differ')
    return 1 if good < given.runs else 0
