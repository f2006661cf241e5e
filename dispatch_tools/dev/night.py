"""Does one long test after the other within a time, and says in a line how each came out:

    dispatch-tools night DISPATCHER [--hours=8] [--only=NAME ..] [--begin=N] [--log=FOLDER]

DISPATCHER is the built program. `fuzz` and `queries` draw new runs each night, from N on, and compare the program with the second
reading. `docs` runs the commands of the pages. `kill` kills a server again and again. `hostile` does to a server what disks and
people do, and `power` what a loss of power does. Each gets an equal part of the time that is left; what one does not need is left
to those behind it. All that they print is in files of FOLDER. The status is 1 if anything differed or was not ended in time.
"""
from __future__ import annotations

import subprocess
import time
from collections.abc import Callable, Sequence
from dataclasses import dataclass
from pathlib import Path

from dispatch_tools.dev.running import run_whole
from dispatch_tools.here import TOP, words_of
from dispatch_tools.words import command_line, whole_path

# So many networks or runs are drawn in a turn, and so often a server is killed in one.
DRAWN, KILLS = 100, 50

# Each night begins so many numbers behind the one before.
NIGHT = 1_000_000


@dataclass(frozen=True)
class Trial:
    """A test: its script, what stands behind the program in turn K from a number on, and whether there are further turns."""

    name: str
    words: Callable[[int], list[str]]
    repeats: bool = False


def drawn(begin: int) -> list[str]:
    return [str(begin), str(begin + DRAWN)]


TRIALS = [
    Trial('fuzz', drawn, repeats=True),
    Trial('queries', drawn, repeats=True),
    Trial('docs', lambda begin: []),
    Trial('kill', lambda begin: [str(KILLS), f'--seed={begin}'], repeats=True),
    Trial('hostile', lambda begin: []),
    Trial('power', lambda begin: []),
]


@dataclass(frozen=True)
class Outcome:
    """How a test came out: the turns that ended, the seconds, and the last line of a turn that differed or did not end."""

    turns: int
    seconds: float
    fault: str | None

    def line(self, name: str) -> str:
        found = 'ok' if self.fault is None else f'DIFFERS: {self.fault}'
        return f'{name}: {found}, {self.turns} turn{"" if self.turns == 1 else "s"}, {self.seconds:.0f} s'


def turn(words: list[str], seconds: float, log: Path) -> int | None:
    """The status of a script that ends in time, or nothing. What it prints is added to a file."""
    with open(log, 'ab') as file:
        try:
            return run_whole(words, seconds, cwd=TOP, stdin=subprocess.DEVNULL, stdout=file, stderr=subprocess.STDOUT).returncode
        except subprocess.TimeoutExpired:
            return None


def last_line(log: Path) -> str:
    lines = log.read_text(encoding='utf-8', errors='replace').split('\n')
    return next((line for line in reversed(lines) if line.strip()), '')


def tried(trial: Trial, program: str, begin: int, seconds: float, log: Path) -> Outcome:
    """Does a test in turns until its time is over or a turn differs."""
    began, turns = time.monotonic(), 0
    while True:
        left = seconds - (time.monotonic() - began)
        words = [*words_of(trial.name), program, *trial.words(begin + turns * DRAWN)]
        status = turn(words, max(left, 0.0), log)
        took = time.monotonic() - began
        if status is None:
            return Outcome(turns, took, None if turns else f'no turn ended in {seconds:.0f} s')
        turns += 1
        if status != 0 or not trial.repeats:
            return Outcome(turns, took, None if status == 0 else f'status {status}, {last_line(log)}')


def whole_night(trials: list[Trial], program: str, begin: int, seconds: float, folder: Path) -> bool:
    """Does the tests one after the other and prints a line of each; whether none differs."""
    began, is_well = time.monotonic(), True
    for number, trial in enumerate(trials):
        left = seconds - (time.monotonic() - began)
        outcome = tried(trial, program, begin, left / (len(trials) - number), folder / f'{trial.name}.log')
        print(outcome.line(trial.name), flush=True)
        is_well = is_well and outcome.fault is None
    return is_well


def main(argv: Sequence[str] | None = None) -> int:
    parser = command_line(__doc__)
    parser.add_argument('program', metavar='DISPATCHER', type=whole_path, help='the built program')
    parser.add_argument('--hours', type=float, default=8.0, help='how long all may take (8)')
    parser.add_argument('--only', choices=[trial.name for trial in TRIALS], nargs='*', help='these tests alone')
    parser.add_argument('--begin', type=int, default=int(time.time()) // 86400 * NIGHT, help='the first number that is drawn from (that of the day)')
    parser.add_argument('--log', type=Path, default=Path('out/night'), help='folder of what the tests print (out/night)')
    asked = parser.parse_args(argv)
    asked.log.mkdir(parents=True, exist_ok=True)
    trials = [trial for trial in TRIALS if not asked.only or trial.name in asked.only]
    return 0 if whole_night(trials, asked.program, asked.begin, asked.hours * 3600, asked.log.resolve()) else 1
