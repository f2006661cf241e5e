"""Tests all that takes no proof: the tests of the tools, the stored runs and verdicts, and the commands of the examples.

    ./dispatcher test [--program=PROGRAM] [--only=PART]

The stored runs and verdicts are the cases of dm_runs and dm_check_cases, and the run of the crate dispatcher. They and the
examples go through the proved program if it is built of the sources as they are, else through one that `rt try` builds of them.
A part that cannot be tested here is named, and counts for nothing. So are commands of examples that take minutes by a program
without proofs. The last line is `N passed, M failed, S s`, and the status is 1 if anything failed.
"""
from __future__ import annotations

import argparse
import os
import re
import shutil
import subprocess
import sys
import tempfile
import time
from collections.abc import Callable, Iterable, Iterator, Sequence
from concurrent.futures import ThreadPoolExecutor
from dataclasses import dataclass, field
from itertools import chain
from pathlib import Path
from typing import NamedTuple

from dispatch_tools.dev.program import TOP, NotBuilt, Repository
from dispatch_tools.dev.running import run_whole
from dispatch_tools.here import words_of

PARTS = ['tests', 'runs', 'verdicts', 'examples']

# Examples that play a day.
PLAYS = ['live', 'midnight', 'policies', 'regions', 'replan']

# Commands of examples that call the program many times, which takes minutes where it was built without proofs.
LONG_COMMANDS = ['dispatch-tools figures']

# The longest that one case, one file of tests or one example may take, on a machine that is loaded many times over.
SECONDS = 1800

# The test files make way for the build, which takes longer than all of them.
MAKES_WAY = ['nice', '-n', '5']


@dataclass
class Tally:
    """How many passed, a line for each that failed, what is to be known beside, and what else was told of faults."""

    passed: int = 0
    failed: list[str] = field(default_factory=list)
    noted: list[str] = field(default_factory=list)
    told: list[str] = field(default_factory=list)

    def add(self, other: Tally) -> None:
        self.passed += other.passed
        self.failed += other.failed
        self.noted += other.noted
        self.told += other.told


def tally_of(fault: str | None) -> Tally:
    return Tally(passed=1) if fault is None else Tally(failed=[fault])


class Program(NamedTuple):
    """The program under test, and whether it is slow, as one that was built without proofs is."""

    path: Path
    is_slow: bool = False


class Begun(NamedTuple):
    """A part of the test that is under way: what differs in each of its cases, and what is to be known beside."""

    faults: Iterable[str | None]
    noted: list[str]


def ran(words: Sequence[str | Path], folder: Path) -> tuple[int, str, str]:
    """The status of a command, and what it wrote on its two streams; status -1 where it does not end in time."""
    try:
        done = run_whole(words, SECONDS, cwd=folder, stdin=subprocess.DEVNULL, stdout=subprocess.PIPE, stderr=subprocess.PIPE, text=True, errors='replace')
    except subprocess.TimeoutExpired:
        return -1, '', f'did not end within {SECONDS} seconds'
    return done.returncode, done.stdout, done.stderr


# ---- The tests of the tools

def test_file(path: Path, makes_way: bool = True) -> Tally:
    """Runs a file of tests in a process of its own."""
    # What is closed late is said when memory is cleared, at any moment, among what a test compares.
    words = [*(MAKES_WAY if makes_way else []), sys.executable, '-B', '-W', 'ignore::ResourceWarning', '-m', 'unittest', 'discover', '-s', path.parent.name, '-t', '.', '-p', path.name]
    status, _, told = ran(words, path.parents[1])
    return counted(path.name, status, told)


def counted(name: str, status: int, told: str) -> Tally:
    """What unittest told of a file, as a tally."""
    totals = re.findall(r'^Ran (\d+) tests? in', told, re.M)
    bad = [f'{name}: {line}' for line in told.splitlines() if line.startswith(('FAIL: ', 'ERROR: '))]
    counts = dict(re.findall(r'(failures|errors|skipped|unexpected successes)=(\d+)', told.rpartition('\nRan ')[2]))
    skipped = int(counts.get('skipped', 0))
    if not totals or (status != 0 and not bad):
        bad.append(f'{name}: ended with status {status}: {told.strip()[-300:]}')
    noted = [f'left out: {name}: {skipped} of {totals[0]} tests'] if skipped else []
    passed = max(int(totals[0]) - skipped - len(bad), 0) if totals else 0
    return Tally(passed, bad, noted, [told] if bad else [])


# ---- Stored runs

@dataclass(frozen=True)
class Run:
    """A case of dm_runs: words over the files of a network and of its own, and the status that is due."""

    name: str
    network: str
    status: int
    words: tuple[str, ...]


def runs_in(data: Path) -> list[Run]:
    """The runs of a list, a line each: NAME NETWORK STATUS WORD.."""
    lines = [line.split() for line in (data / 'cases').read_text(encoding='utf-8').splitlines()]
    return [Run(line[0], line[1], int(line[2]), tuple(line[3:])) for line in lines if len(line) > 2 and line[0] != '#']


def is_over_memory(data: Path, run: Run) -> bool:
    """Whether the run needs boards in memory, whose shows fail when the case says so."""
    return (data / 'runs' / run.name / 'boards').exists() and not any(word.startswith('--boards=') for word in run.words)


def fault_of_run(program: Path, data: Path, run: Run) -> str | None:
    """What differs where a program does a run: its status, its text, or what a board shows in the end."""
    own = data / 'runs' / run.name
    due = [path.read_text(encoding='utf-8') for path in sorted(own.glob('text*')) if re.fullmatch(r'text(-\d)?', path.name)]
    with tempfile.TemporaryDirectory() as name:
        folder = Path(name)
        for source in (data / 'networks' / run.network, own):
            if source.is_dir():
                shutil.copytree(source, folder, dirs_exist_ok=True)
        status, text, also = ran([program, *run.words], folder)
        if status != run.status:
            return f'run {run.name}: status {status}, and {run.status} is due: {also.strip()[-300:]}'
        if text not in due:
            return f'run {run.name}: line {first_difference(due[0], text)} is not as stored' if due else f'run {run.name}: no text is stored'
        boards = own / 'boards'
        return fault_of_boards(run, boards.read_text(encoding='utf-8'), folder) if boards.exists() else None


def fault_of_boards(run: Run, listing: str, folder: Path) -> str | None:
    """The first board, a line `STOP IDS FAILS SHOWN` each, that does not show what it is to show."""
    for stop, ids, _, shown in map(str.split, listing.splitlines()):
        due = dict(pair.split(':') for pair in shown.split(',') if pair != '-')
        path = folder / run.words[1] / f'board-{stop}.txt'
        lines = path.read_text(encoding='utf-8').splitlines() if path.exists() else []
        shows = dict(line.split('; ') for line in lines)
        if any(shows.get(event) != due.get(event) for event in ids.split(',')):
            return f'run {run.name}: board {stop} shows {shows}'
    return None


def first_difference(due: str, text: str) -> int:
    """The first line, from 1, that differs."""
    lines = zip(due.split('\n'), text.split('\n'))
    return next((number for number, (left, right) in enumerate(lines, 1) if left != right), min(due.count('\n'), text.count('\n')) + 1)


# ---- Stored verdicts

@dataclass(frozen=True)
class Verdict:
    """A case of dm_check_cases: a text, the verdict that is due, and the words behind it."""

    name: str
    due: str
    network: str
    options: tuple[str, ...]

    def is_of_many_texts(self) -> bool:
        """Whether it stands for all fronts of the text, or for each byte replaced."""
        return self.due.startswith('every ')


def verdicts_in(data: Path) -> list[Verdict]:
    """The verdicts of a list, a line each: NAME VERDICT FIRST SECOND NETWORK PENALTY [PLANS]"""
    lines = [line.split() for line in (data / 'cases').read_text(encoding='utf-8').splitlines() if not line.startswith('#')]
    found = []
    for name, verdict, first, second, network, *numbers in filter(None, lines):
        options = tuple(f'--{option}={number}' for option, number in zip(('penalty', 'plans'), numbers))
        found.append(Verdict(name, f'{verdict} {first} {second}', network, options))
    return found


def fault_of_verdict(program: Path, data: Path, case: Verdict) -> str | None:
    """What a program says of a text where another verdict is due."""
    with tempfile.NamedTemporaryFile() as text:
        text.write(written_out((data / 'texts' / case.name).read_bytes()))
        text.flush()
        status, told, _ = ran([program, 'check', data / 'networks' / case.network / 'net', text.name, *case.options], data)
    due = (0 if case.due.startswith('good') else 1, f'{case.due}\n')
    return None if (status, told) == due else f'verdict {case.name}: {told.strip()!r} with status {status}, and {case.due!r} is due'


def written_out(text: bytes) -> bytes:
    """A text in which a line `*N LINE` stands for N lines."""
    return re.sub(rb'^\*(\d+) (.*\n)', lambda line: line[2] * int(line[1]), text, flags=re.M)


def fault_of_crate(program: Path, crate: Path) -> str | None:
    """What differs where a program does the run that the crate `dispatcher` stores."""
    words = (crate / 'args').read_text(encoding='utf-8').splitlines()
    status, text, _ = ran([program, *words], crate / 'data')
    return None if (status, text) == (0, (crate / 'stdout').read_text(encoding='utf-8')) else 'run of the crate dispatcher: not as stored'


# ---- The examples

def fault_of_example(program: Path, page: Path, top: Path, without: list[str]) -> str | None:
    """What differs where the commands of an example's page run, but for those that are left out."""
    words = [*words_of('docs'), str(program), str(page.relative_to(top)), '--top', str(top), *[f'--without={command}' for command in without]]
    status, told, also = ran(words, top)
    return None if status == 0 else f'example {page.parent.name}: {(told + also).strip()}'


def long_commands_of(page: Path) -> list[str]:
    """The long commands that an example's page shows."""
    lines = page.read_text(encoding='utf-8').splitlines()
    return [command for command in LONG_COMMANDS if any(line.startswith(command) for line in lines)]


# ---- All

def tests_of(top: Path, pool: ThreadPoolExecutor) -> tuple[Tally, list[Path]]:
    """The tests of the tools, and the files that failed beside others, which a loaded machine may be too slow for."""
    total, failed = Tally(), []
    paths = sorted((top / 'tests').glob('test_*.py'))
    for path, tally in zip(paths, pool.map(test_file, paths)):
        if tally.failed:
            failed.append(path)
            tally = Tally(noted=[f'{path.name} failed beside others, and runs by itself in the end'])
        total.add(tally)
    return total, failed


def tests_again(paths: list[Path]) -> Tally:
    """The files that failed beside others, each by itself."""
    total = Tally()
    for path in paths:
        total.add(test_file(path, makes_way=False))
    return total


def runs_of(top: Path, program: Program, pool: ThreadPoolExecutor) -> Begun:
    """The stored runs."""
    data = top / 'crates' / 'dm_runs' / 'data'
    runs = runs_in(data)
    here = [run for run in runs if not is_over_memory(data, run)]
    own = pool.map(fault_of_crate, [program.path], [top / 'crates' / 'dispatcher'])
    faults = pool.map(lambda run: fault_of_run(program.path, data, run), here)
    return Begun(chain(faults, own), left_to_the_gate(len(runs) - len(here), 'stored runs over boards in memory'))


def second_reading(top: Path, data: Path) -> str | None:
    """What differs where the second reading judges the stored texts, and each front and byte of some."""
    status, told, also = ran([*words_of('judge'), '--cases', str(data)], top)
    return None if status == 0 else f'second reading of the stored verdicts: {(told + also).strip()}'


def verdicts_of(top: Path, program: Program, pool: ThreadPoolExecutor) -> Begun:
    """The stored verdicts on texts, by the program and by the second reading."""
    data = top / 'crates' / 'dm_check_cases' / 'data'
    cases = verdicts_in(data)
    here = [case for case in cases if not case.is_of_many_texts()]
    second = pool.map(second_reading, [top], [data])
    faults = pool.map(lambda case: fault_of_verdict(program.path, data, case), here)
    return Begun(chain(second, faults), left_to_the_gate(len(cases) - len(here), 'stored verdicts on all fronts or bytes of a text'))


def examples_of(top: Path, program: Program, pool: ThreadPoolExecutor) -> Begun:
    """The commands on the pages of the examples."""
    pages = sorted(top.glob('examples/*/README.md'))
    here = {page: long_commands_of(page) if program.is_slow else [] for page in pages if page.parent.name not in PLAYS}
    noted = [f'left out: example {page.parent.name}: it plays a day for minutes, which `night` does' for page in pages if page not in here]
    noted += [f'left out: example {page.parent.name}: `{command}`, which takes minutes by a program without proofs; `night` does it'
              for page, commands in here.items() for command in commands]
    return Begun(pool.map(lambda page: fault_of_example(program.path, page, top, here[page]), here), noted)


def left_to_the_gate(count: int, what: str) -> list[str]:
    return [f'left out: {count} {what}, which the gate does'] if count else []


# The parts that take the program, the one with the longest cases first.
PROGRAM_PARTS: dict[str, Callable[[Path, Program, ThreadPoolExecutor], Begun]] = {'examples': examples_of, 'runs': runs_of, 'verdicts': verdicts_of}


def in_all(begun: Begun) -> Tally:
    """What a part comes to when all of its cases have ended."""
    total = Tally(noted=begun.noted)
    for fault in begun.faults:
        total.add(tally_of(fault))
    return total


def program_to_test(repository: Repository) -> Program:
    """The proved program if it is of these sources, else one without proofs."""
    if repository.is_proved_of_these_sources():
        return Program(repository.proved)
    return Program(repository.built_without_proofs(lambda line: print(line, flush=True)), is_slow=True)


def with_program(top: Path, parts: list[str], program: Program, pool: ThreadPoolExecutor) -> Iterator[tuple[str, Tally]]:
    """The parts that take the program, side by side."""
    begun = {part: begin(top, program, pool) for part, begin in PROGRAM_PARTS.items() if part in parts}
    for part in begun:
        yield part, in_all(begun[part])


def without_program(why: NotBuilt) -> Tally:
    """What comes of the parts that take the program where there is none: a fault, if there is an `rt` that could build it."""
    return Tally(noted=[f'left out: {why}']) if shutil.which('rt') is None else Tally(failed=[str(why)])


def parts_of(top: Path, parts: list[str], given: Path | None) -> Iterator[tuple[str, Tally]]:
    """How the parts come out; the program is built while the tests of the tools run."""
    failed: list[Path] = []
    with ThreadPoolExecutor(max(os.cpu_count() or 1, 2)) as pool, ThreadPoolExecutor(1) as builder:
        building = None if set(parts) == {'tests'} else builder.submit(lambda: Program(given) if given else program_to_test(Repository(top)))
        if 'tests' in parts:
            tally, failed = tests_of(top, pool)
            yield 'tests', tally
        try:
            yield from with_program(top, parts, building.result(), pool) if building else []
        except NotBuilt as error:
            yield 'program', without_program(error)
    if failed:
        yield 'tests again', tests_again(failed)


def all_of(top: Path, parts: list[str], given: Path | None) -> Tally:
    """Tests the parts, and says how each came out, at which second, and in the end what all came to."""
    began, total = time.monotonic(), Tally()
    for part, tally in parts_of(top, parts, given):
        print(f'{part}: {tally.passed} passed, {len(tally.failed)} failed, at {time.monotonic() - began:.0f} s')
        for line in [*(f'  {fault}' for fault in tally.failed), *tally.told, *(f'  {line}' for line in tally.noted)]:
            print(line)
        sys.stdout.flush()
        total.add(tally)
    print(f'{total.passed} passed, {len(total.failed)} failed, {time.monotonic() - began:.0f} s')
    return total


def main(words: list[str] | None = None, top: Path = TOP) -> int:
    parser = argparse.ArgumentParser(prog='dispatcher test', description=__doc__, formatter_class=argparse.RawDescriptionHelpFormatter)
    parser.add_argument('--program', type=Path, help='a built program to test')
    parser.add_argument('--only', choices=PARTS, action='append', help='this part alone')
    asked = parser.parse_args(words)
    total = all_of(top, asked.only or PARTS, asked.program.resolve() if asked.program else None)
    return 1 if total.failed else 0


if __name__ == '__main__':
    sys.exit(main())
