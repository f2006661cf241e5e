"""Sets plans of the server beside solutions of CBC, GLPK and HiGHS: dispatch-tools against DISPATCHER [DAY ..] [OPTION..]

A DAY is one of these:

    TRAINS:NUMBER            a day of dispatch-tools day after its 500 delays
    TRAINS:NUMBER:FROM:TO    the choices of a window of such a day
    SHAPE:NUMBER             a network of dispatch-tools shapes with delays of dispatch-tools scenarios

By default there are days of 20 to 2,000 trains with the numbers 1 to 9, windows of 10, 20 and 40 minutes on days of 2,000 trains,
and a day of each shape. The penalty is 3600, and a plan has 16,384 nodes. Each has a plan by parts of as many nodes, too.
CBC, GLPK and HiGHS (Debian's coinor-cbc, glpk-utils and python3-scipy) solve the programme of dispatch-tools to_mps. Each gets at
most --limit seconds (60): CBC of processor, the others by the clock. GLPK uses all of its cuts, and HiGHS is called by
dispatch-tools by_highs. If a solver is not installed, its column says so. --solvers=CBC asks only that one, and --solvers= none.

Each line of the table has the cost in millions, the bound and the gap if the cost is not proved to be the least, the seconds of
processor, and the most memory. The seconds are those of a run with the plan less one without it, for a window those of the whole
command, and for a solver those without to_mps. What a solver or a window chose is entered in the server, in the order of
dispatch-tools from_sol. So each cost is the server's. `check` judges each text.

The status is 1 if two that prove the least cost differ, if a bound is above a cost that another one found, or if choices cost
more than the solver says. A line says which.
"""
from __future__ import annotations

import csv
import math
import os
import re
import shutil
import sys
import tempfile
from typing import Iterable, NamedTuple, Optional, Sequence

from dispatch_tools.bench.measured import measured, Measured
from dispatch_tools.days.choices import choices_in
from dispatch_tools.days.generated import write_day
from dispatch_tools.formats.files import BadFile
from dispatch_tools.formats.giv import read_network
from dispatch_tools.formats.solution import decisions_of, read_solution, Solution
from dispatch_tools.here import TOP
from dispatch_tools.model.decide import in_turn
from dispatch_tools.model.programme import mps_text, Posed, Programme, programme_of, Window
from dispatch_tools.model.railway import Rows
from dispatch_tools.pictures.scene import read_text, rows_of
from dispatch_tools.words import command_line

PENALTY = 3600
BUDGET = 16_384
SIZES = [20, 40, 100, 200, 500, 2000]
WINDOWS = [(start, start + 60 * minutes) for minutes in (10, 20, 40) for start in (30_000, 50_000, 70_000)]
USUAL = [f'{trains}:{number}' for trains in SIZES for number in range(1, 10)]
USUAL += [f'2000:{number}:{start}:{end}' for start, end in WINDOWS for number in (1, 7)]
USUAL += [f'{shape}:1' for shape in ('single', 'hub', 'ring', 'mesh')]
SOLVERS = ('CBC', 'GLPK', 'HiGHS')

# Where Debian's SciPy is found, where the Python that runs this has none.
DEBIANS = '/usr/bin/python3'


class Found(NamedTuple):
    """What the server or a solver found: its cost, if it found one, and its bound, in thousandths; whether it says that nothing costs less."""
    cost: Optional[int]
    bound: Optional[int]
    is_least: bool
    seconds: float
    megabytes: float

    def in_print(self) -> str:
        took = f'{self.seconds:.2f} s, {self.megabytes:.0f} MB'
        bound = '' if self.bound is None else f'bound {self.bound / 1e6:.2f}'
        if self.cost is None:
            return ', '.join(filter(None, ['nothing', bound, took]))
        if self.is_least:
            return f'{self.cost / 1e6:.2f} least, {took}'
        gap = '' if self.bound is None else f' ({100 * (self.cost - self.bound) / self.cost:.2f} %)'
        return f'{self.cost / 1e6:.2f}, {bound}{gap}, {took}'


class Fault(Exception):
    """Something is not as it has to be."""


# ---- The server


class Server:
    """The program over the network of a folder."""

    def __init__(self, program: str, net: str, folder: str) -> None:
        self.program, self.net, self.folder = program, net, folder

    def run(self, lines: Sequence[str], name: str) -> Measured:
        """A run of a feed of lines; its text is left under a name, and judged."""
        feed = self.written(name + '.feed', lines)
        done = measured([self.program, 'run', self.net, f'--penalty={PENALTY}', feed])
        if done.status != 0:
            raise Fault(f'a run ends with {done.status}')
        with open(self.path(name), 'w', encoding='ascii') as file:
            file.write(done.printed)
        verdict = measured([self.program, 'check', self.net, f'--penalty={PENALTY}', self.path(name)])
        if not verdict.printed.startswith('good '):
            raise Fault(f'check says of a run: {verdict.printed.strip()}')
        return done

    def path(self, name: str) -> str:
        return os.path.join(self.folder, name)

    def written(self, name: str, lines: Sequence[str]) -> str:
        with open(self.path(name), 'w', encoding='ascii') as file:
            file.writelines(f'{line}\n' for line in lines)
        return self.path(name)

    def cost(self, lines: Sequence[str]) -> int:
        """What the rows cost after these lines, none of which may be refused."""
        text = self.run(lines, 'costs').printed
        if ' refused ' in text:
            raise Fault('a choice is refused')
        return int(text.splitlines()[-2].split()[1])


def plan_of(text: str) -> tuple[str, int, int]:
    """The mark, cost and bound of the plan of either kind in a text."""
    found = re.search(r'(?:plan|solved) (optimal|open) cost (\d+) bound (\d+) ', text)
    if found is None:
        raise Fault('there is no plan')
    return found[1], int(found[2]), int(found[3])


def planned(server: Server, delays: Sequence[str], word: str) -> Found:
    """What a word comes to that asks for a plan of a whole day."""
    without = server.run(delays, 'text')
    done = server.run([*delays, f'{word} {BUDGET}'], 'plan')
    mark, cost, bound = plan_of(done.printed)
    return Found(cost, bound, mark == 'optimal', max(0, done.seconds - without.seconds), done.megabytes)


def windowed(server: Server, delays: Sequence[str], posed: Posed, window: Window, options: Sequence[str]) -> Found:
    """The plan of a window, of the kind that the options ask for. Its cost is that of a run in which its choices are entered."""
    words = [server.program, 'window', server.net, server.path('text'), str(window.start), str(window.end), str(BUDGET), *options]
    done = measured([*words, f'--penalty={PENALTY}'])
    mark, cost, bound = plan_of(done.printed)
    choices = choices_in(done.printed.encode(), None)
    if server.cost([*delays, *map(str, in_turn(posed.network, posed.rows, choices))]) != cost:
        raise Fault('the choices of a window do not cost what its plan says')
    return Found(cost, bound, mark == 'optimal', done.seconds, done.megabytes)


# ---- The solvers


def cbc_bound(log: str) -> Optional[float]:
    found = re.findall(r'^Lower bound: +(\S+)|best possible (\S+) \(', log, re.M)
    return float(next(filter(None, found[-1]))) if found else None


def glpk_bound(log: str) -> Optional[float]:
    found = re.findall(r'>= +(\S+e[-+]\d+)', log)
    return float(found[-1]) if found else None


def highs_bound(log: str) -> Optional[float]:
    found = re.search(r'^# bound: (\S+)', log, re.M)
    return float(found[1]) if found else None


BOUND_OF = {'CBC': cbc_bound, 'GLPK': glpk_bound, 'HiGHS': highs_bound}


def python_with_scipy() -> Optional[str]:
    """A Python that has SciPy, or None."""
    for python in dict.fromkeys([sys.executable, DEBIANS]):
        if os.access(python, os.X_OK) and measured([python, '-c', 'import scipy.optimize']).status == 0:
            return python
    return None


def command_of(solver: str, problem: str, solution: str, limit: int) -> Optional[list[str]]:
    """The command of a solver, or None if it is not installed."""
    program = python_with_scipy() if solver == 'HiGHS' else shutil.which({'CBC': 'cbc', 'GLPK': 'glpsol'}[solver])
    if program is None:
        return None
    if solver == 'HiGHS':
        return [program, '-B', os.path.join(TOP, 'dispatch-tools'), 'by_highs', problem, solution, f'--limit={limit}']
    if solver == 'CBC':
        return [program, problem, '-sec', str(limit), '-solve', '-solu', solution]
    return [program, '--freemps', problem, '--cuts', '--pcost', '--tmlim', str(limit), '-o', solution]


def solved(server: Server, delays: Sequence[str], solver: str, limit: int, posed: Posed, programme: Programme) -> Optional[Found]:
    """What a solver found. Its cost is that of a run in which its choices are entered."""
    name = server.path('solution')
    if os.path.exists(name):
        os.remove(name)
    command = command_of(solver, server.path('programme.mps'), name, limit)
    if command is None:
        return None
    done = measured(command, 2 * limit + 60)
    bound = BOUND_OF[solver](done.printed)
    least = None if bound is None or not math.isfinite(bound) else math.ceil(bound - 1e-6 * max(1, abs(bound))) * programme.unit
    try:
        solution = read_solution(name)
        cost = cost_of_solution(server, delays, name, solution, posed)
    except BadFile:
        return Found(None, least, False, done.seconds, done.megabytes)
    is_least = 'optimal' in solution.status.lower() and 'non-optimal' not in solution.status.lower()
    told = told_cost(solution, programme.unit)
    if told is not None and (cost != told if is_least else cost > told):
        raise Fault(f'{solver} says {solution.objective} units of {programme.unit} ({solution.status}), and its choices cost {cost}')
    return Found(cost, cost if is_least else least, is_least, done.seconds, done.megabytes)


def told_cost(solution: Solution, unit: int) -> Optional[int]:
    """What its solution costs, as the solver says. If it does not say that nothing costs less, the choices may cost less."""
    return None if solution.objective is None else round(float(solution.objective)) * unit


def cost_of_solution(server: Server, delays: Sequence[str], name: str, solution: Solution, posed: Posed) -> int:
    decisions = decisions_of(name, solution, posed.free)
    return server.cost([*delays, *map(str, in_turn(posed.network, posed.rows, decisions))])


# ---- Days


def prepared(day: str, folder: str) -> tuple[str, list[str], Optional[Window]]:
    """The folder of the network of a day, the lines of its delays, and the window, if the day names one."""
    kind, *numbers = day.split(':')
    window = Window(*map(int, numbers[1:])) if len(numbers) == 3 else None
    if kind.isdecimal():
        write_day(int(numbers[0]), int(kind), folder)
        with open(os.path.join(folder, 'delays'), encoding='ascii') as file:
            return os.path.join(folder, 'net'), file.read().splitlines(), window
    from dispatch_tools.days.delays import delays_of_shape
    return (*delays_of_shape(kind, int(numbers[0]), folder), window)


def compared(program: str, day: str, limit: int, solvers: Sequence[str]) -> dict[str, Optional[Found]]:
    """What the server and solvers find of a day."""
    with tempfile.TemporaryDirectory() as folder:
        net, delays, window = prepared(day, folder)
        server = Server(program, net, folder)
        server.run(delays, 'text')
        network = read_network(net)
        rows = rows_of(network, Rows(network), read_text(server.path('text'), network), 'text')
        posed = Posed(network, rows, PENALTY, window)
        programme = programme_of(posed)
        server.written('programme.mps', mps_text(programme).splitlines())
        ours = planned(server, delays, 'plan') if window is None else windowed(server, delays, posed, window, [])
        by_parts = planned(server, delays, 'solve') if window is None else windowed(server, delays, posed, window, ['--solve'])
        return {'Server': ours, 'By parts': by_parts} | {solver: solved(server, delays, solver, limit, posed, programme) for solver in solvers}


def contradictions(found: dict[str, Optional[Found]]) -> list[str]:
    """What two of them say, if it cannot both be true."""
    told = []
    for one, first in found.items():
        for other, second in found.items():
            if first and second and first.bound is not None and second.cost is not None and first.bound > second.cost:
                told.append(f'{one} says that nothing costs less than {first.bound}, {other} found {second.cost}')
    return told


def table_line(day: str, found: dict[str, Optional[Found]]) -> str:
    cells = ['is not there' if one is None else one.in_print() for one in found.values()]
    return f'| {day} | {" | ".join(cells)} |'


def main(argv: Sequence[str] | None = None) -> int:
    words = command_line(__doc__)
    words.add_argument('dispatcher', metavar='DISPATCHER', help='the built program')
    words.add_argument('days', nargs='*', metavar='DAY', help='TRAINS:NUMBER, TRAINS:NUMBER:FROM:TO or SHAPE:NUMBER')
    words.add_argument('--limit', type=int, default=60, metavar='S', help='seconds for each solver and day (60)')
    words.add_argument('--solvers', default=','.join(SOLVERS), metavar='S,S', help=f'({",".join(SOLVERS)})')
    words.add_argument('--csv', metavar='FILE', help='file that also gets the numbers')
    given = words.parse_args(argv)
    solvers: list[str] = [solver for solver in given.solvers.split(',') if solver]
    if not set(solvers) <= set(SOLVERS):
        words.error(f'--solvers: some of {", ".join(SOLVERS)}')
    rows: list[Iterable[object]] = [('day', 'program', *Found._fields)]
    faults = 0
    print(f'| {" | ".join(["Day", "Server", "By parts", *solvers])} |\n' + '|---' * (3 + len(solvers)) + '|')
    for day in given.days or USUAL:
        try:
            found = compared(os.path.abspath(given.dispatcher), day, given.limit, solvers)
        except Fault as fault:
            print(f'{day}: {fault}', flush=True)
            faults += 1
            continue
        print(table_line(day, found), flush=True)
        rows += [(day, name, *one) for name, one in found.items() if one is not None]
        for told in contradictions(found):
            print(f'{day}: {told}', flush=True)
            faults += 1
        if given.csv:
            with open(given.csv, 'w', encoding='utf-8', newline='') as file:
                csv.writer(file, lineterminator='\n').writerows(rows)
    return 1 if faults else 0
