"""Solves the programme of an MPS file with HiGHS, which SciPy has: dispatch-tools by_highs PROBLEM SOLUTION [--limit=S]

PROBLEM is a file in free MPS form, as dispatch-tools to_mps writes it. SOLUTION gets a plain list, which dispatch-tools from_sol
reads: comments with the status, the objective and the bound, and a line `NAME VALUE` for each variable that is not 0. The
comments are printed, too. HiGHS gets at most --limit seconds (60), and no gap is allowed to it. It counts in floating point.

This needs SciPy 1.9 or later (Debian's python3-scipy, for /usr/bin/python3). The status is 0 if the least objective is proved, 1
if not, and 2 if PROBLEM is not good or SciPy is not there.
"""
from __future__ import annotations

import math
import os
import sys
from dataclasses import dataclass, field
from typing import Any, Optional, Sequence

from dispatch_tools.formats.files import BadFile, text_of, write_all
from dispatch_tools.words import command_line, whole_between

# The senses of rows, and how far an activity may lie below and above its right side.
SENSES = {'G': (0.0, math.inf), 'L': (-math.inf, 0.0), 'E': (0.0, 0.0)}


@dataclass
class Matrix:
    """A programme by rows and columns: senses and right sides, costs, whole columns, bounds, and the numbers that are not 0."""
    rows: dict[str, int] = field(default_factory=dict)
    senses: list[str] = field(default_factory=list)
    right: list[float] = field(default_factory=list)
    columns: dict[str, int] = field(default_factory=dict)
    costs: list[float] = field(default_factory=list)
    whole: list[int] = field(default_factory=list)
    least: list[float] = field(default_factory=list)
    most: list[float] = field(default_factory=list)
    numbers: list[tuple[int, int, float]] = field(default_factory=list)
    objective: str = ''

    def column(self, name: str, is_whole: bool) -> int:
        """The place of a column; a new one lies from 0 to infinity."""
        if name not in self.columns:
            self.columns[name] = len(self.costs)
            self.costs.append(0)
            self.whole.append(int(is_whole))
            self.least.append(0)
            self.most.append(math.inf)
        return self.columns[name]

    def add_row(self, words: list[str]) -> None:
        sense, name = words
        if sense == 'N':
            self.objective = self.objective or name
        else:
            SENSES[sense]
            self.rows[name] = len(self.senses)
            self.senses.append(sense)
            self.right.append(0)

    def add_numbers(self, words: list[str], is_whole: bool) -> None:
        place = self.column(words[0], is_whole)
        for row, number in zip(words[1::2], words[2::2], strict=True):
            if row == self.objective:
                self.costs[place] = float(number)
            else:
                self.numbers.append((self.rows[row], place, float(number)))

    def add_right(self, words: list[str]) -> None:
        for row, number in zip(words[1::2], words[2::2], strict=True):
            self.right[self.rows[row]] = float(number)

    def add_bound(self, words: list[str]) -> None:
        kind, _, name, *number = words
        place = self.columns[name]
        if kind == 'BV':
            self.whole[place], self.least[place], self.most[place] = 1, 0, 1
        if kind in ('LO', 'FX'):
            self.least[place] = float(number[0])
        if kind in ('UP', 'FX'):
            self.most[place] = float(number[0])
        if kind not in ('BV', 'LO', 'UP', 'FX'):
            raise ValueError(kind)


def read_mps(name: str) -> Matrix:
    """The programme in a file in free MPS form; BadFile if it has another form, or says what is not read here."""
    matrix, section, is_whole = Matrix(), '', False
    for number, line in enumerate(text_of(name).splitlines(), 1):
        words = line.split()
        if not words or line.startswith('*'):
            continue
        try:
            if not line[0].isspace():
                section = words[0]
            elif section == 'ROWS':
                matrix.add_row(words)
            elif section == 'COLUMNS' and words[1] == "'MARKER'":
                is_whole = words[2] == "'INTORG'"
            elif section == 'COLUMNS':
                matrix.add_numbers(words, is_whole)
            elif section == 'RHS':
                matrix.add_right(words)
            elif section == 'BOUNDS':
                matrix.add_bound(words)
            else:
                raise ValueError(section)
        except (KeyError, ValueError, IndexError) as error:
            raise BadFile(name, number, 'this is no line of a programme in the form that to_mps writes') from error
    if section != 'ENDATA':
        raise BadFile(name, None, 'it does not end with ENDATA')
    return matrix


def solved(matrix: Matrix, limit: int) -> Any:
    """What HiGHS finds."""
    import numpy
    from scipy.optimize import Bounds, LinearConstraint, milp
    from scipy.sparse import csr_matrix

    rows, columns, numbers = (list(part) for part in zip(*matrix.numbers)) if matrix.numbers else ([], [], [])
    held = csr_matrix((numbers, (rows, columns)), shape=(len(matrix.senses), len(matrix.costs)))
    right = numpy.array(matrix.right)
    below, above = (numpy.array([SENSES[sense][side] for sense in matrix.senses]) for side in (0, 1))
    return milp(matrix.costs, integrality=matrix.whole, bounds=Bounds(matrix.least, matrix.most),
                constraints=LinearConstraint(held, right + below, right + above), options={'time_limit': limit, 'mip_rel_gap': 0.0})


def list_of(matrix: Matrix, found: Any) -> tuple[list[str], list[str]]:
    """The comments of a solution, and its lines."""
    comments = [f'# status: {"optimal" if found.status == 0 else "nothing is proved" if found.x is not None else "no solution was found"}']
    bound: Optional[float] = getattr(found, 'mip_dual_bound', None)
    if found.x is not None:
        comments.append(f'# objective: {found.fun:.6f}')
    if bound is not None and math.isfinite(bound):
        comments.append(f'# bound: {bound:.6f}')
    values = [] if found.x is None else [(name, found.x[place]) for name, place in matrix.columns.items()]
    return comments, [f'{name} {value:.9g}' for name, value in values if abs(value) > 1e-9]


def main(argv: Sequence[str] | None = None) -> int:
    words = command_line(__doc__)
    words.add_argument('problem', metavar='PROBLEM', help='file in free MPS form')
    words.add_argument('solution', metavar='SOLUTION', help='file for the plain list of names and values')
    words.add_argument('--limit', type=whole_between(1, 86_400), default=60, metavar='S', help='seconds by the clock (60)')
    given = words.parse_args(argv)
    try:
        matrix = read_mps(given.problem)
        found = solved(matrix, given.limit)
        comments, lines = list_of(matrix, found)
        write_all(os.path.dirname(given.solution) or '.', {os.path.basename(given.solution): '\n'.join([*comments, *lines]) + '\n'})
    except (BadFile, ImportError) as fault:
        print(f'by_highs: {fault}', file=sys.stderr)
        return 2
    print('\n'.join(comments))
    return 0 if found.status == 0 else 1
