"""Reads solutions of a programme: files of CBC and of GLPK, and plain lists of names and values, as any solver's can be made one."""
from __future__ import annotations

import math
import re
from typing import NamedTuple, Optional

from dispatch_tools.formats.files import BadFile, text_of
from dispatch_tools.model.messages import Decision, Drop, First, Keep
from dispatch_tools.model.network import Change, Choice

# The words with which a solver says that it has found nothing.
NOTHING = re.compile(r'infeasible|unbounded|undefined|no integer solution|no solution|no feasible|empty', re.IGNORECASE)
# What a comment of a plain list may say: its status, or its objective.
SAID = re.compile(r'#\s*(status|objective)(?:\s+value)?\s*[:=]\s*(\S.*?)\s*', re.IGNORECASE)
OURS = re.compile(r'constant|(late|drop|miss)_[0-9]+|first_[0-9]+_[0-9]+')


class Solution(NamedTuple):
    """What a solver says of its end, its objective as it is printed, and the values that are not 0."""
    status: str
    objective: Optional[str]
    values: dict[str, float]


def cbc_solution(name: str, lines: list[str]) -> Solution:
    """What `cbc FILE -solve -solu NAME` wrote: a line of the end, and a line for each value that is not 0."""
    status, _, objective = lines[0].partition(' - objective value ')
    values = {}
    for number, line in enumerate(lines[1:], 2):
        fields = line.replace('**', ' ').split()
        if len(fields) != 4:
            raise BadFile(name, number, 'this is no line of a solution of CBC')
        values[fields[1]] = float(fields[2])
    return Solution(status, objective.strip() or None, values)


def glpk_solution(name: str, lines: list[str]) -> Solution:
    """What `glpsol .. -o NAME` wrote: a heading, the rows and the columns; a long name has a line of its own."""
    heading = {key: value.strip() for key, _, value in (line.partition(':') for line in lines[:8])}
    objective = heading.get('Objective', '').removeprefix('cost = ').partition(' ')[0] or None
    values: dict[str, float] = {}
    inside, waiting = False, None
    for number, line in enumerate(lines, 1):
        fields = [field for field in line.split() if field != '*']
        if 'Column name' in line:
            inside = True
        elif inside and waiting is None and fields and fields[0].isdecimal():
            waiting, fields = fields[1], fields[2:]
        elif inside and not fields:
            break
        if waiting is not None and fields and 'Column name' not in line:
            # A basic solution has the state of a column before its value.
            values[waiting] = float(fields[0] if re.match(r'[-+0-9.]', fields[0]) else fields[1])
            waiting = None
    if not inside:
        raise BadFile(name, number, 'this is no solution of GLPK')
    return Solution(heading.get('Status', ''), objective, values)


def plain_solution(name: str, lines: list[str]) -> Solution:
    """A plain list: a line `NAME VALUE` for each variable that is not 0, and comments, which may say the status and the objective."""
    values: dict[str, float] = {}
    status, objective = 'listed', None
    for number, line in enumerate(lines, 1):
        said = SAID.fullmatch(line)
        if said is not None and said[1].lower() == 'status':
            status = said[2]
        elif said is not None:
            objective = said[2]
        fields = [] if line.startswith('#') else line.split()
        if fields and (len(fields) != 2 or fields[0] in values or not math.isfinite(float(fields[1]))):
            raise BadFile(name, number, 'this is no line NAME VALUE, or the second of its name')
        if fields:
            values[fields[0]] = float(fields[1])
    return Solution(status, objective, values)


def is_plain(lines: list[str]) -> bool:
    """Whether the first line that is no comment has a name of a programme and one word behind it, or there is none behind comments."""
    first = next((line.split() for line in lines if line.strip() and not line.startswith('#')), None)
    return bool(lines) and first is None or first is not None and len(first) == 2 and OURS.fullmatch(first[0]) is not None


def read_solution(name: str) -> Solution:
    """The solution in a file of CBC or GLPK, or in a plain list; BadFile if there is none."""
    lines = text_of(name).splitlines()
    try:
        if lines and lines[0].startswith('Problem:'):
            solution = glpk_solution(name, lines)
        elif lines and ' - objective value' in lines[0] or lines and NOTHING.search(lines[0]):
            solution = cbc_solution(name, lines)
        elif is_plain(lines):
            solution = plain_solution(name, lines)
        else:
            raise BadFile(name, 1, 'this is no solution of CBC or GLPK, and no list of names and values')
    except (IndexError, ValueError) as error:
        raise BadFile(name, None, 'this is no solution of CBC or GLPK, and no list of names and values') from error
    if NOTHING.search(solution.status) or not solution.values:
        raise BadFile(name, None, f'it holds no solution: {solution.status}')
    return solution


def variable_of(choice: Choice) -> str:
    """The variable of a choice in a programme."""
    return f'drop_{choice.activity}' if isinstance(choice, Change) else f'first_{choice.first}_{choice.second}'


def decisions_of(name: str, solution: Solution, choices: list[Choice]) -> list[Decision]:
    """The decision of each choice of a programme; BadFile if the solution is of another one. What it leaves out is 0."""
    named = {variable_of(choice): choice for choice in choices}
    for variable in solution.values:
        if not OURS.fullmatch(variable) or variable.startswith(('drop', 'first')) and variable not in named:
            raise BadFile(name, None, f'{variable} is no choice of these rows')
    decisions: list[Decision] = []
    for variable, choice in named.items():
        is_one = solution.values.get(variable, 0) > 0.5
        if isinstance(choice, Change):
            decisions.append(Drop(choice.activity) if is_one else Keep(choice.activity))
        else:
            decisions.append(First(choice.first, choice.second) if is_one else First(choice.second, choice.first))
    return decisions
