"""Programmes of choices: their least objective is the least cost, and a solution comes back as lines that nothing refuses."""
from __future__ import annotations

import contextlib
import io
import os
import shutil
import subprocess
import sys
import unittest
from itertools import product
from random import Random
from types import ModuleType
from typing import Callable, Iterator, Optional, Sequence

from dispatch_tools.commands import from_sol, to_mps
from dispatch_tools.formats.solution import decisions_of, read_solution
from dispatch_tools.model.decide import in_turn
from dispatch_tools.model.messages import Cancel, Decision, Drop, First, Lock, Message
from dispatch_tools.model.programme import lp_text, mps_text, Posed, Programme, programme_of, Window
from dispatch_tools.model.network import Network
from dispatch_tools.model.railway import (
    admit, cost_of, free_choices, refusal_at_once, Rows, rows_after, sound_times, times_of, ways_of, with_decisions,
)
from tests.drawn import drawn_network, drawn_rows
from tests.folders import InFolder
from tests.patience import PATIENCE
from tests.samples import network, text, TOP

CBC = '''Optimal - objective value 188.00000000
      0 constant                1                     100
      1 late_3                 40                       0
      5 drop_5                  1                       8
'''
GLPK = '''Problem:    dispatch
Rows:       5
Columns:    7 (2 integer, 2 binary)
Non-zeros:  12
Status:     INTEGER OPTIMAL
Objective:  cost = 188 (MINimum)

   No.   Row name        Activity     Lower bound   Upper bound
------ ------------    ------------- ------------- -------------
     1 drive_3                     0             0               

   No. Column name       Activity     Lower bound   Upper bound
------ ------------    ------------- ------------- -------------
     1 constant                    1             1             = 
     6 drop_5       *              1             0             1 
     7 first_3_5_that_is_long
                    *              0             0             1 

Integer feasibility conditions:
'''

HIGHS = '''Model status
Optimal

# Primal solution values
Feasible
Objective 188
# Columns 7
constant 1
late_3 40
drop_5 1
first_3_5 0
# Rows 5
drive_3 0

# Dual solution values
None
'''
SCIP = '''solution status: optimal solution found
objective value:                                  188
constant                                            1 \t(obj:100)
late_3                                             40 \t(obj:0)
drop_5                                              1 \t(obj:8)
'''
GUROBI = '''# Solution for model dispatch
# Objective value = 188
constant 1
late_3 40
drop_5 1
first_3_5 0
'''
CPLEX = '''<?xml version = "1.0" encoding="UTF-8" standalone="yes"?>
<CPLEXSolution version="1.2">
 <header problemName="dispatch" objectiveValue="188" solutionStatusString="integer optimal solution"/>
 <variables>
  <variable name="constant" index="0" value="1"/>
  <variable name="late_3" index="1" value="40"/>
  <variable name="drop_5" index="5" value="1"/>
 </variables>
</CPLEXSolution>
'''

# The commands of docs/STUDIES.md that make a plain list of what these solvers write.
LISTS = {
    'HiGHS': (HIGHS, "sed -n '/^# Columns/,/^# Rows/p; /^# Rows/q' WRITTEN"),
    'SCIP': (SCIP, "awk '/\\(obj:/ {print $1, $2}' WRITTEN"),
    'Gurobi': (GUROBI, 'cat WRITTEN'),
    'CPLEX': (CPLEX, "sed -n 's/.*<variable name=\"\\([^\"]*\\)\".* value=\"\\([^\"]*\\)\".*/\\1 \\2/p' WRITTEN"),
}


def variable_of(decision: Decision) -> tuple[str, int]:
    """The variable of a decision, and its value."""
    if isinstance(decision, First):
        return 'first_{}_{}'.format(*sorted(decision.numbers())), int(decision.event < decision.other)
    return f'drop_{decision.activity}', int(isinstance(decision, Drop))


def value_at(programme: Programme, decisions: Sequence[Decision]) -> Optional[int]:
    """The least objective of a programme whose choices are decided so, or None where there is none: constraints in rounds."""
    values = {variable.name: variable.least for variable in programme.variables} | {'constant': 1}
    most = {variable.name: variable.most for variable in programme.variables} | {'constant': 1}
    for name, wanted in map(variable_of, decisions):
        if not values[name] <= wanted <= most[name]:
            return None
        values[name] = most[name] = wanted
    moved = True
    while moved:
        moved = False
        for constraint in programme.constraints:
            short = constraint.least - sum(number * values[name] for number, name in constraint.terms)
            if short > 0:
                ahead = [(number, name) for number, name in constraint.terms if name.startswith(('late', 'miss')) and number > 0]
                if not ahead:
                    return None
                # A late head is as late as it has to be; a miss is one.
                number, name = ahead[-1]
                values[name] += short if number == 1 else 1
                moved = True
                if values[name] > most[name]:
                    return None
    return programme.constant + sum(variable.cost * values[variable.name] for variable in programme.variables)


def all_costs(problem: Posed) -> Iterator[tuple[tuple[Decision, ...], Optional[int]]]:
    """What each list of choices costs, or None where it has a cycle."""
    net, rows = problem.network, problem.rows
    for decisions in product(*map(ways_of, problem.free)):
        after = with_decisions(net, rows, decisions)
        times = times_of(net, after)
        yield decisions, None if times is None else cost_of(net, after, times, problem.penalty)


def is_settled_so(programme: Programme, decisions: Sequence[Decision]) -> bool:
    """Whether decisions are those of the variables that are fixed."""
    fixed = {variable.name: variable.least for variable in programme.variables if variable.least == variable.most}
    return all(fixed.get(name, wanted) == wanted for name, wanted in map(variable_of, decisions))


class Exact(unittest.TestCase):
    def is_exact(self, problem: Posed) -> None:
        """Choices cost what they do in the programme, up to what the rows cost; what is settled in it leaves out none that is best."""
        programme = programme_of(problem)
        costs: dict[tuple[Decision, ...], int] = {}
        for decisions, cost in all_costs(problem):
            value = value_at(programme, decisions)
            if value is not None:
                self.assertEqual(value * programme.unit, cost, decisions)
                costs[decisions] = value * programme.unit
            elif is_settled_so(programme, decisions):
                self.assertTrue(cost is None or cost > problem.cost, decisions)
        least = min(cost for _, cost in all_costs(problem) if cost is not None)
        self.assertEqual(min(costs.values()), least)

    def test_drawn_days(self) -> None:
        for number in range(40):
            draws = Random(number)
            net = drawn_network(draws)
            rows = drawn_rows(draws, net)
            if len(free_choices(net, rows)) <= 9:
                self.is_exact(Posed(net, rows, draws.choice((0, 7, 100))))

    def test_windows(self) -> None:
        for number in range(20):
            draws = Random(number)
            net = drawn_network(draws)
            self.is_exact(Posed(net, drawn_rows(draws, net), 20, Window(draws.randrange(0, 60), draws.randrange(60, 200))))


class Turns(unittest.TestCase):
    def test_no_line_is_refused(self) -> None:
        for number in range(60):
            draws = Random(number)
            net = drawn_network(draws, trains=5)
            rows = drawn_rows(draws, net)
            decisions = [draws.choice(ways_of(choice)) for choice in free_choices(net, rows)]
            after = with_decisions(net, rows, decisions)
            if times_of(net, after) is None:
                continue
            now = rows
            for count, decision in enumerate(in_turn(net, rows, decisions)):
                refusal, then = admit(net, now, count, decision)
                self.assertIsNone(refusal)
                assert then is not None
                now = then
            self.assertEqual(vars(now), vars(after))


class Scripts(InFolder):
    def said(self, script: ModuleType, *words: str) -> str:
        out = io.StringIO()
        with contextlib.redirect_stdout(out):
            self.assertEqual(self.call(script, *words), (0, ''))
        return out.getvalue()

    def written(self, name: str, lines: str) -> str:
        path = os.path.join(self.folder, name)
        with open(path, 'w', encoding='ascii') as file:
            file.write(lines)
        return path

    def rows(self, name: str = 'late_first_train') -> tuple[str, str]:
        return network('connection'), text(name)

    def test_programme_in_print(self) -> None:
        mps = self.said(to_mps, *self.rows())
        self.assertIn('* the least cost is 5000 times the least objective', mps.splitlines())
        self.assertIn(' drop_5 change_5 40', mps.splitlines())
        lp = self.said(to_mps, *self.rows(), '--lp')
        self.assertIn(' change_5: + 1 late_5 + 40 drop_5 >= 40', lp.splitlines())
        self.assertNotEqual(self.said(to_mps, *self.rows(), '--at=0'), mps)

    def test_solutions_in_both_forms(self) -> None:
        for name, lines in (('cbc', CBC), ('glpk', GLPK.replace('_that_is_long', ''))):
            solution = self.written(name, lines)
            self.assertEqual(self.said(from_sol, *self.rows(), solution), 'drop 5\nfirst 5 3\n')
            self.assertEqual(self.said(from_sol, *self.rows(), solution, '--whole'), 'delay event 1 60\ndrop 5\nfirst 5 3\ncost\n')

    def test_plain_lists_as_other_solvers_are_made_one(self) -> None:
        with open(os.path.join(TOP, 'docs', 'STUDIES.md'), encoding='utf-8') as file:
            page = file.read()
        for name, (written, command) in LISTS.items():
            self.assertIn(f'| {name} ', page)
            self.assertIn(command if name != 'Gurobi' else 'nothing: it is one', page)
            words = command.replace('WRITTEN', self.written('written', written))
            listed = subprocess.run(['sh', '-c', words], capture_output=True, text=True, check=True).stdout
            self.assertEqual(self.said(from_sol, *self.rows(), self.written('list', listed)), 'drop 5\nfirst 5 3\n', name)

    def test_plain_lists(self) -> None:
        solution = read_solution(self.written('list', GUROBI.replace('# Solution for', '# status: optimal for')))
        self.assertEqual((solution.status, solution.objective, solution.values['late_3']), ('optimal for model dispatch', '188', 40))
        for lines in ('drop_5 1\ndrop_5 0\n', 'drop_5 nan\n', 'drop_5 1 2\n', 'drop_5\n', 'drop_5 1\nlate_3 one\n', '# status: no solution\n',
                      '# nothing\n', 'drop_5 1\nx 2\n'):
            self.assertEqual(self.call(from_sol, *self.rows(), self.written('list', lines))[0], 2, lines)

    def test_journal_with_a_plan_that_was_adopted(self) -> None:
        solution = self.written('solution', CBC)
        self.assertEqual(self.said(from_sol, *self.rows('plan_that_is_adopted'), solution, '--whole'),
                         'delay event 1 60\ndrop 5\nfirst 5 3\ncost\n')

    def test_solutions_that_are_none(self) -> None:
        for lines, what in (
            ('Infeasible - objective value 0.0\n', 'holds no solution'), (CBC.replace('drop_5', 'drop_4'), 'no choice of these'),
            (GLPK, 'no choice of these'), ('nothing\n', 'no solution of CBC or GLPK'), ('', 'no solution of CBC or GLPK'),
        ):
            status, said = self.call(from_sol, *self.rows(), self.written('solution', lines))
            self.assertEqual(status, 2)
            self.assertIn(what, said)

    def test_entry_that_is_not_there(self) -> None:
        self.assertEqual(self.call(to_mps, *self.rows(), '--at=2')[0], 2)


# The words of a solver, by the name of its programme, the form, and the name of its solution.
Command = Callable[[str, str, str], list[str]]


def has_scipy(python: str) -> bool:
    words = [python, '-c', 'import importlib.util as u; raise SystemExit(u.find_spec("scipy") is None)']
    return os.access(python, os.X_OK) and subprocess.run(words, capture_output=True, check=False).returncode == 0


def cut_short(draws: Random, net: Network, rows: Rows) -> Rows:
    """The rows where an event is cancelled besides, and a choice that is still free is locked."""
    messages: list[Message] = [Cancel(draws.choice(net.events).id), *(Lock(choice) for choice in free_choices(net, rows)[:1])]
    for message in messages:
        if refusal_at_once(net, rows, message) is None:
            rows = rows_after(net, rows, message)
    return rows


class Solvers(InFolder):
    """The least objective by real solvers, where they are there."""

    def solved(self, command: Command, programme: Programme, form: str) -> str:
        name, solution = os.path.join(self.folder, 'p.' + form), os.path.join(self.folder, 'solution')
        with open(name, 'w', encoding='ascii') as file:
            file.write((lp_text if form == 'lp' else mps_text)(programme))
        done = subprocess.run(command(name, form, solution), capture_output=True, text=True, timeout=PATIENCE)
        self.assertEqual(done.returncode, 0, done.stdout)
        return solution

    def agree(self, program: str, command: Command, forms: Sequence[str] = ('mps', 'lp')) -> None:
        if shutil.which(program) is None:
            self.skipTest(f'{program} is not there')
        settled = 0
        for number in range(8):
            draws = Random(number)
            net = drawn_network(draws)
            rows = drawn_rows(draws, net, 5)
            problem = Posed(net, cut_short(draws, net, rows) if number >= 4 else rows, 20)
            settled += len(free_choices(net, rows)) - len(free_choices(net, problem.rows))
            programme = programme_of(problem)
            least = min(cost for _, cost in all_costs(problem) if cost is not None)
            for form in forms:
                name = self.solved(command, programme, form)
                solution = read_solution(name)
                self.assertEqual(round(float(solution.objective or 'nan')) * programme.unit, least)
                choices = decisions_of(name, solution, free_choices(net, problem.rows))
                after = with_decisions(net, problem.rows, choices)
                self.assertEqual(cost_of(net, after, sound_times(net, after), 20), least)
        self.assertGreater(settled, 4)

    def test_cbc(self) -> None:
        self.agree('cbc', lambda name, form, out: ['cbc', name, '-solve', '-solu', out])

    def test_highs(self) -> None:
        script = os.path.join(TOP, 'dispatch-tools')
        python = next((one for one in (sys.executable, '/usr/bin/python3') if has_scipy(one)), 'no Python that has SciPy')
        self.agree(python, lambda name, form, out: [python, '-B', script, 'by_highs', name, out], ('mps',))

    def test_glpk(self) -> None:
        self.agree('glpsol', lambda name, form, out: ['glpsol', '--lp' if form == 'lp' else '--freemps', name, '-o', out])


if __name__ == '__main__':
    unittest.main()
