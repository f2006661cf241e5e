"""Solvers beside the server: what their logs say, what stands in the table, and what two of them cannot both say."""
from __future__ import annotations

import unittest

from dispatch_tools.bench.against import cbc_bound, contradictions, Fault, Found, glpk_bound, plan_of, told_cost
from dispatch_tools.formats.solution import Solution

CBC = '''Cbc0010I After 0 nodes, 1 on tree, 245843 best solution, best possible 242324.56 (1.19 seconds)
Result - Stopped on time limit

Objective value:                242571.00000000
Lower bound:                    242400.125
Gap:                            0.00
'''
GLPK = '''+ 16142: >>>>>   1.469340000e+05 >=   1.358650000e+05   7.5% (2823; 5300)
+ 27475: mip =   1.469340000e+05 >=   1.359420000e+05   7.5% (5593; 5876)
TIME LIMIT EXCEEDED; SEARCH TERMINATED
'''


class Logs(unittest.TestCase):
    def test_bounds(self) -> None:
        self.assertEqual(cbc_bound(CBC), 242400.125)
        self.assertEqual(cbc_bound(CBC.partition('Result')[0]), 242324.56)
        self.assertIsNone(cbc_bound('Result - Optimal solution found\n'))
        self.assertEqual(glpk_bound(GLPK), 135942)
        self.assertEqual(glpk_bound('+   12: mip =     not found yet >=              -inf        (1; 0)\n'), None)

    def test_cost_that_a_solver_tells(self) -> None:
        self.assertEqual(told_cost(Solution('Optimal', '188.00000004', {}), 5000), 940_000)
        self.assertIsNone(told_cost(Solution('UNDEFINED', None, {}), 5000))

    def test_plan_in_a_text(self) -> None:
        self.assertEqual(plan_of('2 plan 9 -> 1 plan open cost 12 bound 7 choices 0 nodes 9\n'), ('open', 12, 7))
        self.assertEqual(plan_of('2 solve 9 -> 1 solved optimal cost 12 bound 12 choices 0 parts 3 nodes 9\n'), ('optimal', 12, 12))
        self.assertRaises(Fault, plan_of, '2 solve 0 -> range 0\n')


class Tables(unittest.TestCase):
    def test_cells(self) -> None:
        self.assertEqual(Found(12_000_000, 12_000_000, True, 0.5, 9.1).in_print(), '12.00 least, 0.50 s, 9 MB')
        self.assertEqual(Found(12_000_000, 9_000_000, False, 0.5, 9.1).in_print(), '12.00, bound 9.00 (25.00 %), 0.50 s, 9 MB')
        self.assertEqual(Found(None, 9_000_000, False, 0.5, 9.1).in_print(), 'nothing, bound 9.00, 0.50 s, 9 MB')
        self.assertEqual(Found(None, None, False, 0.5, 9.1).in_print(), 'nothing, 0.50 s, 9 MB')

    def test_what_cannot_be(self) -> None:
        least = Found(12, 12, True, 0, 0)
        self.assertEqual(contradictions({'Server': least, 'CBC': Found(12, 12, True, 0, 0), 'GLPK': None}), [])
        self.assertEqual(contradictions({'Server': least, 'CBC': Found(13, 11, False, 0, 0)}), [])
        self.assertEqual(contradictions({'Server': least, 'CBC': Found(11, 9, False, 0, 0)}),
                         ['Server says that nothing costs less than 12, CBC found 11'])


if __name__ == '__main__':
    unittest.main()
