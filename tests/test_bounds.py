"""What compares plans by parts with all choice lists: which texts it takes, and what it finds wrong."""
from __future__ import annotations

import random
import unittest
from collections import Counter

from dispatch_tools.bench.bounds import Asked, drawn, fault_of, fault_of_plans, least_cost, Plans, rows_behind
from dispatch_tools.formats.giv import read_network
from dispatch_tools.formats.runtext import heard
from dispatch_tools.model.messages import AskPlan, AskSolve
from dispatch_tools.model.parts import PlanByParts
from dispatch_tools.model.railway import free_choices, Plan
from dispatch_tools.oracle.drawing import drawn_feed, drawn_network, with_another_alike
from tests.samples import network
from tests.test_parts import AFTER, BEFORE, text_of, WHOLE

ROOT = 'choice drop 5\nchoice first 5 3\n'
OPEN = f'plan open cost 940000 bound 900000 choices 2 nodes 1\n{ROOT}open 900000\n'
TREE = f'plan optimal cost 940000 bound 940000 choices 2 nodes 3\n{ROOT}inner change 5\nbound 1075000\nbound 940000\n'
NO_PARTS = f'solved open cost 940000 bound 900000 choices 2 parts 0 nodes 0\n{ROOT}rest 900000\n'
PARTS = WHOLE.removeprefix('2 solve 100 -> 1 ')


class Compared(unittest.TestCase):
    def setUp(self) -> None:
        net = read_network(network('connection'))
        lines = ['delay event 1 60']
        rows = rows_behind(net, lines)
        self.asked = Asked(net, 10, lines, rows, len(free_choices(net, rows)))

    def text(self, last: str = PARTS) -> bytes:
        """A text in which each plan is true; the last plan by parts is given."""
        asked = self.asked.budgets()
        found = [(OPEN if budget < 3 else TREE, NO_PARTS if budget < 3 else PARTS) for budget in asked]
        found[-1] = TREE, last
        items = [f'{2 * number} plan {budget} -> 1 {plan}{2 * number + 1} solve {budget} -> 1 {solved}'
                 for number, (budget, (plan, solved)) in enumerate(zip(asked, found), 1)]
        front = BEFORE.replace('entries 2', 'entries 1').replace('entry 2 feed 1 line 3 adopt drop 5 first 5 3\n', '')
        end = AFTER.replace('3 adopt -> 2 ok\n', '').replace('times 2', 'times 1')
        for old, new in ('5; 230', '5; 270'), ('6; 330', '6; 365'), ('cost 940000', 'cost 1075000'):
            end = end.replace(old, new)
        return (front.replace('feed 1 3', f'feed 1 {1 + 2 * len(asked)}') + ''.join(items) + end).encode()

    def test_budgets(self) -> None:
        self.assertEqual(self.asked.budgets(), [1, 2, 3, 7, 30, 7])
        self.assertEqual(self.asked.feed().splitlines()[:3], ['delay event 1 60', 'plan 1', 'solve 1'])

    def test_least_cost(self) -> None:
        self.assertEqual(least_cost(self.asked), 940000)

    def test_text_without_fault(self) -> None:
        counts: Counter[str] = Counter()
        self.assertIsNone(fault_of(self.asked, self.text(), counts))
        self.assertEqual(counts, {'plans by parts': 6, 'optimal': 4, 'optimal by parts alone': 0, 'parts': 4})

    def test_what_is_wrong(self) -> None:
        self.assertEqual(fault_of(self.asked, self.text(NO_PARTS), Counter()),
                         'at 7 nodes the plan by parts costs 940000, bound 900000; the plan 940000, bound 940000')
        for text in self.text()[:-1], self.text(PARTS.replace('rest 0', 'rest 1')), self.text().replace(b'12 plan 7', b'12 plan 6'):
            found = fault_of(self.asked, text, Counter())
            self.assertEqual(found, 'the text of the run is not good, or its plans are not those that were asked for')

    def test_plans_of_a_budget(self) -> None:
        plan = Plan(0, (), 10, 8, 'open', [])
        solved = PlanByParts(0, (), 10, 9, 'open', (), 9)
        self.assertIsNone(fault_of_plans(Plans(3, plan, solved), 10, False))
        for other, least, said in (
            (solved._replace(bound=11), 10, 'is above'), (solved._replace(cost=9), 10, 'is below'), (solved._replace(cost=11), 10, 'costs 11'),
            (solved._replace(bound=7), 10, 'bound 7'), (solved, 8, 'is above'),
        ):
            self.assertIn(said, fault_of_plans(Plans(3, plan, other), least, False) or '')
        self.assertEqual(fault_of_plans(Plans(3, plan, solved), 10, True), 'the last plan by parts is open')

    def test_what_is_drawn(self) -> None:
        for number in range(20):
            asked = drawn(random.Random(number))
            self.assertEqual(asked.free, len(free_choices(asked.network, rows_behind(asked.network, asked.lines))))
            plans = [said for said in map(heard, asked.feed().splitlines()) if isinstance(said, (AskPlan, AskSolve))]
            self.assertEqual([said.budget for said in plans[::2]], asked.budgets())


class DrawnFeeds(unittest.TestCase):
    def said(self, is_plain: bool) -> Counter[type]:
        """How often each kind of line is drawn."""
        kinds: Counter[type] = Counter()
        for number in range(60):
            draws = random.Random(number)
            kinds.update(type(heard(line)) for line in drawn_feed(draws, drawn_network(draws), is_plain).split('\n'))
        return kinds

    def test_plain_feeds_ask_for_no_plan_by_parts(self) -> None:
        plain, others = self.said(True), self.said(False)
        self.assertEqual(plain[AskSolve], 0)
        self.assertGreater(min(plain[AskPlan], others[AskPlan], others[AskSolve]), 10)

    def test_changes_reach_each_line_of_a_plan_by_parts(self) -> None:
        whole = text_of(WHOLE)
        lines = whole.split(b'\n')
        changed_at: Counter[int] = Counter()
        for number in range(1500):
            draws = random.Random(number)
            other = with_another_alike(draws, whole).split(b'\n')
            self.assertEqual(len(other), len(lines))
            changed_at.update(place for place, (one, two) in enumerate(zip(lines, other), 1) if one != two)
        for line in (9, *range(12, 19)):
            self.assertGreater(changed_at[line], 0, line)


if __name__ == '__main__':
    unittest.main()
