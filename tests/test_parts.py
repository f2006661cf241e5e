"""Plans by parts: texts written by hand, true and wrong ones, and the law that no choices cost less than the bound."""
from __future__ import annotations

import itertools
import os
import unittest
from random import Random
from typing import Optional

from dispatch_tools.formats.giv import read_network
from dispatch_tools.formats.lines import Bad
from dispatch_tools.formats.plan_text import solved_lines
from dispatch_tools.formats.runtext import heard, read_run
from dispatch_tools.model.messages import (
    Adopt, AskSolve, CycleLeaf, Decision, Drop, First, Inner, PartLeaf, PartNode, Path,
)
from dispatch_tools.model.network import Change, Choice, Network
from dispatch_tools.model.parts import (
    are_apart, beside, is_share, is_true_part, is_true_plan_by_parts, Part, PlanByParts, Share, within,
)
from dispatch_tools.model.railway import choice_of, cost_of, free_choices, Rows, times_of, ways_of, with_decisions
from dispatch_tools.model.true_plans import Problem
from dispatch_tools.oracle.judging import verdict_on
from tests.drawn import drawn_network, drawn_rows
from tests.samples import network, TOP

# The connection at one station with event 1 a minute late, at a penalty of 10. The first train is 50 and 40 seconds late with 10
# passengers each, whatever is decided. If the change is kept, the second train is 35 seconds late with 5; if not, 4 miss it. So the
# costs are 900000, and 175000 or 40000.
BEFORE = '''dm-run 2
penalty 10
feeds 1
entries 2
entry 1 feed 1 line 1 delay event 1 60
entry 2 feed 1 line 3 adopt drop 5 first 5 3
feed 1 3
1 delay event 1 60 -> 1 ok
'''
WHOLE = '''2 solve 100 -> 1 solved optimal cost 940000 bound 940000 choices 2 parts 1 nodes 3
choice drop 5
choice first 5 3
part events 3 changes 1 nodes 3 bound 940000
events 2 4 6
changes 5
inner change 5
leaf 1075000
leaf 940000
rest 0
'''
AFTER = '''3 adopt -> 2 ok
end
boards 0
times 2
1; 160
2; 250
3; 260
4; 340
5; 230
6; 330
cost 940000
done
'''

# The line of the plan, and of what stands behind it: choices from 10, the part from 12.
PLAN, CHOICE, PART, EVENTS, CHANGES, NODE, LAST, REST = 9, 10, 12, 13, 14, 15, 17, 18

HEAD = '2 solve 100 -> 1 solved optimal cost 940000 bound 940000 choices 2 parts {} nodes {}\nchoice drop 5\nchoice first 5 3\n'
SECOND = 'part events 1 changes 1 nodes 3 bound 40000\nevents 6\nchanges 5\ninner change 5\nleaf 175000\nleaf 40000\n'
FIRST = 'part events 2 changes 0 nodes 1 bound 900000\nevents 2 4\nleaf 900000\n'
EMPTY = 'part events 0 changes 0 nodes 1 bound 0\nleaf 0\n'


def text_of(plan: str, before: str = BEFORE) -> bytes:
    return (before + plan + AFTER).encode()


class Texts(unittest.TestCase):
    def setUp(self) -> None:
        self.net = read_network(network('connection'))

    def told(self, text: bytes) -> str:
        return str(verdict_on(self.net, Rows(self.net), 10, text))

    def changed(self, old: str, new: str) -> bytes:
        self.assertEqual(WHOLE.count(old), 1, old)
        return text_of(WHOLE.replace(old, new))

    def test_whole_plan(self) -> None:
        self.assertEqual(self.told(text_of(WHOLE)), 'good 2 1')
        run = read_run(text_of(WHOLE), 6)
        answer = run.logs[0].items[1].answer
        assert answer is not None
        part = Part(Share((2, 4, 6), (5,)), (Inner(Change(5)), PartLeaf(1075000), PartLeaf(940000)), 940000)
        self.assertEqual(answer.value, PlanByParts(1, (Drop(5), First(5, 3)), 940000, 940000, 'optimal', (part,), 0))
        self.assertEqual(run.journal[1].message, Adopt((Drop(5), First(5, 3))))
        self.assertEqual('\n'.join(['2 solve 100 -> 1 ' + solved_lines(answer.value)[0], *solved_lines(answer.value)[1:], '']), WHOLE)

    def test_true_plans(self) -> None:
        opened = HEAD.replace('optimal', 'open').replace('bound 940000', 'bound 900000')
        for plan in (
            HEAD.format(1, 3) + SECOND + 'rest 900000\n', HEAD.format(2, 4) + SECOND + FIRST + 'rest 0\n',
            HEAD.format(2, 4) + FIRST + SECOND + 'rest 0\n', HEAD.format(3, 5) + EMPTY + SECOND + FIRST + 'rest 0\n',
            opened.format(0, 0) + 'rest 900000\n', opened.format(1, 1) + EMPTY + 'rest 900000\n',
            opened.format(1, 1) + FIRST + 'rest 0\n',
        ):
            self.assertEqual(self.told(text_of(plan)), 'good 2 1', plan)

    def test_plan_on_the_page_of_forms(self) -> None:
        with open(os.path.join(TOP, 'docs', 'FORMATS.md'), encoding='utf-8') as file:
            shown = file.read().split('this one is true:\n\n```text\n')[1].split('```')[0]
        self.assertTrue(shown.startswith('solved '))
        self.assertEqual(self.told(text_of(f'2 solve 100 -> 1 {shown}')), 'good 2 1')

    def test_forms(self) -> None:
        for old, new, line in (
            ('parts 1 nodes 3\n', 'parts 1 nodes 4\n', PART), ('parts 1 nodes 3\n', 'parts 1 nodes 2\n', PART),
            ('parts 1 nodes 3\n', 'parts 2 nodes 3\n', REST), ('parts 1 nodes 3\n', 'parts 0 nodes 3\n', PLAN),
            ('parts 1 nodes 3\n', 'parts 0 nodes 0\n', PART), ('parts 1 nodes 3\n', 'nodes 3 parts 1\n', PLAN),
            ('changes 1 nodes 3', 'changes 1 nodes 4', PART), ('changes 1 nodes 3', 'changes 1 nodes 2', PART),
            ('changes 1 nodes 3', 'changes 1 nodes 0', PART), ('part events 3', 'part events 2', EVENTS),
            ('part events 3', 'part events 65536', PART), ('part events 3', 'part events 0', EVENTS),
            ('events 2 4 6', 'events 4 2 6', EVENTS), ('events 2 4 6', 'events 2 4 4', EVENTS), ('events 2 4 6', 'events 2 4', EVENTS),
            ('events 2 4 6', 'events 2  4 6', EVENTS), ('events 2 4 6', 'events 2 4 06', EVENTS),
            ('events 2 4 6', 'events 2 4 4294967296', EVENTS), ('changes 5', 'change 5', CHANGES),
            ('inner change 5', 'inner pair 5 3', NODE), ('inner change 5', 'inner 5', NODE), ('leaf 940000', 'bound 940000', LAST),
            ('leaf 940000', 'open 940000', LAST), ('leaf 940000', 'leaf', LAST), ('rest 0\n', 'rest\n', REST), ('rest 0\n', '', REST),
            ('rest 0\n', 'rest 0\nrest 0\n', REST + 1), ('choices 2', 'choices 3', PART), ('choices 2', 'choices 1', CHOICE + 1),
            ('solved optimal', 'solved best', PLAN), ('100 -> 1', '100 ->', PLAN),
        ):
            self.assertEqual(self.told(self.changed(old, new)), f'bad {line} form', new)

    def test_totals_off_together(self) -> None:
        fewer, more = WHOLE.replace('nodes 3', 'nodes 2'), WHOLE.replace('nodes 3', 'nodes 4')
        self.assertEqual(self.told(text_of(fewer)), f'bad {LAST} form')
        self.assertEqual(self.told(text_of(more)), f'bad {REST} form')

    def test_ids_of_all_shares_together(self) -> None:
        most = ' '.join(map(str, range(1, 65537)))
        plan = HEAD.format(2, 2) + f'part events 65536 changes 0 nodes 1 bound 0\nevents {most}\nleaf 0\n' + '{}rest 0\n'
        self.assertEqual(self.told(text_of(plan.format(EMPTY))), f'bad {PLAN} plan')
        self.assertEqual(self.told(text_of(plan.format(EMPTY.replace('changes 0', 'changes 1')))), f'bad {PLAN + 6} form')

    def test_wrong_plans(self) -> None:
        for old, new in (
            ('leaf 1075000', 'leaf 1075001'), ('leaf 1075000', 'leaf 1074999'), ('leaf 940000', 'leaf 940001'), ('leaf 1075000', 'cycle'),
            ('nodes 3 bound 940000', 'nodes 3 bound 939999'), ('nodes 3 bound 940000', 'nodes 3 bound 1075000'),
            ('cost 940000 bound 940000', 'cost 940000 bound 940001'), ('cost 940000 bound 940000', 'cost 940001 bound 940000'),
            ('solved optimal', 'solved open'), ('rest 0\n', 'rest 1\n'), ('rest 0\n', 'rest 940000\n'),
            ('events 2 4 6', 'events 1 4 6'), ('events 2 4 6', 'events 2 4 99'), ('changes 5', 'changes 4'), ('changes 5', 'changes 99'),
            ('inner change 5', 'inner change 4'), ('inner change 5', 'inner change 99'), ('inner change 5', 'inner pair 4 6'),
            ('leaf 940000', 'inner pair 3 5'), ('inner change 5', 'leaf 900000'), ('solve 100', 'solve 2'), ('solve 100', 'plan 100'),
            ('solve 100', 'cost'), ('choice drop 5', 'choice keep 5'),
            ('choice drop 5\nchoice first 5 3', 'choice first 5 3\nchoice drop 5'), ('-> 1 solved', '-> 0 solved'),
            ('-> 1 solved', '-> 3 solved'), ('2 solve', '1 solve'),
        ):
            self.assertEqual(self.told(self.changed(old, new)), f'bad {PLAN} plan', new)

    def test_off_together(self) -> None:
        for plan in (
            WHOLE.replace('940000 choices', '939999 choices').replace('bound 940000\n', 'bound 939999\n'),
            WHOLE.replace('leaf 940000', 'leaf 940001').replace('bound 940000\n', 'bound 940001\n').replace('940000 choices', '940001 choices'),
            HEAD.replace('bound 940000', 'bound 980000').replace('optimal', 'open').format(2, 6) + 2 * SECOND + 'rest 900000\n',
            HEAD.replace('bound 940000', 'bound 1840000').replace('optimal', 'open').format(2, 4) + FIRST + SECOND + 'rest 900000\n',
            HEAD.replace('bound 940000', 'bound 40000').replace('optimal', 'open').format(1, 3) + SECOND + 'rest 0\n',
            WHOLE.replace('leaf 1075000', 'inner change 5\nleaf 1075000\nleaf 1075000').replace('nodes 3', 'nodes 5'),
        ):
            self.assertEqual(self.told(text_of(plan)), f'bad {PLAN} plan', plan)

    def test_plan_is_no_answer_to_solve(self) -> None:
        plan = '2 plan 100 -> 1 plan optimal cost 940000 bound 940000 choices 2 nodes 3\nchoice drop 5\nchoice first 5 3\ninner change 5\n' \
               'bound 1075000\nbound 940000\n'
        self.assertEqual(self.told(text_of(plan)), 'good 2 1')
        self.assertEqual(self.told(text_of(plan.replace('2 plan 100', '2 solve 100'))), f'bad {PLAN} plan')

    def test_budgets_and_numbers_of_plans(self) -> None:
        empty = 'dm-run 2\npenalty 10\nfeeds 1\nentries 0\nfeed 1 1\n'
        end = 'end\nboards 0\ntimes 0\n1; 100\n2; 200\n3; 220\n4; 300\n5; 230\n6; 330\ncost 0\ndone\n'
        for item, due in (
            ('1 solve 0 -> range 0', 'good 0 0'), ('1 solve 16385 -> range 16385', 'good 0 0'), ('1 solve 16384 -> range 16384', 'bad 6 reply'),
            ('1 solve 16385 -> range 16384', 'bad 6 reply'), ('1 solve 3 -> plans', 'bad 6 reply'), ('1 solve 0 -> plans', 'bad 6 reply'),
            ('1 solve 3 -> 0 solved optimal cost 0 bound 0 choices 0 parts 0 nodes 0\nrest 0', 'good 0 1'),
            ('1 solve 0 -> 0 solved optimal cost 0 bound 0 choices 0 parts 0 nodes 0\nrest 0', 'bad 6 plan'),
            ('1 solve x -> range 0', 'bad 6 form'), ('1 solve -> range 0', 'bad 6 form'), ('1 solve 03 -> range 3', 'bad 6 form'),
        ):
            self.assertEqual(self.told(f'{empty}{item}\n{end}'.encode()), due, item)
        solved = 'solve 3 -> 0 solved optimal cost 0 bound 0 choices 0 parts 0 nodes 0\nrest 0\n'
        both = f'1 {solved}2 plan 3 -> 0 plan optimal cost 0 bound 0 choices 0 nodes 1\nbound 0\n3 solve 9 -> plans\n4 plan 9 -> plans\n'
        text = empty.replace('feed 1 1', 'feed 1 4') + both + end
        self.assertEqual(str(verdict_on(self.net, Rows(self.net), 10, text.encode(), plans=2)), 'good 0 2')
        self.assertEqual(str(verdict_on(self.net, Rows(self.net), 10, text.encode(), plans=1)), 'bad 8 plan')
        self.assertEqual(str(verdict_on(self.net, Rows(self.net), 10, text.encode(), plans=3)), 'bad 10 reply')

    def test_version_1_has_no_such_words(self) -> None:
        self.assertEqual(self.told(text_of(WHOLE, BEFORE.replace('dm-run 2', 'dm-run 1'))), f'bad {PLAN} form')
        for item in '2 solve 0 -> range 0\n', '2 solve 3 -> plans\n', WHOLE.replace('solve 100', 'plan 100'):
            self.assertEqual(self.told(text_of(item, BEFORE.replace('dm-run 2', 'dm-run 1'))), f'bad {PLAN} form')

    def test_every_front_is_cut(self) -> None:
        whole = text_of(WHOLE)
        for length in range(len(whole)):
            with self.assertRaises(Bad) as caught:
                read_run(whole[:length], 6)
            self.assertEqual(caught.exception.args, (whole[:length].count(b'\n') + 1, 'truncated'))

    def test_line_of_a_feed(self) -> None:
        self.assertEqual(heard('solve 0016384 '), AskSolve(16384))
        for line in 'solve', 'solve x', 'solve 1 2', 'solve -1', 'Solve 1', f'solve {2 ** 64}':
            self.assertIsNone(heard(line), line)


# ---- Parts that are drawn


def drawn_shares(draws: Random, net: Network, most: int) -> list[Share]:
    """Shares of which none has a term of another; some terms stand in none."""
    arrivals: list[list[int]] = [[] for _ in range(most)]
    changes: list[list[int]] = [[] for _ in range(most)]
    for event in net.events:
        if event.kind == 'arrival' and draws.random() < 0.8:
            draws.choice(arrivals).append(event.id)
    for activity in net.activities:
        if activity.kind == 'change' and draws.random() < 0.8:
            draws.choice(changes).append(activity.id)
    return [Share(tuple(one), tuple(other)) for one, other in zip(arrivals, changes)]


def drawn_nodes(draws: Random, problem: Problem, path: Path) -> list[PartNode]:
    """The nodes of a true tree below a path, which branches on any free choice that the path leaves undecided."""
    relaxed = problem.relaxed(path)
    if relaxed is None:
        return [CycleLeaf()]
    left = [choice for choice in problem.free if choice not in map(choice_of, path)]
    if not left or draws.random() < 0.3:
        return [PartLeaf(relaxed.cost)]
    choice = draws.choice(left)
    first, second = ways_of(choice)
    return [Inner(choice), *drawn_nodes(draws, problem, path + (first,)), *drawn_nodes(draws, problem, path + (second,))]


def drawn_part(draws: Random, net: Network, rows: Rows, penalty: int, share: Share) -> Part:
    """A true part with a share."""
    nodes = drawn_nodes(draws, Problem(within(net, share), rows, penalty), ())
    return Part(share, tuple(nodes), min(node.cost for node in nodes if isinstance(node, PartLeaf)))


def cost_with(net: Network, rows: Rows, penalty: int, decisions: tuple[Decision, ...]) -> Optional[int]:
    """What rows cost with decisions, or None if these make a cycle."""
    decided = with_decisions(net, rows, decisions)
    times = times_of(net, decided)
    return None if times is None else cost_of(net, decided, times, penalty)


def plan_with(net: Network, rows: Rows, penalty: int, decisions: tuple[Decision, ...], parts: list[Part]) -> PlanByParts:
    """The plan of these decisions, as far as they differ from the rows, and parts; what it says is worked out by the definitions."""
    problem = Problem(net, rows, penalty)
    choices = tuple(decision for decision in decisions if problem.differs(decision))
    relaxed = Problem(beside(net, [part.share for part in parts]), rows, penalty).relaxed(())
    cost = cost_with(net, rows, penalty, choices)
    assert relaxed is not None and cost is not None
    bound = sum(part.bound for part in parts) + relaxed.cost
    return PlanByParts(0, choices, cost, bound, 'optimal' if bound == cost else 'open', tuple(parts), relaxed.cost)


class Laws(unittest.TestCase):
    def drawn(self, number: int) -> tuple[Random, Network, Rows, list[Choice]]:
        """Draws by number, with a network and rows of few free choices."""
        draws = Random(number)
        while True:
            net = drawn_network(draws, draws.choice((2, 3)))
            rows = drawn_rows(draws, net)
            free = free_choices(net, rows)
            if len(free) <= 6:
                return draws, net, rows, free

    def test_costs_add_up(self) -> None:
        for number in range(40):
            draws, net, rows, _ = self.drawn(number)
            shares = drawn_shares(draws, net, 3)
            times = times_of(net, rows)
            assert times is not None
            split = [cost_of(one, rows, times, 7) for one in (*(within(net, share) for share in shares), beside(net, shares))]
            self.assertEqual(sum(split), cost_of(net, rows, times, 7))

    def test_no_choices_cost_less_than_the_bound(self) -> None:
        closed = 0
        for number in range(60):
            draws, net, rows, free = self.drawn(number)
            parts = [drawn_part(draws, net, rows, 7, share) for share in drawn_shares(draws, net, 2)]
            lists = [tuple(decisions) for decisions in itertools.product(*map(ways_of, free))]
            costs = {decisions: cost for decisions in lists if (cost := cost_with(net, rows, 7, decisions)) is not None}
            plan = plan_with(net, rows, 7, draws.choice(list(costs)), parts)
            nodes = sum(len(part.nodes) for part in parts)
            self.assertTrue(is_true_plan_by_parts(net, rows, 7, nodes, plan), number)
            self.assertFalse(nodes > 0 and is_true_plan_by_parts(net, rows, 7, nodes - 1, plan), number)
            self.assertLessEqual(plan.bound, min(costs.values()), number)
            closed += plan.bound == min(costs.values())
        self.assertGreater(closed, 20)

    def test_one_part_of_all_terms_will_do(self) -> None:
        for number in range(20):
            _, net, rows, free = self.drawn(number)
            share = Share(tuple(event.id for event in net.events if event.kind == 'arrival'),
                          tuple(activity.id for activity in net.activities if activity.kind == 'change'))
            costs = [cost_with(net, rows, 7, tuple(decisions)) for decisions in itertools.product(*map(ways_of, free))]
            part = drawn_part(WithoutEnd(number), net, rows, 7, share)
            self.assertEqual(part.bound, min(cost for cost in costs if cost is not None))
            self.assertLessEqual(len(part.nodes), 2 ** (len(free) + 1) - 1)
            self.assertTrue(is_true_part(Problem(net, rows, 7), part))

    def test_changed_parts_are_wrong(self) -> None:
        for number in range(20):
            draws, net, rows, _ = self.drawn(number)
            part = drawn_part(draws, net, rows, 7, drawn_shares(draws, net, 1)[0])
            self.assertTrue(is_true_part(Problem(net, rows, 7), part))
            self.assertFalse(is_true_part(Problem(net, rows, 7), part._replace(bound=part.bound + 1)))
            self.assertFalse(is_true_part(Problem(net, rows, 7), part._replace(nodes=part.nodes + (PartLeaf(0),))))
            self.assertFalse(is_true_part(Problem(net, rows, 7), part._replace(nodes=part.nodes[:-1])))
            for place, node in enumerate(part.nodes):
                other: PartNode = PartLeaf(0) if isinstance(node, CycleLeaf) else CycleLeaf()
                if isinstance(node, PartLeaf):
                    other = PartLeaf(node.cost + 1)
                nodes = part.nodes[:place] + (other,) + part.nodes[place + 1:]
                self.assertFalse(is_true_part(Problem(net, rows, 7), part._replace(nodes=nodes)))


class WithoutEnd(Random):
    """Draws that end no tree before all is decided."""

    def random(self) -> float:
        return 0.99


class Workers(unittest.TestCase):
    def test_two_workers_print_what_one_does(self) -> None:
        runs = os.path.join(TOP, 'crates', 'dm_runs', 'data', 'runs')
        texts: list[bytes] = []
        for name in ('day_by_parts_by_one_worker', 'day_by_parts_by_two_workers'):
            with open(os.path.join(runs, name, 'text'), 'rb') as text:
                texts.append(text.read())
        self.assertIn(b' parts 10 nodes 42\n', texts[0])
        self.assertEqual(texts[0], texts[1])


class Shares(unittest.TestCase):
    def test_shares(self) -> None:
        net = read_network(network('connection'))
        self.assertTrue(is_share(net, Share((), ())))
        self.assertTrue(is_share(net, Share((2, 4), (5,))))
        for share in Share((4, 2), ()), Share((2, 2), ()), Share((1,), ()), Share((7,), ()), Share((), (4,)), Share((), (5, 5)), Share((5,), ()):
            self.assertFalse(is_share(net, share), share)

    def test_apart(self) -> None:
        self.assertTrue(are_apart([]))
        self.assertTrue(are_apart([Share((5,), ()), Share((), (5,)), Share((), ()), Share((), ())]))
        self.assertFalse(are_apart([Share((5,), ()), Share((2, 5), ())]))
        self.assertFalse(are_apart([Share((), (5,)), Share((), (5,))]))


if __name__ == '__main__':
    unittest.main()
