"""True plans: a second reading of what a plan promises. Each node of its tree is worked out anew from its whole path.

It shares no code with the program. Its words are those of docs/MODEL.md.
"""
from __future__ import annotations

from typing import NamedTuple, Optional, Sequence

from dispatch_tools.model.messages import BoundLeaf, CycleLeaf, Decision, First, Inner, Keep, Node, OpenLeaf, Path
from dispatch_tools.model.network import Change, Choice, Network
from dispatch_tools.model.railway import (
    active_activities, charged_activities, choice_of, cost_charging, cost_of, free_choices, is_met, least_times, Plan, Rows, sound_times, times_of,
    ways_of, with_decisions,
)


class Relaxed(NamedTuple):
    cost: int
    violated: set[Choice]


class Problem:
    """What a plan is of: rows with what they cost at a penalty, and the free choices that it may make, which are all of them where none
    are given; the others stay as the rows have them."""

    def __init__(self, network: Network, rows: Rows, penalty: int, allowed: Optional[list[Choice]] = None) -> None:
        self.network = network
        self.rows = rows
        self.penalty = penalty
        self.free = free_choices(network, rows) if allowed is None else allowed
        self.cost = cost_of(network, rows, sound_times(network, rows), penalty)

    def is_violated(self, rows: Rows, times: Sequence[int], choice: Choice) -> bool:
        """Whether times do not keep a choice: a change is not met, or in neither direction of a pair all headways are."""
        network = self.network
        if isinstance(choice, Change):
            return not is_met(network, rows, times, network.activity_place[choice.activity])
        one, other = network.event_place[choice.first], network.event_place[choice.second]
        return not any(
            all(is_met(network, rows, times, place) for place in network.headways[direction])
            for direction in ((one, other), (other, one))
        )

    def relaxed(self, path: Path) -> Optional[Relaxed]:
        """The relaxed problem of a path, in which what it leaves undecided binds and costs nothing; None if it has a cycle."""
        network = self.network
        undecided = set(self.free) - {choice_of(decision) for decision in path}
        rows = with_decisions(network, self.rows, path)
        held = active_activities(network, rows)
        charged = charged_activities(network, rows)
        for place in range(len(network.activities)):
            if network.choice_of_activity(place) in undecided:
                held[place] = charged[place] = False
        times = least_times(network, rows, held)
        if times is None:
            return None
        cost = cost_charging(network, rows, times, self.penalty, charged)
        return Relaxed(cost, {choice for choice in undecided if self.is_violated(rows, times, choice)})

    def differs(self, decision: Decision) -> bool:
        """Whether a decision of a free choice is not what the rows have."""
        network, rows = self.network, self.rows
        if not isinstance(decision, First):
            return rows.kept[network.activity_place[decision.activity]] != isinstance(decision, Keep)
        first = network.event_place[decision.event]
        return rows.first[network.pair_at(first, network.event_place[decision.other])] != first


def are_true_choices(problem: Problem, choices: Sequence[Decision], cost: int) -> bool:
    """Whether the choices are free, stand in order, differ from the rows, have no cycle and cost so much."""
    order = {choice: place for place, choice in enumerate(problem.free)}
    last = -1
    for decision in choices:
        place = order.get(choice_of(decision), -1)
        if place <= last or not problem.differs(decision):
            return False
        last = place
    network = problem.network
    rows = with_decisions(network, problem.rows, choices)
    times = times_of(network, rows)
    return times is not None and cost_of(network, rows, times, problem.penalty) == cost


def is_true_node(problem: Problem, plan: Plan, path: Path, node: Node) -> bool:
    """Whether a node says the truth of the relaxed problem of its path."""
    relaxed = problem.relaxed(path)
    if relaxed is None or isinstance(node, CycleLeaf):
        return relaxed is None and isinstance(node, CycleLeaf)
    if isinstance(node, Inner):
        return node.choice in relaxed.violated and relaxed.cost < problem.cost
    if relaxed.cost != node.cost:
        return False
    return node.cost >= plan.cost if isinstance(node, BoundLeaf) else node.cost < plan.cost and bool(relaxed.violated)


def is_true_tree(problem: Problem, plan: Plan) -> bool:
    """Whether the nodes are one whole tree, each of whose nodes says the truth."""
    if plan.nodes is None:
        return False
    paths: list[Path] = [()]
    for node in plan.nodes:
        if not paths or not is_true_node(problem, plan, paths[-1], node):
            return False
        path = paths.pop()
        if isinstance(node, Inner):
            first, second = ways_of(node.choice)
            paths += [path + (second,), path + (first,)]
    return not paths


def is_true_plan(network: Network, rows: Rows, penalty: int, budget: int, plan: Plan, allowed: Optional[list[Choice]] = None) -> bool:
    """Whether a plan is true of rows at a penalty, for a budget of nodes, with these choices alone where some are given."""
    problem = Problem(network, rows, penalty, allowed)
    if plan.nodes is None or len(plan.nodes) > budget:
        return False
    if not are_true_choices(problem, plan.choices, plan.cost) or not is_true_tree(problem, plan):
        return False
    bounds = [node.cost for node in plan.nodes if isinstance(node, (BoundLeaf, OpenLeaf))]
    if not bounds or min(bounds) != plan.bound:
        return False
    if any(isinstance(node, OpenLeaf) for node in plan.nodes):
        return plan.mark == 'open' and len(plan.nodes) + 2 > budget
    return plan.mark == 'optimal'
