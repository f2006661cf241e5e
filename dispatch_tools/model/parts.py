"""Plans by parts, and when one is true: a second reading of the rules, beside that of railway.

The cost is a sum of terms: of each arrival its lateness, of each change its penalty. A part has some of them as its share, and a tree
that proves what these cost at least. Each leaf is judged by the times of its whole path, over a network in which all other terms
weigh nothing; so nothing here knows what a part's terms depend on.
"""
from __future__ import annotations

from typing import Callable, Iterable, NamedTuple, Optional, Sequence

from dispatch_tools.model.messages import CycleLeaf, Decision, Inner, PartLeaf, PartNode, Path
from dispatch_tools.model.network import Change, Choice, Network, Pair
from dispatch_tools.model.railway import choice_of, Rows, ways_of
from dispatch_tools.model.true_plans import are_true_choices, Problem

# The most ids that the shares of a plan may have together.
MOST_IDS = 65_536


class Share(NamedTuple):
    """Terms of the cost: arrivals and changes by id, each ascending."""
    arrivals: tuple[int, ...]
    changes: tuple[int, ...]


class Part(NamedTuple):
    """A share, the tree that is searched for it, its nodes in preorder, and what its terms cost at least."""
    share: Share
    nodes: tuple[PartNode, ...]
    bound: int


class PlanByParts(NamedTuple):
    """A plan by parts of the rows at an entry; the rest is what the terms of no part cost where nothing is decided."""
    entry: int
    choices: tuple[Decision, ...]
    cost: int
    bound: int
    mark: str
    parts: tuple[Part, ...]
    rest: int


def weighing(network: Network, has_arrival: Callable[[int], bool], has_change: Callable[[int], bool]) -> Network:
    """The network in which only these arrivals and changes have a weight."""
    events = [event if has_arrival(event.id) else event._replace(weight=0) for event in network.events]
    activities = [activity if has_change(activity.id) else activity._replace(weight=0) for activity in network.activities]
    return Network(events, activities)


def within(network: Network, share: Share) -> Network:
    """The network in which the terms of a share alone cost something."""
    return weighing(network, set(share.arrivals).__contains__, set(share.changes).__contains__)


def beside(network: Network, shares: Iterable[Share]) -> Network:
    """The network in which the terms of no share alone cost something."""
    shares = list(shares)
    arrivals = {arrival for share in shares for arrival in share.arrivals}
    changes = {change for share in shares for change in share.changes}
    return weighing(network, lambda arrival: arrival not in arrivals, lambda change: change not in changes)


def ascends(ids: Sequence[int]) -> bool:
    """Whether ids ascend, so that none stands twice."""
    return all(one < other for one, other in zip(ids, ids[1:]))


def is_share(network: Network, share: Share) -> bool:
    """Whether a share has arrivals and changes of the network alone, each by ascending id."""
    arrivals = {event.id for event in network.events if event.kind == 'arrival'}
    changes = {activity.id for activity in network.activities if activity.kind == 'change'}
    return ascends(share.arrivals) and ascends(share.changes) and arrivals.issuperset(share.arrivals) and changes.issuperset(share.changes)


def are_apart(shares: Sequence[Share]) -> bool:
    """Whether no term stands in two shares."""
    arrivals = [arrival for share in shares for arrival in set(share.arrivals)]
    changes = [change for share in shares for change in set(share.changes)]
    return len(arrivals) == len(set(arrivals)) and len(changes) == len(set(changes))


def branches_of(part: Part) -> list[Choice]:
    """The choices that a part's tree branches on, each once, in the order of the tree."""
    return list(dict.fromkeys(node.choice for node in part.nodes if isinstance(node, Inner)))


def places_of(network: Network, part: Part) -> set[int]:
    """The places of the events that a part is about: its arrivals, and the ends of its changes and of the choices of its tree. What the
    network does not have is left out."""
    choices = branches_of(part)
    events = {*part.share.arrivals, *(event for choice in choices if isinstance(choice, Pair) for event in (choice.first, choice.second))}
    changes = {*part.share.changes, *(choice.activity for choice in choices if isinstance(choice, Change))}
    places = [network.activity_place[change] for change in changes if change in network.activity_place]
    return {network.event_place[event] for event in events if event in network.event_place} | {
        end for place in places for end in (network.tails[place], network.heads[place])}


def paths_of(nodes: Sequence[PartNode]) -> Optional[list[Path]]:
    """The path to each node of a whole tree in preorder, or None if the nodes are none."""
    paths: list[Path] = []
    waiting: list[Path] = [()]
    for node in nodes:
        if not waiting:
            return None
        path = waiting.pop()
        paths.append(path)
        if isinstance(node, Inner):
            first, second = ways_of(node.choice)
            waiting += [path + (second,), path + (first,)]
    return None if waiting else paths


def is_true_part_node(problem: Problem, free: set[Choice], path: Path, node: PartNode) -> bool:
    """Whether a node says the truth of the relaxed problem of its path, in which the terms of its part alone cost something."""
    relaxed = problem.relaxed(path)
    if relaxed is None or isinstance(node, CycleLeaf):
        return relaxed is None and isinstance(node, CycleLeaf)
    if isinstance(node, Inner):
        return node.choice in free and node.choice not in map(choice_of, path)
    return relaxed.cost == node.cost


def is_true_part(whole: Problem, part: Part) -> bool:
    """Whether a part is true of a problem: its share, its tree, each of its nodes, and its bound."""
    paths = paths_of(part.nodes)
    if paths is None or not is_share(whole.network, part.share):
        return False
    problem = Problem(within(whole.network, part.share), whole.rows, whole.penalty, whole.free)
    free = set(problem.free)
    if not all(is_true_part_node(problem, free, path, node) for path, node in zip(paths, part.nodes)):
        return False
    leaves = [node.cost for node in part.nodes if isinstance(node, PartLeaf)]
    return bool(leaves) and min(leaves) == part.bound


def is_true_rest(whole: Problem, plan: PlanByParts) -> bool:
    """Whether the rest is what the terms of no part cost where nothing is decided."""
    others = beside(whole.network, (part.share for part in plan.parts))
    relaxed = Problem(others, whole.rows, whole.penalty, whole.free).relaxed(())
    return relaxed is not None and relaxed.cost == plan.rest


def is_true_plan_by_parts(
    network: Network, rows: Rows, penalty: int, budget: int, plan: PlanByParts, allowed: Optional[list[Choice]] = None,
) -> bool:
    """Whether a plan by parts is true of rows at a penalty, for a budget of nodes, with these choices alone where some are given."""
    if sum(len(part.nodes) for part in plan.parts) > budget or not are_apart([part.share for part in plan.parts]):
        return False
    if plan.bound != sum(part.bound for part in plan.parts) + plan.rest or (plan.mark == 'optimal') != (plan.bound == plan.cost):
        return False
    problem = Problem(network, rows, penalty, allowed)
    return (are_true_choices(problem, plan.choices, plan.cost) and is_true_rest(problem, plan)
            and all(is_true_part(problem, part) for part in plan.parts))
