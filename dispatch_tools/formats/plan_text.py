"""Reads plans in print, of both kinds and in both versions, and prints those by parts. docs/FORMATS.md says how they are written."""
from __future__ import annotations

from typing import Iterable, Mapping, NamedTuple, Optional, Sequence

from dispatch_tools.formats.lines import fits, Form, ID, NUMBER, read_form, Text
from dispatch_tools.model.messages import (
    BoundLeaf, CycleLeaf, Decision, Drop, First, Inner, Keep, Node, OpenLeaf, PartLeaf, PartNode, Path,
)
from dispatch_tools.model.network import Change, Pair
from dispatch_tools.model.parts import ascends, MOST_IDS, Part, PlanByParts, Share
from dispatch_tools.model.railway import choice_of, Plan, ways_of

# The words by which the mark of a plan is written.
MARKS = ('optimal', 'open')

# What stands behind the words of each kind.
DECISIONS: Mapping[str, Form[Decision]] = {'keep': Form([ID], Keep), 'drop': Form([ID], Drop), 'first': Form([ID, ID], First)}
LEAVES: Mapping[str, Form[CycleLeaf | BoundLeaf | OpenLeaf]] = {
    'cycle': Form([], CycleLeaf), 'bound': Form([NUMBER], BoundLeaf), 'open': Form([NUMBER], OpenLeaf),
}
PART_LEAVES: Mapping[str, Form[CycleLeaf | PartLeaf]] = {'cycle': Form([], CycleLeaf), 'leaf': Form([NUMBER], PartLeaf)}


class PlanHead(NamedTuple):
    """What the first line of a plan says."""
    mark: str
    cost: int
    bound: int
    choices: int
    nodes: int


class SolvedHead(NamedTuple):
    """What the first line of a plan by parts says."""
    mark: str
    cost: int
    bound: int
    choices: int
    parts: int
    nodes: int


# ---- Decisions and first lines


def read_decision(words: Sequence[str]) -> Optional[Decision]:
    """The decision that words spell, or None."""
    return read_form(DECISIONS, words)


def read_decisions(words: Sequence[str]) -> Optional[tuple[Decision, ...]]:
    """The decisions that stand in words one after the other, or None."""
    decisions = []
    place = 0
    while place < len(words):
        end = place + (3 if words[place] == 'first' else 2)
        decision = read_decision(words[place:end])
        if decision is None:
            return None
        decisions.append(decision)
        place = end
    return tuple(decisions)


def read_plan_head(words: Sequence[str], version: int) -> Optional[PlanHead]:
    """What the words of a plan's first line say, or None."""
    for mark in MARKS:
        numbers = fits(words, [
            'plan', mark, 'cost', NUMBER, 'bound', NUMBER, 'choices', NUMBER, 'leaves' if version == 1 else 'nodes', NUMBER,
        ])
        if numbers is not None:
            return PlanHead(mark, *numbers)
    return None


def read_solved_head(words: Sequence[str]) -> Optional[SolvedHead]:
    """What the words of the first line of a plan by parts say, or None. Where it has no parts it has no nodes."""
    for mark in MARKS:
        numbers = fits(words, [
            'solved', mark, 'cost', NUMBER, 'bound', NUMBER, 'choices', NUMBER, 'parts', NUMBER, 'nodes', NUMBER,
        ])
        if numbers is not None:
            head = SolvedHead(mark, *numbers)
            return head if head.parts or not head.nodes else None
    return None


# ---- Plans


def read_inner(words: Sequence[str]) -> Optional[Inner]:
    """The node of a line that branches on a choice, or None."""
    change = fits(words, ['inner', 'change', ID])
    if change is not None:
        return Inner(Change(*change))
    pair = fits(words, ['inner', 'pair', ID, ID])
    return Inner(Pair(*pair)) if pair is not None and pair[0] < pair[1] else None


def read_node(words: Sequence[str]) -> Optional[Node]:
    """The node of a line in version 2, or None."""
    return read_inner(words) or read_form(LEAVES, words)


def read_leaf(words: Sequence[str]) -> Optional[tuple[Node, Path]]:
    """The leaf of a line in version 1, which is a node with its path, or None."""
    size = 2 if words[:2] == ['leaf', 'cycle'] else 3
    node, path = read_form(LEAVES, words[1:size]), read_decisions(words[size:])
    return None if words[0] != 'leaf' or node is None or path is None else (node, path)


def nodes_of(leaves: Iterable[tuple[Node, Path]]) -> Optional[list[Node]]:
    """The nodes in preorder of the least tree that has these leaves in order, or None if there is none."""
    nodes: list[Node] = []
    paths: list[Path] = [()]
    for leaf, path in leaves:
        if not paths:
            return None
        above = paths.pop()
        if path[:len(above)] != above:
            return None
        for length in range(len(above), len(path)):
            choice = choice_of(path[length])
            first, second = ways_of(choice)
            if first == second or path[length] != first:
                return None
            nodes.append(Inner(choice))
            paths.append(path[:length] + (second,))
        nodes.append(leaf)
    return None if paths else nodes


def read_choices(text: Text, count: int) -> tuple[Decision, ...]:
    """The decisions of so many lines of choices."""
    choices: list[Decision] = []
    for _ in range(count):
        words = text.words()
        text.demand(words[0] == 'choice', 'form')
        choices.append(read_decision(words[1:]) or text.refuse())
    return tuple(choices)


def read_plan(text: Text, version: int, entry: int, head: PlanHead) -> Plan:
    """The plan whose first line was read last, from its other lines."""
    choices = read_choices(text, head.choices)
    nodes: Optional[list[Node]]
    if version == 1:
        nodes = nodes_of([read_leaf(text.words()) or text.refuse() for _ in range(head.nodes)])
    else:
        nodes = [read_node(text.words()) or text.refuse() for _ in range(head.nodes)]
    return Plan(entry, choices, head.cost, head.bound, head.mark, nodes)


# ---- Plans by parts


def read_part_node(words: Sequence[str]) -> Optional[PartNode]:
    """The node of a line of a part, or None."""
    return read_inner(words) or read_form(PART_LEAVES, words)


def read_ids(text: Text, word: str, count: int) -> tuple[int, ...]:
    """So many ids behind a word, ascending; where there are none they have no line."""
    if count == 0:
        return ()
    ids = text.read(word, *[ID] * count)
    text.demand(ascends(ids), 'form')
    return ids


def read_part(text: Text, parts: int, nodes: int, ids: int) -> Part:
    """The next part, where so many parts, nodes and ids are left: it has some node, and the last part has all that are left."""
    arrivals, changes, count, bound = text.read('part', 'events', NUMBER, 'changes', NUMBER, 'nodes', NUMBER, 'bound', NUMBER)
    text.demand(arrivals + changes <= ids and 0 < count <= nodes and (parts > 1 or count == nodes), 'form')
    share = Share(read_ids(text, 'events', arrivals), read_ids(text, 'changes', changes))
    return Part(share, tuple(read_part_node(text.words()) or text.refuse() for _ in range(count)), bound)


def read_parts(text: Text, head: SolvedHead) -> tuple[Part, ...]:
    """The parts of a plan behind its choices."""
    parts: list[Part] = []
    nodes, ids = head.nodes, MOST_IDS
    for left in range(head.parts, 0, -1):
        part = read_part(text, left, nodes, ids)
        nodes -= len(part.nodes)
        ids -= len(part.share.arrivals) + len(part.share.changes)
        parts.append(part)
    return tuple(parts)


def read_solved(text: Text, entry: int, head: SolvedHead) -> PlanByParts:
    """The plan by parts whose first line was read last, from its other lines."""
    choices, parts = read_choices(text, head.choices), read_parts(text, head)
    rest, = text.read('rest', NUMBER)
    return PlanByParts(entry, choices, head.cost, head.bound, head.mark, parts, rest)


def part_lines(part: Part) -> list[str]:
    """The lines of a part."""
    arrivals, changes = part.share
    ids = [' '.join([word, *map(str, numbers)]) for word, numbers in (('events', arrivals), ('changes', changes)) if numbers]
    head = f'part events {len(arrivals)} changes {len(changes)} nodes {len(part.nodes)} bound {part.bound}'
    return [head, *ids, *map(str, part.nodes)]


def solved_lines(plan: PlanByParts) -> list[str]:
    """The lines of a plan by parts, in the one way in which they are spelled."""
    nodes = sum(len(part.nodes) for part in plan.parts)
    head = f'solved {plan.mark} cost {plan.cost} bound {plan.bound} choices {len(plan.choices)} parts {len(plan.parts)} nodes {nodes}'
    choices = [f'choice {decision}' for decision in plan.choices]
    return [head, *choices, *(line for part in plan.parts for line in part_lines(part)), f'rest {plan.rest}']
