"""Puts decisions in an order in which none of them closes a cycle on the way.

A feed has a line for each decision. A line that closes a cycle is refused, even if the decisions close none once all are made. So
the changes that are dropped come first, then the pairs that are turned, then the changes that are kept.

The pairs are turned while one order of all events goes over into the other. Each event moves at even speed from its place in the
one order to its place in the other. A pair is turned when its two events meet. If one event is before another one in both orders,
it stays before it all the while.
"""
from __future__ import annotations

from fractions import Fraction
from typing import Sequence

from dispatch_tools.model.messages import Decision, First, Keep
from dispatch_tools.model.network import Network
from dispatch_tools.model.railway import active_activities, cancelled_refusal, choice_of, Rows, with_decisions

# Events stand so far apart, less a part drawn from their place, that no two pairs meet at once.
APART = 1 << 40


def order_of(network: Network, rows: Rows) -> list[int]:
    """The place of each event in an order in which active activities go forward; places stand apart by uneven distances."""
    held = active_activities(network, rows)
    waits_for = [0] * len(network.events)
    for place, head in enumerate(network.heads):
        waits_for[head] += held[place]
    ready = [place for place, count in enumerate(waits_for) if not count]
    for tail in ready:
        for place in network.out_of[tail]:
            if held[place]:
                head = network.heads[place]
                waits_for[head] -= 1
                if not waits_for[head]:
                    ready.append(head)
    if len(ready) < len(waits_for):
        raise ValueError('the rows have a cycle')
    order = [0] * len(ready)
    for count, place in enumerate(ready):
        order[place] = count * APART + (place * 6364136223846793005 + 1442695040888963407) % (APART // 2)
    return order


def demand_open(network: Network, rows: Rows, decision: Decision, ends: tuple[int, int]) -> None:
    """ValueError if the choice of a decision is locked or has a cancelled end."""
    refusal = cancelled_refusal(network, rows, ends)
    if refusal is not None or choice_of(decision) in rows.locked:
        raise ValueError(f'refused {refusal}' if refusal else f'{choice_of(decision)} is locked')


def in_turn(network: Network, rows: Rows, decisions: Sequence[Decision]) -> list[Decision]:
    """The decisions by which rows without a cycle differ, in an order in which none closes a cycle.

    ValueError if all of them together close one, if an event of a pair that is to be turned has passed, or if a choice is locked or has a
    cancelled end."""
    after = with_decisions(network, rows, decisions)
    drops: list[Decision] = []
    keeps: list[Decision] = []
    turns: list[tuple[Decision, int, int]] = []
    for decision in decisions:
        if not isinstance(decision, First):
            kept = isinstance(decision, Keep)
            place = network.activity_place[decision.activity]
            if rows.kept[place] != kept:
                demand_open(network, rows, decision, (network.tails[place], network.heads[place]))
                (keeps if kept else drops).append(decision)
        else:
            first, second = network.event_place[decision.event], network.event_place[decision.other]
            if rows.first[network.pair_at(first, second)] != first:
                if rows.passed[first] is not None or rows.passed[second] is not None:
                    raise ValueError('an event of the pair has passed')
                demand_open(network, rows, decision, (first, second))
                turns.append((decision, first, second))
    if turns:
        before, then = order_of(network, with_decisions(network, rows, drops)), order_of(network, after)

        def meeting(turn: tuple[Decision, int, int]) -> Fraction:
            _, first, second = turn
            apart = before[first] - before[second]
            return Fraction(apart, apart + then[second] - then[first])

        turns.sort(key=meeting)
    return drops + [decision for decision, _, _ in turns] + keeps
