"""What a plan would change: changes kept and dropped, orders turned, trains later and earlier than without it; and its parts."""
from __future__ import annotations

from dataclasses import dataclass
from typing import Any, Callable, NamedTuple, Sequence

from dispatch_tools.desk.asking import Followed
from dispatch_tools.desk.concerns import arrivals_moved, comes_to, minutes, people, State, state_of
from dispatch_tools.desk.naming import Naming
from dispatch_tools.model.messages import Decision, Drop, First, Keep
from dispatch_tools.model.parts import branches_of, Part, places_of, PlanByParts
from dispatch_tools.model.railway import Plan, with_decisions
from dispatch_tools.pictures.scene import duration
from dispatch_tools.pictures.view import cost_words

# So many trains, choices and parts are listed, so many trains of a part are named, and so many trains that a choice concerns.
MOST, NAMED, CONCERNED = 60, 8, 3

# What choices do alone is worked out for so many at most, times the events of the network.
MOST_WORK = 200_000


def decisions_together(naming: Naming, choices: Sequence[Decision]) -> list[list[Decision]]:
    """Choices, those that let one train go before another at several stops together, by their times."""
    found: dict[object, list[Decision]] = {}
    for choice in choices:
        events = naming.network.event_place
        trains = [naming.train_of[events[event]] for event in (choice.event, choice.other)] if isinstance(choice, First) else []
        found.setdefault(tuple(trains) or choice, []).append(choice)
    return [sorted(group, key=lambda choice: time_of(naming, choice)) for group in found.values()]


def time_of(naming: Naming, choice: Decision) -> int:
    network = naming.network
    return network.events[network.event_place[choice.event]].time if isinstance(choice, First) else 0


def together_words(naming: Naming, group: Sequence[Decision]) -> str:
    """Choices that are together, in names."""
    first, last = group[0], group[-1]
    if len(group) == 1 or not isinstance(first, First) or not isinstance(last, First):
        return naming.decision(first)
    places = [naming.network.event_place[event] for event in (first.event, first.other, last.event)]
    return (f'{naming.train(places[0])} goes before {naming.train(places[1])}, {naming.at(places[0])} to {naming.at(places[2])} '
            f'({len(group)} stops)')


def choice_rows(naming: Naming, groups: Sequence[Sequence[Decision]], why: Callable[[Sequence[Decision]], str]) -> list[list[str]]:
    """A row for choices that are together: their kind, what they are in names, the lines that make them, and what they do alone."""
    kinds = {Keep: 'change kept', Drop: 'change dropped', First: 'order turned'}
    most = MOST_WORK // max(1, len(naming.network.events))
    return [[kinds[type(group[0])], together_words(naming, group), '; '.join(map(str, group)), why(group) if number < most else '']
            for number, group in enumerate(groups)]


@dataclass(frozen=True)
class Alone:
    """What choices do alone, without the others of a plan, beside rows as they are. It is worked out by the desk's own reading of the
    rules."""
    naming: Naming
    trains: Sequence[list[int]]
    before: State
    penalty: int

    def why(self, group: Sequence[Decision]) -> str:
        """What they save or cost, and whom they concern most."""
        network = self.naming.network
        after = state_of(network, with_decisions(network, self.before.rows, group), self.penalty)
        if after is None:
            return 'only with others'
        saved = self.before.cost - after.cost
        words = f'{"saves" if saved > 0 else "costs"} {minutes(saved)}' if saved else 'costs as much'
        sums = [(comes_to(arrivals_moved(network, train, self.before, after)), number) for number, train in enumerate(self.trains)]
        moved = sorted((one for one in sums if one[0]), key=lambda one: (-abs(one[0]), one[1]))[:CONCERNED]
        return '; '.join([words, *self.passengers(group), *(f'{self.naming.labels[number]} {"loses" if lost > 0 else "gains"} {abs(lost) / 60_000:,.1f}' for lost, number in moved)])

    def passengers(self, group: Sequence[Decision]) -> list[str]:
        """Whose change it is that is dropped or kept."""
        network = self.naming.network
        return [f'{people(network.activities[network.activity_place[choice.activity]].weight)} {"miss" if isinstance(choice, Drop) else "make"} it'
                for choice in group if isinstance(choice, (Drop, Keep))]


def train_rows(naming: Naming, trains: Sequence[list[int]], before: Sequence[int], after: Sequence[int]) -> list[list[Any]]:
    """A row for each train whose lateness at its last stop differs, the largest difference first: train, before, after, difference."""
    rows = []
    for number, train in enumerate(trains):
        last = train[-1]
        if before[last] != after[last]:
            scheduled = naming.network.events[last].time
            rows.append([number, naming.labels[number], naming.at(last), max(0, before[last] - scheduled), max(0, after[last] - scheduled),
                         after[last] - before[last]])
    return sorted(rows, key=lambda row: (-abs(row[5]), row[0]))


def part_rows(naming: Naming, parts: Sequence[Part]) -> list[list[Any]]:
    """A row for each part, that of the most trains first: how many trains decide together, which they are, on how many choices the part's
    tree branches, its nodes, and what its terms cost at least."""
    rows = []
    for part in parts:
        trains = sorted({naming.train_of[place] for place in places_of(naming.network, part)})
        names = [naming.labels[number] for number in trains[:NAMED]]
        more = [f'and {len(trains) - NAMED} more'] if len(trains) > NAMED else []
        rows.append([len(trains), ', '.join([*names, *more]), len(branches_of(part)), len(part.nodes), cost_words(part.bound)])
    return sorted(rows, key=lambda row: int(row[0]), reverse=True)


def signed(seconds: int) -> str:
    return f'{duration(abs(seconds))} {"later" if seconds > 0 else "earlier"}'


def effect(alone: Alone, plan: Plan | PlanByParts, before: Followed, after: Followed) -> dict[str, Any]:
    """What a plan would change, as the page's table has it."""
    naming, trains = alone.naming, alone.trains
    groups = decisions_together(naming, plan.choices)
    moved = train_rows(naming, trains, before.times, after.times)
    gap = 0 if plan.cost == 0 else 100 * (plan.cost - plan.bound) / plan.cost
    kinds = [type(choice) for choice in plan.choices]
    parts = plan.parts if isinstance(plan, PlanByParts) else ()
    return {
        'entry': plan.entry, 'mark': plan.mark, 'now': cost_words(before.cost), 'cost': cost_words(plan.cost),
        'bound': cost_words(plan.bound), 'gap': f'{gap:.1f} %', 'kept': kinds.count(Keep), 'dropped': kinds.count(Drop),
        'turned': kinds.count(First), 'choices': choice_rows(naming, groups[:MOST], alone.why), 'count': len(groups),
        'later': sum(row[5] > 0 for row in moved), 'earlier': sum(row[5] < 0 for row in moved),
        'trains': [[*row[:3], duration(row[3]), duration(row[4]), signed(row[5])] for row in moved[:MOST]],
        'parts': part_rows(naming, parts)[:MOST], 'partCount': len(parts), 'agrees': after.cost == plan.cost,
    }


class Effect(NamedTuple):
    """What a plan would change: as the page's tables have it, and the times by place."""
    plan: Plan | PlanByParts
    found: dict[str, Any]
    times: list[int]
