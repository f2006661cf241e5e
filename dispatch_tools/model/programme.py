"""The choices of rows as a mixed integer programme, after Schöbel's for delay management with headways.

The variable `late_E` is the seconds by which event E is after its schedule. `drop_A` is 1 if change A is dropped. `first_E_F` is
1 if event E of the pair goes first, and 0 if F does. `miss_A` is 1 if a train that has left missed change A. docs/MODEL.md has
the formulas. All numbers are whole. Costs are in thousandths of passenger seconds. The objective counts in a unit that divides
them all: the least objective times the unit is the least cost.

The file is exact: its least solutions are the choices that cost least. It leaves out of the formulas what cannot matter. Each
event has an earliest and a latest time. The earliest is its least time under any choices. Choices that cost at most what the rows
cost now never make it later than the latest. The big constants come from these two times. An event that cannot move is a number,
an activity that always holds has no row, and a choice that is settled is a fixed variable.
"""
from __future__ import annotations

import heapq
import math
from dataclasses import dataclass
from typing import Callable, Iterable, NamedTuple, Optional

from dispatch_tools.model.network import Change, Choice, Network
from dispatch_tools.model.railway import (
    active_activities, charged_activities, cost_charging, floor_of, free_choices, least_times, Rows, span_of,
)
from dispatch_tools.model.true_plans import Problem

# How many events behind one are looked at for what its lateness costs, and how often times are narrowed.
BEHIND = 64
ROUNDS = 4


class Variable(NamedTuple):
    """A variable with its least and most value, whether it is whole, and what one of it costs in units."""
    name: str
    least: int
    most: int
    is_whole: bool
    cost: int


class Constraint(NamedTuple):
    """A sum of numbers times variables that is at least so much."""
    name: str
    terms: list[tuple[int, str]]
    least: int


class Programme(NamedTuple):
    """A programme with its unit in thousandths of passenger seconds, and what no choice changes, in units."""
    variables: list[Variable]
    constraints: list[Constraint]
    unit: int
    constant: int


class Window(NamedTuple):
    """The scheduled times from which and to which choices may be made."""
    start: int
    end: int


def choices_in(network: Network, rows: Rows, window: Optional[Window]) -> list[Choice]:
    """The free choices, or those of them whose change's head, or both events of whose pair, are scheduled in the window."""
    free = free_choices(network, rows)
    if window is None:
        return free

    def ends(choice: Choice) -> list[int]:
        if isinstance(choice, Change):
            return [network.heads[network.activity_place[choice.activity]]]
        return [network.event_place[choice.first], network.event_place[choice.second]]

    return [choice for choice in free if all(window.start <= network.events[end].time <= window.end for end in ends(choice))]


class Way(NamedTuple):
    """A direction of a pair, or a change: its events and how much later the head is at least, where it is held."""
    tail: int
    head: int
    span: int


class Posed(Problem):
    """The problem of the choices in a window: the activities held whatever is chosen, and the ways that choices may hold."""

    def __init__(self, network: Network, rows: Rows, penalty: int, window: Optional[Window] = None) -> None:
        super().__init__(network, rows, penalty, choices_in(network, rows, window))
        self.held = active_activities(network, rows)
        self.charged = charged_activities(network, rows)
        self.changes: dict[int, Way] = {}
        self.pairs: dict[tuple[int, int], tuple[Way, Way]] = {}
        for choice in self.free:
            if isinstance(choice, Change):
                place = network.activity_place[choice.activity]
                self.changes[place] = self.way([place])
                self.held[place] = self.charged[place] = False
            else:
                first, second = network.event_place[choice.first], network.event_place[choice.second]
                ways = [network.headways[ends] for ends in ((first, second), (second, first))]
                self.pairs[first, second] = (self.way(ways[0]), self.way(ways[1]))
                for place in ways[0] + ways[1]:
                    self.held[place] = False

    def way(self, places: list[int]) -> Way:
        span = max(span_of(self.network, self.rows, place) for place in places)
        return Way(self.network.tails[places[0]], self.network.heads[places[0]], span)


# ---- Between which times events lie


@dataclass
class Times:
    """The least and the most time of each event, the arcs that hold whatever is chosen, and the choices that are open or settled."""
    problem: Posed
    low: list[int]
    high: list[int]
    arcs: list[Way]
    changes: dict[int, Way]
    pairs: dict[tuple[int, int], tuple[Way, Way]]
    kept: dict[int, bool]
    first: dict[tuple[int, int], bool]


def times_between(problem: Posed) -> Times:
    """Between which times events lie in choices that cost at most what the rows do."""
    network, rows = problem.network, problem.rows
    low = least_times(network, rows, problem.held)
    assert low is not None, 'what is held whatever is chosen has a cycle'
    arcs = [problem.way([place]) for place, held in enumerate(problem.held) if held]
    times = Times(problem, low, [], arcs, dict(problem.changes), dict(problem.pairs), {}, {})
    for _ in range(ROUNDS):
        times.high = most_times(times)
        if not settle(times):
            break
        times.low = longest_ways(times)
    else:
        times.high = most_times(times)
    return times


def longest_ways(times: Times) -> list[int]:
    """The least times that the arcs allow."""
    low = [floor_of(times.problem.network, times.problem.rows, place) for place in range(len(times.low))]
    for place, ways in topological(len(low), times.arcs):
        for way in ways:
            low[way.head] = max(low[way.head], low[place] + way.span)
    return low


def arcs_by_tail(count: int, arcs: Iterable[Way]) -> list[list[Way]]:
    behind: list[list[Way]] = [[] for _ in range(count)]
    for way in arcs:
        behind[way.tail].append(way)
    return behind


def topological(count: int, arcs: Iterable[Way]) -> Iterable[tuple[int, list[Way]]]:
    """Each event with the arcs out of it, behind all events that have an arc to it."""
    behind = arcs_by_tail(count, arcs)
    waits_for = [0] * count
    for ways in behind:
        for way in ways:
            waits_for[way.head] += 1
    ready = [place for place in range(count) if not waits_for[place]]
    for place in ready:
        yield place, behind[place]
        for way in behind[place]:
            waits_for[way.head] -= 1
            if not waits_for[way.head]:
                ready.append(way.head)


def most_times(times: Times) -> list[int]:
    """A time for each event that no choices reach which cost at most what the rows do.

    Where choices can close cycles, a way through the events of one strong component enters each of them once. And what an event is
    later than in the least times costs at least what the arrivals behind it are then late.
    """
    low = times.low
    may = [*times.arcs, *times.changes.values(), *(way for ways in times.pairs.values() for way in ways)]
    behind = arcs_by_tail(len(low), may)
    component = components(behind)
    caps = caps_by_cost(times)
    high = low[:]
    for members in reversed(component):
        inside = set(members)
        longest = {place: 0 for place in members}
        for tail in members:
            for way in behind[tail]:
                if way.head in inside:
                    longest[way.head] = max(longest[way.head], way.span)
        top = max(high[place] for place in members) + sum(longest.values()) - min(longest.values())
        for place in members:
            high[place] = max(int(min(top, caps(place))), low[place]) if top > low[place] else low[place]
        for tail in members:
            for way in behind[tail]:
                if way.head not in inside:
                    high[way.head] = max(high[way.head], high[tail] + way.span)
    return high


def components(behind: list[list[Way]]) -> list[list[int]]:
    """The strong components of arcs by tail, each behind those that it leads to (Tarjan's algorithm, without recursion)."""
    number: list[int] = [-1] * len(behind)
    reach = [0] * len(behind)
    stack: list[int] = []
    is_open = [False] * len(behind)
    found, count = [], 0
    for root in range(len(behind)):
        if number[root] >= 0:
            continue
        calls = [(root, iter(behind[root]))]
        number[root] = reach[root] = count
        count += 1
        stack.append(root)
        is_open[root] = True
        while calls:
            place, ways = calls[-1]
            way = next(ways, None)
            if way is None:
                calls.pop()
                if calls:
                    reach[calls[-1][0]] = min(reach[calls[-1][0]], reach[place])
                if reach[place] == number[place]:
                    members: list[int] = []
                    while not members or members[-1] != place:
                        members.append(stack.pop())
                        is_open[members[-1]] = False
                    found.append(members)
            elif number[way.head] < 0:
                number[way.head] = reach[way.head] = count
                count += 1
                stack.append(way.head)
                is_open[way.head] = True
                calls.append((way.head, iter(behind[way.head])))
            elif is_open[way.head]:
                reach[place] = min(reach[place], number[way.head])
    return found


def caps_by_cost(times: Times) -> Callable[[int], float]:
    """A function from an event to a time behind which it makes choices cost more than the rows do."""
    problem, low = times.problem, times.low
    network = problem.network
    room = problem.cost - cost_charging(network, problem.rows, low, problem.penalty, problem.charged)
    behind = arcs_by_tail(len(low), times.arcs)

    def cap(place: int) -> float:
        slacks: list[tuple[int, int]] = []
        queue, seen = [(0, place)], set[int]()
        while queue and len(seen) < BEHIND:
            slack, event = heapq.heappop(queue)
            if event in seen:
                continue
            seen.add(event)
            if network.events[event].kind == 'arrival' and network.events[event].weight:
                slacks.append((slack, network.events[event].weight))
            for way in behind[event]:
                heapq.heappush(queue, (slack + low[way.head] - low[event] - way.span, way.head))
        return low[place] + latest(slacks, room)

    return cap


def latest(slacks: list[tuple[int, int]], room: int) -> float:
    """How much later an event may be where each of these weights counts what that is above its slack, and all together at most room."""
    weight, spent, last = 0, 0, 0
    for slack, more in slacks:
        if weight and spent + weight * (slack - last) > room:
            break
        spent += weight * (slack - last)
        weight, last = weight + more, slack
    return last + (room - spent) // weight if weight else math.inf


def settle(times: Times) -> bool:
    """Takes out the choices that the times settle. Whether an arc came to hold whatever is chosen, or a choice was settled."""
    before = len(times.changes) + len(times.pairs)
    for place, way in list(times.changes.items()):
        if is_sure(times, way) or is_out(times, way):
            times.kept[place] = is_sure(times, way)
            del times.changes[place]
    for pair, (way, back) in list(times.pairs.items()):
        if is_sure(times, way) or is_sure(times, back):
            times.first[pair] = is_sure(times, way)
            del times.pairs[pair]
        elif is_out(times, way) or is_out(times, back):
            times.first[pair] = is_out(times, back)
            times.arcs.append(back if is_out(times, way) else way)
            del times.pairs[pair]
    return len(times.changes) + len(times.pairs) < before


def is_sure(times: Times, way: Way) -> bool:
    """Whether the way is met whatever is chosen."""
    return times.high[way.tail] + way.span <= times.low[way.head]


def is_out(times: Times, way: Way) -> bool:
    """Whether no choices that cost at most what the rows do hold the way."""
    return times.low[way.tail] + way.span > times.high[way.head]


# ---- The programme


class Maker:
    """Gathers the variables and constraints of a programme, costs in thousandths of passenger seconds."""

    def __init__(self, times: Times) -> None:
        self.times, self.problem = times, times.problem
        self.network, self.rows = times.problem.network, times.problem.rows
        self.variables: list[Variable] = []
        self.constraints: list[Constraint] = []
        self.constant = 0

    def moves(self, place: int) -> bool:
        return self.times.high[place] > self.times.low[place]

    def event(self, place: int) -> int:
        return self.network.events[place].id

    def add_events(self) -> None:
        for place, event in enumerate(self.network.events):
            cost = event.weight if event.kind == 'arrival' else 0
            if self.rows.cancelled[place]:
                self.constant += self.problem.penalty * cost
                continue
            low, high = self.times.low[place] - event.time, self.times.high[place] - event.time
            if self.moves(place):
                self.variables.append(Variable(f'late_{event.id}', low, high, False, cost))
            else:
                self.constant += cost * max(0, low)

    def hold(self, name: str, way: Way, switch: Optional[tuple[int, str]] = None) -> None:
        """The head is so much later than the tail; with a switch and its constant only where the variable is 1, or 0 (negative)."""
        if is_sure(self.times, way):
            return
        terms, least = [], way.span
        for sign, place in ((1, way.head), (-1, way.tail)):
            if self.moves(place):
                terms.append((sign, f'late_{self.event(place)}'))
                least -= sign * self.network.events[place].time
            else:
                least -= sign * self.times.low[place]
        if switch is not None:
            large = self.times.high[way.tail] + way.span - self.times.low[way.head]
            terms.append((-large * switch[0], switch[1]))
            least -= large if switch[0] > 0 else 0
        self.constraints.append(Constraint(name, terms, least))

    def add_held(self) -> None:
        for place, held in enumerate(self.problem.held):
            if held:
                self.hold(f'{self.network.activities[place].kind}_{self.network.activities[place].id}', self.problem.way([place]))

    def add_changes(self) -> None:
        for place, way in self.problem.changes.items():
            activity = self.network.activities[place]
            kept = self.times.kept.get(place)
            least, most = (0, 1) if kept is None else (1 - kept, 1 - kept)
            self.variables.append(Variable(f'drop_{activity.id}', least, most, True, self.problem.penalty * activity.weight))
            if kept is None:
                self.hold(f'change_{activity.id}', way, (-1, f'drop_{activity.id}'))

    def add_pairs(self) -> None:
        for pair, (way, back) in self.problem.pairs.items():
            first, second = map(self.event, pair)
            known = self.times.first.get(pair)
            least, most = (0, 1) if known is None else (int(known), int(known))
            self.variables.append(Variable(f'first_{first}_{second}', least, most, True, 0))
            if known is None:
                self.hold(f'order_{first}_{second}', way, (1, f'first_{first}_{second}'))
                self.hold(f'order_{second}_{first}', back, (-1, f'first_{first}_{second}'))
            elif not (is_sure(self.times, way) or is_sure(self.times, back)):
                ahead, behind = (first, second) if known else (second, first)
                self.hold(f'order_{ahead}_{behind}', way if known else back)

    def add_misses(self) -> None:
        """What changes cost of which the head has passed, and those that may not be chosen where they are dropped or have a cancelled
        end."""
        for place, activity in enumerate(self.network.activities):
            if activity.kind != 'change' or place in self.problem.changes:
                continue
            way, cost = self.problem.way([place]), self.problem.penalty * activity.weight
            if self.rows.passed[way.head] is None:
                self.constant += cost if self.problem.charged[place] else 0
            elif self.rows.cancelled[way.tail] or is_out(self.times, way):
                self.constant += cost
            elif cost and not is_sure(self.times, way):
                self.variables.append(Variable(f'miss_{activity.id}', 0, 1, True, cost))
                self.hold(f'missed_{activity.id}', way, (-1, f'miss_{activity.id}'))


def programme_of(problem: Posed) -> Programme:
    """The programme of a problem."""
    maker = Maker(times_between(problem))
    maker.add_events()
    maker.add_held()
    maker.add_changes()
    maker.add_pairs()
    maker.add_misses()
    unit = math.gcd(maker.constant, *(variable.cost for variable in maker.variables)) or 1
    variables = [variable._replace(cost=variable.cost // unit) for variable in maker.variables]
    # Some readers of LP files want a row.
    constraints = maker.constraints or [Constraint('one', [(1, 'constant')], 1)]
    return Programme(variables, constraints, unit, maker.constant // unit)


# ---- In print


def comments(programme: Programme) -> list[str]:
    """What a reader of the file has to know."""
    return [
        f'the objective counts in units of {programme.unit} thousandths of passenger seconds',
        f'its constant is {programme.constant}, the cost of the variable `constant`, which is 1',
        f'the least cost is {programme.unit} times the least objective',
    ]


def with_constant(programme: Programme) -> list[Variable]:
    return [Variable('constant', 1, 1, False, programme.constant), *programme.variables]


def mps_text(programme: Programme) -> str:
    """The programme in free MPS form."""
    columns: dict[str, list[tuple[str, int]]] = {}
    for constraint in programme.constraints:
        for number, name in constraint.terms:
            columns.setdefault(name, []).append((constraint.name, number))
    lines = [f'* {line}' for line in comments(programme)]
    lines += ['NAME dispatch FREE', 'ROWS', ' N cost', *(f' G {constraint.name}' for constraint in programme.constraints), 'COLUMNS']
    whole = False
    for variable in with_constant(programme):
        if variable.is_whole != whole:
            whole = variable.is_whole
            lines.append(f" MARKER 'MARKER' '{'INTORG' if whole else 'INTEND'}'")
        lines.append(f' {variable.name} cost {variable.cost}')
        lines += [f' {variable.name} {row} {number}' for row, number in columns.get(variable.name, [])]
    lines += [" MARKER 'MARKER' 'INTEND'"] if whole else []
    lines += ['RHS', *(f' rhs {constraint.name} {constraint.least}' for constraint in programme.constraints if constraint.least)]
    lines.append('BOUNDS')
    for variable in with_constant(programme):
        if variable.least == variable.most:
            lines.append(f' FX bound {variable.name} {variable.least}')
        elif variable.is_whole:
            lines.append(f' BV bound {variable.name}')
        else:
            lines += [f' LO bound {variable.name} {variable.least}', f' UP bound {variable.name} {variable.most}']
    return '\n'.join([*lines, 'ENDATA']) + '\n'


def lp_sum(terms: list[tuple[int, str]]) -> str:
    return ' '.join(f'{"-" if number < 0 else "+"} {abs(number)} {name}' for number, name in terms)


def lp_text(programme: Programme) -> str:
    """The programme in LP form."""
    variables = with_constant(programme)
    lines = [f'\\ {line}' for line in comments(programme)]
    lines += ['Minimize', ' cost:', *(f'  + {variable.cost} {variable.name}' for variable in variables), 'Subject To']
    lines += [f' {constraint.name}: {lp_sum(constraint.terms)} >= {constraint.least}' for constraint in programme.constraints]
    lines.append('Bounds')
    lines += [
        f' {variable.name} = {variable.least}' if variable.least == variable.most else
        f' {variable.least} <= {variable.name} <= {variable.most}' for variable in variables
    ]
    whole = [variable.name for variable in variables if variable.is_whole]
    return '\n'.join([*lines, *(['Generals', *(f' {name}' for name in whole)] if whole else []), 'End']) + '\n'
