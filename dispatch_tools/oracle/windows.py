"""What a window is asked, and a second reading of what is answered: its plan, what is given back of it, and what is carried over."""
from __future__ import annotations

from typing import NamedTuple, Optional, Sequence, Union

from dispatch_tools.formats.lines import Text
from dispatch_tools.formats.plan_text import read_decision, read_plan, read_plan_head, read_solved, read_solved_head
from dispatch_tools.model.messages import Decision
from dispatch_tools.model.network import Change, Choice, Network
from dispatch_tools.model.parts import is_true_plan_by_parts, PlanByParts
from dispatch_tools.model.railway import choice_of, cost_of, free_choices, is_cycle, Plan, Rows, times_of, with_decisions
from dispatch_tools.model.true_plans import is_true_plan


class Window(NamedTuple):
    """A question for the plan of a window, one by parts or not, of the rows after `at` entries, or after all where it is None, without
    the choices of the activities that are held; and for those that are kept where others are given back for at most `most` more, if it
    is given."""
    begin: int
    end: int
    budget: int
    at: Optional[int]
    held: tuple[int, ...]
    most: Optional[int]
    by_parts: bool = False

    def words(self) -> list[Union[str, int]]:
        """The words of the command."""
        held, at = ','.join(map(str, self.held)), [] if self.at is None else [f'--at={self.at}']
        options = [*at, *([f'--held={held}'] if held else []), *([] if self.most is None else [f'--minimal={self.most}'])]
        return ['window', 'net', 'text', self.begin, self.end, self.budget, *options, *(['--solve'] if self.by_parts else [])]

    def without_choice(self, network: Network) -> Optional[int]:
        """The first activity that is held but makes no choice, or None."""
        return next((held for held in self.held if choice_named(network, held) is None), None)

    def holds(self, network: Network, choice: Choice) -> bool:
        """Whether a choice's change has its head, or its pair both events, in the window, and it is not held."""
        if choice in [choice_named(network, held) for held in self.held]:
            return False
        if isinstance(choice, Change):
            events = [network.activities[network.activity_place[choice.activity]].head]
        else:
            events = [choice.first, choice.second]
        return all(self.begin <= network.events[network.event_place[event]].time <= self.end for event in events)


def choice_named(network: Network, activity: int) -> Optional[Choice]:
    """The choice of an activity, or None."""
    return network.choice_of_activity(network.activity_place[activity]) if activity in network.activity_place else None


def cost_with(network: Network, penalty: int, rows: Rows, choices: Sequence[Decision]) -> Optional[int]:
    """What rows cost with choices, or None if these make a cycle."""
    decided = with_decisions(network, rows, choices)
    times = times_of(network, decided)
    return None if times is None else cost_of(network, decided, times, penalty)


def read_kept(lines: Sequence[str]) -> Optional[list[tuple[Decision, Optional[int]]]]:
    """The choices in lines `choice DECISION saves S` or `.. needed`, with what each saves, or None."""
    kept: list[tuple[Decision, Optional[int]]] = []
    for line in lines:
        word, *words = line.split()
        worth = None if words[-1] == 'needed' else int(words.pop())
        is_choice = word == 'choice' and words.pop() == ('needed' if worth is None else 'saves')
        decision = read_decision(words) if is_choice else None
        if decision is None:
            return None
        kept.append((decision, worth))
    return kept


def fault_of_minimal(
    network: Network, penalty: int, rows: Rows, plan: Plan | PlanByParts, most: int, lines: Sequence[str],
) -> Optional[str]:
    """What is wrong with the lines of the choices that are kept where others are given back, or None."""
    kept = read_kept(lines[1:])
    if kept is None:
        return 'the lines of choices'
    choices = [choice for choice, _ in kept]
    if choices != [choice for choice in plan.choices if choice in choices]:
        return 'the choices that are kept are not some of the plan'
    cost = cost_with(network, penalty, rows, choices)
    if cost is None or cost > plan.cost + most or lines[0] != f'minimal cost {cost} choices {len(kept)}':
        return f'what the choices that are kept cost, {cost}'
    for choice, worth in kept:
        without = cost_with(network, penalty, rows, [other for other in choices if other != choice])
        saved = None if without is None else without - cost
        if worth != saved or (without is not None and without <= plan.cost + most):
            return f'{choice} can be left out, or saves something else'
    return None


def fault_of_carried(network: Network, penalty: int, rows: Rows, entries: int, choices: Sequence[Decision],
                     lines: list[str]) -> Optional[str]:
    """What is wrong with the lines of a plan that is carried over to rows, or None."""
    free = set(free_choices(network, rows))
    barred = next((choice for choice in choices if choice_of(choice) not in free), None)
    if barred is not None:
        due = [f'rebased {entries} refused not-free {barred}']
        return None if lines == due else f'due {due}'
    kept = [choice for choice in choices if with_decisions(network, rows, [choice]).__dict__ != rows.__dict__]
    decided = with_decisions(network, rows, kept)
    times = times_of(network, decided)
    if times is None:
        words = lines[0].split()
        is_shown = words[:4] == ['rebased', str(entries), 'refused', 'cycle'] and is_cycle(network, decided, tuple(map(int, words[4:])))
        return None if is_shown and len(lines) == 1 else 'the cycle'
    cost = cost_of(network, decided, times, penalty)
    due = [f'rebased {entries} cost {cost} choices {len(kept)}', *(f'choice {choice}' for choice in kept)]
    return None if lines == due else f'due {due}'


def true_plan(network: Network, penalty: int, rows: Rows, entry: int, window: Window, lines: Text) -> Optional[Plan | PlanByParts]:
    """The plan of a window that stands next in lines, or None if it is of another kind or not true."""
    allowed = [choice for choice in free_choices(network, rows) if window.holds(network, choice)]
    words = lines.words()
    if window.by_parts:
        head = read_solved_head(words)
        solved = None if head is None else read_solved(lines, entry, head)
        is_true = solved is not None and is_true_plan_by_parts(network, rows, penalty, window.budget, solved, allowed)
        return solved if is_true else None
    first = read_plan_head(words, 2)
    plan = None if first is None else read_plan(lines, 2, entry, first)
    return plan if plan is not None and is_true_plan(network, rows, penalty, window.budget, plan, allowed) else None


def fault_of_window(network: Network, penalty: int, rows_after: Sequence[Rows], window: Window, text: str) -> Optional[str]:
    """What is wrong with the text of a window, or None, where there are the rows after each number of entries."""
    last = len(rows_after) - 1
    at = last if window.at is None else window.at
    rows, lines = rows_after[at], Text(text.encode())
    if lines.words() != ['window', str(window.begin), str(window.end), 'entry', str(at)]:
        return 'the first line'
    if window.held and lines.words() != ['held', str(len(window.held))]:
        return 'the line of what is held'
    plan = true_plan(network, penalty, rows, at, window, lines)
    if plan is None:
        return 'there is no true plan of its kind'
    rest = text.splitlines()[lines.number:]
    if window.most is not None:
        count = next((place for place, line in enumerate(rest) if line.startswith('rebased')), len(rest))
        fault = fault_of_minimal(network, penalty, rows, plan, window.most, rest[:count]) if count else 'no choices that are kept'
        if fault is not None:
            return fault
        rest = rest[count:]
    if window.at is None:
        return f'more lines {rest}' if rest else None
    return fault_of_carried(network, penalty, rows_after[-1], last, plan.choices, rest)
