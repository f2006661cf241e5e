"""The figures of a study of waiting rules."""
from __future__ import annotations

import argparse
import csv
import io
import os
import shlex
import subprocess
import sys
import tempfile
from collections import defaultdict
from html import escape
from typing import Callable, Iterable, Iterator, Mapping, NamedTuple, Sequence

from dispatch_tools.formats.files import BadFile, write_all
from dispatch_tools.formats.runtext import Run
from dispatch_tools.model.messages import Adopt, AskSolve
from dispatch_tools.model.parts import PlanByParts
from dispatch_tools.pictures.scene import clock_time, read_scene, read_text, rows_of, Scene
from dispatch_tools.words import start_options

WAITS = range(0, 901, 30)
BUDGETS = [64 << doubling for doubling in range(9)]
BUDGET = 4_096
QUARTER = 900

# How many commands are called in all: for the rules, the budgets, and the plans by parts, of which the last is adopted.
CALLS = len(WAITS) + 2 + len(BUDGETS) + 1

# The most bytes of a feed.
FEED = 262_144

# How a line is drawn: thin with its points, wide and pale, or dashed.
POINTS = 'stroke-width="2"'
LEVEL = 'stroke-width="7" stroke-opacity="0.4"'
BOUND = 'stroke-width="2" stroke-dasharray="6 4"'


class Curve(NamedTuple):
    """A line of a picture: its name, its points, and how it is drawn, so that lines over each other can be seen."""
    name: str
    points: list[tuple[int, int]]
    style: str = POINTS


class Figure(NamedTuple):
    """A picture and the rows of its table, the first of which names the columns."""
    svg: str
    rows: Sequence[Iterable[object]]


class Ruled(NamedTuple):
    """What `rules` says: what the rule costs and how many choices it makes, what a plan costs, its bound, and the rule's gap to it."""
    cost: int
    choices: int
    plan_cost: int
    bound: int
    gap: int
    command: str


def progress(text: str) -> None:
    """Tells whoever sits at a terminal how far things are."""
    if sys.stderr.isatty():
        print(text, end='', file=sys.stderr, flush=True)


class Study:
    """The program over a network and a text, and how many of its commands were called."""

    def __init__(self, program: str, net: str, text: str, options: list[str]) -> None:
        self.program, self.net, self.text, self.options = program, net, text, options
        self.called = 0

    def call(self, *words: str) -> tuple[str, str]:
        """A command, and what it prints; BadFile if it ends with another status than 0."""
        command = [self.program, *words, *self.options]
        self.called += 1
        progress(f'\r{self.called} of {CALLS} commands')
        try:
            done = subprocess.run(command, capture_output=True, text=True)
        except OSError as error:
            raise BadFile(self.program, None, error.strerror) from error
        if done.returncode != 0:
            said = (done.stdout.splitlines() or [''])[0]
            raise BadFile(shlex.join(command), None, f'it ends with status {done.returncode}: {said}')
        return shlex.join(command), done.stdout

    def ruled(self, rule: object, budget: int, by_parts: bool = False) -> Ruled:
        """What a rule comes to, and a plan of this budget, by parts or not."""
        command, told = self.call('rules', self.net, self.text, str(rule), str(budget), *(['--solve'] if by_parts else []))
        lines = {words[0]: words for words in map(str.split, told.splitlines())}
        try:
            cost, choices = (int(lines['rule'][place]) for place in (3, 5))
            plan_cost, bound = (int(lines['solved' if by_parts else 'plan'][place]) for place in (3, 5))
            return Ruled(cost, choices, plan_cost, bound, int(lines['gap'][1]), command)
        except (KeyError, IndexError, ValueError) as error:
            raise BadFile(command, None, 'what it prints is no answer to `rules`') from error


# ---- Pictures


class Axes(NamedTuple):
    """Where numbers lie in a picture, which of them are marked, and how they are called."""
    x_of: Callable[[int], int]
    y_of: Callable[[int], int]
    xs: Sequence[int]
    ys: Sequence[int]
    x_name: Callable[[int], str]
    y_name: Callable[[int], str]


WIDTH, HEIGHT, LEFT, TOP, RIGHT, BOTTOM = 760, 420, 90, 50, 190, 60
COLOURS = ('#2f6db3', '#d95f02', '#00735c', '#5b0b3b', '#b8860b')


def ticks(low: int, high: int, most: int = 6) -> list[int]:
    """Round numbers from low to high, at most so many."""
    if high <= low:
        return [low]
    step = 1
    while (high - low) / step > most:
        step = step * 5 // 2 if str(step)[0] == '2' else step * 2
    return [tick for tick in range(-(-low // step) * step, high + 1, step)]


def axes(frame: Axes, title: str, across: str, up: str) -> Iterator[str]:
    x_of, y_of, xs, ys, x_name, y_name = frame
    yield f'<text x="{LEFT}" y="26" class="title">{escape(title)}</text>'
    for tick in ys:
        y = y_of(tick)
        yield f'<path class="grid" d="M{LEFT} {y}H{WIDTH - RIGHT}"/><text x="{LEFT - 8}" y="{y + 4}" text-anchor="end">{y_name(tick)}</text>'
    for tick in xs:
        x = x_of(tick)
        yield f'<text x="{x}" y="{HEIGHT - BOTTOM + 18}" text-anchor="middle">{x_name(tick)}</text>'
    yield f'<path class="axis" d="M{LEFT} {TOP}V{HEIGHT - BOTTOM}H{WIDTH - RIGHT}"/>'
    yield f'<text x="{(LEFT + WIDTH - RIGHT) // 2}" y="{HEIGHT - 16}" text-anchor="middle">{escape(across)}</text>'
    yield f'<text x="18" y="{TOP - 8}">{escape(up)}</text>'


def curve_marks(frame: Axes, curves: Sequence[Curve]) -> list[str]:
    """The lines, the wide ones below the others, and the legend."""
    x_of, y_of = frame[:2]
    marks = []
    for place, curve in enumerate(curves):
        colour = COLOURS[place % len(COLOURS)]
        points = ' '.join(f'{x_of(x)},{y_of(y)}' for x, y in curve.points)
        line = f'<polyline points="{points}" fill="none" stroke="{colour}" {curve.style}/>'
        if curve.style == POINTS:
            line += ''.join(f'<circle cx="{x_of(x)}" cy="{y_of(y)}" r="2.5" fill="{colour}"/>' for x, y in curve.points)
        y = TOP + 12 + 22 * place
        marks.append((curve.style != LEVEL, f'{line}<path d="M{WIDTH - RIGHT + 14} {y}h24" stroke="{colour}" {curve.style}/>'
                      f'<text x="{WIDTH - RIGHT + 44}" y="{y + 4}">{escape(curve.name)}</text>'))
    return [mark for _, mark in sorted(marks)]


def hours(low: int, high: int, most: int = 8) -> list[int]:
    """Full hours from low to high, in seconds, at most so many."""
    step = 3600 * max(1, -(-(high - low) // (3600 * most)))
    return list(range(-(-low // step) * step, high + 1, step))


class Scale(NamedTuple):
    """How numbers are called along an axis, how far they lie, and which of many are marked."""
    name: Callable[[int], str] = str
    at: Callable[[int], float] = float
    ticks: Callable[[int, int], list[int]] = ticks


def picture(title: str, across: str, up: str, curves: Sequence[Curve], x_scale: Scale = Scale(), y_scale: Scale = Scale()) -> str:
    """A picture of curves."""
    x_at = x_scale.at
    xs = [x for curve in curves for x, _ in curve.points]
    ys = [y for curve in curves for _, y in curve.points]
    low, high = min(ys), max(max(ys), min(ys) + 1)
    low = 0 if low < (high - low) * 3 else low - (high - low) // 10
    first, last = x_at(min(xs)), max(x_at(max(xs)), x_at(min(xs)) + 1e-9)
    def x_of(x: int) -> int: return round(LEFT + (x_at(x) - first) / (last - first) * (WIDTH - RIGHT - LEFT))
    def y_of(y: int) -> int: return round(HEIGHT - BOTTOM - (y - low) / (high - low) * (HEIGHT - BOTTOM - TOP))
    marked = sorted(set(xs)) if len(set(xs)) <= 9 else x_scale.ticks(min(xs), max(xs))
    frame = Axes(x_of, y_of, marked, ticks(low, high), x_scale.name, y_scale.name)
    parts = [*axes(frame, title, across, up), *curve_marks(frame, curves)]
    return (f'<svg xmlns="http://www.w3.org/2000/svg" viewBox="0 0 {WIDTH} {HEIGHT}" width="{WIDTH}" height="{HEIGHT}" role="img" '
            f'aria-label="{escape(title)}"><style>text{{font:12px system-ui,sans-serif;fill:#222}}.title{{font-size:15px;font-weight:600}}'
            f'.grid{{stroke:#e4e4e4}}.axis{{stroke:#666;fill:none}}</style><rect width="{WIDTH}" height="{HEIGHT}" fill="#fff"/>'
            + '\n'.join(parts) + '</svg>\n')


def millions(cost: int) -> str:
    return f'{cost / 1e6:g}'


# ---- Figures


def rules_figure(study: Study, best: PlanByParts) -> Figure:
    """The curves of fixed rules beside a plan by parts and its bound."""
    waits = [(wait, study.ruled(wait, BUDGET)) for wait in WAITS]
    never, always = study.ruled('never', BUDGET), study.ruled('always', BUDGET)
    ends = WAITS[0], WAITS[-1]
    def level(cost: int) -> list[tuple[int, int]]: return [(end, cost) for end in ends]
    curves = [
        Curve('wait at most', [(wait, ruled.cost) for wait, ruled in waits]), Curve('never', level(never.cost), LEVEL),
        Curve('always', level(always.cost), LEVEL), Curve('plan by parts', level(best.cost), LEVEL),
        Curve('proved bound', level(best.bound), BOUND),
    ]
    rows: list[Iterable[object]] = [('rule', 'cost', 'choices', 'plan cost', 'plan bound', 'gap', 'bound by parts', 'gap by parts', 'command')]
    rows += [(name, *ruled[:-1], best.bound, ruled.cost - best.bound, ruled.command)
             for name, ruled in [('never', never), *waits, ('always', always)]]
    title = 'Waiting rules against a proved bound'
    return Figure(picture(title, 'seconds that a train waits at most', 'cost (millions)', curves, y_scale=Scale(millions)), rows)


def budgets_figure(study: Study, solved: Mapping[int, PlanByParts]) -> Figure:
    """The curves of cost and bound by the budget of a plan, and of one by parts."""
    plans = [(budget, study.ruled('never', budget)) for budget in BUDGETS]
    curves = [
        Curve('cost', [(budget, ruled.plan_cost) for budget, ruled in plans]),
        Curve('proved bound', [(budget, ruled.bound) for budget, ruled in plans], BOUND),
        Curve('cost by parts', [(budget, plan.cost) for budget, plan in solved.items()]),
        Curve('bound by parts', [(budget, plan.bound) for budget, plan in solved.items()], BOUND),
    ]
    rows: list[Iterable[object]] = [('budget', 'cost', 'bound', 'cost by parts', 'bound by parts', 'command')]
    rows += [(budget, ruled.plan_cost, ruled.bound, solved[budget].cost, solved[budget].bound, ruled.command) for budget, ruled in plans]
    title = 'Plans by their budget'
    return Figure(picture(title, 'budget of nodes', 'cost (millions)', curves, Scale(at=int.bit_length), Scale(millions)), rows)


def feed_of(scene: Scene) -> list[str]:
    """Lines by which a feed brings start rows to those of a scene; what may be refused at first stands twice."""
    network, start, rows = scene.network, scene.start, scene.rows
    lines = []
    for place, event in enumerate(network.events):
        if rows.event_delays[place] != start.event_delays[place]:
            lines.append(f'delay event {event.id} {rows.event_delays[place]}')
    for place, activity in enumerate(network.activities):
        if rows.activity_delays[place] != start.activity_delays[place]:
            lines.append(f'delay activity {activity.id} {rows.activity_delays[place]}')
    lines += [f'drop {activity.id}' for place, activity in enumerate(network.activities) if not rows.kept[place]]
    turned = []
    for pair, was, now in zip(network.pairs, start.first, rows.first):
        if was != now:
            turned.append(f'first {network.events[now].id} {network.events[sum(pair) - now].id}')
    lines += turned * 2
    lines += [f'pass {event.id} {rows.passed[place]}' for place, event in enumerate(network.events) if rows.passed[place] is not None]
    return lines + ([f'now {rows.clock}'] if rows.clock else [])


def quarters(scene: Scene, times: Sequence[int]) -> list[tuple[int, int]]:
    """The mean lateness, in seconds, of the arrivals scheduled in each quarter of an hour."""
    late = defaultdict(list)
    for event, time in zip(scene.network.events, times):
        if event.kind == 'arrival':
            late[event.time // QUARTER * QUARTER].append(max(0, time - event.time))
    return [(quarter, round(sum(times) / len(times))) for quarter, times in sorted(late.items())]


class Adopted(NamedTuple):
    """A run that adopts the last of some plans by parts, these by their budgets, and the command that made it."""
    run: Run
    solved: dict[int, PlanByParts]
    command: str


def adopted(study: Study, scene: Scene, folder: str) -> Adopted:
    """What comes of a feed, left in the folder, that brings back the rows of a scene, asks for plans by parts and adopts the last one.
    BadFile if it does not."""
    lines = '\n'.join([*feed_of(scene), *(f'solve {budget}' for budget in BUDGETS), 'adopt']) + '\n'
    if len(lines) > FEED:
        raise BadFile(study.text, None, f'its rows need {len(lines)} bytes of a feed, which holds {FEED}')
    write_all(folder, {'feed': lines})
    feed = os.path.join(folder, 'feed')
    command, told = study.call('run', study.net, feed)
    with tempfile.TemporaryDirectory() as folder:
        name = os.path.join(folder, 'text')
        with open(name, 'w', encoding='ascii') as file:
            file.write(told)
        run = read_text(name, scene.network)
    before = rows_of(scene.network, scene.start, run._replace(journal=run.journal[:-1]), feed)
    if not run.journal or not isinstance(run.journal[-1].message, Adopt) or vars(before) != vars(scene.rows):
        raise BadFile(study.text, None, 'its rows cannot be brought back one message after the other')
    items = [item for log in run.logs for item in log.items if item.answer is not None and item.answer.kind == 'solved']
    solved = {item.said.budget: item.answer.value for item in items if isinstance(item.said, AskSolve) and item.answer is not None}
    if list(solved) != BUDGETS:
        raise BadFile(command, None, 'it does not answer each `solve` with a plan by parts')
    return Adopted(run, solved, command)


def lateness_figure(scene: Scene, after: Adopted) -> Figure:
    """The curves of lateness before and after a plan by parts is adopted."""
    times = [after.run.times[event.id] for event in scene.network.events]
    before, planned = quarters(scene, scene.times), quarters(scene, times)
    curves = [Curve('before', before), Curve('with the plan', planned)]
    rows: list[Iterable[object]] = [('from', 'before', 'with the plan', 'command')]
    rows += [(quarter, late, then, after.command) for (quarter, late), (_, then) in zip(before, planned)]
    title = 'Lateness of arrivals before and after a plan is adopted'
    return Figure(picture(title, 'time of day', 'seconds late (mean)', curves, Scale(clock_time, ticks=hours)), rows)


def table(rows: Iterable[Iterable[object]]) -> str:
    """Rows as the text of a table."""
    text = io.StringIO()
    csv.writer(text, lineterminator='\n').writerows(rows)
    return text.getvalue()


def make_all(given: argparse.Namespace) -> None:
    scene = read_scene(given.net, given.text, given.event_delays, given.activity_delays, given.cancelled)
    if not any(event.kind == 'arrival' for event in scene.network.events):
        raise BadFile(given.net, None, 'nothing arrives there')
    options = [f'--penalty={scene.run.penalty}', *start_options(given)]
    study = Study(given.dispatcher, given.net, given.text, options)
    after = adopted(study, scene, given.folder)
    figures = {'rules': rules_figure(study, after.solved[BUDGETS[-1]]), 'budgets': budgets_figure(study, after.solved),
               'lateness': lateness_figure(scene, after)}
    write_all(given.folder, {f'{name}.svg': figure.svg for name, figure in figures.items()}
              | {f'{name}.csv': table(figure.rows) for name, figure in figures.items()})
