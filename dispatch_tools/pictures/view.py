"""One page of a run for a browser."""
from __future__ import annotations

import os
from collections import Counter
from dataclasses import dataclass
from typing import Any, Iterable, Mapping, Optional, Sequence

from dispatch_tools.formats.markup import escaped, in_script, policy
from dispatch_tools.formats.runtext import Answer, Item, PLANNED
from dispatch_tools.model.messages import Inner, Node, PartNode
from dispatch_tools.model.network import Choice
from dispatch_tools.model.parts import branches_of, Part, places_of, PlanByParts
from dispatch_tools.model.railway import Plan, ways_of
from dispatch_tools.pictures.diagram import drawing, trains_on
from dispatch_tools.pictures.scene import cancelled_cost, clock_time, cost_parts, counted, lateness_class, lines_of, Scene
from dispatch_tools.pictures.style import style

# At most so many lines are drawn, nodes of trees shown, and items of a log listed, of longer ones as plain text, which is shorter.
MOST_LINES = 8
MOST_NODES = 2_000
MOST_ITEMS = 20_000
MOST_ROWS = 2_000

# At most so many parts of a plan are shown, and trains of a part named.
MOST_PARTS = 200
MOST_NAMED = 20

# Browsers nest lists no deeper.
MOST_DEPTH = 150


# ---- Words for people


def cost_words(cost: int) -> str:
    """A cost in passenger minutes."""
    return f'{cost / 60_000:,.1f} passenger minutes'


def answer_words(answer: Answer) -> str:
    """An answer as it is printed; of a plan the beginning of its first line."""
    if answer.kind in PLANNED:
        plan = answer.value
        return f'{answer.entry} {answer.kind} {plan.mark} cost {plan.cost} bound {plan.bound}'
    parts = [answer.entry, answer.kind, answer.value]
    return ' '.join(str(part) for part in parts if part is not None)


# ---- Parts of the page


def cost_part(scene: Scene) -> str:
    parts = cost_parts(scene)
    rows = [('Late arrivals', parts.lateness), ('Dropped changes', parts.dropped), ('Missed changes', parts.missed)]
    gone = cancelled_cost(scene)
    rows += [*([('Cancelled arrivals', gone)] if gone else []), ('Cost', scene.run.cost)]
    cells = ''.join(f'<tr><th scope="row">{name}</th><td>{cost_words(cost)}</td><td>{cost:,}</td></tr>' for name, cost in rows)
    return (f'<table><caption>Cost after all entries, at a penalty of {scene.run.penalty} s for each passenger who misses a change'
            f'</caption><tbody>{cells}</tbody></table><p class="note">On the right in thousandths of passenger seconds.</p>')


def item_words(item: Item) -> tuple[str, str]:
    """What an item of a log says, and what was answered."""
    return 'malformed' if item.said is None else str(item.said), '' if item.answer is None else answer_words(item.answer)


def log_rows(items: Sequence[Item]) -> str:
    """Items of a log as a table."""
    rows = []
    for item in items:
        said, answer = map(escaped, item_words(item))
        kind = ' class="no"' if item.answer is None or item.answer.kind in ('refused', 'range', 'plans', 'noplan') else ''
        rows.append(f'<tr{kind}><td>{item.line}</td><td>{said}</td><td>{answer}</td></tr>')
    heading = ''.join(f'<th scope="col">{name}</th>' for name in ('Line', 'Said', 'Answered'))
    table = f'<table><thead><tr>{heading}</tr></thead><tbody>{"".join(rows)}</tbody></table>'
    return f'<div class="scroll" tabindex="0" role="region" aria-label="Lines and answers">{table}</div>'


def log_lines(items: Sequence[Item]) -> str:
    """Items of a log as lines."""
    lines = [f'{item.line} {" -> ".join(filter(None, item_words(item)))}' for item in items]
    return f'<pre class="scroll" tabindex="0">{escaped(chr(10).join(lines))}</pre>'


def journal_part(scene: Scene) -> str:
    """A table of each feed's lines with their replies."""
    tables = []
    for number, log in enumerate(scene.run.logs, 1):
        listed = log.items[:MOST_ITEMS]
        left = len(log.items) - MOST_ITEMS
        more = f'<p class="note">{left} further lines are left out.</p>' if left > 0 else ''
        tables.append(f'<details{" open" if number == 1 else ""}><summary>Feed {number}: {len(log.items)} lines, {log.stop}</summary>'
                      f'{log_rows(listed) if len(listed) <= MOST_ROWS else log_lines(listed)}{more}</details>')
    return ''.join(tables)


def depths_of(nodes: Sequence[Node | PartNode]) -> list[int]:
    """How many nodes lie above each node of a tree in preorder."""
    depths, waiting = [], [0]
    for node in nodes:
        depths.append(waiting.pop())
        if isinstance(node, Inner):
            waiting += [depths[-1] + 1] * 2
    return depths


@dataclass(frozen=True)
class Cut:
    """A node that branches on a choice, and how many nodes below it are left out."""

    choice: Choice
    below: int


def upper_part(nodes: Sequence[Node | PartNode], most: int) -> list[Node | PartNode | Cut]:
    """The nodes of a tree, in preorder, down to the depth to which there are at most so many."""
    depths = depths_of(nodes)
    counts, depth, whole = Counter(depths), 0, 1
    while depth < MOST_DEPTH and depth + 1 in counts and whole + counts[depth + 1] <= most:
        depth += 1
        whole += counts[depth]
    shown: list[Node | PartNode | Cut] = []
    for node, at in zip(nodes, depths):
        last = shown[-1] if shown else None
        if at > depth and isinstance(last, Cut):
            shown[-1] = Cut(last.choice, last.below + 1)
        elif at == depth and isinstance(node, Inner):
            shown.append(Cut(node.choice, 0))
        else:
            shown.append(node)
    return shown


def node_words(node: Node | PartNode | Cut) -> str:
    if not isinstance(node, (Inner, Cut)):
        return str(node)
    words = f'branches on {node.choice}'
    return f'{words}, {node.below:,} nodes below' if isinstance(node, Cut) else words


def ways(choice: Choice) -> tuple[str, str]:
    """The words of the two decisions of a choice."""
    first, second = ways_of(choice)
    return str(first), str(second)


def tree_part(nodes: Sequence[Node | PartNode | Cut]) -> str:
    """The tree as lists that fold, from its nodes in preorder; `waiting` has the ways to come, and None where a list ends."""
    out = ['<ul class="tree">']
    waiting: list[Optional[str]] = ['']
    for node in nodes:
        while waiting[-1] is None:
            waiting.pop()
            out.append('</ul></details></li>')
        way = waiting.pop()
        said = f'<b>{way}</b>: ' if way else ''
        if isinstance(node, Inner):
            out.append(f'<li><details open=""><summary>{said}{node_words(node)}</summary><ul>')
            waiting += [None, *reversed(ways(node.choice))]
        else:
            out.append(f'<li>{said}<span>{node_words(node)}</span></li>')
    return ''.join([*out, '</ul></details></li>' * len(waiting), '</ul>'])


def is_tree(nodes: Sequence[Node | PartNode]) -> bool:
    """Whether nodes in preorder are one whole tree."""
    waiting = 1
    for node in nodes:
        if not waiting:
            return False
        waiting += 1 if isinstance(node, Inner) else -1
    return not waiting


def whole_tree(nodes: Sequence[Node | PartNode], most: int) -> str:
    """A tree, of which at most so many nodes are shown."""
    if not is_tree(nodes):
        return '<p class="note">These nodes are no whole tree.</p>'
    shown = upper_part(nodes, most)
    left = f'<p class="note">The {len(shown):,} nodes nearest to the root are shown.</p>' if len(shown) < len(nodes) else ''
    return f'{left}{tree_part(shown)}'


def part_of_plan(scene: Scene, train_of: Mapping[int, int], number: int, part: Part, most: int) -> str:
    """A part of a plan: the trains that decide together, and its tree, of which at most so many nodes are shown."""
    trains = sorted({train_of[place] for place in places_of(scene.network, part)})
    names = ', '.join(escaped(scene.train_label(train)) for train in trains[:MOST_NAMED])
    more = f' and {len(trains) - MOST_NAMED} more' if len(trains) > MOST_NAMED else ''
    arrivals, changes = part.share
    terms = f'{counted(len(arrivals), "arrival", "arrivals")} and {counted(len(changes), "change", "changes")}'
    return (f'<details><summary>Part {number}: {counted(len(trains), "train", "trains")}, '
            f'{counted(len(branches_of(part)), "choice", "choices")}, {counted(len(part.nodes), "node", "nodes")}; {terms} cost '
            f'{cost_words(part.bound)} or more</summary><p>{names}{more}</p>{whole_tree(part.nodes, most)}</details>')


def parts_of_plan(scene: Scene, plan: PlanByParts, most: int) -> str:
    """The parts of a plan, of whose trees at most so many nodes are shown."""
    train_of = {place: number for number, train in enumerate(scene.trains) for place in train}
    shown = plan.parts[:MOST_PARTS]
    each = most // max(1, len(shown))
    parts = ''.join(part_of_plan(scene, train_of, number, part, each) for number, part in enumerate(shown, 1))
    left = len(plan.parts) - len(shown)
    more = f'<p class="note">{counted(left, "further part is", "further parts are")} left out.</p>' if left else ''
    return (f'<h4>{counted(len(plan.parts), "part", "parts")}, each of trains that decide together</h4>{parts}{more}'
            f'<p class="note">All else costs {cost_words(plan.rest)} or more.</p>')


def plan_part(scene: Scene, feed: int, line: int, plan: Plan | PlanByParts, most: int) -> str:
    """A plan with its choices and its tree or its parts, of which at most so many nodes are shown."""
    choices = ''.join(f'<li>{choice}</li>' for choice in plan.choices) or '<li>none: the rows are as good as any</li>'
    gap = 0 if plan.cost == 0 else 100 * (plan.cost - plan.bound) / plan.cost
    if isinstance(plan, PlanByParts):
        proof = parts_of_plan(scene, plan, most)
    else:
        nodes = plan.nodes or []
        proof = f'<h4>Tree of {counted(len(nodes), "node", "nodes")}</h4>{whole_tree(nodes, most)}'
    return (f'<details><summary>Feed {feed}, line {line}, entry {plan.entry}: {plan.mark}, cost {cost_words(plan.cost)}, '
            f'proved bound {cost_words(plan.bound)} (gap {gap:.2f} %)</summary><h4>Choices</h4><ul class="choices">{choices}</ul>'
            f'{proof}</details>')


def plans_part(scene: Scene) -> str:
    plans = [
        (feed, item.line, item.answer.value)
        for feed, log in enumerate(scene.run.logs, 1) for item in log.items if item.answer is not None and item.answer.kind in PLANNED
    ]
    most = MOST_NODES // max(1, len(plans))
    return ''.join(plan_part(scene, feed, line, plan, most) for feed, line, plan in plans) or '<p>No plan was asked for.</p>'


def lines_part(scene: Scene) -> tuple[str, str, str]:
    """The choice between the lines, the drawing of each, of which one is shown, and what is to be said of those left out."""
    found = lines_of(scene.network, scene.trains, MOST_LINES + 1) or [sorted({event.stop for event in scene.network.events})]
    lines = [line for line in found[:MOST_LINES] if line]
    names = [f'{scene.stop_name(line[0])} – {scene.stop_name(line[-1])}' for line in lines]
    options = ''.join(f'<option value="{place}">{escaped(name)}</option>' for place, name in enumerate(names))
    drawings = ''.join(
        f'<div class="line" id="line{place}"{"" if place == 0 else " hidden"}>{"".join(drawing(scene, line))}</div>'
        for place, line in enumerate(lines)
    )
    choice = f'<label>Line <select id="lines">{options}</select></label>'
    return choice, drawings, lines_note(scene, lines, len(found) > MOST_LINES)


def lines_note(scene: Scene, lines: Iterable[list[int]], has_more: bool) -> str:
    """What the lines that are drawn leave out."""
    drawn = {number for line in lines for number, _ in trains_on(scene, set(line))}
    missing = len(scene.trains) - len(drawn)
    said = f'These are the {MOST_LINES} busiest lines; there are more. ' if has_more else ''
    if missing:
        said += f'{missing} of {len(scene.trains)} trains run on no line that is drawn; they are found as the others.'
    return f'<p class="note">{said.strip()}</p>' if said else ''


def differences(numbers: Sequence[int]) -> list[int]:
    return [after - before for before, after in zip([0, *numbers], numbers)]


def data_of(scene: Scene) -> dict[str, Any]:
    """What the page's script looks up: events in order of ids, and trains by places, both as differences to the one before."""
    events = scene.network.events
    return {
        'ids': differences([event.id for event in events]), 'times': differences([event.time for event in events]),
        'late': [now - event.time for event, now in zip(events, scene.times)], 'stops': differences([event.stop for event in events]),
        'arrivals': ''.join(str(int(event.kind == 'arrival')) for event in events),
        'passed': [place for place, time in enumerate(scene.rows.passed) if time is not None],
        'gone': [place for place, is_cancelled in enumerate(scene.rows.cancelled) if is_cancelled],
        'trains': [differences(train) for train in scene.trains], 'names': scene.names,
        'labels': [scene.train_label(place) for place in range(len(scene.trains))] if scene.labels else [],
        'trips': [scene.trips.get(scene.first_event(place), '') for place in range(len(scene.trains))] if scene.trips else [],
    }


def page(scene: Scene) -> str:
    """The whole page."""
    here = os.path.dirname(os.path.abspath(__file__))
    with open(os.path.join(here, 'view.css'), encoding='utf-8') as css, open(os.path.join(here, 'view.js'), encoding='utf-8') as js:
        look, script = css.read(), js.read()
    choice, drawings, note = lines_part(scene)
    late = sum(lateness_class(scene.lateness(place)) > 0 for place in range(len(scene.times)))
    clock = f', clock {clock_time(scene.rows.clock, True)}' if scene.rows.clock else ''
    return f'''<!doctype html>
<html lang="en"><head><meta charset="utf-8">
<meta http-equiv="Content-Security-Policy" content="{policy([script], [look, style()])}"><meta name="viewport" content="width=device-width,initial-scale=1">
<title>A day of {len(scene.trains)} trains</title><style>{look}</style></head><body>
<header><h1>A day of {len(scene.trains)} trains</h1>
<p>{counted(len(scene.run.journal), "entry", "entries")} from {counted(len(scene.run.logs), "feed", "feeds")}; {late} of {len(scene.times)} events a minute late or more{clock}.</p>
<form id="find" role="search"><label for="wanted">Find a train, a trip, an event or a stop</label>
<input id="wanted" type="search" autocomplete="off" placeholder="train 1, event 5, a trip, a name of a stop"><button>Find</button></form>
<p id="found" role="status" aria-live="polite"></p></header>
<main><section aria-labelledby="h-diagram"><h2 id="h-diagram">Diagram</h2>
<div class="tools">{choice}<button type="button" data-zoom="in" aria-label="Zoom in">+</button>
<button type="button" data-zoom="out" aria-label="Zoom out">−</button><button type="button" data-zoom="all">All</button>
<span class="note" id="keys">Ctrl and wheel or + and − to zoom, drag or arrow keys to move, 0 for all, N and P for the next train and the one before.</span></div>
<div id="view" tabindex="0" role="application" aria-label="Time-distance diagram" aria-describedby="keys">{drawings}</div>
<p id="marked" class="note"></p>{note}</section>
<section aria-labelledby="h-train"><h2 id="h-train">Train</h2><label>Train <select id="trains"></select></label>
<div id="run" class="scroll" tabindex="0" role="region" aria-labelledby="h-train"></div></section>
<section aria-labelledby="h-board"><h2 id="h-board">Board</h2><label>Stop <select id="stops"></select></label>
<div id="board" class="scroll" tabindex="0" role="region" aria-labelledby="h-board"></div></section>
<section aria-labelledby="h-cost"><h2 id="h-cost">Cost</h2>{cost_part(scene)}</section>
<section aria-labelledby="h-plans"><h2 id="h-plans">Plans</h2>{plans_part(scene)}</section>
<section aria-labelledby="h-journal"><h2 id="h-journal">Journal</h2>{journal_part(scene)}</section></main>
<script type="application/json" id="day">{in_script(data_of(scene))}</script>
<script>{script}</script></body></html>'''
