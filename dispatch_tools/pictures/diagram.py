"""The time-distance diagram of a line."""
from __future__ import annotations

import sys
from math import ceil
from typing import Callable, Container, Iterable, Iterator, Mapping, NamedTuple, Optional, Sequence

from dispatch_tools.formats.files import BadFile
from dispatch_tools.formats.markup import escaped
from dispatch_tools.model.messages import Decision, Drop, First
from dispatch_tools.model.parts import places_of, PlanByParts
from dispatch_tools.pictures.labels import Box, HIGH, Label, Labels, LARGE, length_of, LONGEST, short
from dispatch_tools.pictures.scene import (
    changes_of, CLASSES, clock_time, Conflict, conflicts_of, counted, distances, duration, lateness_class, lines_of, links_of, Scene, span_of_times,
)
from dispatch_tools.pictures.style import style

# The least room for the names of stops, and the room at the other edges.
LEFT, RIGHT, TOP, BOTTOM = 130, 20, 64, 46

# The stretches of a train on a line, lists of places; trains by number with theirs.
Stretches = list[list[int]]
Trains = list[tuple[int, Stretches]]

# At most so many lines are reported.
MOST_LINES = 12


class Frame(NamedTuple):
    """Where the stops of a line stand, and how time runs across: from `begin` to `end`, `scale` units a second, right of `left`."""
    rows: dict[int, int]
    height: int
    begin: int
    end: int
    scale: float
    left: int

    @property
    def width(self) -> int:
        return round((self.end - self.begin) * self.scale)

    @property
    def right(self) -> int:
        """The right edge of the picture, which has room for a long name."""
        return self.left + max(self.width, LARGE * LONGEST) + RIGHT

    def x(self, time: int) -> int:
        return self.left + round((min(max(time, self.begin), self.end) - self.begin) * self.scale)

    def y(self, stop: int) -> int:
        return self.rows[stop]

    def shows(self, time: int) -> bool:
        return self.begin <= time <= self.end


# ---- The frame


def trains_on(scene: Scene, rows: Container[int]) -> Trains:
    """The trains that run between two stops of the line, each with its stretches there: lists of places."""
    found = []
    for number, train in enumerate(scene.trains):
        stretches, stretch = [], []
        for place in train:
            if scene.stop(place) in rows:
                stretch.append(place)
            else:
                stretches.append(stretch)
                stretch = []
        stretches = [stretch for stretch in stretches + [stretch] if len({scene.stop(place) for place in stretch}) > 1]
        if stretches:
            found.append((number, stretches))
    return found


# The least units of the time that a frame shows.
NARROW = 700


def scale_of(scene: Scene, trains: Trains, begin: int, end: int, least: int) -> float:
    """Units a second: so many that trains which follow each other can be seen apart, within `least` to 9,000 units in all."""
    starts = sorted(scene.scheduled(stretches[0][0]) for _, stretches in trains)
    gaps = sorted(after - before for before, after in zip(starts, starts[1:]) if after > before)
    gap = gaps[len(gaps) // 2] if gaps else 600
    length = max(1, end - begin)
    return min(max(10 / gap, least / length), 9000 / length, 2.0)


class Laid(NamedTuple):
    """What is the same whenever a line is drawn: where its stops stand, how high it is, its trains, and the room for its stops' names."""
    rows: dict[int, int]
    height: int
    trains: Trains
    left: int


def laid(scene: Scene, line: Sequence[int]) -> Laid:
    """How a line lies."""
    shares = distances(scene.network, scene.trains, line)
    height = max(220, min(44 * (len(line) - 1), 900))
    rows = {stop: TOP + round(height * share) for stop, share in zip(line, shares)}
    left = max([LEFT, *(length_of(short(scene.stop_name(stop)), LARGE) + 12 for stop in line)])
    return Laid(rows, height, trains_on(scene, rows), left)


def frame_at(scene: Scene, line: Laid, begin: Optional[int], end: Optional[int], least: int = NARROW) -> Frame:
    """The frame of a line, whose times are those of its trains where none are given."""
    if begin is None or end is None:
        first, last = span_of_times(scene, [place for _, stretches in line.trains for stretch in stretches for place in stretch])
        begin = (first - 60) // 60 * 60 if begin is None else begin
        end = (last + 119) // 60 * 60 if end is None else end
    end = max(end, begin + 60)
    return Frame(line.rows, line.height, begin, end, scale_of(scene, line.trains, begin, end, least), line.left)


def frame_of(scene: Scene, line: Sequence[int], begin: Optional[int], end: Optional[int]) -> tuple[Frame, Trains]:
    """The frame of a line and its trains."""
    found = laid(scene, line)
    return frame_at(scene, found, begin, end), found.trains


# ---- Paths


def path_data(points: Iterable[tuple[int, int]]) -> str:
    """The points of a path, each from the one before it."""
    (x, y), *rest = points
    parts = [f'M{x} {y}']
    for nx, ny in rest:
        parts.append(f'h{nx - x}' if ny == y else f'v{ny - y}' if nx == x else f'l{nx - x} {ny - y}')
        x, y = nx, ny
    return ''.join(parts)


def within(frame: Frame, scene: Scene, stretch: Iterable[int], times: Callable[[int], int]) -> list[list[tuple[int, int, int]]]:
    """The points of a stretch whose times lie in the frame, in runs without a gap."""
    runs, points = [], []
    for place in stretch:
        if frame.shows(times(place)):
            points.append((place, frame.x(times(place)), frame.y(scene.stop(place))))
        else:
            runs.append(points)
            points = []
    return [run for run in runs + [points] if len(run) > 1]


def scheduled_path(frame: Frame, scene: Scene, stretches: Stretches) -> str:
    return ''.join(
        path_data([(x, y) for _, x, y in run])
        for stretch in stretches for run in within(frame, scene, stretch, scene.scheduled)
    )


def class_of_leg(scene: Scene, tail: int, head: int) -> int:
    """The class of lateness of a leg's later end; one behind all of these if an end is cancelled."""
    if scene.rows.cancelled[tail] or scene.rows.cancelled[head]:
        return len(CLASSES)
    return lateness_class(max(scene.lateness(tail), scene.lateness(head)))


def coloured_paths(frame: Frame, scene: Scene, stretches: Stretches) -> list[str]:
    """The data of a train's paths by class of lateness, and behind these of what is cancelled."""
    data = [''] * (len(CLASSES) + 1)
    for stretch in stretches:
        for run in within(frame, scene, stretch, scene.times.__getitem__):
            legs = [class_of_leg(scene, a[0], b[0]) for a, b in zip(run, run[1:])]
            place = 0
            while place < len(legs):
                end = place
                while end < len(legs) and legs[end] == legs[place]:
                    end += 1
                data[legs[place]] += path_data([(x, y) for _, x, y in run[place:end + 1]])
                place = end
    return data


def train_marks(frame: Frame, scene: Scene, trains: Trains, together: Optional[Container[int]] = None) -> Iterator[str]:
    """The paths of all trains, the scheduled ones below; if some decide together, the others are pale."""
    for number, stretches in trains:
        data = scheduled_path(frame, scene, stretches)
        if data:
            yield f'<path class="plan" d="{data}"/>'
    for number, stretches in trains:
        late = max(scene.lateness(place) for stretch in stretches for place in stretch)
        words = [f'at most {duration(late)} late' if late else 'on time']
        gone = [scene.rows.cancelled[place] for place in scene.trains[number]]
        words = ['cancelled'] if all(gone) else [*words, 'in part cancelled'] if any(gone) else words
        title = f'{escaped(scene.train_label(number))}: {", ".join(words)}'
        paths = ''.join(
            f'<path class="run {f"l{kind}" if kind < len(CLASSES) else "gone"}" d="{data}"/>'
            for kind, data in enumerate(coloured_paths(frame, scene, stretches)) if data
        )
        if paths:
            pale = '' if together is None or number in together else ' opacity="0.2"'
            yield f'<g class="train" data-t="{number}"{pale}><title>{title}</title>{paths}</g>'


def points_of(frame: Frame, scene: Scene, stretches: Stretches) -> list[tuple[int, int]]:
    """The points of a train in a frame, as it runs, and then as it is scheduled."""
    places = [place for stretch in stretches for place in stretch]
    timed = [*((scene.times[place], place) for place in places), *((scene.scheduled(place), place) for place in places)]
    return [(frame.x(time), frame.y(scene.stop(place))) for time, place in timed if frame.shows(time)]


def edges_of(frame: Frame) -> Box:
    """Where names of trains may stand: not over the stops, the title or the hours, and not beyond the edge."""
    return Box(frame.left, TOP - HIGH - 3, frame.right, TOP + frame.height + 6)


def train_names(frame: Frame, scene: Scene, trains: Trains, conflicts: Iterable[Conflict]) -> Iterator[str]:
    """The names of all trains that are drawn, each beside its path, from its first stop on the line on, and not over a conflict."""
    labels = Labels(edges_of(frame))
    for conflict in conflicts:
        x, y = at_conflict(frame, scene, conflict)
        labels.take(Box(x - 6, y - 10, x + 6, y))
    drawn_at = {number: points for number, stretches in trains if (points := points_of(frame, scene, stretches))}
    for number, points in sorted(drawn_at.items(), key=lambda one: (one[1][0], one[0])):
        yield written(labels.put(short(scene.train_label(number)), points))


def written(label: Label) -> str:
    anchor = ' text-anchor="end"' if label.is_left else ''
    return f'<text class="small" x="{label.x}"{anchor} y="{label.y}">{escaped(label.text)}</text>'


# ---- Marks


def cross(x: float, y: float) -> str:
    return f'<path class="cross" d="M{x - 4} {y - 4}l8 8m0-8l-8 8"/>'


class Marked(NamedTuple):
    """Where marks may lie on a line: the places of its events, of the changes that begin or end there, and of the pairs there; and
    of each event of these pairs its train, by number, and the activities that lead to it."""
    places: Sequence[int]
    changes: Sequence[int]
    pairs: Sequence[int]
    train_of: Mapping[int, int]
    into: Mapping[int, Sequence[int]]


def marked_on(rows: Container[int], scene: Scene) -> Marked:
    """The events of a line's stops, its changes, and its pairs."""
    network = scene.network
    places = [place for place, event in enumerate(network.events) if event.stop in rows]
    ends = set(places)
    pairs = [pair for pair, events in enumerate(network.pairs) if not ends.isdisjoint(events)]
    into: dict[int, list[int]] = {place: [] for pair in pairs for place in network.pairs[pair]}
    for activity, head in enumerate(network.heads):
        if head in into:
            into[head].append(activity)
    changes = [change for change in changes_of(network) if network.tails[change] in ends or network.heads[change] in ends]
    train_of = {place: number for number, train in enumerate(scene.trains) for place in train if place in into}
    return Marked(places, changes, pairs, train_of, into)


def link_marks(frame: Frame, scene: Scene, changes: Iterable[int]) -> Iterator[str]:
    """The changes that begin or end on the line: links between its trains, and stubs to others."""
    for link in links_of(scene, changes):
        ends = [place for place in (link.tail, link.head) if scene.stop(place) in frame.rows]
        if not ends or not all(frame.shows(scene.times[place]) for place in ends):
            continue
        x, y = frame.x(scene.times[ends[0]]), frame.y(scene.stop(ends[0]))
        if len(ends) == 2:
            to_x, to_y = frame.x(scene.times[ends[1]]), frame.y(scene.stop(ends[1]))
            middle = (x + to_x) / 2, (y + to_y) / 2 - 14
            data, at = f'M{x} {y}Q{middle[0]:g} {middle[1] - 14:g} {to_x} {to_y}', (middle[0], middle[1] + 7)
        else:
            side = 1 if ends[0] == link.tail else -1
            data, at = f'M{x} {y}l{9 * side} {-14 * side}', (x + 9 * side, y - 14 * side)
        mark = '' if link.state == 'kept' else cross(round(at[0]), round(at[1]))
        yield f'<g class="link" data-a="{link.id}"><title>change {link.id}: {link.state}</title><path class="{link.state}" d="{data}"/>{mark}</g>'


def pair_marks(frame: Frame, scene: Scene, pairs: Iterable[int]) -> Iterator[str]:
    """A diamond at each of some pairs whose order was turned, between its two events."""
    turned = [scene.network.pairs[pair] for pair in pairs if scene.start.first[pair] != scene.rows.first[pair]]
    for first, second in turned:
        if scene.stop(first) not in frame.rows or not frame.shows(scene.times[first]):
            continue
        x = (frame.x(scene.times[first]) + frame.x(scene.times[second])) // 2
        y = frame.y(scene.stop(first))
        ids = ' and '.join(str(scene.network.events[place].id) for place in (first, second))
        yield f'<path class="turned" d="M{x} {y - 6}l6 6l-6 6l-6-6z"><title>order of {ids} turned</title></path>'


def shown_conflicts(frame: Frame, scene: Scene, marked: Marked) -> list[Conflict]:
    """The conflicts of a line that lie in a frame."""
    times, events = scene.times, scene.network.pairs
    pairs = [pair for pair in marked.pairs if frame.shows(times[events[pair][0]]) or frame.shows(times[events[pair][1]])]
    found = conflicts_of(scene.network, scene.rows, times, pairs, marked.into)
    return [one for one in found if scene.stop(one.second) in frame.rows and frame.shows(times[one.second])]


def at_conflict(frame: Frame, scene: Scene, conflict: Conflict) -> tuple[int, int]:
    return frame.x(scene.times[conflict.second]), frame.y(scene.stop(conflict.second))


def conflict_marks(frame: Frame, scene: Scene, marked: Marked, conflicts: Iterable[Conflict]) -> Iterator[str]:
    """A triangle where a train waits for another one on its track."""
    for conflict in conflicts:
        x, y = at_conflict(frame, scene, conflict)
        waits, before = (scene.train_label(marked.train_of[place]) for place in (conflict.second, conflict.first))
        words = f'{waits} waits {duration(conflict.wait)} for {before} at {scene.stop_name(scene.stop(conflict.second))}'
        yield f'<path class="conflict" d="M{x} {y}l6-10h-12z"><title>conflict: {escaped(words)}</title></path>'


class Preview(NamedTuple):
    """What a plan would make of the day: the times by place, and its choices with their words."""
    times: Sequence[int]
    choices: Sequence[tuple[Decision, str]]


def preview_marks(frame: Frame, scene: Scene, trains: Trains, preview: Preview) -> Iterator[str]:
    """The trains that a plan moves, as they would run, and its choices."""
    then = scene._replace(times=list(preview.times))
    for number, stretches in trains:
        moved = [part for stretch in stretches if (part := moved_part(stretch, scene.times, then.times))]
        data = ''.join(path_data([(x, y) for _, x, y in run]) for stretch in moved for run in within(frame, then, stretch, then.times.__getitem__))
        if data:
            yield f'<path class="then" data-t="{number}" d="{data}"><title>{escaped(scene.train_label(number))} by the plan</title></path>'
    for choice, words in preview.choices:
        yield from choice_mark(frame, then, choice, words)


def moved_part(stretch: list[int], times: Sequence[int], then: Sequence[int]) -> list[int]:
    """The part of a stretch whose times differ, with what joins it to the rest."""
    moved = [at for at, place in enumerate(stretch) if times[place] != then[place]]
    return stretch[max(0, moved[0] - 1):moved[-1] + 2] if moved else []


def choice_mark(frame: Frame, then: Scene, choice: Decision, words: str) -> Iterator[str]:
    """A ring where a plan decides, with a cross where it drops a change."""
    network = then.network
    place = network.event_place[choice.event] if isinstance(choice, First) else network.heads[network.activity_place[choice.activity]]
    if then.stop(place) not in frame.rows or not frame.shows(then.times[place]):
        return
    x, y = frame.x(then.times[place]), frame.y(then.stop(place))
    mark = cross(x, y) if isinstance(choice, Drop) else ''
    yield f'<g><title>the plan: {escaped(words)}</title><circle class="chosen-then" cx="{x}" cy="{y}" r="7"/>{mark}</g>'


def passed_marks(frame: Frame, scene: Scene, places: Iterable[int]) -> Iterator[str]:
    for place in places:
        time = scene.rows.passed[place]
        if time is not None and frame.shows(time):
            event = scene.network.events[place].id
            yield (f'<circle class="passed" cx="{frame.x(time)}" cy="{frame.y(scene.stop(place))}" r="3">'
                   f'<title>event {event} passed at {clock_time(time, True)}</title></circle>')


def clock_mark(frame: Frame, scene: Scene) -> Iterator[str]:
    clock = scene.rows.clock
    if clock and frame.shows(clock):
        x = frame.x(clock)
        yield f'<line class="now" x1="{x}" x2="{x}" y1="{TOP - 8}" y2="{TOP + frame.height + 8}"/>'
        said = f'clock {clock_time(clock, True)}'
        is_left = x + 4 + length_of(said) > frame.right
        yield written(Label(said, x - 4 if is_left else x + 4, TOP - 16, is_left))


# ---- The page around


def time_steps(frame: Frame) -> tuple[int, int]:
    """The seconds between thin lines and between strong ones: at least 9 and 60 units apart, however long the time is."""
    for thin, strong in ((60, 300), (60, 600), (300, 900), (600, 3600), (1800, 3600), (3600, 7200), (7200, 21600), (21600, 86400)):
        if thin * frame.scale >= 9 and strong * frame.scale >= 60:
            return thin, strong
    days = 86400 * max(1, ceil(9 / (86400 * frame.scale)))
    return days, days * max(1, ceil(60 / (days * frame.scale)))


def grid(frame: Frame, scene: Scene) -> Iterator[str]:
    """The lines of stops and of times with their labels."""
    for stop, y in frame.rows.items():
        yield f'<line class="stop" x1="{frame.left}" x2="{frame.left + frame.width}" y1="{y}" y2="{y}"/>'
        yield f'<text x="{frame.left - 8}" y="{y + 4}" text-anchor="end">{escaped(short(scene.stop_name(stop)))}</text>'
    thin, strong = time_steps(frame)
    for time in range(-(-frame.begin // thin) * thin, frame.end + 1, thin):
        x, kind = frame.x(time), 'hour' if time % strong == 0 else 'ten'
        yield f'<line class="{kind}" x1="{x}" x2="{x}" y1="{TOP}" y2="{TOP + frame.height}"/>'
        if time % strong == 0:
            yield f'<text x="{x}" y="{TOP + frame.height + 18}" text-anchor="middle">{clock_time(time)}</text>'


SAMPLES = [
    ('<path class="plan" d="M0 0h22"/>', 'scheduled'), *((f'<path class="run l{kind}" d="M0 0h22"/>', name) for kind, name in enumerate(CLASSES)),
    ('<path class="gone" d="M0 0h22"/>', 'cancelled'), ('<path class="kept" d="M0 0h22"/>', 'change kept'), (f'<path class="dropped" d="M0 0h22"/>{cross(11, 0)}', 'dropped'),
    (f'<path class="missed" d="M0 0h22"/>{cross(11, 0)}', 'missed'), ('<path class="turned" d="M11-6l6 6l-6 6l-6-6z"/>', 'order turned'),
    ('<circle class="passed" cx="11" cy="0" r="3"/>', 'passed'), ('<line class="now" x1="0" x2="22" y1="0" y2="0"/>', 'clock'),
    ('<path class="conflict" d="M11 5l6-10h-12z"/>', 'conflict: a train waits for another'), ('<path class="then" d="M0 0h22"/>', 'by the plan'),
    ('<circle class="chosen-then" cx="11" cy="0" r="7"/>', 'where the plan decides'),
]


def legend_rows(width: int) -> list[list[tuple[int, str, str]]]:
    """What the marks mean, in rows that are so wide: where each begins, its mark, and its name."""
    rows: list[list[tuple[int, str, str]]] = [[]]
    x = 0
    for mark, name in SAMPLES:
        length = 48 + LARGE * len(name)
        if rows[-1] and x + length > width:
            rows.append([])
            x = 0
        rows[-1].append((x, mark, name))
        x += length
    return rows


def legend(frame: Frame) -> Iterator[str]:
    """What the marks mean."""
    for number, row in enumerate(legend_rows(frame.right - frame.left)):
        y = TOP + frame.height + BOTTOM + 24 * number
        for x, mark, name in row:
            yield f'<g transform="translate({frame.left + x} {y})">{mark}</g><text x="{frame.left + x + 28}" y="{y + 4}">{name}</text>'


def title_of(scene: Scene, line: Sequence[int]) -> str:
    ends = f'{scene.stop_name(line[0])} to {scene.stop_name(line[-1])}'
    return f'{ends}: times after {counted(len(scene.run.journal), "entry", "entries")}'


class Together(NamedTuple):
    """Trains that decide together, by number, and what of a plan they are."""
    trains: set[int]
    name: str


def part_of(scene: Scene, number: int) -> Together:
    """The trains of a part, from 1, of the plan by parts for the most entries, the last where several are for as many; BadFile if there
    is none."""
    plan: Optional[PlanByParts] = None
    for item in (item for log in scene.run.logs for item in log.items):
        if item.answer is not None and item.answer.kind == 'solved' and (plan is None or item.answer.value.entry >= plan.entry):
            plan = item.answer.value
    if plan is None:
        raise BadFile('--part', None, 'the text has no plan by parts')
    if number > len(plan.parts):
        raise BadFile('--part', None, f'the plan of entry {plan.entry} has {counted(len(plan.parts), "part", "parts")}')
    places = places_of(scene.network, plan.parts[number - 1])
    trains = {train for train, events in enumerate(scene.trains) if not places.isdisjoint(events)}
    return Together(trains, f'part {number} of {len(plan.parts)} of the plan of entry {plan.entry}')


def drawing(scene: Scene, line: Sequence[int], begin: Optional[int] = None, end: Optional[int] = None,
            together: Optional[Together] = None) -> Iterator[str]:
    """The SVG of a line, as pieces of text; if trains decide together, all others are pale."""
    frame, trains = frame_of(scene, line, begin, end)
    name = title_of(scene, line) + ('' if together is None else f'; {together.name}')
    yield from drawn(scene, frame, trains, marked_on(frame.rows, scene), name, together)


def drawn(scene: Scene, frame: Frame, trains: Trains, marked: Marked, name: str, together: Optional[Together] = None,
          preview: Optional[Preview] = None) -> Iterator[str]:
    """The SVG of trains in a frame, with the marks on their line and what a plan would change, under a title."""
    strong = None if together is None else together.trains
    height = TOP + frame.height + BOTTOM + 24 * len(legend_rows(frame.right - frame.left))
    title = escaped(name)
    yield (f'<svg xmlns="http://www.w3.org/2000/svg" viewBox="0 0 {frame.right} {height}" width="{frame.right}" height="{height}" role="img" '
           f'aria-label="{title}"><style>{style()}</style><rect class="page" width="{frame.right}" height="{height}"/>')
    yield f'<text class="title" x="{LEFT}" y="26">{title}</text>'
    shown = () if preview is None else preview_marks(frame, scene, trains, preview)
    conflicts = shown_conflicts(frame, scene, marked)
    for part in (grid(frame, scene), train_marks(frame, scene, trains, strong), link_marks(frame, scene, marked.changes), pair_marks(frame, scene, marked.pairs),
                 shown, conflict_marks(frame, scene, marked, conflicts), passed_marks(frame, scene, marked.places), clock_mark(frame, scene),
                 train_names(frame, scene, trains, conflicts), legend(frame)):
        yield '\n'.join(part)
    yield '</svg>'


def chosen_line(scene: Scene, line: Optional[list[int]], together: Optional[Together] = None) -> list[int]:
    """The line asked for, or the busiest one, or that of most of the trains that decide together. Standard error names the others."""
    known = {event.stop for event in scene.network.events}
    if line is not None:
        for stop in line:
            if stop not in known:
                raise BadFile('--line', None, f'no event is at stop {stop}')
        return list(dict.fromkeys(line))
    trains = scene.trains if together is None else [scene.trains[train] for train in sorted(together.trains)]
    lines = lines_of(scene.network, trains, MOST_LINES + 1) or [sorted(known)]
    for other in lines[1:MOST_LINES]:
        print(f'another line: --line={",".join(map(str, other))}', file=sys.stderr)
    if len(lines) > MOST_LINES:
        print('there are more lines', file=sys.stderr)
    return lines[0]
