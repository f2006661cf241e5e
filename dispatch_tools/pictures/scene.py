"""What a picture of a day shows: the trains of a network, the lines on which they run, and what a run's text says of each event.

A train is a list of events by place. A drive or a wait leads from each to the next. A line is a list of stops. Its stations lie
as far apart as the trains are scheduled to drive between them. Times are in seconds.
"""
from __future__ import annotations

from collections import Counter, defaultdict
from typing import Iterable, Mapping, NamedTuple, Optional, Sequence

from dispatch_tools.formats.files import BadFile, text_of
from dispatch_tools.formats.giv import read_network, start_rows
from dispatch_tools.formats.names import read_labels, read_stops, read_trips
from dispatch_tools.formats.lines import Bad
from dispatch_tools.formats.runtext import read_run, Run
from dispatch_tools.model.network import Network
from dispatch_tools.model.railway import apply, cost_of, floor_of, is_active, is_missed, refusal_at_once, Rows, span_of

# The largest lateness of each class but the last, in seconds, and how the classes are called.
LATENESS = (60, 180, 360, 900)
CLASSES = ('on time', '1 to 3 min', '3 to 6 min', '6 to 15 min', 'above 15 min')

# So many stops at most are drawn as one line.
FEW_STOPS = 6


class Scene(NamedTuple):
    """A network, a run of it, and the rows and times (by place) after the run's entries."""
    network: Network
    run: Run
    start: Rows
    rows: Rows
    times: list[int]
    trains: list[list[int]]
    names: dict[int, str]
    labels: dict[int, str]
    trips: dict[int, str]

    def stop(self, place: int) -> int:
        return self.network.events[place].stop

    def scheduled(self, place: int) -> int:
        return self.network.events[place].time

    def lateness(self, place: int) -> int:
        return 0 if self.rows.cancelled[place] else max(0, self.times[place] - self.scheduled(place))

    def stop_name(self, stop: int) -> str:
        return self.names.get(stop) or f'Stop {stop}'

    def first_event(self, train: int) -> int:
        """The id of a train's first event."""
        return self.network.events[self.trains[train][0]].id

    def train_label(self, train: int) -> str:
        first = self.first_event(train)
        return self.labels.get(first) or f'Train {first}'


def lateness_class(seconds: int) -> int:
    """The place of the class of a lateness."""
    return sum(seconds >= largest for largest in LATENESS)


# ---- Reading

# Above all times of a run: passed times and clocks are at most 2 * 10^9, and 100,000 activities take at most 2 * 10^6 each.
LATEST = 10 ** 12


def read_text(name: str, network: Network) -> Run:
    """The run over a network that a file has."""
    try:
        return read_run(text_of(name).encode('latin-1'), len(network.events))
    except Bad as bad:
        line, kind = bad.args
        what = 'the text ends before this line does' if kind == 'truncated' else 'this is not the line of a run that stands here'
        raise BadFile(name, line, what) from bad


def rows_of(network: Network, start: Rows, run: Run, name: str) -> Rows:
    """The rows after all entries of a run; BadFile if an entry names what the network has not."""
    rows = start.copy()
    for number, entry in enumerate(run.journal, 1):
        if refusal_at_once(network, rows, entry.message) is not None:
            raise BadFile(name, 4 + number, 'this entry is refused: the text is of another network')
        apply(network, rows, entry.message)
    return rows


def read_scene(folder: str, text: str, event_delays: Optional[str] = None, activity_delays: Optional[str] = None,
               cancelled: Optional[str] = None) -> Scene:
    """The scene of a network's folder and a run's text; BadFile if they are none or do not fit."""
    network = read_network(folder)
    start = start_rows(network, folder, event_delays, activity_delays, cancelled)
    run = read_text(text, network)
    rows = rows_of(network, start, run, text)
    if any(event.id not in run.times for event in network.events):
        raise BadFile(text, None, 'its times are those of another network')
    times = [run.times[event.id] for event in network.events]
    if max(times, default=0) > LATEST:
        raise BadFile(text, None, f'one of its times is {max(times)}, and no time of a run is above {LATEST}')
    names = read_stops(folder), read_labels(folder), read_trips(folder)
    return Scene(network, run, start, rows, times, trains_of(network), *names)


# ---- Trains and lines


def trains_of(network: Network) -> list[list[int]]:
    """The trains, each a list of the places of its events, by the time and id of their first event."""
    after, led = {}, set()
    for place, activity in enumerate(network.activities):
        tail, head = network.tails[place], network.heads[place]
        if activity.kind in ('drive', 'wait') and tail not in after and head not in led:
            after[tail] = head
            led.add(head)
    firsts = [place for place in range(len(network.events)) if place not in led]
    firsts.sort(key=lambda place: (network.events[place].time, place))
    trains = []
    for place in firsts:
        train = [place]
        while train[-1] in after:
            train.append(after[train[-1]])
        trains.append(train)
    return trains


def path_of(network: Network, train: Iterable[int]) -> tuple[int, ...]:
    """The stops of a train in order, each once where it waits."""
    path: list[int] = []
    for place in train:
        stop = network.events[place].stop
        if not path or path[-1] != stop:
            path.append(stop)
    return tuple(path)


def edges_of(path: Sequence[int]) -> list[frozenset[int]]:
    return [frozenset(edge) for edge in zip(path, path[1:])]


def lines_of(network: Network, trains: Iterable[list[int]], most: int) -> list[list[int]]:
    """The lines that the trains run on, the busiest first: the path whose stretches most trains run over, then of those left.

    The stops of a network that has few are one line.
    """
    paths = Counter(path for path in (path_of(network, train) for train in trains) if len(path) > 1)
    load: Counter[frozenset[int]] = Counter()
    for path, count in paths.items():
        for edge in edges_of(path):
            load[edge] += count
    if len({stop for path in paths for stop in path}) <= FEW_STOPS:
        return [list(dict.fromkeys(stop for path in sorted(paths, key=lambda path: (-len(path), path)) for stop in path))] if paths else []
    lines: list[list[int]] = []
    while load and len(lines) < most:
        best = max(paths, key=lambda path: (sum(load[edge] for edge in set(edges_of(path))), paths[path], path))
        covered = [edge for edge in edges_of(best) if load[edge]]
        if not covered:
            break
        lines.append(list(dict.fromkeys(best)))
        for edge in covered:
            del load[edge]
    return lines


def distances(network: Network, trains: Iterable[list[int]], line: Sequence[int]) -> list[float]:
    """How far each stop of a line lies from its first, as the shares of the median scheduled drives; the last lies at 1."""
    place_of = {stop: place for place, stop in enumerate(line)}
    drives = defaultdict(list)
    for train in trains:
        for tail, head in zip(train, train[1:]):
            ends = [place_of[stop] for place in (tail, head) if (stop := network.events[place].stop) in place_of]
            if len(ends) == 2 and abs(ends[0] - ends[1]) == 1:
                drives[min(ends)].append(abs(network.events[head].time - network.events[tail].time))
    lengths = []
    for place in range(len(line) - 1):
        known = sorted(drives[place])
        lengths.append(max(60, known[len(known) // 2]) if known else 60)
    least = max(lengths, default=1) / 4
    whole = [0.0]
    for length in lengths:
        whole.append(whole[-1] + max(length, least))
    return [at / whole[-1] if whole[-1] else 0.0 for at in whole]


# ---- Changes, pairs and the cost


class Link(NamedTuple):
    """A change between trains: the places of its ends, its id, and whether it is kept, dropped (or of a cancelled train) or missed."""
    tail: int
    head: int
    id: int
    state: str


def changes_of(network: Network) -> list[int]:
    """The places of a network's changes."""
    return [place for place, activity in enumerate(network.activities) if activity.kind == 'change']


def links_of(scene: Scene, changes: Optional[Iterable[int]] = None) -> list[Link]:
    """The changes of a scene, or some of them by place."""
    network, rows = scene.network, scene.rows
    links = []
    for place in changes_of(network) if changes is None else changes:
        activity = network.activities[place]
        has_cancelled = rows.cancelled[network.tails[place]] or rows.cancelled[network.heads[place]]
        state = 'kept' if rows.kept[place] and not has_cancelled else 'dropped'
        if rows.passed[network.heads[place]] is not None:
            state = 'missed' if is_missed(network, rows, scene.times, place) else 'kept'
        links.append(Link(network.tails[place], network.heads[place], activity.id, state))
    return links


def turned_pairs(scene: Scene) -> list[tuple[int, int]]:
    """The pairs, by the places of their events, of which another event is first than at the start."""
    return [pair for pair, was, now in zip(scene.network.pairs, scene.start.first, scene.rows.first) if was != now]


class Conflict(NamedTuple):
    """A train that waits for another one on its track: the places of the event that goes first and of the one that waits, and for how
    many seconds."""
    first: int
    second: int
    wait: int


# A train that waits so many seconds for another is a conflict.
CONFLICT = 60


def conflicts_of(network: Network, rows: Rows, times: Sequence[int], pairs: Iterable[int], into: Mapping[int, Sequence[int]]) -> list[Conflict]:
    """The conflicts among some pairs, by place; `into` has the activities that lead to each of their events."""
    found = []
    for pair in pairs:
        ends, first = network.pairs[pair], rows.first[pair]
        second = ends[0] if ends[1] == first else ends[1]
        if rows.passed[second] is not None or rows.cancelled[second] or times[second] <= network.events[second].time:
            continue
        asked = {activity: times[network.tails[activity]] + span_of(network, rows, activity) for activity in into[second] if is_active(network, rows, activity)}
        others = [time for activity, time in asked.items() if network.pair_by_activity[activity] != pair]
        wait = times[second] - max([floor_of(network, rows, second), *others])
        if wait >= CONFLICT:
            found.append(Conflict(first, second, wait))
    return found


class CostParts(NamedTuple):
    """What a timetable costs, in thousandths of passenger seconds, beside cancelled arrivals: by late arrivals, dropped changes and missed
    ones."""
    lateness: int
    dropped: int
    missed: int


def cost_parts(scene: Scene) -> CostParts:
    network = scene.network
    late = sum(event.weight * scene.lateness(place) for place, event in enumerate(network.events) if event.kind == 'arrival')
    weights: Counter[str] = Counter()
    for link in links_of(scene):
        weights[link.state] += network.activities[network.activity_place[link.id]].weight
    return CostParts(late, scene.run.penalty * weights['dropped'], scene.run.penalty * weights['missed'])


def cancelled_cost(scene: Scene) -> int:
    """What cancelled arrivals cost, in thousandths of passenger seconds."""
    events = zip(scene.network.events, scene.rows.cancelled)
    return scene.run.penalty * sum(event.weight for event, is_cancelled in events if is_cancelled and event.kind == 'arrival')


def span_of_times(scene: Scene, places: Iterable[int]) -> tuple[int, int]:
    """The earliest and the latest time, scheduled or not, of some events."""
    times = [time for place in places for time in (scene.scheduled(place), scene.times[place])]
    return min(times, default=0), max(times, default=0)


def total_cost(scene: Scene) -> int:
    return cost_of(scene.network, scene.rows, scene.times, scene.run.penalty)


def counted(number: int, one: str, more: str) -> str:
    """A number of things in words."""
    return f'{number} {one if number == 1 else more}'


def duration(seconds: int) -> str:
    """A length of time, as `5 min` or `1 h 5 min 30 s`."""
    hours, minutes, rest = seconds // 3600, seconds // 60 % 60, seconds % 60
    parts = [f'{number} {unit}' for number, unit in ((hours, 'h'), (minutes, 'min'), (rest, 's')) if number]
    return ' '.join(parts) or '0 min'


def clock_time(seconds: float, with_seconds: bool = False) -> str:
    """A time of day as `6:05`, or `6:05:30`."""
    minutes, rest = divmod(int(seconds), 60)
    text = f'{minutes // 60}:{minutes % 60:02}'
    return f'{text}:{rest:02}' if with_seconds and rest else text


def whole_time(seconds: int) -> str:
    """A time of day with its seconds, as a clock has it."""
    return f'{clock_time(seconds)}:{seconds % 60:02}'
