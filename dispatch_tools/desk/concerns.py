"""Whom a connection or a plan concerns."""
from __future__ import annotations

from dataclasses import dataclass
from typing import Iterable, Iterator, Optional, Sequence

from dispatch_tools.desk.naming import Naming
from dispatch_tools.formats.files import BadFile, in_one_line
from dispatch_tools.formats.markup import escaped
from dispatch_tools.model.messages import Decision
from dispatch_tools.model.network import Network
from dispatch_tools.model.railway import cost_of, is_met, Rows, times_of, with_decisions
from dispatch_tools.pictures.scene import duration, Scene

MINUTE = 60


@dataclass(frozen=True)
class State:
    """Rows, their times, and what they cost at the penalty of the run."""
    rows: Rows
    times: list[int]
    cost: int


@dataclass(frozen=True)
class Arrival:
    """An arrival that two states have at other times: its place, how much later the second has it, and who leaves there."""
    place: int
    later: int
    weight: int

    @property
    def comes_to(self) -> int:
        """Thousandths of passenger seconds; less than 0 where it is earlier."""
        return self.later * self.weight


@dataclass(frozen=True)
class Compared:
    """Two states: the arrivals of each train that differ in lateness, by trains that lose most, and the changes missed in the second
    alone and in the first alone."""
    before: State
    after: State
    trains: list[tuple[int, list[Arrival]]]
    missed: list[int]
    made: list[int]


def state_of(network: Network, rows: Rows, penalty: int) -> Optional[State]:
    """Rows with their times; None where they have a cycle."""
    times = times_of(network, rows)
    return None if times is None else State(rows, times, cost_of(network, rows, times, penalty))


def lateness(network: Network, state: State, place: int) -> int:
    return 0 if state.rows.cancelled[place] else max(0, state.times[place] - network.events[place].time)


def arrivals_moved(network: Network, train: Iterable[int], before: State, after: State) -> list[Arrival]:
    """The arrivals of a train at which somebody leaves, and which are later or earlier than on time."""
    found = []
    for place in train:
        event = network.events[place]
        later = lateness(network, after, place) - lateness(network, before, place)
        if event.kind == 'arrival' and event.weight and later:
            found.append(Arrival(place, later, event.weight))
    return found


def is_missed(network: Network, state: State, place: int) -> bool:
    """Whether a change costs its penalty: it is dropped, its departure has passed too early, or a train of it is cancelled there."""
    if has_cancelled_end(network, state.rows, place):
        return True
    if state.rows.passed[network.heads[place]] is not None:
        return not is_met(network, state.rows, state.times, place)
    return not state.rows.kept[place]


def has_cancelled_end(network: Network, rows: Rows, place: int) -> bool:
    return rows.cancelled[network.tails[place]] or rows.cancelled[network.heads[place]]


def compare(scene: Scene, before: State, after: State) -> Compared:
    network = scene.network
    moved = ((number, arrivals_moved(network, train, before, after)) for number, train in enumerate(scene.trains))
    trains = sorted(((number, arrivals) for number, arrivals in moved if arrivals), key=lambda one: (-comes_to(one[1]), one[0]))
    changes = [place for place, activity in enumerate(network.activities) if activity.kind == 'change' and activity.weight]
    missed = {place: (is_missed(network, before, place), is_missed(network, after, place)) for place in changes}
    return Compared(before, after, trains, [place for place, one in missed.items() if one == (False, True)],
                    [place for place, one in missed.items() if one == (True, False)])


def comes_to(arrivals: Iterable[Arrival]) -> int:
    return sum(arrival.comes_to for arrival in arrivals)


# ---- What is said


def people(weight: int) -> str:
    """Thousandths of passengers as people."""
    return f'{weight / 1000:.10g} passenger{"" if weight == 1000 else "s"}'


def minutes(cost: int) -> str:
    """Thousandths of passenger seconds in passenger minutes."""
    return f'{abs(cost) / (1000 * MINUTE):,.1f} passenger minutes'


def signed(seconds: int) -> str:
    return f'{duration(abs(seconds))} {"later" if seconds > 0 else "earlier"}'


def lines_of(naming: Naming, compared: Compared, words: tuple[str, str]) -> Iterator[str]:
    """What two states are called and cost, and whom the second concerns."""
    network = naming.network
    yield f'cost: {words[0]} {minutes(compared.before.cost)}, {words[1]} {minutes(compared.after.cost)}'
    if not compared.trains and not compared.missed and not compared.made:
        yield f'{words[1]}: nobody is concerned'
    for number, arrivals in compared.trains:
        total = comes_to(arrivals)
        yield f'{naming.labels[number]}: {minutes(total)} {"lost" if total > 0 else "gained"}'
        for arrival in arrivals:
            at = f'{naming.at(arrival.place)}: {signed(arrival.later)}'
            yield f'  {at}, {people(arrival.weight)}, {minutes(arrival.comes_to)}'
    for places, word in (compared.missed, 'miss'), (compared.made, 'no longer miss'):
        for place in places:
            number = network.activities[place].id
            yield f'{people(network.activities[place].weight)} {word} the connection {naming.activity(number)} ({number})'


def met_all_the_same(naming: Naming, dropped: State, place: int) -> list[str]:
    """What is said of a change for which there is time where it is dropped, too, or of which a train is cancelled."""
    network = naming.network
    gone = [end for end in (network.tails[place], network.heads[place]) if dropped.rows.cancelled[end]]
    if gone:
        return [f'{naming.event(end)}: this is cancelled, so nobody changes there' for end in gone]
    if not is_met(network, dropped.rows, dropped.times, place):
        return []
    return [f'{naming.activity(naming.network.activities[place].id)}: there is time to change all the same, but nobody waits']


def say(lines: Iterable[str]) -> None:
    for line in lines:
        print(in_one_line(line, 1000))


# ---- The picture

WIDTH, ROW, LEFT, HALF = 900, 24, 300, 280


def bar(row: int, label: str, value: int, largest: int) -> str:
    """A row of the picture: lost minutes go to the right, gained ones to the left."""
    width = max(1, round(HALF * abs(value) / largest))
    middle, top = LEFT + HALF, ROW * row
    begins = middle if value > 0 else middle - width
    return (
        f'<text x="{LEFT - 10}" y="{top + 17}" text-anchor="end">{escaped(label[:48])}</text>'
        f'<rect x="{begins}" y="{top + 4}" width="{width}" height="{ROW - 8}" fill="{"#c0392b" if value > 0 else "#2471a3"}"/>'
        f'<title>{escaped(label)}: {minutes(value)} {"lost" if value > 0 else "gained"}</title>'
    )


def picture(naming: Naming, compared: Compared, title: str) -> str:
    """The passenger minutes that each train loses or gains."""
    values = [(naming.labels[number], comes_to(arrivals)) for number, arrivals in compared.trains]
    largest = max((abs(value) for _, value in values), default=1)
    rows = [f'<g>{bar(place, label, value, largest)}</g>' for place, (label, value) in enumerate(values, 2) if value]
    height = ROW * (len(values) + 3)
    return '\n'.join([
        f'<svg xmlns="http://www.w3.org/2000/svg" width="{WIDTH}" height="{height}" viewBox="0 0 {WIDTH} {height}" '
        'font-family="sans-serif" font-size="13">',
        f'<rect width="{WIDTH}" height="{height}" fill="white"/>',
        f'<text x="10" y="20" font-weight="bold">{escaped(title)}</text>',
        f'<text x="{LEFT + HALF - 8}" y="44" text-anchor="end" fill="#2471a3">passenger minutes gained</text>',
        f'<text x="{LEFT + HALF + 8}" y="44" fill="#c0392b">lost, at most {minutes(largest if values else 0)}</text>',
        f'<line x1="{LEFT + HALF}" y1="50" x2="{LEFT + HALF}" y2="{height - 8}" stroke="#888"/>',
        *rows, '</svg>', '',
    ])


# ---- What is compared


def change_place(network: Network, rows: Rows, number: int) -> int:
    """The place of a change by its id; BadFile if it is none, or its train has left."""
    place = network.activity_place.get(number)
    if place is None or network.activities[place].kind != 'change':
        raise BadFile(str(number), None, 'this is no change of the network')
    if rows.passed[network.heads[place]] is not None:
        raise BadFile(str(number), None, 'the train that leaves has left')
    return place


def of_decisions(scene: Scene, one: Sequence[Decision], other: Sequence[Decision]) -> Compared:
    """What holds with some decisions beside what holds with others; BadFile where either has a cycle."""
    states = [state_of(scene.network, with_decisions(scene.network, scene.rows, decided), scene.run.penalty) for decided in (one, other)]
    if states[0] is None or states[1] is None:
        raise BadFile(str((other if states[0] else one)[0]), None, 'this closes a cycle')
    return compare(scene, states[0], states[1])
