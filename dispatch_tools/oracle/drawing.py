"""Small networks and feeds that are drawn by number, and texts that are changed."""
from __future__ import annotations

import os
import random
import re
import subprocess
from collections import Counter
from typing import Callable, Optional, Protocol, Sequence

from dispatch_tools.formats.giv import ACTIVITIES, activity_record, event_record, EVENTS
from dispatch_tools.formats.plan_text import read_node
from dispatch_tools.formats.runtext import due_items, Item
from dispatch_tools.model.network import Activity, Event, Network
from dispatch_tools.model.messages import Inner, Path
from dispatch_tools.model.railway import Rows, times_of, ways_of
from dispatch_tools.oracle.judging import Good, Judge, verdict_on

# Changed texts of each number.
CHANGED = 12
SECONDS = 100

# Lines that are drawn as they stand, and those of plans by parts.
ODD_LINES = [
    '', '   ', '# note', 'hello', 'delay event 1', 'delay  event 2   005 ', 'time 1 ', '\tread', 'read\r', 'x' * 1025, ' ' * 1025,
    'now 2000000001', 'adopt keep 1', 'plan 18446744073709551616',
]
ODD_SOLVES = ['solve', 'solve x', 'solve 18446744073709551616', 'solve  007']
ODD_NUMBERS = [0, 1, 2 ** 32, 2 ** 64, 2 ** 128 - 1, 2 ** 128, 10 ** 40]
WORDS = [
    b'keep', b'drop', b'ok', b'refused', b'first', b'bound', b'open', b'cycle', b'noplan', b'end', b'fault', b'long', b'optimal',
    b'1', b'plans', b'adopt', b'carry', b'cancel', b'restore', b'lock', b'unlock', b'cancelled', b'locked',
]

# What stands in a text, and what of the same form may stand there instead.
ALIKE = [
    (rb'keep', b'drop'), (rb'drop', b'keep'), (rb'first ([0-9]+) ([0-9]+)', rb'first \2 \1'), (rb'bound ([0-9]+)$', rb'open \1'),
    (rb'open ([0-9]+)$', rb'bound \1'), (rb'(bound|open) [0-9]+$', b'cycle'), (rb'cycle$', b'bound 0'), (rb'optimal', b'open'),
    (rb'plan open', b'plan optimal'), (rb'change', b'pair 1'), (rb'read$', b'old'), (rb'old$', b'ok'), (rb'[0-9]+ ok$', b'noplan'),
    (rb'noplan$', b'plans'), (rb'refused .*$', b'ok'), (rb'-> ([0-9]+) .*$', rb'-> \1 refused full'), (rb'adopt ->', b'carry ->'),
    (rb'carry ->', b'adopt ->'), (rb'cancel ', b'restore '), (rb'restore ', b'cancel '), (rb'unlock ', b'lock '), (rb'\block ', b'unlock '),
    (rb'(cancelled|locked) ', rb'not-\1 '), (rb'lock ([0-9]+) ([0-9]+)', rb'lock \2 \1'), (rb'adopt (keep|drop) [0-9]+', b'adopt'),
]

# The same of plans by parts: a leaf, a bound, a rest, an id, a mark, a count, or a choice of a tree.
ALIKE_BY_PARTS = [
    (rb'leaf [0-9]+$', b'cycle'), (rb'cycle$', b'leaf 0'), (rb'leaf ([0-9]+)$', rb'bound \1'), (rb'solved optimal', b'solved open'),
    (rb'solved open', b'solved optimal'), (rb' solve ([0-9]+) ', rb' plan \1 '), (rb' plan ([0-9]+) ', rb' solve \1 '),
    (rb'rest [0-9]+$', b'rest 0'), (rb'rest ([0-9]+)$', rb'leaf \1'), (rb'^(events [0-9]+) ', rb'\1 1 '), (rb'inner change', b'inner pair 1'),
    (rb'^(part events .* nodes [0-9]+) bound .*$', rb'\1 bound 0'), (rb'^(events|changes) ([0-9]+) ([0-9]+)', rb'\1 \3 \2'),
]


# ---- Drawn networks


def drawn_events(draws: random.Random) -> list[Event]:
    count = draws.randint(0, 9) if draws.random() < 0.9 else draws.randint(10, 16)
    return [
        Event(
            number, draws.choice(['departure', 'arrival']), draws.randint(0, 60) if draws.random() < 0.8 else 30,
            draws.choice([0, 1000, 2500, 10000, 1]), draws.randint(0, 4),
        )
        for number in draws.sample(range(1, 40), count)
    ]


def drawn_ends(draws: random.Random, events: list[Event], kind: str) -> tuple[int, int]:
    """The ids of two different events, mostly in the order of their times, or of a single one twice."""
    if len(events) < 2:
        return events[0].id, events[0].id
    ordered = sorted(events, key=lambda event: (event.time, event.id))
    first, second = sorted(draws.sample(range(len(ordered)), 2))
    if draws.random() < (0.5 if kind == 'headway' else 0.03):
        first, second = second, first
    return ordered[first].id, ordered[second].id


def drawn_activities(draws: random.Random, events: list[Event]) -> list[Activity]:
    """Activities of all kinds; most headways have an opposite."""
    count = draws.randint(0, 3 * len(events))
    numbers = iter(draws.sample(range(1, 200), 2 * count))
    activities: list[Activity] = []
    for _ in range(count):
        kind = draws.choice(['drive', 'wait', 'turnaround', 'change', 'change', 'headway', 'headway', 'headway'])
        tail, head = drawn_ends(draws, events, kind)
        lower = draws.randint(1 if kind == 'headway' else 0, 25)
        activities.append(Activity(next(numbers), kind, tail, head, lower, draws.choice([0, 1000, 4000, 700])))
        if kind == 'headway' and draws.random() < 0.7:
            activities.append(Activity(next(numbers), kind, head, tail, draws.randint(1, 20), 0))
    return activities


def drawn_network(draws: random.Random) -> Network:
    """The first drawn network without a cycle at the start."""
    while True:
        events = drawn_events(draws)
        network = Network(events, drawn_activities(draws, events))
        if times_of(network, Rows(network)) is not None:
            return network


def write_network(draws: random.Random, network: Network, folder: str) -> None:
    """Writes the files of a network, whose records stand in any order."""
    os.makedirs(folder)
    events = [event_record(event).replace('"arrival"', 'Arrival') for event in network.events]
    activities = [activity_record(activity, upper=9) for activity in network.activities]
    for name, lines in (EVENTS, events), (ACTIVITIES, activities):
        draws.shuffle(lines)
        with open(os.path.join(folder, name), 'w', encoding='ascii') as file:
            file.writelines(['# note\n', *lines])


# ---- Drawn feeds


class Lines:
    """Draws lines that name what a network has, and now and then what it does not have; plain ones cancel, restore, lock, unlock and
    carry nothing, and ask for no plan by parts."""

    def __init__(self, draws: random.Random, network: Network, is_plain: bool = False) -> None:
        self.draws, self.is_plain = draws, is_plain
        self.events = [event.id for event in network.events] or [1]
        self.activities = [activity.id for activity in network.activities] or [1]
        self.changes = [activity.id for activity in network.activities if activity.kind == 'change'] or self.activities
        self.pairs = [(network.events[one].id, network.events[other].id) for one, other in network.pairs] or [(1, 2)]
        self.clock = 0

    def event(self) -> int:
        return self.draws.choice(self.events) if self.draws.random() < 0.95 else self.draws.randint(0, 45)

    def activity(self) -> int:
        return self.draws.choice(self.activities) if self.draws.random() < 0.95 else self.draws.randint(0, 205)

    def change(self) -> int:
        return self.draws.choice(self.changes) if self.draws.random() < 0.9 else self.activity()

    def delay(self) -> int:
        return self.draws.choice([0, 0, self.draws.randint(1, 40), self.draws.randint(1, 40), 1000000, 1000001])

    def passed(self) -> int:
        usual = [self.draws.randint(0, 90) for _ in range(3)]
        return self.draws.choice([*usual, 2000000000, 2000000001])

    def first(self) -> str:
        first, second = self.draws.choice(self.pairs)
        if self.draws.random() < 0.05:
            first, second = self.event(), self.event()
        return f'first {first} {second}' if self.draws.random() < 0.5 else f'first {second} {first}'

    def choice(self) -> str:
        """The ids of a choice, a pair either way round."""
        return str(self.change()) if self.draws.random() < 0.5 else self.first().removeprefix('first ')

    def now(self) -> str:
        self.clock = max(0, self.clock + self.draws.randint(-3, 12))
        return f'now {self.clock}'

    def plan(self) -> str:
        word = 'plan' if self.is_plain or self.draws.random() < 0.4 else 'solve'
        return f'{word} {self.draws.choice([0, 1, 2, 3, 4, 5, 7, 9, 15, 50, 300, 4097, 16384, 16385])}'

    def line(self) -> str:
        """One line; the numbers say how often each kind comes."""
        kinds: dict[Callable[[], str], int] = {
            lambda: f'delay event {self.event()} {self.delay()}': 20,
            lambda: f'delay activity {self.activity()} {self.delay()}': 8,
            lambda: f'pass {self.event()} {self.passed()}': 10,
            lambda: f'recall {self.event()}': 6,
            lambda: f'keep {self.change()}': 8,
            lambda: f'drop {self.change()}': 10,
            self.first: 12,
            self.now: 4,
            lambda: f'time {self.event()}': 5,
            lambda: 'cost': 3,
            lambda: 'read': 2,
            self.plan: 6 if self.is_plain else 10,
            lambda: 'adopt': 4,
            lambda: self.draws.choice(ODD_LINES if self.is_plain else [*ODD_LINES, *ODD_SOLVES]): 2,
        }
        if not self.is_plain:
            kinds |= {
                lambda: f'cancel {self.event()}': 12,
                lambda: f'restore {self.event()}': 8,
                lambda: f'lock {self.choice()}': 6,
                lambda: f'unlock {self.choice()}': 4,
                lambda: 'carry': 4,
            }
        drawn, = self.draws.choices(list(kinds), list(kinds.values()))
        return drawn()


def drawn_feed(draws: random.Random, network: Network, is_plain: bool = False) -> str:
    lines = Lines(draws, network, is_plain)
    return '\n'.join(lines.line() for _ in range(draws.randint(0, 25))) + draws.choice(['', '\n'])


# ---- What a run of feeds comes to


class HasItems(Protocol):
    """The log of a feed, as it is read or as it is judged."""

    @property
    def items(self) -> list[Item]: ...


def keeps_rounds(logs: Sequence[HasItems], batch: int) -> bool:
    """Whether no entry number of an earlier round is above one of a later round."""
    top = 0
    longest = max(len(log.items) for log in logs)
    for start in range(0, longest, batch):
        items = [item for log in logs for item in log.items[start:start + batch]]
        entries = [item.answer.entry for item in items if item.answer and item.answer.entry is not None]
        if entries and min(entries) < top:
            return False
        top = max([top, *entries])
    return True


def fault_of_run(judge: Judge, feeds: list[str], batch: int, text: bytes) -> Optional[str]:
    """What is wrong with the text of a run of feeds, or None."""
    told = judge.judge(text)
    if not isinstance(told, Good) or judge.version != 2:
        return f'the text of the run is judged {told} in version {judge.version}'
    for log, feed in zip(judge.logs, feeds):
        if log.stop != 'end' or [(item.line, item.said) for item in log.items] != due_items(feed):
            return f'the log of feed {log.feed} is not that of its lines'
    return None if keeps_rounds(judge.logs, batch) else 'the logs do not keep to rounds'


# ---- Changed texts


def by_leaves(text: bytes) -> bytes:
    """A text of version 2 without plans by parts in version 1: the leaves of its plans, each with its path, in place of the nodes."""
    lines: list[str] = []
    paths: list[Path] = []
    for line in text.decode().replace('dm-run 2', 'dm-run 1', 1).split('\n'):
        node = read_node(line.split(' '))
        if ' nodes ' in line:
            head, nodes = line.split(' nodes ')
            lines.append(f'{head} leaves {(int(nodes) + 1) // 2}')
            paths = [()]
        elif node is None:
            lines.append(line)
        elif isinstance(node, Inner):
            path = paths.pop()
            first, second = ways_of(node.choice)
            paths += [path + (second,), path + (first,)]
        else:
            lines.append(' '.join(['leaf', *map(str, [node, *paths.pop()])]))
    return '\n'.join(lines).encode()


def with_number_changed(draws: random.Random, text: bytes) -> bytes:
    found = draws.choice(list(re.finditer(rb'[0-9]+', text)))
    value = int(found.group())
    other = draws.choice([value + 1, max(0, value - 1), value * 2, draws.choice(ODD_NUMBERS)])
    return text[:found.start()] + str(other).encode() + text[found.end():]


def with_lines_changed(draws: random.Random, text: bytes) -> bytes:
    """With a line left out, one put before another, or one swapped with the next."""
    lines = text.split(b'\n')
    place = draws.randrange(len(lines) - 1) if len(lines) > 1 else 0
    these = lines[place:place + 2]
    lines[place:place + 2] = draws.choice([these[1:], [draws.choice(lines), *these], these[::-1]])
    return b'\n'.join(lines)


def with_word_changed(draws: random.Random, text: bytes) -> bytes:
    lines = text.split(b'\n')
    place = draws.randrange(len(lines))
    words = lines[place].split(b' ')
    words[draws.randrange(len(words))] = draws.choice(WORDS)
    lines[place] = b' '.join(words)
    return b'\n'.join(lines)


def with_another_alike(draws: random.Random, text: bytes) -> bytes:
    """With one part replaced by another of the same form, if there is such a part."""
    pattern, other = draws.choice(ALIKE_BY_PARTS if b' solved ' in text and draws.random() < 0.5 else ALIKE)
    found = list(re.finditer(pattern, text, flags=re.MULTILINE))
    if not found:
        return text
    match = draws.choice(found)
    return text[:match.start()] + match.expand(other) + text[match.end():]


def with_byte_changed(draws: random.Random, text: bytes) -> bytes:
    place = draws.randrange(len(text))
    return text[:place] + bytes([draws.choice(b' \n0159ax;->\xff')]) + text[place + 1:]


def front(draws: random.Random, text: bytes) -> bytes:
    return text[:draws.randrange(len(text) + 1)]


def with_end_or_version_changed(draws: random.Random, text: bytes) -> bytes:
    other = text.replace(b'dm-run 2', b'dm-run 1', 1) if text.startswith(b'dm-run 2') else text.replace(b'dm-run 1', b'dm-run 2', 1)
    return draws.choice([other, text + b'x', text + b'\n', text + b'x\n'])


CHANGES = {
    with_number_changed: 35, with_another_alike: 30, with_lines_changed: 20, with_byte_changed: 10, with_word_changed: 5, front: 3,
    with_end_or_version_changed: 3,
}


def changed(draws: random.Random, text: bytes) -> bytes:
    """A text with one change, now and then with two."""
    for _ in range(1 if draws.random() < 0.8 else 2):
        change, = draws.choices(list(CHANGES), list(CHANGES.values()))
        if re.search(rb'[0-9]', text):
            text = change(draws, text)
    return text


# ---- One number after the other


class Fuzz:
    """Runs and checks of a program in a folder, and what they came to."""

    def __init__(self, program: str, is_plain: bool = False) -> None:
        self.program, self.is_plain = program, is_plain
        self.counts: Counter[str] = Counter()

    def call(self, folder: str, *words: str) -> tuple[int, bytes]:
        """The status and the output of the program."""
        done = subprocess.run([self.program, *words], cwd=folder, capture_output=True, timeout=SECONDS, check=False)
        return done.returncode, done.stdout

    def fault_of_check(self, folder: str, network: Network, penalty: int, text: bytes) -> Optional[str]:
        """How the verdict of the program on a text differs from that of the judge, or None."""
        with open(os.path.join(folder, 'text'), 'wb') as file:
            file.write(text)
        verdict = verdict_on(network, Rows(network), penalty, text)
        due = (0 if isinstance(verdict, Good) else 1, f'{verdict}\n'.encode())
        told = self.call(folder, 'check', 'net', 'text', f'--penalty={penalty}')
        self.counts['good' if isinstance(verdict, Good) else verdict.kind] += 1
        return None if told == due else f'judged {due}, printed {told}'

    def fault_of(self, number: int, folder: str) -> Optional[str]:
        """What differs in the network, the feeds and the texts of a number, or None."""
        draws = random.Random(number)
        network = drawn_network(draws)
        write_network(draws, network, os.path.join(folder, 'net'))
        penalty, batch = draws.choice([0, 1, 10, 10, 1000, 3600]), draws.choice([1, 2, 5, 16])
        feeds = [drawn_feed(draws, network, self.is_plain) for _ in range(draws.choice([1, 1, 1, 2, 3]))]
        names = [f'feed{place}' for place in range(len(feeds))]
        for name, feed in zip(names, feeds):
            with open(os.path.join(folder, name), 'w', newline='') as file:
                file.write(feed)
        status, text = self.call(folder, 'run', 'net', f'--penalty={penalty}', f'--batch={batch}', *names)
        if status != 0:
            return f'the run ends with {status}'
        judge = Judge(network, Rows(network), penalty)
        fault = fault_of_run(judge, feeds, batch, text)
        self.counts['entries'] += len(judge.history)
        self.counts['plans'] += sum(log.plans for log in judge.logs)
        self.counts['plans by parts'] += text.count(b' solved ')
        versions = [text] if b' solve ' in text else [text, by_leaves(text)]
        texts = [*versions, *(changed(draws, draws.choice(versions)) for _ in range(CHANGED))]
        faults = (self.fault_of_check(folder, network, penalty, other) for other in texts)
        return fault or next((other for other in faults if other is not None), None)
