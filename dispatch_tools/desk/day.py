"""A day, read from its server's journal: rows and times, late trains, changes that are waited for, and the last entries."""
from __future__ import annotations

import time
from collections import deque
from dataclasses import dataclass, field
from typing import Iterable, NamedTuple, Optional, Sequence

from dispatch_tools.desk.asking import message_line
from dispatch_tools.desk.naming import Naming
from dispatch_tools.desk.reckoning import Reckoning
from dispatch_tools.desk.undoing import reversal, Subject, subjects_of
from dispatch_tools.formats.journal import Answered, Head
from dispatch_tools.formats.lines import Bad
from dispatch_tools.formats.runtext import Item, PLANNED, Run
from dispatch_tools.model.messages import Adopt, AdoptLast, CarryOver, Message
from dispatch_tools.model.network import Network
from dispatch_tools.model.parts import PlanByParts
from dispatch_tools.model.railway import decisions_of, is_missed, Plan, refusal_at_once, Rows
from dispatch_tools.pictures.scene import changes_of, Scene, trains_of

# If more entries come at once, all times are worked out anew, and not entry by entry.
MANY = 200

# At most so many entries, own lines and late trains are shown, so many own lines can be taken back, and so many entries are looked through
# for those of some trains.
SHOWN, KEPT, LOOKED_THROUGH = 40, 4_096, 4_096

# At most so many adoptions of others are alerts, and so many decisions are known for the next shift.
ADOPTIONS, DECIDED = 12, 1_000


class Names(NamedTuple):
    """The names of stops by id, of trains and trips by the id of the train's first event, and of the server's feeds in their order."""
    stops: dict[int, str]
    labels: dict[int, str]
    trips: dict[int, str]
    feeds: Sequence[str] = ()

    def feed(self, number: int) -> str:
        """The name of a feed by its number."""
        return self.feeds[number - 1] if number <= len(self.feeds) else f'feed {number}'


class Lateness(NamedTuple):
    """How late a train will be at the worst from now on, at which event, and the first event that has not passed."""
    worst: int
    at: int
    next: Optional[int]


class Told(NamedTuple):
    """A line of the desk's own feed with its answer, if there is one."""
    item: Item
    entry: Optional[int]
    back: Optional[list[Message]]


class Adoption(NamedTuple):
    """How the last plan was adopted: the line that did, how many of its choices it entered, and whether only what was still free."""
    line: int
    choices: int
    carried: bool


class Reported(NamedTuple):
    """An entry: its number, the number of its feed, that of its line, what it says, and the clock behind it."""
    entry: int
    feed: int
    line: int
    message: Message
    clock: int


@dataclass
class Day:
    """A network, and what the journal says of its day so far."""
    network: Network
    start: Rows
    names: Names
    feed: int
    trains: list[list[int]] = field(init=False)
    naming: Naming = field(init=False)

    def __post_init__(self) -> None:
        self.trains = trains_of(self.network)
        self.naming = Naming(self.network, self.trains, self.names.stops, self.names.labels)
        self.changes = changes_of(self.network)
        self.at_stop: dict[int, list[int]] = {}
        for place, event in enumerate(self.network.events):
            self.at_stop.setdefault(event.stop, []).append(place)
        self.version = 0
        self.first = Reckoning(self.network, self.start.copy())
        self.reset()

    def reset(self) -> None:
        """Begins with an empty journal."""
        self.head: Optional[Head] = None
        self.reckoning = self.first.begun(self.start.copy())
        self.entries: list[str] = []
        self.last: deque[Reported] = deque(maxlen=LOOKED_THROUGH)
        self.latest: dict[Subject, Reported] = {}
        self.adoptions: deque[Reported] = deque(maxlen=ADOPTIONS)
        self.decided: deque[Reported] = deque(maxlen=DECIDED)
        self.items = [0]
        self.heard = [time.monotonic()]
        self.told: deque[Told] = deque(maxlen=KEPT)
        self.plan: Optional[Plan | PlanByParts] = None
        self.plan_line = 0
        self.adopted = 0
        self.adoption: Optional[Adoption] = None
        self.lateness = [self.lateness_of(train) for train in self.trains]
        self.waits: dict[int, int] = {}
        self.missed: set[int] = set()
        self.look_at_changes(self.changes)
        self.version += 1

    def begin(self, head: Head) -> None:
        self.head = head
        self.items = [0] * (head.feeds + 1)
        self.heard = [time.monotonic()] * (head.feeds + 1)

    # ---- What comes

    def take(self, answered: list[Answered]) -> None:
        """Takes up the items of rounds."""
        entered = sum(one.entry is not None for one in answered)
        touched: set[int] = set()
        for one in answered:
            touched |= self.take_one(one, entered > MANY)
        if entered > MANY:
            self.reckoning.all_anew()
            touched = set(range(len(self.network.events)))
        self.look_at(touched)
        self.version += 1

    def take_one(self, one: Answered, is_quick: bool) -> set[int]:
        """Takes up an item; the places of the events that it may have changed."""
        feed, item, entry = one
        self.items[feed] += 1
        self.heard[feed] = time.monotonic()
        touched: set[int] = set()
        back, number = None, None
        if entry is not None:
            if refusal_at_once(self.network, self.reckoning.rows, entry.message) is not None:
                raise Bad(len(self.entries) + 1, 'an entry that this network refuses')
            back = reversal(entry.message, self.reckoning.rows, self.network) if feed == self.feed else None
            if is_quick:
                self.reckoning.enter_only(entry.message)
            else:
                touched = self.reckoning.enter(entry.message)
            self.entries.append(message_line(entry))
            number = len(self.entries)
            self.report(Reported(number, feed, entry.line, entry.message, self.clock))
        if feed == self.feed:
            self.told.append(Told(item, number, back))
            self.take_plan(item, number, len(decisions_of(entry.message)) if entry else 0)
        return touched

    def report(self, reported: Reported) -> None:
        """Takes up who has said something last, and of what."""
        self.last.append(reported)
        self.latest.update(dict.fromkeys(subjects_of(reported.message), reported))
        if decisions_of(reported.message):
            self.decided.append(reported)
        if isinstance(reported.message, Adopt) and reported.feed != self.feed:
            self.adoptions.append(reported)

    def take_plan(self, item: Item, number: Optional[int], choices: int) -> None:
        """The last plan of the desk's own feed, of either kind, the line that asked for it, and whether, and how, it was adopted."""
        if item.answer is not None and item.answer.kind in PLANNED:
            self.plan, self.plan_line, self.adopted, self.adoption = item.answer.value, item.line, 0, None
        elif isinstance(item.said, (AdoptLast, CarryOver)) and number is not None:
            self.adopted, self.adoption = number, Adoption(item.line, choices, isinstance(item.said, CarryOver))

    def look_at(self, touched: set[int]) -> None:
        """Works out anew what depends on events: how late their trains are, and the changes at them."""
        for number in {self.naming.train_of[place] for place in touched}:
            self.lateness[number] = self.lateness_of(self.trains[number])
        near = touched | {self.network.heads[activity] for place in touched for activity in self.network.out_of[place]}
        self.look_at_changes(activity for place in near for activity in self.reckoning.into[place]
                             if self.network.activities[activity].kind == 'change')

    # ---- What depends on it

    def lateness_of(self, train: list[int]) -> Lateness:
        rows, times, events = self.reckoning.rows, self.reckoning.times, self.network.events
        ahead = [place for place in train if rows.passed[place] is None and not rows.cancelled[place]]
        if not ahead:
            return Lateness(0, train[-1], None)
        worst = max(ahead, key=lambda place: times[place] - events[place].time)
        return Lateness(max(0, times[worst] - events[worst].time), worst, ahead[0])

    def look_at_changes(self, changes: Iterable[int]) -> None:
        """For some changes, how long a train waits for each, and which of them was kept and missed for good."""
        rows, times, network = self.reckoning.rows, self.reckoning.times, self.network
        for change in changes:
            tail, head = network.tails[change], network.heads[change]
            self.waits.pop(change, None)
            self.missed.discard(change)
            if rows.passed[head] is not None:
                if rows.kept[change] and is_missed(network, rows, times, change):
                    self.missed.add(change)
            elif rows.kept[change] and not (rows.cancelled[tail] or rows.cancelled[head]):
                ready = times[tail] + network.activities[change].lower + rows.activity_delays[change]
                if ready == times[head] and (wait := ready - self.reckoning.least(head, change)) > 0:
                    self.waits[change] = wait

    @property
    def answered(self) -> int:
        """The last line of the desk's own feed that was answered."""
        return self.told[-1].item.line if self.told else 0

    @property
    def clock(self) -> int:
        return self.reckoning.rows.clock

    def late_trains(self, least: int) -> list[int]:
        """The trains that are or will be so late, the latest first."""
        late = [number for number, lateness in enumerate(self.lateness) if lateness.worst >= least]
        return sorted(late, key=lambda number: (-self.lateness[number].worst, number))

    def scene(self) -> Scene:
        """The day as a picture shows it; it stays as it is when entries come."""
        rows, times = self.reckoning.rows.copy(), self.reckoning.times[:]
        run = Run(2, self.head.penalty if self.head else 0, range(len(self.entries)), [], [], {}, 0)  # type: ignore[arg-type]
        return Scene(self.network, run, self.start, rows, times, self.trains, self.names.stops, self.names.labels, self.names.trips)
