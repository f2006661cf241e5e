"""What a dispatcher should look at: trains that became late, changes that are waited for or missed, an old plan, and silent feeds."""
from __future__ import annotations

import time
from collections import Counter
from dataclasses import dataclass, field
from typing import Any, Iterable, Iterator, NamedTuple, Optional

from dispatch_tools.desk.day import Day
from dispatch_tools.desk.notebook import Closed, Seen
from dispatch_tools.model.railway import decisions_of
from dispatch_tools.pictures.scene import counted, duration

MISSED, WAITS, LATE = 'missed', 'waits', 'late'

# How severe the kinds are.
URGENT, WARNING, NOTICE = 'urgent', 'warning', 'notice'
SEVERITY = {'fault': URGENT, 'server': URGENT, MISSED: URGENT, WAITS: WARNING, LATE: WARNING, 'adopted': NOTICE, 'plan': NOTICE, 'feed': NOTICE,
            'closed': NOTICE}

# At most so many alerts of a kind are shown, and so many that were seen. If there are more of a kind, a line says how many.
MOST, MOST_SEEN = 12, 40

# What was seen is shown again when it is worse by so many seconds. A train that is so many seconds late is urgent.
WORSE, VERY_LATE = 300, 900

# The key of the line that says how many more alerts of a kind there are.
MORE = 'more'

# So many choices of an adopted plan are named.
NAMED = 3

# A server that has not answered a line for so many seconds is called silent.
PATIENCE = 3.0


@dataclass(frozen=True)
class Marks:
    """How many seconds make an alert."""
    late: int = 300
    waits: int = 180
    silent: int = 300


class Alert(NamedTuple):
    """A kind, a key that no other alert of the kind has, words, and how many seconds it is about."""
    kind: str
    key: str
    words: str
    level: int = 0

    @property
    def severity(self) -> str:
        return URGENT if self.kind == LATE and self.level >= VERY_LATE else SEVERITY[self.kind]


class Server(NamedTuple):
    """Whether a server runs over the store (None: that cannot be known), since when, by time.monotonic, a line waits for its answer, and who
    has closed the day."""
    runs: bool | None
    waits_since: float | None
    closed: Optional[Closed] = None


def alerts_of(day: Day, marks: Marks, server: Server, faults: list[str]) -> list[Alert]:
    """All alerts. Those that stop the work come first."""
    found = [Alert('fault', fault, fault) for fault in faults]
    found += of_server(server)
    found += of_plan(day)
    found += (missed(day, change) for change in sorted(day.missed))
    found += (waits(day, change) for change in waited_for(day, marks))
    found += (late(day, number) for number in day.late_trains(marks.late))
    return [*found, *of_adoptions(day), *of_feeds(day, marks)]


class Since(NamedTuple):
    """When an alert arose: by the clock of the day, or else by that on the wall, and the number of the entry."""
    clock: str
    entry: int


@dataclass
class Standing:
    """The alerts that stand, since when each does, and who has seen them."""
    since: dict[tuple[str, str], Since] = field(default_factory=dict)
    open_rows: list[dict[str, Any]] = field(default_factory=list)
    rows: list[dict[str, Any]] = field(default_factory=list)
    seen_rows: list[dict[str, Any]] = field(default_factory=list)

    def stand(self, alerts: Iterable[Alert], seen: dict[tuple[str, str], Seen], now: Since) -> None:
        """Makes the rows anew; those of what was seen say by whom and when, too."""
        alerts = list(alerts)
        self.since = {alert[:2]: self.since.get(alert[:2], now) for alert in alerts}
        self.open_rows, self.seen_rows = [], []
        for alert in alerts:
            row = {'severity': alert.severity, **self.since[alert[:2]]._asdict(), **alert._asdict()}
            by = seen.get(alert[:2])
            if by is not None and alert.level < by.level + WORSE:
                self.seen_rows.append({**row, 'who': by.who, 'at': by.at})
            else:
                self.open_rows.append(row)
        self.seen_rows = self.seen_rows[:MOST_SEEN]
        self.rows = limited(self.open_rows)


def limited(rows: Iterable[dict[str, Any]]) -> list[dict[str, Any]]:
    """The first rows of each kind, and how many more there are."""
    counts: Counter[str] = Counter()
    shown = []
    for row in rows:
        counts[row['kind']] += 1
        if counts[row['kind']] <= MOST:
            shown.append(row)
    more = [Alert(kind, MORE, f'and {count - MOST} more of this kind') for kind, count in counts.items() if count > MOST]
    return [*shown, *({'severity': SEVERITY[one.kind], 'clock': '', 'entry': 0, **one._asdict()} for one in more)]


def forgotten(seen: dict[tuple[str, str], Seen], alerts: Iterable[Alert]) -> None:
    """Forgets who has seen what stands no longer, so that it is shown if it comes again."""
    stand = {alert[:2] for alert in alerts}
    for key in [key for key in seen if key not in stand]:
        del seen[key]


def of_adoptions(day: Day) -> Iterator[Alert]:
    """The plans that others have adopted."""
    for entry, feed, _, message, _ in day.adoptions:
        decisions = [day.naming.decision(decision) for decision in decisions_of(message)]
        more = f'; and {len(decisions) - NAMED} more' if len(decisions) > NAMED else ''
        yield Alert('adopted', str(entry), f'{day.names.feed(feed)} adopted a plan: {"; ".join(decisions[:NAMED])}{more}.')


def of_server(server: Server) -> Iterator[Alert]:
    if server.runs is False and server.closed is not None:
        yield Alert('closed', 'day', f'{server.closed.who} has closed the day at {server.closed.at}.')
    elif server.runs is False:
        yield Alert('server', 'ended', 'No server runs over this store. What is reported now is answered when a server is started again.')
    elif server.waits_since is not None and time.monotonic() - server.waits_since > PATIENCE:
        yield Alert('server', 'silent', 'The server has not answered the last line.')


def of_plan(day: Day) -> Iterator[Alert]:
    if day.plan is not None and not day.adopted and day.plan.entry < len(day.entries):
        since = counted(len(day.entries) - day.plan.entry, 'entry has', 'entries have')
        yield Alert('plan', str(day.plan.entry), f'The plan of entry {day.plan.entry} is old: {since} come since.')


def missed(day: Day, change: int) -> Alert:
    network, naming = day.network, day.naming
    tail, head = network.tails[change], network.heads[change]
    return Alert(MISSED, str(network.activities[change].id),
                 f'{naming.train(head)} left {naming.at(head)} before the passengers of {naming.train(tail)} were there.')


def waited_for(day: Day, marks: Marks) -> list[int]:
    """The changes for which a train waits so long, the longest wait first."""
    changes = [change for change, wait in day.waits.items() if wait >= marks.waits]
    return sorted(changes, key=lambda change: (-day.waits[change], change))


def waits(day: Day, change: int) -> Alert:
    network, naming = day.network, day.naming
    tail, head = network.tails[change], network.heads[change]
    wait = day.waits[change]
    return Alert(WAITS, str(network.activities[change].id),
                 f'{naming.train(head)} waits {duration(wait)} for {naming.train(tail)} in {naming.at(head)}; if not, the change is missed.', wait)


def late(day: Day, number: int) -> Alert:
    worst, at, _ = day.lateness[number]
    return Alert(LATE, str(number), f'{day.naming.event(at)} {duration(worst)} late.', worst)


def of_feeds(day: Day, marks: Marks) -> Iterator[Alert]:
    for feed, heard in enumerate(day.heard):
        silent = int(time.monotonic() - heard)
        if feed > 0 and feed != day.feed and silent >= marks.silent:
            yield Alert('feed', str(feed), f'{day.names.feed(feed)} has said nothing for {duration(silent // 60 * 60)}.', silent // 60 * 60)
