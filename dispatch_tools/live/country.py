"""A country of regions as its boards and its regions' own words show it: what is wrong where, and what waits for what."""
from __future__ import annotations

import re
from collections import Counter, defaultdict
from dataclasses import dataclass
from typing import Iterable, Iterator, NamedTuple, Optional, Sequence

from dispatch_tools.days.split import Cut
from dispatch_tools.formats.gtfs_rows import clock
from dispatch_tools.live.board import NUMBER, Shown, Skipped, times_of, unpacked
from dispatch_tools.live.health import CRITICAL, Found, JOURNAL, STATUS_WORDS, UNKNOWN, WARNING, WELL
from dispatch_tools.live.relay import Relay
from dispatch_tools.live.state import State, state_of

# Whether the broker had kept what comes, a topic with its region, and what was sent, in hexadecimal digits.
BOARD = re.compile(b'([01]) board/(%b)/[^ ]+ (.*)' % NUMBER)
STATE = re.compile(b'([01]) state/(%b) (.*)' % NUMBER)


class Wait(NamedTuple):
    """An event behind a boundary whose region was not told yet what its neighbours' boards ask for: the neighbour that asks for most,
    the times that are asked for and told, and since when."""
    event: int
    home: int
    region: int
    asked: int
    told: int
    since: float


class Region:
    """What was heard of a region, and when: its state, its boards, and what its relay has to tell."""

    def __init__(self, number: int, cuts: Iterable[Cut]) -> None:
        self.number = number
        self.relay = Relay(cuts)
        self.scheduled = {cut.there: cut.scheduled for behind in self.relay.before.values() for cut in behind}
        self.state: Optional[State] = None
        self.heard = self.boards = 0.0

    def take(self, state: State) -> None:
        self.state = state
        self.relay.told = {event: delay for event, delay in state.told.items() if event in self.relay.before}
        self.relay.found = dict(self.relay.told)

    def waiting(self) -> Iterator[tuple[int, int, int, int]]:
        """Each event whose delay is another one than was told: the event, who asks for most, the times asked for and told."""
        if self.state is None:
            return
        for event, cuts in self.relay.before.items():
            asked, told = self.relay.delay_of(event), self.relay.told.get(event, 0)
            if asked != told:
                known = [cut for cut in cuts if cut.here in self.relay.times]
                home = max(known, key=lambda cut: (self.relay.times[cut.here] or 0) + cut.lower).home
                yield event, home, self.scheduled[event] + asked, self.scheduled[event] + told


@dataclass(frozen=True)
class Look:
    """A country as it is at a moment: what is found of each region, and what waits at each boundary, the oldest first."""
    now: float
    found: dict[int, Found]
    waits: dict[tuple[int, int], list[Wait]]

    @property
    def status(self) -> int:
        return worst(found.status for found in self.found.values())


def worst(statuses: Iterable[int]) -> int:
    """The worst of statuses. Not to know is less bad than to know the worst."""
    return max(statuses, key=(WELL, WARNING, UNKNOWN, CRITICAL).index, default=WELL)


class Country:
    """What was heard of all regions of which tables of cut activities tell."""

    def __init__(self, cuts: Sequence[Cut], skipped: Skipped, began: float, patience: int) -> None:
        self.skipped, self.began, self.patience = skipped, began, patience
        self.owner = {event: region for cut in cuts for event, region in ((cut.here, cut.home), (cut.there, cut.region))}
        into: dict[int, list[Cut]] = defaultdict(list)
        for cut in cuts:
            into[cut.region].append(cut)
        self.regions = {number: Region(number, into[number]) for number in sorted(set(self.owner.values()))}
        self.cuts = Counter((cut.home, cut.region) for cut in cuts)
        self.neighbours = {number: [self.regions[other] for home, other in self.cuts if home == number] for number in self.regions}
        self.since: dict[int, float] = {}

    # ---- What is heard

    def hear(self, number: int, line: Optional[bytes], now: float) -> None:
        """Takes up a line of a topic. What has another form, or speaks of what is another region's, is skipped. What the broker had kept
        was said at some time before, and does not show that its region still speaks."""
        board, state = (None, None) if line is None else (BOARD.fullmatch(line), STATE.fullmatch(line))
        found = board or state
        region = None if found is None else self.regions.get(int(found[2]))
        if found is None or region is None:
            self.skipped.skip(number, 'it is no message of a board or a state of a region, in hexadecimal digits')
        elif board is not None:
            if self.hear_board(number, region, times_of(unpacked(found[3]))) and found[1] == b'0':
                region.boards = now
        elif self.hear_state(number, region, state_of(unpacked(found[3]))) and found[1] == b'0':
            region.heard = now

    def hear_board(self, number: int, region: Region, times: Optional[Shown]) -> bool:
        """Whether these are times of a region's board, which are taken up."""
        home = region.number
        if times is None:
            self.skipped.skip(number, f'it is no board of region {home}')
            return False
        own = [(event, time) for event, time in times if self.owner.get(event, home) == home]
        if len(own) < len(times):
            self.skipped.skip(number, f'region {home} reports a time of an event that is not its own')
        for other in self.neighbours[home]:
            other.relay.times.update((event, time) for event, time in own if event in other.relay.behind)
        return True

    def hear_state(self, number: int, region: Region, state: Optional[State]) -> bool:
        """Whether this is the state of a region, which is taken up."""
        if state is None:
            self.skipped.skip(number, f'it is no state of region {region.number}')
            return False
        region.take(state)
        return True

    # ---- What is said of it

    def look(self, now: float) -> Look:
        """The country as it is. What waits is known from one look to the next."""
        waits = {boundary: list[Wait]() for boundary in sorted(self.cuts)}
        since: dict[int, float] = {}
        for number, region in self.regions.items():
            for event, home, asked, told in region.waiting():
                since[event] = self.since.get(event, now)
                waits[home, number].append(Wait(event, home, number, asked, told, since[event]))
        self.since = since
        for waiting in waits.values():
            waiting.sort(key=lambda wait: (wait.since, wait.event))
        return Look(now, {number: self.judge(region, waits, now) for number, region in self.regions.items()}, waits)

    def judge(self, region: Region, waits: dict[tuple[int, int], list[Wait]], now: float) -> Found:
        """What is wrong with a region, and how much."""
        said = list(self.faults(region, [wait for (_, number), waiting in waits.items() if number == region.number for wait in waiting], now))
        return Found(worst(status for status, _ in said), [words for _, words in said])

    def faults(self, region: Region, waiting: list[Wait], now: float) -> Iterator[tuple[int, str]]:
        """Each thing that is wrong with a region, with its status."""
        silent, boards = (now - (heard or self.began) for heard in (region.heard, region.boards))
        if silent > self.patience:
            yield CRITICAL, f'says nothing for {silent:.0f} s'
        elif region.state is None:
            yield UNKNOWN, 'has said nothing yet'
        elif region.state.status != WELL:
            yield region.state.status, region.state.said
        if boards > self.patience:
            yield WARNING, f'its boards say nothing for {boards:.0f} s'
        late = [now - wait.since for wait in waiting if now - wait.since > self.patience]
        if late:
            yield CRITICAL, f'its relay has not told {counted(len(late), "event")} for {max(late):.0f} s'


def counted(count: int, what: str) -> str:
    return f'{count} {what}' if count == 1 else f'{count} {what}s'


def line_of(look: Look) -> str:
    """The line that people and monitoring read."""
    wrong = [f'region {number} {"; ".join(found.said)}' for number, found in look.found.items() if found.status]
    waiting = sum(map(len, look.waits.values()))
    rest = f'{counted(waiting, "event")} of boundaries wait' if waiting else 'the boundaries are at rest'
    return f'{STATUS_WORDS[look.status]} {counted(len(look.found), "region")}: {"; ".join(wrong) or "all serve"}; {rest}'


def wait_words(wait: Wait) -> str:
    """What an event waits for."""
    return f'event {wait.event} is told {clock(wait.told)}, and region {wait.home} asks for {clock(wait.asked)}'


# The figures with what each means, in the order in which they are written.
FIGURES = {
    'region_status': 'how a region is: 0 well, 1 warning, 2 critical, 3 unknown',
    'region_silent_seconds': 'seconds since a region said how it is',
    'region_boards_silent_seconds': 'seconds since a board of a region was sent',
    'region_entries': 'entries of the journal of a region',
    'region_journal_part': 'bytes of the journal of a region as a part of the most that it may have',
    'region_waiting_lines': 'lines of a feed of a region that wait for an answer',
    'region_feed_age_seconds': 'seconds since a feed of a region was changed',
    'boundary_waiting_events': 'events behind a boundary whose region was not told yet what is asked for',
    'boundary_waiting_seconds': 'seconds for which the first of them waits',
}


def figures_of(country: Country, look: Look) -> Iterator[tuple[str, str, float]]:
    """Each figure with its labels."""
    for number, region in country.regions.items():
        label = f'region="{number}"'
        yield 'region_status', label, look.found[number].status
        for name, heard in ('region_silent_seconds', region.heard), ('region_boards_silent_seconds', region.boards):
            yield name, label, look.now - (heard or country.began)
        if region.state is not None:
            yield 'region_entries', label, region.state.entries
            yield 'region_journal_part', label, region.state.journal / JOURNAL
            for place, feed in enumerate(region.state.feeds, 1):
                yield 'region_waiting_lines', f'{label},feed="{place}"', feed.waiting
                yield 'region_feed_age_seconds', f'{label},feed="{place}"', feed.age
    for (home, number), waiting in look.waits.items():
        label = f'from="{home}",to="{number}"'
        yield 'boundary_waiting_events', label, len(waiting)
        yield 'boundary_waiting_seconds', label, look.now - waiting[0].since if waiting else 0


def metrics_of(country: Country, look: Look) -> str:
    """The figures in the text format of Prometheus, each kind with a line on what it is."""
    values: dict[str, list[str]] = {name: [] for name in FIGURES}
    for name, labels, value in figures_of(country, look):
        values[name].append(f'dispatcher_{name}{{{labels}}} {value:.10g}\n')
    return ''.join(f'# HELP dispatcher_{name} {FIGURES[name]}\n# TYPE dispatcher_{name} gauge\n{"".join(lines)}'
                   for name, lines in values.items() if lines)
