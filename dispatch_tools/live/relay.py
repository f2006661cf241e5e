"""What the boards of a region's neighbours show, as lines of its feed."""
from __future__ import annotations

import re
from collections import defaultdict
from dataclasses import dataclass
from io import BufferedIOBase
from typing import Callable, Iterable, Iterator, Optional

from dispatch_tools.days.split import Cut
from dispatch_tools.formats.files import BadFile, text_of
from dispatch_tools.formats.runtext import heard as heard_in_feed
from dispatch_tools.live.board import NUMBER, Shown, Skipped, times_of, unpacked, whole_lines
from dispatch_tools.live.feed_file import append
from dispatch_tools.model.messages import DelayEvent
from dispatch_tools.model.railway import LARGEST_DELAY


def read_boundary(name: str) -> list[Cut]:
    """The cut activities of a table."""
    cuts = []
    for number, line in enumerate(text_of(name).splitlines(), 1):
        if line.startswith('#') or not line.strip():
            continue
        fields = line.split(';')
        if len(fields) != len(Cut._fields) or not all(re.fullmatch('[0-9]{1,20}', field) for field in fields):
            raise BadFile(name, number, f'this is no record of {len(Cut._fields)} numbers')
        cuts.append(Cut(*map(int, fields)))
    return cuts


# The topic of a board, with its region.
TOPIC = re.compile(b'board/(%b)/[^ ]+ ' % NUMBER)


class Relay:
    """What is known of the neighbours' events, and what this relay, or one before it, reported to the region."""

    def __init__(self, cuts: Iterable[Cut], told: Iterable[tuple[int, int]] = ()):
        self.behind: dict[int, list[Cut]] = defaultdict(list)
        self.before: dict[int, list[Cut]] = defaultdict(list)
        for cut in cuts:
            self.behind[cut.here].append(cut)
            self.before[cut.there].append(cut)
        self.times: dict[int, Optional[int]] = {}
        self.told = {event: delay for event, delay in told if event in self.before}
        self.found = dict(self.told)

    def delay_of(self, there: int) -> int:
        """By how much the known times make an event later than its schedule. Those not known may be why it was late; nothing waits for a
        cancelled one."""
        cuts = self.before[there]
        known = [(self.times[cut.here], cut) for cut in cuts if cut.here in self.times]
        asked = [time + cut.lower - cut.scheduled for time, cut in known if time is not None]
        return max([0, *asked] if len(known) == len(cuts) else [self.found.get(there, 0), *asked])

    def tell(self, times: Iterable[tuple[int, Optional[int]]]) -> Iterator[tuple[int, int]]:
        """The delays of the region's events that change when neighbours' events are at these times, or cancelled."""
        # A line tells a whole board, of which most has not changed.
        heard_of = {event: time for event, time in times if event in self.behind and self.times.get(event, -1) != time}
        self.times.update(heard_of)
        for there in dict.fromkeys(cut.there for event in heard_of for cut in self.behind[event]):
            delay = self.delay_of(there)
            if delay != self.told.get(there, 0):
                if delay <= LARGEST_DELAY:
                    self.told[there] = delay
                yield there, delay


@dataclass
class Heard:
    """What a line shows of events, and the region that says so, if the topic names it."""
    times: Shown
    region: Optional[int] = None


def heard_in(line: Optional[bytes], has_topic: bool) -> Optional[Heard]:
    """What a line says, or None if it is of another form."""
    found = TOPIC.match(line) if line is not None and has_topic else None
    times = times_of(unpacked(line[found.end():]) if line is not None and found else line)
    return None if times is None or has_topic and not found else Heard(times, int(found[1]) if found else None)


def believed(told: Relay, heard: Heard, number: int, skipped: Skipped) -> Iterator[tuple[int, Optional[int]]]:
    """What of a line its region may report."""
    for event, time in heard.times:
        cuts = told.behind.get(event, ())
        if heard.region is None or all(cut.home == heard.region for cut in cuts):
            yield event, time
        else:
            skipped.skip(number, f'region {heard.region} reports a time of event {event}, which is not its own')


def relay(told: Relay, file: BufferedIOBase, has_topics: bool, write: Callable[[str], None], skipped: Skipped) -> None:
    """Writes what each line asks for."""
    number = 0
    for lines in whole_lines(file):
        for number, line in enumerate(lines, number + 1):
            heard = heard_in(line, has_topics)
            if heard is None:
                skipped.skip(number, 'it is no line `event; time`' + (' in hexadecimal digits behind a topic' if has_topics else ''))
                continue
            for event, delay in told.tell(believed(told, heard, number, skipped)):
                if delay > LARGEST_DELAY:
                    skipped.skip(number, f'the delay of event {event} would be {delay} seconds, and may be {LARGEST_DELAY}')
                else:
                    write(f'delay event {event} {delay}')


class FeedFile:
    """A feed of a region, to which a relay appends."""

    def __init__(self, name: str):
        self.name = name
        append(name, ())
        self.text = text_of(name)

    def told(self) -> Iterator[tuple[int, int]]:
        """The delays of events that its lines report. Half a line reports none."""
        for line in self.text.split('\n')[:-1]:
            said = heard_in_feed(line.removesuffix('\r'))
            if isinstance(said, DelayEvent) and said.seconds <= LARGEST_DELAY:
                yield said.event, said.seconds

    def write(self, line: str) -> None:
        append(self.name, (line,))
