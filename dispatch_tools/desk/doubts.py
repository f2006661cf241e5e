"""What is asked before a report is sent that may be a slip of the hand."""
from __future__ import annotations

from typing import Iterator, Optional

from dispatch_tools.desk.day import Day
from dispatch_tools.model.messages import DelayActivity, DelayEvent, Pass, Said
from dispatch_tools.pictures.scene import clock_time, duration

# A delay of more seconds is asked about, and a time that is farther from the clock, or from the time that is expected.
LONG, FAR = 3_600, 3_600


def doubts_of(day: Day, said: Optional[Said]) -> list[str]:
    """What speaks against a report, in words."""
    if isinstance(said, (DelayEvent, DelayActivity)) and said.seconds > LONG:
        return [f'{day.naming.said(said)}. That is more than {duration(LONG)}.']
    if isinstance(said, Pass) and said.event in day.network.event_place:
        return [*of_time(day, said), *of_order(day, said)]
    return []


def of_time(day: Day, said: Pass) -> Iterator[str]:
    expected = day.reckoning.times[day.network.event_place[said.event]]
    for mark, words in ((day.clock, 'the clock, which stands at'), (expected, 'the time that is expected:')):
        if mark and abs(said.time - mark) > FAR:
            side = 'before' if said.time < mark else 'after'
            yield f'{day.naming.said(said)}. That is {duration(abs(said.time - mark))} {side} {words} {clock_time(mark, True)}.'


def of_order(day: Day, said: Pass) -> Iterator[str]:
    """The last event of the train before this one, and the first one behind it, if this time is on the wrong side of it."""
    place, passed = day.network.event_place[said.event], day.reckoning.rows.passed
    train = day.trains[day.naming.train_of[place]]
    at = train.index(place)
    before = [one for one in reversed(train[:at]) if passed[one] is not None]
    behind = [one for one in train[at + 1:] if passed[one] is not None]
    for places, sign, side in ((before, 1, 'before'), (behind, -1, 'after')):
        for one in places[:1]:
            time = passed[one]
            if time is not None and sign * said.time < sign * time:
                yield f'{day.naming.said(said)}. That is {side} {day.naming.event(one, "left", "reached")} at {clock_time(time, True)}.'
