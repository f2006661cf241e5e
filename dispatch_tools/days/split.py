"""A network or a timetable that is cut at boundary stops into regions."""
from __future__ import annotations

import argparse
from typing import NamedTuple, Optional

from dispatch_tools.days import from_gtfs
from dispatch_tools.days.trains import Limits, Refused
from dispatch_tools.formats.files import BadFile
from dispatch_tools.model.network import Network
from dispatch_tools.words import stops_of

MOST_REGIONS = 100_000

# The largest timetable that is cut.
LARGEST = Limits(2_000_000, 10_000_000)


class Cut(NamedTuple):
    """An activity that was cut: the event at its tail and its region, and region, event, bound and schedule at its head."""
    here: int
    home: int
    region: int
    there: int
    lower: int
    scheduled: int


# ---- Parts


class Parts:
    """Which events are held together: each event leads to one that stands for its part."""

    def __init__(self, count: int) -> None:
        self.above = list(range(count))

    def part_of(self, place: int) -> int:
        while self.above[place] != place:
            self.above[place] = self.above[self.above[place]]
            place = self.above[place]
        return place

    def hold(self, one: int, other: int) -> None:
        self.above[self.part_of(one)] = self.part_of(other)


def may_be_cut(network: Network, boundary: set[int], place: int) -> bool:
    """Whether both events of an activity are at boundary stops, and it is neither a drive nor of a pair."""
    if network.activities[place].kind == 'drive' or network.pair_by_activity[place] is not None:
        return False
    return all(network.events[end].stop in boundary for end in (network.tails[place], network.heads[place]))


def parts_of(network: Network, boundary: set[int]) -> list[int]:
    """For each event, by place, the event that stands for its part."""
    parts = Parts(len(network.events))
    for place in range(len(network.activities)):
        if not may_be_cut(network, boundary, place):
            parts.hold(network.tails[place], network.heads[place])
    return [parts.part_of(place) for place in range(len(network.events))]


def regions_of(network: Network, parts: list[int], count: Optional[int]) -> list[int]:
    """For each event, by place, its region from 1: the parts in the order of their least stops, about as many events in each."""
    sizes: dict[int, int] = {}
    stops: dict[int, int] = {}
    for place, part in enumerate(parts):
        sizes[part] = sizes.get(part, 0) + 1
        stops[part] = min(stops.get(part, network.events[place].stop), network.events[place].stop)
    order = sorted(sizes, key=lambda part: (stops[part], part))
    if count is None:
        region = {part: number for number, part in enumerate(order, 1)}
    elif count > len(order):
        raise BadFile('--regions', None, f'{count} is above {len(order)}, the number of parts')
    else:
        region, before, number = {}, 0, 0
        for place, part in enumerate(order):
            # A region begins where its share does, and none is left without a part.
            share = 1 + before * count // len(parts)
            region[part] = number = min(max(share, number, count - len(order) + place + 1), number + 1)
            before += sizes[part]
    return [region[part] for part in parts]


# ---- What is cut


def stops_of_network(network: Network, folder: str, said: str) -> set[int]:
    """The boundary stops of a network, of which each is to have events."""
    try:
        stops = stops_of(said)
    except argparse.ArgumentTypeError as error:
        raise Refused(str(error)) from error
    known = {event.stop for event in network.events}
    for stop in stops:
        if stop not in known:
            raise BadFile(folder, None, f'no event is at stop {stop}')
    return set(stops)


def stops_of_feed(made: from_gtfs.Made, name: str, said: str) -> set[int]:
    """The numbers of the stations of stop_ids."""
    numbers = [made.expanded.stations.get(made.stops.stations.get(stop, '')) for stop in said.split(',')]
    for stop, number in zip(said.split(','), numbers):
        if number is None:
            raise BadFile(name, None, f'no train calls at stop {stop}')
    return {number for number in numbers if number is not None}
