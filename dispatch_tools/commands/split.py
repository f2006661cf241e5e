"""Cuts a network at boundary stops into regions, each for a server of its own: dispatch-tools split NET STOPS DIR [--regions N]

NET is the folder of a network, and STOPS are the ids of the boundary stops, separated by commas. The script may cut an activity
between two events at boundary stops, but never a drive or a pair of headways. Every other activity holds its events together. So
the network falls into parts. Without --regions each part is a region. With it the script puts the parts together into N regions
of about as many events each, in the order of their least stops. It refuses more regions than there are parts.

DIR/region-1, region-2 and so on get a folder `net` with the two files of a network, and a table `Boundary.csv`. The table has a
record for each cut activity whose tail is in the region: `event here;region here;region there;event there;lower bound;scheduled
time there`. Each event is in one region. Each activity is in one region or in one table. A change that is cut is kept for ever,
as a wait is, because a table knows no choices: the script prints how many are, and of how many passengers. The file `boards` has the stops at which the region has an end of a cut activity,
with commas between: give them to the region's server as --boards.

With --date=DAY NET is a timetable in GTFS, which may be too large for one network: dispatch-tools split FEED STOPS DIR --date=DAY
[OPTION..]. Then STOPS are its stop_ids, and the further options are those of from_gtfs. Each region's folder gets the files of
names, too.

The status is 2 if a region would be too large for the program, or if a file is not good.
"""
from __future__ import annotations

import argparse
import os
import sys
from collections import Counter
from dataclasses import replace
from typing import NamedTuple, Optional, Sequence

from dispatch_tools.commands import from_gtfs as from_gtfs_command
from dispatch_tools.days import from_gtfs
from dispatch_tools.days.expand import Expanded
from dispatch_tools.days.trains import PROGRAM, Refused
from dispatch_tools.days.split import Cut, LARGEST, MOST_REGIONS, parts_of, regions_of, stops_of_feed, stops_of_network
from dispatch_tools.formats.files import BadFile, speak_utf8, write_all
from dispatch_tools.formats.giv import decimal, network_files, read_network
from dispatch_tools.formats.gtfs_rows import Feed
from dispatch_tools.formats.runtext import MOST_BOARDS
from dispatch_tools.model.network import Activity, Event, Network
from dispatch_tools.words import command_line, whole_between


class Region(NamedTuple):
    """The events and activities of a region, the activities that were cut behind its events, those of them that are changes, and the
    stops where it has an end of one that was cut."""
    events: list[Event]
    activities: list[Activity]
    cuts: list[Cut]
    changes: list[Activity]
    boards: set[int]

    def __str__(self) -> str:
        said = f'{len(self.events)} events, {len(self.activities)} activities, {len(self.cuts)} cut'
        if not self.changes:
            return said
        people = sum(change.weight for change in self.changes)
        return f'{said} (changes {len(self.changes)}, passengers {decimal(people)})'


def split(network: Network, region_of: list[int]) -> dict[int, Region]:
    """The regions by number."""
    regions = {number: Region([], [], [], [], set()) for number in sorted(set(region_of))}
    for place, event in enumerate(network.events):
        regions[region_of[place]].events.append(event)
    for place, activity in enumerate(network.activities):
        tail, head = network.tails[place], network.heads[place]
        here = regions[region_of[tail]]
        if region_of[tail] == region_of[head]:
            here.activities.append(activity)
        else:
            there = network.events[head]
            here.cuts.append(Cut(activity.tail, region_of[tail], region_of[head], there.id, activity.lower, there.time))
            here.changes.extend([activity] if activity.kind == 'change' else [])
            here.boards.add(network.events[tail].stop)
            regions[region_of[head]].boards.add(there.stop)
    return regions


def boundary_text(cuts: list[Cut]) -> str:
    lines = ['# event here;region here;region there;event there;lower bound;scheduled time there\n']
    return ''.join(lines + [f'{";".join(map(str, cut))}\n' for cut in cuts])


def refuse_large_ones(regions: dict[int, Region]) -> None:
    """Refused if the program would not load a region."""
    for number, region in regions.items():
        if len(region.events) > PROGRAM.events or len(region.activities) > PROGRAM.activities:
            raise Refused(
                f'region {number} would have {len(region.events)} events and {len(region.activities)} activities, and may have '
                f'{PROGRAM.events} and {PROGRAM.activities}: choose more regions, or more boundary stops'
            )
        if len(region.boards) > MOST_BOARDS:
            raise Refused(f'region {number} would have {len(region.boards)} boards, and may have {MOST_BOARDS}: choose fewer boundary stops')


def write_regions(regions: dict[int, Region], folder: str, made: Optional[from_gtfs.Made]) -> None:
    """Writes the files of each region; those of names, too, where the network was made of a feed."""
    for number, region in regions.items():
        files = network_files(region.events, region.activities) if made is None else from_gtfs.texts_of(named(made, region))
        write_all(os.path.join(folder, f'region-{number}', 'net'), files)
        boards = f'{",".join(map(str, sorted(region.boards)))}\n'
        write_all(os.path.join(folder, f'region-{number}'), {'Boundary.csv': boundary_text(region.cuts), 'boards': boards})


def named(made: from_gtfs.Made, region: Region) -> from_gtfs.Made:
    """What was made of a feed, as far as it is in a region: of each train the events that are there."""
    events, stops = {event.id for event in region.events}, {event.stop for event in region.events}
    trains = [replace(train, moments=[one for one in train.moments if one.event.id in events]) for train in made.expanded.trains]
    stations = {station: number for station, number in made.expanded.stations.items() if number in stops}
    changes = [(number, link) for number, link in made.expanded.changes if events.issuperset(link.ends)]
    here = [train for train in trains if train.moments]
    return replace(made, expanded=Expanded(here, stations, region.events, region.activities, changes, Counter()))


def made_of_feed(name: str, date: str, options: Sequence[str]) -> from_gtfs.Made:
    words = from_gtfs_command.words_read([name, date, '', *options])
    with Feed(name) as feed:
        made = from_gtfs.make(feed, words, LARGEST)
    for line in from_gtfs.summary(made, words):
        print(line, file=sys.stderr)
    return made


def cut(given: argparse.Namespace, options: Sequence[str]) -> None:
    if given.date is None:
        made, network = None, read_network(given.net)
        boundary = stops_of_network(network, given.net, given.stops)
    else:
        made = made_of_feed(given.net, given.date, options)
        network = Network(made.expanded.events, made.expanded.activities)
        boundary = stops_of_feed(made, given.net, given.stops)
    region_of = regions_of(network, parts_of(network, boundary), given.regions)
    regions = split(network, region_of)
    refuse_large_ones(regions)
    write_regions(regions, given.dir, made)
    for number, region in regions.items():
        print(f'region {number}: {region}')


def main(argv: Sequence[str] | None = None) -> int:
    words = command_line(__doc__, allow_abbrev=False)
    words.add_argument('net', metavar='NET', help='folder of a network, or with --date a timetable in GTFS')
    words.add_argument('stops', metavar='STOPS', help='ids of the boundary stops, such as 6,17')
    words.add_argument('dir', metavar='DIR', help='folder for the regions')
    words.add_argument('--regions', type=whole_between(1, MOST_REGIONS), metavar='N', help='number of regions (as many as parts)')
    words.add_argument('--date', metavar='DAY', help='service day of a timetable in GTFS, such as 20261224')
    given, options = words.parse_known_args(argv)
    if options and given.date is None:
        words.error(f'unrecognized arguments: {" ".join(options)}')
    speak_utf8()
    try:
        cut(given, options)
    except (BadFile, Refused) as fault:
        print(f'split: {fault}', file=sys.stderr)
        return 2
    return 0
