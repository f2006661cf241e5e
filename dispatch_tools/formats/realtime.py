"""What GTFS-Realtime and a network share: trains by their trips, and times of a service day as times of the world."""
from __future__ import annotations

import os
from datetime import datetime
from typing import NamedTuple, Optional
from zoneinfo import ZoneInfo, ZoneInfoNotFoundError

from dispatch_tools.formats.files import BadFile
from dispatch_tools.formats.gtfs_rows import clock, seconds_of
from dispatch_tools.formats.names import EventName, named_trip, read_day_name, read_events, read_trains, TrainName

# Of TripDescriptor and of StopTimeUpdate, schedule_relationship.
SCHEDULED = 0
ADDED = 1
CANCELED = 3
TRIPS_TAKEN = {0, 2}
TRIPS_GONE = {3: 'cancelled', 7: 'deleted'}
SKIPPED, NO_DATA = 1, 2
STOPPED_AT = 1


class Named(NamedTuple):
    """The trains of a network by their first events, their events in order, its service day, and the second at which that begins."""
    trains: dict[int, TrainName]
    events: dict[int, list[EventName]]
    day: str
    begin: int


def beginning(day: str, zone: str) -> int:
    """The second of the world at which a service day begins: twelve hours before noon."""
    noon = datetime.strptime(f'{day} 12', '%Y-%m-%d %H').replace(tzinfo=ZoneInfo(zone))
    return int(noon.timestamp()) - 12 * 3600


def read_named(net: str, zone: Optional[str] = None) -> Named:
    name = os.path.join(net, 'Day.csv')
    day, own = read_day_name(net)
    if not day or not (zone or own):
        raise BadFile(name, None, 'this names no service day and time zone: make the network anew, or give --zone')
    try:
        begin = beginning(day, zone or own)
    except (ValueError, ZoneInfoNotFoundError, OSError) as error:
        raise BadFile(name, None, f'{day} in {zone or own} is no day of a time zone that is known here') from error
    events: dict[int, list[EventName]] = {}
    for event in read_events(net):
        events.setdefault(event.train, []).append(event)
    return Named({train.event: train for train in read_trains(net) if train.event in events}, events, day.replace('-', ''), begin)


def descriptor(train: TrainName, day: str) -> dict[str, object]:
    """The TripDescriptor of a train. It does not call one that a frequency made scheduled: the standard forbids that where the
    frequency has no exact times."""
    named = named_trip(train.trip)
    if named.start:
        return {'trip_id': named.trip, 'start_time': named.start, 'start_date': named.day or day}
    return {'trip_id': named.trip, 'start_date': named.day or day, 'schedule_relationship': SCHEDULED}


def key_of(trip: dict[str, object], day: str) -> tuple[str, str, str]:
    """What finds the train of a TripDescriptor; a day that it does not give is that of the network. 8:55:00 is 08:55:00."""
    start = str(trip.get('start_time', ''))
    seconds = seconds_of(start)
    return str(trip.get('trip_id', '')), str(trip.get('start_date') or day), start if seconds is None else clock(seconds)


def by_key(named: Named) -> dict[tuple[str, str, str], int]:
    """The trains by trip, day and, where a frequency made them, time."""
    return {
        (one.trip, one.day or named.day, one.start): event
        for event, train in named.trains.items() for one in [named_trip(train.trip)]
    }
