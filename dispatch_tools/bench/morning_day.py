"""The timetable of a morning that is played: its trains, connections and files."""
from __future__ import annotations

from dataclasses import dataclass, field
from typing import NamedTuple

from dispatch_tools.formats.gtfs_rows import clock

DATE, ZONE = '20261124', 'Europe/Berlin'

BEGIN, END = 6 * 3600, 9 * 3600
DWELL, TURN, HEADWAY, CHANGE, LONGEST_CHANGE, PATIENCE = 30, 300, 120, 180, 1800, 300


# ---- The timetable


@dataclass
class Train:
    """A trip: its line, direction, vehicle and stations, and the scheduled times by event."""
    name: str
    line: str
    direction: int
    vehicle: str
    stations: list[str]
    times: dict[Event, int] = field(default_factory=dict)

    @property
    def events(self) -> list[Event]:
        return list(self.times)


class Event(NamedTuple):
    """An arrival or a departure of a train at the call of a number, from 0."""
    train: str
    call: int
    kind: str


class Bound(NamedTuple):
    """An event is so many seconds behind another one."""
    before: Event
    after: Event
    seconds: int


class Connection(NamedTuple):
    """A change from a train that arrives to one that leaves."""
    bound: Bound
    is_guaranteed: bool


LINES = {
    'A': (['A1', 'A2', 'Mid', 'A4', 'A5'], [420, 540, 360, 600], 1200, 0),
    'B': (['B1', 'B2', 'B3', 'Mid', 'B5'], [300, 480, 420, 540], 1500, 300),
    'C': (['C1', 'C2', 'Mid', 'C4'], [660, 480, 720], 1800, 120),
}


def trains_of_morning() -> list[Train]:
    """Each line both ways; in B a train that has come to the end goes back as the next one that leaves five minutes later or more."""
    trains = []
    for line, (stations, drives, every, start) in LINES.items():
        for direction in (0, 1):
            way, legs = (stations, drives) if direction == 0 else (stations[::-1], drives[::-1])
            for number, begin in enumerate(range(BEGIN + start + 90 * direction, END, every)):
                train = Train(f'{line}{direction}-{number}', line, direction, '', way)
                at = begin
                for call, drive in enumerate(legs):
                    train.times[Event(train.name, call, 'departure')] = at
                    at += drive
                    train.times[Event(train.name, call + 1, 'arrival')] = at
                    at += 120 if way[call + 1] == 'Mid' else 60
                trains.append(train)
    couple(trains)
    return trains


def ends_of(train: Train) -> tuple[int, int]:
    times = list(train.times.values())
    return times[0], times[-1]


def couple(trains: list[Train]) -> None:
    """Gives the trains of line B their vehicles."""
    free: list[tuple[int, int, str]] = []
    for train in sorted((one for one in trains if one.line == 'B'), key=ends_of):
        begin, end = ends_of(train)
        found = next((one for one in sorted(free) if one[1] != train.direction and one[0] + TURN <= begin), None)
        if found:
            free.remove(found)
        train.vehicle = found[2] if found else f'V{train.name}'
        free.append((end, train.direction, train.vehicle))


def guaranteed_pairs(trains: list[Train]) -> list[tuple[str, str]]:
    """Each second train of A to its end has a guaranteed connection to the next one of C back."""
    found = []
    for train in trains:
        if train.line == 'A' and train.direction == 0 and int(train.name[3:]) % 2 == 0:
            arrives = train.times[Event(train.name, train.stations.index('Mid'), 'arrival')]
            others = [(at_middle(one), one.name) for one in trains if one.line == 'C' and one.direction == 1]
            after = min((one for one in others if one[0] >= arrives + 120), default=None)
            if after:
                found.append((train.name, after[1]))
    return found


def at_middle(train: Train) -> int:
    """When a train leaves the station where the lines meet."""
    return train.times[Event(train.name, train.stations.index('Mid'), 'departure')]


def feed_files(trains: list[Train], pairs: list[tuple[str, str]]) -> dict[str, str]:
    """The timetable in GTFS."""
    stations = sorted({station for train in trains for station in train.stations})
    trips = [f'{one.line},daily,{one.name},{one.direction},{one.vehicle}' for one in trains]
    calls = [
        f'{train.name},{clock(arrival)},{clock(departure)},{station},{call + 1}'
        for train in trains for call, station in enumerate(train.stations)
        for arrival, departure in [both_times(train, call)]
    ]
    tables = {
        'agency': ['agency_id,agency_name,agency_url,agency_timezone', f'M,Morning,https://example.org,{ZONE}'],
        'stops': ['stop_id,stop_name', *(f'{station},{station}' for station in stations)],
        'routes': ['route_id,route_short_name,route_type', *(f'{line},{line},2' for line in LINES)],
        'calendar_dates': ['service_id,date,exception_type', f'daily,{DATE},1'],
        'trips': ['route_id,service_id,trip_id,direction_id,block_id', *trips],
        'stop_times': ['trip_id,arrival_time,departure_time,stop_id,stop_sequence', *calls],
        'transfers': ['from_stop_id,to_stop_id,from_trip_id,to_trip_id,transfer_type,min_transfer_time',
                      *(f'Mid,Mid,{one},{other},1,120' for one, other in pairs)],
    }
    return {f'{name}.txt': ''.join(f'{line}\n' for line in lines) for name, lines in tables.items()}


def both_times(train: Train, call: int) -> tuple[int, int]:
    arrival, departure = (train.times.get(Event(train.name, call, kind)) for kind in ('arrival', 'departure'))
    return arrival or departure or 0, departure or arrival or 0
