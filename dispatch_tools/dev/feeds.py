"""Feeds for tests: the one that ships, small ones that are written out, and large ones that are made by rule."""
from __future__ import annotations

import os
import zipfile
from typing import Mapping, Union

from dispatch_tools.here import TOP

EXAMPLE = os.path.join(TOP, 'examples', 'six_stations')
SHIPPED = os.path.join(EXAMPLE, 'timetable')
DATE = '20261224'

# The lines of a file, or its bytes; None where it is not there.
File = Union[list[str], bytes, None]

# A day of one line between two stations, of which tests replace files.
SMALL: dict[str, list[str]] = {
    'stops.txt': ['stop_id,stop_name,parent_station', 'A,Ahl,', 'B,Boll,', 'C,Calm,'],
    'routes.txt': ['route_id,route_short_name,route_type', 'R,Red,2', 'G,Green,2'],
    'calendar.txt': [
        'service_id,monday,tuesday,wednesday,thursday,friday,saturday,sunday,start_date,end_date',
        'S,1,1,1,1,1,1,1,20260101,20261231',
    ],
    'trips.txt': ['route_id,service_id,trip_id,direction_id,block_id', 'R,S,r1,0,'],
    'stop_times.txt': [
        'trip_id,arrival_time,departure_time,stop_id,stop_sequence', 'r1,08:00:00,08:00:00,A,1', 'r1,08:10:00,08:11:00,B,2',
        'r1,08:30:00,08:30:00,C,3',
    ],
}


def lines_in(files: Mapping[str, File], name: str) -> list[str]:
    """The lines of a file that has some."""
    lines = files[name]
    assert isinstance(lines, list)
    return lines


def write_feed(folder: str, files: Mapping[str, File]) -> str:
    """Writes a feed of files, each a list of lines or bytes; none where it is None."""
    os.makedirs(folder)
    for name, lines in files.items():
        if lines is not None:
            data = lines if isinstance(lines, bytes) else ''.join(f'{line}\n' for line in lines).encode()
            with open(os.path.join(folder, name), 'wb') as file:
                file.write(data)
    return folder


def zipped(folder: str, name: str, inside: str = '') -> str:
    """Packs the files of a folder into a zip file, in which they stand in another folder."""
    with zipfile.ZipFile(name, 'w') as archive:
        for file in sorted(os.listdir(folder)):
            archive.write(os.path.join(folder, file), inside + file)
    return name


def clock(seconds: int) -> str:
    return f'{seconds // 3600:02}:{seconds // 60 % 60:02}:{seconds % 60:02}'


def large_feed(trips: int, stops: int = 20, routes: int = 20) -> dict[str, File]:
    """A feed of so many trips, each over so many stations in a row, of lines that cross where their stations are the same."""
    stop_lines = [f'P{place},Place {place},' for place in range(10 * routes + stops)]
    trip_lines, time_lines = [], []
    for trip in range(trips):
        route, turn = trip % routes, trip // routes
        trip_lines.append(f'R{route},S,T{trip},{turn % 2},B{route}-{turn % 9}')
        path: list[int] = list(range(10 * route, 10 * route + stops))
        time = 14400 + 600 * turn + 20 * route
        for sequence, place in enumerate(path if turn % 2 == 0 else reversed(path), 1):
            time_lines.append(f'T{trip},{clock(time)},{clock(time + 60)},P{place},{sequence}')
            time += 240
    return {
        'stops.txt': [SMALL['stops.txt'][0], *stop_lines],
        'routes.txt': [SMALL['routes.txt'][0], *(f'R{route},L {route},2' for route in range(routes))],
        'calendar.txt': SMALL['calendar.txt'],
        'trips.txt': [SMALL['trips.txt'][0], *trip_lines],
        'stop_times.txt': [SMALL['stop_times.txt'][0], *time_lines],
    }
