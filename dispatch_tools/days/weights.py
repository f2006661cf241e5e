"""The passengers of a timetable, of journeys that are counted or assigned: who leaves each train where, and who changes."""
from __future__ import annotations

import csv
import io
from collections import Counter
from dataclasses import dataclass
from typing import Iterable, Iterator

from dispatch_tools.days.from_gtfs import MOST_PASSENGERS, passengers_of
from dispatch_tools.formats.files import BadFile
from dispatch_tools.formats.giv import decimal
from dispatch_tools.formats.gtfs_rows import read_rows, Row, told_as

COLUMNS = ('journey', 'trip_id', 'from_stop_id', 'to_stop_id', 'number')


@dataclass(frozen=True)
class Leg:
    """A ride of a journey: the trip, where passengers leave it, and how many they are, in thousandths."""
    trip: str
    stop: str
    number: int


def journeys_of(rows: Iterable[Row]) -> Iterator[list[Leg]]:
    """The legs of each journey: rows of one name that follow each other, all with one number."""
    done: set[str] = set()
    name, legs = '', list[Leg]()
    for row in rows:
        if row.text('journey') != name:
            if legs:
                yield legs
            name, legs = row.text('journey'), []
            if name in done:
                raise row.fault('journey', f'{name} stands in two places')
            done.add(name)
        number = passengers_of(row['number'])
        if not 0 <= number <= MOST_PASSENGERS * 1000:
            raise row.fault('number', f'"{row["number"]}" is no number from 0 to {MOST_PASSENGERS}')
        if legs and legs[0].number != number:
            raise row.fault('number', f'the legs of {name} before have {decimal(legs[0].number)} passengers')
        if row.text('from_stop_id') == row.text('to_stop_id'):
            raise row.fault('to_stop_id', 'this is where the leg begins')
        if legs and legs[-1].trip == row.text('trip_id'):
            raise row.fault('trip_id', 'this is the trip of the leg before')
        legs.append(Leg(row['trip_id'], row['to_stop_id'], number))
    if legs:
        yield legs


def read_journeys(name: str) -> list[list[Leg]]:
    with told_as(name), open(name, 'rb') as file:
        return list(journeys_of(read_rows(name, file, COLUMNS)))


def passengers_text(journeys: Iterable[list[Leg]], is_once: bool) -> str:
    """The file of passengers for from_gtfs; those who change leave a train where they change, too, unless each counts once."""
    leaving: Counter[tuple[str, str]] = Counter()
    changing: Counter[tuple[str, str, str]] = Counter()
    for legs in journeys:
        for leg in legs[-1:] if is_once else legs:
            leaving[leg.trip, leg.stop] += leg.number
        for leg, after in zip(legs, legs[1:]):
            changing[leg.trip, leg.stop, after.trip] += leg.number
    most = max([*leaving.values(), *changing.values()], default=0)
    if most > MOST_PASSENGERS * 1000:
        raise BadFile('journeys', None, f'{decimal(most)} passengers would leave one train at one stop, and at most {MOST_PASSENGERS} may')
    text = io.StringIO()
    table = csv.writer(text, lineterminator='\n')
    table.writerow(('trip_id', 'stop_id', 'number', 'to_trip_id'))
    table.writerows((*key, decimal(number), '') for key, number in sorted(leaving.items()))
    table.writerows((trip, stop, decimal(number), to) for (trip, stop, to), number in sorted(changing.items()))
    return text.getvalue()
