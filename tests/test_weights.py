"""Passengers of journeys and of counts: the example by hand, and tables that are wrong."""
from __future__ import annotations

import contextlib
import csv
import io
import os
import re
from collections import Counter

from dispatch_tools.commands import from_gtfs, lint, passengers
from dispatch_tools.formats.giv import read_network
from dispatch_tools.formats.names import read_changes
from tests.folders import InFolder
from tests.samples import TOP

HERE = os.path.join(TOP, 'examples', 'weights')
TIMETABLE = os.path.join(TOP, 'examples', 'six_stations', 'timetable')
HEAD = 'journey,trip_id,from_stop_id,to_stop_id,number'


def table(name: str) -> list[dict[str, str]]:
    with open(os.path.join(HERE, name), encoding='utf-8', newline='') as file:
        return list(csv.DictReader(file))


class Weights(InFolder):
    def made(self, *words: str) -> tuple[int, str, str]:
        out, errors = io.StringIO(), io.StringIO()
        with contextlib.redirect_stdout(out), contextlib.redirect_stderr(errors):
            status = passengers.main(words)
        return status, out.getvalue(), errors.getvalue()

    def journeys(self, *rows: str) -> tuple[int, str, str]:
        name = os.path.join(self.folder, 'journeys')
        with open(name, 'w', encoding='utf-8') as file:
            file.writelines(f'{row}\n' for row in (HEAD, *rows))
        return self.made(name)

    def test_the_page_shows_what_comes_out(self) -> None:
        with open(os.path.join(HERE, 'README.md'), encoding='utf-8') as file:
            counted, assigned = re.findall('```text\n(.*?)```', file.read(), re.DOTALL)
        self.assertEqual(self.made(os.path.join(HERE, 'journeys.csv')), (0, assigned, ''))
        rows = [f'{row["trip_id"]},{row["stop_id"]},{row["alightings"]}' for row in table('counts.csv') if row['alightings'] != '0']
        self.assertEqual(counted.splitlines(), ['trip_id,stop_id,number', *rows])

    def test_journeys_are_those_that_are_counted(self) -> None:
        on: Counter[tuple[str, str]] = Counter()
        off: Counter[tuple[str, str]] = Counter()
        for row in table('journeys.csv'):
            on[row['trip_id'], row['from_stop_id']] += int(row['number'])
            off[row['trip_id'], row['to_stop_id']] += int(row['number'])
        for row in table('counts.csv'):
            key = row['trip_id'], row['stop_id']
            self.assertEqual((on[key], off[key]), (int(row['boardings']), int(row['alightings'])), key)

    def test_each_once(self) -> None:
        # Of the 60 and 70 who leave at Corben 6 and 7 change.
        _, told, _ = self.made(os.path.join(HERE, 'journeys.csv'), '--once')
        self.assertEqual(told.splitlines()[1:], [
            'back,AR,90,', 'back,BI,40,', 'back,CO-1,63,', 'west,CO-2,54,', 'west,EL,50,', 'back,CO-1,7,west', 'west,CO-2,6,back'])

    def test_from_gtfs_takes_them(self) -> None:
        name, net = os.path.join(self.folder, 'passengers'), os.path.join(self.folder, 'net')
        with open(name, 'w', encoding='utf-8') as file:
            file.write(self.made(os.path.join(HERE, 'journeys.csv'))[1])
        with contextlib.redirect_stderr(io.StringIO()), contextlib.redirect_stdout(io.StringIO()) as out:
            self.assertEqual(from_gtfs.main([TIMETABLE, '20261224', net, f'--passengers={name}']), 0)
            self.assertEqual(lint.main([net]), 0)
        self.assertEqual(out.getvalue(), '')
        changes = {(change.trip, change.next_trip): change.passengers for change in read_changes(net)}
        self.assertEqual((changes['west', 'back'], changes['back', 'west']), ('6', '7'))
        self.assertEqual(sum(event.weight for event in read_network(net).events), 1000 * (60 + 50 + 70 + 40 + 90))

    def test_tables_that_are_wrong_are_told(self) -> None:
        for rows, what in (
            (['a,t,A,B,1', 'b,t,A,B,1', 'a,u,B,C,1'], 'line 4: column journey: a stands in two places'),
            (['a,t,A,B,1', 'a,u,B,C,2'], 'line 3: column number: the legs of a before have 1 passengers'),
            (['a,t,A,A,1'], 'line 2: column to_stop_id: this is where the leg begins'),
            (['a,t,A,B,1', 'a,t,B,C,1'], 'line 3: column trip_id: this is the trip of the leg before'),
            (['a,t,A,B,x'], 'line 2: column number: "x" is no number'), ([',t,A,B,1'], 'column journey: nothing stands here'),
            (['a,t,A,B,1000001'], 'column number'), (['a,t,A,B,900000', 'b,t,A,B,900000'], '1800000 passengers would leave one train'),
        ):
            with self.subTest(rows):
                status, told, said = self.journeys(*rows)
                self.assertEqual((status, told), (2, ''))
                self.assertIn(what, said)

    def test_parts_of_passengers(self) -> None:
        self.assertEqual(self.journeys('a,t,A,B,0.5', 'a,u,B,C,0.5', 'b,t,A,B,1.25')[1].splitlines()[1:], ['t,B,1.750,', 'u,C,0.500,', 't,B,0.500,u'])
