"""The lines that cancel a train by its name, and what they do to a day."""
from __future__ import annotations

import contextlib
import io
import os

from dispatch_tools.commands import cancel
from dispatch_tools.formats.giv import read_cancelled, read_network, start_rows
from dispatch_tools.formats.files import BadFile
from dispatch_tools.model.railway import cost_of, sound_times
from tests.test_gtfs import InNetwork, trips_and_times

TRIPS = 'r1 R 0 v1 A 08:00 B 08:10 C 08:30', 'r2 R 1 v1 C 08:40 B 09:00 A 09:10', 'g1 G 0 - A 09:00 B 09:20'


class Lines(InNetwork):
    def setUp(self) -> None:
        super().setUp()
        self.made(trips_and_times(*TRIPS))

    def lines(self, *words: str) -> tuple[int, list[str], str]:
        """The status of the command, the lines, and what it says besides."""
        with contextlib.redirect_stdout(io.StringIO()) as out:
            status, said = self.call(cancel, self.net, *words)
        return status, out.getvalue().splitlines(), said

    def test_trip(self) -> None:
        self.assertEqual(self.lines('g1'), (0, ['cancel 9', 'cancel 10'], ''))
        self.assertEqual(self.lines('g1', '--restore'), (0, ['restore 9', 'restore 10'], ''))

    def test_vehicle(self) -> None:
        self.assertEqual(self.lines('v1'), (0, [f'cancel {event}' for event in range(1, 9)], ''))

    def test_next_trip_of_the_vehicle_is_named(self) -> None:
        status, lines, said = self.lines('r1')
        self.assertEqual((status, lines), (0, ['cancel 1', 'cancel 2', 'cancel 3', 'cancel 4']))
        self.assertEqual(said, 'cancel: its vehicle was to run Red 08:40, which now waits for no vehicle: cancel that too if there is no other\n')

    def test_part_of_a_train(self) -> None:
        self.assertEqual(self.lines('r2', '--from', 'Boll'), (0, ['cancel 7', 'cancel 8'], ''))
        self.assertEqual(self.lines('r2', '--to', 'boll'), (0, ['cancel 5', 'cancel 6'], ''))
        self.assertEqual(self.lines('r2', '--to', 'Boll', '--restore'), (0, ['restore 5', 'restore 6'], ''))

    def test_gap_is_named(self) -> None:
        self.made(trips_and_times('r1 R 0 - A 08:00 B 08:10 C 08:30 A 08:50'))
        status, lines, said = self.lines('r1', '--from', 'Boll', '--to', 'Calm')
        self.assertEqual((status, lines), (0, ['cancel 3', 'cancel 4']))
        self.assertEqual(said, 'cancel: event 3: it is cancelled, and the train runs on behind it\n')

    def test_what_is_not_there(self) -> None:
        for words, what in (
            (['x'], 'no trip, vehicle or train is called x'), (['r1', '--from', 'Calm'], 'the train never leaves Calm'),
            (['r1', '--to', 'Ahl'], 'the train never reaches Ahl'), (['v1', '--from', 'Boll'], 'v1 is 2 trains: name one trip, as r1, r2'),
            (['r2', '--from', 'Boll', '--to', 'Boll'], 'the train reaches Boll before it leaves Boll'), ([''], 'no trip, vehicle or train is called '),
        ):
            status, lines, said = self.lines(*words)
            self.assertEqual((status, lines), (2, []))
            self.assertIn(what, said)

    def test_stop_that_a_train_leaves_twice(self) -> None:
        self.made(trips_and_times('r1 R 0 - A 08:00 B 08:10 A 08:20 B 08:30'))
        self.assertIn('the train leaves Ahl 2 times: 8:00 (event 1), 8:20 (event 5)', self.lines('r1', '--from', 'Ahl')[2])

    def test_trains_of_one_name(self) -> None:
        self.assertEqual(self.lines('Green 09:00')[1], ['cancel 9', 'cancel 10'])
        self.made(trips_and_times('r1 R 0 - A 08:00 B 08:10', 'r2 R 0 - B 08:00 C 08:10'))
        self.assertIn('2 trains are called Red 08:00: name a trip, as r1, r2', self.lines('Red 08:00')[2])

    def test_trains_that_have_a_number_and_a_name_alone(self) -> None:
        with open(os.path.join(self.net, 'Trains.csv'), 'w') as file:
            file.write('1;Early\n9;Late\n')
        self.assertEqual(self.lines('Late')[1], ['cancel 9', 'cancel 10'])


class AtTheStart(InNetwork):
    def test_files_of_the_start(self) -> None:
        net, _ = self.made(trips_and_times(*TRIPS))
        for name, text in ('late', '1; 60\n'), ('gone', '# events\n3\n 4 \n'), ('wrong', '3\n99\n'), ('odd', '3; 4\n'):
            with open(os.path.join(self.net, name), 'w') as file:
                file.write(text)
        rows = start_rows(net, self.net, 'late', None, 'gone')
        self.assertEqual((rows.event_delays[0], [place for place, gone in enumerate(rows.cancelled) if gone]), (60, [2, 3]))
        for name, what in ('wrong', 'there is no event 99'), ('odd', 'this is no record'), ('none', 'No such file'):
            with self.assertRaises(BadFile) as caught:
                start_rows(net, self.net, cancelled=name)
            self.assertIn(what, str(caught.exception))


class Reserve(InNetwork):
    """A train that stands in reserve between two others."""

    TRIPS = 'r1 R 0 v1 A 08:00 B 08:10', 'x1 R 0 v2 A 08:05 B 08:15', 'r2 R 0 v3 A 08:10 B 08:20', 'g1 G 0 - B 08:18 C 08:40'

    def with_reserve(self, *options: str) -> tuple[list[int], list[int], str]:
        """The events that are cancelled, the weights of all events, and what is said."""
        with open(os.path.join(self.folder, 'reserve'), 'w') as file:
            file.write('trip_id\nx1\nx9\n')
        net, said = self.made(trips_and_times(*self.TRIPS), f'--reserve-trains={self.folder}/reserve', *options)
        return read_cancelled(self.net, 'Cancelled.csv'), [event.weight for event in net.events], said

    def test_others_keep_their_distance(self) -> None:
        cancelled, weights, said = self.with_reserve()
        net = read_network(self.net)
        self.assertEqual(cancelled, [3, 4])
        self.assertEqual(weights, [0, 1000, 0, 0, 0, 1000, 0, 1000])
        pairs = {pair[:2] for pair in self.activities(net, 'headway')}
        self.assertEqual(pairs, {(f'{one} A', f'{other} A') for one in ('r1', 'x1', 'r2') for other in ('r1', 'x1', 'r2') if one != other})
        self.assertEqual([pair[:2] for pair in self.activities(net, 'change')], [('r1 B', 'g1 B')])
        self.assertIn('reserve trains 1, which are cancelled at the start with --cancelled=Cancelled.csv', said)
        self.assertIn('left out: reserve trains that do not run on the day, or are not chosen: 1', said)

    def test_day_is_on_time_and_costs_nothing(self) -> None:
        self.with_reserve()
        net = read_network(self.net)
        rows = start_rows(net, self.net, cancelled='Cancelled.csv')
        times = sound_times(net, rows)
        self.assertEqual((times, cost_of(net, rows, times, 3600)), ([event.time for event in net.events], 0))

    def test_no_file_without_reserve_trains(self) -> None:
        self.made(trips_and_times(*self.TRIPS))
        self.assertFalse(os.path.exists(os.path.join(self.net, 'Cancelled.csv')))
