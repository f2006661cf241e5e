"""Timetables of runs in GTFS: times do not fall within a trip, and trains stand at their ends as long as the feed says."""
from __future__ import annotations

import os
import re
from typing import Sequence

from dispatch_tools.commands import to_gtfs
from dispatch_tools.dev.feeds import SMALL, write_feed
from dispatch_tools.formats.giv import read_network
from dispatch_tools.formats.gtfs_rows import seconds_of
from dispatch_tools.model.messages import Cancel, DelayEvent, Message, Pass, Restore
from dispatch_tools.model.railway import admit, cost_of, Rows, sound_times
from tests.folders import read
from tests.samples import lines_of_run
from tests.test_gtfs import InNetwork, trips_and_times


class Back(InNetwork):
    def late(self, messages: Sequence[Message], *options: str) -> tuple[str, list[str]]:
        """What is said, and the lines of stop_times.txt, after the messages of a run over the network."""
        net = read_network(self.net)
        rows = Rows(net)
        for entries, message in enumerate(messages):
            refusal, after = admit(net, rows, entries, message)
            self.assertIsNone(refusal)
            assert after is not None
            rows = after
        times = sound_times(net, rows)
        lines = lines_of_run(net, messages, times, cost_of(net, rows, times, 0))
        folder = write_feed(os.path.join(self.folder, f'run{len(os.listdir(self.folder))}'), {'text': lines})
        out = os.path.join(self.folder, 'late')
        status, said = self.call(to_gtfs, self.net, os.path.join(folder, 'text'), out, *options)
        self.assertEqual(status, 0, said)
        return said, read(out, 'stop_times.txt').splitlines()[1:]

    def test_train_that_has_passed_before_it_should_have_left(self) -> None:
        self.made(trips_and_times('r1 R 0 - A 07:00 B 07:10 C 07:30', 'r2 R 0 - A 09:00 B 09:10'))
        said, lines = self.late([DelayEvent(1, 1800), Pass(2, 26100)])
        self.assertEqual(lines[:3], ['r1,07:15:00,07:15:00,A,1', 'r1,07:15:00,07:15:00,B,2', 'r1,07:33:36,07:33:36,C,3'])
        self.assertEqual(said, 'to_gtfs: trip r1: its times fall, so some are written as one that follows: 1, '
                         'first the departure at A, call 1, 07:30:00 as 07:15:00\n')
        self.assertEqual(read(self.folder, 'late', 'delays.csv').splitlines()[1], 'r1,Red,,900,216,900,A,1')

    def test_times_never_fall(self) -> None:
        self.made(trips_and_times('r1 R 0 - A 07:00 B 07:10 C 07:30 A 07:50 B 08:00'))
        said, lines = self.late([DelayEvent(1, 900), Pass(4, 27100), DelayEvent(5, 3000), Pass(6, 26900), Pass(8, 26000)])
        times = [seconds_of(time) for line in lines for time in re.findall('[0-9]+:[0-9]+:[0-9]+', line)]
        self.assertEqual(times, sorted(times))
        self.assertEqual(lines[-1], 'r1,07:13:20,07:13:20,B,5')
        self.assertIn('one that follows: 7, first the departure at A, call 1, 07:15:00 as 07:13:20', said)

    def test_what_is_cancelled_is_left_out(self) -> None:
        self.made(trips_and_times('r1 R 0 - A 07:00 B 07:10 C 07:30', 'r2 R 0 - A 09:00 B 09:10'))
        said, lines = self.late([Cancel(3), Cancel(4), Cancel(5), Cancel(6)])
        self.assertEqual(lines, ['r1,07:00:00,07:00:00,A,1', 'r1,07:10:00,07:10:00,B,2'])
        self.assertEqual(said, 'to_gtfs: trip r1: calls that are cancelled and left out: 1\nto_gtfs: trip r2: it is cancelled, and left out\n')
        self.assertEqual(read(self.folder, 'late', 'delays.csv').splitlines()[1:], ['r1,Red,,0,0,0,A,1'])
        self.assertEqual(self.late([Cancel(5), Restore(5)])[0], '')

    def test_a_train_stands_at_no_other_stop_as_at_its_ends(self) -> None:
        files = {'stop_times.txt': [SMALL['stop_times.txt'][0], 'r1,07:55:00,08:00:00,A,1', 'r1,08:10:00,08:11:00,B,2', 'r1,08:30:00,08:34:30,C,3']}
        self.made(files)
        feed = write_feed(os.path.join(self.folder, 'ends'), {**SMALL, **files})
        self.assertEqual(self.late([Cancel(3), Cancel(4)], f'--feed={feed}')[1], ['r1,07:55:00,08:00:00,A,1', 'r1,08:10:00,08:10:00,B,2'])

    def test_trains_stand_at_their_ends_as_the_feed_says(self) -> None:
        calls = ['r1,07:55:00,08:00:00,A,1', 'r1,08:10:00,08:11:00,B,2', 'r1,08:30:00,08:34:30,C,3']
        files = {'stop_times.txt': [SMALL['stop_times.txt'][0], *reversed(calls)]}
        self.made(files)
        feed = write_feed(os.path.join(self.folder, 'ends'), {**SMALL, **files})
        self.assertEqual(self.late([], f'--feed={feed}'), ('', calls))
        self.assertEqual(self.late([DelayEvent(1, 600)], f'--feed={feed}')[1],
                         ['r1,08:05:00,08:10:00,A,1', 'r1,08:19:18,08:19:48,B,2', 'r1,08:37:29,08:41:59,C,3'])
        self.assertEqual([line.split(',')[1:3] for line in self.late([])[1]][::2], [['08:00:00', '08:00:00'], ['08:30:00', '08:30:00']])

    def test_trains_of_a_frequency_stand_as_the_trip_that_repeats(self) -> None:
        files = {'stop_times.txt': [*SMALL['stop_times.txt'][:3], 'r1,08:30:00,08:32:00,C,3'],
                 'frequencies.txt': ['trip_id,start_time,end_time,headway_secs,exact_times', 'r1,10:00:00,10:01:00,600,1']}
        self.made(files)
        feed = write_feed(os.path.join(self.folder, 'ends'), {**SMALL, **files})
        self.assertEqual(self.late([], f'--feed={feed}')[1][-1], 'r1@10:00:00,10:30:00,10:32:00,C,3')

    def test_feed_that_is_none(self) -> None:
        self.made({})
        status, said = self.call(to_gtfs, self.net, self.net, os.path.join(self.folder, 'late'), '--feed=nowhere')
        self.assertEqual(status, 2)
        self.assertFalse(os.path.exists(os.path.join(self.folder, 'late')))
