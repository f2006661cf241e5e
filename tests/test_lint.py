"""What is reported of odd networks and feeds."""
from __future__ import annotations

import io
import os
import tempfile
import unittest
from contextlib import redirect_stdout
from typing import Any, Sequence

from dispatch_tools.days.lint import oddities, read_files, tell
from dispatch_tools.formats.files import BadFile
from tests.samples import network

EVENTS = '''# events
1; 1; "departure"; 100; 10; 1
2; 2; "arrival"; 200; 10; 2
3; 3; "departure"; 220; 10; 2
4; 4; "arrival"; 300; 10; 3
'''


class Networks(unittest.TestCase):
    def setUp(self) -> None:
        self.folder = tempfile.TemporaryDirectory()
        self.addCleanup(self.folder.cleanup)

    def write(self, name: str, text: str) -> str:
        path = os.path.join(self.folder.name, name)
        with open(path, 'w', encoding='utf-8', newline='') as file:
            file.write(text)
        return path

    def found(self, events: str, activities: str, feeds: Sequence[str] = ()) -> list[tuple[str, int, str]]:
        """The kind, the line and the words of each oddity."""
        self.write('Events-expanded.giv', events)
        self.write('Activities-expanded.giv', activities)
        odd = oddities(read_files(self.folder.name), feeds)
        return [(oddity.kind, oddity.line, oddity.what) for oddity in odd]

    def kinds(self, *arguments: Any) -> list[str]:
        return [kind for kind, _, _ in self.found(*arguments)]

    def test_nothing_odd_in_the_connection(self) -> None:
        self.assertEqual(list(oddities(read_files(network('connection')), [])), [])

    def test_schedule_below_its_bound(self) -> None:
        found = self.found(EVENTS, '1; 1; "drive"; 1; 2; 130; 200; 0\n')
        self.assertEqual(found, [('short', 1, 'drive 1: its schedule is 30 s below its bound of 130 s')])

    def test_columns_tail_and_head_swapped(self) -> None:
        self.assertEqual(self.kinds(EVENTS, '1; 1; "drive"; 2; 1; 90; 200; 0\n'), ['swapped', 'backwards', 'kinds'])

    def test_columns_time_and_weight_swapped(self) -> None:
        events = '1; 1; "departure"; 10; 21600; 1\n2; 2; "arrival"; 10; 21930; 2\n'
        self.assertEqual(self.kinds(events, ''), ['swapped'])

    def test_wait_from_stop_to_stop(self) -> None:
        self.assertEqual(self.kinds(EVENTS.replace('220; 10; 2', '220; 10; 9'), '2; 2; "wait"; 2; 3; 10; 30; 0\n'), ['jump'])

    def test_drive_to_the_same_stop(self) -> None:
        self.assertEqual(self.kinds(EVENTS.replace('200; 10; 2', '200; 10; 1'), '1; 1; "drive"; 1; 2; 90; 100; 0\n'), ['jump'])

    def test_headway_in_one_direction(self) -> None:
        self.assertEqual(self.kinds(EVENTS, '6; 6; "headway"; 1; 3; 8; 60; 0\n'), ['one-way'])

    def test_second_headway_of_a_pair_runs_back(self) -> None:
        self.assertEqual(self.kinds(EVENTS, '6; 6; "headway"; 1; 3; 8; 60; 0\n7; 7; "headway"; 3; 1; 8; 60; 0\n'), [])

    def test_changes_nobody_makes_or_waits_for(self) -> None:
        events = EVENTS + '5; 5; "departure"; 90000; 10; 2\n'
        self.assertEqual(self.kinds(events, '1; 1; "change"; 2; 3; 60; 600; 5\n2; 2; "change"; 2; 5; 60; 600; 5\n'), ['change', 'long'])

    def test_stop_without_events(self) -> None:
        self.write('Stops.csv', '1;Ahorn\n2;Buche\n3;Eibe\n4;Linde\n')
        self.assertEqual(self.found(EVENTS, ''), [('stop', 4, 'stop 4 (Linde) has no event')])

    def test_lines_of_a_feed(self) -> None:
        feed = self.write('f', '\ufeffread\ndelay\tevent 1 1\nDelay event 1 1\ndelay event 1 -60\n\n# note\ndelay event 9 1\nkeep 1\n'
                               'delay event 1 1000001\nfirst 1 2\nread\r\ncost\n')
        found = self.found(EVENTS, '1; 1; "drive"; 1; 2; 90; 100; 0\n', [feed])
        self.assertEqual([line for _, line, _ in found], [1, 2, 3, 4, 7, 8, 9, 10])
        self.assertEqual([what for _, _, what in found][:4], [
            'malformed: a byte order mark stands before it', 'malformed: a tab separates nothing', 'malformed: words have small letters',
            'malformed: numbers have no sign',
        ])

    def test_lines_that_cancel_and_lock(self) -> None:
        feed = self.write('f', 'cancel 9\nrestore 8\nlock 1\nlock 2 1\nunlock 7\nlock 3 9\ncarry\n')
        found = self.found(EVENTS, '1; 1; "drive"; 1; 2; 90; 100; 0\n', [feed])
        self.assertEqual([(line, what) for _, line, what in found], [
            (1, 'there is no event 9'), (2, 'there is no event 8'), (3, 'activity 1 is no change'), (4, 'events 1 and 2 are no pair'),
            (5, 'there is no activity 7'), (6, 'there is no event 9'),
        ])

    def test_gap_in_a_train(self) -> None:
        train = '1; 1; "drive"; 1; 2; 90; 100; 0\n2; 2; "wait"; 2; 3; 10; 30; 0\n3; 3; "drive"; 3; 4; 80; 100; 0\n'
        gaps = {
            'cancel 2\ncancel 3\n': [(1, 'event 2 of train 1: it is cancelled, and the train runs on behind it')],
            'cancel 4\n': [(1, 'event 3 of train 1: the train leaves, and the arrival behind it is cancelled')],
            'cancel 1\n': [(1, 'event 2 of train 1: the train arrives, and the departure before it is cancelled')],
            'cancel 1\ncancel 2\n': [], 'cancel 3\ncancel 4\n': [], 'cancel 1\ncancel 2\ncancel 3\ncancel 4\n': [],
            'cancel 2\nrestore 2\ncancel 4\npass 4 300\n': [], 'cancel 3\ncancel 4\nrestore 4\n': [(1, 'event 3 of train 1: it is cancelled, '
                                                                                          'and the train runs on behind it')],
        }
        for lines, due in gaps.items():
            self.assertEqual([(line, what) for _, line, what in self.found(EVENTS, train, [self.write('f', lines)])], due, lines)

    def test_events_that_are_cancelled_at_the_start(self) -> None:
        self.found(EVENTS, '3; 3; "drive"; 3; 4; 80; 100; 0\n')
        self.write('gone', '# events\n9\n4\n')
        odd = [*oddities(read_files(self.folder.name), [], 'gone')]
        self.assertEqual([(one.kind, one.line, one.what) for one in odd], [
            ('refused', 2, 'there is no event 9'), ('gap', 3, 'event 3 of train 3: the train leaves, and the arrival behind it is cancelled'),
        ])

    def test_only_so_many_lines_of_a_kind(self) -> None:
        feed = self.write('f', 'x\n' * 30)
        self.write('Events-expanded.giv', EVENTS)
        self.write('Activities-expanded.giv', '')
        with redirect_stdout(io.StringIO()) as out:
            self.assertEqual(tell(oddities(read_files(self.folder.name), [feed])), 30)
        self.assertEqual(out.getvalue().count('\n'), 21)

    def test_unknown_event_of_an_activity(self) -> None:
        self.write('Events-expanded.giv', EVENTS)
        self.write('Activities-expanded.giv', '1; 1; "drive"; 1; 2; 90; 200; 0\n2; 2; "drive"; 1; 7; 90; 200; 0\n')
        with self.assertRaises(BadFile) as caught:
            read_files(self.folder.name)
        self.assertEqual(caught.exception.line, 2)


if __name__ == '__main__':
    unittest.main()
