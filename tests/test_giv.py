"""Network files: the quick way of a line says what the general one says, of lines as they are written and of others."""
from __future__ import annotations

import os
import random
import tempfile
import unittest
from typing import Any, Callable
from unittest import mock

from dispatch_tools.formats.files import BadFile
from dispatch_tools.formats.giv import (
    ACTIVITIES, activity_row, event_row, EVENTS, Plain, PLAIN_ACTIVITY, PLAIN_EVENT, read_network, taken,
)
from tests.samples import CASES

EVENT_LINES = ['1; 0; "departure"; 28800; 0; 4', '20; 7; "arrival"; 0; 12.5; 4', '20; 7; "arrival"; 0; 12.025; 4', '3;0;arrival;5;1.;2', '4; 0; "Arrival"; 5; 1; 2']
ACTIVITY_LINES = ['1; 0; "drive"; 1; 2; 540; 0; 0', '1; 0; "change"; 1; 2; 540; 9; 3.250', '1;0;headway;1;2;60;0;0', '7; 0; "WAIT"; 1; 2; 0; 0; 0.1']


class Quick(unittest.TestCase):
    def test_says_what_the_general_way_says(self) -> None:
        draws = random.Random(4)
        ways: list[tuple[list[str], Plain[Any], Callable[..., Any], int]] = [
            (EVENT_LINES, PLAIN_EVENT, event_row, 2), (ACTIVITY_LINES, PLAIN_ACTIVITY, activity_row, 2),
        ]
        for lines, plain, row, taken_quickly in ways:
            self.assertEqual(sum(plain.form.fullmatch(line) is not None for line in lines), taken_quickly)
            tried = 0
            for _ in range(4000):
                line = draws.choice(lines)
                place = draws.randrange(len(line))
                line = line[:place] + draws.choice('0;" .5x\t') + line[place + draws.randrange(2):]
                found = plain.form.fullmatch(line)
                if found:
                    tried += 1
                    self.assertEqual(plain.row(found), row(*map(taken, line.split(';'))), line)
            self.assertGreater(tried, 100)

    def test_reads_the_same_networks(self) -> None:
        folder = os.path.join(CASES, 'networks', 'forty_trains', 'net')
        quick = read_network(folder)
        with mock.patch('dispatch_tools.formats.giv.PLAIN_EVENT', None), mock.patch('dispatch_tools.formats.giv.PLAIN_ACTIVITY', None):
            whole = read_network(folder)
        self.assertEqual((quick.events, quick.activities), (whole.events, whole.activities))

    def test_lines_end_as_they_like(self) -> None:
        for end in '\n', '\r\n', '\r':
            with tempfile.TemporaryDirectory() as folder:
                files: dict[str, list[str]] = {EVENTS: ['# id', *EVENT_LINES[:2], '', '4; 0; "arrival"; x; 1; 2'], ACTIVITIES: []}
                for name, lines in files.items():
                    with open(os.path.join(folder, name), 'w', encoding='ascii', newline='') as file:
                        file.write(end.join(lines))
                with self.assertRaises(BadFile) as caught:
                    read_network(folder)
                self.assertEqual(caught.exception.line, 5)


if __name__ == '__main__':
    unittest.main()
