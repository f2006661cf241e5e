"""The tests of a night: each has its part of the time, a turn that differs ends it, and one line says how it came out."""
from __future__ import annotations

import contextlib
import io
import tempfile
import unittest
import unittest.mock
from pathlib import Path
from typing import Optional

from dispatch_tools.__main__ import package_of
from dispatch_tools.dev.night import Outcome, Trial, TRIALS, tried, whole_night


class Night(unittest.TestCase):
    def setUp(self) -> None:
        folder = tempfile.TemporaryDirectory()
        self.addCleanup(folder.cleanup)
        self.folder = Path(folder.name)
        self.clock = 0.0
        patch = unittest.mock.patch('dispatch_tools.dev.night.time.monotonic', lambda: self.clock)
        patch.start()
        self.addCleanup(patch.stop)
        self.asked: list[tuple[list[str], float]] = []

    def turns(self, took: float, statuses: list[Optional[int]]) -> unittest.mock._patch[object]:
        """Turns that take so many seconds by the clock, and end with these statuses."""
        left = iter(statuses)

        def turn(words: list[str], seconds: float, log: Path) -> Optional[int]:
            self.asked.append((words[5:], seconds))
            log.write_text('what differs\n\n', encoding='utf-8')
            self.clock += min(took, seconds)
            return next(left) if took <= seconds else None
        return unittest.mock.patch('dispatch_tools.dev.night.turn', turn)

    def outcome(self, trial: Trial, seconds: float) -> Outcome:
        return tried(trial, 'PROGRAM', 7000, seconds, self.folder / 'log')

    def test_turns_until_the_time_is_over(self) -> None:
        with self.turns(10, [0] * 9):
            self.assertEqual(self.outcome(TRIALS[0], 35), Outcome(3, 35.0, None))
        self.assertEqual(self.asked, [(['7000', '7100'], 35), (['7100', '7200'], 25), (['7200', '7300'], 15), (['7300', '7400'], 5)])

    def test_turn_that_differs(self) -> None:
        with self.turns(10, [0, 1, 0]):
            self.assertEqual(self.outcome(TRIALS[0], 100), Outcome(2, 20.0, 'status 1, what differs'))

    def test_one_turn(self) -> None:
        with self.turns(10, [0, 0]):
            self.assertEqual(self.outcome(Trial('docs', lambda begin: []), 100), Outcome(1, 10.0, None))
            self.assertEqual(self.outcome(Trial('docs', lambda begin: []), 5), Outcome(0, 5.0, 'no turn ended in 5 s'))

    def test_time_that_is_left_is_for_those_behind(self) -> None:
        said = io.StringIO()
        trials = [Trial('docs', lambda begin: []), Trial('hostile', lambda begin: [])]
        with self.turns(10, [0, 3]), contextlib.redirect_stdout(said):
            self.assertFalse(whole_night(trials, 'PROGRAM', 1, 100, self.folder))
        self.assertEqual([seconds for _, seconds in self.asked], [50, 90])
        self.assertEqual(said.getvalue(), 'docs: ok, 1 turn, 10 s\nhostile: DIFFERS: status 3, what differs, 1 turn, 10 s\n')

    def test_commands_are_there(self) -> None:
        for trial in TRIALS:
            self.assertIsNotNone(package_of(trial.name), trial.name)


if __name__ == '__main__':
    unittest.main()
