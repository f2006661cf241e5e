"""Reports of studies: means with their intervals, and a study that goes on where it was broken off."""
from __future__ import annotations

import os
import re
import sys
import unittest
from functools import partial
from types import ModuleType
from unittest import mock

from dispatch_tools.bench.study import by_dask, curves_of, half_interval, read_outcomes, report, studied, write_pictures
from dispatch_tools.bench.study_days import function_of, NUMBERS, Outcome, Settings, Task
from dispatch_tools.days.policies import policy_of
from dispatch_tools.formats.files import BadFile
from dispatch_tools.pictures.figures import table
from tests.folders import InFolder

OUTCOMES = [Outcome(day, policy, cost, bound, 2.0, 1.5, 0.5, 0.1) for day, policy, cost, bound in (
    (1, 'never', 12_000_000, 0), (1, 'hindsight', 11_000_000, 10_000_000),
    (2, 'never', 30_000_000, 0), (2, 'hindsight', 20_000_000, 20_000_000),
)]


class Reports(InFolder):
    def test_interval(self) -> None:
        # Ten values with a deviation of 3.0277; Student's 0.975 at nine degrees is 2.2622.
        self.assertAlmostEqual(half_interval(list(range(1, 11))), 2.2622 * 3.0277 / 10 ** 0.5, delta=0.005)
        self.assertEqual(half_interval([5]), 0)

    def test_report(self) -> None:
        lines = report(['never', 'hindsight'], OUTCOMES).splitlines()
        cells = [[cell.strip() for cell in line.strip('|').split('|')] for line in lines]
        self.assertEqual(len(cells[0]), len(NUMBERS) + 2)
        self.assertEqual(cells[2][:2], ['never', '2'])
        # Above the bound by 20 and 50 %, and by 10 and 0 %.
        self.assertTrue(cells[2][3].startswith('35.00 ±'))
        self.assertTrue(cells[3][3].startswith('5.00 ±'))
        self.assertTrue(cells[3][2].startswith('15.50 ±'))

    def test_costs_of_small_networks_are_drawn_as_they_are(self) -> None:
        # Two costs below a million, which a picture in whole millions would put on one line.
        outcomes = [Outcome(day, 'never', cost, 0, 0.0, 0.0, late, 0.0) for day, cost, late in ((1, 410_500, 0.002), (2, 188_000, 0.001))]
        self.assertEqual(curves_of(['never'], outcomes, 'cost', 1)[0].points, [(1, 188_000), (2, 410_500)])
        self.assertEqual(curves_of(['never'], outcomes, 'minutes_by_passenger', 60_000)[0].points, [(1, 60), (2, 120)])
        with mock.patch.dict(sys.modules, {'matplotlib': None}):
            write_pictures(self.folder, ['never'], outcomes)
        with open(os.path.join(self.folder, 'cost.svg'), encoding='utf-8') as file:
            drawn = file.read()
        heights = re.findall('<circle cx="[0-9]+" cy="([0-9]+)"', drawn)
        self.assertEqual(len(set(heights)), 2)
        self.assertIn('>0.2</text>', drawn)

    def test_policies_by_the_clock(self) -> None:
        self.assertEqual(function_of('order-120'), 'dispatch_tools.days.usual:wait_at_most:120')
        self.assertEqual(function_of('fcfs-0'), 'dispatch_tools.days.usual:first_come_and_wait:0')
        self.assertEqual([function_of(name) for name in ('never', '120', 'windows', 'fcfs-', 'fcfs-x', 'a:b')], [None] * 5 + ['a:b'])
        self.assertIsNotNone(policy_of('dispatch_tools.days.usual:first_come_and_wait:0'))

    def test_broken_off(self) -> None:
        name = os.path.join(self.folder, 'study.csv')
        self.assertEqual(read_outcomes(name), [])
        with open(name, 'w', encoding='ascii') as file:
            file.write(table([Outcome._fields, *OUTCOMES]) + '3,never,12')
        self.assertEqual(read_outcomes(name), OUTCOMES)


class Engines(InFolder):
    """A study by a stand-in for Dask, whose workers are this process; the real one is tried as the help of `study` says."""

    def test_outcomes_of_a_cluster_are_those_of_processes(self) -> None:
        asked: list[tuple[str, int]] = []

        class Future:
            def __init__(self, value: tuple[object, ...]) -> None:
                self.value = value

            def result(self) -> tuple[object, ...]:
                return self.value

        class Client:
            def __init__(self, scheduler: str, timeout: int) -> None:
                asked.append((scheduler, timeout))

            def __enter__(self) -> Client:
                return self

            def __exit__(self, *_: object) -> None:
                pass

            def map(self, _: object, settings: list[Settings], tasks: list[Task], **__: object) -> list[Future]:
                return [Future((*task, 1, 0, 0.0, 0.0, 0.0, float(one.seed))) for one, task in zip(settings, tasks)]

        module = ModuleType('distributed')
        module.Client, module.as_completed = Client, reversed  # type: ignore[attr-defined]
        settings = Settings('program', 'net', 7, 'mixed', 0.1, 'exponential:300', 10, 40, 120, 3600)
        tasks = [Task(day, 'never') for day in range(1, 4)]
        with mock.patch.dict(sys.modules, {'distributed': module}):
            found = studied(settings, tasks, self.folder, partial(by_dask, scheduler='here:8786'))
        self.assertEqual([(outcome.day, outcome.seconds) for outcome in found], [(3, 7.0), (2, 7.0), (1, 7.0)])
        self.assertEqual(asked[0][0], 'here:8786')
        # What was there when a study was broken off is not asked for again.
        with mock.patch.dict(sys.modules, {'distributed': module}):
            again = studied(settings, [*tasks, Task(4, 'never')], self.folder, partial(by_dask, scheduler='here:8786'))
        self.assertEqual([outcome.day for outcome in again], [3, 2, 1, 4])
        self.assertEqual(len(read_outcomes(os.path.join(self.folder, 'study.csv'))), 4)

    def test_without_dask_it_is_said_what_is_missing(self) -> None:
        with mock.patch.dict(sys.modules, {'distributed': None}), self.assertRaises(BadFile) as caught:
            studied(Settings('p', 'n', 1, 'mixed', 0.1, 'exponential:300', 10, 40, 120, 3600), [], self.folder, partial(by_dask, scheduler='here:1'))
        self.assertIn('python3-distributed', str(caught.exception))


if __name__ == '__main__':
    unittest.main()
