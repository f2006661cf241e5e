"""The commands that read texts, measured: which rows there are, what is taken off them, and how two programs stand beside each other."""
from __future__ import annotations

import argparse
import unittest

from dispatch_tools.bench.readers import cells, Figures, Row, rows_named, table, with_bases

CHECK, EMPTY, RULES, FOLLOW = Row('check', 'mixed'), Row('check', 'empty'), Row('rules', 'mixed'), Row('follow', 'mixed')


class Rows(unittest.TestCase):
    def test_names(self) -> None:
        self.assertEqual(rows_named('check-mixed'), [CHECK])
        self.assertEqual([row.name for row in rows_named('at')], ['at-delays', 'at-mixed', 'at-plans'])
        for name in 'rules-empty', 'run', '':
            with self.assertRaises(argparse.ArgumentTypeError):
                rows_named(name)

    def test_bases(self) -> None:
        self.assertEqual(with_bases([RULES, CHECK]), [EMPTY, CHECK, Row('follow', 'empty'), FOLLOW, RULES])
        self.assertIsNone(EMPTY.base)


class Tables(unittest.TestCase):
    def test_cells(self) -> None:
        self.assertEqual(cells([2.5], 1), '       2.5')
        self.assertEqual(cells([3.0, 2.0], 1), '       3.0       2.0   1.50')
        self.assertEqual(cells([None, 2.0], 1).split(), ['2.0'])
        self.assertEqual(cells([0.001, 0.0], 3).split(), ['0.001', '0.000'])

    def test_lines(self) -> None:
        now = {EMPTY: Figures(100.0, 0.02), CHECK: Figures(150.0, 0.03)}
        other = {EMPTY: Figures(100.0, 0.02), CHECK: Figures(125.0, 0.025)}
        title, *lines = table([EMPTY, CHECK], [now, other], {CHECK})
        self.assertEqual(title.split(), ['row', 'millions', 'against', 'ratio', 'beyond', 'against', 'ratio', 'seconds', 'against', 'ratio',
                                         'beyond', 'against', 'ratio'])
        self.assertEqual([line.split() for line in lines], [
            ['check-empty', '100.0', '100.0', '1.00', '0.020', '0.020', '1.00'],
            ['check-mixed', '150.0', '125.0', '1.20', '50.0', '25.0', '2.00', '0.030', '0.025', '1.20', '0.010', '0.005', '2.00', 'differs'],
        ])


if __name__ == '__main__':
    unittest.main()
