"""Figures of a study: the feed that brings rows back, and the curves from what a program prints."""
from __future__ import annotations

import csv
import os
import stat
import subprocess
import sys
import tempfile
import unittest
import xml.etree.ElementTree as xml
from typing import Iterable

from dispatch_tools.formats.runtext import due_items
from dispatch_tools.here import words_of
from dispatch_tools.model.messages import STATEMENTS
from dispatch_tools.model.railway import admit
from dispatch_tools.pictures.figures import BUDGETS, feed_of, hours, quarters, ticks
from dispatch_tools.pictures.scene import read_scene
from tests.samples import network, text
from tests.test_parts import AFTER, BEFORE, WHOLE

# A program that answers `rules` by a rule of its own, and `run` by a text.
PROGRAM = '''#!{python}
import sys
words = sys.argv[1:]
if words[0] == 'run':
    print(open({text!r}).read(), end='')
else:
    rule, budget = words[3], int(words[4])
    cost = 1000000 + {{'never': 0, 'always': 900}}.get(rule, int(rule) if rule.isdigit() else 0)
    print(f'rule {{rule}} cost {{cost}} choices 1')
    print('choice drop 5')
    print(f'plan open cost {{900000 + 16384 - budget}} bound {{800000 + budget}}')
    print(f'gap {{cost - 800000 - budget}}')
'''


def solved_text(budgets: Iterable[int] = BUDGETS) -> str:
    """The text of a run in which plans by parts are asked for, and the last one is adopted."""
    items = [WHOLE.replace('2 solve 100', f'{line} solve {budget}') for line, budget in enumerate(budgets, 2)]
    front = BEFORE.replace('line 3 adopt', f'line {2 + len(items)} adopt').replace('feed 1 3', f'feed 1 {2 + len(items)}')
    return front + ''.join(items) + AFTER.replace('3 adopt', f'{2 + len(items)} adopt')


class Feeds(unittest.TestCase):
    def test_feed_brings_rows_back(self) -> None:
        for name in ('plan_that_is_adopted', 'passed_time_that_misses_a_change', 'late_first_train'):
            scene = read_scene(network('connection'), text(name))
            rows = scene.start
            for count, (_, said) in enumerate(due_items('\n'.join(feed_of(scene)) + '\n')):
                assert isinstance(said, STATEMENTS)
                refusal, after = admit(scene.network, rows, count, said)
                self.assertIsNone(refusal)
                assert after is not None
                rows = after
            self.assertEqual(vars(rows), vars(scene.rows))


class Curves(unittest.TestCase):
    def test_ticks(self) -> None:
        self.assertEqual(ticks(0, 900), [0, 200, 400, 600, 800])
        self.assertEqual(ticks(7, 7), [7])
        self.assertEqual(hours(21600, 86400), [21600, 32400, 43200, 54000, 64800, 75600, 86400])

    def test_lateness_by_quarters(self) -> None:
        scene = read_scene(network('connection'), text('late_first_train'))
        self.assertEqual(quarters(scene, scene.times), [(0, round((50 + 40 + 35) / 3))])


class Commands(unittest.TestCase):
    def setUp(self) -> None:
        folder = tempfile.TemporaryDirectory()
        self.addCleanup(folder.cleanup)
        self.out = os.path.join(folder.name, 'figures')
        self.program = os.path.join(folder.name, 'program')

    def call(self, told: str, asked: str = text('late_first_train')) -> subprocess.CompletedProcess[str]:
        """Calls the script with a program that prints a text."""
        with open(self.program, 'w', encoding='utf-8') as file:
            file.write(PROGRAM.format(python=sys.executable, text=told))
        os.chmod(self.program, os.stat(self.program).st_mode | stat.S_IXUSR)
        words = [network('connection'), asked, self.out, '--dispatcher', self.program]
        return subprocess.run([*words_of('figures'), *words], capture_output=True, text=True)

    def written(self, told: str) -> str:
        """The file of a text."""
        name = f'{self.program}-text'
        with open(name, 'w', encoding='ascii') as file:
            file.write(told)
        return name

    def rows(self, name: str) -> dict[str, list[str]]:
        with open(os.path.join(self.out, name), encoding='utf-8', newline='') as file:
            return {row[0]: row[1:] for row in csv.reader(file)}

    def test_all_figures(self) -> None:
        done = self.call(self.written(solved_text()))
        self.assertEqual((done.returncode, done.stdout, done.stderr), (0, '', ''))
        for name in ('rules', 'budgets', 'lateness'):
            xml.parse(os.path.join(self.out, f'{name}.svg'))
        rules = self.rows('rules.csv')
        self.assertEqual(len(rules), 34)
        *numbers, command = rules['900']
        self.assertEqual(numbers, ['1000900', '1', '912288', '804096', '196804', '940000', '60900'])
        self.assertEqual(command, f'{self.program} rules {network("connection")} {text("late_first_train")} 900 4096 --penalty=10')
        self.assertEqual(self.rows('budgets.csv')['64'][:4], ['916320', '800064', '940000', '940000'])
        lateness = self.rows('lateness.csv')
        self.assertEqual(lateness['0'], ['42', '30', f'{self.program} run {network("connection")} {self.out}/feed --penalty=10'])
        with open(os.path.join(self.out, 'feed'), encoding='utf-8') as file:
            asked = ''.join(f'solve {budget}\n' for budget in (64, 128, 256, 512, 1024, 2048, 4096, 8192, 16384))
            self.assertEqual(file.read(), f'delay event 1 60\n{asked}adopt\n')

    def refused(self, done: subprocess.CompletedProcess[str], said: str) -> None:
        self.assertEqual((done.returncode, done.stdout), (2, ''))
        self.assertEqual(len(done.stderr.splitlines()), 1, done.stderr)
        self.assertIn(said, done.stderr)
        self.assertFalse(any(name.endswith('.svg') for name in (os.listdir(self.out) if os.path.isdir(self.out) else ())))

    def test_rows_that_are_not_brought_back(self) -> None:
        self.refused(self.call(text('dropped_change')), 'cannot be brought back')

    def test_plans_that_are_not_answered(self) -> None:
        self.refused(self.call(self.written(solved_text([64, 128]))), 'does not answer each `solve`')
        self.refused(self.call(text('plan_that_is_adopted')), 'does not answer each `solve`')

    def test_text_that_is_none(self) -> None:
        self.refused(self.call(text('plan_that_is_adopted'), os.path.join(network('connection'), 'Events-expanded.giv')), 'line 1')

    def test_program_that_is_not_there(self) -> None:
        words = [network('connection'), text('late_first_train'), self.out, '--dispatcher', self.program]
        done = subprocess.run([*words_of('figures'), *words], capture_output=True, text=True)
        self.refused(done, 'No such file')


if __name__ == '__main__':
    unittest.main()
