"""The second reading of answers to questions: the stored answers of windows and rules are right, and changed ones are not. And which plan
of a window the desk asks for."""
from __future__ import annotations

import os
import random
import tempfile
import unittest
from collections import Counter
from typing import NamedTuple, Optional

from dispatch_tools.days.playing import Program
from dispatch_tools.desk.asking import Asking as DeskAsking
from dispatch_tools.formats.files import BadFile
from dispatch_tools.formats.giv import read_network
from dispatch_tools.oracle.queries import Asking, Draws, fault_of_rule, journal_of
from dispatch_tools.oracle.windows import fault_of_window, Window
from tests.samples import CASES, network, text

PENALTY = 10


class Stored(NamedTuple):
    """A stored case of a command: its name, the words behind its text, and its options."""
    name: str
    words: list[str]
    options: dict[str, str]


def stored(command: str) -> list[Stored]:
    """The cases of a command over one network that end well at the usual penalty."""
    with open(os.path.join(CASES, 'cases'), encoding='ascii') as file:
        lines = [line.split() for line in file]
    cases = []
    for name, net, status, *words in lines:
        if [net, status, *words[:1]] == ['connection', '0', command] and f'--penalty={PENALTY}' in words:
            options = {option: value for option, _, value in (word.partition('=') for word in words if word.startswith('--'))}
            cases.append(Stored(name, [word for word in words[3:] if not word.startswith('--')], options))
    return cases


def told(name: str) -> str:
    with open(text(name), encoding='ascii') as file:
        return file.read()


class Answers(unittest.TestCase):
    def setUp(self) -> None:
        self.net = read_network(network('connection'))

    def asked_text(self, name: str) -> bytes:
        with open(os.path.join(CASES, 'runs', name, 't'), 'rb') as file:
            return file.read()

    def fault_of_window(self, case: Stored, said: str) -> Optional[str]:
        begin, end, budget = map(int, case.words)
        numbers = {name: int(value) for name, value in case.options.items() if name in ('--at', '--minimal')}
        held = tuple(map(int, filter(None, case.options.get('--held', '').split(','))))
        window = Window(begin, end, budget, numbers.get('--at'), held, numbers.get('--minimal'), '--solve' in case.options)
        return fault_of_window(self.net, PENALTY, journal_of(self.net, PENALTY, self.asked_text(case.name)).rows, window, said)

    def test_windows(self) -> None:
        cases = stored('window')
        self.assertEqual(sum('--solve' in case.options for case in cases), 3)
        for case in cases:
            self.assertIsNone(self.fault_of_window(case, told(case.name)), case.name)

    def test_wrong_windows_by_parts(self) -> None:
        case = next(case for case in stored('window') if case.name == 'window_of_each_choice_by_parts')
        said = told(case.name)
        for right, wrong in [('leaf 175000', 'leaf 175001'), ('leaf 40000', 'leaf 39999'), ('rest 900000', 'rest 899999'),
                             ('optimal', 'open'), ('cost 940000', 'cost 939999'), ('inner change 5', 'inner pair 3 5')]:
            self.assertIn(right, said)
            self.assertEqual(self.fault_of_window(case, said.replace(right, wrong, 1)), 'there is no true plan of its kind', wrong)
        narrow = case._replace(words=['0', '10', '100'])
        self.assertEqual(self.fault_of_window(narrow, said.replace('200 235', '0 10')), 'there is no true plan of its kind')
        one_tree = case._replace(options={})
        self.assertEqual(self.fault_of_window(one_tree, said), 'there is no true plan of its kind')

    def test_rules(self) -> None:
        cases = stored('rules')
        self.assertEqual(sum('--solve' in case.options for case in cases), 1)
        for case in cases:
            rows = journal_of(self.net, PENALTY, self.asked_text(case.name)).rows[-1]
            rule = str(int(case.words[0])) if case.words[0].isdigit() else case.words[0]
            kind, said = ('solved' if '--solve' in case.options else 'plan'), told(case.name)
            self.assertIsNone(fault_of_rule(self.net, PENALTY, rows, rule, kind, said), case.name)
            other = 'plan' if kind == 'solved' else 'solved'
            self.assertIsNotNone(fault_of_rule(self.net, PENALTY, rows, rule, other, said), case.name)


class Draw(unittest.TestCase):
    def test_who_asks_plainly_never_asks_by_parts(self) -> None:
        net, counts = read_network(network('connection')), Counter[str]()
        plain, other = (Asking(Draws('', [], is_plain), counts, net, PENALTY, '') for is_plain in (True, False))
        self.assertFalse(any(plain.asks_by_parts(random.Random(number)) for number in range(20)))
        self.assertTrue(any(other.asks_by_parts(random.Random(number)) for number in range(20)))


class Desk(unittest.TestCase):
    def test_window_is_planned_by_parts(self) -> None:
        net, name = read_network(network('connection')), 'window_of_each_choice'
        with tempfile.TemporaryDirectory() as folder:
            program = os.path.join(folder, 'program')
            with open(os.open(program, os.O_WRONLY | os.O_CREAT, 0o700), 'w', encoding='ascii') as file:
                file.write(f'#!/bin/sh\n[ "$7" = --solve ] && exec cat {text(name + "_by_parts")}\nexec cat {text(name)}\n')
            asking = DeskAsking(Program(program, network('connection'), PENALTY, folder), net, 1)
            entries = ['feed 1 line 1 delay event 1 60']
            plan = asking.window(entries, 200, 235, 100, [])
            self.assertEqual((plan.entry, plan.mark, plan.cost, len(plan.parts)), (1, 'optimal', 940_000, 1))
            with open(program, 'w', encoding='ascii') as file:
                file.write(f'#!/bin/sh\nexec cat {text(name)}\n')
            with self.assertRaises(BadFile):
                asking.window(entries, 200, 235, 100, [])


if __name__ == '__main__':
    unittest.main()
