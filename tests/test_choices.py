"""Choices of plans as lines of a feed."""
from __future__ import annotations

import os
import subprocess
import unittest
from typing import Optional

from dispatch_tools.days.choices import choices_in, lines_of, NoPlan
from dispatch_tools.formats.lines import Bad
from dispatch_tools.here import words_of
from tests.samples import text
from tests.test_parts import text_of, WHOLE

TOOL = os.path.abspath(__file__)


def bytes_of(name: str) -> bytes:
    with open(text(name), 'rb') as file:
        return file.read()


def lines(data: bytes, feed: Optional[int] = None) -> list[str]:
    return lines_of(choices_in(data, feed)).splitlines()


class OfRuns(unittest.TestCase):
    def test_plan(self) -> None:
        self.assertEqual(lines(bytes_of('plan_that_costs_less')), ['drop 5', 'first 5 3'])

    def test_plan_of_one_feed(self) -> None:
        self.assertEqual(lines(bytes_of('plan_that_is_old'), 1), ['drop 5', 'first 5 3'])
        with self.assertRaises(NoPlan):
            choices_in(bytes_of('plan_that_is_old'), 2)

    def test_plan_of_the_first_version(self) -> None:
        with open(os.path.join(os.path.dirname(text('good_text_with_a_plan')), 't'), 'rb') as file:
            self.assertEqual(lines(file.read()), ['drop 5', 'first 5 3'])

    def test_no_plan(self) -> None:
        with self.assertRaises(NoPlan):
            choices_in(bytes_of('late_first_train'), None)

    def test_text_that_is_cut(self) -> None:
        whole = bytes_of('plan_that_costs_less')
        with self.assertRaises(Bad) as caught:
            choices_in(whole[:whole.index(b'inner')], None)
        self.assertEqual(caught.exception.args, (11, 'truncated'))


class OfWindows(unittest.TestCase):
    def test_window(self) -> None:
        self.assertEqual(lines(bytes_of('window_of_each_choice')), ['drop 5', 'first 5 3'])
        self.assertEqual(lines(bytes_of('window_of_one_change')), [])

    def test_what_is_held_and_what_is_given_back(self) -> None:
        self.assertEqual(lines(bytes_of('window_that_holds_the_pair')), [])
        self.assertEqual(lines(bytes_of('window_that_gives_nothing_back')), ['drop 5', 'first 5 3'])
        self.assertEqual(lines(bytes_of('window_that_gives_one_of_two_back')), ['drop 5'])
        self.assertEqual(lines(bytes_of('window_that_gives_both_back_before_it_is_carried_over')), [])

    def test_a_choice_that_others_need(self) -> None:
        told = b'minimal cost 9 choices 2\nchoice drop 5 needed\nchoice first 5 3 saves 7\n'
        head = bytes_of('window_of_each_choice')
        self.assertEqual(lines(head + told), ['drop 5', 'first 5 3'])
        self.assertEqual(lines(head + told + b'rebased 2 cost 7 choices 1\nchoice first 5 3\n'), ['first 5 3'])
        for wrong in (told.replace(b' needed', b''), told.replace(b'saves', b'costs'), told.replace(b'choices 2', b'choices 3')):
            with self.assertRaises(Bad):
                choices_in(head + wrong, None)

    def test_what_is_left_at_the_last_entry(self) -> None:
        data = b'\n'.join([
            b'window 200 235 entry 1', b'plan optimal cost 9 bound 9 choices 2 nodes 1', b'choice drop 5', b'choice first 5 3',
            b'bound 9', b'rebased 2 cost 7 choices 1', b'choice first 5 3', b'',
        ])
        self.assertEqual(lines(data), ['first 5 3'])

    def test_what_could_not_be_carried_over(self) -> None:
        with self.assertRaises(NoPlan) as caught:
            choices_in(bytes_of('window_carried_to_a_passed_event'), None)
        self.assertIn('not-free', str(caught.exception))


class OfPlansByParts(unittest.TestCase):
    def test_run(self) -> None:
        self.assertEqual(lines(text_of(WHOLE)), ['drop 5', 'first 5 3'])
        self.assertEqual(choices_in(text_of(WHOLE), 1), choices_in(text_of(WHOLE), None))

    def test_latest_of_either_kind(self) -> None:
        plan = '3 plan 1 -> 1 plan open cost 975000 bound 900000 choices 1 nodes 1\nchoice drop 5\nopen 900000\n'
        both = text_of(WHOLE + plan).replace(b'feed 1 3', b'feed 1 4').replace(b'3 adopt', b'4 adopt')
        self.assertEqual(lines(both), ['drop 5'])
        other = text_of(plan.replace('3 plan', '1 plan') + WHOLE).replace(b'feed 1 3', b'feed 1 4')
        self.assertEqual(lines(other), ['drop 5', 'first 5 3'])

    def test_window(self) -> None:
        window = 'window 200 235 entry 1\n' + WHOLE.removeprefix('2 solve 100 -> 1 ')
        self.assertEqual(lines(window.encode()), ['drop 5', 'first 5 3'])
        carried = 'rebased 2 cost 7 choices 1\nchoice first 5 3\n'
        self.assertEqual(lines((window + carried).encode()), ['first 5 3'])
        for wrong in window.replace('rest 0', 'rest'), window.replace('solved', 'cost'), window.replace('parts 1', 'parts 2'):
            with self.assertRaises(Bad):
                choices_in(wrong.encode(), None)


class Called(unittest.TestCase):
    def call(self, *words: str) -> tuple[int, str]:
        done = subprocess.run([*words_of('choices'), *words], capture_output=True, text=True, check=False)
        return done.returncode, done.stdout

    def test_statuses(self) -> None:
        self.assertEqual(self.call(text('plan_that_costs_less')), (0, 'drop 5\nfirst 5 3\n'))
        self.assertEqual(self.call(text('late_first_train')), (1, ''))
        self.assertEqual(self.call(TOOL), (2, ''))
        self.assertEqual(self.call('no_such_text'), (2, ''))
