"""Texts of runs as they are read: what a text says, and the first line that is of another form."""
from __future__ import annotations

import unittest

from dispatch_tools.formats.files import BadFile
from dispatch_tools.formats.giv import read_network
from dispatch_tools.formats.lines import Bad
from dispatch_tools.formats.runtext import read_run
from dispatch_tools.model.messages import Adopt, BoundLeaf, DelayEvent, Drop, First, Inner
from dispatch_tools.model.network import Change
from dispatch_tools.pictures.scene import read_scene
from tests.samples import network, text


def bytes_of(name: str) -> bytes:
    with open(text(name), 'rb') as file:
        return file.read()


class WholeTexts(unittest.TestCase):
    def test_plan_that_is_adopted(self) -> None:
        run = read_run(bytes_of('plan_that_is_adopted'), 6)
        self.assertEqual(run.penalty, 10)
        self.assertEqual([entry.message for entry in run.journal],
                         [DelayEvent(1, 60), Adopt((Drop(5), First(5, 3)))])
        answer = run.logs[0].items[1].answer
        assert answer is not None
        plan = answer.value
        self.assertEqual((plan.mark, plan.cost, plan.bound), ('optimal', 940000, 940000))
        self.assertEqual(plan.nodes, [Inner(Change(5)), BoundLeaf(1075000), BoundLeaf(940000)])
        self.assertEqual(run.times, {1: 160, 2: 250, 3: 260, 4: 340, 5: 230, 6: 330})
        self.assertEqual(run.cost, 940000)

    def test_every_front_is_cut(self) -> None:
        whole = bytes_of('late_first_train')
        for length in range(len(whole)):
            with self.assertRaises(Bad) as caught:
                read_run(whole[:length], 6)
            self.assertEqual(caught.exception.args, (whole[:length].count(b'\n') + 1, 'truncated'))

    def test_line_of_another_form(self) -> None:
        with self.assertRaises(Bad) as caught:
            read_run(bytes_of('late_first_train').replace(b'ok\n', b'fine\n'), 6)
        self.assertEqual(caught.exception.args, (7, 'form'))

    def test_bytes_behind_the_end(self) -> None:
        whole = bytes_of('late_first_train')
        with self.assertRaises(Bad) as caught:
            read_run(whole + b'x', 6)
        self.assertEqual(caught.exception.args, (whole.count(b'\n') + 1, 'form'))


class BadFiles(unittest.TestCase):
    def test_text_of_another_network(self) -> None:
        with self.assertRaises(BadFile):
            read_scene(network('two_leg_line'), text('dropped_change'))

    def test_text_that_is_none(self) -> None:
        with self.assertRaises(BadFile) as caught:
            read_scene(network('connection'), f'{network("connection")}/Events-expanded.giv')
        self.assertEqual(caught.exception.line, 1)

    def test_no_network(self) -> None:
        with self.assertRaises(BadFile) as caught:
            read_network(network('no_such_network'))
        self.assertIn('Events-expanded.giv', str(caught.exception))


if __name__ == '__main__':
    unittest.main()
