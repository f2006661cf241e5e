"""The examples are cases of the gate: their files are those of the cases, and their pictures are what diagram.py draws."""
from __future__ import annotations

import filecmp
import os
import unittest
from typing import Sequence

from dispatch_tools.pictures.diagram import drawing
from dispatch_tools.pictures.scene import lines_of, read_scene
from dispatch_tools.words import stops_of
from tests.samples import CASES, TOP

EXAMPLES = os.path.join(TOP, 'examples')


class Examples(unittest.TestCase):
    def same(self, example: Sequence[str], case: Sequence[str]) -> None:
        self.assertTrue(filecmp.cmp(os.path.join(EXAMPLES, *example), os.path.join(CASES, *case), shallow=False), example)

    def test_connection(self) -> None:
        self.same(('connection', 'feed'), ('runs', 'adopted_plan_of_a_day_under_way', 'f'))
        self.same(('connection', 'text'), ('runs', 'adopted_plan_of_a_day_under_way', 'text'))

    def test_turnaround(self) -> None:
        self.same(('turnaround', 'feed'), ('runs', 'order_that_closes_a_cycle', 'f'))

    def test_day(self) -> None:
        self.same(('day', 'text'), ('runs', 'text_of_two_control_rooms', 't'))

    def test_networks(self) -> None:
        for example, network in (('connection', 'connection'), ('turnaround', 'turnaround'), ('day', 'forty_trains')):
            for name in ('Events-expanded.giv', 'Activities-expanded.giv'):
                self.same((example, 'net', name), ('networks', network, 'net', name))

    def test_pictures(self) -> None:
        for example, line in (('connection', None), ('turnaround', None), ('day', '45,46,47,48,49,50,51,52,53,54,55')):
            folder = os.path.join(EXAMPLES, example)
            scene = read_scene(os.path.join(folder, 'net'), os.path.join(folder, 'text'))
            stops = stops_of(line) if line else lines_of(scene.network, scene.trains, 1)[0]
            with open(os.path.join(folder, 'picture.svg'), encoding='utf-8') as file:
                self.assertEqual(file.read(), '\n'.join(drawing(scene, stops)) + '\n', example)


if __name__ == '__main__':
    unittest.main()
