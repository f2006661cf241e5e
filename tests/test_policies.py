"""Policies of one's own: what they get of a day, what becomes of their lines, and those of the examples on a day worked out by hand."""
from __future__ import annotations

import os
import sys
import unittest
from functools import partial

from tests.folders import InFolder
from tests.samples import network, TOP

sys.path.append(os.path.join(TOP, 'examples', 'policies'))

from dispatch_tools.days.delays import Told
from dispatch_tools.formats.files import BadFile
from dispatch_tools.formats.giv import read_network
from dispatch_tools.days.playing import Played
from dispatch_tools.days.policies import DaySoFar, day_so_far, decided, play_by, policy_of
from dispatch_tools.model.messages import DelayEvent, Drop
from dispatch_tools.model.network import Change, Pair
from dispatch_tools.model.railway import Rows

# Train 1 runs from stop 1 (100) by stop 2 (200 to 220) to stop 3; train 5 leaves stop 2 for stop 4 at 230. Their departures share
# a track, at a distance of 8, and passengers change in 20.
LATE = Told(0, DelayEvent(1, 60))


def day(now: int, *told: Told) -> DaySoFar:
    net = read_network(network('connection'))
    played = Played(net, Rows(net), ahead=[*told])
    played.tell(now)
    return day_so_far(played, now)


class Days(unittest.TestCase):
    def test_what_is_known_at_a_time(self) -> None:
        known = day(200, LATE)
        # Train 1 left at 160 and arrives at 250. Train 5 waits for it until 270, and takes 95 to stop 4.
        self.assertEqual(known.times, [160, 250, 260, 340, 270, 365])
        self.assertEqual((known.rows.passed, known.rows.clock), ([160, None, None, None, None, None], 200))
        self.assertEqual(known.free, [Change(5), Pair(3, 5)])
        self.assertEqual(known.times_without('change'), [160, 250, 260, 340, 268, 363])
        self.assertEqual(known.times_without('pair'), [160, 250, 260, 340, 270, 365])
        self.assertEqual(known.times_without('change', 'pair'), [160, 250, 260, 340, 230, 330])
        self.assertEqual(day(200).times, [100, 200, 220, 300, 230, 330])
        self.assertEqual(day(225).free, [Change(5)])

    def test_what_a_policy_may_say(self) -> None:
        known = day(260, LATE)
        self.assertEqual(decided('one', lambda _: ['drop 5'], known), [Drop(5)])
        for line in 'drop 4', 'first 3 5', 'delay event 5 60', 'drop', '':
            with self.assertRaises(BadFile):
                decided('one', partial(lambda line, _: [line], line), known)


class Simple(unittest.TestCase):
    def said(self, name: str, known: DaySoFar) -> list[str]:
        return [*policy_of(f'simple:{name}')(known)]

    def test_waiting(self) -> None:
        known = day(200, LATE)
        # Without the change train 5 leaves at 268, behind train 1; the change holds it up for two seconds more.
        self.assertEqual(self.said('wait_at_most:2', known), ['keep 5'])
        self.assertEqual(self.said('wait_at_most:1', known), ['drop 5'])
        self.assertEqual(self.said('never_wait', known), ['drop 5'])
        self.assertEqual(self.said('never_wait', day(200)), ['keep 5'])
        self.assertEqual(self.said('scheduled_order', known), [])

    def test_first_come_first_served(self) -> None:
        known = day(200, LATE)
        self.assertEqual(self.said('first_come_first_served', known), ['first 3 5'])
        known.rows.kept[known.network.activity_place[5]] = False
        self.assertEqual(self.said('first_come_first_served', known), ['first 5 3'])
        self.assertEqual(self.said('first_come_and_wait:0', day(200, LATE)), ['drop 5', 'first 3 5'])

    def test_no_policy(self) -> None:
        for name in 'simple', 'simple:no', 'no_such_module:day', 'simple:TYPE_CHECKING', 'simple:never_wait:x', 'os.path:..':
            with self.assertRaises(BadFile):
                policy_of(name)


class Playing(InFolder):
    def test_a_day_is_played_by_what_is_known_at_each_time(self) -> None:
        net = read_network(network('connection'))
        played = Played(net, Rows(net), ahead=[LATE])
        play_by('simple:first_come_and_wait:0', played, 100, 400, 100, 0)
        # The change is dropped at 100, and only at 200, when that is known, train 5 is seen to be first. It cannot leave before 230.
        self.assertEqual(played.lines, ['delay event 1 60', 'drop 5', 'first 5 3'])

    def test_trains_that_would_wait_for_each_other_are_refused(self) -> None:
        net = read_network(network('turnaround'))
        self.assertTrue(net.pairs)
        with open(os.path.join(self.folder, 'all_turned.py'), 'w', encoding='ascii') as file:
            file.write("def decide(day):\n    return [f'first {one.second} {one.first}' for one in day.free if one.KIND == 'pair']\n")
        self.addCleanup(lambda: sys.modules.pop('all_turned', None))
        with self.assertRaises(BadFile) as caught:
            play_by('all_turned:decide', Played(net, Rows(net)), 0, 0, 60, 0)
        self.assertIn('wait for each other', str(caught.exception))

    def test_what_was_not_so_by_then_does_not_become_so_before(self) -> None:
        net = read_network(network('connection'))
        played = Played(net, Rows(net), ahead=[LATE])
        play_by('simple:never_wait', played, 240, 240, 100, 0)
        # At 240 train 5 still waited, until 270. Behind train 1, which goes first, it leaves at 268.
        self.assertEqual(played.lines, ['delay event 1 60', 'drop 5'])
        played = Played(net, Rows(net), ahead=[LATE])
        play_by('both_at_240:decide', played, 240, 240, 100, 0)
        self.assertEqual(played.lines, ['delay event 1 60', 'drop 5', 'first 5 3', 'delay event 5 10'])

    def setUp(self) -> None:
        super().setUp()
        with open(os.path.join(self.folder, 'both_at_240.py'), 'w', encoding='ascii') as file:
            file.write("def decide(day):\n    return ['drop 5', 'first 5 3']\n")
        sys.path.append(self.folder)
        self.addCleanup(sys.path.remove, self.folder)
        self.addCleanup(lambda: sys.modules.pop('both_at_240', None))


if __name__ == '__main__':
    unittest.main()
