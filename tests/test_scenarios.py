"""Drawn days, shapes of networks, and days that are played by a program that plans nothing or turns a pair."""
from __future__ import annotations

import contextlib
import io
import os
import stat
import sys
import unittest
from collections import Counter
from dataclasses import replace
from random import Random
from typing import Iterable, Optional

from dispatch_tools.commands import scenarios, shapes
from dispatch_tools.days.delays import Drawing, drawn_day, KINDS, Lines, size_of
from dispatch_tools.days.playing import Played, Program, replanned, Replanning
from dispatch_tools.days.shapes import made, USUAL
from dispatch_tools.formats.giv import read_network
from dispatch_tools.formats.runtext import due_items
from dispatch_tools.model.messages import DelayEvent, First, Said, STATEMENTS
from dispatch_tools.model.network import Activity, Event, Network
from dispatch_tools.model.railway import apply, refusal_at_once, Rows, sound_times
from tests.drawn import drawn_network
from tests.folders import InFolder, read
from tests.samples import network

# A program whose window makes one choice, and which judges every text to be good.
PROGRAM = '''#!{python}
import sys
words = sys.argv[1:]
if words[0] == 'run':
    with open(words[2]) as file:
        lines = file.read()
    with open('{folder}/asked', 'a') as file:
        file.write(lines + '--\\n')
    print('cost 7\\ndone')
elif words[0] == 'window':
    print(*words[:1], *words[3:5], 'entry 1')
    print('plan optimal cost 1 bound 1 choices 1 nodes 1', 'choice first 5 3', 'bound 1', sep='\\n')
else:
    print('good 1 0')
'''


def rows_of(net: Network, messages: Iterable[Optional[Said]]) -> Rows:
    """The rows after messages, none of which may be refused at once; delays, passes and clocks make no cycle."""
    rows = Rows(net)
    for message in messages:
        assert isinstance(message, STATEMENTS), 'a line is malformed, or asks'
        refusal = refusal_at_once(net, rows, message)
        if refusal is not None:
            raise AssertionError(f'{message} is refused: {refusal}')
        apply(net, rows, message)
    return rows


def heard_in(feed: str) -> list[Optional[Said]]:
    return [message for _, message in due_items(feed)]


class Sizes(unittest.TestCase):
    def mean(self, text: str) -> float:
        draws, size = Random(1), size_of(text)
        return sum(size(draws) for _ in range(4000)) / 4000

    def test_means(self) -> None:
        self.assertAlmostEqual(self.mean('exponential:300'), 300, delta=15)
        # The mean of a lognormal is its median times e to the half of sigma's square.
        self.assertAlmostEqual(self.mean('lognormal:200:0.5'), 200 * 1.1331, delta=10)

    def test_what_is_no_size(self) -> None:
        for text in ('exponential', 'exponential:0', 'lognormal:5', 'even:3', 'exponential:1:2'):
            with self.assertRaises(ValueError):
                size_of(text)


class Days(InFolder):
    def test_histogram(self) -> None:
        name = os.path.join(self.folder, 'sizes')
        with open(name, 'w', encoding='ascii') as file:
            file.write('# seconds\n0;60;1\n600;660;3\n')
        draws, size = Random(1), size_of(f'histogram:{name}')
        drawn = [size(draws) for _ in range(4000)]
        self.assertTrue(all(0 <= one <= 60 or 600 <= one <= 660 for one in drawn))
        self.assertAlmostEqual(sum(one > 60 for one in drawn) / 4000, 0.75, delta=0.03)

    def test_days_of_each_kind(self) -> None:
        net = read_network(network('forty_trains'))
        lines = Lines(net)
        self.assertEqual(len(lines.trains), 40)
        for kind in KINDS:
            drawing = Drawing(kind, 0.5, size_of('exponential:300'))
            told = drawn_day(lines, drawing, 7, 1)
            self.assertEqual(told, drawn_day(lines, drawing, 7, 1))
            self.assertNotEqual(told, drawn_day(lines, drawing, 7, 2))
            self.assertTrue(told and told == sorted(told, key=lambda one: one.time))
            rows_of(net, [one.message for one in told])

    def test_blocked_stretch(self) -> None:
        net = read_network(network('forty_trains'))
        told = drawn_day(Lines(net), Drawing('blocked', 0, size_of('exponential:1')), 1, 1)
        start = told[0].time
        delays = [one.message for one in told if one.time == start and isinstance(one.message, DelayEvent)]
        leaving = [net.events[net.event_place[delay.event]].time + delay.seconds for delay in delays]
        self.assertEqual(len(delays), len(told))
        self.assertEqual([time - start for time in sorted(leaving)], [3600 + 120 * place for place in range(len(leaving))])

    def test_feed_with_a_clock(self) -> None:
        out = os.path.join(self.folder, 'out')
        words = [network('connection'), out, '--kind=delays', '--probability=0.9', '--days=2', '--seed=5', '--every=1']
        self.assertEqual(self.call(scenarios, *words)[0], 0)
        net = read_network(network('connection'))
        rows = rows_of(net, heard_in(read(out, 'day-2')))
        told = ''.join(line.split(';')[1] + '\n' for line in read(out, 'day-2.csv').splitlines()[1:])
        without = rows_of(net, heard_in(told))
        # What passed did so at its time, so the times are those of the delays alone.
        self.assertEqual(sound_times(net, rows), sound_times(net, without))
        self.assertTrue(told and rows.clock and any(passed is not None for passed in rows.passed))
        self.assertTrue(all(time > rows.clock for time, passed in zip(sound_times(net, rows), rows.passed) if passed is None))

    def test_words_that_are_none(self) -> None:
        self.assertEqual(self.call(scenarios, network('connection'), self.folder, '--size=even')[0], 2)
        self.assertEqual(self.call(scenarios, network('connection'), self.folder, '--probability=2')[0], 2)


class Shapes(InFolder):
    def test_networks_of_each_shape(self) -> None:
        for shape, trains, least in (('single', 6, 'headway'), ('hub', 2, 'change'), ('ring', 4, 'change'), ('mesh', 2, 'change')):
            sizes = replace(USUAL[shape], trains=trains, lines=min(USUAL[shape].lines, 8))
            expanded = made(shape, sizes).expanded
            net = Network(expanded.events, expanded.activities)
            rows = Rows(net)
            # Without delays nothing is late.
            self.assertEqual(sound_times(net, rows), [event.time for event in net.events], shape)
            kinds = Counter(activity.kind for activity in net.activities)
            self.assertGreater(kinds[least], 10, shape)
            self.assertTrue(net.pairs, shape)

    def test_each_line_meets_each_other_in_the_hub(self) -> None:
        expanded = made('hub', replace(USUAL['hub'], lines=8, trains=1)).expanded
        hub = expanded.stations['Hub']
        self.assertEqual(expanded.changes_at[hub], 8 * 7)
        times = [event.time for event in expanded.events if event.stop == hub]
        self.assertLessEqual(max(times) - min(times), 600)

    def test_section_is_taken_by_one_train(self) -> None:
        expanded = made('single', replace(USUAL['single'], trains=3, stations=5)).expanded
        kinds = Counter(activity.kind for activity in expanded.activities)
        # Six trains over four sections, each section with the two trains behind: 5 + 4 pairs.
        self.assertEqual(kinds['headway'], 4 * 2 * (5 + 4))

    def test_files(self) -> None:
        said = io.StringIO()
        with contextlib.redirect_stderr(said):
            shapes.main(['mesh', self.net, '--lines=3', '--trains=1'])
        self.assertIn('trains 6,', said.getvalue())
        self.assertTrue(os.path.exists(os.path.join(self.net, 'Trains.csv')))
        self.assertTrue(read_network(self.net).events)


class Playing(InFolder):
    def setUp(self) -> None:
        super().setUp()
        name = os.path.join(self.folder, 'program')
        with open(name, 'w', encoding='utf-8') as file:
            file.write(PROGRAM.format(python=sys.executable, folder=self.folder))
        os.chmod(name, os.stat(name).st_mode | stat.S_IXUSR)
        self.program = Program(name, network('connection'), 10, self.folder)

    def test_window_each_time(self) -> None:
        net = read_network(network('connection'))
        played = Played(net, Rows(net), ahead=drawn_day(Lines(net), Drawing('line', 0, lambda draws: 60), 1, 1))
        replanned(self.program, played, 100, 300, Replanning(100, 100, back=100))
        self.assertEqual(self.program.judged(played.lines), 7)
        self.assertEqual(played.lines.count('first 5 3'), 1)
        self.assertGreater(read(self.folder, 'asked').count('--'), 2)

    def test_nothing_happens_before_it_can(self) -> None:
        """Turned when the time is 250, the train that waited until 268 leaves at 250 and not in the past."""
        net = Network(
            [Event(1, 'departure', 220, 0, 1), Event(2, 'departure', 230, 1000, 1)],
            [Activity(1, 'headway', 1, 2, 8, 0), Activity(2, 'headway', 2, 1, 8, 0)],
        )
        played = Played(net, Rows(net))
        played.say(DelayEvent(1, 40))
        before = sound_times(net, played.rows)
        self.assertEqual(before, [260, 268])
        self.assertEqual(played.question(250, before, 0), ['delay event 1 40', 'delay event 2 20'])
        self.assertEqual(played.enter([First(2, 1)]), 1)
        played.hold_back(250, before)
        self.assertEqual(played.lines, ['delay event 1 40', 'first 2 1', 'delay event 2 20'])
        self.assertEqual(sound_times(net, played.rows), [260, 250])

    def test_rows_are_those_of_the_feed(self) -> None:
        for number in range(20):
            draws = Random(number)
            net = drawn_network(draws)
            played = Played(net, Rows(net), clock=True, ahead=drawn_day(Lines(net), Drawing('delays', 0.8, lambda d: 50), number, 1))
            for now in range(0, 400, 50):
                played.tell(now)
            rows = rows_of(net, heard_in(''.join(f'{line}\n' for line in played.lines)))
            self.assertEqual(vars(rows), vars(played.rows))


if __name__ == '__main__':
    unittest.main()
