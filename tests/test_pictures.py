"""Diagrams and pages of runs: trains and lines that are found, the states of changes, and what stands in the pictures."""
from __future__ import annotations

import base64
import hashlib
import os
import shutil
import subprocess
import tempfile
import unittest
import xml.etree.ElementTree as xml
from typing import Any, Iterable, Optional, Sequence

from dispatch_tools.dev.hostile_names import HOSTILE
from dispatch_tools.formats.files import BadFile
from dispatch_tools.formats.giv import read_network
from dispatch_tools.formats.markup import in_script
from dispatch_tools.here import words_of
from dispatch_tools.model.messages import BoundLeaf, CycleLeaf, DelayEvent, First, Inner, Message, Node, Now, OpenLeaf, Pass
from dispatch_tools.model.network import Change, Pair
from dispatch_tools.model.network import Activity, Event, Network
from dispatch_tools.model.railway import rows_after, Rows, sound_times
from dispatch_tools.pictures.diagram import chosen_line, drawing, drawn, frame_of, marked_on, part_of, Preview
from dispatch_tools.pictures.labels import Box, Labels, length_of, LONGEST
from dispatch_tools.pictures.scene import (
    Conflict, conflicts_of, cost_parts, distances, duration, lines_of, links_of, path_of, read_scene, Scene, trains_of, turned_pairs, whole_time,
)
from dispatch_tools.pictures.view import Cut, page, tree_part, upper_part
from tests.samples import lines_of_run, network, text, TOP
from tests.test_parts import EMPTY, FIRST, HEAD, SECOND, text_of, WHOLE


def scene(folder: str, name: str) -> Scene:
    return read_scene(network(folder), text(name))


def classes(svg: str) -> list[str]:
    """The classes of the elements of a drawing, legend left out."""
    root = xml.fromstring(svg)
    return [name for element in root for part in element.iter() for name in part.get('class', '').split()]


def line_of_trains(paths: Iterable[Sequence[int]]) -> Network:
    """A network in which each path of stops is a train, its stops 100 seconds apart."""
    events: list[Event] = []
    activities: list[Activity] = []
    begin = 0
    for path in paths:
        first = len(events) + 1
        for place, stop in enumerate(path):
            events.append(Event(first + place, 'departure' if place == 0 else 'arrival', begin + 100 * place, 0, stop))
        for place in range(len(path) - 1):
            activities.append(Activity(len(activities) + 1, 'drive', first + place, first + place + 1, 90, 0))
        begin += 1000
    return Network(events, activities)


class TrainsAndLines(unittest.TestCase):
    def test_trains_of_the_connection(self) -> None:
        found = scene('connection', 'empty_feed')
        self.assertEqual(found.trains, [[0, 1, 2, 3], [4, 5]])
        self.assertEqual([path_of(found.network, train) for train in found.trains], [(1, 2, 3), (2, 4)])

    def test_busiest_line_first(self) -> None:
        net = line_of_trains([(1, 2, 3), (3, 2, 1), (2, 9, 8, 7, 6), (1, 2, 3)])
        self.assertEqual([sorted(line) for line in lines_of(net, trains_of(net), 12)], [[1, 2, 3], [2, 6, 7, 8, 9]])

    def test_few_stops_are_one_line(self) -> None:
        net = line_of_trains([(1, 2, 3), (2, 9)])
        self.assertEqual(lines_of(net, trains_of(net), 12), [[1, 2, 3, 9]])

    def test_stops_lie_as_far_apart_as_trains_drive(self) -> None:
        net = line_of_trains([(1, 2, 3)])
        self.assertEqual(distances(net, trains_of(net), [1, 2, 3]), [0.0, 0.5, 1.0])

    def test_network_without_events(self) -> None:
        net = Network([], [])
        self.assertEqual((trains_of(net), lines_of(net, [], 12)), ([], []))


class StatesOfChanges(unittest.TestCase):
    def test_kept(self) -> None:
        self.assertEqual([link.state for link in links_of(scene('connection', 'late_first_train'))], ['kept'])

    def test_dropped_and_turned(self) -> None:
        found = scene('connection', 'plan_that_is_adopted')
        self.assertEqual([link.state for link in links_of(found)], ['dropped'])
        self.assertEqual(turned_pairs(found), [(2, 4)])

    def test_missed(self) -> None:
        found = scene('connection', 'passed_time_that_misses_a_change')
        self.assertEqual([link.state for link in links_of(found)], ['missed'])
        self.assertEqual(cost_parts(found), (30000, 0, 40000))

    def test_parts_add_up_to_the_cost(self) -> None:
        for name in ('late_first_train', 'plan_that_is_adopted', 'passed_time_that_misses_a_change'):
            found = scene('connection', name)
            self.assertEqual(sum(cost_parts(found)), found.run.cost)


def two_on_a_track() -> Network:
    """Two trains from stop 1 to stop 2, of which the second leaves a minute after the first, and not sooner."""
    events = [Event(1, 'departure', 0, 0, 1), Event(2, 'arrival', 300, 0, 2), Event(3, 'departure', 60, 0, 1), Event(4, 'arrival', 500, 0, 2)]
    return Network(events, [Activity(1, 'drive', 1, 2, 300, 0), Activity(2, 'drive', 3, 4, 300, 0), Activity(3, 'headway', 1, 3, 60, 0),
                            Activity(4, 'headway', 3, 1, 60, 0)])


class Conflicts(unittest.TestCase):
    def found(self, *messages: Message) -> list[Conflict]:
        net = two_on_a_track()
        rows = Rows(net)
        for message in messages:
            rows = rows_after(net, rows, message)
        return conflicts_of(net, rows, sound_times(net, rows), [0], {0: [3], 2: [2]})

    def test_a_train_that_waits_for_another(self) -> None:
        self.assertEqual(self.found(DelayEvent(1, 300)), [Conflict(0, 2, 300)])

    def test_none_on_time_or_for_less_than_a_minute(self) -> None:
        self.assertEqual(self.found(), [])
        self.assertEqual(self.found(DelayEvent(1, 59)), [])
        self.assertEqual(self.found(DelayEvent(1, 60)), [Conflict(0, 2, 60)])

    def test_only_what_the_other_one_adds(self) -> None:
        self.assertEqual(self.found(DelayEvent(1, 300), DelayEvent(3, 200)), [Conflict(0, 2, 100)])
        self.assertEqual(self.found(DelayEvent(1, 300), Now(330)), [Conflict(0, 2, 60)])

    def test_none_where_it_has_left_or_goes_first(self) -> None:
        self.assertEqual(self.found(DelayEvent(1, 300), Pass(3, 70)), [])
        self.assertEqual(self.found(DelayEvent(1, 300), First(3, 1)), [])
        self.assertEqual(self.found(First(3, 1)), [Conflict(2, 0, 120)])

    def test_marked_in_a_drawing(self) -> None:
        net = two_on_a_track()
        rows = rows_after(net, Rows(net), DelayEvent(1, 300))
        whole = scene('connection', 'empty_feed')._replace(network=net, start=Rows(net), rows=rows, times=sound_times(net, rows), trains=trains_of(net),
                                                            names={1: 'Au'}, labels={1: 'RE 1', 3: 'RB 2'}, trips={})
        svg = ''.join(drawing(whole, [1, 2]))
        self.assertIn('<title>conflict: RB 2 waits 5 min for RE 1 at Au</title>', svg)
        self.assertEqual(classes(svg).count('conflict'), 2)


class Previews(unittest.TestCase):
    def test_trains_that_a_plan_moves_and_where_it_decides(self) -> None:
        net = two_on_a_track()
        before, after = Rows(net), rows_after(net, Rows(net), First(3, 1))
        whole = scene('connection', 'empty_feed')._replace(network=net, start=before, rows=before, times=sound_times(net, before), trains=trains_of(net),
                                                            names={}, labels={1: 'RE 1', 3: 'RB 2'}, trips={})
        frame, trains = frame_of(whole, [1, 2], None, None)
        preview = Preview(sound_times(net, after), [(First(3, 1), 'RB 2 goes before RE 1')])
        svg = ''.join(drawn(whole, frame, trains, marked_on(frame.rows, whole), 'both', preview=preview))
        self.assertIn('<title>RE 1 by the plan</title>', svg)
        self.assertNotIn('RB 2 by the plan', svg)
        self.assertIn('<title>the plan: RB 2 goes before RE 1</title>', svg)
        without = ''.join(drawn(whole, frame, trains, marked_on(frame.rows, whole), 'both'))
        self.assertEqual([classes(one).count('then') for one in (svg, without)], [2, 1])


class Drawings(unittest.TestCase):
    def draw(self, name: str, line: Iterable[int] = (1, 2, 3), begin: Optional[int] = None, end: Optional[int] = None) -> str:
        return ''.join(drawing(scene('connection', name), list(line), begin, end))

    def test_marks_of_an_adopted_plan(self) -> None:
        found = classes(self.draw('plan_that_is_adopted'))
        self.assertEqual([found.count(kind) for kind in ('train', 'link', 'turned')], [1, 1, 2])

    def test_marks_of_a_passed_event(self) -> None:
        self.assertEqual(classes(self.draw('passed_time_that_misses_a_change')).count('passed'), 2)

    def test_lateness_moves_a_path_to_the_right(self) -> None:
        found = scene('connection', 'late_first_train')
        frame, _ = frame_of(found, [1, 2, 3], None, None)
        self.assertLess(frame.x(found.scheduled(0)), frame.x(found.times[0]))

    def test_nothing_outside_the_times_asked_for(self) -> None:
        found = classes(self.draw('late_first_train', begin=0, end=60))
        self.assertNotIn('train', found)

    def test_names_are_text_and_not_markup(self) -> None:
        found = scene('connection', 'late_first_train')._replace(names={1: '<b>&'})
        self.assertIn('&lt;b&gt;&amp;', ''.join(drawing(found, [1, 2, 3])))

    def test_every_name_leaves_a_drawing_xml(self) -> None:
        found = scene('connection', 'late_first_train')
        for name in HOSTILE:
            svg = ''.join(drawing(found._replace(names={1: name}, labels={1: name}), [1, 2, 3]))
            self.assertEqual(classes(svg).count('train'), 1, name)


class Names(unittest.TestCase):
    """Names of trains lie neither over the names of stops nor beyond the edge of the picture."""

    def extents(self, begin: int, end: int, *names: str) -> list[tuple[str, float, float]]:
        """The names in a diagram of the connection between two times, and where they begin and end, at seven units a letter."""
        with tempfile.TemporaryDirectory() as net:
            for name in os.listdir(network('connection')):
                shutil.copy(os.path.join(network('connection'), name), net)
            with open(os.path.join(net, 'Trains.csv'), 'w', encoding='utf-8') as file:
                file.writelines(f'{event};{name}\n' for event, name in zip((1, 5), names))
            found = read_scene(net, text('empty_feed'))
        root = xml.fromstring('\n'.join(drawing(found, [1, 2, 3, 4], begin, end)))
        said = []
        for one in root.iter():
            if one.get('class') == 'small' and one.text is not None:
                length = 7 * len(one.text)
                begins = float(one.get('x', '')) - (length if one.get('text-anchor') == 'end' else 0)
                said.append((one.text, begins, begins + length))
        width = float(root.get('width', ''))
        for name, left, right in said:
            self.assertGreaterEqual(left, 130, name)
            self.assertLessEqual(right, width, name)
        return said

    def test_beside_the_stops(self) -> None:
        self.assertEqual([name for name, _, _ in self.extents(60, 400, 'RE 1 00:01', 'Train that begins at once')],
                         ['RE 1 00:01', 'Train that begins at once'])

    def test_at_the_right_edge(self) -> None:
        self.assertEqual([name for name, _, _ in self.extents(0, 120, 'Train that begins when the picture ends', 'x')],
                         ['Train that begins when the picture ends'])

    def test_every_train_has_its_name_and_none_lies_over_another(self) -> None:
        labels = Labels(Box(130, 50, 900, 300))
        put = [labels.put(f'Train {number}', [(200 + 3 * (number % 7), 100), (400 + 30 * number, 200), (860, 240)]) for number in range(14)]
        self.assertEqual(len({label.text for label in put}), 14)
        boxes = [label.box(length_of(label.text)) for label in put]
        self.assertEqual([one for place, one in enumerate(boxes) for other in boxes[:place] if one.over(other)], [])
        self.assertTrue(all(box.left >= 130 and box.right <= 900 and box.top >= 50 and box.bottom <= 300 for box in boxes))

    def test_names_that_find_no_room_are_written_all_the_same(self) -> None:
        labels = Labels(Box(130, 50, 220, 80))
        put = [labels.put('x' * 12, [(215, 70)]) for _ in range(9)]
        self.assertTrue(all(130 <= label.box(84).left and label.box(84).right <= 220 for label in put))

    def test_every_train_of_a_day_has_its_name(self) -> None:
        found = read_scene(os.path.join(TOP, 'examples', 'day', 'net'), os.path.join(TOP, 'examples', 'day', 'text'))
        for line in lines_of(found.network, found.trains, 4):
            frame, trains = frame_of(found, line, None, None)
            svg = xml.fromstring('\n'.join(drawing(found, line)))
            said = [one.text for one in svg.iter() if one.get('class') == 'small']
            self.assertEqual(sorted(said), sorted(found.train_label(number) for number, _ in trains))

    def test_names_of_stops_are_whole(self) -> None:
        name = 'Name of a stop with 34 characters.'
        found = scene('connection', 'empty_feed')._replace(names={1: name, 2: 'x' * 90})
        frame, _ = frame_of(found, [1, 2, 3], None, None)
        self.assertGreaterEqual(frame.left, 7 * LONGEST)
        svg = '\n'.join(drawing(found, [1, 2, 3]))
        self.assertIn(f'>{name}<', svg)
        self.assertIn(f'>{"x" * (LONGEST - 1)}…<', svg)

    def test_longer_than_any_room_is_cut(self) -> None:
        self.assertEqual([len(name) for name, _, _ in self.extents(60, 400, 'x' * 100, 'y')], [40, 1])


class Words(unittest.TestCase):
    def test_lengths_of_time_and_clocks(self) -> None:
        self.assertEqual([duration(seconds) for seconds in (0, 59, 300, 3930)], ['0 min', '59 s', '5 min', '1 h 5 min 30 s'])
        self.assertEqual([whole_time(seconds) for seconds in (21600, 90061)], ['6:00:00', '25:01:01'])


class Pages(unittest.TestCase):
    def test_page_loads_nothing(self) -> None:
        found = page(scene('connection', 'plan_that_is_adopted'))
        self.assertNotIn('src=', found)
        self.assertNotIn('http', found.replace('http://www.w3.org/2000/svg', '').replace('http-equiv', ''))

    def test_page_lets_in_its_own_script_alone(self) -> None:
        found = page(scene('connection', 'plan_that_is_adopted')._replace(names={1: '</script><script>1</script>'}))
        with open(os.path.join(TOP, 'dispatch_tools', 'pictures', 'view.js'), 'rb') as file:
            digest = base64.b64encode(hashlib.sha256(file.read()).digest()).decode()
        self.assertIn(f"default-src 'none'; base-uri 'none'; form-action 'none'; script-src 'sha256-{digest}'; style-src 'sha256-", found)
        self.assertEqual((found.count('<script'), found.count('</script')), (2, 2))

    def test_data_have_no_markup(self) -> None:
        self.assertEqual(in_script('<!--</script>&\u2028\u2029'), '"\\u003c!--\\u003c/script\\u003e\\u0026\\u2028\\u2029"')

    def test_tree_of_two_levels(self) -> None:
        nodes: list[Node | Cut] = [Inner(Change(5)), Inner(Pair(3, 5)), BoundLeaf(1), CycleLeaf(), OpenLeaf(2)]
        tree = xml.fromstring(tree_part(nodes))
        self.assertEqual([mark.text for mark in tree.iter('b')], ['keep 5', 'first 3 5', 'first 5 3', 'drop 5'])
        self.assertEqual([leaf.text for leaf in tree.iter('span')], ['bound 1', 'cycle', 'open 2'])

    def test_upper_part_of_a_tree(self) -> None:
        nodes: list[Node] = [Inner(Change(5)), Inner(Pair(3, 5)), BoundLeaf(1), CycleLeaf(), OpenLeaf(2)]
        self.assertEqual(upper_part(nodes, 5), nodes)
        self.assertEqual(upper_part(nodes, 4), [nodes[0], Cut(Pair(3, 5), 2), OpenLeaf(2)])
        self.assertEqual(upper_part(nodes, 2), [Cut(Change(5), 4)])
        self.assertIn('branches on pair 3 5, 2 nodes below', tree_part(upper_part(nodes, 4)))

    def page_of(self, plan: str, names: bytes = b'') -> str:
        """The page of a run over the connection with a plan by parts."""
        with tempfile.TemporaryDirectory() as folder:
            shutil.copytree(network('connection'), f'{folder}/net')
            for name, content in ('text', text_of(plan)), ('net/Trains.csv', b'1;"' + names + b'"\n' if names else b''):
                if content:
                    with open(os.path.join(folder, name), 'wb') as file:
                        file.write(content)
            return page(read_scene(f'{folder}/net', f'{folder}/text'))

    def test_parts_of_a_plan(self) -> None:
        found = self.page_of(WHOLE)
        self.assertIn('1 part, each of trains that decide together', found)
        self.assertIn('Part 1: 2 trains, 1 choice, 3 nodes; 3 arrivals and 1 change cost 15.7 passenger minutes or more', found)
        self.assertIn('<p>Train 1, Train 5</p><ul class="tree">', found)
        self.assertIn('<b>drop 5</b>: <span>leaf 940000</span>', found)
        self.assertIn('<td>solve 100</td><td>1 solved optimal cost 940000 bound 940000</td>', found)
        self.assertIn('All else costs 0.0 passenger minutes or more.', found)
        apart = self.page_of(HEAD.format(2, 4) + FIRST + SECOND + 'rest 0\n')
        self.assertIn('Part 1: 1 train, 0 choices, 1 node; 2 arrivals and 0 changes', apart)
        self.assertIn('<p>Train 1</p>', apart)

    def test_parts_that_are_not_as_they_should_be(self) -> None:
        found = self.page_of(WHOLE.replace('leaf 1075000', 'inner change 99').replace('events 2 4 6', 'events 2 4 99'))
        self.assertIn('These nodes are no whole tree.', found)
        found = self.page_of(HEAD.format(201, 201) + 201 * EMPTY + 'rest 940000\n')
        self.assertIn('Part 200: 0 trains', found)
        self.assertNotIn('Part 201', found)
        self.assertIn('1 further part is left out.', found)

    def test_trains_that_decide_together(self) -> None:
        with tempfile.NamedTemporaryFile() as file:
            file.write(text_of(HEAD.format(2, 4) + SECOND + FIRST + 'rest 0\n'))
            file.flush()
            made = read_scene(network('connection'), file.name)
        for number, trains in (1, {0, 1}), (2, {0}):
            together = part_of(made, number)
            self.assertEqual(together.trains, trains)
            svg = ''.join(drawing(made, [1, 2, 3, 4], together=together))
            self.assertIn(f'; part {number} of 2 of the plan of entry 1</text>', svg)
            self.assertEqual(svg.count('opacity="0.2"'), 2 - len(trains))
        self.assertNotIn('opacity=', ''.join(drawing(made, [1, 2, 3, 4])))
        self.assertEqual(chosen_line(made, None, part_of(made, 2)), [1, 2, 3])
        for number, other, said in (3, made, 'has 2 parts'), (1, scene('connection', 'plan_that_is_adopted'), 'no plan by parts'):
            with self.assertRaises(BadFile) as caught:
                part_of(other, number)
            self.assertIn(said, str(caught.exception))

    def test_names_of_trains_in_parts_are_text(self) -> None:
        found = self.page_of(WHOLE, b'<b onclick=x>')
        self.assertIn('<p>&lt;b onclick=x&gt;, Train 5</p>', found)
        self.assertNotIn('<b onclick', found)

    def test_cost_and_replies_stand_there(self) -> None:
        found = page(scene('connection', 'plan_that_is_adopted'))
        self.assertIn('940,000', found)
        self.assertIn('<td>delay event 1 60</td><td>1 ok</td>', found)

    def test_times_however_late_have_few_lines(self) -> None:
        net = read_network(network('connection'))
        with tempfile.TemporaryDirectory() as folder:
            name = os.path.join(folder, 'text')

            def late(latest: int, *messages: Message) -> Scene:
                with open(name, 'w', encoding='ascii') as file:
                    file.writelines(f'{line}\n' for line in lines_of_run(net, messages, [latest] * len(net.events)))
                return read_scene(network('connection'), name)
            with self.assertRaisesRegex(BadFile, f': one of its times is {10 ** 38}, and no time of a run is above {10 ** 12}'):
                late(10 ** 38)
            for one in late(10 ** 12), late(2 * 10 ** 9, Now(2 * 10 ** 9)):
                self.assertLess(page(one).count('<line'), 2_500)


class Commands(unittest.TestCase):
    def run_tool(self, name: str, *words: str, **said: Any) -> Any:
        environment = {**os.environ, **said}
        return subprocess.run([*words_of(name), *words], capture_output=True, encoding='utf-8', env=environment)

    def test_what_is_written_is_utf_8_whatever_the_locale_says(self) -> None:
        with tempfile.TemporaryDirectory() as net:
            for name in os.listdir(network('connection')):
                shutil.copy(os.path.join(network('connection'), name), net)
            with open(os.path.join(net, 'Stops.csv'), 'w', encoding='utf-8-sig') as file:
                file.write('1;Ørby – 東京\n2;Ü\n')
            for tool in ('view', 'diagram'):
                outs = [self.run_tool(tool, net, text('late_first_train'), PYTHONIOENCODING=name) for name in ('ascii', 'cp1252', 'utf-8')]
                self.assertEqual([out.returncode for out in outs], [0, 0, 0], outs[0].stderr)
                self.assertEqual(outs[0].stdout, outs[2].stdout)
                self.assertEqual(outs[1].stdout, outs[2].stdout)
                self.assertIn('Ørby – 東京', outs[0].stdout)

    def test_bad_files_are_told_in_one_line(self) -> None:
        with tempfile.TemporaryDirectory() as folder:
            with open(os.path.join(folder, 'Events-expanded.giv'), 'w', encoding='utf-8') as file:
                file.write('# events\n1; 1; "departure"; 100; 10; 1\n2; 2; "arrives"; 200; 10; 2\n')
            for tool in ('diagram', 'view'):
                done = self.run_tool(tool, folder, text('late_first_train'))
                self.assertEqual((done.returncode, done.stdout), (2, ''))
                self.assertEqual(done.stderr.count('\n'), 1)
                self.assertIn('Events-expanded.giv, line 3', done.stderr)

    def test_unknown_stop_of_a_line(self) -> None:
        done = self.run_tool('diagram', network('connection'), text('late_first_train'), '--line', '1,77')
        self.assertEqual((done.returncode, done.stdout), (2, ''))
        self.assertIn('77', done.stderr)

    def test_drawing_is_whole(self) -> None:
        done = self.run_tool('diagram', network('connection'), text('late_first_train'))
        self.assertEqual(done.returncode, 0)
        xml.fromstring(done.stdout)


if __name__ == '__main__':
    unittest.main()
