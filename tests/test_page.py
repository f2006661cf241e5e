"""The page of a day in a browser: no name runs as a script, and all of it is reached by wheel, keys and search."""
from __future__ import annotations

import json
import os
import shutil
import tempfile
import unittest
from typing import Any, ClassVar

from dispatch_tools.dev.browser import Browser, CHROMIUM, MISSING
from dispatch_tools.dev.hostile_names import HOSTILE
from dispatch_tools.formats.giv import network_files, read_network
from dispatch_tools.formats.names import in_print
from dispatch_tools.model.messages import Cancel
from dispatch_tools.model.network import Activity, Event, Network
from dispatch_tools.pictures.scene import read_scene
from dispatch_tools.pictures.view import page
from tests.patience import comes_to_be
from tests.samples import CASES, lines_of_run, network, text

DAY = os.path.join(CASES, 'networks', 'forty_trains', 'net')
DAY_TEXT = os.path.join(CASES, 'runs', 'text_of_two_control_rooms', 't')


def ten_lines() -> Network:
    """A network of a line for each of ten trains, of eight of which two trains run."""
    events, activities = [], []
    for train in range(18):
        line, number = train % 10, 2 * train + 1
        begin = 21600 + 600 * train
        events += [Event(number, 'departure', begin, 0, 2 * line + 1), Event(number + 1, 'arrival', begin + 300, 1000, 2 * line + 2)]
        activities.append(Activity(train + 1, 'drive', number, number + 1, 280, 0))
    return Network(events, activities)


@unittest.skipUnless(CHROMIUM, MISSING)
class InBrowser(unittest.TestCase):
    browser: ClassVar[Browser]
    folder: ClassVar[str]

    @classmethod
    def setUpClass(cls) -> None:
        cls.browser = Browser()
        cls.addClassCleanup(cls.browser.close)
        folder = tempfile.TemporaryDirectory()
        cls.addClassCleanup(folder.cleanup)
        cls.folder = folder.name

    def written(self, name: str, files: Any) -> str:
        """A folder with files."""
        folder = os.path.join(self.folder, name)
        os.makedirs(folder, exist_ok=True)
        for file, said in files.items():
            with open(os.path.join(folder, file), 'w', encoding='utf-8', newline='') as into:
                into.write(said)
        return folder

    def show(self, net: str, name: str) -> None:
        """Opens the page of a run."""
        html = os.path.join(self.folder, 'page.html')
        with open(html, 'w', encoding='utf-8', newline='') as file:
            file.write(page(read_scene(net, name)))
        self.browser.open(html)

    def find(self, wanted: str) -> Any:
        """What the page says of what is looked for."""
        return self.browser.value(
            f"wanted.value = {json.dumps(wanted)}; document.getElementById('find').requestSubmit(); document.getElementById('found').textContent"
        )

    def until(self, expression: str) -> None:
        """Waits for an expression to hold."""
        self.assertTrue(comes_to_be(lambda: bool(self.browser.value(expression))), expression)


class Names(InBrowser):
    def test_none_runs_and_all_are_shown(self) -> None:
        net = self.written('hostile', {
            'Stops.csv': in_print(['id', 'name'], enumerate(HOSTILE, 1)),
            'Trains.csv': in_print(['event', 'name', 'trip'], ((20 * place + 1, name, name) for place, name in enumerate(HOSTILE))),
        })
        for name in ('Events-expanded.giv', 'Activities-expanded.giv'):
            shutil.copy(os.path.join(DAY, name), net)
        self.show(net, DAY_TEXT)
        shown = self.browser.value("[...document.querySelectorAll('#stops option')].map(option => option.textContent)")
        due = [name.replace('\u202e', '\\u202e') for name in HOSTILE]
        self.assertEqual(shown[:len(HOSTILE)], due)
        trains = self.browser.value("[...document.querySelectorAll('#trains option')].map(option => option.textContent)")
        self.assertCountEqual(trains, [*due, *(f'Train {20 * place + 1}' for place in range(len(HOSTILE), 40))])
        for name in due:
            if '\n' not in name:
                self.assertIn(name, self.find(name))
        counts = "['img', 'script', 'svg', 'style'].map(name => document.getElementsByTagName(name).length)"
        self.assertEqual(self.browser.value(counts), [0, 2, 8, 9])
        self.assertEqual(self.browser.value('typeof hurt'), 'undefined')

    def test_the_policy_stops_handlers_and_scripts_that_stand_in_a_page(self) -> None:
        self.show(network('connection'), text('plan_that_is_adopted'))
        self.browser.value('''
            window.hurt = () => { window.isHurt = true; };
            window.stopped = [];
            addEventListener('securitypolicyviolation', event => stopped.push(event.effectiveDirective));
            const script = document.createElement('script');
            script.textContent = 'hurt()';
            document.body.append(script);
            document.body.insertAdjacentHTML('beforeend', '<button id="bad" onclick="hurt()">b</button><img src="data:," onerror="hurt()">');
            document.getElementById('bad').click();
            true''')
        self.until('stopped.length >= 3')
        self.assertEqual(self.browser.value("['script-src-elem', 'script-src-attr', 'img-src'].filter(kind => !stopped.includes(kind))"), [])
        self.assertFalse(self.browser.value('!!window.isHurt'))

    def test_styles_and_script_of_the_page_are_let_in(self) -> None:
        self.show(network('connection'), text('plan_that_is_adopted'))
        styles = "[getComputedStyle(document.body).maxWidth, getComputedStyle(document.querySelector('.run')).strokeWidth]"
        self.assertEqual(self.browser.value(styles), ['1500px', '2px'])
        self.assertEqual(self.browser.value("document.querySelectorAll('#board tbody tr').length"), 1)


class Reach(InBrowser):
    def test_wheel_scrolls_the_page_and_zooms_with_control(self) -> None:
        self.show(DAY, DAY_TEXT)
        box = "document.querySelector('.line svg').getAttribute('viewBox')"
        before = self.browser.value(box)
        x, y = self.browser.value("(box => [box.x + 400, box.y + 200])(document.getElementById('view').getBoundingClientRect())")
        self.browser.wheel(x, y, 120)
        self.until('scrollY > 0')
        self.assertEqual(self.browser.value(box), before)
        self.browser.wheel(x, y, -120, ctrl=True)
        self.until(f'{box} !== {before!r}')

    def test_trains_are_reached_by_keys(self) -> None:
        self.show(DAY, DAY_TEXT)
        for _ in range(12):
            if self.browser.value("document.activeElement.id === 'view'"):
                break
            self.browser.press('Tab')
        reached = []
        for key in 'nnp':
            self.browser.press(key, key)
            reached.append(self.browser.value("[document.activeElement.dataset.t, document.activeElement.getAttribute('aria-label').split(':')[0]]"))
            self.assertTrue(self.browser.value("document.getElementById('found').textContent").startswith(reached[-1][1]))
        self.assertEqual(reached[0], reached[2])
        self.assertNotEqual(reached[0], reached[1])
        self.assertEqual(self.browser.value("document.getElementById('trains').value"), reached[2][0])

    def test_heads_of_tables_have_a_scope(self) -> None:
        self.show(DAY, DAY_TEXT)
        heads = "[...document.querySelectorAll('th')].filter(head => head.scope !== (head.closest('thead') ? 'col' : 'row')).length"
        self.assertEqual(self.browser.value(heads), 0)
        self.assertGreater(self.browser.value("document.querySelectorAll('#board th').length"), 6)

    def test_trains_are_found_by_trip(self) -> None:
        self.show(network('six_stations'), text('six_stations_planned'))
        for wanted in ('west', 'trip west', 'RB 2 09:08'):
            self.assertIn('RB 2 09:08 (trip west): Farnsee', self.find(wanted))
        self.assertEqual(self.find('trip nowhere'), 'Nothing is called “trip nowhere”.')
        self.assertEqual(self.browser.value("document.querySelector('#run caption').textContent"), 'RB 2 09:08, trip west')

    def test_what_is_cancelled_is_struck_out(self) -> None:
        net = read_network(network('six_stations'))
        for events, said, gone in ((range(23, 29), 'RE 1 09:10 (trip back): cancelled.', 6), ((27, 28), 'A part of it is cancelled.', 2)):
            name = self.written(f'gone{gone}', {'text': '\n'.join([*lines_of_run(net, [Cancel(event) for event in events]), ''])})
            self.show(network('six_stations'), os.path.join(name, 'text'))
            self.assertIn(said, self.find('back'))
            rows = "[...document.querySelectorAll('#run tr.gone')].map(row => [row.cells[2].textContent, row.cells[4].textContent])"
            self.assertEqual([[kind.split(', ')[1], now] for kind, now in self.browser.value(rows)], [['cancelled', '–']] * gone)

    def test_trains_that_are_not_drawn_are_found_and_told(self) -> None:
        net = ten_lines()
        files = network_files(net.events, net.activities)
        folder = self.written('ten', {**files, 'text': '\n'.join([*lines_of_run(net), '']), 'Trains.csv': '17;East 9;e9\n'})
        self.show(folder, os.path.join(folder, 'text'))
        self.assertEqual(self.browser.value("document.querySelectorAll('#lines option').length"), 8)
        self.assertIn('These are the 8 busiest lines; there are more. 2 of 18 trains run on no line that is drawn',
                      self.browser.value("document.getElementById('view').parentElement.textContent"))
        drawn = self.browser.value("[...document.querySelectorAll('.train')].map(group => Number(group.dataset.t))")
        self.assertEqual(sorted({*range(18)} - {*drawn}), [8, 9])
        self.assertEqual(self.find('e9'), 'East 9 (trip e9): Stop 17 7:20:00 to Stop 18 7:25:00, 0:00:00 late at its end. '
                         'It runs on no line that is drawn.')
        self.assertEqual(self.browser.value("[...document.querySelectorAll('#run tbody th')].map(head => head.textContent)"), ['17', '18'])

    def test_a_network_without_events_has_a_page(self) -> None:
        net = Network([], [])
        folder = self.written('empty', {**network_files([], []), 'text': '\n'.join([*lines_of_run(net), ''])})
        self.show(folder, os.path.join(folder, 'text'))
        self.assertEqual(self.find('x'), 'Nothing is called “x”.')


if __name__ == '__main__':
    unittest.main()
