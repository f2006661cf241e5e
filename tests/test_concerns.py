"""Whom a connection and a plan concern, worked out by hand on the network of examples/connection, where a train is a minute late."""
from __future__ import annotations

import io
import sys
import tempfile
import unittest
from contextlib import redirect_stderr, redirect_stdout
from pathlib import Path
from unittest import mock
from xml.etree import ElementTree

from dispatch_tools.commands import concerns as concerns_command
from dispatch_tools.desk import concerns
from dispatch_tools.desk.naming import Naming
from dispatch_tools.formats.giv import read_network
from dispatch_tools.model.messages import Cancel, DelayEvent, Message, Pass
from dispatch_tools.model.railway import Rows
from tests.samples import lines_of_run, TOP

NET = str(Path(TOP, 'examples', 'connection', 'net'))

# Event 2 arrives at 250 and not at 200, and ten passengers leave there; event 4 at 340 and not at 300, with ten. Where the change is
# kept, event 5 leaves 20 s behind event 2, at 270, and event 6 arrives at 365 and not at 330, with five passengers: 1,075 passenger
# seconds. Where it is dropped, event 5 follows event 3 (at 260) after 8 s, at 268: 1,065, and 10 for each of four who miss it.
DROPPED = '''change 5: Train 1 to Train 5 in Buche, 4 passengers
cost: kept 17.9 passenger minutes, dropped 18.4 passenger minutes
Train 5: 0.2 passenger minutes gained
  Linde: 2 s earlier, 5 passengers, 0.2 passenger minutes
4 passengers miss the connection Train 1 to Train 5 in Buche (5)
'''


class Concerns(unittest.TestCase):
    def said(self, journal: list[Message], *words: str, penalty: int = 10) -> tuple[int, str]:
        """The status and what is printed, behind such messages."""
        lines = lines_of_run(read_network(NET), journal)
        with tempfile.TemporaryDirectory() as folder:
            text = Path(folder, 'text')
            text.write_text(''.join(f'{line}\n' for line in lines).replace('penalty 0', f'penalty {penalty}'))
            with mock.patch.object(sys, 'argv', ['concerns', NET, str(text), *words]), redirect_stdout(io.StringIO()) as out, \
                    redirect_stderr(io.StringIO()):
                try:
                    return concerns_command.main(), out.getvalue()
                except SystemExit as end:
                    return end.code if isinstance(end.code, int) else 1, out.getvalue()

    def test_a_dropped_change(self) -> None:
        self.assertEqual(self.said([DelayEvent(1, 60)], '5'), (0, DROPPED))

    def test_a_dropped_change_for_which_there_is_time(self) -> None:
        status, said = self.said([], '5')
        self.assertEqual(status, 0)
        self.assertIn('there is time to change all the same', said)
        self.assertIn('cost: kept 0.0 passenger minutes, dropped 0.7 passenger minutes', said)

    def test_a_change_of_a_cancelled_train_concerns_nobody(self) -> None:
        for event, words in (2, 'Train 1 reaches Buche'), (5, 'Train 5 leaves Buche'):
            status, said = self.said([DelayEvent(1, 60), Cancel(event)], '5')
            self.assertEqual(status, 0)
            self.assertEqual(said.splitlines()[2:], ['dropped: nobody is concerned', f'{words}: this is cancelled, so nobody changes there'])

    def test_no_change_and_a_train_that_has_left_are_refused(self) -> None:
        self.assertEqual(self.said([], '4')[0], 2)
        self.assertEqual(self.said([], '77')[0], 2)
        self.assertEqual(self.said([Pass(5, 230)], '5')[0], 2)

    def test_a_text_without_a_plan(self) -> None:
        self.assertEqual(self.said([])[0], 1)

    def test_a_plan(self) -> None:
        """The plan of the example: the change is dropped, and event 5 goes first, at 230, so event 6 is on time."""
        with mock.patch.object(sys, 'argv', ['concerns', NET, str(Path(TOP, 'examples', 'connection', 'text'))]), \
                redirect_stdout(io.StringIO()) as out:
            concerns_command.main()
        # In this text the plan is adopted already.
        self.assertEqual(out.getvalue().splitlines()[1:], ['with the plan: nobody is concerned'])

    def test_the_picture_is_text_and_no_script(self) -> None:
        network = read_network(NET)
        naming = Naming(network, [[0, 1, 2, 3], [4, 5]], {}, {1: '<script>alert(1)</script>'})
        state = concerns.State(Rows(network), [0] * 6, 0)
        moved = [(0, [concerns.Arrival(1, 60, 1000)]), (1, [concerns.Arrival(5, -30, 500)])]
        drawn = concerns.picture(naming, concerns.Compared(state, state, moved, [], []), '"&<')
        root = ElementTree.fromstring(drawn)
        self.assertEqual([one for one in root.iter() if one.tag.endswith('script')], [])
        self.assertEqual(sum(one.tag.endswith('rect') for one in root.iter()), 3)


if __name__ == '__main__':
    unittest.main()
