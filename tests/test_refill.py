"""refill: the lines of a feed come back from what a server has answered."""
import os
import tempfile
import unittest

from dispatch_tools.commands.refill import behind, items_of, MALFORMED, put_back
from dispatch_tools.formats.files import BadFile

FEED = b'delay event 1 60\n# late\n\nplan  100\nadopt\r\n???\ntime 6\n'
REPLY = b'''1 delay event 1 60 -> 1 ok
4 plan 100 -> 1 plan optimal cost 940000 bound 940000 choices 1 nodes 1
choice drop 5
bound 940000
5 adopt -> 2 ok
6 malformed
7 time 6 -> 2 time 330
'''
WHOLE = ['delay event 1 60', '', '', 'plan 100', 'adopt', MALFORMED, 'time 6']


class Refill(unittest.TestCase):
    def test_lines_behind_each_front_of_the_feed(self) -> None:
        items = list(items_of(REPLY))
        for size in range(len(FEED) + 1):
            front = FEED[:size]
            there = front.count(b'\n')
            self.assertEqual(behind('f', front, items), WHOLE[there:], front)

    def test_a_feed_with_more_lines_is_left(self) -> None:
        self.assertEqual(behind('f', FEED + b'cost\nrea', list(items_of(REPLY))), [])

    def test_a_line_that_was_not_answered(self) -> None:
        for changed in (FEED.replace(b'60', b'61'), FEED.replace(b'???', b'cost'), FEED.replace(b'\n\n', b'\n')):
            with self.assertRaises(BadFile):
                behind('f', changed, list(items_of(REPLY)))

    def test_a_reply_file_that_is_torn(self) -> None:
        lines = REPLY.splitlines(keepends=True)
        torn = b''.join(lines[:3])
        self.assertEqual([item.line for item in items_of(torn)], [1])
        self.assertEqual([item.line for item in items_of(torn + lines[3] + b'5 ado')], [1, 4])

    def test_lines_take_the_place_of_a_broken_one(self) -> None:
        with tempfile.TemporaryDirectory() as folder:
            name = os.path.join(folder, 'f')
            with open(name, 'wb') as file:
                file.write(FEED[:30])
            put_back(name, behind(name, FEED[:30], list(items_of(REPLY))))
            with open(name, encoding='utf-8') as file:
                self.assertEqual(file.read(), 'delay event 1 60\n# late\n\n' + ''.join(line + '\n' for line in WHOLE[3:]))
