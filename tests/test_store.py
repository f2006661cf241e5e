"""The cases of a journal stand in their crate as the second reading says them."""
from __future__ import annotations

import unittest
from pathlib import Path

from dispatch_tools.formats.journal import read_blocks, VERSION
from dispatch_tools.oracle.journals import answer, at_rest, lines, ROUNDS
from tests.samples import TOP


class Journals(unittest.TestCase):
    def test_stored_lines_are_those_of_the_second_reading(self) -> None:
        stored = Path(TOP, 'crates', 'dm_store_cases', 'stdout').read_text()
        self.assertEqual(stored.splitlines(), lines())

    def test_blocks_are_read_back(self) -> None:
        self.assertEqual(read_blocks(at_rest(ROUNDS)).contents, list(ROUNDS))
        self.assertEqual(read_blocks(at_rest([b''])).contents, [b''])

    def test_block_behind_a_closed_gate_does_not_count(self) -> None:
        journal = at_rest([VERSION])
        self.assertEqual(answer(journal + at_rest([b'abc'])[1:]), '1')
        self.assertEqual(answer(journal[:-1] + b'+4\nabc'), 'b')


if __name__ == '__main__':
    unittest.main()
