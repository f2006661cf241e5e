"""The list of crates: its rows come from crates.txt and the crates' roots, and what differs on the pages is told."""
from __future__ import annotations

import contextlib
import io
import os
import unittest

from dispatch_tools.dev import architecture
from tests.folders import InFolder

CRATES = '''# Each crate, and the crates that it stands on.
dm_low: csv
dm_middle: dm_low
dm_high may_wait=2: dm_middle dm_low csv
'''

LISTED = ['dm_low: Numbers: of files. On csv.', 'dm_middle: Sums over two lines. On dm_low.', 'dm_high: The program. On dm_middle.']

ROOTS = {
    'dm_low/src/lib.rt': '//! Numbers: of files.\n//!\n//! It stands on csv.\n',
    'dm_middle/src/lib.rt': '//! Sums over\n//! two lines. And more.\n#![tactic(auto)]\n',
    'dm_high/src/main.rt': '//! The program.\n',
}


class Crates(InFolder):
    def setUp(self) -> None:
        super().setUp()
        for name, text in ROOTS.items():
            self.write(os.path.join('crates', name), text)
        self.write('crates.txt', CRATES)

    def write(self, name: str, text: str) -> None:
        path = os.path.join(self.folder, name)
        os.makedirs(os.path.dirname(path), exist_ok=True)
        with open(path, 'w', encoding='utf-8') as file:
            file.write(text)

    def told(self, *words: str) -> tuple[int, list[str]]:
        """The status, and what differs."""
        with contextlib.redirect_stdout(io.StringIO()) as out:
            status = architecture.main([*words, '--repository', self.folder])
        return status, out.getvalue().splitlines()

    def test_each_crate_with_its_first_sentence_and_its_nearest_crates(self) -> None:
        self.assertEqual(self.told(), (0, LISTED))

    def test_crates_with_those_that_stand_on_them(self) -> None:
        self.assertEqual(self.told('dm_middle'), (0, LISTED[1:]))
        with self.assertRaises(SystemExit), contextlib.redirect_stderr(io.StringIO()):
            self.told('dm_none')

    def test_crates_that_stand_on_each_other_are_listed_all_the_same(self) -> None:
        self.write('crates.txt', 'dm_low: dm_high\ndm_high: dm_low\n')
        self.assertEqual(self.told()[0], 0)

    def test_crate_that_no_page_names(self) -> None:
        self.write('docs/PAGE.md', '`dm_low` and `dm_high`.\n')
        self.assertEqual(self.told('--compare'), (1, ['no page names dm_middle']))

    def test_names_that_are_no_crates(self) -> None:
        self.write('docs/PAGE.md', '`dm_low`, `dm_middle` and `dm_high`.\n')
        self.assertEqual(self.told('--compare'), (0, []))
        self.write('docs/OTHER.md', 'As `dm_h..h` and dm_low, but not dm_gone nor `dm_.._cases`.\n')
        self.assertEqual(self.told('--compare'), (1, ['dm_.._cases is no crate', 'dm_gone is no crate']))

    def test_the_pages_of_the_repository(self) -> None:
        with contextlib.redirect_stdout(io.StringIO()) as out:
            status = architecture.main(['--compare'])
        self.assertEqual((status, out.getvalue()), (0, ''))


if __name__ == '__main__':
    unittest.main()
