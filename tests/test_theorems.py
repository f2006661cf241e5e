"""The page of theorems: what it quotes stands in the file that it names."""
from __future__ import annotations

import re
import unittest

from tests.folders import read
from tests.samples import TOP

# A paragraph that names a file first, and the lines that are quoted of it: parts with blank lines between.
QUOTED = re.compile(r'`(crates/[\w/.]+)`[^\n]*(?:\n[^\n]+)*?:\n\n```antt\n(.*?)\n```', re.S)


class Quotes(unittest.TestCase):
    def test_each_quote_stands_in_its_file(self) -> None:
        page = read(TOP, 'docs', 'THEOREMS.md')
        quotes = QUOTED.findall(page)
        self.assertEqual(len(quotes), page.count('```antt'))
        for name, quote in quotes:
            for part in quote.split('\n\n'):
                self.assertIn(part, read(TOP, name), name)


if __name__ == '__main__':
    unittest.main()
