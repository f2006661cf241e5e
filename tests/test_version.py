"""The version stands the same in all files that name it."""
from __future__ import annotations

import re
import unittest

from tests.folders import read
from tests.samples import TOP


class Versions(unittest.TestCase):
    def test_one_version(self) -> None:
        version = read(TOP, 'VERSION').strip()
        self.assertRegex(version, r'^[0-9]+\.[0-9]+\.[0-9]+$')
        self.assertEqual(re.findall(r'^version: (.*)$', read(TOP, 'CITATION.cff'), re.M), [version])
        changed = re.findall(r'^## ([0-9.]+) \(', read(TOP, 'CHANGELOG.md'), re.M)
        self.assertEqual(changed[0], version)
        self.assertEqual(changed, sorted(changed, key=lambda one: [*map(int, one.split('.'))], reverse=True))


if __name__ == '__main__':
    unittest.main()
