"""Tables that are printed anew: each has its scripts and its place on a page, and says on which machine it was made."""
from __future__ import annotations

import contextlib
import io
import os
import re
import sys
import unittest

from dispatch_tools.__main__ import package_of
from dispatch_tools.bench import tables
from dispatch_tools.bench.tables import filled, listed, made, Table, TABLES
from tests.folders import InFolder, read
from tests.samples import TOP


class Listed(unittest.TestCase):
    def test_each_table_has_its_scripts_and_is_named_on_its_page(self) -> None:
        for name, table in TABLES.items():
            for script, *_ in table.commands:
                self.assertTrue(os.path.exists(os.path.join(TOP, script)) if '/' in script else package_of(script), script)
            pages = [' '.join(read(TOP, 'docs', f'{page}.md').split()) for page in table.page.split(', ')]
            self.assertTrue(any(f'`dispatch-tools tables {name} {table.program}`' in page for page in pages), name)
            self.assertIn(f'{name} {table.program}: ', listed())

    def test_what_pages_name_is_a_table(self) -> None:
        for page in {page for table in TABLES.values() for page in table.page.split(', ')}:
            for name, program in re.findall(r'`dispatch-tools\s+tables\s+([a-z0-9-]+)\s+([A-Z_]+)`', read(TOP, 'docs', f'{page}.md')):
                self.assertEqual(TABLES[name].program, program)


class Made(InFolder):
    def test_it_says_where_it_was_made_and_how_long_it_took(self) -> None:
        program = os.path.join(self.folder, 'program')
        with open(program, 'wb') as file:
            file.write(b'a program\n')
        script = os.path.join(self.folder, 'script.py')
        with open(script, 'w', encoding='ascii') as file:
            file.write('import sys\nsys.exit(int(sys.argv[1]))\n')
        table = Table('MODEL', 'No table', [(script, '1', 'PROGRAM', 'FOLDER/net'), (script, '3'), (script, '0')])
        self.assertEqual(filled(table.commands[0], program, '/f')[-3:], ['1', program, '/f/net'])
        with contextlib.redirect_stdout(io.StringIO()) as said:
            self.assertEqual(made(table, program, self.folder), 3)
        # The first twelve digits are those of `sha256sum` of the line above.
        self.assertRegex(said.getvalue(), r'Made on [0-9]+ processors \(.*\), [0-9]+ MB, load .*; program 8c304c3a2ac9; ')
        self.assertRegex(said.getvalue(), r'That took [0-9]+ s by the clock, [0-9]+ s of processor\.')
        self.assertNotIn(f'{script} 0', said.getvalue())

    def test_a_table_needs_its_program(self) -> None:
        for words in (['shapes'], ['shapes', os.path.join(self.folder, 'none')], ['no-table', sys.executable]):
            self.assertEqual(self.call(tables, *words)[0], 2, words)


if __name__ == '__main__':
    unittest.main()
