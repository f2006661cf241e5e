"""What two states of the crates promise, compared as text."""
from __future__ import annotations

import io
import tempfile
import unittest
from contextlib import redirect_stderr, redirect_stdout
from pathlib import Path
from typing import Mapping

from dispatch_tools.dev import contracts

ROWS = '''//! Rows.

/// A row.
pub struct Row;

impl<'a> Row {
    /// Its number.
    pub fn number(&self) -> u64
        ensures { result ≡ self.number }
    {
        self.number
    }

    fn own(&self) {}
}

pub trait Shelf {
    fn open(&self, name: &str)
        ensures opened { IsOpen name };
}

pub fn step(one: u64) -> u64
    requires small { one < 9 }
    ensures { result ≡ suc one }
{
    one + 1
}
'''

SPEC = '''-- a row
pub record IsRow (n : ℕ) : Type 0 where
  pub small : n < 9

abbrev pub IsNone : ℕ → Type 0
IsNone n = n ≡ 0
'''


class Contracts(unittest.TestCase):
    def said(self, new: Mapping[str, str], *words: str) -> tuple[int, list[str]]:
        """The status and the lines, where the files of one crate have been replaced by these."""
        old = {'dm_rows/src/lib.rt': ROWS, 'dm_rows/specs/Rows.antt': SPEC, 'dm_rows/specs/Inside/Loops.antt': SPEC}
        with tempfile.TemporaryDirectory() as folder:
            for state, files in (('old', old), ('new', new)):
                for name, text in files.items():
                    path = Path(folder, state, 'crates', name)
                    path.parent.mkdir(parents=True, exist_ok=True)
                    path.write_text(text, encoding='utf-8')
            with redirect_stdout(io.StringIO()) as out:
                status = contracts.main([f'{folder}/old', f'{folder}/new', *words])
        return status, out.getvalue().splitlines()

    def test_layout_and_comments_are_no_difference(self) -> None:
        rows = ROWS.replace('/// A row.', '/// One row.').replace('        ensures { result', '            ensures { result')
        self.assertEqual(self.said({'dm_rows/src/lib.rt': rows, 'dm_rows/specs/Rows.antt': SPEC}), (0, []))

    def test_what_moves_is_no_difference(self) -> None:
        self.assertEqual(self.said({'dm_low/src/rows.rt': ROWS, 'dm_low/specs/Row.antt': SPEC}), (0, []))

    def test_a_clause_that_goes(self) -> None:
        rows = ROWS.replace('    ensures { result ≡ suc one }\n', '')
        self.assertEqual(self.said({'dm_rows/src/lib.rt': rows, 'dm_rows/specs/Rows.antt': SPEC}), (1, ['changed dm_rows step']))

    def test_a_clause_of_a_method_and_of_a_trait(self) -> None:
        rows = ROWS.replace('self.number }', 'suc self.number }').replace('IsOpen name', 'IsShut name')
        self.assertEqual(self.said({'dm_rows/src/lib.rt': rows, 'dm_rows/specs/Rows.antt': SPEC}, '--texts'), (1, [
            'changed dm_rows Row.number',
            '    - pub fn number(&self) -> u64 ensures { result ≡ self.number }',
            '    + pub fn number(&self) -> u64 ensures { result ≡ suc self.number }',
            'changed dm_rows Shelf.open',
            '    - fn open(&self, name: &str) ensures opened { IsOpen name };',
            '    + fn open(&self, name: &str) ensures opened { IsShut name };',
        ]))

    def test_what_goes_and_what_comes(self) -> None:
        rows = ROWS.replace('pub fn step', 'pub fn stride')
        spec = SPEC.replace('n < 9', 'n < 10')
        self.assertEqual(self.said({'dm_rows/src/lib.rt': rows, 'dm_rows/specs/Rows.antt': spec}), (1, [
            'gone dm_rows step', 'new dm_rows stride', 'changed dm_rows IsRow']))

    def test_a_crate_of_another_name(self) -> None:
        rows = ROWS.replace('IsOpen name', 'dm_rows.IsOpen name')
        new = {'dm_line/src/lib.rt': rows.replace('dm_rows', 'dm_line'), 'dm_line/specs/Rows.antt': SPEC}
        old = {'dm_rows/src/lib.rt': rows, 'dm_rows/specs/Rows.antt': SPEC}
        before = contracts.promises_of((f'crates/{name}', text) for name, text in old.items())
        now = contracts.promises_of((f'crates/{name}', text) for name, text in new.items())
        self.assertEqual(list(contracts.differences(before, now, {'dm_rows': 'dm_line'})), [])

    def test_a_revision_that_is_none(self) -> None:
        with redirect_stderr(io.StringIO()) as err, redirect_stdout(io.StringIO()):
            self.assertEqual(contracts.main(['no-such-revision']), 2)
        self.assertIn('no-such-revision', err.getvalue())

    def test_this_repository_has_promises(self) -> None:
        found = list(contracts.promises_of(contracts.files_in(str(contracts.TOP))))
        names = {(one.kind, one.name) for one in found}
        self.assertLessEqual({('function', 'Desk.post'), ('function', 'dispatch'), ('definition', 'IsNetwork')}, names)
        self.assertTrue(all('ensures' in one.text for one in found if one.name == 'Desk.post'))


if __name__ == '__main__':
    unittest.main()
