"""Definitions of the crates, listed with the comments above them."""
from __future__ import annotations

import io
import tempfile
import unittest
from contextlib import redirect_stdout
from pathlib import Path

from dispatch_tools.dev import definitions

ARCS = '''-- Arcs between events.
use Rattle.std.specs.Prelude.{List}

-- so many events and arcs, and which
-- of the arcs are held
pub record Arcs : Type 0 where
  pub events : List

-- ---- chains

abbrev pub Chain : Type 0
Chain = Arcs

-- a chain back to its event
unfoldable pub cycle_of : Type 0
'''


class Definitions(unittest.TestCase):
    def said(self, *words: str) -> tuple[int, list[str]]:
        """The status and the lines, over two small crates."""
        with tempfile.TemporaryDirectory() as folder:
            for name, text in (('dm_graph/specs/Lib.antt', 'pub mod Order\npub mod Arcs\n'), ('dm_graph/specs/Arcs.antt', ARCS),
                               ('dm_graph/specs/Order.antt', '-- an order\nabbrev pub IsOrder : Type 0\n'),
                               ('dm_graph/specs/Inside/Loops.antt', '-- a loop\npub record IsLoop : Type 0 where\n'),
                               ('dm_rows/specs/Rows.antt', 'pub data Chained : Type 0 where\n')):
                path = Path(folder, name)
                path.parent.mkdir(parents=True, exist_ok=True)
                path.write_text(text, encoding='utf-8')
            with redirect_stdout(io.StringIO()) as out:
                status = definitions.main([*words, '--crates', folder])
        return status, out.getvalue().splitlines()

    def test_a_crate_in_the_order_of_its_files(self) -> None:
        self.assertEqual(self.said('dm_graph'), (0, [
            'IsOrder  (dm_graph, Order)', '    an order', 'Arcs  (dm_graph, Arcs)',
            '    so many events and arcs, and which of the arcs are held', 'Chain  (dm_graph, Arcs)', 'cycle_of  (dm_graph, Arcs)',
            '    a chain back to its event',
        ]))

    def test_names_by_a_part(self) -> None:
        self.assertEqual(self.said('chain'), (0, ['Chain  (dm_graph, Arcs)', 'Chained  (dm_rows, Rows)']))

    def test_what_is_inside_is_asked_for(self) -> None:
        self.assertEqual(self.said('IsLoop'), (1, []))
        self.assertEqual(self.said('IsLoop', '--inside'), (0, ['IsLoop  (dm_graph, Inside/Loops)', '    a loop']))

    def test_those_of_the_repository_are_found(self) -> None:
        with redirect_stdout(io.StringIO()) as out:
            self.assertEqual(definitions.main(['IsTruePlan']), 0)
        self.assertIn('IsTruePlan  (dm_tree, Plans)\n', out.getvalue())


if __name__ == '__main__':
    unittest.main()
