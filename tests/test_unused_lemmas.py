"""Which lemmas and definitions are listed as named by nothing."""
from __future__ import annotations

import tempfile
import unittest
from pathlib import Path

from dispatch_tools.dev.unused_lemmas import unused_in

SPECS = '''-- Definitions.
use Rattle.std.specs.Prelude.{ℕ}

abbrev pub cited : ℕ → ℕ
cited n = helper n

abbrev helper : ℕ → ℕ
helper n = n

-- cites itself alone
abbrev pub forgotten : ℕ → ℕ
forgotten n = forgotten n

pub record Held (n : ℕ) : Type 0 where
  pub forgotten_field : ℕ
'''

PROOFS = '''use Rattle.low.specs.Words.{cited}

module _ (n : ℕ) where
  -- cited by the answer
  pub answer_to : cited n ≡ n
  answer_to = below n

  below : (n : ℕ) → cited n ≡ n
  below n = refl

  pub left_over : cited n ≡ n
  left_over = below n

pub by_path : ℕ
by_path = 0
'''

ANSWERS = '''use Rattle.low.proofs.Lemmas.{answer_to}

pub returns : goal.returns
returns c = answer_to c.n
'''

SOURCE = '''//! A library, whose comment says left_over and forgotten.
ghost use Rattle.low.specs.Words.{cited, Held};

#[tactic(auto, using(crate::proofs::Lemmas::by_path))]
pub fn first() {}
'''


class Unused(unittest.TestCase):
    def setUp(self) -> None:
        folder = tempfile.TemporaryDirectory()
        self.addCleanup(folder.cleanup)
        self.crates = Path(folder.name)
        self.write('low/specs/Words.antt', SPECS)
        self.write('low/proofs/Lemmas.antt', PROOFS)
        self.write('low/proofs/first/Answers.antt', ANSWERS)
        self.write('low/src/lib.rt', SOURCE)

    def write(self, name: str, text: str) -> None:
        path = self.crates / name
        path.parent.mkdir(parents=True, exist_ok=True)
        path.write_text(text, encoding='utf-8')

    def names(self, *crates: str) -> list[str]:
        return sorted(line.rsplit(' ', 1)[1] for line in unused_in(self.crates, list(crates)))

    def test_what_nothing_names_is_listed(self) -> None:
        self.assertEqual(self.names(), ['forgotten', 'left_over'])

    def test_the_file_and_the_line_are_told(self) -> None:
        self.assertIn('low/specs/Words.antt:11: forgotten', unused_in(self.crates, []))

    def test_another_crate_may_name_it(self) -> None:
        self.write('high/proofs/first/Answers.antt', ANSWERS.replace('answer_to', 'left_over'))
        self.write('high/src/lib.rt', '')
        self.assertEqual(self.names(), ['forgotten'])

    def test_a_lemma_that_only_an_unused_one_names_is_listed(self) -> None:
        self.write('low/proofs/first/Answers.antt', 'pub returns : goal.returns\nreturns c = refl\n')
        self.assertEqual(self.names(), ['answer_to', 'below', 'forgotten', 'left_over'])

    def test_what_is_exported_again_is_named_through_it(self) -> None:
        self.write('low/specs/Again.antt', 'pub use Rattle.low.specs.Words.{forgotten}\n')
        self.write('high/src/lib.rt', 'ghost use Rattle.low.specs.Again.{forgotten};\n')
        self.assertEqual(self.names(), ['left_over'])

    def test_one_crate_is_asked_for(self) -> None:
        self.write('high/proofs/Lemmas.antt', 'pub alone : ℕ\nalone = 0\n')
        self.assertEqual(self.names('high'), ['alone'])


if __name__ == '__main__':
    unittest.main()
