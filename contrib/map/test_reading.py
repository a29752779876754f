"""Tests of reading.py and scopes.py: what a definition names, over a house of two crates."""
import pathlib
import tempfile
import unittest

import reading
import scopes

FILES = {
    "low/specs/Lines.antt": """-- A comment counts nothing.
use Rattle.std.specs.Prelude.{ℕ, List}
use Rattle.low.specs.declared.kind.Kind.{Kind}
use Rattle.low.specs.declared.kind.Kind.TheVariants as kind

-- one line
abbrev pub one : ℕ

abbrev pub hidden : ℕ

abbrev pub two : Kind → ℕ
two kind.Open = one
two (kind.Shut hidden) = hidden

abbrev pub far : ℕ

-- a record, of whose fields one hides a name
pub record Is (far : ℕ) where
  pub one : two far
  pub last : one
""",
    "low/src/kind.rt": """// Kinds.
use crate::width::Width;

/// A kind.
pub enum Kind {
    /// Open.
    Open,
    Shut(Width),
}
""",
    "low/src/width.rt": """ghost use Rattle.low.specs.{Lines.far, Other.seen};

pub struct Width {
    pub wide: u64,
}

impl Model for Width {
    ghost Seen = seen;
}
""",
    "low/specs/Other.antt": "abbrev pub seen : Type\n\nabbrev pub unseen : Type\n",
    "top/specs/Page.antt": """use Rattle.low.specs.{Lines.{two as both,
  Is}, Other.unseen}
use Rattle.top.specs.Words as words

module _ {A : Type} (unseen : A) where
  abbrev pub page : A → Type
  page x = (λ Is. words.of x Is) unseen

abbrev pub by : A → Type
by (command.Serve x) = both
by (command.Compute x) = page
""",
    "top/specs/Words.antt": """use Rattle.low.specs.Lines.{one}

abbrev pub of : Type
of x = let one = x in one

abbrev pub other : Type
other x = one
""",
}


class Reading(unittest.TestCase):
    @classmethod
    def setUpClass(cls):
        with tempfile.TemporaryDirectory() as room:
            for path, text in FILES.items():
                file = pathlib.Path(room, "crates", path)
                file.parent.mkdir(parents=True, exist_ok=True)
                file.write_text(text, encoding="utf-8")
            cls.house = scopes.House(pathlib.Path(room))

    def reached(self, crate, file, name, command=None):
        root = self.house.scopes[f"Rattle.{crate}.specs.{file}"].own[name]
        leaves = reading.leaves_all_but(command)
        return {it.name: it.count(leaves) for it in reading.reached(self.house, {root}, leaves)}

    def test_names_that_a_pattern_or_a_let_binds_are_hidden(self):
        self.assertEqual(self.reached("top", "Words", "of"), {"of": 2})
        self.assertEqual(self.reached("top", "Words", "other"), {"other": 2, "one": 1})

    def test_a_type_brings_its_model_and_its_fields(self):
        self.assertEqual(self.reached("low", "Lines", "two"), {"two": 3, "one": 1, "Kind": 4, "Width": 6, "seen": 1})

    def test_a_field_hides_a_name_behind_it(self):
        found = self.reached("low", "Lines", "Is")
        self.assertIn("two", found)
        self.assertNotIn("far", found)

    def test_packed_imports_and_modules(self):
        found = self.reached("top", "Page", "by", "Compute")
        self.assertEqual(found, {"by": 2, "page": 2, "": 1, "of": 2})
        self.assertLess({"by": 2, "two": 3}.items(), self.reached("top", "Page", "by", "Serve").items())

    def test_numbers(self):
        found = {it: 2 for it in self.house.scopes["Rattle.top.specs.Words"].own.values()}
        self.assertEqual(reading.numbers(found), [2, 4, 1, 1])


if __name__ == "__main__":
    unittest.main()
