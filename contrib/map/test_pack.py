"""Tests of pack.py: what it packs, what it leaves, and that it imports the same names."""
import pathlib
import re
import tempfile
import unittest

import pack

SPEC = """-- A page.
use Rattle.std.specs.Prelude.{ℕ, ◌*◌, []}
use Rattle.low.specs.Lines.{one}
use Rattle.low.specs.declared.kind.Kind.{Kind}
use Rattle.low.specs.declared.kind.Kind.TheVariants.{Open as More, Shut}
use Rattle.low.specs.declared.kind.Kind.TheVariants as kind
pub use Rattle.low.specs.Lines.{passed}
use Rattle.low.proofs.Lines.{law}
use Rattle.low.specs.Lines.{one, two}
use Prim.{lem}

abbrev pub page : ℕ
"""
PACKED = """-- A page.
use Rattle.std.specs.Prelude.{ℕ, ◌*◌, []}
use Rattle.low.{specs.{Lines.{one, two}, declared.kind.Kind.{Kind, TheVariants.{Open as More, Shut}}}, proofs.Lines.law}
use Rattle.low.specs.declared.kind.Kind.TheVariants as kind
pub use Rattle.low.specs.Lines.{passed}
use Prim.{lem}

abbrev pub page : ℕ
"""
SOURCE = """ghost use Rattle.std.specs.Prelude.{◌≡◌};
ghost use Rattle.std.specs.List.{find};
ghost use Rattle.low.specs.Lines as lines;

use low::Kind;
use low::Line;

impl Page {
    ghost use Rattle.low.specs.A.{a};
    ghost use Rattle.low.specs.B.{b};
}
"""
PACKED_SOURCE = """ghost use Rattle.std.specs.{Prelude.◌≡◌, List.find};
ghost use Rattle.low.specs.Lines as lines;

use low::Kind;
use low::Line;

impl Page {
    ghost use Rattle.low.specs.{A.a, B.b};
}
"""


def names(text):
    """What the packed lines of a text import."""
    return {it for tree in re.findall(r"(?m)^use (Rattle\.[^ ]*\{.*)$", text) for it in pack.leaves(tree)}


class Packing(unittest.TestCase):
    def test_a_file_of_definitions(self):
        self.assertEqual(pack.packed(SPEC, False), PACKED)
        self.assertEqual(names(SPEC), names(PACKED))

    def test_a_source(self):
        self.assertEqual(pack.packed(SOURCE, True), PACKED_SOURCE)

    def test_what_is_packed_stays(self):
        self.assertEqual(pack.packed(PACKED, False), PACKED)
        self.assertEqual(pack.packed(PACKED_SOURCE, True), PACKED_SOURCE)

    def test_lines_end_within_120_columns(self):
        text = "".join(f"use Rattle.low.specs.M{n % 7}.{{name_{n}}}\n" for n in range(100))
        new = pack.packed(text, False)
        self.assertLessEqual(max(map(len, new.split("\n"))), 120)
        self.assertEqual(names(text), names(new))
        self.assertEqual(pack.packed(new, False), new)

    def test_groups_over_several_lines(self):
        broken = "use Rattle.low.{\n  specs.A.{a},\n  specs.B.b,\n}\n"
        self.assertEqual(pack.packed(broken, False), "use Rattle.low.specs.{A.a, B.b}\n")

    def test_what_stays_as_it_is(self):
        for line in ("use Rattle.low.specs.A.{search}", "use Rattle.low.specs.A.{}", "use Kid.*", "use K.{a}"):
            text = f"{line}\nuse Rattle.low.specs.B.{{b}}\n"
            self.assertEqual(pack.packed(text, False), text)

    def test_check_writes_nothing(self):
        with tempfile.TemporaryDirectory() as room:
            file = pathlib.Path(room, "crates", "page", "specs", "Page.antt")
            file.parent.mkdir(parents=True)
            file.write_text(SPEC)
            self.assertEqual(pack.main(["--check", room]), 1)
            self.assertEqual(file.read_text(), SPEC)
            self.assertEqual(pack.main([room]), 0)
            self.assertEqual(file.read_text(), PACKED)
            self.assertEqual(pack.main(["--check", room]), 0)


if __name__ == "__main__":
    unittest.main()
