"""Tests that the pages which scripts write stand as they write them, and that no more lines are too wide than were."""
import contextlib
import io
import pathlib
import subprocess
import sys
import tempfile
import unittest

import definitions
import reading
import widths

HERE = pathlib.Path(__file__).resolve().parent
# how many lines may be wider than 120 columns: this number only falls
WIDE = 3956

SPEC = """-- What lines are.
use Rattle.std.specs.Prelude.{List}

-- a line that is not empty
abbrev pub is_line : List → List

-- nothing names it
abbrev pub alone : List

abbrev pub bare : List
"""
SOURCE = """pub fn line(a: u8) -> u8
    ensures is { result ≡ is_line a.now ∷ bare }
{
    a
}
"""


class Pages(unittest.TestCase):
    def run_check(self, script, *words):
        done = subprocess.run([sys.executable, HERE / script, *words], capture_output=True, text=True, check=False)
        self.assertEqual((done.returncode, done.stderr), (0, ""), f"{script} writes the page anew")

    def test_the_map(self):
        self.run_check("map.py", "--check")

    def test_the_reference(self):
        self.run_check("definitions.py", "--check")

    def test_the_claims(self):
        self.run_check("reading.py", "--check")

    def test_wide_lines(self):
        self.run_check("widths.py", "--check", str(WIDE))


class Parts(unittest.TestCase):
    def house(self, room):
        top = pathlib.Path(room)
        for path, text in {
            "crates.txt": "low: std\n",
            "crates/low/specs/Lines.antt": SPEC,
            "crates/low/src/lib.rt": "pub use line::line;\n",
            "crates/low/src/line.rt": SOURCE,
        }.items():
            (top / path).parent.mkdir(parents=True, exist_ok=True)
            (top / path).write_text(text, encoding="utf-8")
        return top

    def test_the_reference_has_what_clauses_cite(self):
        with tempfile.TemporaryDirectory() as room:
            page = definitions.page_of(self.house(room))
        self.assertIn("\n## low\n\n**Lines.** What lines are.\n\n- `is_line`: a line that is not empty.\n", page)
        self.assertNotIn("alone", page)
        self.assertIn("\n- `bare`\n", page)

    def test_the_rows_of_the_claims(self):
        page = "| Promise | Lines |\n|---|---|\n| `one`: it | 3 |\n\n| `one` | 3 |\n"
        new = "| Promise | Lines |\n|---|---|\n| `one`: it | 1,234 |\n\n| `one` | 3 |\n"
        self.assertEqual(reading.written_anew(page, {"one": [1234]}), new)

    def test_widths(self):
        with tempfile.TemporaryDirectory() as room:
            top = self.house(room)
            (top / "crates/low/src/wide.rt").write_text(f"{'x' * 120}\n{'x' * 121}\n", encoding="utf-8")
            with contextlib.redirect_stdout(io.StringIO()) as told:
                self.assertEqual(widths.main(["--check", "1", room]), 0)
                self.assertEqual(widths.main(["--check", "0", room]), 1)
                self.assertEqual(widths.main([room]), 0)
        one = "1 lines are wider than 120 columns\n"
        self.assertEqual(told.getvalue(), f"{one}{one}low code 1\n{one}")


if __name__ == "__main__":
    unittest.main()
