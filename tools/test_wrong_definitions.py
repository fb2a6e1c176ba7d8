#!/usr/bin/env python3
"""Tests of how tools/wrong_definitions.py makes its crate and reads what a check says, without `rt`: `python3 tools/test_wrong_definitions.py`."""
import pathlib
import sys
import tempfile
import unittest

sys.dont_write_bytecode = True
sys.path.insert(0, str(pathlib.Path(__file__).resolve().parent))
import wrong_definitions as tool  # noqa: E402

# (excerpts of a real output)
REFUSED = """\
./proofs/v00/rows_of_values/rows_of_values/Answers.antt:14:18: error: `set_twice_good`: computed as far as they go, the two types differ only where one has `None, 5, true`
  (expected) and the other has `Some 4, 3, false` (found)
fn audit_model::right::rows_of_values::rows_of_values: proved
fn audit_model::v00::rows_of_values::rows_of_values: not proved
only=2 proved=1
"""
PROVED = """\
fn audit_model::right::rows_of_values::rows_of_values: proved
fn audit_model::v00::rows_of_values::rows_of_values: proved
only=2 proved=2
"""
NO_DEFINITION = """\
./specs/V00/Values.antt:80:12: error: `without_key`: `mny` is not in scope
fn audit_model::right::rows_of_values::rows_of_values: proved
only=2 proved=1
"""
WRONG_ROW = """\
fn audit_model::right::rows_of_values::rows_of_values: not proved
fn audit_model::v00::rows_of_values::rows_of_values: not proved
only=2 proved=0
"""


class Reading(unittest.TestCase):
    @classmethod
    def setUpClass(cls):
        cls.rows = tool.Rows("audit_model")
        cls.edit = tool.Edit("audit_model", "all_of_a_key_leave")
        cls.room = tempfile.TemporaryDirectory()
        cls.check = tool.Check(cls.room.name, cls.rows, {cls.edit: ["rows_of_values"]})

    @classmethod
    def tearDownClass(cls):
        cls.room.cleanup()

    def test_the_edit_is_where_the_rows_are(self):
        text = (pathlib.Path(self.check.top) / "specs" / "V00" / "Values.antt").read_text(encoding="utf-8")
        self.assertIn(self.edit.pairs[0][1], text)
        making = (pathlib.Path(self.check.top) / "specs" / "V00" / "Rows" / "Model" / "Making.antt").read_text(encoding="utf-8")
        self.assertIn("use Rattle.audit_model.specs.V00.Belongs.", making)
        self.assertIn("use Rattle.audit_model.specs.Bytewise.", making)

    def test_what_stands_below_the_edit_is_not_copied(self):
        self.assertFalse((pathlib.Path(self.check.top) / "specs" / "V00" / "History.antt").exists())

    def test_an_edit_that_fits_nowhere(self):
        with self.assertRaises(ValueError):
            self.edit.applied("nothing of it")

    def test_words(self):
        word, line = self.check.verdict("v00", REFUSED)
        self.assertEqual((word, line.split(":")[0]), ("proof", "rows_of_values"))
        self.assertEqual(self.check.verdict("v00", PROVED), (None, ""))
        self.assertEqual(self.check.verdict("v00", NO_DEFINITION)[0], "BAD")
        self.assertEqual(self.check.verdict("v00", WRONG_ROW)[0], "BAD")

    def test_a_row_is_computed(self):
        right = dict(self.rows.computed(["rows_of_values"]))
        self.assertEqual(set(right.values()), {True})
        self.assertEqual(tool.refusing(self.rows, self.edit, ["rows_of_values"], right), "rows_of_values: set_twice_good")


if __name__ == "__main__":
    unittest.main()
