#!/usr/bin/env python3
"""Tests of how tools/wrong_bodies.py reads what a check says, without `rt`: `python3 tools/test_wrong_bodies.py`.

The outputs are excerpts of real ones.
"""
import pathlib
import sys
import tempfile
import unittest

sys.dont_write_bytecode = True
sys.path.insert(0, str(pathlib.Path(__file__).resolve().parent))
import wrong_bodies  # noqa: E402

# A clause of the function is left open at a return.
CLAUSE = """\
note: src/connection/feeding.rt:79:85: it is not proved that what the function ensures holds when it returns (`returns-then-times-eq7-clause-put`)
note: a goal may be false even if its line does not say so: rattle seldom finds values that break an equation of lists
fn cache_core::connection::Connection::wait_before: no proof: expected answers in ./proofs/connection/connection/Connection/wait_before/Answers.antt; `search` did not prove `returns-then-times-eq7-clause-put`
only=9 proved=8
"""
# What a type promises is left open.
PROMISE = """\
note: src/numbered.rt:54:9: `search` found no proof (`invariant_of-self-inside`)
fn audit_situation::numbered::Numbered::add: no proof: expected answers in ./proofs/numbered/Numbered/add/Answers.antt; `search` did not prove `invariant_of-self-inside`
only=3 proved=2
"""
# What a function calls has a premise.
PREMISE = """\
note: src/settling.rt:112:9: it is not proved that what `deliver` requires holds at this call (`deliver-requires-clause-can_run`); `search` gave up at one of its limits
fn cache_core::interior::Interior::again_at: no proof: expected answers in ./proofs/settling/Interior/again_at/Answers.antt; `search` did not prove `deliver-requires-clause-can_run`
only=9 proved=8
"""
# A proof written by hand has another type.
ANSWER = """\
./proofs/held/holding/Holding/add/Answers.antt:12:5: error: `add-requires`: computed as far as they go, the two types are `record {absent : Path ..}`
  (expected) and `Path (Rattle.std.specs.declared.option.Option.TheVariants.the_data HeldSlot) (find ..) Rattle.std.proofs.Common.None`
fn audit_situation::held::holding::Holding::add: not proved
only=3 proved=2
"""
# A proof names what is gone.
LOST = """\
./proofs/held/holding/Holding/new/Answers.antt:9:93: error: `invariant_of-result`: record `Lts.Past-After-known_told3` has no field `in_ok-new` (nearest: .in_ok-vec, .new)
fn audit_situation::held::holding::Holding::new: not proved
only=3 proved=2
"""
GONE = """\
./proofs/numbered/Numbered/add/Answers.antt:9:34: error: `invariant_of-self-inside-2`: `goal.invariant_of-self-inside-2`: module `Goals` has no `invariant_of-self-inside-2` that can be named from here
fn audit_situation::numbered::Numbered::add: not proved
only=3 proved=2
"""
# The code or its clauses are no Rattle.
BROKEN = """\
src/held/holding.rt:90:86: error: `ensures-1`: record `denote.Triple.Both.Both` has no field `entries`
src/a.rt:3:5: error: cannot find `x` in this scope
logic=not-proved
"""


class Words(unittest.TestCase):
    def test_words(self):
        for word, said in (
            ("clause", CLAUSE), ("clause", PROMISE), ("premise", PREMISE), ("answer", ANSWER), ("form", LOST), ("form", GONE),
            # the first way in which it is refused that says most
            ("clause", PREMISE + CLAUSE), ("clause", ANSWER + CLAUSE), ("premise", LOST + PREMISE), ("answer", LOST + ANSWER),
        ):
            with self.subTest(word=word, said=said):
                self.assertEqual(wrong_bodies.verdict(1, said, ())[0], word)

    def test_the_line_that_shows_it(self):
        self.assertEqual(wrong_bodies.verdict(1, ANSWER + CLAUSE, ())[1], CLAUSE.split("\n", 1)[0][:160])

    def test_no_refusal(self):
        self.assertEqual(wrong_bodies.verdict(0, "logic=proved functions=3\n", ()), ("PASSED", ""))
        self.assertEqual(wrong_bodies.verdict(1, BROKEN, ("src/a.rt",))[0], "BAD")
        self.assertEqual(wrong_bodies.verdict(1, "rt: no space left\n", ())[0], "BAD")

    def test_a_helper_says_nothing(self):
        self.assertEqual(wrong_bodies.verdict(1, CLAUSE, (), helper=True)[0], "form")

    def test_answers_that_do_not_fit(self):
        self.assertEqual(wrong_bodies.misfits(ANSWER + LOST + ANSWER), [
            "proofs/held/holding/Holding/add/Answers.antt", "proofs/held/holding/Holding/new/Answers.antt",
        ])


# A file of which two methods share a name, and what a check of both says.
TEXT = """\
impl<T> Deque<T> {
    pub fn len(&self) -> usize
        ensures { result ≡ self.len }
    {
        self.count
    }
}

impl<T: Drop> Queue<T> for Deques<T> {
    fn len(&self) -> usize {
        self.count
    }
}

fn whole() -> bool {
    true
}
"""
BOTH = """\
./proofs/deque/Deque/len/Answers.antt:7:29: error: `returns`: computed as far as they go, the two types differ
  (expected) and the other has `1` (found)
./proofs/deque/DequesQueue/len/Answers.antt:3:9: error: `returns`: the two types differ
fn policy_queue::deque::whole: proved
note: src/deque.rt:5:9: it is not proved that what the function ensures holds when it returns (`returns`)
fn policy_queue::deque::Deque::len: not proved
fn policy_queue::deque::DequesQueue::len: not proved
only=3 proved=1
"""


class Functions(unittest.TestCase):
    def at(self, words):
        return wrong_bodies.function_at(TEXT, TEXT.index(words), "src/deque.rt")

    def test_where_a_function_stands(self):
        own, of_trait, free = self.at("self.count"), wrong_bodies.function_at(TEXT, TEXT.rindex("self.count"), "src/deque.rt"), self.at("true")
        self.assertEqual([it.named("policy_queue") for it in (own, of_trait, free)], ["policy_queue::deque::Deque::len", None, "policy_queue::deque::whole"])
        self.assertTrue(of_trait.is_called("policy_queue::deque::DequesQueue::len"))
        self.assertFalse(own.is_called("policy_queue::deque::DequesQueue::len"))
        self.assertIsNone(self.at("impl<T: Drop>"))

    def test_what_is_said_of_one_of_several(self):
        own, of_trait = self.at("self.count"), wrong_bodies.function_at(TEXT, TEXT.rindex("self.count"), "src/deque.rt")
        said, is_refused = wrong_bodies.part_of(BOTH, [own], {"src/deque.rt": TEXT})
        self.assertTrue(is_refused)
        self.assertEqual(wrong_bodies.verdict(1, f"{said}\nonly=2 proved=1\n", ())[0], "clause")
        said, is_refused = wrong_bodies.part_of(BOTH, [of_trait], {"src/deque.rt": TEXT})
        self.assertTrue(is_refused)
        self.assertEqual(wrong_bodies.verdict(1, f"{said}\nonly=2 proved=1\n", ())[0], "answer")
        self.assertEqual(wrong_bodies.part_of(BOTH, [self.at("true")], {"src/deque.rt": TEXT})[1], False)


class Helpers(unittest.TestCase):
    def adds(self, text):
        with tempfile.TemporaryDirectory() as room:
            body = pathlib.Path(room, "a.edit")
            body.write_text(text, encoding="utf-8")
            return wrong_bodies.adds_a_helper(body)

    def test_helpers(self):
        self.assertTrue(self.adds("file: src/a.rt\nold: pub fn a(\nnew: fn b() -> u64 { 1 } pub fn a(\n"))
        self.assertFalse(self.adds("file: src/a.rt\nold: pub fn a(\nnew: fn b() -> u64 ensures { result ≡ 1 } { 1 } pub fn a(\n"))
        self.assertFalse(self.adds("file: src/a.rt\nold: pub fn a(x: u64)\nnew: pub fn a(y: u64)\n"))
        self.assertFalse(self.adds("file: src/a.rt\nold: a();\nnew: b();\n"))

    def test_what_a_body_stands_beside(self):
        with tempfile.TemporaryDirectory() as room:
            body = pathlib.Path(room, "a.edit")
            body.write_text("beside: b\nbeside: other/c\nfile: src/a.rt\nold: a();\nnew: b();\n", encoding="utf-8")
            self.assertEqual(wrong_bodies.beside("crate", body), ["crate/b", "other/c"])
            self.assertEqual(wrong_bodies.pairs_of(body), [("src/a.rt", "a();", "b();")])

    def test_comments(self):
        self.assertEqual(wrong_bodies.COMMENT[".rt"].sub(b"", b"/// A.\nfn a() {\n    // B.\n    b(\"// c\");\n}\n"), b"fn a() {\n    b(\"// c\");\n}\n")
        self.assertEqual(wrong_bodies.COMMENT[".antt"].sub(b"", b"-- A.\na : B\n  -- C\n  c - d -- e\n"), b"a : B\n  c - d -- e\n")


if __name__ == "__main__":
    unittest.main()
