"""Tests of how the definitions that a definition cites are found."""
import os
import sys
import tempfile
import unittest

sys.dont_write_bytecode = True
sys.path.insert(0, os.path.dirname(os.path.dirname(os.path.realpath(__file__))))

from cited_definitions import cited_by, unlisted  # noqa: E402 (it is found beside this folder)

SPEC = """-- Words.
use Rattle.std.specs.Prelude.{ℕ, List, Option}
use Rattle.low.specs.declared.call.Call.{Call}
use Rattle.low.specs.declared.call.Call.TheVariants as calls
use Rattle.low.specs.Base as base
use Rattle.low.specs.Base.{start as first}

-- what is told; Unsaid is a word of this comment alone
pub data Said : Type 0 where
  Wrote : (id : ℕ) → Said
  Nothing : Said

module _ {T : Type 0} (decode : List ℕ → Option T) where
  abbrev pub told : Call → Said
  told calls.Read = Nothing
  told (calls.Write n) = Wrote (base.next n)

  -- a row
  pub record Row (said : Said) : Type 0 where
    pub told : said ≡ Nothing
    pub above : first ≤ 1

  abbrev pub is_row : ℕ → Type 0
  is_row op = Row (told calls.Read) × rest op
    where
      rest : ℕ → Type 0
      rest n = base.IsGood n
"""
BASE = """abbrev pub start : ℕ
start = 0

abbrev pub next : ℕ → ℕ
next n = n + start

abbrev pub IsGood : ℕ → Type 0
IsGood n = n ≡ start
"""
CALL = """/// A call.
pub enum Call {
    Read,
    Write(Number),
}

pub struct Number(u64);
"""


class Cited(unittest.TestCase):
    def setUp(self):
        room = tempfile.TemporaryDirectory()
        self.addCleanup(room.cleanup)
        self.root = room.name
        for file, text in (("low/src/call.rt", CALL), ("low/specs/Base.antt", BASE), ("high/specs/Words.antt", SPEC)):
            path = f"{self.root}/crates/{file}"
            os.makedirs(os.path.dirname(path), exist_ok=True)
            with open(path, "w", encoding="utf-8") as it:
                it.write(text)

    def cited(self, file, name):
        return sorted(name for _, name in cited_by(self.root, f"crates/{file}", name))

    def test_a_name_an_alias_and_a_constructor(self):
        self.assertEqual(self.cited("high/specs/Words.antt", "told"), ["Call", "Said", "next"])

    def test_a_field_is_no_definition_and_an_import_may_have_another_name(self):
        self.assertEqual(self.cited("high/specs/Words.antt", "Row"), ["Said", "start"])

    def test_what_stands_below_a_definition_is_its_own(self):
        self.assertEqual(self.cited("high/specs/Words.antt", "is_row"), ["Call", "IsGood", "Row", "told"])

    def test_a_type_of_the_code(self):
        self.assertEqual(self.cited("low/src/call.rt", "Call"), ["Number"])

    def test_what_is_not_listed(self):
        listed = {("crates/low/specs/Base.antt", "next")}
        lacks = unlisted(self.root, listed)
        self.assertEqual(lacks, {("crates/low/specs/Base.antt", "start"): ("crates/low/specs/Base.antt", "next")})
        self.assertEqual(unlisted(self.root, listed | set(lacks)), {})


if __name__ == "__main__":
    unittest.main()
