"""Tests of how the page of definitions is made."""
import os
import sys
import tempfile
import unittest

sys.dont_write_bytecode = True
sys.path.insert(0, os.path.dirname(os.path.dirname(os.path.realpath(__file__))))

from definitions import made, names_by_file  # noqa: E402 (it is found beside this folder)

AUDIT = """# What an auditor reads

## The headline

- `crates/low/src/call.rt`: `Call`
- `crates/low/specs/Base.antt`: `start` (`next`, `last`), `bare`, `told`

## The rest

- `crates/low/specs/Base.antt`: `next`
- `crates/low/specs/More.antt`: `more`
"""
PAGE = """# The definitions

By hand.

### `crates/low/specs/Base.antt`

Of another part.

## The headline

- `gone`: a line that was made

### `crates/low/specs/Base.antt`

> old words

Kept
as it stands.
"""
MADE = """# The definitions

By hand.

## The headline

### `crates/low/src/call.rt`

> What is called.

- `Call`: A call, `a<b>` of \\<these>.

### `crates/low/specs/Base.antt`

> Words of the base.

Kept
as it stands.

- `start`: where it starts, told in two lines
- `told`: what is told

## The rest
"""
CALL = """//! What is called.
//!
//! Not this.

/// A call, `a<b>` of <these>.
#[derive(Clone)]
pub enum Call {
}
"""
BASE = """-- Words of the base.
-- Not these.
use A.{b}

-- where it starts,
-- told in two lines
abbrev pub start : ℕ

abbrev pub bare : ℕ

  -- what is told
  abbrev pub told : ℕ
"""
FILES = {
    "docs/audit.md": AUDIT,
    "docs/definitions.md": PAGE,
    "crates/low/src/call.rt": CALL,
    "crates/low/specs/Base.antt": BASE,
    "crates/low/specs/More.antt": "-- More words.\nabbrev pub more : ℕ\n",
}


class Made(unittest.TestCase):
    def test_lists_are_made_and_all_else_is_kept(self):
        with tempfile.TemporaryDirectory() as root:
            for path, text in FILES.items():
                os.makedirs(os.path.dirname(f"{root}/{path}"), exist_ok=True)
                with open(f"{root}/{path}", "w", encoding="utf-8") as file:
                    file.write(text)
            self.assertEqual(made(root), MADE)

    def test_a_name_in_brackets_is_a_step(self):
        steps = [name for _, name, is_step in names_by_file(AUDIT) if is_step]
        self.assertEqual(steps, ["next", "last"])


if __name__ == "__main__":
    unittest.main()
