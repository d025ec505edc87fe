"""Tests of what tools/try-rust-binding reads: the tests of a file, and where the header and the exports differ."""
import os
import sys
import unittest

sys.path[:0] = [os.path.join(os.path.dirname(os.path.dirname(os.path.realpath(__file__))))]

from try_bindings import header_differs  # noqa: E402
from try_rust_binding import functions_in, missing, tests_in  # noqa: E402

ROOT = os.path.dirname(os.path.dirname(os.path.dirname(os.path.realpath(__file__))))
TEXT = """fn own() {}

#[cfg(test)]
mod tests {
    fn helper() -> u8 {
        1
    }

    /// Says one.
    #[test]
    fn one() {
        assert_eq!(helper(), 1);
    }

    #[tokio::test]
    async fn two() {
        async {
        }
        .await;
    }
}
"""


class Reading(unittest.TestCase):
    def test_the_test_module_is_the_last_part(self):
        self.assertTrue(tests_in(TEXT).startswith("#[cfg(test)]\nmod tests {"))
        self.assertEqual(tests_in("fn own() {}\n"), "")

    def test_tests_are_found_with_what_stands_above_them(self):
        lines = TEXT.split("\n")
        found = functions_in(lines)
        self.assertEqual(list(found), ["one", "two"])
        self.assertEqual([lines[begins].strip() for begins, _ in found.values()], ["/// Says one.", "#[tokio::test]"])
        self.assertEqual([lines[ends] for _, ends in found.values()], ["    }", "    }"])

    def test_what_is_not_here_is_said(self):
        self.assertTrue(missing("/nowhere", "package", "/nowhere/libtxnobj.a"))

    def test_the_header_has_what_is_exported(self):
        self.assertEqual(header_differs(ROOT), [])


if __name__ == "__main__":
    unittest.main()
