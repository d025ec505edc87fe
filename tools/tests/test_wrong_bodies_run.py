"""Tests of the command tools/wrong-bodies on a small repository, with a shell script in place of `rt` and `rattle`."""
import contextlib
import io
import os
import re
import sys
import tempfile
import unittest
from unittest import mock

sys.dont_write_bytecode = True
sys.path.insert(0, os.path.dirname(os.path.dirname(os.path.realpath(__file__))))

from crate_copies import Commands, Copies, all_below, crates_listed  # noqa: E402
from kept_verdicts import default_folder, sum_of_toolchain  # noqa: E402
import wrong_bodies_run  # noqa: E402

# It refuses first where src/ has WRONG_first, and so the others, but lets those wait that CALL_second where it refuses
# second. It refuses a text with UNREAD before all, and knows no function by a name that --only gives where it has NAMELESS.
# As `rt` it makes a library, and as `rattle` it wants the one that it is told of, and the crate by itself, or by its source
# as a library of one with nothing.
CHECK = """\
#!/bin/sh
[ "$1" = doc ] && echo "$KIT/START-HERE.md" && exit 0
[ "$1" = version ] && echo "made $VERSION" && exit 0
name=$(basename "$PWD")
echo "$name $(basename "$0") $1" >> "$CALLS"
grep -q UNREAD src/lib.rt && echo "src/lib.rt:1:1: error: expected a word" && exit 1
if [ "$(basename "$0")" = rattle ]; then
  case "$*" in *"--extern std=$KIT/rlibs/std.rlib"*) ;; *) exit 2 ;; esac
  for it in "$@"; do case "$it" in low=*) [ -e "${it#low=}" ] || exit 2 ;; esac; done
  case "$name $*" in high*--extern\\ low=*|low*) ;; *) exit 2 ;; esac
  case "$*" in
    *"--crate-name $name src/main.rt"*) form=program ;;
    *"--crate-name $name src/lib.rt"*) form=itself ;;
    *"--crate-name user_of_$name $4 --lib $name=src/lib.rt"*) form=library && grep -qx "//! Nothing of its own." "$4" || exit 2 ;;
    *) exit 2 ;;
  esac
  case "$*" in *"--incremental out/incremental"*) form="$form keeps" ;; esac
  case "$*" in *--allow-holes*) form="$form open" && grep -q "spec = ?" proofs/second/Proof.antt || exit 2 ;; esac
  echo "$form" >> "$CALLS.forms"
  grep -q NAMELESS src/lib.rt && case "$*" in *"--only first"*)
    echo "rattle: error: \\`$name\\` has no function \\`first\\`: help: write the name" && exit 2 ;;
  esac
else
  [ "$name" = low ] || [ -e ../low/out/rlib/low.rlib ] || exit 2
fi
status=0
for it in first second third; do
  case "$*" in *--only*) case "$*" in *"--only $it"*) ;; *) continue ;; esac ;; esac
  said=proved
  grep -q "WRONG_$it" src/lib.rt && said="not proved" && status=1
  grep -q "CALLS_second_$it" src/lib.rt && grep -q WRONG_second src/lib.rt && said="no proof: it calls second"
  echo "fn $name::$it: $said"
done
case "$*" in *--allow-holes*) echo "only=1 holes=1" && exit 1 ;; esac
case "$*" in *--only*) echo "only=1 proved=$((1 - status))" && exit $status ;; esac
[ $status = 0 ] && echo "logic=proved" || echo "logic=not-proved"
[ "$1" = lib ] && mkdir -p "out/rlib" && touch "out/rlib/$name.rlib"
exit $status
"""
SOURCE = "fn first() -> u8 {\n    1\n}\n\nfn second() -> u8 {\n    2\n}\n"


class Runs(unittest.TestCase):
    def setUp(self):
        room = tempfile.TemporaryDirectory()
        self.addCleanup(room.cleanup)
        self.room = room.name
        for name in ("rt", "rattle"):
            self.file(f"bin/{name}", CHECK, 0o755)
        self.file("repository/crates.txt", "# The crates.\nhigh: low bytes\nlow:\n")
        for crate in ("low", "high"):
            self.file(f"repository/crates/{crate}/src/lib.rt", SOURCE)
            self.edit(crate, "first", "    1", "    WRONG_first")
            self.edit(crate, "second", "    2", "    WRONG_second")

    def file(self, path, text, mode=0o644):
        path = f"{self.room}/{path}"
        os.makedirs(os.path.dirname(path), exist_ok=True)
        with open(path, "w", encoding="utf-8") as file:
            file.write(text)
        os.chmod(path, mode)

    def edit(self, crate, name, old, new):
        """An edit of the last function that begins before the old text."""
        before, found, _ = self.text(crate).partition(old)
        function = re.findall(r"fn (\w+)", before + found)[-1]
        text = f"fn: {function}\nfile: src/lib.rt\nold: {old}\nnew: {new}\n"
        self.file(f"repository/crates/{crate}/wrong-bodies/{name}.edit", text)

    def text(self, crate):
        path = f"{self.room}/repository/crates/{crate}/src/lib.rt"
        if not os.path.exists(path):
            return SOURCE
        with open(path, encoding="utf-8") as file:
            return file.read()

    def files(self):
        return sorted(f"{at}/{it}" for at, _, names in os.walk(f"{self.room}/repository") for it in names)

    def run_command(self, *words, anew=True, version="1"):
        """The status, the last line, the other lines and the calls of the script. Unless what was kept is to count, all is
        tried."""
        said, before = io.StringIO(), self.files()
        calls = f"{self.room}/calls"
        open(calls, "w").close()
        path = f"{self.room}/bin{os.pathsep}{os.environ['PATH']}"
        given = {"PATH": path, "CALLS": calls, "KIT": "/kit", "VERSION": version}
        given["TENDRIFALO_CACHE"] = f"{self.room}/cache"
        words = ["--jobs", "2", *words, *["--anew"] * anew]
        with mock.patch.dict(os.environ, given), contextlib.redirect_stdout(said):
            status = wrong_bodies_run.main(words, root=f"{self.room}/repository")
        self.assertEqual(self.files(), before)
        lines = said.getvalue().splitlines()
        with open(calls, encoding="utf-8") as file:
            return status, lines[-1], "\n".join(lines[:-1]), file.read().split("\n")[:-1]

    def test_crates(self):
        uses = crates_listed(f"{self.room}/repository")
        self.assertEqual(uses, {"low": [], "high": ["low"]})
        self.assertEqual(all_below("high", uses), {"low"})

    def test_all_refused_in_one_check_a_crate(self):
        status, last, said, calls = self.run_command()
        self.assertEqual((status, last), (0, "4 passed, 0 failed"))
        self.assertIn("high: 2 edits in 1 checks, 0 tried alone, 0 failed", said)
        # each crate without edits, and with its batch; the first check of low builds the library for high
        self.assertEqual(sorted(calls), ["high rattle check", "high rt check", "low rattle check", "low rt lib"])

    def test_after_ci_nothing_is_checked_without_edits(self):
        self.assertEqual(self.run_command("--after-ci")[:2], (1, "2 passed, 2 failed"))
        self.file("repository/crates/low/out/rlib/low.rlib", "")
        status, last, said, calls = self.run_command("--after-ci")
        self.assertEqual((status, last), (0, "4 passed, 0 failed"))
        self.assertEqual(sorted(calls), ["high rattle check", "low rattle check"])

    def forms(self, *words):
        """How each check of `low` is given its crate, and whether it keeps its work."""
        self.file("calls.forms", "")
        self.assertEqual(self.run_command("low", *words)[0], 0)
        with open(f"{self.room}/calls.forms", encoding="utf-8") as file:
            return file.read().split("\n")[:-1]

    def test_after_ci_a_crate_is_a_library_and_work_is_kept_for_another_check_alone(self):
        self.file("repository/crates/low/out/rlib/low.rlib", "")
        self.assertEqual(self.forms(), ["itself keeps"])
        self.assertEqual(self.forms("--after-ci"), ["library"])
        self.edit("low", "again", "    1", "    WRONG_first again")
        self.assertEqual(self.forms("--after-ci"), ["library keeps", "library keeps open"])

    def test_after_ci_other_functions_are_left_open_at_first(self):
        self.file("repository/crates/low/out/rlib/low.rlib", "")
        self.assertEqual(self.forms("--only", "first"), ["itself keeps"])
        self.assertEqual(self.forms("--only", "first", "--after-ci"), ["library open"])
        self.edit("low", "first", "    1", "    one")
        self.file("calls.forms", "")
        status, last, said, _ = self.run_command("low", "--only", "first", "--after-ci")
        self.assertEqual((status, last), (1, "0 passed, 1 failed"))
        self.assertIn("low/wrong-bodies/first.edit: NOT REFUSED", said)
        with open(f"{self.room}/calls.forms", encoding="utf-8") as file:
            self.assertEqual(file.read().split("\n")[:-1], ["library open", "library keeps"])

    def test_a_program_is_checked_by_itself(self):
        self.file("repository/crates/low/src/main.rt", SOURCE)
        self.file("repository/crates/low/out/rlib/low.rlib", "")
        self.assertEqual((self.forms(), self.forms("--after-ci")), (["program keeps"], ["program"]))

    def test_after_ci_a_crate_has_one_copy(self):
        self.file("repository/crates/low/out/rlib/low.rlib", "")
        for name in ("again", "once_more"):
            self.edit("low", name, "    1", f"    WRONG_first {name}")
        new = Copies.new_of_parts
        with mock.patch.object(Copies, "new_of_parts", autospec=True, side_effect=new) as made:
            self.assertEqual(self.run_command("low", "--after-ci")[:2], (0, "4 passed, 0 failed"))
        self.assertEqual(made.call_count, 1)

    def test_a_function_is_asked_for_by_its_module_where_no_name_fits(self):
        self.edit("low", "first", "    1", "    WRONG_first NAMELESS")
        status, last, said, calls = self.run_command("low")
        self.assertEqual((status, last), (0, "2 passed, 0 failed"))
        self.assertEqual(calls.count("low rattle check"), 2)

    def test_what_waits_for_another_edit_is_tried_together_again(self):
        waiting = "fn first() -> u8 {\n    CALLS_second_first()\n}\n\nfn third() -> u8 {\n    CALLS_second_third()\n}\n"
        self.file("repository/crates/high/src/lib.rt", SOURCE.replace("fn first() -> u8 {\n    1\n}\n", waiting))
        for name in ("first", "third"):
            self.edit("high", name, f"    CALLS_second_{name}()", f"    CALLS_second_{name}() + WRONG_{name}")
        status, last, said, _ = self.run_command("high")
        self.assertEqual((status, last), (0, "3 passed, 0 failed"))
        self.assertIn("high: 3 edits in 2 checks, 0 tried alone, 0 failed", said)

    def test_what_is_never_refused_together_is_tried_alone(self):
        self.edit("high", "first", "    1", "    WRONG_first UNREAD")
        status, last, said, _ = self.run_command("high")
        self.assertEqual((status, last), (1, "1 passed, 1 failed"))
        self.assertIn("high/wrong-bodies/second.edit: refused, tried alone", said)
        self.assertIn("high: 2 edits in 4 checks, 2 tried alone, 1 failed", said)

    def test_one_crate_and_one_name(self):
        status, last, said, calls = self.run_command("high", "--only", "sec")
        self.assertEqual((status, last), (0, "1 passed, 0 failed"))
        self.assertEqual((calls.count("low rt lib"), calls.count("low rattle check")), (1, 0))
        self.assertEqual(self.run_command("--only", "none")[:2], (1, "0 passed, 1 failed"))
        self.assertEqual(self.run_command("other")[:2], (1, "0 passed, 1 failed"))

    def test_list_checks_nothing(self):
        status, last, said, calls = self.run_command("--list")
        self.assertEqual((status, calls), (0, []))
        self.assertIn("low: check 1, 2 edits\n  wrong-bodies/first.edit: first\n", said)

    def test_edits_that_fail(self):
        self.edit("low", "proved", "fn second() -> u8 {", "fn second() -> u8 { 0;")
        self.edit("low", "unread", "    2", "    UNREAD")
        self.edit("low", "absent", "    3", "    4")
        self.file("repository/crates/low/wrong-bodies/strange.txt", "")
        status, last, said, _ = self.run_command("low")
        self.assertEqual((status, last), (1, "2 passed, 4 failed"))
        self.assertIn("low/wrong-bodies/proved.edit: NOT REFUSED", said)
        self.assertIn("low/wrong-bodies/unread.edit: BAD EDIT: the edited text cannot be read", said)
        self.assertIn("low/wrong-bodies/absent.edit: BAD EDIT: an 'old:' text is in src/lib.rt 0 times", said)
        self.assertIn("low/wrong-bodies/strange.txt: BAD EDIT", said)

    def test_a_crate_that_is_not_proved(self):
        self.file("repository/crates/low/src/lib.rt", SOURCE.replace("    2", "    WRONG_second + 2"))
        self.edit("low", "second", "+ 2", "+ 3")
        status, last, said, _ = self.run_command()
        self.assertEqual((status, last), (1, "0 passed, 4 failed"))
        self.assertIn("low: NOT PROVED without an edit", said)
        self.assertIn("high: NOT TRIED: its library low is not proved", said)

    def test_more_edits_are_read_and_tried_where_asked_for(self):
        self.edit("low", "more/first", "    1", "    WRONG_first + 1")
        self.assertEqual(self.run_command("low")[:2], (0, "2 passed, 0 failed"))
        self.assertEqual(self.run_command("low", "--all")[:2], (0, "3 passed, 0 failed"))
        self.edit("low", "more/absent", "    3", "    4")
        status, last, said, _ = self.run_command("low")
        self.assertEqual((status, last), (1, "2 passed, 1 failed"))
        self.assertIn("low/wrong-bodies/more/absent.edit: BAD EDIT", said)

    def test_a_check_that_is_killed_is_run_once_more(self):
        # (what ends this command ends its checks too, and none of these is begun anew)
        for how, checks in (("KILL", 1), ("TERM", 2)):
            mark = f"{self.room}/killed_by_{how}"
            die = f'#!/bin/sh\n[ -e {mark} ] || [ "$1" = doc ] || {{ touch {mark}; kill -{how} $$; }}\n'
            self.file("bin/rattle", die + CHECK, 0o755)
            status, last, said, _ = self.run_command("low")
            self.assertEqual((status, last), (0, "2 passed, 0 failed"))
            self.assertIn(f"low: 2 edits in {checks} checks", said)

    def test_a_crate_of_which_nothing_is_asked_for(self):
        for name in ("first", "second"):
            os.remove(f"{self.room}/repository/crates/low/wrong-bodies/{name}.edit")
        self.edit("low", "more/first", "    1", "    WRONG_first + 1")
        self.assertEqual(self.run_command("low")[:2], (0, "0 passed, 0 failed"))
        self.assertEqual(self.run_command("low", "--all")[:2], (0, "1 passed, 0 failed"))
        self.assertEqual(self.run_command("low", "--only", "second")[:2], (1, "0 passed, 1 failed"))
        os.remove(f"{self.room}/repository/crates/low/wrong-bodies/more/first.edit")
        self.assertEqual(self.run_command("low")[:2], (1, "0 passed, 1 failed"))

    def test_other_libraries_of_the_kit(self):
        self.file("kit/rlibs/std.rlib/format", "one")
        with mock.patch.object(Commands, "kit", f"{self.room}/kit"):
            first = sum_of_toolchain(Commands(), self.room)
            self.assertEqual(sum_of_toolchain(Commands(), self.room), first)
            self.file("kit/rlibs/std.rlib/format", "two")
            self.assertNotEqual(sum_of_toolchain(Commands(), self.room), first)

    def test_an_edit_of_definitions_names_what_it_makes_false(self):
        self.file("repository/crates/low/specs/Sums.antt", "sum : WRONG_first\n")
        self.file("repository/crates/low/src/lib.rt", SOURCE)
        said = "file: specs/Sums.antt\nold: sum : \nnew: sum : not \nrefused: "
        self.file("repository/crates/low/wrong-bodies/sum.edit", f"{said}first\n")
        self.file("bin/rattle", CHECK.replace('"WRONG_$it" src/lib.rt', '"not WRONG_$it" specs/Sums.antt'), 0o755)
        status, last, out, _ = self.run_command("low", "--only", "sum")
        self.assertEqual((status, last), (0, "1 passed, 0 failed"))
        self.file("repository/crates/low/wrong-bodies/sum.edit", f"{said}second\n")
        status, last, out, _ = self.run_command("low", "--only", "sum")
        self.assertEqual((status, last), (1, "0 passed, 1 failed"))

    def test_wrong_bodies_of_no_listed_crate(self):
        self.edit("lost", "first", "    1", "    2")
        self.assertEqual(self.run_command()[:2], (1, "0 passed, 1 failed"))

    def test_what_was_refused_is_kept(self):
        self.edit("high", "proved", "fn second() -> u8 {", "fn second() -> u8 { 0;")
        self.assertEqual(self.run_command(anew=False)[:2], (1, "4 passed, 1 failed"))
        status, last, said, calls = self.run_command("low", anew=False)
        self.assertEqual((status, last, calls), (0, "2 passed, 0 failed", []))
        self.assertIn("2 of 2 were refused by earlier runs of the same texts on this machine", said)
        # (what was not refused is tried once more)
        status, last, said, calls = self.run_command(anew=False)
        self.assertEqual((status, last), (1, "4 passed, 1 failed"))
        self.assertEqual(calls.count("high rattle check"), 1)
        self.assertEqual(self.run_command("low")[3], ["low rt check", "low rattle check"])

    def test_what_was_kept_of_other_texts_does_not_count(self):
        self.run_command(anew=False)
        self.assertEqual(self.run_command(anew=False)[3], [])
        self.assertNotEqual(self.run_command(anew=False, version="2")[3], [])
        self.edit("low", "first", "    1", "    WRONG_first + 1")
        self.assertEqual(self.run_command(anew=False)[3], ["low rt check", "low rattle check"])
        self.file("repository/crates/low/specs/Sums.antt", "sum : one\n")
        self.assertEqual(self.run_command("high", anew=False)[3].count("high rattle check"), 1)
        self.file("repository/crates.txt", "high: low\nlow: bytes\n")
        self.assertEqual(self.run_command("high", anew=False)[3].count("high rattle check"), 1)
        self.assertEqual(self.run_command("high", anew=False)[3], [])

    def test_what_is_not_seen_above(self):
        self.file("repository/crates/low/specs/Sums.antt", "sum : one\n")
        self.run_command(anew=False)
        body = SOURCE.replace("    2\n", "    // Two.\n    2\n")
        self.file("repository/crates/low/src/lib.rt", body)
        self.file("repository/crates/low/proofs/second/Answers.antt", "of two\n")
        self.assertEqual(self.run_command("high", anew=False)[3], [])
        self.assertEqual(self.run_command("low", anew=False)[3], ["low rt check", "low rattle check"])
        self.file("repository/crates/low/src/lib.rt", "// Numbers.\n" + body)
        self.file("repository/crates/low/specs/Sums.antt", "-- Sums.\nsum : one\n")
        self.assertEqual(self.run_command("high", anew=False)[3], [])
        self.assertEqual(self.run_command("low", anew=False)[3], ["low rt check", "low rattle check"])
        self.file("repository/crates/low/src/lib.rt", body.replace("second() -> u8", "second() -> u8\n    ensures { result ≡ 2 }\n"))
        self.assertEqual(self.run_command("high", anew=False)[3].count("high rattle check"), 1)

    def test_a_body_beside_is_not_seen(self):
        self.run_command("low", anew=False)
        self.file("repository/crates/low/src/lib.rt", SOURCE.replace("    2\n", "    // Two.\n    2\n"))
        self.file("repository/crates/low/proofs/second/Answers.antt", "of two\n")
        self.assertIn("low: 1 edits in 1 checks", self.run_command("low", anew=False)[2])
        self.file("repository/crates/low/proofs/second/Answers.antt", "of one\n")
        self.assertIn("low: 1 edits in 1 checks", self.run_command("low", anew=False)[2])
        # (what is declared in a file, or stands with what is stated, is a module like others)
        self.file("repository/crates/low/specs/second/Answers.antt", "of two\n")
        self.assertIn("low: 2 edits in 1 checks", self.run_command("low", anew=False)[2])
        self.file("repository/crates/low/proofs/second.antt", "pub mod Answers\n")
        self.assertIn("low: 2 edits in 1 checks", self.run_command("low", anew=False)[2])
        self.assertEqual(self.run_command("low", anew=False)[3], [])
        self.file("repository/crates/low/proofs/second/Answers.antt", "of three\n")
        self.assertIn("low: 2 edits in 1 checks", self.run_command("low", anew=False)[2])

    def test_a_damaged_line_is_as_none(self):
        self.run_command("low", anew=False)
        folder = f"{self.room}/cache/wrong-bodies/low"
        path = f"{folder}/{os.listdir(folder)[0]}"
        with open(path, encoding="utf-8") as file:
            lines = file.read().split("\n")
        self.file(f"cache/wrong-bodies/low/{os.path.basename(path)}", "\n".join(it[:-3] + "000" for it in lines))
        self.assertEqual(self.run_command("low", anew=False)[3], ["low rt check", "low rattle check"])
        self.assertEqual(self.run_command("low", anew=False)[3], [])

    def test_texts_that_were_touched_meanwhile_keep_nothing(self):
        touch = f"echo >> {self.room}/repository/crates/low/src/other.rt"
        self.file("repository/crates/low/src/other.rt", "")
        self.file("bin/rattle", CHECK.replace("status=0\n", f"status=0\n{touch}\n"), 0o755)
        self.run_command("low", anew=False)
        self.assertFalse(os.path.exists(f"{self.room}/cache"))

    def test_a_folder_that_cannot_be_written(self):
        self.file("cache", "")
        with contextlib.redirect_stderr(io.StringIO()) as said:
            self.assertEqual(self.run_command("low", anew=False)[:2], (0, "2 passed, 0 failed"))
        self.assertEqual(said.getvalue().count("nothing is kept"), 1)

    def test_few_sheets_are_kept(self):
        with mock.patch("kept_verdicts.MOST_SHEETS", 2):
            for number in range(4):
                self.file("repository/crates/low/specs/Sums.antt", f"sum : {number}\n")
                self.run_command("low", anew=False)
        self.assertEqual(len(os.listdir(f"{self.room}/cache/wrong-bodies/low")), 2)


class Folders(unittest.TestCase):
    def test_the_folder_of_what_is_kept(self):
        self.assertEqual(default_folder({"HOME": "/me"}), "/me/.cache/tendrifalo/wrong-bodies")
        self.assertEqual(default_folder({"HOME": "/me", "XDG_CACHE_HOME": "/c"}), "/c/tendrifalo/wrong-bodies")
        self.assertEqual(default_folder({"HOME": "/me", "TENDRIFALO_CACHE": "/t"}), "/t/wrong-bodies")
        self.assertEqual(default_folder({}), "")


if __name__ == "__main__":
    unittest.main()
