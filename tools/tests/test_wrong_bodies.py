"""Tests of the trial of wrong bodies, on small texts and with a made-up check."""
import os
import sys
import unittest

sys.dont_write_bytecode = True
sys.path.insert(0, os.path.dirname(os.path.dirname(os.path.realpath(__file__))))

from rattle_source import block_of_impl, module_of, named_in_log, places_in  # noqa: E402
from rattle_source import without_comment_lines, without_comments, without_own_bodies  # noqa: E402
from test_edits import bodies_changed  # noqa: E402
from wrong_bodies import BadEdit, Trial, applied, batches, can_be_open, functions_in, left_open  # noqa: E402
from wrong_bodies import names_to_check, pairs_of, read_edit, read_log  # noqa: E402

PATHS = """\
const MOST: usize = 9;

/// A fn in a comment { and a brace.
fn is_dots(text: &str) -> bool
    ensures { result ≡ is_dots text.now }
{
    text == "." || text == "{.."
}

pub struct Path {
    text: String,
}

impl Path {
    pub fn join(&self, bytes: [u8; 4]) -> Result<Path, Fault>
        requires room { IfOk result (λ path. path ≡ 1) }
        ensures { IfOk result (λ path. path ≡ self.now) }
    {
        if !is_dots("a") {
            return Err(Fault::Bad);
        }
        Ok(one)
    }

    pub fn fmt(&self) -> u8 {
        b'{'
    }
}

impl fmt::Display for Path {
    fn fmt<W: fmt::Write>(&self, f: &mut fmt::Formatter<W>) -> fmt::Result {
        write!(f, "path")
    }
}

impl From<AllocError> for Fault {
    fn from(_e: AllocError) -> Fault {
        Fault::First
    }
}

impl<T: Drop, F: Fn(u8) -> u8> From<AllocFailed<T>> for Fault {
    fn from(_e: AllocFailed<T>) -> Fault {
        Fault::Second
    }
}

mod inner {
    fn deep() {
        let x = 1;
    }
}
"""
TEXTS = {"src/lib.rt": "mod path;\n\nfn top() -> u8 {\n    7\n}\n", "src/path.rt": PATHS}


def edit_text(*pairs, path="src/path.rt"):
    return f"file: {path}\n" + "".join(f"old: {old}\nnew: {new}\n" for old, new in pairs)


def edit(name, *pairs, path="src/path.rt", texts=TEXTS):
    """An edit with a line for each function whose body it changes, but where it changes more."""
    bodies = bodies_changed(texts, [(path, *pair) for pair in pairs])
    lines = "".join(f"fn: {it}\n" for it in sorted(bodies)) if "" not in bodies else ""
    return read_edit(name, lines + edit_text(*pairs, path=path), texts, functions_in(texts))


def log_text(*lines, verdict="not-proved"):
    return "\n".join([*(f"fn made::{it}" for it in lines), f"logic={verdict} functions=1", ""])


DOTS = ('text == "."', 'text != "."')
JOIN = ("Ok(one)", "Err(Fault::Bad)")
DISPLAY = ('write!(f, "path")', "Ok(())")
FIRST = ("Fault::First", "Fault::Second")
SECOND = ("        Fault::Second", "        Fault::First")


class Reading(unittest.TestCase):
    def test_pairs(self):
        text = "a note\nfn: f\nfile: src/a.rt\nold: one\nnew: two\nold:   three\nnew:\nfile: src/b.rt\nold: x\nnew:  y\n"
        found = [("src/a.rt", "one", "two"), ("src/a.rt", "  three", ""), ("src/b.rt", "x", " y")]
        self.assertEqual(pairs_of(text), (found, ["f"], []))

    def test_edits_that_are_none(self):
        for text in ("", "file: src/a.rt\nold: x\n", "old: x\nnew: y\n", "file: src/a.rt\nold: x\nold: y\nnew: z\n",
                     "file: specs/A.antt\nold: x\nnew: y\n", "file: src/../a.rt\nold: x\nnew: y\n",
                     "fn: f\nfile: src/a.rt\nold: x\nnew: y\nrefused: f\n",
                     "fn: f\nfile: specs/A.antt\nold: x\nnew: y\n"):
            with self.assertRaises(BadEdit, msg=text):
                pairs_of(text)

    def test_old_text_must_stand_once(self):
        with self.assertRaises(BadEdit):
            applied(TEXTS, [("src/path.rt", "Fault::Second", "x"), ("src/path.rt", "Fault::Second", "y")])
        with self.assertRaises(BadEdit):
            applied(TEXTS, [("src/path.rt", "Fault", "x")])
        with self.assertRaises(BadEdit):
            applied(TEXTS, [("src/none.rt", "x", "y")])

    def test_modules(self):
        paths = ["src/lib.rt", "src/main.rt", "src/a.rt", "src/a/b.rt", "src/a/mod.rt"]
        self.assertEqual([module_of(it) for it in paths], ["", "", "a", "a::b", "a"])

    def test_functions_of_a_file(self):
        found = [it.name for it in places_in(PATHS, "path", {})]
        wanted = ["path::is_dots", "path::Path::join", "path::Path::fmt", "path::PathDisplay::fmt",
                  "path::FaultFromAllocError::from", "path::FaultFromAllocFailed::from", "path::inner::deep"]
        self.assertEqual(found, wanted)

    def test_exports_are_functions(self):
        text = '#[unsafe(no_mangle)]\npub extern "C" fn begins(op: u64) -> u8 {\n    0\n}\nextern "C" {\n    fn c();\n}\n'
        self.assertEqual([it.name for it in places_in(text, "export", {})], ["export::begins", "export::c"])

    def test_what_others_see_of_a_file(self):
        text = ("const N: u8 = two();\npub const fn two() -> u8 {\n    2\n}\npub fn all() -> impl Iter {\n    every()\n}\n"
                "trait Shown {\n    fn shown(&self) -> u8 {\n        1\n    }\n}\n"
                "impl Shown for N {\n    fn shown(&self) -> u8\n        ensures { result ≡ 2 }\n    {\n        2\n    }\n}\n"
                "fn of(it: impl Shown) -> u8 {\n    it.shown()\n}\n")
        seen = text.replace("{\n        2\n    }", ";").replace("{\n    it.shown()\n}", ";")
        self.assertEqual(without_own_bodies(text), seen)

    def test_a_file_without_its_comments(self):
        text = ('/// One.\n// Two.\nfn two() -> &str {\n    /* Three,\n       four. */\n'
                '    let it = "/* five\n// six */"; // Seven.\n\n    it /* eight */ + 9\n}\n')
        left = 'fn two() -> &str {\n    let it = "/* five\n// six */";\n\n    it + 9\n}\n'
        self.assertEqual(without_comments(text), left)
        terms = "-- One.\nsum : N\n  -- two\nsum = 1 -- 2\n"
        self.assertEqual(without_comment_lines(terms), "sum : N\nsum = 1 -- 2\n")

    def test_methods_of_a_type_declared_in_another_file(self):
        texts = {"src/table.rt": "pub struct Table {}\npub(crate) struct Row;\n", "src/row.rt": "struct Row;\n",
                 "src/rows.rt": "impl Table {\nfn open() {}\n}\nimpl Row {\nfn of() {}\n}\n"
                                "impl Drop for Table {\nfn drop() {}\n}\n"}
        wanted = {"table::Table::open", "rows::Row::of", "rows::TableDrop::drop"}
        self.assertEqual({*functions_in(texts)}, wanted)

    def test_names_of_blocks(self):
        heads = {" Path ": "Path", "<T> Share<T> ": "Share", " From<Id> for u64 ": "U64FromId",
                 " Add<u64> for Id ": "IdAddU64", "<const N: usize> FromHex for [u8; N] ": "ArrayU8FromHex",
                 " Read for Broken<'_> ": "BrokenRead",
                 "<T: Clone, C: Codec<T> + Drop> Model for Kept<T, C> ": "KeptModel",
                 "<C> Codec<Record> for R<C> where C: Copy ": "RCodecRecord",
                 "<T, P: Calls<T>> Protocol<T, Id> for P ": "AnyProtocolId", "<T> Kept<T, Id> ": "Kept+T+Id",
                 "<T, C> Kept<T, C> ": "Kept"}
        for head, name in heads.items():
            self.assertEqual(block_of_impl(head).name, name)


class Named(unittest.TestCase):
    def test_bodies_of_functions_and_of_methods(self):
        wanted = {DOTS: "path::is_dots", JOIN: "path::Path::join", DISPLAY: "path::PathDisplay::fmt"}
        for pair, name in wanted.items():
            self.assertEqual((edit("a", pair).functions, edit("a", pair).is_of_bodies), ({name}, True))
        self.assertEqual(edit("a", ("    7", "    8"), path="src/lib.rt").functions, {"top"})
        found = edit("a", DOTS, ("Ok(one)", "is_dots(two)"), ("is_dots(two)", "Ok(two)"))
        self.assertEqual(found.functions, {"path::is_dots", "path::Path::join"})

    def test_a_function_that_is_not_there(self):
        for word in ("fn", "refused"):
            with self.assertRaises(BadEdit):
                read_edit("a", f"{word}: path::Path::none\n{edit_text(DOTS)}", TEXTS, functions_in(TEXTS))

    def test_definitions_name_their_law(self):
        texts = {**TEXTS, "specs/A.antt": "a : b\n"}
        text = edit_text(("a : b", "a : c"), path="specs/A.antt") + "refused: path::Path::join\n"
        for beside, modules in (("", set()), (edit_text(DOTS), {"path"})):
            found = read_edit("a", beside + text, texts, functions_in(texts))
            self.assertEqual((found.functions, found.modules, found.is_of_bodies), ({"path::Path::join"}, modules, False))

    def test_constant_and_signature_are_more_than_bodies(self):
        constant = edit("a", ("usize = 9", "usize = 8"))
        self.assertEqual((constant.functions, constant.is_of_bodies, constant.modules), (set(), False, {"path"}))
        self.assertEqual(bodies_changed(TEXTS, [("src/path.rt", "result ≡ is_dots text.now", "1 ≡ 1")]), {""})

    def test_a_first_statement_is_of_a_body(self):
        line = "pub fn fmt(&self) -> u8 {"
        found = edit("a", (line, f"{line} return 0;"))
        self.assertEqual((found.functions, found.is_of_bodies), ({"path::Path::fmt"}, True))
        self.assertFalse(edit("a", (line, "pub fn fmt(&self) -> u16 { return 0;")).is_of_bodies)


class Batches(unittest.TestCase):
    def names(self, edits, **how):
        return [[it.name for it in batch] for batch in batches(TEXTS, edits, **how)]

    def test_each_function_once(self):
        edits = [edit("a", DOTS), edit("b", JOIN), edit("c", ("Ok(one)", "Ok(two)")), edit("d", DISPLAY)]
        self.assertEqual(self.names(edits), [["a", "b", "d"], ["c"]])
        self.assertEqual(self.names(edits, most=2), [["a", "b"], ["c", "d"]])

    def test_old_texts_still_once(self):
        edits = [edit("a", ("b'{'", "Fault::First")), edit("b", FIRST)]
        self.assertEqual(self.names(edits), [["a"], ["b"]])

    def test_methods_of_one_name(self):
        self.assertEqual(self.names([edit("a", FIRST), edit("b", SECOND)]), [["a"], ["b"]])
        second = edit("b", ("        Fault::Second", "        Fault::Third"))
        self.assertEqual(self.names([second, edit("a", FIRST)]), [["b", "a"]])

    def test_constants_alone(self):
        edits = [edit("a", ("usize = 9", "usize = 8")), edit("b", DOTS), edit("c", JOIN)]
        self.assertEqual(self.names(edits), [["a"], ["b", "c"]])


class Logs(unittest.TestCase):
    def test_lines(self):
        log = read_log("made", log_text(
            "a: proved", "b: not proved",
            "c: no proof: expected answers in ./proofs/c/Answers.antt; `search` did not prove `returns`; it calls `made::b`, "
            "which is not proved",
            "d: no proof: it calls `made::b`, which is not proved; it passes the block `made::B`, which is not proved",
            "e: no proof: it passes the block `made::B`, which is not proved", "f: could not tell",
            "g: not proved; it calls `made::b`, which is not proved",
            "h: no proof: a cycle of calls",
            "i: no proof: the borrow checker's part in its proof is not made yet: a call of `made::b`, which has no proof: "
            "help: prove it first",
            "j: no proof: expected `j_spec` in ./proofs/j/Proof.antt; the borrow checker does not cover this function yet"))
        self.assertEqual(log.proved, {"a"})
        self.assertEqual(log.refused, {"b", "c", "g", "h", "j"})
        self.assertEqual(log.waiting, {"d", "e", "i"})
        self.assertEqual(log.undecided, {"f"})
        self.assertTrue(log.is_refusal)

    def test_a_check_of_a_part(self):
        self.assertTrue(read_log("made", "fn made::a: not proved\nonly=2 proved=1\n").is_refusal)
        self.assertEqual(read_log("made", "fn made::a: proved\nonly=1 proved=1\n").verdict, "proved")

    def test_a_check_with_open_proofs(self):
        hole = "fn made::b: depends on a hole in `Rattle.made.proofs.b.Proof.b_spec`\nonly=2 holes=1\n"
        log = read_log("made", f"fn made::a: not proved\n{hole}")
        self.assertEqual((log.refused, log.undecided, log.is_refusal), ({"a"}, {"b"}, True))
        self.assertEqual(read_log("made", hole).refused, set())

    def test_other_crates_and_no_verdict(self):
        log = read_log("made", "fn other::a: not proved\n")
        self.assertEqual((log.refused, log.verdict, log.is_refusal), (set(), "", False))

    def test_unread_text(self):
        bad = log_text("a: not proved")
        self.assertTrue(read_log("made", f"src/path.rt:3:1: error: expected a type\n{bad}").unread)
        self.assertTrue(read_log("made", f"src/path.rt:3:1: error: `goal`: `x` is not in scope\n{bad}").unread)
        self.assertFalse(read_log("made", f"src/path.rt:3:1: error: `goal`: the two types differ\n{bad}").unread)
        self.assertFalse(read_log("made", f"./proofs/a/Answers.antt:3:1: error: no proof was found\n{bad}").unread)

    def test_names_of_functions(self):
        functions = functions_in(TEXTS)
        self.assertTrue(functions["path::PathDisplay::fmt"])
        self.assertFalse(functions["path::FaultFromAllocError::from"])
        wanted = {it: {it} for it in ("path::is_dots", "path::Path::fmt", "path::PathDisplay::fmt", "top")}
        wanted["path::FaultFromAllocError::from"] = {"path::FaultFromAllocError::from"}
        wanted["path::FaultFromCoreAllocErrorT::from"] = {"path::FaultFromAllocError::from"}
        wanted |= {it: set() for it in ("path::PathDebug::fmt", "path::FaultFrom::from", "is_dots")}
        for path, names in wanted.items():
            self.assertEqual(named_in_log(path, functions), names)

    def test_names_inside_a_function(self):
        functions = functions_in(TEXTS)
        inside = {"path::fn::is_dots::all+FnMut::call_mut": "path::is_dots", "fn::top::all": "top",
                  "path::fn::Path::join::map": "path::Path::join"}
        for path, name in inside.items():
            self.assertEqual(named_in_log(path, functions), {name})


class FakeCheck:
    """A check whose log says of each function the line that `says` gives by what stands in the changed texts."""

    def __init__(self, says):
        self.says, self.runs, self.asked = says, [], []

    def __call__(self, changed, only):
        self.runs.append(changed)
        self.asked.append(only)
        return self.says("\n".join(it for it in changed.values() if it is not None))


class Trials(unittest.TestCase):
    def trial(self, says):
        check = FakeCheck(says)
        return Trial("made", TEXTS, check), check

    def test_all_refused_together(self):
        lines = ["path::is_dots: not proved", "path::Path::join: no proof: expected answers in a"]
        trial, check = self.trial(lambda text: log_text(*lines))
        outcomes, alone = trial.together([edit("a", DOTS), edit("b", JOIN)])
        self.assertEqual([(it.edit, it.reason, it.was_alone) for it in outcomes], [("a", "", False), ("b", "", False)])
        self.assertEqual((alone, len(check.runs)), ([], 1))
        self.assertIn('text != "."', check.runs[0]["src/path.rt"])
        self.assertEqual(check.asked, [[["path::Path::join", "path"], ["path::is_dots", "path"]]])

    def test_the_functions_that_no_edit_changes_are_left_open(self):
        batch = [edit("a", DOTS), edit("b", JOIN)]
        self.assertTrue(can_be_open(batch))
        lines = ["path::is_dots: not proved", "path::Path::fmt: depends on a hole in `x`"]
        trial, check = self.trial(lambda text: log_text(*lines, verdict=""))
        trial.together(batch, is_open=True)
        text = check.runs[0]["src/path.rt"]
        self.assertIn('text != "."', text)
        self.assertIn("pub fn fmt(&self) -> u8 {\n    unreachable!()\n}", text)
        self.assertNotIn("let x = 1;", text)
        # (of an impl of a trait with arguments, a check may know another name)
        self.assertIn("Fault::First", text)
        self.assertNotIn("proofs/path/is_dots/Proof.antt", check.runs[0])
        statement = "use Rattle.made.proofs.path.Path.fmt.Statement.{statement}\n"
        self.assertIn(statement, check.runs[0]["proofs/path/Path/fmt/Proof.antt"])

    def test_methods_of_some_forms_of_a_type_are_asked_for_with_all_arguments(self):
        texts = {"src/path.rt": "impl<T: Clone> EventOf<Call<T>> {\n    fn copy(&self) {\n        self\n    }\n}\n"}
        self.assertEqual(functions_in(texts), {"path::EventOf+Call+T::copy": True})
        changed = edit("a", ("        self", "        other"), texts=texts)
        self.assertEqual(names_to_check([changed]), [["path::EventOf+Call+T::copy", "path"]])
        self.assertIn("proofs/path/EventOf+Call+T/copy/Proof.antt", left_open("made", texts, set()))

    def test_what_proofs_of_open_functions_had_goes(self):
        texts = {**TEXTS, "proofs/path/Path/fmt/Answers.antt": "", "proofs/path/is_dots/Answers.antt": ""}
        files = left_open("made", texts, {"path::is_dots"})
        self.assertIsNone(files["proofs/path/Path/fmt/Answers.antt"])
        self.assertNotIn("proofs/path/is_dots/Answers.antt", files)

    def test_what_only_waits_is_tried_alone(self):
        waits = "path::Path::join: no proof: it calls `made::path::is_dots`, which is not proved"
        trial, _ = self.trial(lambda text: log_text("path::is_dots: not proved", waits))
        outcomes, alone = trial.together([edit("a", DOTS), edit("b", JOIN)])
        self.assertEqual([it.edit for it in outcomes], ["a"])
        self.assertEqual([it.name for it in alone], ["b"])

    def test_a_check_that_refuses_an_unchanged_function_decides_nothing(self):
        trial, _ = self.trial(lambda text: log_text("path::is_dots: not proved", "path::Path::join: not proved"))
        outcomes, alone = trial.together([edit("a", DOTS), edit("b", ("        Fault::Second", "        Fault::Third"))])
        self.assertEqual((outcomes, [it.name for it in alone]), ([], ["a", "b"]))

    def test_still_proved(self):
        trial, _ = self.trial(lambda text: log_text("path::is_dots: proved", verdict="proved"))
        self.assertIn("still proved", trial.alone(edit("a", DOTS)).reason)

    def test_refusal_of_another_function_does_not_count(self):
        trial, _ = self.trial(lambda text: log_text("path::is_dots: proved", "path::Path::join: not proved"))
        self.assertIn("path::Path::join", trial.alone(edit("a", DOTS)).reason)

    def test_alone_but_only_waiting(self):
        trial, _ = self.trial(lambda text: log_text("path::is_dots: no proof: it calls `made::x`, which is not proved"))
        self.assertIn("only wait", trial.alone(edit("a", DOTS)).reason)

    def test_what_a_check_of_less_does_not_name_is_checked_whole(self):
        logs = [log_text("path::other: proved"), log_text("path::is_dots: not proved")]
        trial, check = self.trial(lambda text: logs.pop(0))
        self.assertEqual(trial.alone(edit("a", DOTS)).reason, "")
        self.assertEqual(check.asked, [[["path::is_dots", "path"]], []])

    def test_undecided_or_broken_off(self):
        trial, _ = self.trial(lambda text: log_text("path::is_dots: could not tell", verdict="unsure"))
        self.assertIn("could not tell", trial.alone(edit("a", DOTS)).reason)
        trial, _ = self.trial(lambda text: "fn made::path::is_dots: not proved\n")
        self.assertIn("broke off", trial.alone(edit("a", DOTS)).reason)

    def test_a_text_that_cannot_be_read(self):
        error = "src/path.rt:7:1: error: expected `}`\n"
        is_bad = lambda text: "Err(Fault::Bad)\n    }" in text
        trial, check = self.trial(lambda text: error if is_bad(text) else log_text("path::is_dots: not proved"))
        outcomes, alone = trial.together([edit("a", DOTS), edit("b", JOIN)])
        self.assertEqual((outcomes, [it.name for it in alone]), ([], ["a", "b"]))
        self.assertEqual([trial.alone(it).reason.partition(":")[0] for it in alone], ["", "BAD EDIT"])
        self.assertEqual(len(check.runs), 3)

    def test_methods_of_one_name(self):
        second = edit("b", ("        Fault::Second", "        Fault::Third"))
        trial, _ = self.trial(lambda text: log_text("path::FaultFromAllocError::from: not proved"))
        outcomes, alone = trial.together([second, edit("a", FIRST)])
        self.assertEqual(([it.edit for it in outcomes], [it.name for it in alone]), (["a"], ["b"]))

    def test_constant(self):
        constant = edit("a", ("usize = 9", "usize = 8"))
        trial, _ = self.trial(lambda text: log_text("path::inner::deep: not proved"))
        self.assertEqual(trial.together([constant])[0][0].reason, "")
        trial, _ = self.trial(lambda text: log_text("top: not proved", "paths::x: not proved"))
        self.assertIn("NOT REFUSED", trial.alone(constant).reason)


if __name__ == "__main__":
    unittest.main()
