"""Tests of the sweep of refused growths, with a small program that plays scripts, and says itself what is refused."""
import contextlib
import io
import os
import sys
import tempfile
import unittest
from unittest import mock

sys.dont_write_bytecode = True
TOOLS = os.path.dirname(os.path.dirname(os.path.realpath(__file__)))
sys.path.insert(0, TOOLS)

import refuse_growths  # noqa: E402
from refuse_growths import NoLibrary, Player, Script, Test, Worker, make_library, sweep, sweep_all  # noqa: E402

# Each operation asks for a look, a serve and a look, and each event makes one allocation. An operation that was answered is
# an entry at the end, and where the program is called `forgetful` one that was answered 9 too.
PROGRAM = """\
import os, sys

forgetful = os.path.basename(sys.argv[0]) == "forgetful"
nth, made = int(os.environ["REFUSED_ALLOCATION"]), 0
asked, began, entries = {}, 0, []


def grows():
    global made
    made += 1
    if made == nth:
        os.write(int(os.environ["REFUSED_TO"]), b"!")
    return made != nth


def end(op, text, is_entry):
    del asked[op]
    print(f"op {op}: {text}")
    if is_entry:
        entries.append(op)
    return False


def turn(op, kind):
    if op not in asked or kind not in ("", asked[op][0]):
        print("fault 2 NotAsked" if op in asked else "fault 1 UnknownNumber")
        return False
    if not grows():
        return end(op, "refused 9 NoMemory", forgetful)
    asked[op].pop(0)
    return bool(asked[op]) or end(op, "done", True)


for line in sys.stdin.read().splitlines():
    word, *numbers = line.split()
    op = numbers[0] if numbers else ""
    if word == "begin":
        if not grows():
            sys.stderr.write("no memory\\n")
            sys.exit(1)
        began += 1
        asked[str(began)] = ["look", "serve", "look"]
    elif word == "run":
        while turn(op, ""):
            pass
    elif word in ("look", "serve"):
        turn(op, word)
    elif word == "giveup":
        del asked[op]
    elif word == "fail":
        end(op, "refused 2 ObjectStoreError", False)
print("entries", *sorted(entries))
"""
LINES = ["begin", "run 1", "begin", "look 2", "serve 2", "begin", "run 3", "look 2"]
PRINTED = "op 1: done\nop 3: done\nop 2: done\nentries 1 2 3\n"


def silently(call, *given):
    said = io.StringIO()
    with contextlib.redirect_stdout(said):
        return call(*given), said.getvalue()


class Sweeps(unittest.TestCase):
    def setUp(self):
        room = tempfile.TemporaryDirectory()
        self.addCleanup(room.cleanup)
        self.room = room.name
        self.player = Player()

    def file(self, path, text, mode=0o644):
        path = f"{self.room}/{path}"
        os.makedirs(os.path.dirname(path), exist_ok=True)
        with open(path, "w", encoding="utf-8") as file:
            file.write(text)
        os.chmod(path, mode)
        return path

    def shell(self, name, text):
        return self.file(name, f"#!/bin/sh\n{text}\n", 0o755)

    def script(self, name="plays", printed=PRINTED):
        program = self.file(name, f"#!{sys.executable} -SE\n{PROGRAM}", 0o755)
        self.file("cases/a/one.txt", "".join(f"{it}\n" for it in LINES))
        self.file("cases/a/one.stdout", printed)
        return Script(self.player, program, f"{self.room}/cases/a/one")

    def test_a_run_is_told_from_one_without_a_refusal(self):
        program = self.shell("tells", '[ "$REFUSED_ALLOCATION" = 2 ] && printf ! >"/proc/self/fd/$REFUSED_TO"\nexit 3')
        self.assertEqual(self.player.run([program], nth=2), (refuse_growths.Ran(3, "", ""), True))
        self.assertEqual(self.player.run([program], nth=3), (refuse_growths.Ran(3, "", ""), False))

    def test_the_turns_of_a_run(self):
        script = self.script()
        self.assertEqual(script.events_of_run(LINES[:1], "1"), ["look 1", "serve 1", "look 1"])
        self.assertEqual(script.events_of_run(LINES[:1], "7"), [])
        self.assertEqual([it[2] for it in script.turns("2")], ["look 2", "serve 2", "look 2"])

    def test_each_allocation_of_a_script(self):
        # (three begins, and three events of each operation)
        self.assertEqual(silently(sweep, self.script()), ((12, 0), ""))

    def test_what_is_printed_after_an_answer_9(self):
        found, said = silently(sweep, self.script("forgetful"))
        self.assertEqual(found, (7, refuse_growths.MOST_ODD))
        self.assertIn("FAILED: one, allocation 2 refused: status 0\n    op 1: refused 9 NoMemory", said)

    def test_what_is_printed_with_ample_memory(self):
        found, said = silently(sweep, self.script(printed="op 1: done\n"))
        self.assertEqual(found, (12, 1))
        self.assertIn("FAILED: one, with ample memory: status 0\n    op 1: done\n", said)

    def test_each_allocation_of_a_test(self):
        says = '[ "$REFUSED_ALLOCATION" -le 7 ] && printf ! >"/proc/self/fd/$REFUSED_TO"\n'
        program = self.shell("tests_world_tests", f'{says}printf "\\ntest result: ok\\n"')
        self.assertEqual(silently(sweep, Test(self.player, program, "one")), ((7, 0), ""))
        program = self.shell("tests_world_tests", f'{says}[ "$REFUSED_ALLOCATION" = 5 ] || printf "\\ntest result: ok\\n"')
        self.assertEqual(silently(sweep, Test(self.player, program, "one"))[0], (7, 1))

    def worker(self, *ends):
        """A worker, of which each end in turn comes where that allocation is refused: a status, and what is written."""
        refusals = [f'{at}) tell; {end};;' for at, end in enumerate(ends, 1)]
        tell = 'tell() { printf ! >"/proc/self/fd/$REFUSED_TO"; }'
        lines = 'lines() { printf "workers 1\\ncalls $1\\nanswers $1\\nhistory $2\\ncounts agree\\naudit ok\\n"; }'
        cases = "\n".join(["case $REFUSED_ALLOCATION in", *refusals, "*) lines 9 5;;", "esac"])
        return Worker(self.player, self.shell("works", "\n".join([tell, lines, cases])))

    def test_each_allocation_of_a_worker(self):
        lacks, stops = ("echo no memory >&2; exit 1", "echo worker 1 stopped >&2; exit 1")
        self.assertEqual(silently(sweep, self.worker(lacks, stops, "lines 8 4", "lines 9 4", "lines 9 5")), ((5, 0), ""))
        self.assertEqual(silently(sweep, self.worker(lacks, stops, "lines 9 3", "lines 9 5; exit 1"))[0], (4, 2))
        found, said = silently(sweep, self.worker(lacks, "lines 9 5"))
        self.assertEqual(found, (2, 1))
        self.assertIn("threads 1 never ended with 'worker 1 stopped\\n'", said)

    def test_a_program_that_does_not_end(self):
        with mock.patch.object(refuse_growths, "SECONDS", 0.2):
            found, said = silently(sweep, Test(self.player, self.shell("sleeps", "exec sleep 5"), "one"))
        self.assertEqual(found, (0, 1))
        self.assertIn("had not ended", said)

    def test_builds(self):
        worker = self.worker("echo no memory >&2; exit 1", "echo worker 1 stopped >&2; exit 1")
        with mock.patch.multiple(refuse_growths, SCRIPTS=("a/one",), Worker=lambda *_: worker):
            program = self.script().program
            self.assertEqual(silently(sweep_all, self.player, self.room, [program, program])[0], (28, 0))
            self.assertEqual(silently(sweep_all, self.player, self.room, [f"{self.room}/none"])[0], (0, 1))
        program = self.shell("tests_world_tests", 'printf "\\ntest result: ok\\n"')
        found, said = silently(sweep_all, self.player, self.room, [program])
        tests = "tests::refused::a_refused_event_is_taken_again", "tests::growths::audits_agree_whichever_growth_is_refused"
        told = "".join(f"tests_world_tests {it}: 0 refused, 1 odd\n" for it in tests)
        self.assertEqual((found, said), ((0, 2), told))

    def test_the_library_refuses(self):
        try:
            library = make_library(f"{TOOLS}/refuse.c", f"{self.room}/refuse.so")
        except NoLibrary as error:
            self.skipTest(str(error))
        player = Player(library)
        self.assertEqual(player.run(["sh", "-c", "exit 3"], nth=1_000_000), (refuse_growths.Ran(3, "", ""), False))
        self.assertTrue(player.run(["sh", "-c", "exit 3"], nth=1)[1])

    def test_no_compiler(self):
        with mock.patch.object(refuse_growths, "compilers", lambda: [["./none"], ["false"]]):
            with self.assertRaises(NoLibrary):
                make_library(f"{TOOLS}/refuse.c", f"{self.room}/refuse.so")

    def test_scripts_and_tests_that_are_swept_are_there(self):
        top = os.path.dirname(TOOLS)
        for it in refuse_growths.SCRIPTS:
            self.assertTrue(os.path.isfile(f"{top}/cases/{it}.txt"), it)
        for crate, tests in refuse_growths.TESTS.items():
            for it in tests:
                *modules, name = it.split("::")
                with open(f"{top}/crates/{crate}/src/{'/'.join(modules)}.rt", encoding="utf-8") as file:
                    self.assertIn(f"#[test]\nfn {name}(", file.read())


if __name__ == "__main__":
    unittest.main()
