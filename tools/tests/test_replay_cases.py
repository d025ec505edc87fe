"""Tests of the replay of cases, with small shell scripts for programs."""
import contextlib
import io
import os
import shutil
import sys
import tempfile
import unittest

sys.dont_write_bytecode = True
sys.path.insert(0, os.path.dirname(os.path.dirname(os.path.realpath(__file__))))

import replay_cases  # noqa: E402


class Replays(unittest.TestCase):
    def setUp(self):
        room = tempfile.TemporaryDirectory()
        self.addCleanup(room.cleanup)
        self.room = room.name
        os.makedirs(f"{self.room}/cases/topic")
        self.program = self.script("echoes", 'echo "$*"; cat')

    def script(self, name, text):
        path = f"{self.room}/{name}"
        with open(path, "w", encoding="utf-8") as file:
            file.write(f"#!/bin/sh\n{text}\n")
        os.chmod(path, 0o755)
        return path

    def case(self, name, **files):
        for ending, text in files.items():
            with open(f"{self.room}/cases/topic/{name}.{ending}", "wb") as file:
                file.write(text)

    def replay(self, *programs):
        said = io.StringIO()
        with contextlib.redirect_stdout(said):
            status = replay_cases.main([*(programs or [self.program]), "--folder", f"{self.room}/cases"])
        lines = said.getvalue().splitlines()
        return status, lines[-1], "\n".join(lines[:-1])

    def test_output_and_words(self):
        self.case("one", txt=b"a\n", stdout=b"script\na\n")
        self.case("two", txt=b"b\n", stdout=b"serve it\nb\n", args=b"serve\nit\n")
        self.assertEqual(self.replay(), (0, "2 passed, 0 failed", ""))

    def test_listed_scripts_are_played(self):
        explores = self.script("explores", 'if [ "$1" = explore ]; then cat > /dev/null; cat "$(dirname "$0")/cases/topic/one.stdout"; else sed s/a/b/; fi')
        for printed, last in ((b"b\nc\n", "1 passed, 0 failed"), (b"a\nc\n", "0 passed, 1 failed")):
            self.case("one", txt=b"q\n", stdout=b"states 1\n\noutcome 1\n\na\nc\n\n" + printed, args=b"explore\n")
            self.assertEqual(self.replay(explores)[1], last)
        self.case("one", txt=b"q\n", stdout=b"states 1\n\noutcome 1\n", args=b"explore\n")
        self.assertEqual(self.replay(explores)[1], "0 passed, 1 failed")

    def test_a_table_of_bad_lines(self):
        bad = self.script("bad", 'n=0; while read -r it; do n=$((n + 1)); case $it in bad*) echo "line $n: bad line" >&2; exit 2;; esac; done')
        for name, text in (("first", b"one: bad\n"), ("second", b"two: bad: 2\nthree: well\n")):
            with open(f"{self.room}/cases/topic/{name}.table", "wb") as file:
                file.write(text)
        status, last, said = self.replay(bad)
        self.assertEqual((status, last), (1, "2 passed, 1 failed"))
        self.assertIn("topic/second.table:three on bad", said)
        with open(f"{self.room}/cases/topic/second.table", "wb") as file:
            file.write(b"bad\n")
        self.assertEqual(self.replay(bad)[1], "1 passed, 1 failed")

    def test_each_program(self):
        self.case("one", txt=b"a\n", stdout=b"script\na\n")
        status, last, said = self.replay(self.program, self.script("silent", ":"))
        self.assertEqual((status, last), (1, "1 passed, 1 failed"))
        self.assertIn("topic/one.txt on silent", said)
        self.assertIn("-script\\n", said)

    def test_bytes_are_compared(self):
        self.case("one", txt=b"a", stdout=b"script\na\n")
        status, last, said = self.replay()
        self.assertEqual(last, "0 passed, 1 failed")
        self.assertIn("-a\\n", said)
        self.assertIn("+a", said)

    def test_status_and_standard_error(self):
        program = self.script("refuses", "echo no >&2; exit 3")
        self.case("one", txt=b"", stdout=b"", stderr=b"no\n", status=b"3\n")
        self.assertEqual(self.replay(program)[:2], (0, "1 passed, 0 failed"))
        self.case("two", txt=b"", stdout=b"")
        status, last, said = self.replay(program)
        self.assertEqual(last, "1 passed, 1 failed")
        self.assertIn("standard error:", said)
        self.assertIn("exit status:", said)
        self.case("two", txt=b"", stdout=b"", status=b"three")
        self.assertIn("no number", self.replay(program)[2])

    def test_drawings(self):
        picture = "<svg><text class='mu' x='14' y='9'><tspan>%s</tspan><tspan x='14' dy='14'></tspan></text>\\n<g transform='none'/></svg>"
        as_text = """if [ "$1" = picture ]; then printf "%s"; exit; fi; echo "$1"; echo; """
        program = self.script("draws", as_text % (picture % "boundary 0") + 'echo "boundary 0"')
        self.case("one", txt=b"", stdout=b"script\n\nboundary 0\n")
        drawn = lambda: self.replay(program, "--drawn")  # noqa: E731
        self.assertEqual(drawn()[:2], (0, "1 passed, 0 failed"))
        self.case("one", trace=b"other\n\nboundary 0\n")
        self.assertIn("standard output of its drawing:", drawn()[2])
        self.case("one", trace=b"trace\n\nboundary 0\n")
        self.assertEqual(drawn()[:2], (0, "1 passed, 0 failed"))
        self.case("one", svg=b"<svg/>")
        self.assertIn("standard output of its picture:", drawn()[2])
        os.remove(f"{self.room}/cases/topic/one.svg")
        program = self.script("draws", as_text % (picture % "boundary 0") + '[ "$1" = trace ] && echo "boundary 1" || echo "boundary 0"')
        self.assertIn("foot of its drawing:", drawn()[2])
        program = self.script("draws", as_text % (picture % "boundary 1") + 'echo "boundary 0"')
        self.assertIn("foot of its picture:", drawn()[2])
        self.assertEqual(self.replay(program)[:2], (0, "1 passed, 0 failed"))

    @unittest.skipUnless(shutil.which("xmllint"), "xmllint is not installed")
    def test_pictures_are_xml(self):
        self.assertEqual(replay_cases.xml_faults(b"<svg/>"), [])
        self.assertIn("Premature end", replay_cases.xml_faults(b"<svg>")[0])

    def test_files_without_the_other(self):
        self.case("one", txt=b"a\n", stdout=b"script\na\n")
        self.case("two", txt=b"a\n")
        self.case("three", stdout=b"a\n")
        status, last, said = self.replay()
        self.assertEqual((status, last), (1, "1 passed, 2 failed"))
        self.assertIn("two.txt has no .stdout", said)
        self.assertIn("three.stdout has no .txt", said)

    def test_the_cases_of_another_program(self):
        room = f"{self.room}/cases"
        self.case("one", txt=b"a\n", stdout=b"script\na\n")
        os.makedirs(f"{room}/port/deep")
        for name in ("port/two", "port/deep/three"):
            for ending in ("txt", "stdout"):
                with open(f"{room}/{name}.{ending}", "wb"):
                    pass
        stems = ([f"{room}/topic/one"], [])
        self.assertEqual(replay_cases.stems_in(room, [f"{room}/port"]), stems)
        self.assertEqual(len(replay_cases.stems_in(room)[0]), 3)
        self.assertEqual(replay_cases.stems_in(f"{room}/port", [f"{room}/port"])[0], [f"{room}/port/deep/three", f"{room}/port/two"])
        top = os.path.dirname(os.path.dirname(os.path.dirname(os.path.realpath(__file__))))
        self.assertTrue(replay_cases.stems_in(f"{top}/{replay_cases.PORT}")[0])
        others = [f"{top}/{it}" for it in (replay_cases.PORT, replay_cases.RECORDINGS)]
        self.assertEqual(replay_cases.stems_in(f"{top}/cases", others)[1], [])

    def test_no_case(self):
        self.assertEqual(self.replay()[:2], (1, "0 passed, 1 failed"))

    def test_a_program_that_does_not_end_or_is_not_there(self):
        self.case("one", txt=b"", stdout=b"")
        limit, replay_cases.SECONDS = replay_cases.SECONDS, 0.2
        try:
            self.assertIn("had not ended", self.replay(self.script("sleeps", "exec sleep 5"))[2])
        finally:
            replay_cases.SECONDS = limit
        self.assertIn("cannot be run", self.replay(f"{self.room}/none")[2])


if __name__ == "__main__":
    unittest.main()
