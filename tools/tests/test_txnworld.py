"""Tests of the script txnworld in a small repository, with a shell script in place of `rt`."""
import os
import shutil
import subprocess
import sys
import tempfile
import time
import unittest

sys.dont_write_bytecode = True
TOP = os.path.dirname(os.path.dirname(os.path.dirname(os.path.realpath(__file__))))

# As `rt try` it tells of a program that ends with 3, or of none where it is asked for `endless`; as `rt run` it builds one.
RT = """\
#!/bin/sh
echo "rt $* in $(basename "$PWD")" >> "$CALLS"
if [ "$1" = run ]; then
  mkdir -p out
  printf '#!/bin/sh\\necho "proved $*: $(cat)"\\nexit 4\\n' > out/txnworld_cli
  chmod +x out/txnworld_cli
  cat > /dev/null
  echo first
elif [ "$3" = endless ]; then
  echo "checked: no-answer: too long" >&2
  echo "run=no-answer proved=no" >&2
  exit 6
else
  echo "tried $*: $(cat)"
  printf 'of the program\\nchecked: ended status=3\\nraces: not looked for\\nrun=ended status=3 runners=1 proved=no\\n' >&2
  exit 3
fi
"""


class Calls(unittest.TestCase):
    def setUp(self):
        room = tempfile.TemporaryDirectory()
        self.addCleanup(room.cleanup)
        self.room = room.name
        self.file("bin/rt", RT, 0o755)
        self.file("top/crates.txt", "# The crates.\nlow: bytes\ntxnworld_cli: high\nother: low\nhigh: low # a note\n")
        for name in ("low", "high", "other", "txnworld_cli"):
            self.file(f"top/crates/{name}/src/lib.rt")
        self.file("top/crates/low/proofs/Sums.antt")
        self.file("top/HANDLES")
        self.file("top/examples/first-run.txt", "script")
        self.file("top/examples/first-run.stdout", "first\n")
        shutil.copy2(f"{TOP}/txnworld", f"{self.room}/top/txnworld")

    def file(self, path, text="", mode=0o644):
        path = f"{self.room}/{path}"
        os.makedirs(os.path.dirname(path), exist_ok=True)
        with open(path, "w", encoding="utf-8") as file:
            file.write(text)
        os.chmod(path, mode)

    def call(self, *words):
        """The status, what it prints, its lines on standard error, and the calls of `rt`."""
        calls = f"{self.room}/calls"
        open(calls, "w").close()
        given = {**os.environ, "PATH": f"{self.room}/bin{os.pathsep}{os.environ['PATH']}", "CALLS": calls}
        how = {"input": "line", "capture_output": True, "text": True, "env": given}
        ran = subprocess.run([f"{self.room}/top/txnworld", *words], **how)
        with open(calls, encoding="utf-8") as file:
            return ran.returncode, ran.stdout, ran.stderr.splitlines(), file.read().splitlines()

    def is_run_proved(self):
        return self.call("script")[1].startswith("proved")

    def test_unproved_where_nothing_is_built(self):
        status, printed, said, calls = self.call("script", "a b")
        self.assertEqual((status, printed), (3, "tried try -- script a b: line\n"))
        self.assertEqual(said[2:], ["of the program"])
        self.assertIn("not of a proved build", said[0])
        self.assertIn("./txnworld build", said[1])
        self.assertEqual(calls, ["rt try -- script a b in txnworld_cli"])

    def test_no_answer(self):
        status, printed, said, _ = self.call("endless")
        self.assertEqual((status, printed), (125, ""))
        self.assertIn("run ./txnworld build first", said[-1])

    def test_the_build_answers_at_once(self):
        status, _, said, calls = self.call("build")
        self.assertEqual((status, calls), (0, ["rt run -- script in txnworld_cli"]))
        self.assertIn("proving and building 3 crates", said[0])
        self.assertEqual(self.call("script", "a b"), (4, "proved script a b: line\n", [], []))

    def test_a_build_that_prints_otherwise(self):
        self.file("top/examples/first-run.stdout", "second\n")
        self.assertEqual(self.call("build")[0], 125)

    def test_a_newer_source(self):
        self.call("build")
        later = time.time() + 9
        for path, is_proved in (("other/src/lib.rt", True), ("low/proofs/Sums.antt", False)):
            os.utime(f"{self.room}/top/crates/{path}", (later, later))
            self.assertEqual(self.is_run_proved(), is_proved)

    def test_a_source_edited_while_it_was_built(self):
        edit = f"touch {self.room}/top/crates/high/src/lib.rt\nsleep 0.1\n"
        self.file("bin/rt", RT.replace("  mkdir -p out\n", f"  {edit}  mkdir -p out\n"), 0o755)
        self.call("build")
        self.assertFalse(self.is_run_proved())
        self.file("bin/rt", RT, 0o755)
        self.call("build")
        self.assertTrue(self.is_run_proved())

    def test_a_source_that_was_removed(self):
        self.call("build")
        time.sleep(0.01)
        os.remove(f"{self.room}/top/crates/low/proofs/Sums.antt")
        self.assertFalse(self.is_run_proved())


if __name__ == "__main__":
    unittest.main()
