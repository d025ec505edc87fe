"""Tests of how the gate counts what its steps write."""
import contextlib
import io
import os
import sys
import tempfile
import threading
import time
import unittest
from unittest import mock

sys.dont_write_bytecode = True
sys.path.insert(0, os.path.dirname(os.path.dirname(os.path.realpath(__file__))))

import gate_steps  # noqa: E402
from gate_steps import Step, case_steps, count_of_ci, count_of_last_line, count_of_refusals  # noqa: E402
from gate_steps import audit_steps, count_of_unittest, date_builds, folder_steps, mount_steps, part_of, refusal_steps, step, table  # noqa: E402

PROGRAM = "txnworld_cli"
CI = """\
== low
fn low::echo: proved
rt: low proved
must-fail low/halved.edit: refused, as it must be
tests: 2
test clock::pads ... ok
test result: ok. 2 passed; 0 failed

rt: app: its tests passed
test result: FAILED. 1 passed; 1 failed
rt: FAILED: other (tests)
3 passed, 1 failed
"""


def silently(call, *given):
    said = io.StringIO()
    said.buffer = io.BytesIO()
    with contextlib.redirect_stdout(said):
        return call(*given)


class Counts(unittest.TestCase):
    def test_last_line(self):
        self.assertEqual(count_of_last_line("1 passed, 7 failed\nmore\n12 passed, 3 failed\n"), (12, 3))
        self.assertEqual(count_of_last_line("12 passed, 3 failed\nbroken off\n"), (0, 1))
        self.assertEqual(count_of_last_line("rt: 12 passed, 3 failed\n"), (0, 1))
        self.assertEqual(count_of_last_line(""), (0, 1))

    def test_refusals(self):
        self.assertEqual(count_of_refusals("it: 2 refused, 0 odd\n314 refusals, 0 odd\n"), (314, 0))
        self.assertEqual(count_of_refusals("314 refusals, 2 odd\n"), (312, 2))
        self.assertEqual(count_of_refusals("0 refusals, 1 odd\n"), (0, 1))
        self.assertEqual(count_of_refusals("314 refusals, 0 odd\nbroken off\n"), (0, 1))

    def test_unittest(self):
        self.assertEqual(count_of_unittest("....\n---\nRan 34 tests in 0.3s\n\nOK\n"), (34, 0))
        self.assertEqual(count_of_unittest("Ran 2 tests in 0.3s\n\nOK (skipped=1)\n"), (1, 0))
        self.assertEqual(count_of_unittest("Ran 34 tests in 0.3s\n\nFAILED (failures=2, errors=1)\n"), (31, 3))
        self.assertEqual(count_of_unittest("Ran 0 tests in 0.0s\n\nOK\n"), (0, 1))
        self.assertEqual(count_of_unittest("Traceback\n"), (0, 1))

    def test_ci(self):
        self.assertEqual(count_of_ci(CI), ((3, 1), (3, 1)))

    def test_a_status_alone_is_a_failure(self):
        self.assertEqual(Step("a", 3, 0, 2).failed, 1)
        self.assertEqual(Step("a", 3, 2, 1).failed, 2)
        self.assertEqual(Step("a", 3, 0, 0).failed, 0)


class Steps(unittest.TestCase):
    def setUp(self):
        room = tempfile.TemporaryDirectory()
        self.addCleanup(room.cleanup)
        self.room = room.name

    def file(self, path, text="", mode=0o644):
        path = f"{self.room}/{path}"
        os.makedirs(os.path.dirname(path), exist_ok=True)
        with open(path, "w", encoding="utf-8") as file:
            file.write(text)
        os.chmod(path, mode)
        return path

    def test_a_step(self):
        found = silently(step, "a", ["sh", "-c", "echo here; echo '4 passed, 0 failed'"], self.room)
        self.assertEqual((found.passed, found.failed, found.status), (4, 0, 0))
        found = silently(step, "a", ["sh", "-c", "echo '4 passed, 0 failed'; exit 3"], self.room)
        self.assertEqual((found.passed, found.failed, found.status), (4, 1, 3))
        found = silently(step, "a", [f"{self.room}/none"], self.room)
        self.assertEqual((found.passed, found.failed, found.status), (0, 1, 127))

    def test_cases_on_both_builds(self):
        self.file("crates/low/src/lib.rt")
        self.file("crates/txnworld_cli/src/main.rt")
        self.file("tools/replay-cases", "#!/bin/sh\necho \"$(($# - 1)) passed, 0 failed\"\n", 0o755)
        steps = silently(lambda: list(case_steps(self.room, [PROGRAM])))
        self.assertEqual([(it.passed, it.failed) for it in steps], [(0, 2)])
        self.file("crates/txnworld_cli/out/txnworld_cli")
        steps = silently(lambda: list(case_steps(self.room, [PROGRAM])))
        self.assertEqual([(it.passed, it.failed) for it in steps], [(0, 1), (1, 0)])
        self.file("crates/txnworld_cli/out/txnworld_cli.by-rattle")
        steps = silently(lambda: list(case_steps(self.room, [PROGRAM])))
        self.assertEqual([(it.passed, it.failed) for it in steps], [(2, 0)])
        date_builds(self.room, 1000)
        self.assertEqual(os.stat(f"{self.room}/crates/txnworld_cli/out/txnworld_cli").st_mtime, 1000)
        gate_steps.remove_builds(self.room)
        self.assertEqual(os.listdir(f"{self.room}/crates/txnworld_cli/out"), [])

    def test_no_cases_on_another_program(self):
        self.file("tools/replay-cases", "#!/bin/sh\necho \"$(($# - 1)) passed, 0 failed\"\n", 0o755)
        for build in ("txnworld_cli", "txnworld_cli.by-rattle"):
            self.file(f"crates/txnworld_cli/out/{build}")
        self.file("crates/app/src/main.rt")
        self.file("crates/app/out/app")
        steps = silently(lambda: list(case_steps(self.room, ["app", PROGRAM])))
        self.assertEqual([(it.name, it.passed, it.failed) for it in steps], [("builds of app", 0, 1), ("cases", 2, 0)])
        self.file("crates/app/out/app.by-rattle")
        steps = silently(lambda: list(case_steps(self.room, ["app", PROGRAM])))
        self.assertEqual([it.name for it in steps], ["cases"])

    def test_the_cases_of_the_port(self):
        self.file("tools/replay-cases", "#!/bin/sh\necho \"$*\" > told\necho '3 passed, 0 failed'\n", 0o755)
        builds = [self.file(f"crates/txnport_cli/out/{it}") for it in ("txnport_cli", "txnport_cli.by-rattle")]
        steps = silently(lambda: list(case_steps(self.room, ["txnport_cli"])))
        self.assertEqual([(it.name, it.passed, it.failed) for it in steps], [("cases of the port", 3, 0)])
        with open(f"{self.room}/told", encoding="utf-8") as file:
            self.assertEqual(file.read(), f"{' '.join(builds)} --folder cases/port\n")

    def test_what_is_swept(self):
        self.file("tools/refuse-growths", "#!/bin/sh\necho \"$# refusals, 0 odd\"\n", 0o755)
        self.assertEqual(silently(lambda: list(refusal_steps(self.room, ["app"]))), [])
        self.file("crates/tests_world/src/lib.rt")
        steps = silently(lambda: list(refusal_steps(self.room, ["app"])))
        self.assertEqual([(it.name, it.passed, it.failed) for it in steps], [("refused growths", 1, 0)])
        steps = silently(lambda: list(refusal_steps(self.room, ["app", PROGRAM])))
        self.assertEqual([(it.passed, it.failed) for it in steps], [(3, 0)])

    def test_processes_of_a_build_that_passed(self):
        tool = "#!/bin/sh\nshift\necho \"$*\" > told\necho \"2 passed, $(cat fails) failed\"\n"
        self.file("tools/try-folder", tool, 0o755)
        for name in ("try_folder.py", "refuse_growths.py", "watch.c"):
            self.file(f"tools/{name}", "checks")
        build, short = self.file("crates/txnobj_cli/out/txnobj_cli", "one"), "--seconds 10\n"

        def told(fails, anew=False):
            self.file("fails", f"{fails}")
            with mock.patch.dict(os.environ, TENDRIFALO_CACHE=f"{self.room}/cache"):
                steps = silently(lambda: list(folder_steps(self.room, ["txnobj_cli"], anew)))
            self.assertEqual([(it.name, it.passed, it.failed) for it in steps], [("processes on a folder", 2, fails)])
            with open(f"{self.room}/told", encoding="utf-8") as file:
                return file.read()

        # (what failed is done again as long)
        self.assertEqual([told(1), told(0), told(0), told(0, anew=True)], ["\n", "\n", short, "\n"])
        self.file("tools/try_folder.py", "other checks")
        self.assertEqual([told(0), told(1), told(0)], ["\n", short, "\n"])
        self.file("crates/txnobj_cli/out/txnobj_cli", "two")
        self.assertEqual([told(0), told(0)], ["\n", short])
        os.remove(build)
        self.assertEqual(silently(lambda: list(folder_steps(self.room, ["txnobj_cli"]))), [])

    def test_processes_of_examples(self):
        self.file("tools/try-folder", "#!/bin/sh\nshift\necho \"$*\" > told\necho \"2 passed, 0 failed\"\n", 0o755)
        for name in ("try_folder.py", "refuse_growths.py", "watch.c"):
            self.file(f"tools/{name}", "checks")
        programs = ["example_counter", "example_leader", "txnobj_cli"]
        builds = [self.file(f"crates/{it}/out/{it}", "one") for it in programs]

        def told():
            with mock.patch.dict(os.environ, TENDRIFALO_CACHE=f"{self.room}/cache"):
                silently(lambda: list(folder_steps(self.room, programs)))
            with open(f"{self.room}/told", encoding="utf-8") as file:
                return file.read()

        given = f"--examples {builds[1]} {builds[0]}\n"
        self.assertEqual([told(), told()], [given, f"--seconds 10 {given}"])
        self.file("crates/example_counter/out/example_counter", "two")
        self.assertEqual([told(), told()], [given, f"--seconds 10 {given}"])
        os.remove(builds[0])
        self.assertEqual(told(), "\n")

    def test_processes_on_two_mounts(self):
        self.file("tools/try-mounts", "#!/bin/sh\n[ -d $1 ] && [ $1 = $2 ] && shift 2 && echo \"$*\" > told\necho '7 passed, 0 failed'\n", 0o755)
        self.assertEqual(silently(lambda: list(mount_steps(self.room, ["txnobj_cli"]))), [])
        build = self.file("crates/txnobj_cli/out/txnobj_cli", "one")
        steps = silently(lambda: list(mount_steps(self.room, ["txnobj_cli"])))
        self.assertEqual([(it.name, it.passed, it.failed) for it in steps], [("processes on two mounts", 7, 0)])
        with open(f"{self.room}/told", encoding="utf-8") as file:
            self.assertEqual(file.read(), f"--program {build} --seconds 3\n")
        self.assertEqual(silently(lambda: list(mount_steps(self.room, ["other"]))), [])

    def test_simulated_recordings(self):
        self.file("tools/try-audit", "#!/bin/sh\necho \"$*\" > told\necho '240 passed, 0 failed'\n", 0o755)
        self.assertEqual(silently(lambda: list(audit_steps(self.room, ["txnobj_cli"]))), [])
        build = self.file("crates/txnobj_cli/out/txnobj_cli", "one")
        steps = silently(lambda: list(audit_steps(self.room, ["txnobj_cli"])))
        self.assertEqual([(it.name, it.passed, it.failed) for it in steps], [("simulated recordings", 240, 0)])
        with open(f"{self.room}/told", encoding="utf-8") as file:
            self.assertEqual(file.read(), f"{build} --runs 200 --changed 40\n")

    def test_a_part(self):
        uses = {"base": [], "low": ["base"], "high": ["low"], "side": [], "tests_some": ["high", "low", "side"], "app": ["high"]}
        self.assertEqual(part_of(uses, ["base"]), {"base"})
        self.assertEqual(part_of(uses, ["low"]), {"base", "low", "high", "side", "tests_some"})
        self.assertEqual(part_of(uses, ["app"]), {"base", "low", "high", "app"})

    def run_command(self, *words, help="rt ci [--anew]"):
        """The status and the lines of the command in a small repository, in which each step says where it runs. `help`
        is the kit's."""
        self.file("repository/crates.txt", "# The crates.\nlow: bytes\nhigh: low\ntests_other: other\nother:\ntests_high: high\n")
        for name in ("low", "high", "other", "tests_other", "tests_high"):
            self.file(f"repository/crates/{name}/src/lib.rt")
            self.file(f"repository/crates/{name}/out/made")
        for name in ("low", "high"):
            self.file(f"repository/crates/{name}/wrong-bodies/first.edit")
        for it in ("HANDLES", "cases/a", "examples/a", "bindings/a"):
            self.file(f"repository/{it}")
        self.file("repository/tools/tests/test_one.py", "import unittest\nclass One(unittest.TestCase):\n  def test(self): pass\n")
        self.file("repository/tools/wrong-bodies", '#!/bin/sh\necho "edits of $*"\necho "4 passed, 0 failed"\n', 0o755)
        self.file("repository/tools/replay-cases", "#!/bin/sh\necho '8 passed, 0 failed'\n", 0o755)
        self.file("repository/tools/refuse-growths", "#!/bin/sh\necho \"swept $*\"\necho '9 refusals, 0 odd'\n", 0o755)
        says = 'echo "rt $*:" $(ls crates) $(find . -name made)\ngrep -v "#" crates.txt\necho "2 passed, 0 failed"\n'
        self.file("bin/rt", f'#!/bin/sh\n[ "$1" = help ] && echo "{help}" && exit\n{says}', 0o755)
        said = io.StringIO()
        said.buffer = io.BytesIO()
        path = f"{self.room}/bin{os.pathsep}{os.environ['PATH']}"
        with mock.patch.dict(os.environ, PATH=path), contextlib.redirect_stdout(said):
            status = gate_steps.main([*words], root=f"{self.room}/repository")
        return status, said.buffer.getvalue().decode() + said.getvalue()

    def test_some_crates_in_a_copy(self):
        status, said = self.run_command("low")
        self.assertEqual((status, said.split("\n")[-2]), (0, "7 passed, 0 failed"))
        self.assertIn("rt ci: low\nlow: bytes\n2 passed", said)
        self.assertIn("edits of low --after-ci\n", said)
        status, said = self.run_command("high", "--all", "--anew")
        self.assertIn("rt ci --anew: high low tests_high\nlow: bytes\nhigh: low\ntests_high: high\n2 passed", said)
        self.assertIn("edits of high --after-ci --all --anew\n", said)
        status, said = self.run_command("high", "--anew", help="rt ci")
        self.assertIn("rt ci: high low tests_high\n", said)
        status, said = self.run_command("tests_high", "low")
        self.assertIn("edits of low --after-ci\n", said)
        self.assertNotIn("edits of", self.run_command("tests_high")[1])
        self.assertEqual(self.run_command("high", "none"), (2, "crates.txt names no crate none\n0 passed, 1 failed\n"))

    def test_all_crates_where_they_are(self):
        status, said = self.run_command()
        self.assertEqual((status, said.split("\n")[-2]), (1, "16 passed, 10 failed"))
        for it in ("txnworld_cli", "txnport_cli", "txnobj_cli", "example_leader", "example_counter"):
            self.assertIn(f"FAILED: rt ci built no {it} and no {it}.by-rattle", said)
        self.assertIn("edits of --after-ci\n", said)
        self.assertRegex(said, "swept \\S+/out/txnworld_cli \\S+/out/txnworld_cli.by-rattle\n")
        self.assertEqual(said.count("/out/made"), 5)

    def test_a_whole_run_waits_for_another(self):
        came = []

        def come():
            with gate_steps.alone_in(self.room):
                came.append("second")

        said = io.StringIO()
        second = threading.Thread(target=come)
        with contextlib.redirect_stdout(said):
            with gate_steps.alone_in(self.room):
                second.start()
                while not said.getvalue():
                    time.sleep(0.01)
                came.append("first")
            second.join()
        self.assertEqual(came, ["first", "second"])
        self.assertEqual(said.getvalue(), "another run works in this checkout: this one waits for its end\n")

    def test_libraries_of_an_earlier_run_are_removed(self):
        for git in (".git", "its/own"):
            root = f"{self.room}/{git.replace('/', '_')}"
            at = os.path.relpath(root, self.room)
            here = self.file(f"{at}/crates/low/out/rlib/low.rlib/format")
            aside = self.file(f"{at}/{git}/rt-aside/low/rlib/low.rlib/format")
            kept = self.file(f"{at}/crates/low/out/incremental/one")
            self.file(f"{at}/crates/low/src/lib.rt")
            if git != ".git":
                self.file(f"{at}/.git", f"gitdir: {git}\n")
            gate_steps.remove_builds(root)
            self.assertEqual([os.path.exists(it) for it in (here, aside, kept)], [False, False, True])

    def test_texts_that_are_edited_meanwhile(self):
        self.file("crates.txt", "low:\nhigh: low\n")
        for name in ("low", "high"):
            self.file(f"crates/{name}/src/lib.rt", "one\n")
        texts = gate_steps.texts_by_crate(self.room)
        self.assertEqual(gate_steps.edited_since(self.room, texts), [])
        self.file("crates/low/README.md", "two\n")
        self.assertEqual(gate_steps.edited_since(self.room, texts), [])
        self.file("crates/low/specs/Two.antt", "two\n")
        found = silently(lambda: gate_steps.edited_since(self.room, texts))
        self.assertEqual([(it.name, it.passed, it.failed) for it in found], [("texts edited during rt ci", 0, 1)])

    def test_table(self):
        lines = list(table([Step("proofs", 20, 0, 0, 61.4, 200.6), Step("cases", 3, 1)]))
        self.assertEqual(lines[1], "proofs      20       0      61s       201s")
        self.assertEqual(len({len(it) for it in lines}), 1)


if __name__ == "__main__":
    unittest.main()
