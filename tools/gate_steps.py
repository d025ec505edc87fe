"""The steps of tools/gate: runs each, shows what it writes, and counts what passed."""
from __future__ import annotations

import argparse
import contextlib
import fcntl
import glob
import os
import re
import shutil
import signal
import subprocess
import sys
import tempfile
import time
from dataclasses import dataclass

from crate_copies import all_below, crates_listed, lines_of_crates, texts_of
from kept_verdicts import MOST_SHEETS, cache_folder, remove_old, sum_of, sum_of_file
from refuse_growths import TESTS as SWEPT
from refuse_growths import TESTS_ENDING
from replay_cases import PORT

# How the names of the two builds of a program end that `rt ci` leaves in its out/: LLVM's, and Rattle's own compiler's.
BUILDS = ("", ".by-rattle")
# The program whose scripts the cases are, and the programs that cases are replayed on, each with the name of the step and the
# other words. What any other prints, `rt ci` holds against its own stdout.
PROGRAM_OF_CASES = "txnworld_cli"
CASES = {PROGRAM_OF_CASES: ("cases", ["--drawn"]), "txnport_cli": ("cases of the port", ["--folder", PORT])}
# The program of which processes are let work on one folder, and the examples of the library, which work there too.
PROGRAM_OF_FOLDERS = "txnobj_cli"
EXAMPLES = ("example_leader", "example_counter")
# For how many seconds processes of a program are killed that passed this on this machine before, and, as on two mounts, on one
# folder that is given twice.
SECONDS_AGAIN = 10
SECONDS_ON_MOUNTS = 3
# How many runs of a simulator are audited, and how many with one fact changed.
RUNS, RUNS_CHANGED = 200, 40
# The crate of the C library.
CRATE_OF_BINDINGS = "txnobj_c"
# How the name of a crate of tests begins.
TESTS = "tests_"
LAST_LINE = re.compile(r"(\d+) passed, (\d+) failed")
TESTS_LINE = re.compile(r"^test result: \w+\. (\d+) passed; (\d+) failed", re.M)
REFUSALS_LINE = re.compile(r"(\d+) refusals, (\d+) odd")


@dataclass
class Step:
    """A step that ended: how many it counted, its status, and its seconds of real and of processor time."""

    name: str
    passed: int
    failed: int
    status: int = 0
    real: float = 0.0
    processor: float = 0.0

    def __post_init__(self):
        if self.status and not self.failed:
            self.failed = 1


def say(text):
    print(text, flush=True)


def run_and_show(words, folder):
    """Runs a command, shows its lines as they come, and returns its status, its text and both its times."""
    started = time.monotonic()
    environment = {**os.environ, "PYTHONDONTWRITEBYTECODE": "1"}
    how = {"stdin": subprocess.DEVNULL, "stdout": subprocess.PIPE, "stderr": subprocess.STDOUT, "env": environment}
    try:
        process = subprocess.Popen(words, cwd=folder, **how)
    except OSError as error:
        say(f"{words[0]} cannot be run: {error.strerror}")
        return 127, "", 0.0, 0.0
    lines = []
    try:
        with process.stdout:
            for line in process.stdout:
                sys.stdout.buffer.write(line)
                sys.stdout.flush()
                lines.append(line.decode(errors="replace"))
    except BaseException:
        # (what ends this command ends its step too)
        process.terminate()
        process.wait()
        raise
    _, status, used = os.wait4(process.pid, 0)
    process.returncode = os.WEXITSTATUS(status) if os.WIFEXITED(status) else 128 + os.WTERMSIG(status)
    return process.returncode, "".join(lines), time.monotonic() - started, used.ru_utime + used.ru_stime


def last_line_of(text):
    return text.rstrip("\n").split("\n")[-1]


def count_of_last_line(text):
    """What a last line 'N passed, M failed' counts, or one failure where the text has no such last line."""
    found = LAST_LINE.fullmatch(last_line_of(text))
    return (int(found[1]), int(found[2])) if found else (0, 1)


def count_of_refusals(text):
    """How many refused growths a last line 'N refusals, M odd' counts as ended well, and how many as odd."""
    found = REFUSALS_LINE.fullmatch(last_line_of(text))
    return (max(0, int(found[1]) - int(found[2])), int(found[2])) if found else (0, 1)


def count_of_unittest(text):
    """What Python's unittest counts."""
    ran = re.findall(r"^Ran (\d+) tests? in ", text, re.M)
    if not ran or not int(ran[-1]):
        return 0, 1
    count = lambda kinds: sum(map(int, re.findall(rf"(?:{kinds})=(\d+)", last_line_of(text))))  # noqa: E731
    bad = count("failures|errors|unexpected successes")
    return max(0, int(ran[-1]) - bad - count("skipped")), bad


def count_of_ci(text):
    """What `rt ci` counts, the proofs and the programs, and beside it the tests that it ran."""
    tests = [(int(passed), int(failed)) for passed, failed in TESTS_LINE.findall(text)]
    return count_of_last_line(text), (sum(it[0] for it in tests), sum(it[1] for it in tests))


def programs_in(root):
    """The names of the crates that are programs."""
    crates = sorted(os.listdir(f"{root}/crates"))
    return [it for it in crates if os.path.isfile(f"{root}/crates/{it}/src/main.rt")]


def builds_of(root, program):
    return [f"{root}/crates/{program}/out/{program}{ending}" for ending in BUILDS]


def git_folder(root):
    """The folder that git keeps of this checkout, which a file names where the checkout is one of several."""
    git = f"{root}/.git"
    if os.path.isfile(git):
        with open(git, encoding="utf-8", errors="replace") as file:
            git = os.path.join(root, file.read().strip().removeprefix("gitdir: "))
    return git


def remove_builds(root):
    """Removes the programs that an earlier run left, so that none of them stands for what this run builds, and the
    libraries: `rt ci` sets these aside, and at its end gives them back in place of those that it built."""
    for program in programs_in(root):
        for build in builds_of(root, program):
            if os.path.isfile(build):
                os.remove(build)
    for it in (f"{glob.escape(root)}/crates/*/out/rlib", f"{glob.escape(git_folder(root))}/rt-aside/*/rlib"):
        for folder in glob.glob(it):
            shutil.rmtree(folder)


def texts_by_crate(root):
    """What the checks read of each crate."""
    return {it: texts_of(f"{root}/crates/{it}") for it in sorted(crates_listed(root))}


def edited_since(root, texts):
    """The step that fails where a text is no longer as it was: what follows would be tried over libraries of other texts."""
    now = texts_by_crate(root)
    edited = sorted(it for it in {**texts, **now} if texts.get(it) != now.get(it))
    for it in edited:
        say(f"FAILED: a text of {it} was edited while rt ci ran: run this again")
    return [Step("texts edited during rt ci", 0, len(edited))] * bool(edited)


def date_builds(root, began):
    """Gives the builds the time at which their run began, so that a source which was edited meanwhile is newer."""
    for build in (it for program in programs_in(root) for it in builds_of(root, program)):
        if os.path.isfile(build):
            os.utime(build, (began, began))


def step(name, words, root, count=count_of_last_line):
    """Runs a step and counts by what it writes."""
    say(f"== {name}")
    status, text, real, processor = run_and_show(words, root)
    return Step(name, *count(text), status, real, processor)


def words_of_ci(anew):
    """The command that proves all, also what the kit kept of earlier runs where it is `anew`. A kit whose help has no
    such flag keeps none."""
    how = {"stdin": subprocess.DEVNULL, "stdout": subprocess.PIPE, "stderr": subprocess.STDOUT}
    keeps = anew and b"--anew" in subprocess.run(["rt", "help"], check=False, **how).stdout
    return ["rt", "ci", *["--anew"] * keeps]


def ci_steps(root, anew=False):
    """Runs `rt ci`, as the step of its proofs, and the tests that it ran as one without a time of its own."""
    say("== rt ci")
    remove_builds(root)
    began = time.time()
    status, text, real, processor = run_and_show(words_of_ci(anew), root)
    date_builds(root, began)
    proofs, tests = count_of_ci(text)
    return [Step("proofs and programs", *proofs, status, real, processor), Step("tests (within rt ci)", *tests)]


def case_steps(root, programs):
    """Looks for the builds of these programs, and replays the cases on those of theirs. A build that was not made is a
    failure."""
    for program in programs:
        made = [it for it in builds_of(root, program) if os.path.isfile(it)]
        lacking = [os.path.basename(it) for it in builds_of(root, program) if it not in made]
        if lacking:
            say(f"FAILED: rt ci built no {' and no '.join(lacking)}")
            yield Step(f"builds of {program}", 0, len(lacking), 1)
        if made and program in CASES:
            name, folders = CASES[program]
            yield step(name, [f"{root}/tools/replay-cases", *made, *folders], root)


def refusal_steps(root, programs):
    """Refuses each growth of what these programs and the crates of this folder leave to be swept, where they leave some."""
    builds = builds_of(root, PROGRAM_OF_CASES) if PROGRAM_OF_CASES in programs else []
    tests = [it for it in SWEPT if os.path.isdir(f"{root}/crates/{it}")]
    builds += [f"{root}/crates/{it}/out/{it}{TESTS_ENDING}" for it in tests]
    if builds:
        yield step("refused growths", [f"{root}/tools/refuse-growths", *builds], root, count_of_refusals)


def mark_of_folders(root, builds):
    """The file that says that these builds passed on a folder on this machine, as tools/try-folder now is; "" where nothing is
    kept."""
    folder, tools = cache_folder(os.environ), f"{root}/tools"
    tool = [f"{tools}/{it}" for it in ("try-folder", "refuse_growths.py", "watch.c")] + sorted(glob.glob(f"{tools}/try_folder*.py"))
    return folder and f"{folder}/processes/{sum_of(*map(sum_of_file, [*builds, *tool]))[:40]}"


def keep_mark(mark, is_passed):
    """Makes a file that says that something passed, or removes it; where none can be made, all of it is done again."""
    with contextlib.suppress(OSError):
        if not is_passed:
            os.remove(mark)
            return
        os.makedirs(os.path.dirname(mark), mode=0o700, exist_ok=True)
        with open(mark, "w", encoding="utf-8"):
            os.utime(mark)
        remove_old(os.path.dirname(mark), MOST_SHEETS)


def folder_steps(root, programs, anew=False):
    """Lets processes of the program, and of the examples, work on one folder at once, where LLVM's build of it was made, and for
    less long where just these builds did so before."""
    build = builds_of(root, PROGRAM_OF_FOLDERS)[0]
    if PROGRAM_OF_FOLDERS in programs and os.path.isfile(build):
        examples = [builds_of(root, it)[0] for it in EXAMPLES if it in programs]
        with_examples = ["--examples", *examples] * (len(examples) == len(EXAMPLES) and all(map(os.path.isfile, examples)))
        mark = mark_of_folders(root, [build, *with_examples[1:]])
        again = not anew and os.path.isfile(mark)
        if again:
            say(f"this build passed on this machine before: processes are killed for {SECONDS_AGAIN} seconds")
        how_long = ["--seconds", f"{SECONDS_AGAIN}"] * again
        done = step("processes on a folder", [f"{root}/tools/try-folder", build, *how_long, *with_examples], root)
        if mark:
            keep_mark(mark, not done.failed)
        yield done


def mount_steps(root, programs):
    """Lets processes of the program work on one folder as by two mounts, where LLVM's build of it was made."""
    build = builds_of(root, PROGRAM_OF_FOLDERS)[0]
    if PROGRAM_OF_FOLDERS in programs and os.path.isfile(build):
        with tempfile.TemporaryDirectory(prefix="mounts-") as folder:
            how = ["--program", build, "--seconds", f"{SECONDS_ON_MOUNTS}"]
            yield step("processes on two mounts", [f"{root}/tools/try-mounts", folder, folder, *how], root)


def audit_steps(root, programs):
    """Has the program audit random runs of a simulator, where LLVM's build of it was made."""
    build = builds_of(root, PROGRAM_OF_FOLDERS)[0]
    if PROGRAM_OF_FOLDERS in programs and os.path.isfile(build):
        yield step("simulated recordings", [f"{root}/tools/try-audit", build, "--runs", f"{RUNS}", "--changed", f"{RUNS_CHANGED}"], root)


def binding_steps(root):
    """Builds the C library, where its crate is, and runs what tests it from other languages."""
    if os.path.isdir(f"{root}/crates/{CRATE_OF_BINDINGS}"):
        yield step("bindings", [f"{root}/tools/try-bindings"], root)


def table(steps):
    """The steps as lines: counts, real time and processor time."""
    width = max(len(it.name) for it in steps)
    yield f"{'step':{width}}  passed  failed     real  processor"
    for it in steps:
        yield f"{it.name:{width}}  {it.passed:6}  {it.failed:6}  {it.real:6.0f}s  {it.processor:8.0f}s"


def part_of(uses, names):
    """The crates that are tried with these: those below, the crates of tests that name one, and those below these."""
    tops = {*names, *(it for it, below in uses.items() if it.startswith(TESTS) and {*below} & {*names})}
    return tops | {below for it in tops for below in all_below(it, uses)}


@contextlib.contextmanager
def alone_in(root):
    """The repository itself, where no other whole run works: what one makes there, another would set aside."""
    folder = os.open(root, os.O_RDONLY)
    try:
        try:
            fcntl.flock(folder, fcntl.LOCK_EX | fcntl.LOCK_NB)
        except BlockingIOError:
            say("another run works in this checkout: this one waits for its end")
            fcntl.flock(folder, fcntl.LOCK_EX)
        yield root
    finally:
        os.close(folder)


@contextlib.contextmanager
def copied(root, names):
    """A copy of the repository with these crates alone, as they now stand, without what was made of them."""
    with tempfile.TemporaryDirectory(prefix="test-") as room:
        top = f"{room}/{os.path.basename(root)}"
        for it in ("tools", "cases", "examples", "bindings", *(f"crates/{name}" for name in sorted(names))):
            shutil.copytree(f"{root}/{it}", f"{top}/{it}", symlinks=True, ignore=shutil.ignore_patterns("out"))
        shutil.copy2(f"{root}/HANDLES", top)
        with open(f"{top}/crates.txt", "w", encoding="utf-8") as file:
            file.writelines(lines_of_crates(root, names))
        yield top


def steps_of(root, top, given):
    """Runs the steps of the command and yields them: the tests of the tools in the repository, and the others in the
    folder `top`, which has all crates or those that are given."""
    anew, every = ["--anew"] * given.anew, ["--all"] * given.all
    unit_tests = [sys.executable, "-m", "unittest", "discover", "-s", "tools/tests"]
    yield step("tests of the tools", unit_tests, root, count_of_unittest)
    texts = texts_by_crate(top)
    yield from ci_steps(top, given.anew)
    edited = edited_since(top, texts)
    yield from edited
    with_edits = [it for it in given.crates if os.path.isdir(f"{top}/crates/{it}/wrong-bodies")]
    if not edited and (with_edits or not given.crates):
        yield step("wrong bodies", [f"{top}/tools/wrong-bodies", *with_edits, "--after-ci", *every, *anew], top)
    programs = programs_in(top) if given.crates else sorted({*programs_in(top), *CASES, PROGRAM_OF_FOLDERS, *EXAMPLES})
    yield from case_steps(top, programs)
    yield from refusal_steps(top, programs)
    yield from folder_steps(top, programs, given.anew)
    yield from mount_steps(top, programs)
    yield from audit_steps(top, programs)
    yield from binding_steps(top)


def arguments_of(words, usage):
    form = argparse.RawDescriptionHelpFormatter
    how = {"prog": "./test", "usage": "./test [CRATE..] [--all] [--anew]", "formatter_class": form}
    parser = argparse.ArgumentParser(description=usage.replace("usage: ./test [CRATE..] [--all] [--anew]\n\n", ""), **how)
    parser.add_argument("crates", nargs="*", metavar="CRATE", help="only these crates and what their tests take")
    parser.add_argument("--all", action="store_true", help="every wrong body, also those of wrong-bodies/more")
    parser.add_argument("--anew", action="store_true", help="also what passed before on this machine")
    return parser.parse_args(words)


def main(words, usage="", root=os.path.dirname(os.path.dirname(os.path.realpath(__file__)))):
    """Runs the steps and returns the exit status."""
    given = arguments_of(words, usage)
    signal.signal(signal.SIGTERM, lambda *_: sys.exit(128 + signal.SIGTERM))
    uses = crates_listed(root)
    unknown = [it for it in given.crates if it not in uses]
    if unknown:
        say(f"crates.txt names no crate {', '.join(unknown)}")
        say(f"0 passed, {len(unknown)} failed")
        return 2
    with copied(root, part_of(uses, given.crates)) if given.crates else alone_in(root) as top:
        steps = list(steps_of(root, top, given))
    say("")
    for line in table(steps):
        say(line)
    failed = sum(it.failed for it in steps)
    say(f"{sum(it.passed for it in steps)} passed, {failed} failed")
    return 1 if failed or any(it.status for it in steps) else 0
