"""The command tools/refuse-growths: runs programs, of which one allocation is refused in each run, and holds what each run
writes against what it may write."""
from __future__ import annotations

import argparse
import functools
import os
import re
import subprocess
import sys
import tempfile
from dataclasses import dataclass

SECONDS = 60
# More allocations than any of these programs makes: one that still makes some is not swept to its end.
MOST = 20_000
# After so many odd runs a sweep ends.
MOST_ODD = 5

# The scripts that a program plays, below cases/.
SCRIPTS = (
    "views/an_update_that_failed_after_its_effect",
    "views/an_update_that_the_boundary_reached_before_its_check",
    "views/an_update_lands_after_its_client_crashed",
    "holders/a_claim_that_lands_later",
    "manifest/a_sweep_of_what_is_needed",
)
# The tests that hold whichever growth is refused, by the crate whose tests they are.
TESTS = {
    "tests_slatedb_txn_obj": (
        "tests::refused::a_refused_growth_leaves_what_was",
        "tests::stores::what_is_pinned_stays_whichever_growth_is_refused",
    ),
    "tests_world": ("tests::refused::a_refused_event_is_taken_again", "tests::growths::audits_agree_whichever_growth_is_refused"),
}
# How the name of a build of tests ends, after its crate's.
TESTS_ENDING = "_tests"

NO_MEMORY = "no memory\n"
LACKING = "refused 9 NoMemory"
FAILED = "refused 2 ObjectStoreError"


class NoLibrary(Exception):
    """Why there is no library that refuses."""


def say(text):
    print(text, flush=True)


@dataclass(frozen=True)
class Ran:
    """How a run ended, and what it wrote."""

    status: int
    out: str
    err: str

    def __str__(self):
        return f"status {self.status}\n    " + "\n    ".join([*self.out.splitlines(), *self.err.splitlines()])


def compilers():
    """The compilers that may make the library: the kit's, and then the machine's own."""
    try:
        page = subprocess.run(["rt", "doc"], capture_output=True, text=True, check=True).stdout.strip()
    except (OSError, subprocess.CalledProcessError):
        page = ""
    return [[f"{os.path.dirname(page)}/toolchain/bin/clang", "-fuse-ld=lld"], ["cc"]]


def make_library(source, to):
    """Compiles the library that refuses, and returns its path."""
    said = []
    for compiler in compilers():
        try:
            words = [*compiler, "-O2", "-fPIC", "-shared", "-nostdlib", "-o", to, source]
            ran = subprocess.run(words, capture_output=True, text=True, errors="replace")
        except OSError as error:
            said.append(f"{compiler[0]}: {error.strerror}")
            continue
        if not ran.returncode:
            return to
        said.append(ran.stderr.strip())
    raise NoLibrary("\n".join(said))


class Player:
    """Runs programs in which the library refuses an allocation."""

    def __init__(self, library=""):
        self.library = library

    def run(self, words, given="", nth=0):
        """Runs a program on this input, its nth allocation refused, none where nth is 0. Returns how it ended, and whether
        one was refused."""
        reader, writer = os.pipe()
        told = {"REFUSED_ALLOCATION": str(nth), "REFUSED_TO": str(writer)}
        environment = {"PATH": os.environ.get("PATH", ""), "LD_PRELOAD": self.library, **told}
        how = {"capture_output": True, "pass_fds": [writer], "env": environment, "timeout": SECONDS}
        # (what the program left running may hold the other end)
        os.set_blocking(reader, False)
        with os.fdopen(reader, "rb") as refusals:
            try:
                ended = subprocess.run(words, input=given.encode(), **how)
                ran = Ran(ended.returncode, *(it.decode(errors="replace") for it in (ended.stdout, ended.stderr)))
            except subprocess.TimeoutExpired:
                ran = Ran(-1, "", f"it had not ended after {SECONDS} seconds")
            finally:
                os.close(writer)
            return ran, bool(refusals.read())


class Test:
    """A test, which says itself whether it holds."""

    unmet = frozenset()

    def __init__(self, player, program, name):
        self.player, self.words, self.name = player, [program, name], name

    def run(self, nth):
        return self.player.run(self.words, nth=nth)

    def is_well(self, ran):
        """Whether it ended as with ample memory."""
        return ran.status == 0 and ran.out.endswith("\ntest result: ok\n")

    def is_allowed(self, ran):
        """Whether it may end so where a growth was refused."""
        return self.is_well(ran)


class Script:
    """A script, and what may come of it where a growth is refused."""

    def __init__(self, player, program, stem):
        self.player, self.program, self.name = player, program, os.path.basename(stem)
        self.arguments = ["script"]
        self.unmet = {NO_MEMORY}
        if os.path.isfile(f"{stem}.args"):
            with open(f"{stem}.args", encoding="utf-8") as file:
                self.arguments = file.read().splitlines()
        with open(f"{stem}.txt", encoding="utf-8") as file:
            self.lines = file.read().splitlines()
        with open(f"{stem}.stdout", encoding="utf-8") as file:
            self.wanted = Ran(0, file.read(), "")

    def run(self, nth):
        return self.played(self.lines, nth)

    def played(self, lines, nth=0):
        return self.player.run([self.program, *self.arguments], "".join(f"{it}\n" for it in lines), nth)

    def is_well(self, ran):
        return ran == self.wanted

    def is_allowed(self, ran):
        if self.is_well(ran):
            return True
        if (ran.status, ran.err) == (1, NO_MEMORY):
            self.unmet.discard(ran.err)
            return self.wanted.out.startswith(ran.out) and (not ran.out or ran.out.endswith("\n"))
        lacking = re.findall(rf"^op (\d+): {LACKING}$", ran.out, re.M)
        return len(lacking) == 1 and ran in self.broken_off(lacking[0])

    def told(self, lines):
        """The lines of answers and faults that these lines print, and all that they print."""
        printed = self.played(lines)[0].out.splitlines()
        return [it for it in printed if it.startswith(("op ", "fault "))], printed

    def events_of_run(self, before, op):
        """The looks and serves that a `run` of this operation makes after these lines."""
        events = []
        while len(events) < 100:
            said = len(self.told([*before, *events])[0])
            more = self.told([*before, *events, f"look {op}"])[0][said:]
            if more == ["fault 1 UnknownNumber"]:
                break
            events.append(f"serve {op}" if more == ["fault 2 NotAsked"] else f"look {op}")
            if len(self.told([*before, *events])[0]) > said:
                break
        return events

    def turns(self, op):
        """Each turn of an operation: the number of the line that makes it, the events of that line before it, and it."""
        for at, line in enumerate(self.lines):
            events = self.events_of_run(self.lines[:at], op) if line == f"run {op}" else [line]
            for place, event in enumerate(events):
                if event in (f"look {op}", f"serve {op}"):
                    yield at, events[:place], event

    @functools.lru_cache(maxsize=None)
    def broken_off(self, op):
        """The runs in which an operation is answered 9 at one of its turns, and nothing else is refused."""
        return {self.ended_at(op, *turn) for turn in self.turns(op)}

    def ended_at(self, op, at, events, event):
        """The run in which it is answered 9 at this turn. A look ends as by a give-up, which tells nothing, and a store
        call as one that failed before its effect."""
        before = [*self.lines[:at], *events]
        is_look = event == f"look {op}"
        ending = f"giveup {op}" if is_look else f"fail {op} before"
        printed = self.told([*before, ending, *self.lines[at + 1 :]])[1]
        place = len(self.told(before)[0])
        rest = printed[place:] if is_look else printed[place + 1 :]
        if not is_look and printed[place] != f"op {op}: {FAILED}":
            return None
        return Ran(0, "".join(f"{it}\n" for it in [*printed[:place], f"op {op}: {LACKING}", *rest]), "")


class Worker:
    """A run of one worker, whose allocations come in one order, and what may come of it where a growth is refused."""

    name = "threads 1"
    HALTS = frozenset({NO_MEMORY, "worker 1 stopped\n"})
    LINES = r"workers 1\ncalls (\d+)\nanswers \1\nhistory (\d+)\ncounts agree\naudit ok\n"

    def __init__(self, player, program):
        self.player, self.words, self.unmet = player, [program, *self.name.split()], set(self.HALTS)

    def run(self, nth):
        return self.player.run(self.words, nth=nth)

    def figures(self, ran):
        """How many calls there were and how long the history is, where each call was answered, and counts and audit agree."""
        told = re.fullmatch(self.LINES, ran.out)
        return tuple(int(it) for it in told.groups()) if told and (ran.status, ran.err) == (0, "") else None

    def is_well(self, ran):
        """Whether it ended as with ample memory."""
        return self.figures(ran) == (9, 5)

    def is_allowed(self, ran):
        """Whether it may end so where a growth was refused: it halts and prints nothing, or a call is answered 9, and its job
        may enter nothing."""
        if (ran.status, ran.out) == (1, "") and ran.err in self.HALTS:
            self.unmet.discard(ran.err)
            return True
        return self.figures(ran) in ((9, 5), (9, 4), (8, 4))


def sweep(swept):
    """Refuses each allocation in turn, until a run has none left to refuse. Returns how many were refused, and how many
    runs were odd, after the last of which it may end early. It is odd too where no run is halted as some should be."""
    odd = 0
    for nth in range(1, MOST):
        ran, was_refused = swept.run(nth)
        if not (swept.is_allowed(ran) if was_refused else swept.is_well(ran)):
            odd += 1
            say(f"FAILED: {swept.name}, {f'allocation {nth} refused' if was_refused else 'with ample memory'}: {ran}")
        if not was_refused:
            for halt in sorted(swept.unmet):
                say(f"FAILED: {swept.name} never ended with {halt!r}")
            return nth - 1, odd + len(swept.unmet)
        if odd == MOST_ODD:
            return nth, odd
    say(f"FAILED: {swept.name} makes {MOST} allocations or more")
    return MOST - 1, odd + 1


def swept_of(player, root, program):
    """What is swept of a build: the tests of a crate of tests, and else scripts and a run of a worker."""
    name = os.path.basename(program)
    for crate, tests in TESTS.items():
        if name == crate + TESTS_ENDING:
            return [Test(player, program, it) for it in tests]
    return [*(Script(player, program, f"{root}/cases/{it}") for it in SCRIPTS), Worker(player, program)]


def sweep_all(player, root, programs):
    """Sweeps these builds. Returns how many allocations were refused, and how many runs were odd."""
    refused = odd = 0
    for program in programs:
        if not os.path.isfile(program):
            say(f"FAILED: there is no {program}")
            odd += 1
            continue
        for swept in swept_of(player, root, program):
            found = sweep(swept)
            # (where none was refused, nothing is known of want of memory)
            found = found if found != (0, 0) else (0, 1)
            say(f"{os.path.basename(program)} {swept.name}: {found[0]} refused, {found[1]} odd")
            refused, odd = refused + found[0], odd + found[1]
    return refused, odd


def main(words, usage="", root=os.path.dirname(os.path.dirname(os.path.realpath(__file__)))):
    """Sweeps and returns the exit status."""
    form = argparse.RawDescriptionHelpFormatter
    parser = argparse.ArgumentParser(prog="tools/refuse-growths", description=usage, formatter_class=form)
    parser.add_argument("programs", nargs="+", metavar="PROGRAM")
    programs = [os.path.abspath(it) for it in parser.parse_args(words).programs]
    with tempfile.TemporaryDirectory(prefix="refuse-") as room:
        try:
            library = make_library(f"{root}/tools/refuse.c", f"{room}/refuse.so")
        except NoLibrary as error:
            say(f"FAILED: no compiler makes tools/refuse.c a library: {error}")
            say("0 refusals, 1 odd")
            return 1
        refused, odd = sweep_all(Player(library), root, programs)
    say(f"{refused} refusals, {odd} odd")
    return 1 if odd or not refused else 0


if __name__ == "__main__":
    sys.exit(main(sys.argv[1:]))
