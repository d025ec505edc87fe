"""The command tools/wrong-bodies: reads the edits of the crates, and tries them on copies, side by side."""
from __future__ import annotations

import argparse
import functools
import os
import signal
import sys
import tempfile
import traceback
from concurrent.futures import FIRST_COMPLETED, ThreadPoolExecutor, wait

from crate_copies import Commands, Copies, all_below, crates_listed, rlib_in
from kept_verdicts import FOLDER_VARIABLE, NoSheet, Verdicts, default_folder
from wrong_bodies import MOST_IN_A_CHECK, BadEdit, Outcome, Trial, batches, can_be_open, functions_in, read_edit


# The folder of a crate with those that are tried only where all are asked for, and are else read alone.
MORE = "wrong-bodies/more"
FOLDERS = ("wrong-bodies", MORE)


def say(text):
    print(text, flush=True)


def edit_files(crate, folders):
    """The edit files of a crate's folder, and what lies there and is no edit."""
    files, strange = [], []
    for folder in folders:
        for name in sorted(os.listdir(f"{crate}/{folder}")) if os.path.isdir(f"{crate}/{folder}") else []:
            path = f"{crate}/{folder}/{name}"
            if name.endswith(".edit") and os.path.isfile(path):
                files.append(path)
            elif not name.endswith(".md") and f"{folder}/{name}" != MORE:
                strange.append(path)
    return files, strange


class CrateRun:
    """The edits of one crate and what became of them. Those that an earlier run saw refused count as passed."""

    def __init__(self, copies, folders, only, is_tried, sheet):
        self.copies, self.name, self.sheet = copies, copies.name, sheet
        self.edits, self.failed, self.kept = [], [], []
        self.passed = self.checks = self.alone = self.left = self.rounds = 0
        # How many edits were not asked for.
        self.unasked = 0
        # How many copies were made to try edits in, and how many of them no check runs in.
        self.copied = self.idle = 0
        self.undecided = []
        self.is_proved = False
        crate = f"{copies.root}/crates/{self.name}"
        files, strange = edit_files(crate, folders)
        known = functions_in(copies.texts) if files else {}
        for path in strange:
            self.failed.append(Outcome(os.path.relpath(path, crate), "BAD EDIT: it is no .edit file"))
        for path in files:
            name = os.path.relpath(path, crate)
            if only not in name:
                continue
            try:
                with open(path, encoding="utf-8") as file:
                    edit = read_edit(name, file.read(), copies.texts, known)
                if is_tried(name):
                    (self.kept if sheet.has(edit) else self.edits).append(edit)
                else:
                    self.unasked += 1
            except (BadEdit, UnicodeDecodeError) as error:
                self.failed.append(Outcome(name, f"BAD EDIT: {error}"))
        self.passed = len(self.kept)
        self.batches = batches(copies.texts, self.edits)

    def listed(self):
        """The batches and the functions that each edit changes, as lines, and at last the edits of earlier runs."""
        groups = [(f"check {number}", batch) for number, batch in enumerate(self.batches, 1)]
        for name, batch in groups + [("refused by an earlier run", self.kept)] * bool(self.kept):
            yield f"{self.name}: {name}, {len(batch)} edits"
            for edit in batch:
                modules = ", ".join(it or self.name for it in sorted(edit.modules))
                changed = ", ".join(sorted(edit.functions)) or f"no function, module {modules}"
                yield f"  {edit.name}: {changed}{'' if edit.is_of_bodies else ' (more than bodies: alone)'}"

    def take(self, outcome):
        """Counts an outcome and says it where it is no plain refusal in a shared check."""
        if outcome.reason:
            self.failed.append(outcome)
            say(f"{self.name}/{outcome.edit}: {outcome.reason}")
        else:
            self.passed += 1
            if outcome.was_alone:
                say(f"{self.name}/{outcome.edit}: refused, tried alone")
        self.alone += outcome.was_alone

    def take_all(self, outcomes):
        """Counts these outcomes, and keeps which edits were refused."""
        for outcome in outcomes:
            self.take(outcome)
        refused = {it.edit for it in outcomes if not it.reason}
        self.sheet.keep([it for it in self.edits if it.name in refused])

    def take_copy(self):
        """Counts that a check takes an idle copy, or a new one."""
        self.copied += not self.idle
        self.idle -= bool(self.idle)

    def give_up(self, why, edits):
        """Counts this many edits, or the crate where it has none, as failed."""
        say(f"{self.name}: {why}")
        self.failed += [Outcome(self.name, why)] * max(1, edits)


class Run:
    """Prepares the crates, those below first, and tries the batches of all in a pool."""

    def __init__(self, crates, uses, jobs, commands, is_after_ci):
        self.crates, self.uses, self.jobs, self.commands = crates, uses, jobs, commands
        self.is_after_ci = is_after_ci
        self.folders, self.running, self.waiting = {}, {}, []

    def above(self, crate):
        """How many crates use this one."""
        return sum(crate.name in all_below(it, self.uses) for it in self.crates)

    def rank(self, task):
        """What runs first: the crates that most others wait for, then what needs no new copy of its crate, then what
        needs the first, then the edits of the crate with the most."""
        kind, crate = task[0], task[1]
        if kind == "prepare":
            return 0, False, 0, -self.above(crate)
        return 1, not crate.idle, crate.copied, -len(crate.edits)

    def is_ready(self, task):
        """Whether a task need not wait: for the libraries of its crate, or, over what rt ci left, for the one copy of its
        crate, since a second would prove all once more that the edited functions call."""
        kind, crate = task[0], task[1]
        if kind == "prepare":
            return all(it in self.folders for it in crate.copies.below)
        return not self.is_after_ci or crate.idle or not crate.copied

    def all(self):
        """Runs each task as soon as it can and a worker is free."""
        if self.is_after_ci:
            self.take_libraries()
        else:
            self.waiting = [("prepare", it) for it in self.crates.values()]
        with ThreadPoolExecutor(self.jobs) as pool:
            try:
                while self.waiting or self.running:
                    self.start_and_end_tasks(pool)
            except BaseException:
                self.commands.stop()
                raise

    def start_and_end_tasks(self, pool):
        """Starts what has a free worker, and takes what a task that ended gave. The methods of a task NAME are NAME,
        which a worker runs, and NAME_ended."""
        while len(self.running) < self.jobs:
            task = min(filter(self.is_ready, self.waiting), key=self.rank, default=None)
            if not task:
                break
            self.waiting.remove(task)
            if task[0] == "attempt":
                task[1].take_copy()
            self.running[pool.submit(getattr(self, task[0]), *task[1:])] = task
        for future in wait(self.running, return_when=FIRST_COMPLETED).done:
            task = self.running.pop(future)
            getattr(self, f"{task[0]}_ended")(*task[1:], future.result())

    def take_libraries(self):
        """Begins with the edits of each crate over the libraries that `rt ci` left in the checkout."""
        self.folders = {name: f"{it.copies.root}/crates/{name}" for name, it in self.crates.items()}
        for crate in (it for it in self.crates.values() if it.edits):
            lacking = [it for it in crate.copies.below if not os.path.exists(rlib_in(self.folders[it]))]
            if lacking:
                crate.give_up(f"NOT TRIED: rt ci left no library {lacking[0]}", len(crate.edits))
                continue
            for batch in crate.batches:
                self.add(crate, batch)

    def prepare(self, crate):
        """Checks a crate without edits, in building it where crates stand above. Returns its copy and why it failed."""
        copies = crate.copies
        lacking = [it for it in copies.below if not self.crates[it].is_proved]
        if lacking:
            return "", f"NOT TRIED: its library {lacking[0]} is not proved"
        copy = copies.new(f"{copies.root}/crates/{crate.name}", self.folders, ("out/incremental", "out/rlib"))
        status, said = copies.run_rt(copy, "lib" if self.above(crate) else "check")
        return copy, "" if not status else f"NOT PROVED without an edit:\n{said[-2000:]}"

    def prepare_ended(self, crate, result):
        copy, why = result
        crate.is_proved, self.folders[crate.name] = not why, copy
        if why:
            crate.give_up(why, len(crate.edits))
            return
        for batch in crate.batches:
            self.add(crate, batch)

    def add(self, crate, batch):
        crate.left += 1
        self.waiting.append(("attempt", crate, batch))

    def attempt(self, crate, batch):
        """Tries a batch in a free copy of the crate, or in a new one over what the first check kept, if there was one."""
        copies = crate.copies
        with copies.lock:
            copy = copies.free.pop() if copies.free else None
        kept = () if self.is_after_ci else ("out/incremental",)
        copy = copy or copies.new_of_parts(self.folders[crate.name], kept)
        # (what one check keeps takes seconds, and is of use to another alone)
        keeps = not self.is_after_ci or len(crate.batches) > 1 or crate.rounds > 0
        check = functools.partial(copies.check_in, copy, self.folders, self.is_after_ci, keeps)
        trial = Trial(crate.name, copies.texts, check)
        # (where an earlier check kept the proofs of what the edited functions call, they need not be left open)
        is_open = self.is_after_ci and not crate.rounds and can_be_open(batch)
        outcomes, rest = trial.together(batch, is_open)
        with copies.lock:
            copies.free.append(copy)
        return outcomes, rest

    def attempt_ended(self, crate, batch, result):
        outcomes, rest = result
        crate.idle += 1
        crate.left -= 1
        crate.checks += 1
        crate.take_all(outcomes)
        crate.undecided += rest
        if not crate.left:
            self.try_again(crate)

    def try_again(self, crate):
        """Tries once more together, with all proofs, what a shared check could not decide, as an edit of a function that
        calls another edited one, and then alone. Ends where nothing is undecided."""
        edits, crate.undecided = crate.undecided, []
        if not edits:
            self.end(crate)
            return
        crate.rounds += 1
        for batch in batches(crate.copies.texts, edits, MOST_IN_A_CHECK if crate.rounds == 1 else 1):
            self.add(crate, batch)

    def end(self, crate):
        """Says how the edits of a crate went, and removes its copies."""
        crate.copies.remove_free()
        if not self.is_after_ci:
            crate.copies.remove_kept_work(self.folders[crate.name])
        say(
            f"{crate.name}: {len(crate.edits)} edits in {crate.checks} checks, {crate.alone} tried alone, "
            f"{len(crate.failed)} failed, {crate.copies.seconds:.0f} s of processor time"
        )


def arguments_of(words, usage):
    form = argparse.RawDescriptionHelpFormatter
    parser = argparse.ArgumentParser(prog="tools/wrong-bodies", description=usage, formatter_class=form)
    parser.add_argument("crates", nargs="*", metavar="CRATE", help="only these crates")
    parser.add_argument("--list", action="store_true", help="list what each check tries, and check nothing")
    parser.add_argument("--only", default="", metavar="NAME", help="only edits whose path in the crate contains NAME")
    more = f"try the edits of {MORE} too, which are else read alone"
    parser.add_argument("--all", action="store_true", help=more)
    anew = f"try also what an earlier run on this machine saw refused; {FOLDER_VARIABLE} names where that is kept"
    parser.add_argument("--anew", action="store_true", help=anew)
    after = "take the libraries that rt ci has just left in this checkout, and check no crate without edits"
    parser.add_argument("--after-ci", action="store_true", help=after)
    processors = len(os.sched_getaffinity(0))
    parser.add_argument("--jobs", type=int, default=processors, metavar="N", help="how many checks run side by side")
    return parser.parse_args(words)


def with_libraries(runs, uses):
    """The crates that have edits and those below them."""
    wanted = {name for name, it in runs.items() if it.edits}
    wanted |= {below for name in wanted for below in all_below(name, uses)}
    return {name: it for name, it in runs.items() if name in wanted}


def crate_runs(given, root, room, uses, commands):
    """The edits of each crate that the command is to try, read and held against what is kept of them."""
    copies = {name: Copies(root, room, name, uses, commands) for name in uses}
    texts = {name: it.texts for name, it in copies.items()}
    verdicts = Verdicts(default_folder(os.environ), root, texts, commands, given.anew)
    wanted = {*(given.crates or uses)} & {*folders_with_edits(root)}
    is_tried = lambda edit: given.all or not edit.startswith(f"{MORE}/")  # noqa: E731
    runs = {}
    for name, it in copies.items():
        sheet = verdicts.sheet(name, it.below) if name in wanted else NoSheet()
        runs[name] = CrateRun(it, FOLDERS if name in wanted else [], given.only, is_tried, sheet)
    return runs


def total(given, runs):
    """Says how many edits passed and failed, and returns how many failed; none at all is a failure, unless the crates have
    some that were not asked for."""
    passed, failed = sum(it.passed for it in runs.values()), sum(len(it.failed) for it in runs.values())
    unasked = sum(it.unasked for it in runs.values())
    if not passed and not failed and (given.only or not unasked):
        say("there is no such edit")
        failed = 1
    kept = sum(len(it.kept) for it in runs.values())
    if kept:
        say(f"{kept} of {passed + failed} were refused by earlier runs of the same texts on this machine")
    say(f"{passed} passed, {failed} failed")
    return failed


def main(words, usage="", root=os.path.dirname(os.path.dirname(os.path.realpath(__file__)))):
    """Tries the edits of the repository and returns the exit status."""
    given = arguments_of(words, usage)
    uses = crates_listed(root)
    unlisted = sorted({*given.crates, *folders_with_edits(root)} - {*uses})
    if unlisted:
        say(f"crates.txt names no crate {', '.join(unlisted)}")
        say(f"0 passed, {len(unlisted)} failed")
        return 1
    # (what ends this command ends its checks too)
    signal.signal(signal.SIGTERM, lambda *_: sys.exit(128 + signal.SIGTERM))
    commands = Commands()
    with tempfile.TemporaryDirectory(prefix="wrong-bodies-") as room:
        runs = crate_runs(given, root, room, uses, commands)
        for crate in runs.values():
            for outcome in crate.failed:
                say(f"{crate.name}/{outcome.edit}: {outcome.reason}")
            for line in crate.listed() if given.list else []:
                say(line)
        if given.list:
            return 1 if any(it.failed for it in runs.values()) else 0
        try:
            Run(with_libraries(runs, uses), uses, max(1, given.jobs), commands, given.after_ci).all()
        except Exception:
            traceback.print_exc()
            say("0 passed, 1 failed")
            return 1
    return 1 if total(given, runs) else 0


def folders_with_edits(root):
    """The folders of crates/ that hold wrong bodies."""
    return [it for it in os.listdir(f"{root}/crates") if os.path.isdir(f"{root}/crates/{it}/wrong-bodies")]


if __name__ == "__main__":
    sys.exit(main(sys.argv[1:]))
