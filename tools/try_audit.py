"""What tools/try-audit does."""
from __future__ import annotations

import argparse
import os
import random
import re
import subprocess
import tempfile
from collections import Counter
from concurrent.futures import ThreadPoolExecutor

from recording_changes import CHANGES
from recording_search import Undecided, are_history
from simulated_run import Run, Setting

SECONDS, NOT_ONE_HISTORY = 120, 4
# How many events the runs have at most, of which one fact is changed: so few that all their orders can be tried.
EVENTS_CHANGED = 120
# How many events a run has of each client, where their number is named.
EVENTS_OF_CLIENT = 120
# What an audit says of recordings that are one history, and what it says beside where puts without a reply may decide the end.
SAID = re.compile(r"one history: (\d+) entries, boundary (\d+), ")
FAILED = "FAILED"
MAY_DECIDE = "rest on puts without a reply"


def files_of(folder, recordings):
    """Writes recordings, by their names, as files of a folder."""
    names = []
    for name, rows in recordings.items():
        names.append(f"{folder}/{name}.diary")
        with open(names[-1], "w", encoding="ascii") as file:
            file.write("\n".join(rows) + "\n")
    return names


def audit(program, recordings, clock_error=None, keep=None):
    """The status of an audit of recordings, and what it says. Where a folder is named the recordings stay there."""
    with tempfile.TemporaryDirectory(prefix="try-audit-") as folder:
        if keep:
            os.makedirs(keep, exist_ok=True)
        names = files_of(keep or folder, recordings)
        words = [program, "audit", *(["--clock-error", f"{clock_error}"] if clock_error else []), *names]
        how = {"capture_output": True, "text": True, "check": False, "timeout": SECONDS, "stdin": subprocess.DEVNULL}
        try:
            ran = subprocess.run(words, **how)
        except subprocess.TimeoutExpired:
            return None, f"it had not ended after {SECONDS} seconds"
        return ran.returncode, (ran.stdout + ran.stderr).replace(f"{keep or folder}/", "")


def recordings_of(run):
    """The recordings of a run by names, in an order by chance."""
    numbered = [(f"{number:03}", rows) for number, rows in enumerate(run.recordings, 1)]
    return dict(random.Random(len(run.order)).sample(numbered, len(numbered)))


def setting_of(seed, given):
    """What happens in the run of a seed, by the options: none where it says that itself."""
    if given.clients:
        setting = Setting.at_random(random.Random(f"dense {seed}"))
        setting.clients, setting.events = given.clients, given.clients * EVENTS_OF_CLIENT
        return setting
    return Setting.harder(random.Random(f"harder {seed}")) if given.harder else None


def fault_of_run(program, seed, given):
    """Why the audit of a run is wrong, "" where it is right: it agrees, and says how the run ended where no put may decide that."""
    machines, keep = given.machines, given.keep
    run = Run(seed, setting_of(seed, given), machines)
    error = run.setting.clock_error if machines > 1 else None
    # (the first recording's clock is the one that is right)
    recordings = recordings_of(run) if error is None else {f"{number:03}": rows for number, rows in enumerate(run.recordings, 1)}
    status, said = audit(program, recordings, error, keep and f"{keep}/{seed}")
    found = SAID.match(said)
    if status or not found:
        return f"status {status}: {said}"
    ends = int(found[1]), int(found[2])
    return "" if MAY_DECIDE in said or ends == run.ends() else f"it ended as {run.ends()}, and the audit says: {said}"


def changed_run(seed):
    """The recordings of a small run, with one fact of them changed, and which; none where the run has no such fact."""
    rnd = random.Random(f"changed {seed}")
    run = Run(seed, Setting.at_random(rnd, EVENTS_CHANGED))
    recordings, change = recordings_of(run), rnd.choice(CHANGES)
    places = change.places(recordings)
    if not places:
        return None
    name, at = rnd.choice(places)
    return f"{change.name}: {name}, row {at + 1}", change.made(recordings, (name, at))


def end_of_changed(program, seed, what, recordings, keep=None):
    """How a changed run ends: refused, or a history all the same, which the search has to find; else a fault."""
    status, said = audit(program, recordings, None, keep and f"{keep}/changed-{seed}")
    try:
        finds = are_history(list(recordings.values()))
    except Undecided:
        finds = None
    if status == NOT_ONE_HISTORY:
        # (a search of all orders finds none either, or had too many to try)
        return f"{FAILED}: {what}: refused, and there is an order: {said}" if finds else "refused"
    if status or not SAID.match(said):
        return f"{FAILED}: {what}: status {status}: {said}"
    return "a history all the same" if finds else f"{FAILED}: {what}: not refused, and there is no order: {said}"


def all_changed(first, count):
    """So many changed runs, by their seeds."""
    found, seed = [], first
    while len(found) < count:
        run = changed_run(seed)
        found += [(seed, *run)] if run else []
        seed += 1
    return found


def main(words, usage):
    """Audits simulated runs, and returns the exit status."""
    form = argparse.RawDescriptionHelpFormatter
    parser = argparse.ArgumentParser(prog="tools/try-audit", description=usage, formatter_class=form)
    parser.add_argument("program", metavar="PROGRAM", help="a build of txnobj")
    parser.add_argument("--runs", type=int, default=1000, metavar="N", help="so many runs (1000)")
    parser.add_argument("--changed", type=int, default=100, metavar="N", help="so many runs with one fact changed (100)")
    parser.add_argument("--seed", type=int, default=1, metavar="N", help="the seed of the first run, which the next ones follow (1)")
    parser.add_argument("--machines", type=int, default=1, metavar="N", help="on so many machines, whose clocks are off (1)")
    parser.add_argument("--harder", action="store_true", help="with more clients, and more of each misfortune")
    parser.add_argument("--clients", type=int, default=0, metavar="N", help="with so many clients, and 120 events of each")
    parser.add_argument("--keep", metavar="FOLDER", help="leave the recordings there, in a folder each")
    given = parser.parse_args(words)
    program, seeds = os.path.abspath(given.program), range(given.seed, given.seed + given.runs)
    failed, counts = 0, Counter()
    with ThreadPoolExecutor(os.cpu_count()) as pool:
        for seed, fault in zip(seeds, pool.map(lambda seed: fault_of_run(program, seed, given), seeds)):
            if fault:
                failed += 1
                print(f"FAILED: the run of the seed {seed}: {fault}", flush=True)
        print(f"{given.runs - failed} of {given.runs} runs are one history", flush=True)
        changed = all_changed(given.seed, given.changed)
        for (seed, *_), end in zip(changed, pool.map(lambda it: end_of_changed(program, *it, given.keep), changed)):
            if end.startswith(FAILED):
                failed += 1
                print(f"{end} (the changed run of the seed {seed})", flush=True)
            else:
                counts[end] += 1
    print(f"of {given.changed} with one fact changed {' and '.join(f'{n} are {end}' for end, n in sorted(counts.items()))}")
    print(f"{given.runs + given.changed - failed} passed, {failed} failed")
    return 1 if failed else 0
