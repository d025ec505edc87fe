"""What tools/try-rust does."""
from __future__ import annotations

import argparse
import os
import random
import re
import shutil
import subprocess
import tempfile
import time
from collections import Counter
from concurrent.futures import ThreadPoolExecutor

from recording_changes import CHANGES
from recording_search import Undecided, are_history

ROOT = os.path.dirname(os.path.dirname(os.path.realpath(__file__)))
ADAPTER = f"{ROOT}/adapters/rust"
PROGRAM = f"{ROOT}/crates/txnobj_cli/out/txnobj_cli"
# The packages that a folder of crates has to have, and one that it may have.
PACKAGES, MAY_HAVE = ("object_store", "slatedb-common", "slatedb-txn-obj"), ("async-trait",)
SECONDS = 300
NO_ORDER = "no history"
# How often a fact of each kind is changed.
PLACES = 20
# The scenes that are one history, and those of which an audit says that they are none.
SCENES = ("binary", "digests", "gone_already", "landed_and_collected", "own_objects", "pages", "refused_early", "tasks")
REFUSED = {
    "lists_late": "no order",
    "other_epoch": "out of turn",
    "same_bytes": "no order",
    "stale_delete": "asks for something else",
    "tries_again": "the files answer otherwise",
}


class NotThere(Exception):
    """What is missing to build the runs."""


class NotBuilt(Exception):
    """Why the build of the runs failed."""


def packages_in(folder):
    """The folders of packages below a folder, by their names."""
    found = {}
    for at, folders, names in os.walk(folder):
        folders[:] = [it for it in folders if it not in ("target", "src")]
        if "Cargo.toml" in names:
            with open(f"{at}/Cargo.toml", encoding="utf-8") as file:
                name = re.search(r'^\[package\][^\[]*?^name = "([^"]+)"', file.read(), re.M)
            if name:
                found.setdefault(name[1], at)
    return found


def workspace(crates, out):
    """A workspace of the recorder alone, over the packages of a folder; its folder. The recorder's texts are copied."""
    packages = packages_in(crates)
    lacking = [it for it in PACKAGES if it not in packages]
    if lacking:
        raise NotThere(f"{crates} has no package {' and no '.join(lacking)}")
    shutil.copytree(ADAPTER, f"{out}/recorder", dirs_exist_ok=True, ignore=shutil.ignore_patterns("target"))
    if os.path.isdir(f"{crates}/.cargo"):
        shutil.copytree(f"{crates}/.cargo", f"{out}/.cargo", dirs_exist_ok=True)
    patches = [f'{it} = {{ path = "{os.path.abspath(packages[it])}" }}' for it in (*PACKAGES, *MAY_HAVE) if it in packages]
    with open(f"{out}/Cargo.toml", "w", encoding="utf-8") as file:
        file.write("\n".join(['[workspace]\nresolver = "2"\nmembers = ["recorder"]\n', "[patch.crates-io]", *patches, ""]))
    return out


def built(crates, out, jobs):
    """The runs, built."""
    how = {"cwd": workspace(crates, out), "stdin": subprocess.DEVNULL, "capture_output": True, "text": True, "check": False}
    found = subprocess.run(["cargo", "tree", "--offline"], **how)
    if found.returncode:
        raise NotThere(f"cargo: {' '.join(found.stderr.split())}")
    done = subprocess.run(["cargo", "build", "--release", "--offline", "--jobs", f"{jobs}", "--example", "runs"], **how)
    if done.returncode:
        raise NotBuilt(done.stderr[-3000:])
    return f"{out}/target/release/examples/runs"


def rows_in(folder):
    """The recordings of a folder by names, as lists of rows. A last row that was cut off is left out."""
    found = {}
    for name in sorted(os.listdir(folder)):
        if name.endswith(".diary"):
            with open(f"{folder}/{name}", encoding="ascii") as file:
                found[name] = file.read().split("\n")[:-1]
    return found


class Runs:
    """The runs of the original crate, and what an audit says of them."""

    def __init__(self, runs, program, folder):
        self.runs, self.program, self.folder = runs, program, folder
        self.passed = self.failed = 0

    def note(self, name, why="", said=""):
        print(f"{'FAILED' if why else 'ok'}: {name}{': ' if why or said else ''}{why or said}", flush=True)
        self.passed, self.failed = self.passed + (not why), self.failed + bool(why)

    def run(self, *words, environment=None):
        how = {"stdin": subprocess.DEVNULL, "stdout": subprocess.PIPE, "stderr": subprocess.PIPE, "text": True}
        return subprocess.Popen([self.runs, *map(str, words)], env={**os.environ, **(environment or {})}, **how)

    def ended(self, process):
        told, errors = process.communicate(timeout=SECONDS)
        if process.returncode:
            raise AssertionError(f"status {process.returncode}: {errors[-2000:]}")
        return told

    def at(self, name):
        os.makedirs(f"{self.folder}/{name}")
        return f"{self.folder}/{name}"

    def audit(self, folder):
        names = [f"{folder}/{it}" for it in sorted(os.listdir(folder)) if it.endswith(".diary")]
        how = {"stdin": subprocess.DEVNULL, "capture_output": True, "text": True, "check": False, "timeout": SECONDS}
        done = subprocess.run([self.program, "audit", *names], **how)
        return done.returncode, (done.stdout + done.stderr).splitlines()[0]

    def audits(self, name, folders, may_lie=False):
        """Notes what an audit says of each of these folders, which are one history; where listings may lie, some need not be."""
        said = [self.audit(it) for it in folders]
        bad = [f"{os.path.basename(it)}: {words}" for it, (status, words) in zip(folders, said) if status]
        calls = sum(int(words.rsplit(", ", 1)[1].split()[0]) for status, words in said if not status)
        told = f"{len(said) - len(bad)} of {len(said)} are one history, {calls} store calls"
        self.note(name, "" if may_lie or not bad else "; ".join(bad), told)

    def threads(self, name, count, clients, one_in):
        folders = [f"{self.folder}/{name}-{seed}" for seed in range(1, count + 1)]
        for seed, folder in enumerate(folders, 1):
            self.ended(self.run("memory", folder, clients, seed, 120, one_in))
        what = "threads" if not one_in else f"threads of which one store call in {one_in} fails, is late or never answered"
        self.audits(f"{clients} {what}, {count} times", folders)
        return folders[0]

    def processes(self, name, count, kind, kills=0):
        """Processes on a folder, which are begun anew as often as they are killed."""
        folders = []
        for seed in range(1, count + 1):
            folder, root = self.at(f"{name}-{seed}"), self.at(f"{name}-{seed}/root")
            folders.append(folder)
            number = 0
            for turn in range(kills + 1):
                running = []
                for _ in range(4):
                    number += 1
                    running.append(self.run(kind, root, "manifest", f"{folder}/{number:03}.diary", number, seed, 120))
                if turn < kills:
                    time.sleep(0.02 + 0.01 * turn)
                    for it in running:
                        it.kill()
                        it.communicate()
                else:
                    for it in running:
                        self.ended(it)
        what = {"folder": "processes on a folder as it lists", "settled": "processes on a folder, listed until it stands still"}[kind]
        self.audits(f"4 {what}{f', killed {kills} times' if kills else ''}, {count} times", folders, kind == "folder")

    def beside_txnobj(self, count):
        """Processes of the crate and of txnobj on one folder."""
        folders = []
        for seed in range(1, count + 1):
            folder, root = self.at(f"beside-{seed}"), self.at(f"beside-{seed}/root")
            folders.append(folder)
            running = [
                self.run("settled", root, "manifest", f"{folder}/{number}.diary", number, seed, 60, environment={"BY_TIME": "1"})
                for number in (1, 2, 3)
            ]
            with ThreadPoolExecutor(3) as pool:
                list(pool.map(lambda it: self.commands(root, f"{folder}/port-{it}.diary", it), range(3)))
            for it in running:
                self.ended(it)
        self.audits(f"3 processes of the crate and 3 of txnobj on one folder, {count} times", folders)

    def commands(self, root, diary, number):
        """Some commands of txnobj, of which some are refused."""
        rnd = random.Random(number)
        words = [self.program, "--root", root, "--name", "manifest", "--diary", diary]
        for _ in range(12):
            command = rnd.choice((["put", f"{number}"], ["get"], ["claim"], ["list"], ["collect"]))
            subprocess.run([*words, *command], stdin=subprocess.DEVNULL, capture_output=True, check=False, timeout=SECONDS)
            time.sleep(rnd.random() * 0.03)

    def scenes(self):
        for name in (*SCENES, *REFUSED):
            folder = f"{self.folder}/scene-{name}"
            self.ended(self.run("scene", name, folder))
            status, said = self.audit(folder)
            wanted = REFUSED.get(name)
            right = status == 4 and wanted in said if wanted else status == 0
            self.note(f"the scene {name}{' is refused' if wanted else ''}", "" if right else said, said)

    def changed(self, folder, change, rnd):
        """Changes a good recording in one way at some places, and has each audited."""
        recordings, ends = rows_in(folder), Counter()
        places = change.places(recordings)
        for place in rnd.sample(places, min(PLACES, len(places))):
            with tempfile.TemporaryDirectory(prefix="try-rust-") as at:
                made = change.made(recordings, place)
                for name, rows in made.items():
                    with open(f"{at}/{name}", "w", encoding="ascii") as file:
                        file.write("\n".join(rows) + "\n")
                status, said = self.audit(at)
            ends["refused" if status else is_history(made)] += 1
        lies = ends.pop(NO_ORDER, 0)
        said = ", ".join(f"{count} are {end}" for end, count in sorted(ends.items()))
        self.note(change.name, f"{lies} are neither refused nor a history" if lies else "", said)

    def hunt(self, seconds):
        print(f"listings of a local file system: {self.ended(self.run('hunt', self.at('hunted'), seconds)).strip()}", flush=True)


def is_history(recordings):
    """What a search of all orders says of recordings that an audit took."""
    try:
        return "a history all the same" if are_history(list(recordings.values())) else NO_ORDER
    except Undecided:
        return "a history by the audit alone, with too many orders to try"


def try_all(runs, count):
    """The runs, each so many times."""
    good = runs.threads("threads", count, 3, 0)
    runs.threads("lossy", count, 4, 12)
    runs.processes("processes", count, "settled")
    runs.processes("killed", max(1, count // 3), "settled", kills=4)
    runs.processes("as-listed", count, "folder")
    runs.beside_txnobj(max(1, count // 3))
    runs.scenes()
    rnd = random.Random(1)
    for change in CHANGES:
        runs.changed(good, change, rnd)


def main(words, usage):
    """Builds the runs and has them audited, and returns the exit status."""
    form = argparse.RawDescriptionHelpFormatter
    parser = argparse.ArgumentParser(prog="tools/try-rust", description=usage, formatter_class=form)
    parser.add_argument("crates", nargs="?", metavar="CRATES", help="a folder with the packages that the recorder is built over")
    parser.add_argument("--program", default=PROGRAM, metavar="FILE", help="a build of txnobj (that of this checkout)")
    parser.add_argument("--build", metavar="FOLDER", help="build there, and leave it")
    parser.add_argument("--keep", metavar="FOLDER", help="leave the recordings there")
    parser.add_argument("--count", type=int, default=10, metavar="N", help="each kind of run N times (10)")
    parser.add_argument("--seconds", type=int, default=10, metavar="N", help="hunt for listings of no moment for N seconds (10)")
    parser.add_argument("--jobs", type=int, default=2, metavar="N", help="build by N jobs (2)")
    given = parser.parse_args(words)
    if not given.crates or not shutil.which("cargo") or not os.path.exists(given.program):
        lacks = "no crates are named" if not given.crates else "there is no cargo" if not shutil.which("cargo") else "txnobj is not built"
        print(f"skipped: {lacks}\n0 passed, 0 failed")
        return 0
    with tempfile.TemporaryDirectory(prefix="try-rust-") as out:
        try:
            made = built(given.crates, os.path.abspath(given.build or out), given.jobs)
        except NotThere as why:
            print(f"skipped: {why}\n0 passed, 0 failed")
            return 0
        except NotBuilt as why:
            print(f"FAILED: the runs are not built: {why}\n0 passed, 1 failed")
            return 1
        folder = os.path.abspath(given.keep or f"{out}/runs")
        os.makedirs(folder, exist_ok=True)
        runs = Runs(made, os.path.abspath(given.program), folder)
        try_all(runs, given.count)
        runs.hunt(given.seconds)
    print(f"{runs.passed} passed, {runs.failed} failed")
    return 1 if runs.failed else 0
