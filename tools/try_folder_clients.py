"""Objects in a folder, the processes that work on them, and what they leave: for tools/try-folder and tools/try-mounts."""
from __future__ import annotations

import copy
import itertools
import os
import re
import shutil
import subprocess
import tempfile
import threading
import time
from dataclasses import dataclass

VIEW = re.compile(r"(?:view|holder) (\d+) at (\d+) (\d+):(\d+)")


class Wrong(Exception):
    """Something that was told or left is not as it has to be."""


def expect(holds, words):
    if not holds:
        raise Wrong(words)


class Object:
    """An object in a folder of its own, and the recordings of its clients."""

    def __init__(self, program, root, name, syncs=False, recordings=None):
        self.program, self.root, self.name, self.syncs = program, root, name, syncs
        self.recordings, self.clients, self.diaries = recordings or root, itertools.count(1), []

    def beside(self, root):
        """The same object by another mount of its folder: its clients and their recordings are of the one object."""
        other = copy.copy(self)
        other.root = root
        return other

    def words(self, *command, recorded=True):
        """The words of a command, as a client of its own, with a recording of its own."""
        words = [self.program, "--root", self.root, "--name", self.name, *["--no-sync"] * (not self.syncs)]
        if recorded:
            client = next(self.clients)
            diary = f"{self.recordings}/{self.name}-{client}.diary"
            self.diaries.append(diary)
            words += ["--client", str(client), "--diary", diary]
        return [*words, *command]

    def run(self, *command, recorded=True):
        """Runs a command: its status, and what it prints."""
        how = {"stdin": subprocess.DEVNULL, "capture_output": True, "text": True, "check": False, "timeout": 60}
        ran = subprocess.run(self.words(*command, recorded=recorded), **how)
        return ran.returncode, ran.stdout

    def told(self, *command):
        """What a command prints that has to end well."""
        status, said = self.run(*command)
        expect(status == 0, f"{' '.join(command)}: status {status}")
        return said

    def history(self):
        """The stored versions: the payload of each id."""
        rows = [line.split() for line in self.told("history").splitlines()]
        return {int(id): int(text.split(":")[1]) for id, text in rows}

    def audit(self):
        """The status of an audit of the recordings, and what it says. A client that was killed at once has left none."""
        words = [self.program, "audit", *filter(os.path.exists, self.diaries)]
        said = subprocess.run(words, capture_output=True, text=True, check=False, timeout=600)
        return said.returncode, said.stdout or said.stderr


class Shell:
    """A process that keeps a view: a `txnobj shell`."""

    def __init__(self, an_object, recorded=True):
        pipe = {"stdin": subprocess.PIPE, "stdout": subprocess.PIPE, "stderr": subprocess.DEVNULL, "text": True}
        self.process = subprocess.Popen(an_object.words("shell", recorded=recorded), **pipe)

    def ask(self, call):
        """The answer to a call, or nothing where the process was killed."""
        try:
            self.process.stdin.write(f"{call}\n")
            self.process.stdin.flush()
            return self.process.stdout.readline().strip()
        except (OSError, ValueError):
            return ""

    def kill(self):
        self.process.kill()

    def end(self):
        try:
            self.process.stdin.close()
        except OSError:
            pass
        self.process.wait()
        self.process.stdout.close()


def together(works):
    """Does these at once, and raises what one of them raised."""
    raised = []

    def guarded(work):
        try:
            work()
        except Exception as error:  # pylint: disable=broad-except
            raised.append(error)

    threads = [threading.Thread(target=guarded, args=(it,)) for it in works]
    for it in threads:
        it.start()
    for it in threads:
        it.join()
    if raised:
        raise raised[0]


def count_up(shell, times, acknowledged, until=float("inf")):
    """Adds one to the payload so many times, again after each conflict, or until a time. False where the process was
    killed."""
    answer = shell.ask("load")
    done = 0
    while done < times and time.monotonic() < until:
        found = VIEW.match(answer)
        if not found:
            return False
        epoch, payload = found[3], int(found[4]) + 1
        answer = shell.ask(f"update 1 {epoch}:{payload}")
        if found := VIEW.match(answer):
            acknowledged.append((int(found[2]), payload))
            done += 1
        elif answer.startswith("refused 5"):
            answer = shell.ask("refresh 1")
        else:
            return False
    return True


def agrees(it, entries):
    """The audit of an object's recordings agrees, and says how many entries there are."""
    status, said = it.audit()
    expect(status == 0 and said.startswith("one history: "), f"the audit says: {said.strip()[:400]}")
    if entries is not None:
        expect(f" {entries} entries," in f" {said[len('one history:'):].strip()}", f"the audit counts otherwise: {said.strip()}")


@dataclass(frozen=True)
class Place:
    """A folder of a file system by two mounts, which may be one, and a folder for the recordings."""

    mounts: tuple[str, str]
    recordings: str
    syncs: bool = False

    def sides(self, program, name, syncs=False):
        """An object, as it is used at each of the mounts."""
        here = Object(program, self.mounts[0], name, syncs=syncs or self.syncs, recordings=self.recordings)
        return here, here.beside(self.mounts[1])


def on_one_folder(check):
    """A check of two mounts as one of a folder, which is both."""

    def checked(program, root, seconds):
        return check(program, Place((root, root), root), seconds)

    checked.__name__ = check.__name__
    return checked


def tried(program, checks, seconds, keep, make_room):
    """Plays checks with a program, each in a room of its own, and says what passed: how many did, and how many failed. A room is
    what a check is given, and the folders that it leaves."""
    passed = failed = 0
    for check in checks:
        room, folders = make_room()
        try:
            for line in check(program, room, seconds):
                print(f"{os.path.basename(program)}: {line}", flush=True)
                passed += 1
        except (Wrong, OSError, ValueError, TypeError, subprocess.SubprocessError) as wrong:
            print(f"FAILED: {os.path.basename(program)}, {check.__name__}: {wrong}", flush=True)
            failed += 1
        finally:
            for folder in folders:
                if keep:
                    print(f"left in {folder}", flush=True)
                else:
                    shutil.rmtree(folder, ignore_errors=True)
    return passed, failed


def room_of_one_folder():
    """A folder of its own."""
    root = tempfile.mkdtemp(prefix="try-folder-")
    return root, [root]
