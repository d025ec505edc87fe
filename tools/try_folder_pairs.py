"""What holds of an object by any two mounts of its folder, which may be one: checks of tools/try-folder and tools/try-mounts."""
from __future__ import annotations

import itertools
import random
import re
import threading
import time

from try_folder_clients import VIEW, Shell, agrees, count_up, expect, together

PROCESSES, COUNTS = 8, 100
ROUNDS, WRITERS = 12, 6
# Of the seconds that are asked for, the part for which readers work beside a writer at each mount.
READERS_PART = 0.2


def counts(program, place, _seconds):
    """8 processes by 100 increments: exact, with no gap."""
    sides, acknowledged = place.sides(program, "counter"), []
    expect(sides[0].told("init", "0") == "1\n", "the first version is not 1")

    def work(it):
        shell = Shell(it)
        expect(count_up(shell, COUNTS, acknowledged), "a count ended early")
        shell.end()

    together([lambda it=it: work(it) for it in sides * (PROCESSES // 2)])
    total = PROCESSES * COUNTS
    for it in sides:
        expect(it.history() == {id: id - 1 for id in range(1, total + 2)}, "the versions are not the counts, one by one")
    expect(sorted(acknowledged) == [(id, id - 1) for id in range(2, total + 2)], "not each count was acknowledged once")
    agrees(sides[0], total + 1)
    return [f"{PROCESSES} by {COUNTS} counts are exact and gap-free, and audited"]


def kills(program, place, seconds):
    """Processes are killed at random moments: nothing acknowledged is lost, nothing torn, the boundary never falls, and what
    all recorded is one history."""
    sides = place.sides(program, "killed")
    sides[0].told("init", "0")
    acknowledged, shells, until, killed, removed = [], {}, time.monotonic() + seconds, [0], [0]

    def count(worker):
        while time.monotonic() < until:
            shells[worker] = Shell(sides[worker % 2])
            count_up(shells[worker], 1_000_000, acknowledged, until)
            shells[worker].end()

    def raise_boundary():
        for it in itertools.cycle(sides):
            if time.monotonic() >= until:
                return
            shell = shells["boundary"] = Shell(it)
            for _ in range(20):
                found = re.match(r"read (\d+) ", shell.ask("read"))
                if not found or int(found[1]) < 12:
                    break
                behind = int(found[1]) - 10
                shell.ask(f"advance {behind}")
                while removed[0] + 1 < behind:
                    removed[0] += 1
                    if not shell.ask(f"delete {removed[0]}"):
                        break
            shell.end()

    def kill():
        chance = random.Random(1)
        while time.monotonic() < until:
            time.sleep(chance.uniform(0.02, 0.3))
            for shell in chance.sample(list(shells.values()), k=min(1, len(shells))):
                shell.kill()
                killed[0] += 1
        for shell in list(shells.values()):
            shell.kill()

    def watch(it):
        last, file = 0, f"{it.root}/gc/killed.boundary"
        while time.monotonic() < until:
            now = said_by(file)
            expect(now is None or last <= now, f"the boundary fell from {last} to {now}")
            last = last if now is None else now
            time.sleep(0.001)

    watches = [lambda it=it: watch(it) for it in sides[: len(set(place.mounts))]]
    together([*(lambda w=w: count(w) for w in range(4)), raise_boundary, kill, *watches])
    stored = sides[0].history()
    for id, payload in acknowledged:
        gone = id <= removed[0] and id not in stored
        expect(gone or stored.get(id) == payload, f"version {id} says {stored.get(id)}, acknowledged was {payload}")
    expect(max(stored) >= max(id for id, _ in acknowledged), "an acknowledged version is lost")
    expect(all(payload == id - 1 for id, payload in stored.items()), "a stored version is not one more than the one before")
    agrees(sides[0], max(stored))
    return [f"{killed[0]} kills in {seconds:.0f} s: nothing of {len(acknowledged)} acknowledged counts is lost, and audited"]


def said_by(file):
    """The number that a file says, where it can be read: a mount may say of one that was replaced meanwhile that it is stale."""
    try:
        with open(file, encoding="ascii") as text:
            return int(text.read())
    except OSError:
        return None


def claims(program, place, _seconds):
    """Two claim: the older is fenced. What is answered lasts, as it does where nothing else is asked for."""
    for name, turned in (("leader", 1), ("leader-turned", -1))[: len(set(place.mounts))]:
        two_claim(*place.sides(program, name, syncs=True)[::turned])
    return ["the older of two claimers is fenced, and audited"]


def two_claim(here, there):
    here.told("init", "none")
    older, newer = Shell(here), Shell(there)
    expect(older.ask("load") == "view 1 at 1 0:none", "the first version is not loaded")
    expect(older.ask("claim 1") == "holder 1 at 2 1:none epoch 1", "the first claim is not held")
    expect(newer.ask("load") == "view 1 at 2 1:none", "the claimed version is not loaded")
    expect(newer.ask("claim 1") == "holder 1 at 3 2:none epoch 2", "the second claim is not held")
    expect(newer.ask("holder_update 1 2:new") == "view 1 at 4 2:new", "the newer holder does not write")
    expect(older.ask("holder_update 1 1:old").startswith("refused 5"), "the older holder wrote on an old version")
    expect(older.ask("holder_refresh 1").startswith("refused 6"), "the older holder is not fenced")
    expect(older.ask("holder_update 1 1:old").startswith(("refused 6", "not permitted")), "the older holder wrote")
    for shell in (older, newer):
        shell.end()
    expect(here.run("put", "--epoch", "1", "old")[0] == 16, "a put of the older epoch is not fenced")
    expect(here.run("put", "--epoch", "3", "early")[0] == 17, "a put of an epoch that nobody claimed is not refused")
    expect(here.run("put", "--epoch", "2", "newer") == (0, "5\n"), "a put of the newer epoch is refused")
    expect(there.run("get") == (0, "newer"), "the newest value is not read")
    expect(there.run("get", "--id") == (0, "5 2\n"), "the newest id and epoch are not printed")
    expect(there.run("put", "--base", "4", "late")[0] == 15, "a put on an old base is no conflict")
    expect(there.run("put", "--base", "5", "--epoch", "1", "old")[0] == 16, "a put of the older epoch on the newest is not fenced")
    expect(there.run("put", "--base", "5", "--epoch", "2", "on") == (0, "6\n"), "a put of the newer epoch on the newest is refused")
    expect(here.run("claim", "--epoch", "2")[0] == 16, "a claim of an epoch that stands is not refused")
    expect(here.run("claim", "--epoch", "7") == (0, "7 7\n"), "a claim of a greater epoch is refused")
    agrees(here, 7)


def puts_on_a_base(program, place, _seconds):
    """Processes put on one version at once: one is told an id and stands, and each other is in conflict."""
    sides = place.sides(program, "based")
    sides[0].told("init", "0")
    for base in range(1, ROUNDS + 1):
        ended = {}

        def put(worker, base=base, ended=ended):
            ended[worker] = sides[worker % 2].run("put", "--base", str(base), f"{base}.{worker}")

        together([lambda w=w: put(w) for w in range(WRITERS)])
        won = [worker for worker, end in ended.items() if end == (0, f"{base + 1}\n")]
        lost = [worker for worker, end in ended.items() if end == (15, "")]
        expect(len(won) == 1 and len(lost) == WRITERS - 1, f"puts on version {base} end with {ended}")
        expect(sides[1].told("get") == f"{base}.{won[0]}", f"the put on version {base} that was told does not stand")
    for base in (0, ROUNDS, ROUNDS + 2):
        expect(sides[1].run("put", "--base", str(base), "late") == (15, ""), f"a put on {base} beside the newest is no conflict")
    expect(len(sides[0].told("list").splitlines()) == ROUNDS + 1, "a put that was refused left a version")
    agrees(sides[0], ROUNDS + 1)
    return [f"of {WRITERS} processes that put on one version one is told an id and stands, {ROUNDS} times, and audited"]


def view_of(shell, call):
    """The id at which a call leaves a view, which it has to."""
    answer = shell.ask(call)
    found = VIEW.match(answer)
    expect(found, f"{call}: {answer or 'no answer'}")
    return int(found[2])


def done_by(shell, call):
    """Makes a call that has to be answered, and not refused."""
    answer = shell.ask(call)
    expect(answer and not answer.startswith(("refused", "not permitted", "bad call")), f"{call}: {answer or 'no answer'}")
    return answer


def late_writes(program, place, _seconds):
    """A writer that is slow writes on a version whose successor another erased meanwhile: that is refused, also where its mount knows
    an older boundary, or a process holds the file of one open."""
    number = itertools.count(1)
    for boundary in ("none", "known", "open"):
        for turned in (1, -1)[: len(set(place.mounts))]:
            late_write(place.sides(program, f"late-{next(number)}")[::turned], boundary)
    return ["a late write of a version that was erased is refused, and audited"]


def late_write(sides, boundary):
    slow_side, fast_side = sides
    slow_side.told("init", "0")
    if boundary != "none":
        for command in (("put", "1"), ("put", "2"), ("advance", "1")):
            fast_side.told(*command)
    slow, fast, held = Shell(slow_side), Shell(fast_side), []
    view_of(slow, "load")
    done_by(slow, "read")
    if boundary == "open":
        # (kept open until the end)
        held.append(open(f"{slow_side.root}/gc/{slow_side.name}.boundary", encoding="ascii"))  # pylint: disable=consider-using-with
        held[0].read(1)
    view_of(fast, "load")
    for value in (10, 11, 12):
        newest = view_of(fast, f"update 1 0:{value}")
    done_by(fast, f"advance {newest - 1}")
    for id in range(1, newest):
        done_by(fast, f"delete {id}")
    answer = slow.ask("update 1 0:99")
    for shell in (slow, fast):
        shell.end()
    for file in held:
        file.close()
    expect(answer.startswith("refused 5"), f"a late write, of a boundary that is {boundary}, is answered {answer or 'nothing'}")
    expect(fast_side.told("get") == "12", "a late write is read")
    agrees(slow_side, newest)


class Written:
    """What a writer was told last, for readers that hold what they are told against it."""

    def __init__(self):
        self.id, self.is_done = 1, threading.Event()

    def reads(self, what, ask):
        """Asks until the writer is done: no answer is older than the last one, or than what was written before it was asked."""
        last = 0
        while not self.is_done.is_set():
            before = max(last, self.id)
            last = ask()
            expect(before <= last, f"a {what} tells {last} after {before} was written or told")


def read_of(shell):
    return int(done_by(shell, "read").split()[1])


def listed_of(shell):
    """The greatest id of a listing, which has no gap."""
    ids = [int(it) for it in done_by(shell, "list - -").split()[1:]]
    expect(ids == list(range(ids[0], ids[-1] + 1)), f"a listing tells {ids}")
    return ids[-1]


def readers(program, place, seconds):
    """What a reader at one mount is told is as new as what a writer at the other was answered before, also while old versions are
    removed."""
    told = []
    for name, turned in (("read", 1), ("read-turned", -1))[: len(set(place.mounts))]:
        told.append(read_beside(*place.sides(program, name)[::turned], max(1.0, seconds * READERS_PART)))
    return [f"reads, refreshes and listings beside {' and '.join(map(str, told))} writes and removals are never stale, and audited"]


def read_beside(writer_side, reader_side, seconds):
    writer_side.told("init", "0")
    writer, written, until = Shell(writer_side), Written(), time.monotonic() + seconds
    readers_of = [Shell(reader_side) for _ in range(3)]
    view_of(readers_of[1], "load")

    def write():
        try:
            view_of(writer, "load")
            while time.monotonic() < until:
                written.id = view_of(writer, f"update 1 0:{written.id}")
                if written.id % 10 == 0:
                    done_by(writer, f"advance {written.id - 5}")
                    for id in range(max(1, written.id - 14), written.id - 4):
                        done_by(writer, f"delete {id}")
        finally:
            written.is_done.set()

    asks = (
        ("read", lambda: read_of(readers_of[0])),
        ("refresh", lambda: view_of(readers_of[1], "refresh 1")),
        ("listing", lambda: listed_of(readers_of[2])),
        ("get", lambda: int(reader_side.told("get", "--id").split()[0])),
    )
    together([write, *(lambda it=it: written.reads(*it) for it in asks)])
    for shell in (writer, *readers_of):
        shell.end()
    agrees(writer_side, written.id)
    return written.id - 1


def collections(program, place, _seconds):
    """Readers go on while old versions are removed, and what all recorded is one history."""
    here, there = place.sides(program, "collected")
    here.told("init", "0")
    shell = Shell(here)
    expect(count_up(shell, 60, []), "a count ended early")
    done = threading.Event()

    def read(it):
        last = 0
        while not done.is_set():
            found = int(it.told("get"))
            expect(last <= found, f"a read fell from {last} to {found}")
            last = found

    def collect():
        try:
            for _ in range(3):
                expect(count_up(shell, 10, []), "a count ended early")
                here.told("collect")
        finally:
            done.set()

    together([lambda: read(here), lambda: read(there), collect])
    shell.end()
    expect(there.history() == {91: 90}, "old versions are left")
    agrees(here, 91)
    return ["reads go on during collections, and audited"]


CHECKS = counts, kills, claims, puts_on_a_base, late_writes, readers, collections
