"""What the examples of the library leave when several work on one folder at once: further checks of tools/try-folder."""
from __future__ import annotations

import subprocess

from try_folder_clients import Object, agrees, expect

COUNTERS, TIMES, TURNS = 4, 50, 50


def recorded(an_object, *names):
    """The object, with the recordings of the processes of these names."""
    an_object.diaries = [f"{an_object.root}/{name}.diary" for name in names]
    return an_object


def begun(example, root, name, count):
    """A process of an example."""
    return subprocess.Popen([example, root, name, str(count)], stdout=subprocess.PIPE, text=True)


def ended(process):
    """What a process prints from here on, and its status."""
    try:
        return process.communicate(timeout=120)[0], process.returncode
    finally:
        process.kill()


def leaders(program, leader, root):
    """A leader works until a second one has claimed, and then stops; the second one works on."""
    older = begun(leader, root, "older", 10**9)
    try:
        expect(older.stdout.readline() == "older leads\n", "the first leader does not lead")
        newer = begun(leader, root, "newer", TURNS)
        expect(ended(newer) == (f"newer leads\nnewer has done {TURNS} turns\n", 0), "the second leader ends otherwise")
        expect(ended(older) == ("older is fenced\n", 0), "the first leader goes on, or ends otherwise")
    finally:
        older.kill()
    it = recorded(Object(program, root, "leader"), "older", "newer")
    rows = [row.split()[1].split(":") for row in it.run("history", recorded=False)[1].splitlines()]
    epochs = [int(row[0]) for row in rows]
    expect(epochs == sorted(epochs) and set(epochs) == {0, 1, 2}, f"the leaders leave the epochs {epochs}")
    of_newer = [text for epoch, text in rows if epoch == "2"]
    expect(of_newer[1:] == [f"newer%20{turn}" for turn in range(TURNS)], "the second leader's turns are not its versions")
    expect(all(text.startswith("older") for epoch, text in rows[2:] if epoch == "1"), "a version of the first leader is another's")
    agrees(it, len(rows))
    return ["of two leaders the older is fenced and the newer works on, and audited"]


def counters(program, counter, root):
    """Counters at once: the count is their sum."""
    names = [f"counter-{number}" for number in range(COUNTERS)]
    processes = [begun(counter, root, name, TIMES) for name in names]
    told = [ended(one) for one in processes]
    expect(told == [(f"{name} added {TIMES}\n", 0) for name in names], f"the counters end with {told}")
    it = recorded(Object(program, root, "counter"), *names)
    expect(it.run("get", recorded=False) == (0, f"{COUNTERS * TIMES}"), "the count is not the sum")
    agrees(it, COUNTERS * TIMES + 1)
    return [f"{COUNTERS} counters add {TIMES} each at once, and audited"]


def checks_of(leader, counter):
    """The checks of these two examples, as those of tools/try-folder are."""

    def leaders_at_once(program, root, _seconds):
        return leaders(program, leader, root)

    def counters_at_once(program, root, _seconds):
        return counters(program, counter, root)

    return [leaders_at_once, counters_at_once]
