"""What tools/try-cuts does."""
from __future__ import annotations

import argparse
import contextlib
import os
import random
import re
import shutil
import subprocess
import tempfile
import time

from try_folder_clients import Object, Shell, Wrong, count_up, expect, together
from try_folder_mounts import PROGRAM

IMAGE_BYTES = 1 << 30
# The least part of the seconds for which processes work before a cut: ext4 keeps names that are not synced after five.
LEAST = 0.9
# How far behind the newest version the boundary is raised.
BEHIND = 200


def system(*words):
    ran = subprocess.run(words, capture_output=True, text=True, check=False)
    expect(ran.returncode == 0, f"{' '.join(words)}: status {ran.returncode}: {ran.stderr.strip()}")


@contextlib.contextmanager
def mounted(image, at):
    """A file system of an image, mounted at a folder that is made for it."""
    os.makedirs(at)
    system("mount", "-o", "loop", "-t", "ext4", image, at)
    try:
        yield at
    finally:
        system("umount", at)


def worked(it, seconds, raises_long):
    """Lets four processes count for some seconds, and one raise the boundary to old ids, at first or all the while: what they were told.
    After the first half the system writes what it has, as it does by itself every thirty seconds."""
    it.told("init", "0")
    told, half, until = [], time.monotonic() + seconds / 2, time.monotonic() + seconds

    def count():
        while time.monotonic() < until:
            shell = Shell(it, recorded=False)
            count_up(shell, 1_000_000, told, until)
            shell.end()

    def raise_boundary():
        while time.monotonic() < (until if raises_long else half):
            time.sleep(0.3)
            # (a read beside four that write all the time may find no end)
            found = re.match(r"(\d+) ", it.run("get", "--id", recorded=False)[1])
            if found and int(found[1]) > BEHIND:
                it.run("advance", str(int(found[1]) - BEHIND), recorded=False)

    def write_back():
        time.sleep(max(0, half - time.monotonic()))
        os.sync()

    together([*[count] * 4, raise_boundary, write_back])
    return [id for id, _ in told]


def sizes_of(it):
    """The sizes of the stored versions."""
    folder = f"{it.root}/{it.name}"
    names = os.listdir(folder) if os.path.isdir(folder) else []
    return {int(name[:20]): os.path.getsize(f"{folder}/{name}") for name in names if re.fullmatch(r"\d{20}\.val", name)}


def left_by(it, told):
    """What a cut left of what was told: how many versions are lost, and how many are torn."""
    sizes = sizes_of(it)
    return sum(not sizes.get(id) for id in told), sum(size == 0 for size in sizes.values())


def repaired(it):
    """Repairs an object, whose newest version is torn: the id at which it goes on, and what else that took. Where the newest version
    that is a value is not above the boundary, or that says no number, the boundary is written by hand."""
    status, said = it.run("repair", recorded=False)
    how = ""
    if status in (6, 17):
        whole = max(id for id, size in sizes_of(it).items() if size)
        with open(f"{it.root}/gc/{it.name}.boundary", "w", encoding="ascii") as file:
            file.write(str(whole - 1))
        how = f" ({'its boundary was torn' if status == 17 else 'its boundary was not below'}, and was written by hand)"
        status, said = it.run("repair", recorded=False)
    expect(status == 0, f"a repair: status {status}")
    *rows, last = said.splitlines()
    removed = [int(re.fullmatch(r"removed (\d+)", row)[1]) for row in rows]
    expect(removed and removed == sorted(removed, reverse=True), "a repair removes nothing, or not the greatest first")
    return int(re.match(r"goes on at (\d+): ", last)[1]), how


def goes_on(it):
    """The object goes on, where need be after a repair: how, in words."""
    status, said = it.run("get", "--id", recorded=False)
    expect(status in (0, 14, 18), f"a get after a cut: status {status}")
    if status == 14:
        expect(it.run("init", "0", recorded=False) == (0, "1\n"), "the object does not begin anew")
        return "nothing is left, and it begins anew"
    at, how = repaired(it) if status == 18 else (int(said.split()[0]), "")
    expect(it.run("repair", recorded=False)[0] == 5, "a repair finds something torn that has to be whole")
    expect(it.run("get", recorded=False) == (0, str(at - 1)), f"version {at} is not as it was written")
    expect(it.run("put", "on", recorded=False) == (0, f"{at + 1}\n"), "the object does not go on")
    return f"repaired{how}, it goes on at {at}" if status == 18 else f"it goes on at {at}"


def one_round(program, room, seconds, syncs, raises_long):
    """One cut of power: what it left, in words."""
    image, copy = f"{room}/image", f"{room}/copy"
    with open(image, "wb") as file:
        file.truncate(IMAGE_BYTES)
    system("mkfs.ext4", "-q", image)
    with mounted(image, f"{room}/before") as root:
        told = worked(Object(program, root, "cut", syncs=syncs), seconds, raises_long)
        system("cp", "--sparse=always", image, copy)
    with mounted(copy, f"{room}/after") as root:
        it = Object(program, root, "cut", syncs=syncs)
        lost, torn = left_by(it, told)
        expect(not syncs or not lost and not torn, f"{lost} of {len(told)} synced writes are lost, and {torn} versions torn")
        how = goes_on(it)
    return f"{'synced' if syncs else 'not synced'}: {len(told)} told, {lost} lost, {torn} torn; {how}"


def main(words, usage):
    form = argparse.RawDescriptionHelpFormatter
    parser = argparse.ArgumentParser(prog="tools/try-cuts", description=usage, formatter_class=form)
    parser.add_argument("--program", default=PROGRAM, metavar="PROGRAM", help="a build of txnobj")
    parser.add_argument("--rounds", type=int, default=6, metavar="N", help="how many cuts of each kind")
    parser.add_argument("--seconds", type=float, default=16, metavar="N", help="how long processes work before a cut, at most")
    given = parser.parse_args(words)
    passed, failed, chance = 0, 0, random.Random(1)
    for turn in range(2 * given.rounds):
        room = tempfile.mkdtemp(prefix="try-cuts-")
        try:
            seconds = given.seconds * chance.uniform(LEAST, 1)
            said = one_round(os.path.abspath(given.program), room, seconds, syncs=turn % 2 == 0, raises_long=turn % 4 > 1)
            print(said, flush=True)
            passed += 1
        except (Wrong, OSError, ValueError, TypeError, subprocess.SubprocessError) as wrong:
            print(f"FAILED: {wrong}", flush=True)
            failed += 1
        finally:
            shutil.rmtree(room, ignore_errors=True)
    print(f"{passed} passed, {failed} failed")
    return 1 if failed else 0
