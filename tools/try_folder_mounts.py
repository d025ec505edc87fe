"""What tools/try-mounts does."""
from __future__ import annotations

import argparse
import os
import tempfile
import time

from try_folder_clients import Place, tried
from try_folder_pairs import CHECKS

# The build of this repository's program.
PROGRAM = f"{os.path.dirname(os.path.dirname(os.path.realpath(__file__)))}/crates/txnobj_cli/out/txnobj_cli"
# For how many seconds a folder that one mount made may be missing at the other.
PATIENCE = 10


def is_seen(folder):
    """Whether a folder is there, also a little later."""
    until = time.monotonic() + PATIENCE
    while not os.path.isdir(folder):
        if time.monotonic() > until:
            return False
        time.sleep(0.1)
    return True


def rooms_of(here, there, syncs):
    """Makes a new folder by one mount for each check, with the way to it by the other, and a folder for the recordings."""

    def make_room():
        root, recordings = tempfile.mkdtemp(prefix="try-mounts-", dir=here), tempfile.mkdtemp(prefix="try-mounts-")
        beside = f"{there}/{os.path.basename(root)}"
        if not is_seen(beside):
            raise SystemExit(f"{there} does not show what is made in {here}: {os.path.basename(root)}, which is left there")
        return Place((root, beside), recordings, syncs), [root, recordings]

    return make_room


def main(words, usage):
    form = argparse.RawDescriptionHelpFormatter
    parser = argparse.ArgumentParser(prog="tools/try-mounts", description=usage, formatter_class=form)
    parser.add_argument("mounts", nargs=2, metavar="MOUNT")
    parser.add_argument("--program", default=PROGRAM, metavar="PROGRAM", help="a build of txnobj")
    parser.add_argument("--seconds", type=float, default=20, metavar="N", help="how long processes are killed")
    parser.add_argument("--syncs", action="store_true", help="sync what is written")
    parser.add_argument("--keep", action="store_true", help="leave the folders, and say where")
    given = parser.parse_args(words)
    make_room = rooms_of(*map(os.path.abspath, given.mounts), given.syncs)
    passed, failed = tried(os.path.abspath(given.program), CHECKS, given.seconds, given.keep, make_room)
    print(f"{passed} passed, {failed} failed")
    return 1 if failed else 0
