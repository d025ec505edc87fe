"""Builds the C library of clients over the libraries that `rt ci` left in a checkout: an archive, and a shared library of it."""
from __future__ import annotations

import os
import shutil
import subprocess

from crate_copies import all_below, crates_listed, libraries_listed, rlib_in

# The crate whose exports the library has, and its header.
CRATE = "txnobj_c"
HEADER = "bindings/c/include/txnobj.h"


class NotBuilt(Exception):
    """The library was not built, for this reason."""


def kit_folder():
    """Where the kit is: above the folder of its commands."""
    return os.path.dirname(os.path.dirname(os.path.realpath(shutil.which("rattle") or "rattle")))


def run(words, folder=None):
    done = subprocess.run(words, cwd=folder, stdin=subprocess.DEVNULL, capture_output=True, text=True, check=False)
    if done.returncode:
        raise NotBuilt(f"{os.path.basename(words[0])} ended with {done.returncode}: {(done.stdout + done.stderr)[-2000:]}")


def words_of_archive(root, kit, archive):
    """The command that proves the crate once more and writes its archive."""
    listed, uses = crates_listed(root), libraries_listed(root)
    words = ["rattle", "build", "--crate-name", CRATE, "src/lib.rt", "--crate-type", "staticlib"]
    words += ["--extern", f"std={kit}/rlibs/std.rlib", "-L", f"dependency={kit}/rlibs"]
    for name in uses[CRATE]:
        own = rlib_in(f"{root}/crates/{name}")
        words += ["--extern", f"{name}={own if name in listed else f'{kit}/rlibs/{name}.rlib'}"]
    for name in sorted(all_below(CRATE, listed)):
        words += ["-L", f"dependency={os.path.dirname(rlib_in(f'{root}/crates/{name}'))}"]
    words += ["--antt-project", f"{kit}/rattle/logic/antt-project.json", "--logic-built", f"{kit}/logic_built"]
    return [*words, "--jobs", "2", "--toolchain", f"{kit}/toolchain", "-o", archive]


def archive_of(root, out):
    """Builds libtxnobj.a in a folder: the exports, and the three functions of C by which they take memory."""
    kit = kit_folder()
    exports, archive = f"{out}/lib{CRATE}.a", f"{out}/libtxnobj.a"
    run(words_of_archive(root, kit, exports), f"{root}/crates/{CRATE}")
    script = f"create {archive}\naddlib {exports}\naddlib {kit}/c/liblibc_c.a\nsave\nend\n"
    subprocess.run(["ar", "-M"], input=script, text=True, check=True)
    return archive


def shared_of(archive, out):
    """Builds libtxnobj.so of the archive."""
    shared = f"{out}/libtxnobj.so"
    run(["cc", "-shared", "-o", shared, "-Wl,-soname,libtxnobj.so.0", "-Wl,--whole-archive", archive, "-Wl,--no-whole-archive"])
    return shared
