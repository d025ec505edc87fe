"""Copies of a repository's crates in a temporary folder, and the checks that run in them.

The first copy of a crate, in which `rt` proves it without edits, has the libraries below it beside it, since `rt` lets
only one run at a time work in a crate or in a library that it uses. It takes what earlier checks of the checkout kept,
and leaves the checkout as it is. The checks of edited texts run `rattle` itself, which is told where those libraries
lie, and to prove the edited functions and what they call alone. Where no check of the crate left work that it can take, it
is given the edited crate by its source, as a library of a crate that has nothing: for functions of the crate itself that it
refuses it prints files of answers to write, for which the prover runs once more."""
from __future__ import annotations

import fcntl
import functools
import os
import re
import shutil
import signal
import subprocess
import threading

PARTS = ("src", "specs", "proofs")
# The folder of a copy that has the crate with nothing, and what the file of that says.
USER, NOTHING = "user", "//! Nothing of its own.\n"
# What `rattle` says where a name fits no function, or several.
UNKNOWN = re.compile(r"^rattle: error: (?:`[^`]+` has no function|several functions are named) `([^`]+)`", re.M)


def libraries_listed(root):
    """The crates of crates.txt, each with the libraries that it uses: crates of the repository, and of the kit."""
    uses = {}
    with open(f"{root}/crates.txt", encoding="utf-8") as lines:
        for line in lines:
            head, _, libraries = line.partition("#")[0].partition(":")
            if head.split():
                uses[head.split()[0]] = re.findall(r"[\w-]+", libraries)
    return uses


def is_static(root, name):
    """Whether crates.txt lists a crate as a static library, which no other crate uses."""
    heads = (line.partition("#")[0].partition(":")[0].split() for line in lines_of_crates(root, [name]))
    return any("staticlib" in head for head in heads)


def crates_listed(root):
    """The crates of crates.txt, each with the crates of the repository that it uses, those below first."""
    uses = libraries_listed(root)
    uses = {name: [it for it in libraries if it in uses] for name, libraries in uses.items()}
    return {name: uses[name] for name in sorted(uses, key=lambda it: (len(all_below(it, uses)), it))}


def all_below(name, uses):
    """The crates that this one uses, and those that they use."""
    found = set()
    for it in uses[name]:
        found |= {it} | all_below(it, uses)
    return found


def lines_of_crates(root, names):
    """The lines of crates.txt of these crates."""
    with open(f"{root}/crates.txt", encoding="utf-8") as lines:
        return [it for it in lines if (it.partition("#")[0].partition(":")[0].split() or [""])[0] in names]


def texts_of(crate):
    """The texts of a crate by path."""
    texts = {}
    for part in PARTS:
        for folder, folders, names in os.walk(f"{crate}/{part}"):
            folders.sort()
            for name in sorted(names):
                if name.endswith((".rt", ".antt")):
                    with open(f"{folder}/{name}", encoding="utf-8") as file:
                        texts[os.path.relpath(f"{folder}/{name}", crate)] = file.read()
    return texts


def linked(file, to):
    """Gives a file that nothing writes into a second name, which takes no room, or copies it where it cannot have one.
    A built library may have hundreds of megabytes, and each copy of a crate above wants it."""
    try:
        os.link(file, to)
    except OSError:
        shutil.copy2(file, to)


def rlib_in(folder):
    """The library of the crate in this folder, where `rt lib` and `rt ci` leave it."""
    return f"{folder}/out/rlib/{os.path.basename(folder)}.rlib"


class Commands:
    """Runs commands and counts the processor time of each with all that it started."""

    def __init__(self):
        self.running, self.lock = set(), threading.Lock()

    @functools.cached_property
    def kit(self):
        """The folder of the kit: that of the page which `rt doc` names."""
        return os.path.dirname(self.run(["rt", "doc"], os.getcwd())[1].strip())

    def run(self, words, folder):
        """Returns a command's status, its output, and its seconds of processor time."""
        how = {"stdin": subprocess.DEVNULL, "stdout": subprocess.PIPE, "stderr": subprocess.STDOUT}
        process = subprocess.Popen(words, cwd=folder, text=True, errors="replace", **how)
        with self.lock:
            self.running.add(process)
        try:
            said = process.stdout.read()
            _, status, used = os.wait4(process.pid, 0)
            process.returncode = os.WEXITSTATUS(status) if os.WIFEXITED(status) else -os.WTERMSIG(status)
        finally:
            process.stdout.close()
            with self.lock:
                self.running.discard(process)
        return process.returncode, said, used.ru_utime + used.ru_stime

    def stop(self):
        """Ends what still runs."""
        with self.lock:
            for process in self.running:
                process.terminate()


class Copies:
    """The copies of one crate: `new` makes one, with the crate's own text, for one check at a time."""

    def __init__(self, root, room, name, uses, commands):
        self.root, self.room, self.name, self.commands = root, room, name, commands
        self.below = sorted(all_below(name, uses))
        self.texts = texts_of(f"{root}/crates/{name}")
        self.free, self.made, self.lock, self.seconds = [], 0, threading.Lock(), 0.0

    def new(self, source, libraries, kept=("out/incremental",)):
        """Makes a copy of the crate's folder `source` with these parts of what was kept there, and of its libraries'
        folders."""
        with self.lock:
            self.made += 1
            top = f"{self.room}/{self.name}-{self.made}"
        os.makedirs(top)
        with open(f"{top}/crates.txt", "w", encoding="utf-8") as file:
            file.writelines(lines_of_crates(self.root, {self.name, *self.below}))
        self.copy_parts(source, f"{top}/crates/{self.name}", [*PARTS, *kept])
        for name in self.below:
            self.copy_parts(libraries[name], f"{top}/crates/{name}", [*PARTS, "out/rlib"], linked)
        return f"{top}/crates/{self.name}"

    def remove_free(self):
        """Removes the copies in which edits were tried."""
        for copy in self.free:
            shutil.rmtree(os.path.dirname(os.path.dirname(copy)))
        self.free = []

    @staticmethod
    def remove_kept_work(first):
        """Removes what the first copy kept of its check: the crates above need its library alone."""
        shutil.rmtree(f"{first}/out/incremental", ignore_errors=True)

    @staticmethod
    def copy_parts(crate, to, parts, copy=shutil.copy2):
        """Copies parts of a crate's folder while no `rt` works in it, each file by `copy`."""
        held = os.open(crate, os.O_RDONLY)
        try:
            fcntl.flock(held, fcntl.LOCK_EX)
            for part in parts:
                if os.path.isdir(f"{crate}/{part}"):
                    shutil.copytree(f"{crate}/{part}", f"{to}/{part}", symlinks=True, copy_function=copy)
        finally:
            os.close(held)

    def run(self, copy, words):
        """Runs a command in a copy, and returns its status and output."""
        status, said, seconds = self.commands.run(words, copy)
        with self.lock:
            self.seconds += seconds
        return status, said

    def run_rt(self, copy, verb):
        return self.run(copy, ["rt", verb, "--jobs", "1"])

    def new_of_parts(self, source, kept=("out/incremental",)):
        """Makes a copy of the crate's folder `source` for `rattle`, which needs no library beside it."""
        with self.lock:
            self.made += 1
            copy = f"{self.room}/{self.name}-{self.made}/crates/{self.name}"
        self.copy_parts(source, copy, [*PARTS, *kept])
        return copy

    def words_of_crate(self, copy, is_library):
        """The words that name the crate of a copy: by itself, or as a library that another uses, unless it is a program or a static
        library."""
        is_program = os.path.isfile(f"{copy}/src/main.rt")
        if is_static(self.root, self.name):
            return ["--crate-name", self.name, "src/lib.rt", "--crate-type", "staticlib"]
        if is_program or not is_library:
            return ["--crate-name", self.name, "src/main.rt" if is_program else "src/lib.rt"]
        user = f"{os.path.dirname(os.path.dirname(copy))}/{USER}/src/lib.rt"
        os.makedirs(os.path.dirname(user), exist_ok=True)
        with open(user, "w", encoding="utf-8") as file:
            file.write(NOTHING)
        return ["--crate-name", f"{USER}_of_{self.name}", user, "--lib", f"{self.name}=src/lib.rt"]

    def words_of_check(self, copy, libraries, is_library, keeps):
        """The command that checks a copy over these folders of the crates below it, by itself or as a library, and which
        `keeps` its work there or not."""
        kit, at = self.commands.kit, {name: rlib_in(libraries[name]) for name in self.below}
        listed = libraries_listed(self.root)[self.name]
        words = ["rattle", "check", *self.words_of_crate(copy, is_library)]
        for name in ["std", *(it for it in listed if it not in at)]:
            words += ["--extern", f"{name}={kit}/rlibs/{name}.rlib"]
        words += ["-L", f"dependency={kit}/rlibs"]
        for name in (it for it in listed if it in at):
            words += ["--extern", f"{name}={at[name]}"]
        for path in at.values():
            words += ["-L", f"dependency={os.path.dirname(path)}"]
        words += ["--antt-project", f"{kit}/rattle/logic/antt-project.json", "--logic-built", f"{kit}/logic_built"]
        return [*words, "--jobs", "1", *["--incremental", "out/incremental"] * keeps]

    def check_in(self, copy, libraries, is_library, keeps, changed, only):
        """The log of a check of a copy with these texts in place of the crate's own, None for one that goes. `only` has for
        each function to prove the names to try for it, one after the other where `rattle` knows no such function; with
        none left, or with no function, the whole crate is checked. Where it `keeps` its work it takes what earlier checks
        kept in the copy, if they were of the crate by itself as this one is, or as a library as this one is."""
        texts = {path: text for path, text in {**self.texts, **changed}.items() if text is not None}
        for path in texts_of(copy).keys() - texts:
            os.remove(f"{copy}/{path}")
        for path, text in texts.items():
            os.makedirs(os.path.dirname(f"{copy}/{path}"), exist_ok=True)
            with open(f"{copy}/{path}", "w", encoding="utf-8") as file:
                file.write(text)
        words, only = self.words_of_check(copy, libraries, is_library, keeps), [list(names) for names in only]
        words += ["--allow-holes"] * any(path not in self.texts for path in texts)
        while True:
            asked = sorted({names[0] for names in only}) if all(only) else []
            run = [*words, *(word for it in asked for word in ("--only", it))]
            status, said = self.run(copy, run)
            if status == -signal.SIGKILL:
                # (most likely for memory: once more)
                said = self.run(copy, run)[1]
            unknown = UNKNOWN.search(said)
            if not unknown or unknown[1] not in asked:
                return said
            only = [names[1:] if names[0] == unknown[1] else names for names in only]
