"""The refusals of wrong bodies that this machine keeps, so that a run tries again only what has changed.

A refusal holds for the toolchain, the tool, what a check of a function can see of its crate and of the crates below with
their libraries, the text of the edit, and the functions that this changes. A check proves each function from the contracts
of what it calls, so it sees of all others all but their bodies, and the proofs of these. A file of the folder is the sheet
of a crate as others see it, over the first two: under their sum it has a line for each edit that was refused. A line that is
damaged, or of another sheet, is as none. What was not refused is tried by each run."""
from __future__ import annotations

import contextlib
import functools
import glob
import hashlib
import os
import re
import shutil
import sys

from crate_copies import libraries_listed, texts_of
from rattle_source import places_of, without_comment_lines, without_comments, without_own_bodies

# The variable that names another folder than the user's cache folder.
FOLDER_VARIABLE = "TENDRIFALO_CACHE"
# How many sheets are kept of a crate, and how many marks of runs, those that were used last.
MOST_SHEETS = 30
# The files that prove a function by its body, in a folder of its name: no other function's proof can name what is in them.
PROOFS_OF_BODIES = ("Answers.antt", "Invariants.antt", "Proof.antt")
# A line by which a file of one of these names is a module like others.
DECLARED = re.compile(r"^\s*(?:pub\s+)?mod\s+(?:Answers|Invariants|Proof)\b", re.M)
# What is left of a text of each kind where its comments are taken away.
CODE_OF = {".rt": without_comments, ".antt": without_comment_lines}
# The files of the tool that a verdict rests on.
TOOL = ("crate_copies.py", "kept_verdicts.py", "rattle_source.py", "wrong_bodies.py", "wrong_bodies_run.py")


def cache_folder(environment):
    """The folder of all that is kept, by the variables of this environment; "" where none of them tells one."""
    cache = environment.get("XDG_CACHE_HOME") or os.path.join(environment.get("HOME", ""), ".cache")
    # (a folder that is named from here would be another one wherever a command runs)
    given = [environment.get(FOLDER_VARIABLE, ""), f"{cache}/tendrifalo"]
    return next(filter(os.path.isabs, given), "")


def default_folder(environment):
    """The folder of the refusals that are kept; "" where the environment tells none."""
    given = cache_folder(environment)
    return given and f"{given}/wrong-bodies"


def remove_old(folder, most):
    """Removes the files of a folder that were used longest ago, past so many."""
    paths = [f"{folder}/{name}" for name in os.listdir(folder)]
    # (another run may have removed some meanwhile)
    with contextlib.suppress(FileNotFoundError):
        for path in sorted(paths, key=os.path.getmtime, reverse=True)[most:]:
            os.remove(path)


def sum_of(*parts):
    """A checksum of these texts in their order."""
    found = hashlib.sha256()
    for part in parts:
        found.update(b"%d\n" % len(part.encode()) + part.encode())
    return found.hexdigest()


class Bodies:
    """The bodies of the functions in a crate's texts by path, and the files that prove these, looked for once."""

    def __init__(self, texts):
        self.texts = texts
        self.places = [(path, it) for path, places in places_of(texts).items() for it in places]
        names = {it.name.rpartition("::")[2] for _, it in self.places}
        proofs = [it for it in texts if it.startswith("proofs/") and os.path.basename(it) in PROOFS_OF_BODIES]
        declares = any(DECLARED.search(text) for path, text in texts.items() if path.endswith(".antt"))
        self.proofs = set() if declares else {it for it in proofs if it.split("/")[-2] in names}

    def seen_by_others(self):
        """What a check of other functions can see of the crate, as texts by path."""
        seen = {path: text for path, text in self.texts.items() if path not in self.proofs}
        return {path: without_own_bodies(text) if path.endswith(".rt") else text for path, text in seen.items()}

    def seen_from_above(self):
        """What a check of a crate above can see of the crate, as texts by path."""
        seen = self.seen_by_others()
        return {path: CODE_OF[os.path.splitext(path)[1]](text) for path, text in seen.items()}

    def changed_by(self, edit):
        """The functions that an edit changes, with the proofs of their bodies, as texts by name or path; all texts where it
        changes more than bodies."""
        if not edit.is_of_bodies or not edit.functions:
            return self.texts
        places = [(path, it) for path, it in self.places if it.name in edit.functions]
        found = {f"function {n}": self.texts[path][it.start : it.end] for n, (path, it) in enumerate(places)}
        names = {it.rpartition("::")[2] for it in edit.functions}
        return {**found, **{path: self.texts[path] for path in self.proofs if names & {*path.split("/")}}}


def sum_of_file(path):
    found = hashlib.sha256()
    with open(path, "rb") as file:
        while block := file.read(1 << 20):
            found.update(block)
    return found.hexdigest()


def sum_of_tool():
    """A checksum of the tool's own texts."""
    here = os.path.dirname(os.path.realpath(__file__))
    return sum_of(*(sum_of_file(f"{here}/{name}") for name in TOOL))


def sum_of_toolchain(commands, root):
    """A checksum of the toolchain: of what it says that it is, of its prover, and of its libraries, by the checksum that
    each has of its own files."""
    prover, formats = shutil.which("rattle"), sorted(glob.glob(f"{glob.escape(commands.kit)}/rlibs/*/format"))
    said = commands.run(["rt", "version"], root)[1]
    return sum_of(said, sum_of_file(prover) if prover else "", *map(sum_of_file, formats))


def flat(texts):
    """Texts by path as one list, in the order of the paths."""
    return [part for pair in sorted(texts.items()) for part in pair]


class Verdicts:
    """What is kept in a folder of the crates of a repository, of which these are the texts by crate and path. With no
    folder nothing is kept. Anew nothing is known, and what is refused is kept."""

    def __init__(self, folder, root, texts, commands, is_anew=False):
        self.folder, self.root, self.texts, self.commands, self.is_anew = folder, root, texts, commands, is_anew
        self.libraries, self.bodies_of, self.seen_of = libraries_listed(root), {}, {}

    @functools.cached_property
    def base(self):
        """A checksum of what every verdict rests on."""
        return sum_of(sum_of_tool(), sum_of_toolchain(self.commands, self.root))

    def sum_of_crate(self, name, below):
        """A checksum of all that a verdict on an edit of this crate rests on but the edit and what this changes."""
        parts = [self.base, name, *self.libraries[name], "", *flat(self.bodies(name).seen_by_others())]
        for it in below:
            parts += [it, *self.libraries[it], "", *flat(self.seen(it))]
        return sum_of(*parts)

    def seen(self, name):
        """What a check of a crate above can see of this crate, read once."""
        if name not in self.seen_of:
            self.seen_of[name] = self.bodies(name).seen_from_above()
        return self.seen_of[name]

    def bodies(self, name):
        """The bodies of this crate's functions."""
        if name not in self.bodies_of:
            self.bodies_of[name] = Bodies(self.texts[name])
        return self.bodies_of[name]

    def sheet(self, name, below):
        """The sheet of a crate over these crates below it."""
        return Sheet(self, name, below) if self.folder else NoSheet()

    def is_untouched(self, name, below):
        """Whether the texts of these crates are still the same."""
        return all(texts_of(f"{self.root}/crates/{it}") == self.texts[it] for it in [name, *below])

    def warn(self, error):
        """Says once that nothing is kept."""
        if self.folder:
            print(f"wrong-bodies: nothing is kept in {self.folder}: {error.strerror}", file=sys.stderr, flush=True)
        self.folder = ""


class NoSheet:
    """The sheet where nothing is kept."""

    def has(self, edit):
        return False

    def keep(self, edits):
        pass


class Sheet:
    """The edits of a crate that were refused, as its texts and the toolchain now are."""

    def __init__(self, verdicts, name, below):
        self.verdicts, self.name, self.below = verdicts, name, below
        self.sum = verdicts.sum_of_crate(name, below)
        self.path = f"{verdicts.folder}/{name}/{self.sum[:40]}"
        self.known = set() if verdicts.is_anew else set(self.read())

    def line_of(self, edit):
        """The line that says of an edit of this sheet that it was refused."""
        of_edit = sum_of(edit.text, *flat(self.verdicts.bodies(self.name).changed_by(edit)))
        return f"refused {of_edit} {sum_of(self.sum, of_edit)[:20]}"

    def read(self):
        """The lines of the sheet's file; it has been used now."""
        try:
            with open(self.path, encoding="utf-8", errors="replace") as file:
                lines = file.read().split("\n")
        except OSError:
            return []
        with contextlib.suppress(OSError):
            os.utime(self.path)
        return lines

    def has(self, edit):
        """Whether the edit was refused."""
        return self.line_of(edit) in self.known

    def keep(self, edits):
        """Keeps that these edits were refused, unless a text that this rests on was touched meanwhile."""
        if not edits or not self.verdicts.folder or not self.verdicts.is_untouched(self.name, self.below):
            return
        try:
            os.makedirs(os.path.dirname(self.path), mode=0o700, exist_ok=True)
            with open(self.path, "a", encoding="utf-8") as file:
                # (from the start of a line, also after one that was cut off)
                file.write("".join(f"\n{self.line_of(it)}\n" for it in edits))
            remove_old(os.path.dirname(self.path), MOST_SHEETS)
        except OSError as error:
            self.verdicts.warn(error)
