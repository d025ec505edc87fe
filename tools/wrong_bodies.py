"""Which wrong bodies a check refuses: the edits, what goes into one check, and what its log says of each edit.

A check proves each function by itself, from the contracts of what it calls. So edits of different bodies do not
disturb one another, and the log of one check says for each function whether its own body was refused, or whether it
only waits for a function that it calls. Where a shared check refuses a function that no edit changes, it decides
nothing. Since a proof cites of what it calls no more than the contract, the proofs of the functions that no edit changes
are left open there, and only what such a check does not refuse is tried once more with those proofs. Nothing here runs a
check: see crate_copies.py."""
from __future__ import annotations

import os
import re
from dataclasses import dataclass, field

from rattle_source import READ_BY_OTHERS, module_of, named_in_log, places_of

MOST_IN_A_CHECK = 64
# (an own reason, as "expected answers", stands before these)
WAITING = re.compile(
    r"no proof: (?:it (?:calls|passes|waits for|drops|uses) "
    r"|the borrow checker's part in its proof is not made yet: a call of `[^`]+`, which has no proof)"
)
FUNCTION_LINE = re.compile(r"^fn (\w+)::(\S+): (.*)$", re.M)
VERDICT_LINE = re.compile(r"^logic=(\S+)", re.M)
# (the last line where not the whole crate was asked for, and where proofs were left open)
PART_LINE = re.compile(r"^only=(\d+) proved=(\d+)$", re.M)
OPEN_LINE = re.compile(r"^only=\d+ holes=\d+$", re.M)
ERROR_LINE = re.compile(r"^(?:\./)?(\S+?):\d+:\d+: error: (?:`[^`]*`: )?(.*)$", re.M)
GOAL_LINE = re.compile(r": error: `[^`]*`: ")
UNREADABLE = re.compile(
    r"is not in scope|has no field|is no name|operand is missing|expected the end|cannot continue"
)
# The proof of a function that is left open, and the files that a proof may have instead.
OPEN_PROOF = """\
use {library}.proofs.{place}.Statement.{{statement}}

pub {name}_spec : {{M : Type 1}} → statement M
{name}_spec = ?
"""
NO_BODY = "{\n    unreachable!()\n}"
PROOF_FILES = ("Proof.antt", "Answers.antt", "Invariants.antt")


class BadEdit(Exception):
    """Why an edit cannot be tried."""


@dataclass
class Edit:
    """An edit file: its pairs of an old and a new text by the path of the file that they change, and the functions that
    have to be refused, by the names that `rattle` gives them."""

    name: str
    text: str
    pairs: list
    functions: set = field(default_factory=set)
    # The modules of the files of src/ that it changes.
    modules: set = field(default_factory=set)
    # Whether it changes only bodies of functions, so that a check can try other edits beside it.
    is_of_bodies: bool = True


@dataclass
class Outcome:
    """What became of an edit: a reason where it was not refused."""

    edit: str
    reason: str = ""
    was_alone: bool = False


@dataclass
class Log:
    """What the log of a check says: its verdict ("" where it broke off), the names of functions that it proved, refused
    for their own body, could not decide, and left since they wait for others; and the first line by which it could not
    read the text."""

    verdict: str
    proved: set
    refused: set
    undecided: set
    waiting: set
    unread: str
    first_lines: str

    @property
    def is_of_functions(self):
        return bool(self.proved or self.refused or self.undecided or self.waiting)

    @property
    def is_refusal(self):
        """Whether it says of functions that they are refused, of a text that could be read."""
        return self.verdict in ("not-proved", "open") and self.is_of_functions and not self.unread


def pairs_of(text):
    """The pairs of an edit file, (path, old text, new text), the functions that its lines 'fn:' name, and those that its
    lines 'refused:' do."""
    path, old, found, named = "", None, [], {"fn": [], "refused": []}
    for line in text.split("\n"):
        word, _, said = line.partition(": ")
        if word == "file":
            path = said.strip()
            if os.path.normpath(path) != path or not path.startswith(("src/", "specs/", "proofs/")):
                raise BadEdit(f"{path} is no file below src/, specs/ or proofs/")
        elif word == "old":
            if old is not None:
                raise BadEdit("an 'old:' line has no 'new:' line")
            old = said
        elif line.startswith("new:"):
            if not path or not old:
                raise BadEdit("a 'new:' line stands before any 'file:' or 'old:' line")
            found.append((path, old, re.sub(r"\A ", "", line[len("new:") :])))
            old = None
        elif word in named:
            named[word].append(said.strip())
    if old is not None:
        raise BadEdit("an 'old:' line has no 'new:' line")
    if not found:
        raise BadEdit("it has no 'old:' and 'new:' pair")
    if named["fn"] and (named["refused"] or not all(it.startswith("src/") for it, _, _ in found)):
        raise BadEdit("a line 'fn:' stands beside a line 'refused:', or a change of what is no body")
    if not any(named.values()) and not any(it.startswith("src/") for it, _, _ in found):
        raise BadEdit("it changes no file of src/, and no line 'refused:' names a function that this makes false")
    return found, named["fn"], named["refused"]


def applied(texts, pairs):
    """The texts by path with these pairs applied in turn."""
    texts = dict(texts)
    for path, old, new in pairs:
        if path not in texts:
            raise BadEdit(f"there is no file {path}")
        found = texts[path].count(old)
        if found != 1:
            raise BadEdit(f"an 'old:' text is in {path} {found} times, and not once")
        texts[path] = texts[path].replace(old, new)
    return texts


def read_edit(name, text, texts, known):
    """The edit of this text, which fits the crate's texts and names functions that are known."""
    pairs, changed, refused = pairs_of(text)
    applied(texts, pairs)
    functions, modules = {*changed, *refused}, {module_of(it) for it, _, _ in pairs if it.startswith("src/")}
    for it in sorted(functions - {*known}):
        raise BadEdit(f"src/ has no function {it}")
    return Edit(name, text, pairs, functions, modules, bool(changed))


def functions_in(texts):
    """The functions of a crate's texts by path, each with whether its name is sure."""
    return {it.name: it.is_sure for places in places_of(texts).values() for it in places}


def batches(texts, edits, most=MOST_IN_A_CHECK):
    """Splits the edits into those of one check each: each function at most once, each text still once in its file.
    What changes more than bodies, as a constant, stands alone, since it can change what others are proved from."""
    rest, found = list(edits), []
    while rest:
        batch, taken, later, changed = [], set(), [], texts
        for edit in rest:
            is_alone = bool(batch) and not (edit.is_of_bodies and batch[0].is_of_bodies)
            if is_alone or edit.functions & taken or len(batch) >= most:
                later.append(edit)
                continue
            try:
                changed = applied(changed, edit.pairs)
            except BadEdit:
                later.append(edit)
                continue
            batch.append(edit)
            taken |= edit.functions
        found.append(batch)
        rest = later
    return found


def unread_line(text, changed):
    """The first line of a log by which the check could not read a text of the crate, as `rt ci` decides it."""
    for found in ERROR_LINE.finditer(text):
        if found[1].startswith(("src/", "specs/")) or found[1] in changed:
            said = re.sub(r"`[^`]*`", "", found[2])
            if not GOAL_LINE.search(found[0]) or UNREADABLE.search(said):
                return found[0]
    return ""


def read_log(crate, text, changed=()):
    """Reads the log of a check of this crate in which the files `changed` were edited."""
    parts = ["proved" if asked == proved else "not-proved" for asked, proved in PART_LINE.findall(text)]
    parts += ["open" for _ in OPEN_LINE.findall(text)]
    verdict = (VERDICT_LINE.findall(text) or parts or [""])[-1]
    first_lines = " | ".join(text.strip().split("\n")[:6])
    log = Log(verdict, set(), set(), set(), set(), unread_line(text, changed), first_lines)
    for name, path, said in FUNCTION_LINE.findall(text):
        if name != crate:
            continue
        if said.startswith("proved"):
            log.proved.add(path)
        elif WAITING.match(said):
            log.waiting.add(path)
        elif said.startswith(("not proved", "no proof")):
            log.refused.add(path)
        else:
            log.undecided.add(path)
    return log


def refused_unchanged(log, edits, functions):
    """The first function that the log refuses for its own body though none of these edits changes it, "" where there is
    none: where edits change bodies alone, only the check itself can be wrong there."""
    changed = functions_of(edits)
    for path in sorted(log.refused):
        named = named_in_log(path, functions)
        if named and not named & changed:
            return path
    return ""


def refused_for_sure(log, functions):
    """The functions that the log names as refused where the name can stand for no other function."""
    named = [named_in_log(path, functions) for path in log.refused]
    return {next(iter(it)) for it in named if len(it) == 1}


def is_refused_alone(edit, log, functions):
    """Whether the log of a check with this edit alone refuses what the edit changes."""
    if edit.functions:
        return any(edit.functions & named_in_log(path, functions) for path in log.refused)
    return any(not module or path.startswith(f"{module}::") for module in edit.modules for path in log.refused)


def why_not_refused(edit, log):
    """Why an edit that was tried alone counts as not refused."""
    names = ", ".join(sorted(edit.functions)) or "any function of its module"
    if log.unread or not log.is_of_functions:
        said = (log.unread or log.first_lines)[:300]
        return f"BAD EDIT: the edited text cannot be read, so no contract was tried: {said}"
    if not log.verdict:
        return f"NOT REFUSED: the check broke off: {log.first_lines[:300]}"
    if log.refused:
        others = ", ".join(sorted(log.refused)[:3])
        return f"NOT REFUSED: the check refused {others}, and not {names}, which the edit changes"
    if log.undecided:
        return f"NOT REFUSED: the check could not tell of {', '.join(sorted(log.undecided)[:3])}"
    if log.waiting:
        return f"NOT REFUSED: functions only wait for others, as {sorted(log.waiting)[0]}"
    return "NOT REFUSED: the crate is still proved with this edit"


def functions_of(edits):
    """The functions that any of the edits changes."""
    return {it for edit in edits for it in edit.functions}


def names_to_check(edits):
    """For each function that an edit changes the names by which a check can be asked for it alone, the least first: its
    own, and its module. Of an edit of no function, its modules. None stands for the whole crate."""
    names = [[it, module_in(it)] for it in sorted(functions_of(edits))]
    names += [[module] for edit in edits if not edit.functions for module in sorted(edit.modules)]
    return [[it for it in some if it] for some in names]


def module_in(function):
    """The module in the name of a function."""
    return "::".join(it for it in function.split("::")[:-1] if not it[0].isupper())


def can_be_open(edits):
    """Whether these edits change bodies alone, so that a check of their functions needs no other body."""
    return all(it.is_of_bodies for it in edits)


def left_open(crate, texts, changed):
    """The texts by path of a crate in which each function but those that are changed has no body to prove, and a proof
    that is left open; None stands for a file that goes."""
    files = {}
    for path, places in places_of(texts).items():
        text = texts[path]
        for place in reversed([it for it in places if it.name not in changed and can_be_left_open(it, text)]):
            text = text[: place.body] + NO_BODY + text[place.end :]
            files.update(open_proof(crate, texts, place.name))
        files[path] = text
    return files


def can_be_left_open(place, text):
    """Whether no other function's proof reads the body of this one, it has one, and `rattle` knows it by its name."""
    head = text[place.start : place.body]
    is_read = place.name == "main" or place.is_of_trait or READ_BY_OTHERS.search(head)
    return text[place.body : place.body + 1] == "{" and place.is_sure and not is_read


def open_proof(crate, texts, function):
    """The files by path that leave the proof of a function open. Where `rattle` knows it by another name they are read by
    nobody."""
    place = function.split("::")
    folder = f"proofs/{'/'.join(place)}"
    files = {f"{folder}/{it}": None for it in PROOF_FILES if f"{folder}/{it}" in texts}
    text = OPEN_PROOF.format(library=f"Rattle.{crate}", place=".".join(place), name=place[-1])
    return {**files, f"{folder}/{PROOF_FILES[0]}": text}


class Trial:
    """Tries edits of one crate. `check` takes the crate's changed texts by path, None for one that goes, and the names of
    what to check, and gives the log of their check."""

    def __init__(self, crate, texts, check):
        self.crate, self.texts, self.check = crate, texts, check
        self.functions = functions_in(texts)

    def log_of(self, edits, names, is_open=False):
        """The log of a check of these edits together, of what the names name; where `is_open`, the functions that no edit
        changes have no bodies, and their proofs are left open."""
        texts = self.texts
        for edit in edits:
            texts = applied(texts, edit.pairs)
        changed = {path: text for path, text in texts.items() if text != self.texts[path]}
        given = left_open(self.crate, texts, functions_of(edits)) if is_open else changed
        return read_log(self.crate, self.check(given, names), changed)

    def together(self, batch, is_open=False):
        """Tries a batch in one check. Returns the outcomes of the edits that it decides, and the other edits."""
        if len(batch) == 1 and not is_open:
            return [self.alone(batch[0])], []
        log = self.log_of(batch, names_to_check(batch), is_open)
        is_sound = log.is_refusal and not refused_unchanged(log, batch, self.functions)
        refused = refused_for_sure(log, self.functions) if is_sound else set()
        well = [it for it in batch if refused & it.functions]
        return [Outcome(it.name) for it in well], [it for it in batch if it not in well]

    def is_named(self, edit, log):
        """Whether the log says anything of a function that the edit changes."""
        paths = log.proved | log.refused | log.undecided | log.waiting
        return any(edit.functions & named_in_log(path, self.functions) for path in paths)

    def alone(self, edit):
        """Tries one edit in a check of its own, and of the whole crate where a check of less says nothing of it."""
        log = self.log_of([edit], names_to_check([edit]))
        if not log.unread and edit.functions and not self.is_named(edit, log):
            log = self.log_of([edit], [])
        if log.is_refusal and is_refused_alone(edit, log, self.functions):
            return Outcome(edit.name, was_alone=True)
        return Outcome(edit.name, why_not_refused(edit, log), was_alone=True)
