"""The command tools/replay-cases: runs programs on the cases of folders and compares what they write."""
from __future__ import annotations

import argparse
import difflib
import html
import os
import re
import shutil
import subprocess
import sys

SECONDS = 60
LINES_SHOWN = 20
ENDINGS = (".stdout", ".stderr", ".status", ".args", ".trace", ".svg")
# The tables of bad lines, by their names: what stands before each of the lines.
TABLES = {"first.table": b"", "second.table": b"clients 1\n"}
# The words of the commands that play a script, and those that draw the same one behind the name of a drawing's command.
DRAWS = {("script",): [], ("manifest",): ["manifest"]}
# The words of the command that lists scripts, each between its outcome's first lines and what it prints, divided by empty lines.
LISTS = ["explore"]
# The lines at the foot of a picture, each in a part of one text.
PICTURE_FOOT = re.compile(rb"<text class='mu' x='14' y='\d+'>((?:<tspan[^>]*>[^<]*</tspan>)*)</text>\n<g transform")
PICTURE_LINE = re.compile(rb"<tspan[^>]*>([^<]*)</tspan>")
# The line with which the end lines of a script begin.
FIRST_END_LINE = re.compile(rb"^(?:entry 1 |boundary )", re.M)
# The folder of the cases that are of another program than the others.
PORT = "cases/port"
# The recordings, which tools/try-folder has audited and drawn.
RECORDINGS = "cases/recordings"


class BadCase(Exception):
    """Why the files of a case are no case."""


def say(text):
    print(text, flush=True)


def bytes_of(path, without):
    """What a file holds, or a default where there is no such file."""
    if not os.path.isfile(path):
        return without
    with open(path, "rb") as file:
        return file.read()


class Case:
    """A script and what a program has to answer to it."""

    def __init__(self, stem):
        self.stem, self.name = stem, f"{stem}.txt"
        self.given = bytes_of(f"{stem}.txt", b"")
        self.arguments = os.fsdecode(bytes_of(f"{stem}.args", b"script\n")).splitlines()
        status = bytes_of(f"{stem}.status", b"0").strip()
        if not status.isdigit() or int(status) > 255:
            raise BadCase("its .status is no number from 0 to 255")
        self.wanted = {
            "standard output": bytes_of(f"{stem}.stdout", b""),
            "standard error": bytes_of(f"{stem}.stderr", b""),
            "exit status": b"%d\n" % int(status),
        }

    def run(self, program, words=()):
        """What a program answers, in the form of `wanted`."""
        ran = subprocess.run([program, *(words or self.arguments)], input=self.given, capture_output=True, timeout=SECONDS)
        return {"standard output": ran.stdout, "standard error": ran.stderr, "exit status": b"%d\n" % ran.returncode}

    def drawing_faults(self, program):
        """How a program's drawings of a script, as text and as a picture, differ from what is wanted, as lines: each has the
        script's end lines at its foot, and is the one that stands beside the script, where one does. None for a case that is no
        script or does not play."""
        words = DRAWS.get(tuple(self.arguments))
        ends = FIRST_END_LINE.search(self.wanted["standard output"])
        if words is None or not ends or self.wanted["exit status"] != b"0\n":
            return []
        foot = self.wanted["standard output"][ends.start() :]
        return [
            *self.faults_of("drawing", self.run(program, ["trace", *words]), ".trace", foot, foot_of_text),
            *self.faults_of("picture", self.run(program, ["picture", *words]), ".svg", foot, foot_of_picture),
        ]

    def faults_of(self, name, drawn, ending, foot, foot_of):
        """How a drawing differs from what is wanted, as lines."""
        wanted = {**self.wanted, "foot": foot}
        text = drawn["standard output"]
        drawn["foot"] = foot_of(text)
        wanted["standard output"] = bytes_of(f"{self.stem}{ending}", text)
        found = [line for what in wanted for line in difference(f"{what} of its {name}", wanted[what], drawn[what])]
        return found + (xml_faults(text) if ending == ".svg" else [])

    def listed_faults(self, program):
        """How what a program prints of the scripts that a case lists differs from what stands beside them, as lines."""
        if self.arguments != LISTS:
            return []
        parts = self.wanted["standard output"].rstrip(b"\n").split(b"\n\n")[1:]
        found = [] if len(parts) % 3 == 0 else ["its outcomes are not of three parts each"]
        for script, printed in zip(parts[1::3], parts[2::3]):
            ran = subprocess.run([program, "script"], input=script + b"\n", capture_output=True, timeout=SECONDS)
            found += difference("what a listed script prints", printed + b"\n", ran.stdout)
        return found

    def faults(self, program, draws=False):
        """How a program's answer differs from what is wanted, as lines, what it prints of listed scripts, and its drawing, where
        it makes one."""
        try:
            written = self.run(program)
            drawn = self.listed_faults(program) + (self.drawing_faults(program) if draws else [])
        except subprocess.TimeoutExpired:
            return [f"it had not ended after {SECONDS} seconds"]
        except OSError as error:
            return [f"it cannot be run: {error.strerror}"]
        return [line for what, wanted in self.wanted.items() for line in difference(what, wanted, written[what])] + drawn


class BadLine(Case):
    """A script that ends with a bad line, whose status is 2 and whose output is none."""

    def __init__(self, stem, before, line):
        super().__init__(stem)
        self.name, self.given = stem, before + line + b"\n"
        self.wanted["standard error"] = b"line %d: bad line\n" % self.given.count(b"\n")
        self.wanted["exit status"] = b"2\n"


def bad_lines(path):
    """The cases of a table, each line of which is a name, a colon, and the bad line."""
    for entry in bytes_of(path, b"").split(b"\n")[:-1]:
        name, colon, line = entry.partition(b": ")
        if not colon:
            raise BadCase(f"{path} has a line without a name")
        yield BadLine(f"{path}:{os.fsdecode(name)}", TABLES[os.path.basename(path)], line)


def foot_of_text(drawn):
    """The lines at the foot of a drawing in text."""
    return drawn.rpartition(b"\n\n")[2]


def foot_of_picture(drawn):
    """The lines at the foot of a picture, which end with a line feed each."""
    found = PICTURE_FOOT.search(drawn)
    lines = PICTURE_LINE.findall(found.group(1)) if found else []
    return html.unescape(b"\n".join(lines).decode()).encode()


def xml_faults(text):
    """What `xmllint` says of a picture, as lines, where it is installed."""
    if not shutil.which("xmllint"):
        return []
    ran = subprocess.run(["xmllint", "--noout", "-"], input=text, capture_output=True, timeout=SECONDS)
    return ran.stderr.decode(errors="replace").splitlines()[:LINES_SHOWN] or ["xmllint takes no picture"] if ran.returncode else []


def difference(what, wanted, written):
    """A short diff of two texts as lines, none where they are the same bytes."""
    if wanted == written:
        return []
    # (line by line as Python writes bytes, so that each byte that differs is seen)
    lines = [[repr(it)[2:-1] for it in text.splitlines(keepends=True)] for text in (wanted, written)]
    shown = list(difflib.unified_diff(*lines, "wanted", "written", lineterm="", n=1))
    more = [f".. {len(shown) - LINES_SHOWN} more lines"] if len(shown) > LINES_SHOWN else []
    return [f"{what}:", *shown[:LINES_SHOWN], *more]


def stems_in(folder, without=()):
    """The cases below a folder, aside from some folders in it, by their paths without an ending, and what makes the folder
    wrong, as lines."""
    stems, wrong, paths = [], [], set()
    for at, folders, names in os.walk(folder):
        folders[:] = sorted(it for it in folders if os.path.abspath(f"{at}/{it}") not in without)
        paths.update(f"{at}/{it}" for it in names)
    for path in sorted(paths):
        stem, ending = os.path.splitext(path)
        if os.path.basename(path) in TABLES:
            stems.append(path)
        elif ending == ".txt":
            stems.append(stem)
            if f"{stem}.stdout" not in paths:
                wrong.append(f"{path} has no .stdout beside it")
        elif ending in ENDINGS and f"{stem}.txt" not in paths:
            wrong.append(f"{path} has no .txt beside it")
    if not stems:
        wrong.append(f"{folder} has no case")
    return [it for it in stems if it in paths or f"{it}.stdout" in paths], wrong


def cases_of(stem):
    """The cases of a table, or the one of a script."""
    return [*bad_lines(stem)] if os.path.basename(stem) in TABLES else [Case(stem)]


def replay(programs, folders, without=(), draws=False):
    """Runs each case on each program, and has it drawn too where asked. Returns how many passed and how many failed."""
    passed = failed = 0
    for folder in folders:
        stems, wrong = stems_in(folder, without)
        for line in wrong:
            say(f"FAILED: {line}")
        failed += len(wrong)
        for stem in stems:
            try:
                cases = cases_of(stem)
            except BadCase as error:
                say(f"FAILED: {stem}: {error}")
                failed += 1
                continue
            for case in cases:
                for program in programs:
                    faults = case.faults(program, draws)
                    passed, failed = passed + (not faults), failed + bool(faults)
                    if faults:
                        say("\n  ".join([f"FAILED: {case.name} on {os.path.basename(program)}", *faults]))
    return passed, failed


def main(words, usage=""):
    """Replays the cases and returns the exit status."""
    form = argparse.RawDescriptionHelpFormatter
    parser = argparse.ArgumentParser(prog="tools/replay-cases", description=usage, formatter_class=form)
    parser.add_argument("programs", nargs="+", metavar="PROGRAM")
    parser.add_argument("--folder", nargs="+", metavar="FOLDER", help="replay these folders")
    parser.add_argument("--drawn", action="store_true", help="have each script drawn too")
    given = parser.parse_args(words)
    top = os.path.dirname(os.path.dirname(os.path.realpath(__file__)))
    folders = given.folder or [f"{top}/cases", f"{top}/examples"]
    passed, failed = replay([os.path.abspath(it) for it in given.programs], folders, [f"{top}/{PORT}", f"{top}/{RECORDINGS}"], given.drawn)
    if given.drawn and not shutil.which("xmllint"):
        say("xmllint is not installed: no picture was held against the rules of XML")
    say(f"{passed} passed, {failed} failed")
    return 1 if failed or not passed else 0


if __name__ == "__main__":
    sys.exit(main(sys.argv[1:]))
