"""What tools/try-bindings does."""
from __future__ import annotations

import argparse
import os
import re
import shutil
import subprocess
import sys
import tempfile

from c_library import CRATE, HEADER, NotBuilt, archive_of, shared_of

ROOT = os.path.dirname(os.path.dirname(os.path.realpath(__file__)))
# The programs of bindings/c, with what the linker is told of each: faults.c stands between the library and the memory it takes.
PROGRAMS = {"count": [], "faults": ["-Wl,--wrap=malloc,--wrap=realloc"], "long": [], "recorded": []}
# The program that audits what recorded.c was recorded as, where it is built.
AUDIT = os.environ.get("TXNOBJ_PROGRAM", f"{ROOT}/crates/txnobj_cli/out/txnobj_cli")
SANITIZERS = ["-fsanitize=address,undefined", "-fno-sanitize-recover=all", "-g"]
# What C has for the types of exports, but for buffers, whose lengths C has beside them.
TYPES = {
    "&mut Client": "txnobj_client *",
    "u8": "uint8_t",
    "u64": "uint64_t",
    "usize": "size_t",
    "bool": "bool",
    "&[u8]": "const uint8_t * size_t",
    "&mut [u8]": "uint8_t * size_t",
    "&[u64]": "const uint64_t * size_t",
    "&mut [u64]": "uint64_t * size_t",
    "&mut u64": "uint64_t *",
    "&mut usize": "size_t *",
    "&[Listed]": "const txnobj_listed_t * size_t",
    "&mut Asked": "txnobj_asked_t *",
    "&mut Answered": "txnobj_answered_t *",
    "&mut Viewed": "txnobj_view_t *",
}


def exports_of(root):
    """The exports of the crate by their names: what they take and answer, as C has it."""
    found = {}
    folder = f"{root}/crates/{CRATE}/src"
    for name in sorted(os.listdir(folder)):
        with open(f"{folder}/{name}", encoding="utf-8") as file:
            text = file.read()
        for export in re.finditer(r'pub extern "C" fn (txnobj_\w+)\(([^)]*)\)(?: -> (\w+))?', text):
            takes = [it.split(":", 1)[1].strip() for it in export[2].split(",") if it.strip()]
            found[export[1]] = [*(TYPES.get(it, it) for it in takes if it != "Global"), TYPES.get(export[3], "void")]
    return found


def unnamed(parameter):
    """What a parameter takes, without its name."""
    return parameter if parameter.endswith("*") else re.sub(r"(?<=[ *])\w+$", "", parameter).strip()


def prototypes_of(root):
    """The functions of the header by their names, without the names of what they take."""
    with open(f"{root}/{HEADER}", encoding="utf-8") as file:
        text = re.sub(r"/\*.*?\*/", "", file.read(), flags=re.S)
    found = {}
    for it in re.finditer(r"^(\w+) (txnobj_\w+)\(([^)]*)\);", text, re.M):
        takes = [unnamed(part.strip()) for part in it[3].split(",")]
        found[it[2]] = [*(" ".join(part.replace("*", " * ").split()) for part in takes), it[1]]
    return found


def joined(words):
    return " ".join(" ".join(words).split())


def header_differs(root):
    """Where the header and the exports differ."""
    exports, prototypes = exports_of(root), prototypes_of(root)
    lines = [f"{it}: only in one of the two" for it in sorted(set(exports) ^ set(prototypes))]
    for name in sorted(set(exports) & set(prototypes)):
        ours, theirs = joined(exports[name]), joined(prototypes[name])
        if ours != theirs:
            lines.append(f"{name}: {ours} is exported, and the header has {theirs}")
    return lines or ([] if exports else ["there are no exports"])


class Checks:
    """What was tried, and how it ended."""

    def __init__(self):
        self.passed, self.failed = 0, 0

    def note(self, name, why=""):
        print(f"{'FAILED' if why else 'ok'}: {name}{': ' if why else ''}{why}", flush=True)
        self.passed, self.failed = self.passed + (not why), self.failed + bool(why)

    def run(self, name, words, environment=None):
        how = {"stdin": subprocess.DEVNULL, "capture_output": True, "text": True, "check": False}
        done = subprocess.run(words, env={**os.environ, **(environment or {})}, **how)
        text = done.stdout + done.stderr
        self.note(name, "" if done.returncode == 0 else f"status {done.returncode}: {text[-3000:]}")
        return done.returncode == 0

    def compiled(self, name, archive, out, flags):
        """A program of bindings/c, compiled with these flags, where it compiles."""
        program = f"{out}/{name}{len(flags)}"
        source = f"{ROOT}/bindings/c/{name}.c"
        words = ["cc", "-std=c11", "-Wall", "-Wextra", "-Werror", "-O1", *flags, f"-I{ROOT}/{os.path.dirname(HEADER)}", source]
        done = subprocess.run([*words, archive, *PROGRAMS[name], "-o", program], capture_output=True, text=True, check=False)
        return (program, "") if done.returncode == 0 else (None, done.stderr[-2000:])

    @staticmethod
    def can_run(out, flags, words):
        """Whether a program that does nothing, compiled with these flags, runs by these words here."""
        program = f"{out}/nothing"
        with open(f"{program}.c", "w", encoding="utf-8") as file:
            file.write("int main(void) { return 0; }\n")
        quiet = {"stdin": subprocess.DEVNULL, "capture_output": True, "check": False}
        if subprocess.run(["cc", *flags, f"{program}.c", "-o", program], **quiet).returncode:
            return False
        return subprocess.run([*words, program], **quiet).returncode == 0

    def programs(self, archive, out):
        valgrind = ["valgrind", "--quiet", "--leak-check=full", "--errors-for-leak-kinds=all", "--error-exitcode=9"]
        has_valgrind = bool(shutil.which("valgrind")) and self.can_run(out, [], valgrind)
        has_sanitizers = self.can_run(out, SANITIZERS, [])
        for name in PROGRAMS:
            program, why = self.compiled(name, archive, out, [])
            if program is None:
                self.note(f"{name}.c compiles", why)
                continue
            self.run(f"{name}.c", [program])
            if name == "recorded" and os.path.exists(AUDIT):
                self.run("recorded.c is recorded", [program, f"{out}/recorded.diary"])
                self.run("an audit of what it recorded", [AUDIT, "audit", f"{out}/recorded.diary"])
            if has_valgrind and name == "count":
                self.run(f"{name}.c under valgrind", [*valgrind, program])
            if has_sanitizers:
                program, why = self.compiled(name, archive, out, SANITIZERS)
                if program is None:
                    self.note(f"{name}.c compiles with sanitizers", why)
                else:
                    self.run(f"{name}.c with sanitizers", [program])

    def python(self, shared):
        tests = f"{ROOT}/bindings/python"
        words = [sys.executable, "-B", "-m", "unittest", "discover", "-q", "-s", f"{tests}/tests", "-t", tests]
        environment = {**os.environ, "TXNOBJ_LIBRARY": shared}
        done = subprocess.run(words, env=environment, cwd=tests, capture_output=True, text=True, check=False)
        ran = re.findall(r"^Ran (\d+) tests? in ", done.stderr, re.M)
        bad = sum(map(int, re.findall(r"(?:failures|errors)=(\d+)", done.stderr)))
        if done.returncode or not ran:
            print(done.stderr[-6000:], flush=True)
        self.passed += max(0, int(ran[-1]) - bad) if ran else 0
        self.failed += bad or (0 if ran and not done.returncode else 1)
        print(f"{'ok' if not done.returncode else 'FAILED'}: {ran[-1] if ran else 'no'} tests of bindings/python", flush=True)


def main(words, usage):
    form = argparse.RawDescriptionHelpFormatter
    parser = argparse.ArgumentParser(prog="tools/try-bindings", description=usage, formatter_class=form)
    parser.add_argument("--archive", metavar="FILE", help="a libtxnobj.a that is there")
    given = parser.parse_args(words)
    checks = Checks()
    differs = header_differs(ROOT)
    checks.note("the header has what is exported", "; ".join(differs))
    with tempfile.TemporaryDirectory(prefix="try-bindings-") as out:
        try:
            archive = os.path.abspath(given.archive) if given.archive else archive_of(ROOT, out)
            shared = shared_of(archive, out)
            checks.note("the library is built")
        except (NotBuilt, OSError, subprocess.CalledProcessError) as why:
            checks.note("the library is built", str(why))
        else:
            checks.programs(archive, out)
            checks.python(shared)
    print(f"{checks.passed} passed, {checks.failed} failed")
    return 1 if checks.failed else 0
