"""What tools/try-rust-binding does."""
from __future__ import annotations

import argparse
import json
import os
import re
import shutil
import subprocess
import tempfile

ROOT = os.path.dirname(os.path.dirname(os.path.realpath(__file__)))
BINDING = f"{ROOT}/bindings/rust"
# The files of the original that have tests.
FILES = ("lib.rs", "object_store.rs")
# A compiler's error names one test, and those of others may only show once it is gone.
ROUNDS = 20


class NotBuilt(Exception):
    """The tests were not built, for this reason."""


def tests_in(text):
    """The test module that stands at the end of a file, which begins with its attribute."""
    at = text.rfind("#[cfg(test)]\nmod tests {")
    return text[at:] if at >= 0 else ""


def functions_in(lines):
    """The tests of a file by their names: from the first line of what stands above each to its last line, from 0."""
    found, at = {}, 0
    while at < len(lines):
        name = re.match(r"( *)(?:async )?fn (\w+)\(\)", lines[at])
        begins = at
        while begins and re.match(r" *(#\[|///)", lines[begins - 1]):
            begins -= 1
        if name and any("test" in line for line in lines[begins:at] if "#[" in line):
            ends = at
            while lines[ends] != name[1] + "}":
                ends += 1
            found[name[2]] = (begins, ends)
            at = ends
        at += 1
    return found


class Copy:
    """A copy of the workspace in which the crate of bindings/rust stands in the place of the package."""

    def __init__(self, workspace, package, folder, archive, target):
        self.original, self.folder = f"{workspace}/{package}/src", folder
        self.package = f"{folder}/{package}"
        skipped = shutil.ignore_patterns("target", ".git")
        shutil.copytree(workspace, folder, ignore=skipped, dirs_exist_ok=True, symlinks=True)
        shutil.rmtree(f"{self.package}/src")
        shutil.copytree(f"{BINDING}/src", f"{self.package}/src")
        shutil.copy(f"{BINDING}/build.rs", self.package)
        self.environment = {**os.environ, "TXNOBJ_LIB_DIR": os.path.dirname(archive), "CARGO_TARGET_DIR": target}
        self.left_out, self.texts = {}, {}
        for name in FILES:
            with open(f"{self.original}/{name}", encoding="utf-8") as file:
                tests = tests_in(file.read())
            with open(f"{BINDING}/src/{name}", encoding="utf-8") as file:
                self.texts[name] = (file.read().rstrip("\n") + "\n\n" + tests).split("\n")
        if not any(functions_in(lines) for lines in self.texts.values()):
            raise NotBuilt(f"{self.original} has no tests")
        self.all = [name for lines in self.texts.values() for name in functions_in(lines)]

    def write(self):
        for name, lines in self.texts.items():
            with open(f"{self.package}/src/{name}", "w", encoding="utf-8") as file:
                file.write("\n".join(lines))

    def cargo(self, *words):
        how = {"cwd": self.package, "env": self.environment, "stdin": subprocess.DEVNULL, "check": False}
        return subprocess.run(["cargo", *words], capture_output=True, text=True, **how)

    def errors(self):
        """What the compiler refuses: its words, and the file and the line, from 0, where they are in one of the two files."""
        told = self.cargo("test", "--release", "--offline", "--lib", "--no-run", "--message-format=json")
        found = []
        for line in told.stdout.splitlines():
            message = json.loads(line).get("message") if line.startswith("{") else None
            if message and message["level"] == "error" and message["spans"]:
                span = next((it for it in message["spans"] if it["is_primary"]), message["spans"][0])
                found.append((message["message"], os.path.basename(span["file_name"]), span["line_start"] - 1))
        if told.returncode and not found:
            raise NotBuilt((told.stderr or told.stdout)[-2000:].strip())
        return found

    def build(self):
        """Builds the tests, but for those that do not compile here."""
        for _ in range(ROUNDS):
            self.write()
            errors = self.errors()
            if not errors:
                return
            gone = {}
            for why, name, line in errors:
                functions = functions_in(self.texts.get(name, []))
                test = next((it for it, (begins, ends) in functions.items() if begins <= line <= ends), None)
                if test is None:
                    raise NotBuilt(f"{name}, line {line + 1}: {why}")
                self.left_out.setdefault(test, why)
                gone.setdefault(name, set()).add(functions[test])
            for name, places in gone.items():
                for begins, ends in sorted(places, reverse=True):
                    del self.texts[name][begins : ends + 1]
        raise NotBuilt("the compiler names ever more tests")

    def run(self):
        """Runs the tests: each one's name, and whether it passed."""
        told = self.cargo("test", "--release", "--offline", "--lib")
        results = re.findall(r"^test (?:\w+::)*(\w+) \.\.\. (\w+)", told.stdout, re.M)
        if not results:
            raise NotBuilt((told.stdout + told.stderr)[-2000:].strip())
        return results, told.stdout


def missing(workspace, package, archive):
    """What is not here, where something is not."""
    if not shutil.which("cargo"):
        return "cargo"
    for path in (f"{workspace}/{package}/Cargo.toml", *(f"{workspace}/{package}/src/{name}" for name in FILES), archive):
        if not os.path.exists(path):
            return path
    return None


def main(words, usage):
    form = argparse.RawDescriptionHelpFormatter
    parser = argparse.ArgumentParser(prog="tools/try-rust-binding", description=usage, formatter_class=form)
    parser.add_argument("--archive", metavar="FILE", default=f"{ROOT}/out/libtxnobj.a", help="a libtxnobj.a that is there")
    parser.add_argument("--target", metavar="FOLDER", help="where cargo keeps what it builds")
    parser.add_argument("workspace", metavar="WORKSPACE", help="a folder in which cargo builds the original offline")
    parser.add_argument("package", metavar="PACKAGE", help="the folder there of the original crate with its tests")
    given = parser.parse_args(words)
    lacking = missing(given.workspace, given.package, given.archive)
    if lacking:
        print(f"not here: {lacking}; nothing is tried")
        return 0
    with tempfile.TemporaryDirectory(prefix="try-rust-binding-") as folder:
        target = os.path.abspath(given.target) if given.target else f"{folder}/target"
        try:
            copy = Copy(os.path.abspath(given.workspace), given.package, f"{folder}/workspace", os.path.abspath(given.archive), target)
            copy.build()
            results, told = copy.run()
        except NotBuilt as why:
            print(f"FAILED: {why}\n0 passed, 1 failed")
            return 1
    for test, why in copy.left_out.items():
        print(f"left out: {test}: {why}")
    for test, result in results:
        print(f"{result}: {test}")
    failed = [test for test, result in results if result != "ok"]
    failed += [f"{test} (not run)" for test in copy.all if test not in copy.left_out and test not in dict(results)]
    if failed:
        print(told[-4000:])
    print(f"{len(results) - sum(result != 'ok' for _, result in results)} passed, {len(failed)} failed, {len(copy.left_out)} left out")
    return 1 if failed else 0
