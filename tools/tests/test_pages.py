"""Tests that the pages name what stands in the tree."""
import glob
import os
import re
import sys
import unittest

sys.dont_write_bytecode = True
TOP = os.path.dirname(os.path.dirname(os.path.dirname(os.path.realpath(__file__))))
sys.path.insert(0, f"{TOP}/tools")

from cited_definitions import unlisted  # noqa: E402 (it is found beside this folder)
from definitions import AUDIT, DEFINED, PAGE, made, names_by_file  # noqa: E402


def text_of(path):
    with open(f"{TOP}/{path}", encoding="utf-8") as file:
        return file.read()


def files_of_all_calls(file, name):
    """The files, tests aside, that have a case of each variant of an enum of calls, or of each but one."""
    body = re.search(rf"^pub enum {name}<T> {{\n(.*?)^}}", text_of(file), re.M | re.S)[1]
    variants = re.findall(r"^    ([A-Z]\w*)", body, re.M)
    found = []
    for part in ("src/**/*.rt", "specs/**/*.antt", "proofs/**/*.antt"):
        for path in glob.glob(f"{TOP}/crates/*/{part}", recursive=True):
            text = text_of(os.path.relpath(path, TOP))
            count = sum(bool(re.search(rf"(?:::|\.){it}\b", text)) for it in variants)
            if "/tests_" not in path and count >= len(variants) - 1:
                found.append(os.path.relpath(path, f"{TOP}/crates"))
    return sorted(found)


def places_on(page):
    """What a link can name of a page: its headings, in small letters, with a dash for each blank."""
    headings = re.findall(r"^#+ (.*)$", re.sub(r"^```.*?^```$", "", text_of(page), flags=re.M | re.S), re.M)
    return {re.sub(r"[^\w\- ]", "", it.lower()).replace(" ", "-") for it in headings}


def drawings_on(page):
    """The drawings on a page, each as its lines: the blocks of text with an event and a lane."""
    blocks = re.findall(r"^```\w*\n(.*?)^```$", text_of(page), re.M | re.S)
    return [it.splitlines() for it in blocks if re.search(r"^ +\d+  [│┃┳┻┆●╺╳]", it, re.M)]


def is_drawn_in(lines, drawing):
    """Whether these lines stand in a drawing, in their order."""
    left = iter(drawing)
    return all(line in left for line in lines)


class Pages(unittest.TestCase):
    def test_an_auditor_finds_each_name(self):
        found = list(names_by_file(text_of(AUDIT)))
        self.assertGreater(len(found), 800)
        for file, name, _ in found:
            self.assertRegex(text_of(file), re.compile(DEFINED.format(re.escape(name)), re.M), f"{name} in {file}")

    def test_an_auditor_finds_what_each_definition_cites(self):
        listed = {(file, name) for file, name, _ in names_by_file(text_of(AUDIT))}
        lacks = unlisted(TOP, listed)
        self.assertEqual([f"{name} of {file}, which {by[1]} cites" for (file, name), by in sorted(lacks.items())], [])

    def test_the_page_of_definitions_is_up_to_date(self):
        self.assertTrue(made(TOP) == text_of(PAGE), f"{PAGE} is not what tools/definitions.py makes")

    def test_a_name_that_is_not_there_is_missed(self):
        self.assertNotRegex("abbrev pub other : ℕ\n", re.compile(DEFINED.format("othe"), re.M))
        self.assertRegex("  abbrev pub other : ℕ\n", re.compile(DEFINED.format("other"), re.M))

    def test_drawings_are_those_of_cases(self):
        traces = glob.glob(f"{TOP}/cases/**/*.trace", recursive=True) + glob.glob(f"{TOP}/examples/*.trace")
        drawings = [text_of(os.path.relpath(it, TOP)).splitlines() for it in traces]
        found = drawings_on("crates/txn_drawing_moments/README.md")
        self.assertEqual(len(found), 1)
        self.assertTrue(any(is_drawn_in(found[0], it) for it in drawings), found)
        self.assertFalse(any(is_drawn_in(found[0][::-1], it) for it in drawings))

    def test_pictures_are_those_of_cases(self):
        found = []
        for page in ("README.md", "docs/rules.md"):
            for words, link in re.findall(r"!\[([^\]]*)\]\(([^)]*)\)", text_of(page)):
                path = os.path.normpath(os.path.join(os.path.dirname(page), link))
                found.append(path)
                self.assertGreater(len(words), 40, path)  # it says what one sees
                self.assertTrue(path.endswith(".svg") and os.path.isfile(f"{TOP}/{path}"), path)
                self.assertTrue(os.path.isfile(f"{TOP}/{path[:-4]}.txt"), f"{path} is no picture of a case")
        self.assertEqual(len(found), 12)
        pictures = glob.glob(f"{TOP}/cases/**/*.svg", recursive=True) + glob.glob(f"{TOP}/examples/*.svg")
        self.assertGreaterEqual(len(pictures), 12)

    def test_links_of_the_pages(self):
        pages = ["README.md", *(it for top in ("adapters", "bindings", "crates") for it in glob.glob(f"{top}/*/README.md", root_dir=TOP))]
        pages += [f"docs/{it}" for it in sorted(os.listdir(f"{TOP}/docs"))]
        for page in pages:
            for path, place in re.findall(r"\]\(([^)#\s]*)(?:#([^)]*))?\)", text_of(page)):
                if "://" not in path:
                    target = os.path.normpath(f"{os.path.dirname(page)}/{path}") if path else page
                    self.assertTrue(os.path.exists(f"{TOP}/{target}"), f"{path} in {page}")
                    self.assertTrue(not place or place in places_on(target), f"{path}#{place} in {page}")

    def test_the_files_that_go_through_all_calls(self):
        plain, viewed = text_of("docs/CHANGING.md").split("\n## A call ")[1:]
        for page, file, name in ((plain, "txn_history", "PlainCall"), (viewed, "txn_history", "ViewCall")):
            listed = re.findall(r"`(\w+/(?:src|specs|proofs)/\S+)`", page)
            self.assertEqual(sorted(set(listed)), sorted(listed), "a file is listed twice")
            self.assertEqual(sorted(listed), files_of_all_calls(f"crates/{file}/src/event.rt", name))


if __name__ == "__main__":
    unittest.main()
