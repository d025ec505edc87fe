#!/usr/bin/env python3
"""Makes the lists of docs/definitions.md: what specs/ say above each definition that docs/audit.md lists, in its order.

usage: tools/definitions.py

Made are the headings, the first sentence of each file ('> ..') and its definitions ('- ..'). A name in brackets on the page of
an auditor, which is a step of the one before it, is left to its file, and so is the last part. All else stands by hand under
the heading of its file, or of its part, and is kept."""
from __future__ import annotations

import os
import re
import sys

TOP = os.path.dirname(os.path.dirname(os.path.realpath(__file__)))
AUDIT, PAGE = "docs/audit.md", "docs/definitions.md"
LISTED = re.compile(r"^- `(crates/\S+\.(?:antt|rt))`: (.*)$")
TITLE, MADE = "# The definitions", ("#", "> ", "- ")
# What stands before a line of a comment.
COMMENT = re.compile(r"^ *(?:--|//[/!])(?: |$)")
# A definition of specs/, and a type of src/.
DEFINED = r"^ *(?:(?:abbrev|pub|record|data|unfoldable) )*{0}(?= *[:({{])|^pub (?:enum|struct|type) {0}\b"


def text_of(root, path):
    with open(f"{root}/{path}", encoding="utf-8") as file:
        return file.read()


def names_by_file(page):
    """The names that an auditor's page lists, each with its file, and whether it is a step of the one before it."""
    for line in page.split("\n"):
        if found := LISTED.match(line):
            for name in re.finditer(r"`([^`]+)`", found[2]):
                before = found[2][: name.start()]
                yield found[1], name[1], before.count("(") > before.count(")")


def words_of(lines):
    """The first paragraph of a comment's lines, as one text."""
    text = "\n".join(COMMENT.sub("", it) for it in lines)
    words = " ".join(text.strip().partition("\n\n")[0].split())
    # (outside of code a page would take `<` for markup)
    return "`".join(it if n % 2 else it.replace("<", "\\<") for n, it in enumerate(words.split("`")))


def first_words(text):
    """The first sentence of a file."""
    lines = text.split("\n")
    ends = next((n for n, it in enumerate(lines) if not COMMENT.match(it)), len(lines))
    return re.split(r"(?<=\.) (?=[A-Z])", words_of(lines[:ends]))[0]


def said_of(text, name):
    """What stands above a definition."""
    lines, defined = text.split("\n"), re.compile(DEFINED.format(re.escape(name)))
    at = next((n for n, it in enumerate(lines) if defined.match(it)), 0)
    begins = at
    while begins and (COMMENT.match(lines[begins - 1]) or lines[begins - 1].startswith("#[")):
        begins -= 1
    return words_of([it for it in lines[begins:at] if not it.startswith("#[")])


def kept_of(page):
    """What stands by hand under each heading of the page, by the heading and the one of its part."""
    kept, part, heading = {}, "", ""
    for line in page.split("\n"):
        if line.startswith("#"):
            heading = line
            part = line if not line.startswith("### ") else part
        elif not line.startswith(MADE):
            kept.setdefault((part, heading), []).append(line)
    return {it: "\n".join(lines).strip("\n") for it, lines in kept.items()}


def parts_of(audit):
    """The parts of an auditor's page, each with its files in their order."""
    for part in audit.split("\n## ")[1:]:
        yield f"## {part.partition(chr(10))[0]}", [it[1] for it in map(LISTED.match, part.split("\n")) if it]


def made(root):
    """The page as it has to be."""
    audit, page = text_of(root, AUDIT), text_of(root, PAGE)
    kept, told = kept_of(page), set()
    blocks, parts = [TITLE, kept.get((TITLE, TITLE), "")], list(parts_of(audit))
    for part, files in parts:
        blocks += [part, kept.get((part, part), "")]
        names = list(names_by_file(audit.partition(part)[2].partition("\n## ")[0]))
        # (the last part has the files whole)
        for file in files if part != parts[-1][0] else []:
            heading, text = f"### `{file}`", text_of(root, file)
            said = {name: said_of(text, name) for its, name, is_step in names if its == file and not is_step}
            first = "" if file in told else f"> {first_words(text)}"
            listed = "\n".join(f"- `{name}`: {words}" for name, words in said.items() if words)
            its = [it for it in (first, kept.get((part, heading), ""), listed) if it]
            blocks += [heading, *its] if its else []
            told.add(file)
    return "\n\n".join(filter(None, blocks)) + "\n"


def main():
    page = made(TOP)
    with open(f"{TOP}/{PAGE}", "w", encoding="utf-8") as file:
        file.write(page)


if __name__ == "__main__":
    sys.dont_write_bytecode = True
    main()
