"""Reads from the texts of specs/ which definitions a definition cites, and which types of src/ it speaks of.

A definition is known by its file and its name, as ('crates/txn_history/specs/Facts.antt', 'Entered'). What a name stands
for the `use` lines of its file say, and else the file itself: definitions of std and of the kit are no part of this, nor are
the variables that a definition binds, which the house never gives the name of a definition that the file has or uses."""
from __future__ import annotations

import functools
import os
import re

USE = re.compile(r"^ *(?:pub )?use Rattle\.([\w.]+?)(?:\.\{([^}]*)\}| as (\w+))$", re.M)
WORD = re.compile(r"(?<![\w.])[^\W\d][\w'-]*(?:\.[^\W\d][\w'-]*)*")
HEAD = re.compile(r"^( *)(?:(?:abbrev|pub|unfoldable|mutual) )*(record|data)? *([^\W\d][\w'-]*)(?= *[:({])")
# A field, where a record is declared, and where one is made.
FIELD = re.compile(r"^ +pub [^\W\d][\w'-]*(?= : )|(?<=[{;] )[^\W\d][\w'-]*(?= = )", re.M)
OPENS = re.compile(r"^ *(?:(?:abbrev|pub|unfoldable) )+")
TYPE = re.compile(r"^pub (?:struct|enum|type) (\w+)[^\n]*?(?:;|\{\n(.*?)^\})", re.M | re.S)


@functools.lru_cache(maxsize=None)
def text_of(root, file):
    with open(f"{root}/{file}", encoding="utf-8") as it:
        return it.read()


def without_comments(text):
    return re.sub(r"--[^\n]*|//[^\n]*", "", text)


@functools.lru_cache(maxsize=None)
def bodies_of(root, file):
    """The definitions of a file of specs/, by name: their texts, signature and all."""
    bodies, name, depth, is_record, around = {}, None, 0, False, []
    for line in without_comments(text_of(root, file)).split("\n"):
        indent = len(line) - len(line.lstrip(" "))
        if not line.strip() or line.startswith(("use ", "pub use ")):
            continue
        if re.match(r" *module _", line):
            around = [(it, words) for it, words in around if it < indent] + [(indent, line)]
            name = None
            continue
        head = HEAD.match(line)
        is_field = name is not None and is_record and indent > depth
        opens = head and (OPENS.match(line) or head[2]) and not is_field
        if opens:
            around = [(it, words) for it, words in around if it < indent]
            name, depth, is_record = head[3], indent, head[2] == "record"
            bodies.setdefault(name, []).extend(words for _, words in around)
        if name is not None and (indent > depth or opens or line.strip().startswith((f"{name} ", "unfolding "))):
            bodies[name].append(line)
    return {it: "\n".join(lines) for it, lines in bodies.items()}


@functools.lru_cache(maxsize=None)
def makers_of(root, file):
    """The constructors of the data of a file of specs/, each with the name of its data."""
    found = {}
    for name, body in bodies_of(root, file).items():
        if re.search(rf"\bdata {name}\b", body):
            found.update({it: name for it in re.findall(r"^ +([^\W\d][\w'-]*) : ", body, re.M)})
    return found


@functools.lru_cache(maxsize=None)
def types_of(root, file):
    """The types of a file of src/, by name: what stands between their braces."""
    return {name: body or "" for name, body in TYPE.findall(without_comments(text_of(root, file)))}


def file_of(root, crate, words):
    """The file of specs/ or src/ that a module's name stands for, and whether the name goes on to a type of it."""
    if words[:2] == ["specs", "declared"]:
        path, kind = words[2:], (words[-2] if words[-1] == "TheVariants" else words[-1])
        path = path[: path.index(kind)] if kind in path else path
        return f"crates/{crate}/src/{'/'.join(path)}.rt", kind
    return f"crates/{crate}/{'/'.join(words)}.antt", ""


@functools.lru_cache(maxsize=None)
def names_of(root, file):
    """What the names that a file uses stand for: each name's definitions, and each alias's file, or a type's."""
    names, aliases = {}, {}
    for module, listed, alias in USE.findall(text_of(root, file)):
        crate, *words = module.split(".")
        if not os.path.isdir(f"{root}/crates/{crate}") or not words:
            continue
        target, kind = file_of(root, crate, words)
        if alias:
            aliases[alias] = (target, kind)
        for it in re.findall(r"([^\s,{}]+)(?: as ([^\s,{}]+))?", listed):
            names[it[1] or it[0]] = (target, kind or it[0])
    return names, aliases


def cited_by(root, file, name):
    """What a definition of specs/, or a type of src/, cites of the repository."""
    found = set()
    if file.endswith(".rt"):
        body = types_of(root, file).get(name, "")
        return {(file, it) for it in types_of(root, file) if it != name and re.search(rf"\b{it}\b", body)}
    own = bodies_of(root, file)
    names, aliases = names_of(root, file)
    for word in WORD.findall(FIELD.sub("", own.get(name, ""))):
        first, _, rest = word.partition(".")
        if first in aliases and rest:
            target, kind = aliases[first]
            found.add((target, kind or rest.split(".")[0]))
        elif first in own:
            found.add((file, first))
        elif first in names:
            found.add(names[first])
        elif first in makers_of(root, file):
            found.add((file, first))
    return {it for it in (as_data(root, *it) for it in found) if it != (file, name)}


def as_data(root, file, name):
    """The data that a constructor is of, in its place."""
    return file, makers_of(root, file).get(name, name) if file.endswith(".antt") else name


def unlisted(root, listed):
    """What the definitions that are listed cite and is not listed, each with one that cites it."""
    lacks = {}
    for file, name in sorted(listed):
        for cited in cited_by(root, file, name):
            if cited not in listed:
                lacks.setdefault(cited, (file, name))
    return lacks
