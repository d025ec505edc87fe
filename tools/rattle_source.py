"""Reads from the text of a Rattle file where its functions stand, and by which names `rattle` knows them."""
from __future__ import annotations

import functools
import re
from dataclasses import dataclass

# Comments, strings and characters, in which a brace or a word is no part of the code.
NOT_CODE = re.compile(
    r'//[^\n]*|/\*.*?\*/|(?<!\w)[bc]?r(#*)".*?"\1|(?<!\w)[bc]?"(?:[^"\\]|\\.)*"'
    r"|'(?:\\(?:u\{[^}\n]*\}|x..|.)|[^'\\\n])'",
    re.S,
)
ITEM = re.compile(
    r"^[ \t]*(?:pub(?:\([^)]*\))?[ \t]+)?(?:(?:const|unsafe|final|default|extern)[ \t]+(?:\"[^\"\n]*\"[ \t]+)?)*(fn|impl|trait|mod)\b",
    re.M,
)
NAME = re.compile(r"\s+(?:r#)?([A-Za-z_]\w*)")
TYPE = re.compile(r"^(?:pub(?:\([^)]*\))?[ \t]+)?(?:struct|enum|union)\s+(\w+)", re.M)
CLAUSE = re.compile(r"\b(?:requires|ensures|ghost)\b")
# A function of which others may read the body: one for constants, or one that returns a type which its body tells.
READ_BY_OTHERS = re.compile(r"\bconst\s+(?:unsafe\s+)?fn\b|->\s*(?:\w+\s*<.*)?\bimpl\b", re.S)


@dataclass(frozen=True)
class Block:
    """The block that a method stands in, by its own name: that of a type, of a trait, or of a type and the trait behind it."""

    name: str
    type_name: str
    is_of_trait: bool = False
    # Whether it is an impl of a trait, and whether it is one of a trait with arguments.
    is_for_trait: bool = False
    has_arguments: bool = False


@dataclass(frozen=True)
class Place:
    """Where a function stands in a text: from `start` its signature and contract, from `body` to `end` its body."""

    name: str
    start: int
    body: int
    end: int
    # Whether it stands in a trait, whose types take over a body that is there.
    is_of_trait: bool = False
    # Whether `rattle` knows it by this name for sure: a trait's arguments may have words of their paths in its own.
    is_sure: bool = True


@functools.lru_cache(maxsize=None)
def code_of(text):
    """The text with blanks in place of comments, strings and characters, each letter where it was."""
    return NOT_CODE.sub(lambda found: re.sub(r"[^\n]", " ", found[0]), text)


def after_block(code, brace):
    """Where the block ends that opens at `brace`."""
    depth = 0
    for sign in re.compile(r"[{}]").finditer(code, brace):
        depth += 1 if sign[0] == "{" else -1
        if depth == 0:
            return sign.end()
    return len(code)


def body_of(code, at):
    """Where the body of the function whose name ends at `at` opens, or the semicolon of one without a body."""
    since, depth = at, 0
    while True:
        sign = re.compile(r"[()\[\]{};]").search(code, at)
        if not sign:
            return len(code)
        at = sign.end()
        if sign[0] in "([":
            depth += 1
        elif sign[0] in ")]":
            depth -= 1
        elif depth == 0 and sign[0] in "{;":
            if sign[0] == ";" or not CLAUSE.search(code, since, sign.start()):
                return sign.start()
            at = since = after_block(code, sign.start())


def without_parameters(head):
    """An impl's head without the parameters that it begins with, and the names of those."""
    head = head.strip()
    if not head.startswith("<"):
        return head, set()
    depth = 0
    for at, sign in enumerate(head):
        depth += (sign == "<") - (sign == ">" and head[at - 1] != "-")
        if depth == 0:
            names = re.findall(r"(?:^|,)\s*(?:const\s+)?'?(\w+)", head[1:at])
            return head[at + 1 :], set(names)
    return head, set()


def words_of_type(text, parameters):
    """The names in a type as a log joins them: without paths, lifetimes and parameters, each with a capital; Any where
    that leaves none."""
    text = re.sub(r"'\w+|\w+\s*::\s*|\b(?:dyn|mut|const)\b", " ", text)
    kind = "Array" if re.match(r"\s*\[.*;", text, re.S) else "Slice" if re.match(r"\s*\[", text) else ""
    words = [it for it in re.findall(r"[A-Za-z_]\w*", text) if it not in parameters]
    words = [it[0].upper() + it[1:] for it in words] or ["Any"]
    return [kind + words[0], *words[1:]]


def block_of_impl(head):
    """The block that the text between `impl` and its brace names. Of some forms of a type alone it has all arguments, as
    Kept+T+Id."""
    head, parameters = without_parameters(head)
    trait, between, of_type = re.split(r"\bwhere\b", head)[0].rpartition(" for ")
    words = words_of_type(of_type, parameters)
    if not between:
        return Block("+".join(words_of_type(of_type, set())) if words[1:] else words[0], words[0])
    of_trait = words_of_type(trait, parameters)
    return Block("".join([*words, *of_trait]), words[0], False, True, bool(of_trait[1:]))


def homes_of(sources):
    """The module of each type by name that one of these files by path declares at its left edge: a log names a method
    of a type by that module, wherever the impl stands."""
    modules = {}
    for path, text in sources.items():
        for name in TYPE.findall(code_of(text)):
            modules.setdefault(name, set()).add(module_of(path))
    return {name: next(iter(it)) for name, it in modules.items() if len(it) == 1}


def places_in(text, module, homes):
    """The functions of a file of this module, in their order, where types have these homes."""
    code = code_of(text)
    return list(items(code, 0, len(code), module, None, homes))


def without_own_bodies(text):
    """The text of a file without what a check of another crate can't see of it: the bodies of its functions. Those that
    constants may call, whose type they tell, or that types may take over, are left."""
    found, at = [], 0
    for it in places_in(text, "", {}):
        head = text[it.start : it.body]
        if text[it.body : it.body + 1] == "{" and not it.is_of_trait and not READ_BY_OTHERS.search(head):
            found.append(text[at : it.body])
            at = it.end
    return ";".join([*found, text[at:]])


def without_comments(text):
    """The text of a file of code without its comments, and without the lines that hold nothing else."""
    marked = NOT_CODE.sub(lambda found: "\0" if found[0].startswith(("//", "/*")) else found[0], text)
    return re.sub(r"[ \t]*\0", "", re.sub(r"^(?:[ \t]*\0)+[ \t]*\n", "", marked, flags=re.M))


def without_comment_lines(text):
    """The text of a file of definitions and proofs without the lines that are comments."""
    return re.sub(r"^[ \t]*--[^\n]*\n", "", text, flags=re.M)


def items(code, at, end, module, block, homes):
    """The functions between two places of the code, which stand in this module and block."""
    while True:
        item = ITEM.search(code, at, end)
        if not item:
            return
        at, kind, name = item.end(), item[1], NAME.match(code, item.end())
        if kind == "fn":
            if not name:
                continue
            body = body_of(code, name.end())
            at = after_block(code, body) if code[body : body + 1] == "{" else body + 1
            names = "::".join(it for it in (module, block.name if block else "", name[1]) if it)
            is_of_trait, is_sure = bool(block and block.is_of_trait), not (block and block.has_arguments)
            yield Place(names, item.start(), body, at, is_of_trait, is_sure)
            continue
        opens = re.compile(r"[{;]").search(code, at, end)
        if not opens or opens[0] == ";" or kind != "impl" and not name:
            continue
        inside, at = opens.end(), after_block(code, opens.start())
        if kind == "mod":
            yield from items(code, inside, at, f"{module}::{name[1]}".lstrip(":"), None, homes)
        else:
            of_trait = Block(name[1], name[1], True) if kind == "trait" else None
            its = of_trait or block_of_impl(code[item.end() : opens.start()])
            home = module if its.is_for_trait else homes.get(its.type_name, module)
            yield from items(code, inside, at, home, its, homes)


def module_of(path):
    """The module that a file below src/ holds, "" for the crate's root."""
    inside = re.sub(r"^src/|\.rt$", "", path)
    if inside in ("lib", "main"):
        return ""
    return re.sub(r"(^|/)mod$", "", inside).replace("/", "::")


def places_of(texts):
    """The functions of a crate's texts by path, each file's in their order."""
    sources = {path: text for path, text in texts.items() if path.startswith("src/")}
    homes = homes_of(sources)
    return {path: places_in(text, module_of(path), homes) for path, text in sources.items()}


def words_in(name):
    return re.findall(r"[A-Z]*[a-z0-9_]*", name)


def are_in(words, others):
    """Whether these words stand among others in their order."""
    left = iter(others)
    return all(it in left for it in words)


def named_in_log(path, functions):
    """Those of these functions, given with whether their names are sure, that a log's name, without its crate, can stand
    for: the one of this name, or those of which it has the words and perhaps more, where a name is not sure. What stands in
    the body of m::f the log names m::fn::f::rest."""
    front, inside, rest = f"::{path}".partition("::fn::")
    if inside:
        paths = [f"{front}::{'::'.join(rest.split('::')[:n])}"[len("::") :] for n in (2, 1)]
        return next(filter(None, (named_in_log(it, functions) for it in paths)), set())
    if path in functions:
        return {path}
    around, name = path.rpartition("::")[::2]
    unsure = [it for it, is_sure in functions.items() if not is_sure and it.rpartition("::")[2] == name]
    return {it for it in unsure if are_in(words_in(it.rpartition("::")[0]), words_in(around))}
