"""Ways of changing one fact of recordings, each at each place where it can be."""
from __future__ import annotations

import re
from dataclasses import dataclass
from typing import Callable

OF_A_CALL = ("begin", "ask", "reply", "failed", "answer", "giveup")
SECOND = 10**9
# A reply that tells a file, and one that tells a version, whose bytes have a colon.
TOLD = r"^reply \d+ \d+ get \d+ "
A_VERSION = TOLD + r".*3a"
A_PUT = r"^reply \d+ \d+ put \d+$"


@dataclass
class Change:
    """What is changed, the rows where it can be, and how. A place is the name of a recording and the place of a row."""

    name: str
    row: str
    make: Callable
    but: str = ""

    def places(self, recordings):
        rows = [(name, at, row) for name, rows in recordings.items() for at, row in enumerate(rows)]
        return [(name, at) for name, at, row in rows if re.search(self.row, row) and not (self.but and re.search(self.but, row))]

    def made(self, recordings, place):
        """The recordings with the change at a place."""
        return self.make({name: list(rows) for name, rows in recordings.items()}, *place)


def edit(pattern, by):
    """A part of the row is another."""

    def make(recordings, name, at):
        recordings[name][at] = re.sub(pattern, by, recordings[name][at])
        return recordings

    return make


def without_row(recordings, name, at):
    del recordings[name][at]
    return recordings


def without_call(recordings, name, at):
    """The call of the row is left out, and the later ones are numbered anew."""
    gone, kept = int(recordings[name][at].split(" ")[1]), []
    for row in recordings[name]:
        kind, *words = row.split(" ")
        if kind in OF_A_CALL:
            number = int(words[0])
            if number == gone:
                continue
            words[0] = f"{number - (number > gone)}"
        kept.append(" ".join([kind, *words]))
    recordings[name] = kept
    return recordings


def without_client(recordings, name, _at):
    del recordings[name]
    return recordings


def shifted(by):
    """The times of the recording are others."""

    def make(recordings, name, _at):
        later = lambda row: f"{row[1]}{int(row[2]) + by}"  # noqa: E731
        recordings[name] = [re.sub(r"^((?:ask|reply|failed) \d+ )(\d+)", later, row) for row in recordings[name]]
        return recordings

    return make


def other_byte(found):
    return f"{int(found[1], 16) ^ 1:02x}"


def one_more(found):
    return f"{int(found[1]) + 1}"


LAST_BYTE = edit(r"([0-9a-f]{2})$", other_byte)
CHANGES = (
    Change("a call that creates a version is left out", A_PUT, without_call),
    Change("a create that was made is told as refused", A_PUT, edit(r"\d+$", "AlreadyExists")),
    Change("a create that was refused is told as made", r"put AlreadyExists$", edit("AlreadyExists", "77")),
    Change("a version that was found is told as not found", A_VERSION, edit(r"get .*", "get NotFound")),
    Change("a version that was not found is told as found", r"get NotFound$", edit("NotFound", "77 303a37")),
    Change("a boundary that was read is told as not modified", TOLD, edit(r"get .*", "get NotModified"), but="3a"),
    Change("other bytes are read", TOLD, LAST_BYTE),
    Change("other bytes are written", r"^ask \d+ \d+ (create|update)", LAST_BYTE),
    Change("a file is left out of a listing", r"^reply \d+ \d+ list last .+ .+", edit(r" [^ ]*$", "")),
    Change("another number is in an answer", r"^answer \d+ (wrote|read|view|value|holder|ids).*\d$", edit(r"(\d+)$", one_more)),
    Change("a refusal is told as another", r"^answer \d+ refused", edit(r"refused.*", "refused 6 Fenced"), but="Fenced"),
    Change("a fenced call is told as done", r"refused 6 Fenced$", edit(r"refused.*", "done")),
    Change("a claim is left out", r"^begin \d+ claim", without_call),
    Change("a call that deletes is left out", r"^ask \d+ \d+ delete", without_call),
    Change("any row is left out", r"^(?!of )", without_row),
    Change("a client is left out", r"^client ", without_client),
    Change("a client's clock is a second late", r"^client ", shifted(SECOND)),
    Change("a client's clock is a second early", r"^client ", shifted(-SECOND)),
)
