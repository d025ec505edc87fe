"""Whether recordings are one history, by trying the orders of their store calls one after another: for small recordings, and with no
part of the program that audits them."""
from __future__ import annotations

from dataclasses import dataclass

from simulated_client import Client
from simulated_store import Reply, Request, id_of

# The most states that a search goes through.
MOST_STATES = 200_000


class NoHistory(Exception):
    """Why recordings are none."""


class Undecided(Exception):
    """The search went through too many states."""


@dataclass
class Call:
    """A store call: of which client, its request, when it was asked, and when its reply was there, with it, where one was seen."""

    client: int
    request: Request
    asked: int
    told: int | None = None
    reply: Reply | None = None


def request_of(words):
    kind, path, *more = words
    text = lambda hexes: bytes.fromhex(hexes).decode("latin-1")  # noqa: E731
    if kind == "list":
        return Request("list", id_of(more[1]) if len(more) > 1 else 0, limit=int(more[0]))
    id = id_of(path)
    if kind == "create":
        return Request("create", id, None, text(more[0]))
    if kind == "update":
        return Request("update", id, int(more[0]), text(more[1]))
    return Request(kind, id, None if kind == "delete" or more[0] == "-" else int(more[0]))


def reply_of(words):
    kind, *more = words
    if kind == "list":
        files = [file.split(":") for file in more[1:]]
        return Reply("list", files=tuple((id_of(path), int(token), int(size)) for path, token, size in files), more=more[0] == "more")
    if not more[0].isdigit():
        return Reply(kind, "" if more[0] == "done" else more[0])
    return Reply(kind, token=int(more[0]), data=bytes.fromhex(more[1]).decode("latin-1") if kind == "get" else "")


class Followed:
    """A client that does once more what its rows say."""

    def __init__(self, number, rows):
        self.number, self.rows, self.calls = number, rows, []
        _, client, _, page = rows[1].split(" ")
        self.name, self.client = int(client), Client(int(page))
        self.op, self.call, self.request, self.answer = 0, None, None, None

    def all_calls(self):
        for row in self.rows[2:]:
            kind, op, *words = row.split(" ")
            self.op += kind == "begin"
            self.expect(int(op) == self.op, "another operation")
            getattr(self, f"on_{kind}")(words)
        return self.calls

    def expect(self, holds, why):
        if not holds:
            raise NoHistory(f"client {self.name}, operation {self.op}: {why}")

    def go_on(self, reply):
        try:
            self.request = self.call.send(reply)
        except StopIteration as end:
            self.request, self.answer = None, end.value

    def on_begin(self, words):
        self.expect(self.call is None, "a call begins while another runs")
        self.expect(self.client.permits(" ".join(words)), "a call that the client does not permit")
        self.call = self.client.call(" ".join(words))
        self.go_on(None)

    def is_asked(self):
        return bool(self.calls) and self.calls[-1].told is None and self.calls[-1].request is self.request

    def on_ask(self, words):
        request = request_of(words[1:])
        self.expect(self.call and self.request == request and not self.is_asked(), "another request")
        self.calls.append(Call(self.number, self.request, int(words[0])))

    def on_reply(self, words):
        self.expect(self.call and self.is_asked(), "a reply to nothing")
        call = self.calls[-1]
        call.told, call.reply = int(words[0]), reply_of(words[1:])
        self.expect(call.told >= call.asked, "a reply before it was asked")
        self.go_on(call.reply)

    def on_failed(self, _words):
        self.expect(self.call and self.is_asked(), "nothing that fails")
        self.go_on(None)

    def on_giveup(self, _words):
        self.expect(self.call and self.request, "nothing to give up")
        self.call.close()
        self.call = self.request = None

    def on_answer(self, words):
        self.expect(self.call and self.answer == " ".join(words), "another answer")
        self.call = self.answer = None


@dataclass(frozen=True)
class Files:
    """The files of a store, each with its token (none where nobody saw it yet) and what it says, and the tokens that were given."""

    files: tuple = ()
    given: frozenset = frozenset()

    def at(self, id):
        return next(((token, data) for it, token, data in self.files if it == id), None)

    def without(self, id):
        return tuple(file for file in self.files if file[0] != id)

    def knows(self, id, token):
        """The same files, one of which has this token; none where it has another."""
        stands, data = self.at(id)
        if stands == token:
            return self
        if stands is not None or (id, token) in self.given:
            return None
        return Files(tuple(sorted((*self.without(id), (id, token, data)), key=str)), self.given | {(id, token)})

    def put(self, request, token):
        if (request.id, token) in self.given:
            return None
        given = self.given if token is None else self.given | {(request.id, token)}
        return Files(tuple(sorted((*self.without(request.id), (request.id, token, request.data)), key=str)), given)

    def after(self, request, reply):
        """The files after a call with this reply, or with none; None where an honest store gives no such reply."""
        return getattr(self, f"after_{request.kind}")(request, reply)

    def after_create(self, request, reply):
        if reply and reply.error:
            return self if reply.error == "AlreadyExists" and self.at(request.id) else None
        return None if self.at(request.id) else self.put(request, reply and reply.token)

    def after_update(self, request, reply):
        stands = self.at(request.id)
        if reply and reply.error:
            return self if reply.error == "Precondition" and not (stands and stands[0] == request.token) else None
        known = stands and self.knows(request.id, request.token)
        return known and known.put(request, reply and reply.token)

    def after_get(self, request, reply):
        stands = self.at(request.id)
        if reply.error == "NotFound" or not stands:
            return self if reply.error == "NotFound" and not stands else None
        if reply.error:
            return self.knows(request.id, request.token) if reply.error == "NotModified" and request.token is not None else None
        return self.knows(request.id, reply.token) if stands[1] == reply.data and reply.token != request.token else None

    def after_delete(self, request, _reply):
        return Files(self.without(request.id), self.given)

    def after_list(self, request, reply):
        stand = sorted((id, len(data.encode("latin-1"))) for id, _, data in self.files if id > request.id)
        page, files = stand[: request.limit], self
        if [(id, size) for id, _, size in reply.files] != page or reply.more != (len(stand) > len(page)):
            return None
        for id, token, _ in reply.files:
            files = files and files.knows(id, token)
        return files


class Search:
    """The orders of the calls of clients, those with a reply each in its client's order, and any of the others."""

    def __init__(self, clients):
        self.answered = [[call for call in calls if call.told is not None] for calls in clients]
        self.loose = [call for calls in clients for call in calls if call.told is None and call.request.changes()]
        self.seen = set()

    def next_of(self, done, landed, files):
        """The states that one more call leads to, those of the calls that were asked last first."""
        waiting = [(at, calls[done[at]]) for at, calls in enumerate(self.answered) if done[at] < len(calls)]
        until = min((call.told for _, call in waiting), default=None)
        if until is None:
            return
        for at, call in sorted(enumerate(self.loose), key=lambda it: -it[1].asked):
            if at not in landed and call.asked <= until and (after := files.after(call.request, None)):
                yield done, landed | {at}, after
        for at, call in sorted(waiting, key=lambda it: -it[1].asked):
            if call.asked <= until and (after := files.after(call.request, call.reply)):
                yield (*done[:at], done[at] + 1, *done[at + 1 :]), landed, after

    def finds(self):
        """Whether there is an order."""
        last, left = tuple(map(len, self.answered)), [(tuple(0 for _ in self.answered), frozenset(), Files())]
        while left:
            state = left.pop()
            if state[0] == last:
                return True
            if state not in self.seen:
                self.seen.add(state)
                if len(self.seen) > MOST_STATES:
                    raise Undecided
                left += self.next_of(*state)
        return False


def are_history(recordings):
    """Whether recordings of one clock, as lists of rows, are one history. A file that names an object, and no client, has none."""
    try:
        followed = [Followed(number, rows) for number, rows in enumerate(recordings) if len(rows) > 1]
        calls = [it.all_calls() for it in followed]
        if len({it.name for it in followed}) < len(followed):
            return False
    except (NoHistory, ValueError, IndexError, AttributeError, KeyError):
        return False
    return Search(calls).finds()
