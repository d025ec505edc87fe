"""A client of the protocol, as docs/steps.md has it: each call is a generator that asks for store calls and is sent their replies."""
from __future__ import annotations

from dataclasses import dataclass, field

from simulated_store import BOUNDARY, Request

# How many versions a client keeps, and how many successors a read looks for before it lists.
WINDOW, PROBES = 8, 4
# The calls whose answers tell no id.
UNCHECKED = ("write_unchecked", "read_unchecked", "read_seen")
NAMES = {2: "ObjectStoreError", 4: "LatestRecordMissing", 5: "ObjectVersionExists", 6: "Fenced", 7: "InvalidObjectState"}


class Refused(Exception):
    """A call that is refused, with the number of its error."""

    def __init__(self, number):
        super().__init__(number)
        self.number = number


def asked(request):
    """Asks the store; a call that failed ends its operation."""
    reply = yield request
    if reply is None:
        raise Refused(2)
    return reply


def epoch_of(value):
    return int(value.split(":")[0])


@dataclass
class View:
    """A view: where it stands, and as a holder's its epoch. One that has ended stands no more."""

    id: int
    value: str
    epoch: int | None = None
    stands: bool = True


@dataclass
class Client:
    """What a client keeps: the versions and the boundary of its caches, its views, and of each id that it was told the epoch."""

    page: int
    window: dict = field(default_factory=dict)
    boundary: tuple | None = None
    views: list = field(default_factory=list)
    told: dict = field(default_factory=dict)

    def call(self, words):
        """Makes the call that these words begin, and returns its answer in words."""
        name, *given = words.split(" ")
        try:
            answer = yield from getattr(self, f"call_{name}")(*given)
        except Refused as why:
            return f"refused {why.number} {NAMES[why.number]}"
        if name not in UNCHECKED:
            self.hear(answer.split(" "), given[-1] if given else "")
        return answer

    def hear(self, answer, written):
        """An answer tells an id."""
        if answer[0] == "wrote":
            self.told[int(answer[1])] = epoch_of(written)
        elif answer[0] == "read" and answer[1] != "none":
            self.told[int(answer[1])] = epoch_of(answer[2])
        elif answer[0] in ("view", "holder"):
            self.told[int(answer[3])] = epoch_of(answer[4])

    def permits(self, words):
        """Whether a client may begin this call, by what it was told: views stand, bases were told, boundaries are below such an id, and
        no epoch falls."""
        name, *given = words.split(" ")
        if name.startswith(("holder", "claim", "update", "refresh")):
            number = int(given[0])
            view = self.views[number - 1] if 1 <= number <= len(self.views) else None
            if not view or not view.stands or (view.epoch is not None) != name.startswith("holder"):
                return False
            if name.endswith("refresh"):
                return True
            return view.id in self.told and (name != "update" or epoch_of(view.value) <= epoch_of(given[1]))
        if name.startswith("write"):
            base = 0 if given[0] == "-" else int(given[0])
            return base == 0 or (base in self.told and self.told[base] <= epoch_of(given[1]))
        return name != "advance" or int(given[0]) == 0 or int(given[0]) < max(self.told, default=0)

    # What a client keeps.

    def keep(self, id, value):
        if id in self.window:
            return
        if len(self.window) == WINDOW:
            if id < min(self.window):
                return
            del self.window[min(self.window)]
        self.window[id] = value

    def drop(self, id):
        self.window = {it: value for it, value in self.window.items() if it > id}

    # The parts of calls.

    def read_boundary(self):
        reply = yield from asked(Request("get", BOUNDARY, self.boundary and self.boundary[1]))
        if reply.error == "NotFound":
            return 0
        if not reply.error and (self.boundary is None or self.boundary[0] <= int(reply.data)):
            self.boundary = (int(reply.data), reply.token)
        return self.boundary[0]

    def check(self, id):
        reached = self.boundary is not None and self.boundary[0] >= id
        if reached or (yield from self.read_boundary()) >= id:
            self.drop(id)
            raise Refused(5)

    def create(self, base, value):
        reply = yield from asked(Request("create", base + 1, None, value))
        if reply.error:
            raise Refused(5)
        self.keep(base + 1, value)
        return base + 1

    def write(self, base, value):
        id = yield from self.create(base, value)
        yield from self.check(id)
        return id

    def latest(self):
        """The newest version, unchecked: by its successors where one is held, and else by a listing."""
        if self.window:
            hand = max(self.window)
            for _ in range(PROBES):
                reply = yield from asked(Request("get", hand + 1))
                if reply.error:
                    return hand, self.window[hand]
                hand += 1
                self.keep(hand, reply.data)
        while True:
            greatest = max((yield from self.all_listed()), default=None)
            if greatest is None:
                if self.window:
                    self.drop(max(self.window))
                return None
            if greatest in self.window:
                return greatest, self.window[greatest]
            reply = yield from asked(Request("get", greatest))
            if not reply.error:
                self.keep(greatest, reply.data)
                return greatest, reply.data

    def all_listed(self):
        ids, after, more = [], 0, True
        while more:
            reply = yield from asked(Request("list", after, limit=self.page))
            ids += [file[0] for file in reply.files]
            after, more = (ids[-1] if ids else 0), reply.more and bool(reply.files)
        return ids

    def read(self):
        """The newest version, checked."""
        while True:
            found = yield from self.latest()
            if found is None:
                return None
            try:
                yield from self.check(found[0])
            except Refused as why:
                if why.number != 5:
                    raise
                continue
            return found

    def viewed(self, number, id, value):
        """A view moves to a version, or is made there."""
        if number > len(self.views):
            self.views.append(View(id, value))
        view = self.views[number - 1]
        view.id, view.value = id, value
        return f"view {number} at {id} {value}"

    def refreshed(self):
        """The newest version for a view that stands."""
        found = yield from self.read()
        if found is None:
            raise Refused(7)
        return found

    # The calls, by the words of scripts.

    def call_write(self, base, value):
        return f"wrote {(yield from self.write(0 if base == '-' else int(base), value))}"

    def call_write_unchecked(self, base, value):
        return f"wrote {(yield from self.create(0 if base == '-' else int(base), value))}"

    def call_read(self):
        found = yield from self.read()
        return f"read {found[0]} {found[1]}" if found else "read none"

    def call_read_unchecked(self, id):
        reply = yield from asked(Request("get", int(id)))
        return f"value {'none' if reply.error else reply.data}"

    def call_read_seen(self, id):
        if int(id) not in self.window:
            reply = yield from asked(Request("get", int(id)))
            if reply.error:
                return "value none"
            self.keep(int(id), reply.data)
            return f"value {reply.data}"
        return f"value {self.window[int(id)]}"

    def call_list(self, low, high):
        ids = yield from self.all_listed()
        least = {"-": 0, "=": int(low[1:] or 0), "!": int(low[1:] or 0) + 1}[low[0]]
        most = {"-": max(ids, default=0), "=": int(high[1:] or 0), "!": int(high[1:] or 0) - 1}[high[0]]
        within = [f"{id}" for id in ids if least <= id <= most]
        return " ".join(["ids", *(within or ["none"])])

    def call_check(self, id):
        yield from self.check(int(id))
        return "done"

    def call_advance(self, id):
        target = int(id)
        number = self.boundary[0] if self.boundary else (yield from self.read_boundary())
        while number < target:
            over = self.boundary and self.boundary[1]
            reply = yield from asked(Request("create" if over is None else "update", BOUNDARY, over, id))
            if reply.error:
                number = yield from self.read_boundary()
            else:
                self.boundary, number = (target, reply.token), target
        self.drop(target)
        return "done"

    def call_delete(self, id):
        try:
            yield from self.check(int(id))
        except Refused as why:
            if why.number != 5:
                raise
        else:
            raise Refused(7)
        yield from asked(Request("delete", int(id)))
        self.window.pop(int(id), None)
        return "done"

    def call_init(self, value):
        id = yield from self.write(0, value)
        return self.viewed(len(self.views) + 1, id, value)

    def call_load(self):
        found = yield from self.read()
        if found is None:
            raise Refused(4)
        return self.viewed(len(self.views) + 1, *found)

    def call_refresh(self, view):
        found = yield from self.refreshed()
        return self.viewed(int(view), *found)

    def call_update(self, view, value):
        id = yield from self.write(self.views[int(view) - 1].id, value)
        return self.viewed(int(view), id, value)

    def call_claim(self, view, epoch=None):
        it = self.views[int(view) - 1]
        at, value, ended = it.id, it.value, True
        try:
            while True:
                if epoch is not None and int(epoch) <= epoch_of(value):
                    raise Refused(6)
                claimed = int(epoch) if epoch is not None else epoch_of(value) + 1
                value = f"{claimed}:{value.split(':')[1]}"
                try:
                    id = yield from self.write(at, value)
                    break
                except Refused as why:
                    if why.number != 5:
                        raise
                at, value = yield from self.refreshed()
            it.epoch, ended = claimed, False
        finally:
            it.stands = it.stands and not ended
        return self.viewed(int(view), id, value).replace("view", "holder", 1) + f" epoch {claimed}"

    def call_claim_at(self, view, epoch):
        return (yield from self.call_claim(view, epoch))

    def shut_out(self, it):
        """A holder is shut out by a greater epoch of the version at which it stands."""
        if epoch_of(it.value) != it.epoch:
            raise Refused(6 if epoch_of(it.value) > it.epoch else 7)

    def call_holder_refresh(self, view):
        found = yield from self.refreshed()
        words = self.viewed(int(view), *found)
        self.shut_out(self.views[int(view) - 1])
        return words

    def call_holder_update(self, view, value):
        it = self.views[int(view) - 1]
        self.shut_out(it)
        if epoch_of(value) != it.epoch:
            raise Refused(7)
        return (yield from self.call_update(view, value))
