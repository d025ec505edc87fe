"""A random run of clients that share only an honest store: replies are lost, effects come late, clients are held up, give up or are
killed. The simulator makes each store call take effect at one moment, so it knows the order, and the run is one history."""
from __future__ import annotations

import random
from dataclasses import dataclass, field

from simulated_calls import next_call
from simulated_client import Client
from simulated_store import BOUNDARY, Store

# How fast a client may be, against the others, until it changes.
PACES = (0.03, 0.3, 1.0, 3.0)


@dataclass
class Setting:
    """What happens in a run: how many clients and events, and how often each misfortune comes, of 1; on how many machines, whose clocks
    are so many milliseconds off at most."""

    clients: int
    events: int
    page: int
    lost: float
    late: float
    killed: float
    given_up: float
    same_time: float
    clock_error: int
    machines: int = 1

    @staticmethod
    def at_random(rnd, events=400):
        often = rnd.choice((0, 0.02, 0.1, 0.25))
        return Setting(
            clients=rnd.randint(2, 5),
            events=rnd.randint(events // 8, events),
            page=rnd.choice((1, 2, 3, 1000)),
            lost=often,
            late=rnd.choice((0, 0.3, 0.7)),
            killed=rnd.choice((0, 0.005, 0.03)),
            given_up=rnd.choice((0, 0.02)),
            same_time=rnd.choice((0, 0, 0.2)),
            clock_error=rnd.choice((1, 20)),
        )

    @staticmethod
    def harder(rnd):
        """More clients that run for longer, and more of each misfortune."""
        return Setting(
            clients=rnd.randint(3, 9),
            events=rnd.randint(100, 900),
            page=rnd.choice((1, 2, 3, 1000)),
            lost=rnd.choice((0.1, 0.25, 0.4, 0.6)),
            late=rnd.choice((0.3, 0.7, 0.95)),
            killed=rnd.choice((0, 0.01, 0.05)),
            given_up=rnd.choice((0, 0.02, 0.05)),
            same_time=rnd.choice((0, 0.2, 0.5)),
            clock_error=1,
        )


@dataclass
class Clock:
    """A clock: what it shows at the time 0, and how far the time since 1970 that its recordings name is off, in nanoseconds."""

    name: str
    at_start: int
    off: int

    def source(self):
        return f"of it.val clock {self.name} ahead {10**18 + self.off - self.at_start}"


@dataclass
class Process:
    """A client that runs: its rows, its call, and what that waits for."""

    number: int
    client: Client
    clock: Clock
    rows: list
    pace: float = 1.0
    op: int = 0
    call: object = None
    plan: list = field(default_factory=list)
    # What the call asks for, whether it was asked, and the reply once it took effect.
    request: object = None
    is_asked: bool = False
    reply: object = None


class Run:
    """A run by its seed. `order` has the store calls that took effect, in their order: the client, the operation and the request."""

    def __init__(self, seed, setting=None, machines=1):
        self.random = random.Random(seed)
        self.setting = setting or Setting.at_random(self.random)
        self.setting.machines = machines
        self.store, self.now, self.order, self.loose = Store(), 10**6, [], []
        self.is_made = set()
        most = self.setting.clock_error * 10**6
        spread = lambda place: self.random.randint(-most, most) if place else 0  # noqa: E731
        self.clocks = [Clock(f"c{it}", self.random.randint(2 * 10**9, 10**12), spread(it)) for it in range(self.setting.machines)]
        self.processes, self.recordings = [], []
        for _ in range(self.setting.clients):
            self.start()
        for _ in range(self.setting.events):
            self.event()

    def start(self):
        """A client of the next number begins."""
        clock, number = self.random.choice(self.clocks if self.recordings else self.clocks[:1]), len(self.recordings) + 1
        rows = [clock.source(), f"client {number} page {self.setting.page}"]
        self.recordings.append(rows)
        self.processes.append(Process(number, Client(self.setting.page), clock, rows, self.random.choice(PACES)))

    def happens(self, chance):
        return self.random.random() < chance

    def event(self):
        """One thing happens, after some time."""
        if not self.happens(self.setting.same_time):
            self.now += self.random.choice((1, 10, 10**5))
        if self.loose and self.happens(0.05):
            self.effect(*self.loose.pop(self.random.randrange(len(self.loose))))
            return
        it = self.random.choices(self.processes, [process.pace for process in self.processes])[0]
        if self.happens(0.02):
            it.pace = self.random.choice(PACES)
        if self.happens(self.setting.killed):
            self.kill(it)
        elif it.call is None:
            self.begin(it)
        elif not it.is_asked:
            self.ask(it)
        elif it.reply is None:
            self.serve(it)
        else:
            self.answer(it, it.reply)

    def row(self, it, kind, *words, timed=True):
        time = [f"{self.now + it.clock.at_start}"] if timed else []
        it.rows.append(" ".join([kind, f"{it.op}", *time, *words]))

    def effect(self, number, op, request):
        """A request takes effect."""
        self.order.append((number, op, request))
        if request.kind == "create" and request.id != BOUNDARY:
            self.is_made.add(request.id)
        return self.store.serve(request)

    def begin(self, it):
        words = next_call(self.random, it, max(self.is_made, default=0))
        it.op += 1
        it.call = it.client.call(words)
        self.row(it, "begin", words, timed=False)
        self.go_on(it, None)

    def go_on(self, it, reply):
        """The call takes a reply, and asks for the next one or is answered."""
        it.is_asked, it.reply = False, None
        try:
            it.request = it.call.send(reply)
        except StopIteration as end:
            it.call = None
            self.row(it, "answer", end.value, timed=False)

    def ask(self, it):
        if self.happens(self.setting.given_up):
            self.end(it)
            self.row(it, "giveup", timed=False)
            return
        self.row(it, "ask", it.request.words())
        it.is_asked = True

    def serve(self, it):
        """The call takes effect, or its client is told that it failed before it did."""
        if self.happens(self.setting.lost / 2):
            self.leave(it)
            self.fail(it)
        else:
            it.reply = self.effect(it.number, it.op, it.request)

    def answer(self, it, reply):
        if self.happens(self.setting.lost / 2):
            self.fail(it)
            return
        self.row(it, "reply", reply.words())
        self.go_on(it, reply)

    def fail(self, it):
        self.row(it, "failed")
        self.go_on(it, None)

    def leave(self, it):
        """What is asked may still take effect."""
        if it.request.changes() and self.happens(self.setting.late):
            self.loose.append((it.number, it.op, it.request))

    def end(self, it):
        it.call.close()
        it.call, it.is_asked, it.reply = None, False, None

    def kill(self, it):
        """A client is killed, and another one begins."""
        if it.call and it.is_asked and it.reply is None:
            self.leave(it)
        if it.rows[-1].startswith("answer") and self.happens(0.3):
            # (its last answer was not written)
            it.rows.pop()
        self.processes.remove(it)
        self.start()

    def ends(self):
        """How many entries the history has, and where its boundary stands."""
        return max(self.is_made, default=0), int(self.store.files.get(BOUNDARY, (0, "0"))[1])
