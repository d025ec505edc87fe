"""Which call a simulated client makes next: one that the rules of clients permit it, by what it was told."""
from __future__ import annotations

from simulated_client import epoch_of


def a_value(rnd, epoch):
    """A value of an epoch at least this great; some are alike."""
    return f"{epoch + rnd.choice((0, 0, 0, 0, 0, 1))}:{rnd.choice((rnd.randint(0, 3), rnd.randint(10, 10**6)))}"


def a_bound(rnd, most):
    return rnd.choice(("-", f"={rnd.randint(0, most + 1)}", f"!{rnd.randint(0, most + 1)}"))


def a_view(rnd, client, holds):
    """The number of a view that stands, a holder's or none."""
    numbers = [at for at, it in enumerate(client.views, 1) if it.stands and (it.epoch is not None) == holds]
    return rnd.choice(numbers) if numbers else None


def of_views(rnd, client):
    """The calls that use a view."""
    view, holder = a_view(rnd, client, False), a_view(rnd, client, True)
    if view:
        epoch = epoch_of(client.views[view - 1].value)
        yield 6, f"update {view} {a_value(rnd, epoch)}"
        yield 3, f"refresh {view}"
        yield 1, f"claim {view}"
        yield 0.5, f"claim_at {view} {epoch + rnd.randint(0, 2)}"
    if holder:
        epoch = client.views[holder - 1].epoch
        if client.views[holder - 1].id in client.told:
            yield 6, f"holder_update {holder} {epoch + (rnd.random() < 0.05)}:{rnd.randint(0, 9)}"
        yield 3, f"holder_refresh {holder}"


def of_told(rnd, client, most):
    """The calls that rest on an id that the client was told."""
    told = max(client.told)
    base = rnd.choice((told, told, rnd.choice(list(client.told))))
    value = a_value(rnd, client.told[base])
    yield 3, f"write {base} {value}"
    yield 0.5, f"write_unchecked {base} {value}"
    yield 1, f"advance {rnd.randint(0, told - 1)}"
    yield 1, "collect"
    yield 0.5, f"delete {rnd.randint(1, most + 1)}"


def of_any(rnd, client, most):
    """The calls that any client may make."""
    yield 2, "load"
    yield 2, "read"
    yield 2 if most == 0 else 0.2, f"init {a_value(rnd, 0)}"
    yield 0.3, f"write - {a_value(rnd, 0)}"
    yield 1, f"list {a_bound(rnd, most)} {a_bound(rnd, most)}"
    for name in ("read_unchecked", "read_seen", "check"):
        yield 0.5, f"{name} {rnd.randint(1, most + 2)}"


def next_call(rnd, it, most):
    """The words of the next call of a process, where ids up to this were made. A collection is a plan of several calls."""
    if it.plan:
        return it.plan.pop(0)
    choices = [*of_any(rnd, it.client, most), *of_views(rnd, it.client)]
    if it.client.told:
        choices += of_told(rnd, it.client, most)
    words = rnd.choices([words for _, words in choices], [weight for weight, _ in choices])[0]
    if words != "collect":
        return words
    below = max(it.client.told) - rnd.randint(1, 2)
    if below < 1:
        return "read"
    it.plan = [*(["list - -"] if rnd.random() < 0.5 else []), *(f"delete {id}" for id in range(max(1, below - 5), below + 1))]
    return f"advance {below}"
