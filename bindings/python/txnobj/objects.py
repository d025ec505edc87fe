"""An object that others share, as a program has it."""

from __future__ import annotations

import time
from typing import Any, Callable, Generic, Iterator, Optional, TypeVar

from .client import Client, View
from .codecs import Codec, Raw
from .errors import Conflict, Exhausted, NoVersion
from .stores.base import Store

V = TypeVar("V")

#: How often an update or a claim is tried.
ATTEMPTS = 10_000


class Object(Generic[V]):
    """An object in a store that others share: numbered versions of a value, of which each is written directly on the one before.

    It has a client of its own, which keeps what it last saw. It is used by one thread at a time.

    :param store: where the versions are, as :class:`txnobj.stores.Store` says.
    :param name: the object's name, a plain path segment that is not ``gc``.
    :param codec: how values are written as bytes. Without one, values are bytes.
    :param number: the client's number, at least 1, which no other client of the object has, in all runs. Without one, it is drawn
        from the clock.
    :param recording: the path of a file at whose end the client is recorded, for ``txnobj audit``. Without one, it is not.
    """

    def __init__(
        self,
        store: Store,
        name: str,
        codec: Optional[Codec[V]] = None,
        *,
        number: Optional[int] = None,
        recording: Optional[str] = None,
    ) -> None:
        self._codec: Codec[Any] = codec if codec is not None else Raw()
        self._client = Client(store, name, number=number, recording=recording)
        self._view: Optional[View] = None

    # What it is at

    @property
    def client(self) -> Client:
        """The client, for its other calls."""
        return self._client

    @property
    def id(self) -> int:
        """The id of the version that it is at."""
        return self._at().id

    @property
    def epoch(self) -> int:
        """The epoch of that version."""
        return self._at().epoch

    @property
    def value(self) -> V:
        """The value of that version."""
        return self._codec.decode(self._at().data)

    def _at(self) -> View:
        if self._view is None:
            self._move(self._client.load())
        assert self._view is not None
        return self._view

    def _move(self, view: View) -> View:
        if self._view is not None and self._view.number != view.number:
            self._client.end_view(self._view.number)
        self._view = view
        return view

    # Calls

    def init(self, value: V, epoch: int = 0) -> V:
        """Writes the first version, and is at it.

        :raises Conflict: where there is one already.
        """
        self._move(self._client.init(self._codec.encode(value), epoch))
        return value

    def load(self) -> V:
        """Moves to the newest version, and answers its value.

        :raises NoVersion: where there is none.
        """
        if self._view is None:
            self._move(self._client.load())
        else:
            self._move(self._client.refresh(self._view))
        return self.value

    #: The same: the newest version.
    refresh = load

    def load_or_init(self, value: V, epoch: int = 0) -> V:
        """The same, and where there is no version yet it writes this one as the first."""
        while True:
            try:
                return self.load()
            except NoVersion:
                pass
            try:
                return self.init(value, epoch)
            except Conflict:
                pass

    def update(self, function: Callable[[V], Optional[V]], attempts: int = ATTEMPTS) -> V:
        """Writes what the function makes of the value directly on the version that it is at, and moves there. Where a newer
        version stands it moves to that and asks the function once more, of the new value. A function that answers ``None`` asks
        for nothing: the value stays.

        :raises Exhausted: where each attempt was a conflict.
        """
        view = self._at()
        for _ in range(attempts):
            value = function(self._codec.decode(view.data))
            if value is None:
                return self._codec.decode(view.data)
            try:
                view = self._move(self._client.update(view, self._codec.encode(value), view.epoch))
                return value
            except Conflict:
                view = self._move(self._client.refresh(view))
        raise Exhausted(f"{attempts} attempts were conflicts")

    def claim(self, epoch: Optional[int] = None, timeout: Optional[float] = None, attempts: int = ATTEMPTS) -> "Holder[V]":
        """Claims an epoch, one above that of the newest version or the one that is given, which shuts out all older holders.

        :param timeout: after so many seconds no further attempt is made.
        :raises Fenced: where a version has the given epoch already, or a greater one.
        :raises TimeoutError: where the time is over.
        """
        until = None if timeout is None else time.monotonic() + timeout
        for _ in range(attempts):
            if until is not None and time.monotonic() > until:
                raise TimeoutError(f"no epoch was claimed in {timeout} s")
            view = self._client.load()
            try:
                held = self._client.claim(view) if epoch is None else self._client.claim_at(view, epoch)
            except Conflict:
                continue
            return Holder(self._client, self._codec, held)
        raise Exhausted(f"{attempts} attempts were conflicts")

    def collect(self, keep: int = 1) -> int:
        """Raises the boundary to below the last versions, so many, and removes the others: how many it removed."""
        return self._client.collect(keep)

    def watch(self, poll: float = 1.0, timeout: Optional[float] = None) -> Iterator[tuple[int, V]]:
        """The id and the value of the newest version, and then of each newest one that it finds, as it looks again and again.

        :param poll: how many seconds lie between two looks.
        :param timeout: after so many seconds without a new version it ends.
        """
        seen, since = 0, time.monotonic()
        while True:
            try:
                self.load()
                if self.id != seen:
                    seen = self.id
                    yield seen, self.value
                    since = time.monotonic()
            except NoVersion:
                pass
            if timeout is not None and time.monotonic() - since >= timeout:
                return
            time.sleep(poll)

    def close(self) -> None:
        """Frees the client. No call is made after it."""
        self._client.close()

    def __enter__(self) -> "Object[V]":
        return self

    def __exit__(self, *_: object) -> None:
        self.close()


class Holder(Generic[V]):
    """An object as the holder of an epoch has it: as long as no greater one is claimed it alone writes."""

    def __init__(self, client: Client, codec: Codec[V], view: View) -> None:
        self._client, self._codec, self._view = client, codec, view

    @property
    def holds(self) -> int:
        """The epoch that it holds."""
        assert self._view.holds is not None
        return self._view.holds

    @property
    def id(self) -> int:
        """The id of the version that it is at."""
        return self._view.id

    @property
    def value(self) -> V:
        """The value of that version."""
        return self._codec.decode(self._view.data)

    def refresh(self) -> V:
        """Moves to the newest version.

        :raises Fenced: where that is of a greater epoch.
        """
        self._view = self._client.refresh(self._view)
        return self.value

    def update(self, function: Callable[[V], Optional[V]], attempts: int = ATTEMPTS) -> V:
        """Writes what the function makes of the value, as its holder.

        :raises Fenced: where a greater epoch was claimed. It writes no more then.
        """
        for _ in range(attempts):
            value = function(self.value)
            if value is None:
                return self.value
            try:
                self._view = self._client.update(self._view, self._codec.encode(value), self.holds)
                return value
            except Conflict:
                self.refresh()
        raise Exhausted(f"{attempts} attempts were conflicts")

    def close(self) -> None:
        """Lets the view go: the client keeps nothing of it. The epoch stays claimed."""
        self._client.end_view(self._view.number)
