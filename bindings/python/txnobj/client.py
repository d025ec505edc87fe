"""A client of one object: its seventeen calls, each run to its answer over a store."""

from __future__ import annotations

import ctypes
import hashlib
import itertools
import time
from collections import OrderedDict
from dataclasses import dataclass
from typing import Any, Generator, Optional, Union

from . import _library as lib
from .errors import REFUSALS, Busy, Error, NotPermitted, StoreFailed
from .recording import Recording
from .stores.base import (
    AlreadyExists,
    Create,
    NotFound,
    NotModified,
    Overwrite,
    PreconditionFailed,
    PutMode,
    Store,
    Token,
    Update,
)

#: How many versions a page of a listing has at most.
PAGE = 1000
#: Of how many of the last answers a client keeps the ids.
LAST = 128
#: How many texts that are tokens a client remembers, to name them to the store again.
_TOKENS = 64

#: Answers that give nothing.
_NOTHING = (lib.DONE, lib.READ_NONE, lib.VALUE_NONE)
#: How many clients the process had before, so that two that are made at one moment have numbers of their own.
_CLIENTS = itertools.count()

#: The steps of a call: before each look and each store call it yields, but before no look of a client that is recorded, and then
#: the answer is returned.
Steps = Generator[None, None, Any]


@dataclass(frozen=True)
class View:
    """A version as a client has it: the view's number, the version's id, its epoch and its bytes, and the epoch that the view
    holds, where it is a holder's.
    """

    number: int
    id: int
    epoch: int
    data: bytes
    holds: Optional[int] = None


@dataclass(frozen=True)
class Version:
    """A version: its id, its epoch and its bytes."""

    id: int
    epoch: int
    data: bytes


class Names:
    """The names of an object's files in a store, those of the program ``txnobj``."""

    def __init__(self, name: str, suffix: str = "val") -> None:
        if name in ("", "gc", ".", "..") or "/" in name:
            raise ValueError(f"{name!r} is no name of an object")
        self.folder, self.suffix = name, suffix
        self.boundary = f"gc/{name}.boundary"

    def version(self, id: int) -> str:
        return f"{self.folder}/{id:020}.{self.suffix}"

    def id_of(self, name: str) -> Optional[int]:
        digits, _, suffix = name[len(self.folder) + 1 :].partition(".")
        if suffix != self.suffix or len(digits) != 20 or not (digits.isascii() and digits.isdigit()):
            return None
        return int(digits) if int(digits) < 1 << 64 else None


class Client:
    """One client of an object. It keeps what it last saw of the store, and of the ids that it was told those that it needs, so
    that its memory does not grow. It is used by one thread at a time.

    :param number: its number, at least 1, which no other client of the object has, in all runs; without one, the nanoseconds
        since 1970.
    :param recording: the path of a file at whose end the client is recorded, for ``txnobj audit``. A client that is recorded
        makes one call at a time.
    """

    def __init__(
        self,
        store: Store,
        name: str,
        *,
        number: Optional[int] = None,
        page: int = PAGE,
        last: int = LAST,
        recording: Optional[str] = None,
    ) -> None:
        self._lib: Any = lib.library()
        self._handle = lib.Handle()
        self._me = lib.byref(self._handle)
        self._store, self._names, self._last = store, Names(name), last
        self._tokens: OrderedDict[int, Token] = OrderedDict()
        self._failure: Optional[BaseException] = None
        self.number = number if number is not None else time.time_ns() + next(_CLIENTS)
        opens = self._lib.open if recording is None else self._lib.open_recorded
        self._test(opens(self._me, self.number, page))
        self._recording: Optional[Recording] = None
        self._running: Optional[int] = None
        if recording is not None:
            self._recording = Recording(recording, f"{name}.{self._names.suffix}", self.number)
            self._write_down()

    # The calls

    def init(self, data: bytes, epoch: int = 0) -> View:
        """Writes the first version: a view of it."""
        return self._view(self.run(self.begin("init", epoch, data, len(data))))

    def load(self) -> View:
        """Reads the newest version: a view of it."""
        return self._view(self.run(self.begin("load")))

    def refresh(self, view: View) -> View:
        """Reads the newest version into a view, as its holder where it is a holder's."""
        return self._view(self.run(self.begin("refresh" if view.holds is None else "holder_refresh", view.number)), view)

    def update(self, view: View, data: bytes, epoch: Optional[int] = None) -> View:
        """Writes bytes directly on the version of a view, as its holder where it is a holder's. Without an epoch, they have that
        of the version.
        """
        name = "update" if view.holds is None else "holder_update"
        epoch = view.epoch if epoch is None else epoch
        return self._view(self.run(self.begin(name, view.number, epoch, data, len(data))), view)

    def claim(self, view: View) -> View:
        """Writes the newest version's bytes once more, with its epoch one higher: the view as the holder of that epoch. A claim
        that is refused ends the view.
        """
        return self._view(self.run(self.begin("claim", view.number)))

    def claim_at(self, view: View, epoch: int) -> View:
        """The same with this epoch."""
        return self._view(self.run(self.begin("claim_at", view.number, epoch)))

    def read(self) -> Optional[Version]:
        """The newest version, or nothing where there is none."""
        told: Optional[Version] = self.run(self.begin("read"))
        return told

    def read_version(self, id: int) -> Optional[Version]:
        """The version of this id, or nothing where there is none. The boundary is not asked."""
        return self._version(id, self.run(self.begin("read_version", id)))

    def read_seen(self, id: int) -> Optional[Version]:
        """The same, from what the client keeps where that has it."""
        return self._version(id, self.run(self.begin("read_seen", id)))

    def list(self, first: Optional[int] = None, last: Optional[int] = None) -> list[int]:
        """The ids of the stored versions, ascending, from the first to the last, both within."""
        bounds: list[int] = []
        for bound in (first, last):
            bounds += [lib.UNBOUNDED, 0] if bound is None else [lib.INCLUDED, bound]
        told: list[int] = self.run(self.begin("list", *bounds))
        return told

    def write(self, base: Optional[int], data: bytes, epoch: int = 0) -> int:
        """Writes bytes directly on the version of this id, or as the first version where there is none: their id."""
        told: int = self.run(self.begin("write", base or 0, epoch, data, len(data)))
        return told

    def write_unchecked(self, base: Optional[int], data: bytes, epoch: int = 0) -> int:
        """The same, without the check that the new version is above the boundary."""
        told: int = self.run(self.begin("write_unchecked", base or 0, epoch, data, len(data)))
        return told

    def check(self, id: int) -> None:
        """Checks that an id is above the boundary."""
        self.run(self.begin("check", id))

    def advance(self, to: int) -> None:
        """Raises the boundary to this id, which is 0 or below an id that a checked call of this client answered."""
        self.run(self.begin("advance", to))

    def delete(self, id: int) -> None:
        """Removes the version of this id, which is at or below the boundary."""
        self.run(self.begin("delete", id))

    def read_latest_unchecked(self) -> Optional[Version]:
        """The newest version, or nothing where there is none. The boundary is not asked, so that it may have been passed; no theorem
        of many clients speaks of this call, and no recording tells of it.
        """
        told: Optional[Version] = self.run(self.begin("read_latest_unchecked"))
        return told

    def delete_unchecked(self, id: int) -> None:
        """Removes the version of this id, also above the boundary. No theorem of many clients speaks of this call, and no recording
        tells of it: an audit may refuse the recordings of clients whose versions were removed so.
        """
        self.run(self.begin("delete_unchecked", id))

    def collect(self, keep: int = 1) -> int:
        """Raises the boundary to below the last versions, so many, and removes the others: how many it removed. It never removes
        the newest version.
        """
        newest = self.read()
        if newest is None or newest.id <= max(keep, 1):
            return 0
        boundary = newest.id - max(keep, 1)
        self.advance(boundary)
        ids = self.list(last=boundary)
        for id in ids:
            self.delete(id)
        return len(ids)

    def end_view(self, number: int) -> None:
        """Lets a view go: the client keeps nothing of it."""
        self._lib.end_view(self._me, number)

    def close(self) -> None:
        """Frees the client. What its operations asked for may still reach the store."""
        self._lib.close(self._me)
        if getattr(self, "_recording", None) is not None:
            self._recording.close()

    def __enter__(self) -> "Client":
        return self

    def __exit__(self, *_: object) -> None:
        self.close()

    def __del__(self) -> None:
        if hasattr(self, "_me"):
            self.close()

    # How a call runs

    def begin(self, name: str, *words: Union[int, bytes]) -> Steps:
        """Begins a call of the library, by its name there. It is made step by step, so that several calls of a client, or of
        several, can go on beside one another.
        """
        if self._recording is not None and self._running is not None:
            raise Busy("a client that is recorded makes one call at a time")
        op = ctypes.c_uint64()
        self._test(getattr(self._lib, name)(self._me, *words, lib.byref(op)))
        self._running = op.value
        return self._steps(op.value)

    @staticmethod
    def run(steps: Steps) -> Any:
        """Makes all steps of a call: its answer."""
        while True:
            try:
                next(steps)
            except StopIteration as end:
                return end.value

    def _steps(self, op: int) -> Steps:
        asked = lib.Asked()
        try:
            while True:
                self._test(self._lib.asked(self._me, op, lib.byref(asked)))
                if asked.kind == lib.ASKS_NOTHING:
                    return self._answer(op)
                # A recording tells no looks: a client that is recorded looks as soon as it wants to, so that an audit which
                # makes its steps once more finds it where it is.
                if self._recording is None or asked.kind != lib.ASKS_LOOK:
                    yield
                self._step(op, asked)
        finally:
            self._running = None
            # What was not brought to its answer is given up; an answer is let go.
            if self._lib.end(self._me, op) != lib.OK and self._lib.give_up(self._me, op) == lib.OK:
                self._write_down()
            self._lib.forget(self._me, self._last)

    def _step(self, op: int, asked: lib.Asked) -> None:
        """A look, or a store call and its reply. Where memory lacks for the reply, nothing has changed, and it is handed in again
        once.
        """
        if asked.kind == lib.ASKS_LOOK:
            self._test(self._lib.look(self._me, op))
            return
        self._asking(op)
        name, *reply = self._reply(op, asked)
        self._at()
        code = getattr(self._lib, name)(self._me, op, *reply)
        if code == lib.NO_MEMORY:
            code = getattr(self._lib, name)(self._me, op, *reply)
        self._test(code)

    def _reply(self, op: int, asked: lib.Asked) -> tuple[Any, ...]:
        """Makes the store call that an operation asks for: the function that takes the reply, and the reply."""
        reply = {lib.ASKS_PUT: self._put, lib.ASKS_GET: self._get, lib.ASKS_LIST: self._list, lib.ASKS_DELETE: self._delete}
        return reply[asked.kind](op, asked)

    def _name(self, version: int) -> str:
        return self._names.boundary if version == 0 else self._names.version(version)

    def _at(self) -> None:
        """Tells the library the time, where the client is recorded."""
        if self._recording is not None:
            self._test(self._lib.at(self._me, self._recording.now()))

    def _asking(self, op: int) -> None:
        """Writes down what an operation is about to ask, where the client is recorded."""
        if self._recording is not None:
            self._at()
            self._test(self._lib.asking(self._me, op))
            self._write_down()

    def _write_down(self) -> None:
        """Writes down the rows that wait, where the client is recorded."""
        if self._recording is None:
            return
        length = ctypes.c_size_t()
        self._test(self._lib.rows_len(self._me, lib.byref(length)))
        rows = ctypes.create_string_buffer(max(1, length.value))
        self._test(self._lib.rows_take(self._me, rows, length.value))
        self._recording.write(rows.raw[: length.value])

    def _put(self, op: int, asked: lib.Asked) -> tuple[Any, ...]:
        data = self._bytes(self._lib.asked_bytes, op, asked.len)
        error, token = self._called(self._store.put, self._name(asked.version), data, self._mode(asked))
        return "put", error, self._number(token)

    def _get(self, _op: int, asked: lib.Asked) -> tuple[Any, ...]:
        known = self._token(asked.token) if asked.mode else None
        error, got = self._called(self._store.get, self._name(asked.version), known)
        data, number = (b"", 0) if got is None else (got.data, self._number(got.token))
        return "got", error, number, data, len(data)

    def _list(self, _op: int, asked: lib.Asked) -> tuple[Any, ...]:
        after = None if asked.version == 0 else self._names.version(asked.version)
        error, page = self._called(self._store.list, self._names.folder, after, asked.limit)
        found = []
        for file in page.files if page is not None else ():
            id = self._names.id_of(file.name)
            if id is not None:
                found.append((id, self._number(file.token), file.size))
        files = (lib.Listed * max(1, len(found)))(*found)
        return "listed_files", error, files, len(found), page is not None and page.more

    def _delete(self, _op: int, asked: lib.Asked) -> tuple[Any, ...]:
        error, _ = self._called(self._store.delete, self._name(asked.version))
        return "deleted", error

    def _called(self, function: Any, *words: Any) -> tuple[int, Any]:
        """Makes a store call: 0 and what it answers, or the number of why it answers nothing."""
        try:
            return 0, function(*words)
        except NotFound:
            return lib.NOT_FOUND, None
        except AlreadyExists:
            return lib.ALREADY_EXISTS, None
        except PreconditionFailed:
            return lib.PRECONDITION, None
        except NotModified:
            return lib.NOT_MODIFIED, None
        except Exception as failure:  # pylint: disable=broad-except
            # Nobody knows whether it took effect.
            self._failure = failure
            return lib.FAILED, None

    def _mode(self, asked: lib.Asked) -> PutMode:
        if asked.mode == lib.UPDATE:
            return Update(self._token(asked.token))
        return Create() if asked.mode == lib.CREATE else Overwrite()

    # Tokens: the library's are numbers

    def _number(self, token: Optional[Token]) -> int:
        if token is None or isinstance(token, int):
            return token or 0
        number = int.from_bytes(hashlib.sha256(token.encode()).digest()[:8], "little")
        self._tokens[number] = token
        self._tokens.move_to_end(number)
        while len(self._tokens) > _TOKENS:
            self._tokens.popitem(last=False)
        return number

    def _token(self, number: int) -> Token:
        return self._tokens.get(number, number)

    # Answers

    def _bytes(self, function: Any, number: int, length: int) -> bytes:
        out = ctypes.create_string_buffer(max(1, length))
        if not function(self._me, number, out, length):
            raise AssertionError("the library tells another length")
        return out.raw[:length]

    def _answer(self, op: int) -> Any:
        told = lib.Answered()
        self._test(self._lib.answered(self._me, op, lib.byref(told)))
        answer = self._read_answer(op, told)
        self._write_down()
        if told.kind == lib.REFUSED:
            self._refuse(told.refusal)
        return answer

    def _read_answer(self, op: int, told: lib.Answered) -> Any:
        """What an answer gives."""
        if told.kind == lib.REFUSED or told.kind in _NOTHING:
            return None
        if told.kind == lib.IDS:
            ids = (ctypes.c_uint64 * max(1, told.len))()
            if not self._lib.answered_ids(self._me, op, ids, told.len):
                raise AssertionError("the library tells another length")
            return list(ids)[: told.len]
        if told.kind == lib.WROTE:
            return told.id
        data = self._bytes(self._lib.answered_bytes, op, told.len)
        if told.kind == lib.READ:
            return Version(told.id, told.epoch, data)
        if told.kind == lib.VALUE:
            return told.epoch, data
        if told.kind == lib.HELD:
            return View(told.view, told.id, told.epoch, data, told.holder)
        return View(told.view, told.id, told.epoch, data)

    @staticmethod
    def _version(id: int, told: Optional[tuple[int, bytes]]) -> Optional[Version]:
        return None if told is None else Version(id, *told)

    @staticmethod
    def _view(told: View, before: Optional[View] = None) -> View:
        """The view that an answer tells, as the holder's that it was before."""
        if before is None or before.holds is None:
            return told
        return View(told.number, told.id, told.epoch, told.data, before.holds)

    def _refuse(self, number: int) -> None:
        if number == 9:
            raise MemoryError
        kind = REFUSALS.get(number, Error)
        failure, self._failure = self._failure, None
        if kind is StoreFailed:
            raise StoreFailed("a store call failed") from failure
        raise kind(f"refused with {number}")

    @staticmethod
    def _test(code: int) -> None:
        if code == lib.OK:
            return
        if code == lib.NO_MEMORY:
            raise MemoryError
        if code == lib.VIEW_BUSY:
            raise Busy("an operation runs on the view")
        if code in (lib.UNKNOWN_BASE, lib.BOUNDARY_TOO_HIGH, lib.EPOCH_LOWERED):
            reasons = {
                lib.UNKNOWN_BASE: "the client was not told of the base, or has forgotten it",
                lib.BOUNDARY_TOO_HIGH: "the boundary is not below an id that the client was told",
                lib.EPOCH_LOWERED: "the value's epoch is below that of its base",
            }
            raise NotPermitted(reasons[code])
        raise ValueError("there is no such client, operation or view")
