"""A store in a folder, by the layout and the protocol of the program ``txnobj`` (``docs/folder.md`` of the repository)."""

from __future__ import annotations

import errno
import fcntl
import os
import stat
import time
from contextlib import contextmanager
from pathlib import Path
from typing import Iterator, Optional, Sequence, Union

from .base import AlreadyExists, Create, Got, Listed, NotFound, NotModified, Overwrite, Page, PreconditionFailed, PutMode, Token, Update

#: How many temporary names are tried, how often a get looks again, and how often a listing begins again.
_TRIES, _LOOKS, _LISTINGS = 64, 8, 16
#: For how many seconds a lock is waited for.
_PATIENCE = 30.0
#: The folder of the boundaries' files.
_BOUNDARIES = "gc"


class FolderStore:
    """Files below a folder of a file system, which other processes share with no server: those of ``txnobj`` too.

    What the file system has to keep, ``txnobj doctor`` tells. With ``syncs``, what is told lasts when the power fails.
    """

    def __init__(self, root: Union[str, Path], syncs: bool = True, suffix: str = "val") -> None:
        self._root = os.fspath(root)
        self._suffix = suffix
        if not os.path.isdir(self._root):
            raise NotADirectoryError(f"{self._root}: no such folder: is it mounted?")
        self._syncs = syncs
        self._last = 0
        self._keeps_times = False
        #: What is known to last: by folder the greatest version, and by boundary its number.
        self._lasting: dict[str, Optional[int]] = {}

    # Names

    def _file(self, name: str) -> str:
        return os.path.join(self._root, name)

    @staticmethod
    def _is_boundary(name: str) -> bool:
        return name.startswith(_BOUNDARIES + "/")

    def _id(self, name: str) -> Optional[int]:
        """The id of the version whose file has this name, without its folder."""
        digits, _, suffix = os.path.basename(name).partition(".")
        if suffix != self._suffix or len(digits) != 20 or not (digits.isascii() and digits.isdigit()):
            return None
        return int(digits) if int(digits) < 1 << 64 else None

    def _number(self, name: str, data: bytes, times: os.stat_result) -> Optional[int]:
        """A file's number: of a boundary the one that it says, where it says one, and of a version its time."""
        if not self._is_boundary(name):
            return times.st_mtime_ns if 0 <= times.st_mtime_ns < 1 << 64 else None
        text = data.decode("ascii", "replace")
        plain = text.isascii() and text.isdigit() and (text == "0" or text[0] != "0")
        return int(text) if plain and int(text) < 1 << 64 else None

    # Steps

    def _sync_folder(self, folder: str) -> None:
        opened = os.open(folder, os.O_RDONLY | os.O_DIRECTORY)
        try:
            os.fsync(opened)
        except OSError as error:
            if error.errno not in (errno.EINVAL, errno.ENOTSUP):
                raise
        finally:
            os.close(opened)

    def _known_to_last(self, name: str, number: Optional[int]) -> bool:
        if self._is_boundary(name):
            return number is not None and self._lasting.get(name) == number
        known, id = self._lasting.get(os.path.dirname(name)), self._id(name)
        return known is not None and id is not None and id <= known

    def _make_last(self, name: str, number: Optional[int]) -> None:
        if not self._syncs:
            return
        self._sync_folder(os.path.dirname(self._file(name)))
        if self._is_boundary(name):
            self._lasting[name] = number
        elif not self._known_to_last(name, number):
            self._lasting[os.path.dirname(name)] = self._id(name)

    def _make_folder(self, file: str) -> None:
        folder = os.path.dirname(file)
        try:
            os.mkdir(folder)
        except FileExistsError:
            pass
        if self._syncs:
            self._sync_folder(os.path.dirname(folder))

    def _next(self) -> int:
        number = max(time.time_ns(), self._last + 1)
        self._last = number + (11 - number % 10) % 10
        return self._last

    def _write_new(self, file: str, data: bytes) -> tuple[str, os.stat_result]:
        """Writes the bytes whole to a temporary file beside another, whose time is a number that no file beside it has."""
        for _ in range(_TRIES):
            number = self._next()
            temporary = f"{file}#{number:020}"
            try:
                opened = os.open(temporary, os.O_WRONLY | os.O_CREAT | os.O_EXCL, 0o666)
            except FileExistsError:
                continue
            try:
                left = memoryview(data)
                while left:
                    left = left[os.write(opened, left) :]
                os.utime(opened, ns=(number, number))
                times = os.fstat(opened)
                if not self._keeps_times and times.st_mtime_ns != number:
                    raise OSError(errno.ENOTSUP, "the file system does not keep the time of a file", temporary)
                self._keeps_times = True
                if self._syncs:
                    os.fsync(opened)
            except BaseException:
                os.unlink(temporary)
                raise
            finally:
                os.close(opened)
            return temporary, times
        raise FileExistsError(errno.EEXIST, "no temporary name is free", file)

    def _write(self, file: str, data: bytes) -> tuple[str, os.stat_result]:
        try:
            return self._write_new(file, data)
        except FileNotFoundError:
            self._make_folder(file)
            return self._write_new(file, data)

    @contextmanager
    def _lock(self, file: str, how: int, flags: int = os.O_RDWR | os.O_CREAT) -> Iterator[None]:
        try:
            opened = os.open(file, flags, 0o666)
        except FileNotFoundError:
            if flags & os.O_CREAT == 0:
                raise
            self._make_folder(file)
            opened = os.open(file, flags, 0o666)
        try:
            until = time.monotonic() + _PATIENCE
            while True:
                try:
                    fcntl.flock(opened, how | fcntl.LOCK_NB)
                    break
                except BlockingIOError:
                    if time.monotonic() > until:
                        raise TimeoutError(errno.ETIMEDOUT, "locking: timed out", file) from None
                    time.sleep(0.001)
            yield
        finally:
            os.close(opened)

    def _stands(self, file: str) -> bool:
        """Whether a regular file has the name. Something else there is an error."""
        try:
            found = os.lstat(file)
        except FileNotFoundError:
            return False
        if not stat.S_ISREG(found.st_mode):
            raise OSError(errno.EINVAL, "the name is that of no regular file", file)
        return True

    def _read(self, name: str) -> Optional[tuple[bytes, Optional[int]]]:
        """The bytes of a file and its number, where there is one."""
        file = self._file(name)
        for looks in range(_LOOKS):
            try:
                if not self._stands(file):
                    return None
                with open(file, "rb") as opened:
                    data = opened.read()
                    times = os.fstat(opened.fileno())
                return data, self._number(name, data, times)
            except FileNotFoundError:
                return None
            except OSError as error:
                if error.errno != errno.ESTALE or looks + 1 == _LOOKS:
                    raise
        raise AssertionError("unreachable")

    # Calls

    def put(self, name: str, data: bytes, mode: PutMode) -> Token:
        file = self._file(name)
        if isinstance(mode, Create):
            return self._create(name, file, data)
        if not isinstance(mode, (Update, Overwrite)):
            raise TypeError(mode)
        with self._lock(file + "#0", fcntl.LOCK_EX):
            if isinstance(mode, Update):
                now = self._read(name)
                if now is None or now[1] is None or now[1] != mode.token:
                    raise PreconditionFailed(name)
            temporary, times = self._write(file, data)
            number = self._number(name, data, times)
            try:
                os.rename(temporary, file)
            except OSError:
                # A rename that was made though it is answered with an error shows in the file's time.
                if not os.path.exists(file) or os.lstat(file).st_mtime_ns != times.st_mtime_ns:
                    raise
            self._make_last(name, number)
            return number or 0

    def _create(self, name: str, file: str, data: bytes) -> Token:
        if self._syncs and self._stands(file):
            raise AlreadyExists(name)
        temporary, times = self._write(file, data)
        try:
            try:
                os.link(temporary, file)
            except OSError as error:
                # A link that was made though it is answered with an error shows in that both names are one file.
                if not self._is_same(temporary, file):
                    if error.errno == errno.EEXIST and self._stands(file):
                        raise AlreadyExists(name) from None
                    raise
        finally:
            os.unlink(temporary)
        number = self._number(name, data, times)
        self._make_last(name, number)
        return number or 0

    @staticmethod
    def _is_same(one: str, other: str) -> bool:
        try:
            return os.path.samestat(os.lstat(one), os.lstat(other))
        except FileNotFoundError:
            return False

    def get(self, name: str, known: Optional[Token] = None) -> Got:
        found = self._read(name)
        if found is None:
            raise NotFound(name)
        data, number = found
        if not self._known_to_last(name, number):
            self._make_last(name, number)
        if number is not None and number == known:
            raise NotModified(name)
        return Got(data, number or 0)

    def delete(self, name: str) -> None:
        file = self._file(name)
        lock = file + "#0" if self._is_boundary(name) else os.path.join(os.path.dirname(file), "#0")
        if not os.path.isdir(os.path.dirname(file)):
            return
        with self._lock(lock, fcntl.LOCK_EX):
            try:
                os.unlink(file)
            except FileNotFoundError:
                pass
            if self._syncs:
                self._sync_folder(os.path.dirname(file))

    # Listings

    def _scan(self, folder: str, after: int) -> list[int]:
        """The ids, ascending, of the versions that the folder shows as it is gone through once."""
        ids = {self._id(entry) for entry in os.listdir(self._file(folder))}
        return sorted(id for id in ids if id is not None and id > after)

    @staticmethod
    def _run(first: Sequence[int], second: Sequence[int], third: Sequence[int], last: int) -> Optional[list[int]]:
        """What follows the first scan's ids in the second without a gap, where the three tell one moment."""
        if list(third[: len(first)]) != list(first) or any(id <= last for id in third[len(first) :]):
            return None
        if not set(second) <= set(third):
            return None
        run, end = [], last
        for id in second[len(first) :]:
            if id != end + 1:
                break
            run.append(id)
            end = id
        return run

    def _settled(self, folder: str, after: int) -> list[int]:
        """The ids as they stood at one moment, where nothing is removed meanwhile."""
        first = self._scan(folder, after)
        for _ in range(_LISTINGS):
            second = self._scan(folder, after)
            if second == first:
                return second
            last = first[-1] if first else max(after, 0)
            if second[: len(first)] != first or any(id <= last for id in second[len(first) :]):
                first = second
                continue
            third = self._scan(folder, after)
            run = self._run(first, second, third, last)
            if run is not None:
                return first + run
            first = third
        raise OSError(errno.EAGAIN, "the folder changed at each listing", self._file(folder))

    def list(self, folder: str, after: Optional[str], limit: int) -> Page:
        path = self._file(folder)
        if not os.path.isdir(path):
            return Page([], False)
        lock, flags = os.path.join(path, "#0"), os.O_RDWR | os.O_CREAT
        if os.path.exists(lock):
            flags = os.O_RDONLY
        with self._lock(lock, fcntl.LOCK_SH, flags):
            for _ in range(_LISTINGS):
                ids = self._settled(folder, -1 if after is None else self._id(after) or 0)
                files = self._listed(folder, ids[:limit])
                if files is not None:
                    break
            else:
                raise OSError(errno.EAGAIN, "the folder changed at each listing", path)
        if files and not self._known_to_last(files[-1].name, None):
            self._make_last(files[-1].name, None)
        return Page(files, len(ids) > limit)

    def _listed(self, folder: str, ids: Sequence[int]) -> Optional[list[Listed]]:
        """What a listing tells of these versions, nothing where one of them was removed since."""
        files = []
        for id in ids:
            name = f"{folder}/{id:020}.{self._suffix}"
            try:
                times = os.lstat(self._file(name))
            except FileNotFoundError:
                return None
            files.append(Listed(name, self._number(name, b"", times) or 0, times.st_size))
        return files
