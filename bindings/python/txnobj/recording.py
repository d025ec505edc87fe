"""What a client does, written down as it happens, for ``txnobj audit``: the rows that the library tells of it."""

from __future__ import annotations

import fcntl
import os
import time
from typing import Union

#: The file in which a machine says which of its starts this is.
_START = "/proc/sys/kernel/random/boot_id"


class Recording:
    """A file at whose end the rows of one client stand, whole ones alone. One process alone writes there.

    :raises BlockingIOError: where another process writes there.
    """

    def __init__(self, path: Union[str, os.PathLike[str]], object_name: str, client: int) -> None:
        self._file = os.open(path, os.O_RDWR | os.O_CREAT | os.O_APPEND, 0o666)
        try:
            fcntl.flock(self._file, fcntl.LOCK_EX | fcntl.LOCK_NB)
            self._cut_off()
            ahead = max(time.time_ns() - time.monotonic_ns(), 0)
            #: What stands before the client's rows: of which object they are, and of which clock their times.
            self._source = f"of {object_name} clock {self._clock(client)} ahead {ahead}\n".encode("ascii")
        except BaseException:
            self.close()
            raise

    @staticmethod
    def _clock(client: int) -> str:
        """The name that the machine gives to its clock since it was started."""
        try:
            with open(_START, encoding="ascii") as file:
                return file.readline().strip()
        except OSError:
            return f"client-{client}-{time.time_ns()}"

    def _cut_off(self) -> None:
        """Takes off what follows the last whole row, as a client leaves it that was killed."""
        size = os.fstat(self._file).st_size
        whole = os.pread(self._file, size, 0).rfind(b"\n") + 1
        if whole < size:
            os.ftruncate(self._file, whole)

    @staticmethod
    def now() -> int:
        """The time of the clock that the recording names."""
        return time.monotonic_ns()

    def write(self, rows: bytes) -> None:
        """Adds rows, each with its line feed."""
        left, self._source = memoryview(self._source + rows), b""
        while left:
            left = left[os.write(self._file, left) :]

    def close(self) -> None:
        """Closes the file."""
        if self._file >= 0:
            os.close(self._file)
            self._file = -1
