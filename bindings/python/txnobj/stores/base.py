"""What a store is: four methods, and what each of them answers."""

from __future__ import annotations

from dataclasses import dataclass
from typing import Optional, Protocol, Sequence, Union

#: What names a state of a file: a number below 2^64, or a text such as an e-tag. Two states of one file have different tokens.
Token = Union[int, str]


class Refused(Exception):
    """The store made the call, and says that it had no effect, or that there is nothing to tell."""


class NotFound(Refused):
    """There is no file of this name."""


class AlreadyExists(Refused):
    """A put that creates: there is a file of this name."""


class PreconditionFailed(Refused):
    """A put that updates: there is no file of this name, or it has another token."""


class NotModified(Refused):
    """A get: the file still has the token that is known."""


@dataclass(frozen=True)
class Create:
    """A put writes the file where there is none of its name."""


@dataclass(frozen=True)
class Update:
    """A put writes over the file that has this token."""

    token: Token


@dataclass(frozen=True)
class Overwrite:
    """A put writes the file whatever there is."""


PutMode = Union[Create, Update, Overwrite]


@dataclass(frozen=True)
class Got:
    """The bytes of a file, and its token."""

    data: bytes
    token: Token


@dataclass(frozen=True)
class Listed:
    """A file as a listing tells it: its name, its token, and how many bytes it has."""

    name: str
    token: Token
    size: int


@dataclass(frozen=True)
class Page:
    """Some files, by ascending names, and whether more follow."""

    files: Sequence[Listed]
    more: bool

    @property
    def names(self) -> list[str]:
        """The names of the files."""
        return [file.name for file in self.files]


class Store(Protocol):
    """Files by name, which others share. A name is a path of plain segments, as ``counter/00000000000000000001.val``.

    Each method makes one call. Each call takes effect at one moment while it is under way, or not at all: no answer may come
    of a copy that is old. An exception that is no :class:`Refused` says that nobody knows whether the call took effect, or
    will.
    """

    def put(self, name: str, data: bytes, mode: PutMode) -> Token:
        """Writes a file, and answers its new token.

        :raises AlreadyExists: of a :class:`Create`, where there is a file of this name.
        :raises PreconditionFailed: of an :class:`Update`, where there is none, or it has another token.
        """

    def get(self, name: str, known: Optional[Token] = None) -> Got:
        """The bytes of a file, and its token.

        :raises NotFound: where there is no file of this name.
        :raises NotModified: where it has just the token that is known.
        """

    def list(self, folder: str, after: Optional[str], limit: int) -> Page:
        """The first files in a folder by their names, at most ``limit`` of them, as they stand at one moment: those after a name,
        where one is given.
        """

    def delete(self, name: str) -> None:
        """Removes a file. What is missing is removed already."""
