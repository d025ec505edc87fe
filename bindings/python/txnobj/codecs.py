"""How values are written as bytes."""

from __future__ import annotations

import json
from typing import Any, Generic, Protocol, TypeVar

V = TypeVar("V")


class Codec(Protocol, Generic[V]):
    """Writes a value as bytes, and reads it back. What is written has to be read as the same value."""

    def encode(self, value: V) -> bytes: ...

    def decode(self, data: bytes) -> V: ...


class Raw:
    """Values that are bytes, as they are."""

    def encode(self, value: bytes) -> bytes:
        return value

    def decode(self, data: bytes) -> bytes:
        return data


class Text:
    """Texts, in UTF-8."""

    def encode(self, value: str) -> bytes:
        return value.encode()

    def decode(self, data: bytes) -> str:
        return data.decode()


class Json:
    """What JSON writes, with the keys of objects in order."""

    def encode(self, value: Any) -> bytes:
        return json.dumps(value, separators=(",", ":"), sort_keys=True).encode()

    def decode(self, data: bytes) -> Any:
        return json.loads(data)
