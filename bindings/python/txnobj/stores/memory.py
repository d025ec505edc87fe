"""A store in memory."""

from __future__ import annotations

import threading
from typing import Optional

from .base import AlreadyExists, Create, Got, Listed, NotFound, NotModified, Page, PreconditionFailed, PutMode, Token, Update


class MemoryStore:
    """Files in a dictionary, which the threads of one process share."""

    def __init__(self) -> None:
        self._files: dict[str, Got] = {}
        self._tokens = 0
        self._lock = threading.Lock()

    def put(self, name: str, data: bytes, mode: PutMode) -> Token:
        with self._lock:
            now = self._files.get(name)
            if isinstance(mode, Create) and now is not None:
                raise AlreadyExists(name)
            if isinstance(mode, Update) and (now is None or now.token != mode.token):
                raise PreconditionFailed(name)
            self._tokens += 1
            self._files[name] = Got(bytes(data), self._tokens)
            return self._tokens

    def get(self, name: str, known: Optional[Token] = None) -> Got:
        with self._lock:
            now = self._files.get(name)
        if now is None:
            raise NotFound(name)
        if known is not None and now.token == known:
            raise NotModified(name)
        return now

    def list(self, folder: str, after: Optional[str], limit: int) -> Page:
        prefix = folder + "/"
        with self._lock:
            names = sorted(n for n in self._files if n.startswith(prefix) and (after is None or n > after))
            files = [Listed(n, self._files[n].token, len(self._files[n].data)) for n in names[:limit]]
        return Page(files, len(names) > limit)

    def delete(self, name: str) -> None:
        with self._lock:
            self._files.pop(name, None)
