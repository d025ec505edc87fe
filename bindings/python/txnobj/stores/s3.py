"""A store in a bucket of S3, or of a server that speaks as it does."""

from __future__ import annotations

import threading
from typing import Any, Optional

from .base import AlreadyExists, Create, Got, Listed, NotFound, NotModified, Page, PreconditionFailed, PutMode, Token, Update

#: How often a put is made that the server refuses, with no effect, because of another one on the same name.
_TRIES = 16
#: Codes by which servers say that a condition does not hold, that another put was in the way, that a file did not change, and
#: that there is none.
_PRECONDITION = ("PreconditionFailed", "412")
_IN_THE_WAY = ("ConditionalRequestConflict", "409", "OperationAborted")
_NOT_MODIFIED = ("NotModified", "304")
_MISSING = ("NoSuchKey", "NotFound", "404")


class S3Store:
    """The objects of a bucket below a prefix, by a client of boto3 that is handed in.

    The server has to know ``If-None-Match: *`` and ``If-Match`` of puts (S3 has since 2024; Ceph's gateway). A token is an
    object's e-tag, which is that of its bytes: that suffices, since the boundary's file never says the same number twice.

    The client must not make a request again by itself: a conditional put that is made twice can be refused by its own first
    effect. So it is to be made with ``Config(retries={"total_max_attempts": 1})``. One that is not is a ``ValueError``.

    :param quotes: whether ``If-Match`` names e-tags in their quotes, as HTTP has it. Ceph's gateway compares them without, so
        there it is ``False``: with quotes it refuses each update, and none is lost.
    """

    def __init__(self, client: Any, bucket: str, prefix: str = "", quotes: bool = True) -> None:
        retries = client.meta.config.retries or {}
        if retries.get("total_max_attempts") != 1 and retries.get("max_attempts") != 0:
            raise ValueError('the client makes requests again by itself: make it with Config(retries={"total_max_attempts": 1})')
        self._client = client
        self._bucket = bucket
        self._quotes = quotes
        self._prefix = prefix.rstrip("/") + "/" if prefix else ""
        self._local = threading.local()
        members = client.meta.service_model.operation_model("PutObject").input_shape.members
        self._knows_conditions = "IfNoneMatch" in members and "IfMatch" in members
        if not self._knows_conditions:
            # An older boto3 has no such parameters: the headers are added as a request is made.
            client.meta.events.register("before-call.s3.PutObject", self._add_headers)

    def _add_headers(self, params: dict, **_: Any) -> None:
        params["headers"].update(getattr(self._local, "headers", {}))

    def _key(self, name: str) -> str:
        return self._prefix + name

    def _put(self, name: str, data: bytes, condition: dict[str, str]) -> Token:
        more: dict[str, str] = {}
        if self._knows_conditions:
            more = {key.replace("-", ""): value for key, value in condition.items()}
        else:
            self._local.headers = condition
        try:
            answer = self._client.put_object(Bucket=self._bucket, Key=self._key(name), Body=data, **more)
        finally:
            self._local.headers = {}
        return answer["ETag"]

    def put(self, name: str, data: bytes, mode: PutMode) -> Token:
        condition: dict[str, str] = {}
        if isinstance(mode, Create):
            condition = {"If-None-Match": "*"}
        elif isinstance(mode, Update):
            condition = {"If-Match": str(mode.token) if self._quotes else str(mode.token).strip('"')}
        for tried in range(_TRIES):
            try:
                return self._put(name, data, condition)
            except self._client.exceptions.ClientError as error:
                code = str(error.response["Error"].get("Code"))
                if isinstance(mode, Create) and code in _PRECONDITION:
                    raise AlreadyExists(name) from error
                if isinstance(mode, Update) and code in _PRECONDITION + _MISSING:
                    raise PreconditionFailed(name) from error
                if code not in _IN_THE_WAY or tried + 1 == _TRIES:
                    raise
        raise AssertionError("unreachable")

    def get(self, name: str, known: Optional[Token] = None) -> Got:
        more = {} if known is None else {"IfNoneMatch": str(known)}
        try:
            answer = self._client.get_object(Bucket=self._bucket, Key=self._key(name), **more)
        except self._client.exceptions.ClientError as error:
            code = str(error.response["Error"].get("Code"))
            if code in _MISSING:
                raise NotFound(name) from error
            if code in _NOT_MODIFIED:
                raise NotModified(name) from error
            raise
        return Got(answer["Body"].read(), answer["ETag"])

    def list(self, folder: str, after: Optional[str], limit: int) -> Page:
        start = {} if after is None else {"StartAfter": self._key(after)}
        answer = self._client.list_objects_v2(
            Bucket=self._bucket, Prefix=self._key(folder) + "/", MaxKeys=min(limit, 1000), **start
        )
        entries = answer.get("Contents", [])
        files = [Listed(entry["Key"][len(self._prefix) :], entry["ETag"], entry["Size"]) for entry in entries]
        return Page(files, bool(answer.get("IsTruncated")))

    def delete(self, name: str) -> None:
        self._client.delete_object(Bucket=self._bucket, Key=self._key(name))
