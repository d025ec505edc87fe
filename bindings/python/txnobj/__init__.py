"""An object in a store that others share, as numbered versions that many clients update by compare and swap, and claims of an
epoch that shut out older holders. What each client does next is decided by a library whose steps are proved; the store calls are
made here.

    from txnobj import FolderStore, Json, Object

    counter = Object(FolderStore("/srv/meta"), "counter", Json())
    counter.load_or_init(0)
    counter.update(lambda count: count + 1)
"""

from .client import Client, Version, View
from .codecs import Codec, Json, Raw, Text
from .errors import Busy, Conflict, Error, Exhausted, Fenced, InvalidState, NotPermitted, NoVersion, StoreFailed
from .objects import Holder, Object
from .stores import (
    AlreadyExists,
    Create,
    FolderStore,
    Got,
    Listed,
    MemoryStore,
    NotFound,
    NotModified,
    Overwrite,
    Page,
    PreconditionFailed,
    PutMode,
    S3Store,
    Store,
    Token,
    Update,
)

__all__ = [
    "AlreadyExists",
    "Busy",
    "Client",
    "Codec",
    "Conflict",
    "Create",
    "Error",
    "Exhausted",
    "Fenced",
    "FolderStore",
    "Got",
    "Holder",
    "InvalidState",
    "Json",
    "Listed",
    "MemoryStore",
    "NoVersion",
    "NotFound",
    "NotModified",
    "NotPermitted",
    "Object",
    "Overwrite",
    "Page",
    "PreconditionFailed",
    "PutMode",
    "Raw",
    "S3Store",
    "Store",
    "StoreFailed",
    "Text",
    "Token",
    "Update",
    "Version",
    "View",
]
