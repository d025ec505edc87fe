"""Stores: in memory, in a folder that processes share, and in a bucket of S3."""

from .base import (
    AlreadyExists,
    Create,
    Got,
    Listed,
    NotFound,
    NotModified,
    Overwrite,
    Page,
    PreconditionFailed,
    PutMode,
    Refused,
    Store,
    Token,
    Update,
)
from .folder import FolderStore
from .memory import MemoryStore
from .s3 import S3Store

__all__ = [
    "AlreadyExists",
    "Create",
    "FolderStore",
    "Got",
    "Listed",
    "MemoryStore",
    "NotFound",
    "NotModified",
    "Overwrite",
    "Page",
    "PreconditionFailed",
    "PutMode",
    "Refused",
    "S3Store",
    "Store",
    "Token",
    "Update",
]
