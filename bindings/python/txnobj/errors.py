"""Why a call has no answer."""

from __future__ import annotations


class Error(Exception):
    """A call has no answer."""


class StoreFailed(Error):
    """A store call failed, and nobody knows whether it took effect. What the store raised is the cause."""


class NoVersion(Error):
    """There is no version of the object."""


class Conflict(Error):
    """A newer version stands: refresh, and try again."""


class Fenced(Error):
    """Another holder claimed a greater epoch: this one writes no more."""


class InvalidState(Error):
    """What was asked for does not fit what is stored, or the boundary's file says no number."""


class Exhausted(Error):
    """No id or no epoch is left, or the attempts of an update are spent."""


class NotPermitted(Error):
    """The client does not permit the call: a base that it was not told or has forgotten, a boundary that is not below an id that
    it was told, or an epoch below that of the base. Nothing was asked of the store.
    """


class Busy(Error):
    """An operation runs on the view."""


#: What the numbers of refusals stand for, those of the protocol.
REFUSALS: dict[int, type[Error]] = {
    2: StoreFailed,
    4: NoVersion,
    5: Conflict,
    6: Fenced,
    7: InvalidState,
    8: InvalidState,
    10: Exhausted,
    11: Exhausted,
}
