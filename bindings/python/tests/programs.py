"""The programs of the repository that tests run beside the module, where they are built."""

import os

_CRATES = os.path.join(os.path.dirname(__file__), "..", "..", "..", "crates")


def _built(variable, name):
    """The path of a program: as the environment says, or where the gate leaves it; nothing where it is not there."""
    path = os.environ.get(variable, os.path.join(_CRATES, name, "out", name))
    return path if os.path.exists(path) else None


#: The program `txnobj`.
AUDIT = _built("TXNOBJ_PROGRAM", "txnobj_cli")
#: The example that counts up.
COUNTER = _built("TXNOBJ_COUNTER", "example_counter")
