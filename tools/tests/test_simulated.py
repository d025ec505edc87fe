"""Tests of the simulator whose runs are audited, of the changes of one fact, and of the search of all orders."""
import os
import random
import sys
import unittest

sys.dont_write_bytecode = True
sys.path.insert(0, os.path.dirname(os.path.dirname(os.path.realpath(__file__))))

from recording_changes import CHANGES  # noqa: E402 (they are found beside this folder)
from recording_search import are_history  # noqa: E402
from simulated_client import Client  # noqa: E402
from simulated_run import Run, Setting  # noqa: E402
from simulated_store import Store  # noqa: E402
from try_audit import all_changed, changed_run  # noqa: E402

TOP = os.path.dirname(os.path.dirname(os.path.dirname(os.path.realpath(__file__))))


def done(client, store, words):
    """A call alone: what it asked, and its answer."""
    call, reply, asked = client.call(words), None, []
    while True:
        try:
            request = call.send(reply)
        except StopIteration as end:
            return asked, end.value
        asked.append(request.words())
        reply = store.serve(request)


def recordings_in(name):
    """The recordings of a case."""
    folder = f"{TOP}/cases/recordings/{name}"
    found = []
    for it in sorted(os.listdir(folder)):
        if it.endswith(".diary"):
            with open(f"{folder}/{it}", encoding="ascii") as file:
                found.append(file.read().splitlines())
    return found


class Simulated(unittest.TestCase):
    def test_calls_ask_what_the_steps_say(self):
        store, client = Store(), Client(1000)
        first, boundary = "root/test/00000000000000000001.val", "root/gc/test.boundary"
        self.assertEqual(done(client, store, "init 0:a"), ([f"create {first} 303a61", f"get {boundary} -"], "view 1 at 1 0:a"))
        self.assertEqual(done(client, store, "claim 1")[1], "holder 1 at 2 1:a epoch 1")
        self.assertEqual(done(client, store, "holder_update 1 1:b")[1], "view 1 at 3 1:b")
        self.assertEqual(done(client, store, "advance 2")[1], "done")
        self.assertEqual(done(client, store, "delete 1"), ([f"delete {first}"], "done"))
        self.assertEqual(done(client, store, "delete 3")[1], "refused 7 InvalidObjectState")
        other = Client(1)
        self.assertEqual(done(other, store, "list - -")[1], "ids 2 3")
        self.assertEqual(done(other, store, "read")[1], "read 3 1:b")
        self.assertEqual(done(other, store, "write 1 0:c")[1], "refused 5 ObjectVersionExists")
        permitted = [it for it in ("write 3 1:c", "write 3 0:c", "write 2 1:c", "advance 2", "advance 3") if other.permits(it)]
        self.assertEqual(permitted, ["write 3 1:c", "advance 2"])

    def test_a_run_is_a_history_and_is_the_same_again(self):
        for seed in range(20):
            run = Run(seed, Setting.at_random(random.Random(seed), 150))
            self.assertTrue(are_history(run.recordings), seed)
            again = Run(seed, Setting.at_random(random.Random(seed), 150))
            self.assertEqual(run.recordings, again.recordings)
            self.assertGreaterEqual(len(Run(seed, Setting.harder(random.Random(seed))).recordings), 3)

    def test_the_search_decides_as_the_cases_say(self):
        taken = ("create_lost_and_met_alone", "create_told_after_the_next_making", "delete_lost_beside_a_long_listing")
        for name in ("two_in_conflict", "killed_clients", "made_again_and_calls_lost", "rust_lost_create_then_not_found", *taken):
            self.assertTrue(are_history(recordings_in(name)), name)
        for name in ("create_lost", "boundary_fell", "file_missed", "another_answer", "row_left_out", "stale_read_of_one_clock"):
            self.assertFalse(are_history(recordings_in(name)), name)

    def test_changes_change_one_fact(self):
        kinds = set()
        for seed, what, recordings in all_changed(1, 60):
            kinds.add(what.split(":")[0])
            self.assertEqual(changed_run(seed), (what, recordings))
        self.assertGreater(len(kinds), 12)
        self.assertEqual(len({it.name for it in CHANGES}), 18)


if __name__ == "__main__":
    unittest.main()
