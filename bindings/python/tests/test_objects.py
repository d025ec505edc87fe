"""Objects, as programs use them."""

import os
import subprocess
import tempfile
import threading
import unittest
from contextlib import ExitStack
from unittest import mock

from tests.programs import AUDIT, COUNTER
from txnobj import (
    Client,
    Conflict,
    Fenced,
    FolderStore,
    Json,
    MemoryStore,
    NotPermitted,
    NoVersion,
    Object,
    StoreFailed,
    Text,
)

ADDED = 25


class Failing(MemoryStore):
    """A store whose puts can lose their replies."""

    loses = False

    def put(self, name, data, mode):
        token = super().put(name, data, mode)
        if self.loses:
            raise ConnectionError("the reply is lost")
        return token


class Objects(unittest.TestCase):
    def setUp(self):
        self.store = MemoryStore()

    def test_values_are_read_back(self):
        with Object(self.store, "config", Json()) as config:
            with self.assertRaises(NoVersion):
                config.load()
            self.assertEqual(config.load_or_init({"a": 1}), {"a": 1})
            self.assertEqual(config.update(lambda it: {**it, "b": [2]}), {"a": 1, "b": [2]})
            self.assertEqual((config.id, config.epoch, config.value), (2, 0, {"a": 1, "b": [2]}))
        with Object(self.store, "config", Json()) as again:
            self.assertEqual(again.load(), {"a": 1, "b": [2]})
            with self.assertRaises(Conflict):
                again.init({})

    def test_a_function_that_answers_nothing_writes_nothing(self):
        with Object(self.store, "text", Text()) as text:
            text.init("as it is")
            self.assertEqual(text.update(lambda it: None), "as it is")
            self.assertEqual(text.id, 1)

    def test_unchecked_calls_test_no_boundary(self):
        with Client(self.store, "text") as client:
            self.assertIsNone(client.read_latest_unchecked())
            client.write(None, b"a")
            client.write(1, b"b", 3)
            newest = client.read_latest_unchecked()
            self.assertEqual((newest.id, newest.epoch, newest.data), (2, 3, b"b"))
            client.delete_unchecked(2)
            self.assertEqual(client.list(), [1])
            self.assertIsNone(client.read_version(2))
            with Client(self.store, "text") as other:
                self.assertEqual(other.read_latest_unchecked().data, b"a")

    def test_an_unchecked_read_finds_what_one_before_it_cached(self):
        with Client(self.store, "text") as writer, Client(self.store, "text") as client:
            for base in range(8):
                writer.write(base or None, b"a")
            self.assertEqual(self.asked_of(client.begin("read_latest_unchecked")), ["list", "get"])
            self.assertEqual(self.asked_of(client.begin("read_latest_unchecked")), ["get"])

    def asked_of(self, steps):
        """The store calls that are made for a call."""
        made = []
        names = ("put", "get", "list", "delete")
        with ExitStack() as stack:
            for name in names:
                call = getattr(self.store, name)
                watched = mock.patch.object(self.store, name, lambda *it, name=name, call=call: (made.append(name), call(*it))[1])
                stack.enter_context(watched)
            Client.run(steps)
        return made

    def test_threads_lose_no_count(self):
        def count(_worker):
            with Object(self.store, "counter", Json()) as counter:
                counter.load_or_init(0)
                for _ in range(ADDED):
                    counter.update(lambda it: it + 1)

        workers = [threading.Thread(target=count, args=(worker,)) for worker in range(4)]
        for worker in workers:
            worker.start()
        for worker in workers:
            worker.join()
        with Object(self.store, "counter", Json()) as counter:
            self.assertEqual(counter.load(), 4 * ADDED)
            self.assertEqual(counter.id, 4 * ADDED + 1)

    def test_a_holder_is_shut_out(self):
        with Object(self.store, "leader", Text()) as one, Object(self.store, "leader", Text()) as other:
            one.init("nobody")
            first = one.claim()
            self.assertEqual(first.update(lambda _: "one"), "one")
            second = other.claim(timeout=10)
            self.assertEqual((first.holds, second.holds), (1, 2))
            with self.assertRaises(Fenced):
                first.update(lambda _: "late")
            self.assertEqual(second.value, "one")
            with self.assertRaises(Fenced):
                other.claim(epoch=2)
            self.assertEqual(other.claim(epoch=7).holds, 7)

    def test_what_is_not_needed_is_collected(self):
        with Object(self.store, "counter", Json()) as counter:
            counter.init(0)
            for _ in range(9):
                counter.update(lambda it: it + 1)
            self.assertEqual(counter.collect(keep=3), 7)
            self.assertEqual(counter.client.list(), [8, 9, 10])
            with self.assertRaises(NotPermitted):
                counter.client.advance(10)

    def test_new_versions_are_watched(self):
        with Object(self.store, "counter", Json()) as counter, Object(self.store, "counter", Json()) as other:
            counter.init(0)
            seen = []
            for id, value in other.watch(poll=0.001, timeout=1):
                seen.append((id, value))
                if value < 5:
                    counter.update(lambda it: it + 1)
            self.assertEqual(seen, [(n + 1, n) for n in range(6)])

    def test_a_lost_reply_is_told(self):
        store = Failing()
        with Object(store, "counter", Json()) as counter:
            counter.init(0)
            store.loses = True
            with self.assertRaises(StoreFailed) as told:
                counter.update(lambda it: it + 1)
            self.assertIsInstance(told.exception.__cause__, ConnectionError)
            store.loses = False
            # The version was written all the same: the next attempt is a conflict with it, and goes on after it.
            self.assertEqual(counter.update(lambda it: it + 1), 2)

    def test_a_client_keeps_no_more_as_it_goes_on(self):
        with Object(self.store, "counter", Json()) as counter:
            counter.init(0)
            for _ in range(500):
                counter.update(lambda it: it + 1)
            with self.assertRaises(NotPermitted):
                counter.client.write(3, b"old")
            self.assertEqual(counter.load(), 500)


@unittest.skipUnless(AUDIT and COUNTER, "the programs are not built")
class BesideThePrograms(unittest.TestCase):
    def count(self, room, worker):
        """Counts up as a client of this process."""
        diary = os.path.join(room, f"python-{worker}.diary")
        with Object(FolderStore(room, syncs=False), "counter", Text(), recording=diary) as counter:
            for _ in range(ADDED):
                counter.update(lambda it: str(int(it or 0) + 1))

    def audited(self, room):
        """What an audit says of all recordings in a folder."""
        diaries = [os.path.join(room, name) for name in sorted(os.listdir(room)) if name.endswith(".diary")]
        told = subprocess.run([AUDIT, "audit", *diaries], capture_output=True, text=True, check=False)
        self.assertEqual(told.returncode, 0, told.stdout + told.stderr)
        return told.stdout

    def test_counts_are_exact_gap_free_and_audited(self):
        with tempfile.TemporaryDirectory() as room:
            subprocess.run([COUNTER, room, "first", "1"], check=True, stdout=subprocess.DEVNULL)
            programs = [subprocess.Popen([COUNTER, room, name, f"{4 * ADDED}"], stdout=subprocess.DEVNULL) for name in "ab"]
            workers = [threading.Thread(target=self.count, args=(room, worker)) for worker in range(2)]
            for worker in workers:
                worker.start()
            for worker in workers:
                worker.join()
            self.assertEqual([program.wait() for program in programs], [0, 0])
            total = 1 + 2 * ADDED + 8 * ADDED
            diary = os.path.join(room, "last.diary")
            with Object(FolderStore(room, syncs=False), "counter", Text(), recording=diary) as counter:
                self.assertEqual((counter.load(), counter.id), (str(total), total + 1))
                self.assertEqual(counter.client.list(), list(range(1, total + 2)))
                self.assertEqual(counter.collect(keep=2), total - 1)
            words = [AUDIT, "--root", room, "--name", "counter", "list"]
            told = subprocess.run(words, check=True, capture_output=True, text=True).stdout
            self.assertEqual(told.split(), [str(total), str(total + 1)])
            self.assertIn(f"one history: {total + 1} entries, boundary {total - 1}, 6 clients", self.audited(room))


if __name__ == "__main__":
    unittest.main()
