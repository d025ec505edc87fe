"""Clients whose steps are mixed at random over one store in memory: what each was told is held against the store."""

import os
import random
import subprocess
import tempfile
import unittest

from tests.programs import AUDIT
from txnobj import Client, Conflict, Fenced, MemoryStore

#: How many runs there are.
RUNS = 300


class Run:
    """One run, by its seed. Where it has a folder, its clients are recorded there."""

    def __init__(self, seed, folder=None):
        self.random = random.Random(seed)
        self.store = MemoryStore()
        many = self.random.randint(2, 4)
        self.clients, page = [], self.random.randint(1, 4)
        for number in range(1, many + 1):
            recording = folder and os.path.join(folder, f"{number}.diary")
            self.clients.append(Client(self.store, "counter", number=number, page=page, recording=recording))
        self.clients[0].init(b"0")
        self.views = [client.load() for client in self.clients]
        self.running = [None] * many
        self.wrote, self.conflicts = 0, 0

    def step(self, at):
        """One step of a client's update, which counts one more."""
        view = self.views[at]
        if self.running[at] is None:
            data = b"%d" % (int(view.data) + 1)
            self.running[at] = self.clients[at].begin("update", view.number, view.epoch, data, len(data))
        try:
            next(self.running[at])
        except StopIteration as end:
            self.views[at], self.running[at], self.wrote = end.value, None, self.wrote + 1
        except Conflict:
            self.running[at], self.conflicts = None, self.conflicts + 1
            self.views[at] = self.clients[at].refresh(view)

    def count(self):
        for _ in range(self.random.randint(20, 400)):
            self.step(self.random.randrange(len(self.clients)))
        for running in self.running:
            if running is not None:
                running.close()


class Interleavings(unittest.TestCase):
    def test_counts_are_exact(self):
        conflicts = 0
        for seed in range(RUNS):
            with self.subTest(seed=seed):
                run = Run(seed)
                under_way = 0
                run.count()
                under_way = len(run.clients)
                newest = run.clients[0].read()
                # Each update that was told wrote one version on the one before it; each that was given up may have.
                self.assertLessEqual(run.wrote, int(newest.data))
                self.assertLessEqual(int(newest.data), run.wrote + under_way)
                self.assertEqual(newest.id, int(newest.data) + 1)
                for id in range(1, newest.id + 1):
                    got = run.store.get(f"counter/{id:020}.val")
                    self.assertEqual(got.data, b"0:%d" % (id - 1))
                conflicts += run.conflicts
        self.assertGreater(conflicts, RUNS)

    def test_holders_are_shut_out(self):
        for seed in range(RUNS // 10):
            with self.subTest(seed=seed):
                run = Run(seed)
                run.count()
                one, other = run.clients[:2]
                first = one.claim(one.load())
                second = other.claim(other.load())
                self.assertEqual((first.holds, second.holds), (1, 2))
                with self.assertRaises((Conflict, Fenced)):
                    one.update(first, b"late", 1)
                with self.assertRaises(Fenced):
                    one.refresh(first)
                self.assertEqual(other.update(second, b"held", 2).data, b"held")

    def test_collections_spare_the_newest(self):
        for seed in range(RUNS // 10):
            with self.subTest(seed=seed):
                run = Run(seed)
                run.count()
                newest = run.clients[0].read().id
                removed = run.clients[0].collect(keep=2)
                self.assertEqual(removed, max(newest - 2, 0))
                self.assertEqual(run.clients[1].list(), [id for id in (newest - 1, newest) if id > 0])


@unittest.skipUnless(AUDIT, "the program txnobj is not built")
class Audited(unittest.TestCase):
    def test_each_run_is_one_history(self):
        for seed in range(RUNS):
            with self.subTest(seed=seed), tempfile.TemporaryDirectory() as folder:
                run = Run(seed, folder)
                run.count()
                one, other = run.clients[:2]
                held = one.claim(one.load())
                other.claim(other.load())
                with self.assertRaises((Conflict, Fenced)):
                    one.update(held, b"late", held.holds)
                one.collect(keep=2)
                other.list()
                entries = run.clients[1].read().id
                for client in run.clients:
                    client.close()
                diaries = [os.path.join(folder, name) for name in sorted(os.listdir(folder))]
                told = subprocess.run([AUDIT, "audit", *diaries], capture_output=True, text=True, check=False)
                self.assertEqual(told.returncode, 0, told.stdout + told.stderr)
                self.assertIn(f"one history: {entries} entries, boundary {entries - 2}, {len(diaries)} clients", told.stdout)


if __name__ == "__main__":
    unittest.main()
