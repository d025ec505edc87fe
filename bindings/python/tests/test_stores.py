"""What each store answers, call by call."""

import os
import tempfile
import threading
import unittest

from txnobj import AlreadyExists, Create, FolderStore, MemoryStore, NotFound, NotModified, Overwrite, PreconditionFailed, Update

VERSION = "counter/{:020}.val"
BOUNDARY = "gc/counter.boundary"


class Answers:
    """What a store has to answer. Each kind of store has these tests."""

    def test_a_file_is_created_once(self):
        self.store.put(VERSION.format(1), b"one", Create())
        with self.assertRaises(AlreadyExists):
            self.store.put(VERSION.format(1), b"two", Create())
        self.assertEqual(self.store.get(VERSION.format(1)).data, b"one")

    def test_what_is_missing_is_not_found(self):
        with self.assertRaises(NotFound):
            self.store.get(VERSION.format(1))
        with self.assertRaises(PreconditionFailed):
            self.store.put(BOUNDARY, b"1", Update(1))
        self.store.delete(VERSION.format(1))
        self.assertEqual(self.store.list("counter", None, 10).names, [])

    def test_an_update_wants_the_token(self):
        first = self.store.put(BOUNDARY, b"0", Create())
        second = self.store.put(BOUNDARY, b"1", Update(first))
        self.assertNotEqual(first, second)
        with self.assertRaises(PreconditionFailed):
            self.store.put(BOUNDARY, b"2", Update(first))
        self.assertEqual(self.store.get(BOUNDARY).data, b"1")
        self.assertEqual(self.store.get(BOUNDARY).token, second)

    def test_a_known_token_is_not_modified(self):
        token = self.store.put(BOUNDARY, b"7", Overwrite())
        with self.assertRaises(NotModified):
            self.store.get(BOUNDARY, token)
        self.store.put(BOUNDARY, b"8", Overwrite())
        self.assertEqual(self.store.get(BOUNDARY, token).data, b"8")

    def test_listings_have_pages(self):
        names = [VERSION.format(id) for id in range(1, 8)]
        for name in names:
            self.store.put(name, b"", Create())
        self.store.delete(names[2])
        left = names[:2] + names[3:]
        page = self.store.list("counter", None, 4)
        self.assertEqual((list(page.names), page.more), (left[:4], True))
        page = self.store.list("counter", left[3], 4)
        self.assertEqual((list(page.names), page.more), (left[4:], False))

    def test_of_two_creates_one_is_taken(self):
        taken = []

        def create(worker):
            for id in range(1, 101):
                try:
                    self.store.put(VERSION.format(id), b"%d" % worker, Create())
                    taken.append((id, worker))
                except AlreadyExists:
                    pass

        workers = [threading.Thread(target=create, args=(worker,)) for worker in range(4)]
        for worker in workers:
            worker.start()
        for worker in workers:
            worker.join()
        self.assertEqual(sorted(id for id, _ in taken), list(range(1, 101)))
        for id, worker in taken:
            self.assertEqual(self.store.get(VERSION.format(id)).data, b"%d" % worker)


class InMemory(Answers, unittest.TestCase):
    def setUp(self):
        self.store = MemoryStore()


class InFolder(Answers, unittest.TestCase):
    syncs = False

    def setUp(self):
        self.room = tempfile.TemporaryDirectory()
        self.addCleanup(self.room.cleanup)
        self.store = FolderStore(self.room.name, syncs=self.syncs)

    def tearDown(self):
        left = [name for _, _, names in os.walk(self.room.name) for name in names if "#" in name and not name.endswith("#0")]
        self.assertEqual(left, [], "a temporary file is left")

    def test_a_missing_folder_is_refused(self):
        with self.assertRaises(NotADirectoryError):
            FolderStore(os.path.join(self.room.name, "none"))

    def test_a_boundary_that_says_no_number_matches_nothing(self):
        os.mkdir(os.path.join(self.room.name, "gc"))
        with open(os.path.join(self.room.name, BOUNDARY), "wb") as file:
            file.write(b"x")
        self.assertEqual(self.store.get(BOUNDARY, 0).token, 0)
        with self.assertRaises(PreconditionFailed):
            self.store.put(BOUNDARY, b"1", Update(0))


class InFolderSynced(InFolder):
    syncs = True


if __name__ == "__main__":
    unittest.main()
