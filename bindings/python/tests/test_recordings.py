"""What a client writes down: the rows that the library tells."""

import os
import tempfile
import unittest

from txnobj import Client, MemoryStore


class Recordings(unittest.TestCase):
    def test_rows_say_what_was_done(self):
        with tempfile.TemporaryDirectory() as folder:
            path = os.path.join(folder, "a.diary")
            with Client(MemoryStore(), "counter", number=7, page=2, recording=path) as client:
                client.init(b"a b")
                for _ in range(2):
                    client.update(client.load(), b"c")
                client.list()
            with open(path, encoding="ascii") as file:
                rows = file.read().splitlines()
        self.assertRegex(rows[0], r"^of counter\.val clock \S+ ahead \d+$")
        self.assertEqual(rows[1:3], ["client 7 page 2", "begin 1 init 0:a%20b"])
        self.assertRegex(rows[3], r"^ask 1 \d+ create root/test/0{19}1\.val 303a612062$")
        self.assertRegex(rows[4], r"^reply 1 \d+ put \d+$")
        self.assertIn("answer 1 view 1 at 1 0:a%20b", rows)
        self.assertIn("answer 6 ids 1 2 3", rows)
        listed = [row.split() for row in rows if " list more " in row]
        self.assertEqual([name.split(":")[2] for row in listed for name in row[5:]], ["5", "3"])
        times = [int(row.split()[2]) for row in rows if row.split()[0] in ("ask", "reply")]
        self.assertEqual(times, sorted(times))

    def test_a_second_client_goes_on_behind_the_first(self):
        with tempfile.TemporaryDirectory() as folder:
            store, path = MemoryStore(), os.path.join(folder, "a.diary")
            for number in (1, 2):
                with Client(store, "counter", number=number, recording=path) as client:
                    client.read()
            with open(path, encoding="ascii") as file:
                rows = file.read().splitlines()
        self.assertEqual([row for row in rows if row.startswith("client")], ["client 1 page 1000", "client 2 page 1000"])
        self.assertEqual(sum(row.startswith("of ") for row in rows), 2)
        self.assertEqual(rows.count("answer 1 read none"), 2)


if __name__ == "__main__":
    unittest.main()
