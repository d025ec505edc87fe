"""What tools/try-s3 does."""
from __future__ import annotations

import argparse
import os
import random
import subprocess
import sys
import tempfile
import threading
import time
import unittest

ROOT = os.path.dirname(os.path.dirname(os.path.realpath(__file__)))
sys.path[:0] = [f"{ROOT}/bindings/python"]

from try_s3_server import KEY, SECRET, Server, missing  # noqa: E402

BUCKET, PROCESSES = "versions", 4
# The program that audits recordings.
PROGRAM = f"{ROOT}/crates/txnobj_cli/out/txnobj_cli"
# One in so many puts loses its reply.
LOST = 20


def store_at(url, prefix, loses=False):
    """A store in the bucket, which may lose replies of puts."""
    import boto3
    from botocore.config import Config
    from txnobj import S3Store

    class Losing(S3Store):
        def put(self, name, data, mode):
            token = super().put(name, data, mode)
            if loses and not random.randrange(LOST):
                raise ConnectionError("the reply is lost")
            return token

    how = {"endpoint_url": url, "aws_access_key_id": KEY, "aws_secret_access_key": SECRET, "region_name": "default"}
    client = boto3.client("s3", config=Config(retries={"total_max_attempts": 1}, connect_timeout=5, read_timeout=20), **how)
    if prefix is None:
        client.create_bucket(Bucket=BUCKET)
    # (the gateway compares e-tags without their quotes)
    return Losing(client, BUCKET, prefix or "", quotes=False)


def audited(program, folder):
    """Has the program audit all recordings of a folder, where it is built, and says what it found."""
    if not os.path.exists(program):
        return "not audited: txnobj is not built"
    diaries = [f"{folder}/{name}" for name in sorted(os.listdir(folder))]
    told = subprocess.run([program, "audit", *diaries], capture_output=True, text=True, check=False)
    assert told.returncode == 0, told.stdout + told.stderr
    return told.stdout.strip()


def count(url, diary):
    """A process that counts up, and prints the id of each count that was acknowledged."""
    from txnobj import Json, Object, StoreFailed

    counter = Object(store_at(url, "counts", loses=True), "counter", Json(), recording=diary)
    while True:
        try:
            counter.load_or_init(0)
            while True:
                counter.update(lambda it: it + 1)
                print(counter.id, flush=True)
        except StoreFailed:
            time.sleep(0.1)


class Counter:
    """A process that counts up, which can be killed, and what it was told."""

    def __init__(self, url, diary, told):
        words = [sys.executable, "-B", f"{ROOT}/tools/try_s3.py", url, diary]
        self.process = subprocess.Popen(words, stdout=subprocess.PIPE, text=True, stderr=subprocess.DEVNULL)
        self.reader = threading.Thread(target=self.read, args=(told,))
        self.reader.start()

    def read(self, told):
        for line in self.process.stdout:
            if line.endswith("\n"):
                told.append(int(line))

    def kill(self):
        self.process.kill()
        self.reader.join()
        self.process.wait()


def counts(server, folder, seconds):
    """Counts are exact and gap-free, whatever is killed and lost."""
    from txnobj import Json, Object

    told, kills, until, killed = [], 0, time.monotonic() + seconds, False
    diaries = [f"{folder}/{at}.diary" for at in range(PROCESSES)]
    counters = [Counter(server.url, diary, told) for diary in diaries]
    while time.monotonic() < until:
        time.sleep(random.uniform(0.3, 1.5))
        at = random.randrange(PROCESSES)
        counters[at].kill()
        counters[at], kills = Counter(server.url, diaries[at], told), kills + 1
        if not killed and time.monotonic() > until - seconds / 2:
            server.kill_gateway()
            time.sleep(2)
            server.start_gateway()
            killed = True
    for counter in counters:
        counter.kill()
    with Object(store_at(server.url, "counts"), "counter", Json()) as counter:
        newest, ids = counter.load(), counter.client.list()
        assert ids == list(range(1, newest + 2)), "there is a gap"
        for id in ids:
            assert counter.client.read_version(id).data == b"%d" % (id - 1), f"version {id} is another count"
    assert len(set(told)) == len(told) > 0, "two counts were told one id"
    assert max(told) <= newest + 1, "a count that was told is lost"
    return f"{newest} counts, {len(told)} of them told, beside {kills} kills and a restart of the gateway: exact and gap-free"


def claims(server, folder, _seconds):
    """Of two claimers the older is fenced."""
    from txnobj import Conflict, Fenced, Object, Text

    store = store_at(server.url, "claims")
    a, b = (Object(store, "leader", Text(), recording=f"{folder}/{name}.diary") for name in "ab")
    with a as one, b as other:
        one.init("nobody")
        for turn in range(1, 11):
            first, second = one.claim(), other.claim()
            assert (first.holds, second.holds) == (2 * turn - 1, 2 * turn)
            try:
                first.update(lambda _: "late")
                raise AssertionError("an older holder wrote")
            except (Conflict, Fenced):
                pass
            assert second.update(lambda _, turn=turn: f"turn {turn}") == f"turn {turn}"
    return "20 claims: the older of two is fenced each time"


def late(server, folder, _seconds):
    """A write on a version that was removed is refused."""
    from txnobj import Conflict, Json, Object

    store = store_at(server.url, "late")
    a, b = (Object(store, "counter", Json(), recording=f"{folder}/{name}.diary") for name in "ab")
    with a as slow, b as fast:
        slow.init(0)
        view = slow.client.load()
        fast.load()
        for _ in range(5):
            fast.update(lambda it: it + 1)
        assert fast.collect(keep=1) == 5
        try:
            slow.client.update(view, b"late")
            raise AssertionError("a late write was acknowledged")
        except Conflict:
            pass
        assert slow.load() == 5
    return "a late write of a removed version is refused"


def answers(server, _folder, _seconds):
    """The store answers call by call as each store has to."""
    from tests.test_stores import Answers

    class InBucket(Answers, unittest.TestCase):
        number = 0

        def setUp(self):
            InBucket.number += 1
            self.store = store_at(server.url, f"answers-{self.number}")

    suite = unittest.defaultTestLoader.loadTestsFromTestCase(InBucket)
    result = unittest.TextTestRunner(stream=open(os.devnull, "w", encoding="utf-8")).run(suite)
    assert result.wasSuccessful(), "; ".join(text for _, text in result.failures + result.errors)
    return f"{result.testsRun} tests of what a store answers"


def main(words, usage):
    form = argparse.RawDescriptionHelpFormatter
    parser = argparse.ArgumentParser(prog="tools/try-s3", description=usage, formatter_class=form)
    parser.add_argument("--seconds", type=float, default=30, metavar="N", help="how long processes are killed")
    parser.add_argument("--program", default=PROGRAM, metavar="PROGRAM", help="a build of txnobj, which audits")
    parser.add_argument("--keep", action="store_true", help="leave the server's files, and say where")
    given = parser.parse_args(words)
    lacking = missing()
    try:
        import boto3  # noqa: F401
    except ImportError:
        lacking.append("boto3, for this Python")
    if lacking:
        print(f"not here: {', '.join(lacking)}", file=sys.stderr)
        return 2
    passed = failed = 0
    with Server() as server:
        server.keeps = given.keep
        if given.keep:
            print(f"the server's files are in {server.folder}", flush=True)
        store_at(server.url, None)
        for check in (answers, claims, late, counts):
            try:
                with tempfile.TemporaryDirectory(prefix="try-s3-") as folder:
                    done = check(server, folder, given.seconds)
                    said = f"; {audited(given.program, folder)}" if os.listdir(folder) else ""
                print(f"ok: {done}{said}", flush=True)
                passed += 1
            except Exception as wrong:  # pylint: disable=broad-except
                print(f"FAILED: {check.__name__}: {wrong!r}", flush=True)
                failed += 1
    print(f"{passed} passed, {failed} failed")
    return 1 if failed else 0


if __name__ == "__main__":
    count(sys.argv[1], sys.argv[2])
