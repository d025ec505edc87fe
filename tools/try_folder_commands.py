"""What the commands of txnobj print and leave, alone and beside others: further checks of tools/try-folder."""
from __future__ import annotations

import os
import random
import re
import subprocess
import tempfile
import threading
import time

from try_folder_clients import Object, Shell, agrees, expect, together

ROUNDS, WRITERS = 12, 6
VALUE_OF_EACH_BYTE = bytes(range(256))
# How `history` prints these: each that is no graphic ASCII character, and `%`, as %XX.
PRINTED_BYTES = "".join(chr(it) if 33 <= it <= 126 and it != 37 else f"%{it:02X}" for it in VALUE_OF_EACH_BYTE)
# What doctor tries, in the order of its lines.
TRIED = (
    "keeps a file and its time to the nanosecond",
    "links a file to a second name",
    "refuses a link to a taken name",
    "renames a file over another",
    "locks a file against a second open",
    "syncs files and folders",
    "removes files",
)
# What `doctor --beside` tries besides, of each mount.
SHOWN = (
    "finds a new name that was missing before",
    "reads what was renamed over an old file",
    "reads it beside an open old file",
    "lists a new name",
    "lists a removed name no more",
    "misses a removed name beside its open file, and finds it made again",
    "is refused a lock that is held, and gets it then",
)


class Versions(Object):
    """An object whose versions say any bytes."""

    def entries(self):
        """The stored versions: the epoch of each id, and its bytes as they are printed."""
        rows = [re.fullmatch(r"(\d+) (\d+):(\S*)", line) for line in self.told("history").splitlines()]
        expect(all(rows), "a line of the history says no id, epoch and bytes")
        return {int(row[1]): (int(row[2]), row[3]) for row in rows}

    def heard(self, *command, options=(), given=b"", recorded=False):
        """Runs a command behind these options, on this input: its status, and the bytes that it prints and complains."""
        words = self.words(*options, *command, recorded=recorded)
        ran = subprocess.run(words, input=given, capture_output=True, check=False, timeout=60)
        return ran.returncode, ran.stdout, ran.stderr


def text_of(path):
    with open(path, encoding="utf-8") as file:
        return file.read()


def make_file(path, data, age=0):
    """Makes a file of these bytes that is so many seconds old."""
    os.makedirs(os.path.dirname(path), exist_ok=True)
    with open(path, "wb") as file:
        file.write(data)
    os.utime(path, (time.time() - age,) * 2)


def watches(program, root, _seconds):
    """A watch prints the newest version, once it is above an id, or nothing where none comes in its time."""
    it = Versions(program, root, "watched")
    expect(it.run("watch", "--after", "0", "--seconds", "1") == (3, ""), "a watch saw a version where there is none")
    it.told("init", "a")
    expect(it.run("watch", "--after", "0") == (0, "1 0\n"), "a version that stands is not seen")
    began = time.monotonic()
    expect(it.run("watch", "--after", "1", "--seconds", "1") == (3, ""), "a watch saw the version after which it looks")
    expect(1 <= time.monotonic() - began < 20, "a watch of a second takes another time")
    words = ("watch", "--after", "1", "--seconds", "40")
    waiting = [subprocess.Popen(it.words(*words, recorded=recorded), stdout=subprocess.PIPE, text=True) for recorded in (True, False)]
    time.sleep(1)
    expect(all(one.poll() is None for one in waiting), "a watch ended before a version came")
    it.told("claim")
    ended = [(one.communicate(timeout=60)[0], one.returncode) for one in waiting]
    expect(ended == [("2 1\n", 0)] * 2, f"watches of a version that comes print {ended}")
    it.told("put", "b")
    expect(it.run("watch", "--after", "1") == (0, "3 1\n"), "a watch does not print the newest version")
    expect(it.run("watch", "--after", "3", "--seconds", "0") == (3, ""), "a watch of no time saw a version")
    expect(it.run("watch")[0] == 2, "a watch after no id is taken")
    agrees(it, 3)
    return ["a watch prints the newest version above its id, or nothing in its time, and audited"]


def claims_alone(program, root, _seconds):
    """A claim prints the id and the epoch of a version with the newest value, and a refused one leaves all as it was."""
    it = Versions(program, root, "claimed")
    expect(it.run("claim") == (14, ""), "a claim of no version is not refused")
    expect(it.run("claim", "--epoch", "1") == (14, ""), "a claim of an epoch of no version is not refused")
    it.told("init", "first")
    expect(it.run("claim") == (0, "2 1\n"), "a claim does not print the next id and the next epoch")
    expect(it.run("put", "second") == (0, "3\n"), "a put does not print its id")
    expect(it.run("claim", "--epoch", "9") == (0, "4 9\n"), "a claim of an epoch does not print it")
    expect(it.run("claim") == (0, "5 10\n"), "a claim does not print the epoch after the newest")
    for epoch in ("9", "10", "0"):
        expect(it.run("claim", "--epoch", epoch) == (16, ""), f"a claim of epoch {epoch} is not fenced")
    stored = {1: (0, "first"), 2: (1, "first"), 3: (1, "second"), 4: (9, "second"), 5: (10, "second")}
    expect(it.entries() == stored, "the claims leave other versions")
    agrees(it, 5)
    return ["a claim prints its id and its epoch, and leaves the newest value in it, and audited"]


def claim_of(an_object, epoch):
    """Claims an epoch, again after each conflict: the id of its version."""
    while True:
        status, said = an_object.run("claim", "--epoch", str(epoch))
        if status != 15:
            expect(status == 0 and said.endswith(f" {epoch}\n"), f"a claim of epoch {epoch}: status {status}: {said}")
            return int(said.split()[0])


def fenced_puts(program, root, _seconds):
    """Holders put while another claims the next epoch: no version of theirs follows its version, and each that they were told is
    there."""
    it, told, claimed, refused, chance = Versions(program, root, "fenced"), {}, {}, [], random.Random(2)
    it.told("init", "none")
    claimed[1] = claim_of(it, 1)

    def put(epoch, worker, is_claimed):
        for count in range(1_000):
            value, is_late = f"{epoch}.{worker}.{count}", is_claimed.is_set()
            status, said = it.run("put", "--epoch", str(epoch), value)
            if status == 16:
                refused.append(value)
                return
            expect(status == 0, f"a put of the holder: status {status}")
            expect(not is_late, "a put of an older holder is told as written after the claim was")
            told[int(said)] = (epoch, value)

    def put_early(epoch, is_claimed):
        while not is_claimed.is_set():
            status = it.run("put", "--epoch", str(epoch), f"early.{epoch}")[0]
            expect(status == 17, f"a put of an epoch that nobody claimed: status {status}")

    def claim(epoch, is_claimed):
        try:
            time.sleep(chance.uniform(0, 0.3))
            claimed[epoch] = claim_of(it, epoch)
        finally:
            is_claimed.set()

    for epoch in range(1, ROUNDS + 1):
        is_claimed = threading.Event()
        older = [lambda w=w, e=epoch, c=is_claimed: put(e, w, c) for w in range(2)]
        together([*older, lambda e=epoch, c=is_claimed: put_early(e + 2, c), lambda e=epoch, c=is_claimed: claim(e + 1, c)])
    stored = it.entries()
    expect(sorted(stored) == list(range(1, len(stored) + 1)), "the ids have a gap")
    epochs = [stored[id][0] for id in sorted(stored)]
    expect(epochs == sorted(epochs), "a version of an older holder follows that of a newer one")
    expect(all(stored[id] == entry for id, entry in told.items()), "a put that was told is not there as it was told")
    expect(all(stored[id][0] == epoch for epoch, id in claimed.items()), "a claim that was told is not there as it was told")
    expect(not {value for _, value in stored.values()} & set(refused), "a put that was fenced is there")
    expect(len(stored) == 1 + len(told) + len(claimed), "a version is there that nobody was told")
    agrees(it, len(stored))
    return [f"{len(told)} puts of holders beside {ROUNDS} claims: none follows the version of a newer epoch, and audited"]


def recordings_of_several(program, root, _seconds):
    """A recording grows by each command that names it, one after another, and one process alone writes it."""
    it = Versions(program, root, "recorded")
    diary, wanted = f"{root}/shared.diary", "another process writes this recording"
    texts = [""]
    for client, command in enumerate((("init", "a"), ("put", "b"), ("get",)), 11):
        expect(it.heard(*command, options=("--client", f"{client}", "--diary", diary))[0] == 0, f"{command[0]} is not recorded")
        texts.append(text_of(diary))
        expect(texts[-1].startswith(texts[-2]) and texts[-1].endswith("\n"), f"{command[0]} changes what was recorded")
        added = texts[-1][len(texts[-2]) :].splitlines()
        expect(added[0].startswith("of recorded.val clock ") and added[1] == f"client {client} page 1000", f"{command[0]} begins otherwise")
        expect(added[2].startswith("begin 1 ") and added[-1].startswith("answer "), f"{command[0]} is recorded otherwise: {added}")
    it.diaries.append(diary)
    agrees(it, 2)
    with open(diary, "a", encoding="utf-8") as file:
        file.write("ask 9 1 get reco")
    agrees(it, 2)
    expect(it.heard("put", "c", options=("--client", "14", "--diary", diary))[1] == b"3\n", "a put behind a row that was cut off is refused")
    expect(text_of(diary).startswith(texts[-1] + "of recorded.val "), "a row that was cut off is left")
    held = f"{root}/recorded-1.diary"
    shell = Shell(it)
    expect(shell.ask("read").startswith("read 3 "), "the newest version is not read")
    was = text_of(held)
    status, said, complained = it.heard("put", "d", options=("--client", "15", "--diary", held))
    expect((status, said) == (2, b"") and wanted.encode() in complained, f"a recording of two processes: status {status}: {complained}")
    expect(text_of(held) == was, "a refused command wrote into the recording of another")
    expect(shell.ask("read").startswith("read 3 "), "a refused command wrote a version, or stopped the other process")
    shell.end()
    agrees(it, 3)
    return ["a recording grows by whole commands, is audited, and is refused to a second process"]


def recordings_at_once(program, root, _seconds):
    """Processes begin on one recording at once: each that is not refused stands in it whole."""
    it, diary, ended = Versions(program, root, "crowded"), f"{root}/crowded.diary", {}
    it.told("init", "0")
    it.diaries.append(diary)

    def put(client):
        ended[client] = it.heard("put", f"{client}", options=("--client", f"{client}", "--diary", diary))[:2]

    together([lambda c=c: put(c) for c in range(101, 101 + WRITERS)])
    done = sorted(client for client, (status, _) in ended.items() if status == 0)
    expect(done and all(end == (2, b"") for client, end in ended.items() if client not in done), f"puts end with {ended}")
    recorded = re.findall(r"^client (\d+) page 1000$", text_of(diary), re.M)
    expect(sorted(map(int, recorded)) == done, f"{recorded} are recorded, and {done} were not refused")
    expect(sorted(it.entries()) == list(range(1, len(done) + 2)), "a refused put left a version")
    agrees(it, len(done) + 1)
    return ["of processes that begin on one recording at once each is refused or recorded, and audited"]


def stored_versions(program, root, _seconds):
    """`list`, `get --id`, `history` and `get` print what is stored, and `collect` how many versions it found."""
    it = Versions(program, root, "listed")
    for command in ("list", "history"):
        expect(it.run(command) == (0, ""), f"{command} of no version prints something")
    expect(it.run("get") == it.run("get", "--id") == (14, ""), "a get of no version is not refused")
    expect(it.run("collect") == (0, "0\n"), "a collection of no version finds some")
    it.told("init", "1")
    for id in range(2, 13):
        expect(it.run("put", str(id)) == (0, f"{id}\n"), "a put does not print its id")
    expect(it.run("list") == (0, "".join(f"{id}\n" for id in range(1, 13))), "the ids are not listed, ascending, one a line")
    expect(it.run("history") == (0, "".join(f"{id} 0:{id}\n" for id in range(1, 13))), "the versions are not listed")
    expect(it.run("get", "--id") == (0, "12 0\n"), "the newest id and epoch are not printed")
    expect(it.run("collect") == (0, "11\n"), "a collection does not print how many versions it found")
    expect(it.run("list") == (0, "12\n"), "a collection leaves other versions than the newest")
    expect(it.run("get") == (0, "12"), "a collection changed the newest value")
    expect(text_of(f"{root}/gc/listed.boundary") == "11", "a collection leaves another boundary")
    expect(it.run("collect") == (0, "0\n"), "a second collection finds versions")
    agrees(it, 12)
    return ["ids, versions and what a collection found are printed, and audited"]


def removals(program, root, _seconds):
    """`advance` and `delete` print nothing, and refuse what the boundary does not permit."""
    it = Versions(program, root, "removed")
    it.told("init", "1")
    for id in (2, 3, 4):
        it.told("put", str(id))
    expect(it.run("delete", "1") == (17, ""), "a version above the boundary is deleted")
    expect(it.run("advance", "2") == (0, ""), "a boundary below the newest version is refused, or something is printed")
    expect(it.run("delete", "3") == (17, ""), "a version above the boundary is deleted")
    for _ in range(2):
        expect(it.run("delete", "1") == (0, ""), "a version below the boundary is not deleted, or something is printed")
    for id in ("4", "5"):
        expect(it.run("advance", id) == (34, ""), f"a boundary of {id}, which is not below the newest version, is taken")
    expect(it.run("list") == (0, "2\n3\n4\n"), "other versions are left")
    agrees(it, 4)
    return ["versions at or below the boundary are deleted, and no others, and audited"]


def cleanings(program, root, _seconds):
    """`clean` removes the temporary files of its object that are older than its seconds, and says how many."""
    it = Versions(program, root, "cleaned")
    it.told("init", "1")
    it.told("put", "2")
    it.told("advance", "1")
    version, boundary = f"{root}/cleaned/{3:020}.val", f"{root}/gc/cleaned.boundary"
    number = [f"{it:020}" for it in range(4)]
    old = [f"{version}#{number[0]}", f"{version}#{number[1]}", f"{boundary}#{number[0]}"]
    younger = [f"{version}#{number[2]}", f"{boundary}#{number[2]}"]
    others = [f"{root}/cleaned/{3:020}.json#{number[0]}", f"{root}/gc/other.boundary#{number[0]}", f"{version}#1", f"{root}/cleaned/notes"]
    for paths, age in ((old, 900), (younger, 200), (others, 90_000)):
        for path in paths:
            make_file(path, b"0:left", age)
    was = it.told("history")
    expect(it.run("clean", "3600", recorded=False) == (0, "0\n"), "a clean finds files that are old enough")
    expect(it.run("clean", "600", recorded=False) == (0, "3\n"), "a clean does not print how many files it removed")
    expect([path for path in (*old, *younger, *others) if os.path.exists(path)] == [*younger, *others], "a clean leaves other files")
    expect(it.run("clean", "600", recorded=False) == (0, "0\n"), "a second clean finds files")
    expect(it.run("clean", "100", recorded=False) == (0, "2\n"), "a clean does not remove what is older than its seconds")
    expect([path for path in (*younger, *others) if os.path.exists(path)] == others, "a clean leaves other files")
    expect(it.told("history") == was and os.path.exists(boundary), "a clean removes what stands")
    agrees(it, 2)
    return ["temporary files that are old enough are removed and counted, and no others"]


LOST = "a write that was answered with a greater id is lost"


def repairs(program, root, _seconds):
    """`repair` removes the versions above the newest that is a value, the greatest first, and the object goes on at that one; of
    which nothing is torn is left as it is, and so is an object that would have no version to go on at."""
    it = Versions(program, root, "torn")
    expect(it.run("repair", recorded=False) == (14, ""), "a repair of no version is not refused")
    for id, command in enumerate(("init", "put", "put"), 1):
        expect(it.run(command, f"{id}") == (0, f"{id}\n"), f"{command} does not print its id")

    def file_of(id, name="torn"):
        return f"{root}/{name}/{id:020}.val"

    def left():
        return {name: os.path.getsize(f"{root}/torn/{name}") for name in os.listdir(f"{root}/torn") if name.endswith(".val")}

    whole, was = left(), it.told("history")
    status, said, why = it.heard("repair")
    expect((status, said) == (5, b"") and b"the newest version, 3, is a value" in why, f"a repair of no torn version: status {status}: {why}")
    for id, data in ((4, b""), (5, bytes(12)), (6, b"")):
        make_file(file_of(id), data)
    for command in (("get",), ("put", "4")):
        expect(it.run(*command, recorded=False) == (18, ""), f"{command[0]} takes a torn version as a value")
    expect(it.run("repair")[0] == 2 and len(left()) == 6, "a repair takes a recording")
    told = "removed 6\nremoved 5\nremoved 4\ngoes on at 3: " + LOST + "\n"
    expect(it.run("repair", recorded=False) == (0, told), "a repair does not print what it removed")
    expect(left() == whole and it.told("history") == was, "a repair leaves other versions than those up to the newest that is a value")
    expect(it.run("repair", recorded=False) == (5, ""), "a second repair is not refused")
    expect(it.run("put", "4") == (0, "4\n") and it.run("get") == (0, "4"), "a repaired object does not go on")
    agrees(it, 4)
    make_file(file_of(2), b"")
    expect(it.run("repair", recorded=False) == (5, "") and left()[f"{2:020}.val"] == 0, "a torn version below the newest is removed")
    expect(it.run("advance", "3") == (0, ""), "a boundary below the newest version is refused")
    make_file(file_of(4), b"4")
    stands = left()
    expect(it.run("repair", recorded=False) == (6, "") and left() == stands, "a repair leaves the newest version at the boundary")
    make_file(f"{root}/gc/torn.boundary", b"2")
    told = "removed 4\ngoes on at 3: " + LOST + "\n"
    expect(it.run("repair", recorded=False) == (0, told), "a boundary that was lowered by hand is not taken")
    make_file(file_of(4), b"4")
    make_file(f"{root}/gc/torn.boundary", b"")
    expect(it.run("repair", recorded=False) == (17, "") and left() == stands, "a repair of an object without a boundary is not refused")
    make_file(file_of(1, "no-value"), b"")
    none = Versions(program, root, "no-value")
    expect(none.run("repair", recorded=False) == (6, "") and os.path.exists(file_of(1, "no-value")), "a repair leaves no version")
    return ["versions above the newest that is a value are removed, and of others none, and what goes on is audited"]


def doctors(program, root, _seconds):
    """`doctor` says of each thing that it tries whether the folder serves, in order, and leaves nothing."""
    words = [program, "--root", root, "doctor"]
    how = {"capture_output": True, "text": True, "check": False, "timeout": 60}
    ran = subprocess.run(words, **how)
    expect((ran.returncode, ran.stdout) == (0, "".join(f"{tried}: yes\n" for tried in TRIED)), f"doctor: status {ran.returncode}: {ran.stdout}")
    expect(os.listdir(root) == [], f"doctor leaves {os.listdir(root)}")
    # (nobody writes there, whoever asks)
    ran = subprocess.run([program, "--root", "/proc", "doctor"], **how)
    said = [line.partition(": ") for line in ran.stdout.splitlines()]
    expect([line[0] for line in said] == list(TRIED), f"doctor of /proc says {ran.stdout}")
    expect(ran.returncode == 3 and said[0][2].startswith("no: "), f"doctor of /proc: status {ran.returncode}: {ran.stdout}")
    beside = ("both are mounts of one folder", *(f"the {mount} {shown}" for mount in ("other", "first") for shown in SHOWN), "nothing is left")
    ran = subprocess.run([*words, "--beside", os.path.join(root, ".")], **how)
    expect((ran.returncode, ran.stdout) == (0, "".join(f"{tried}: yes\n" for tried in (*TRIED, *beside))), f"doctor --beside: status {ran.returncode}: {ran.stdout}")
    expect(os.listdir(root) == [], f"doctor --beside leaves {os.listdir(root)}")
    with tempfile.TemporaryDirectory(dir=root) as other:
        ran = subprocess.run([*words, "--beside", other], **how)
        said = [line.partition(": ") for line in ran.stdout.splitlines()]
        expect([line[0] for line in said] == [*TRIED, *beside], f"doctor beside another folder says {ran.stdout}")
        expect(ran.returncode == 3 and [line[2] for line in said[len(TRIED) + 1 : -1]] == ["no: not tried"] * 14, f"doctor beside another folder: status {ran.returncode}: {ran.stdout}")
        expect(os.listdir(root) == [os.path.basename(other)] and os.listdir(other) == [], f"doctor beside another folder leaves {os.listdir(root)}")
    ran = subprocess.run([*words, "--beside", os.path.join(root, "none")], **how)
    expect((ran.returncode, ran.stdout) == (2, ""), f"doctor beside a folder that is missing: status {ran.returncode}: {ran.stdout}")
    return ["each thing that a folder has to carry is tried, and one that does not serve is refused", "two mounts of one folder are tried against each other, and another folder is refused"]


def clocks(program, root, _seconds):
    """Recordings of two clocks that differ are refused, but where they may be off by as much."""
    it = Versions(program, root, "clocked")
    it.told("init", "1")
    it.told("put", "2")
    # (the second of them tells what the first wrote, by a clock that is five seconds behind)
    text, count = re.subn(
        r"^(of \S+ clock )\S+( ahead )(\d+)$",
        lambda row: f"{row[1]}south{row[2]}{int(row[3]) - 5_000_000_000}",
        text_of(it.diaries[1]),
        flags=re.M,
    )
    expect(count == 1, "the recording does not say its clock")
    make_file(it.diaries[1], text.encode())
    for error, status in ((None, 4), ("0", 4), ("1000", 4), ("60000", 0)):
        words = [program, "audit", *(["--clock-error", error] if error else []), *it.diaries]
        ran = subprocess.run(words, capture_output=True, text=True, check=False, timeout=60)
        first = "one history: 2 entries, boundary 0, 2 clients, " if status == 0 else "not one history: "
        expect((ran.returncode, ran.stdout.startswith(first)) == (status, True), f"an audit with a clock error of {error}: {ran.stdout}")
        expect(f"at most {error or 1000} milliseconds" in ran.stdout, f"an audit does not say how far the clocks may be off: {ran.stdout}")
    return ["recordings of two clocks are refused, but where they may be off by as much"]


def suffixes(program, root, _seconds):
    """The files of the versions end with the suffix, and another suffix names no version."""
    it = Versions(program, root, "named")
    with_suffix = {"options": ("--suffix", "json"), "recorded": True}
    expect(it.heard("init", "{}", **with_suffix)[:2] == (0, b"1\n"), "a suffix is refused")
    stored = [name for name in os.listdir(f"{root}/named") if "#" not in name]
    expect(stored == [f"{1:020}.json"], f"versions with a suffix are the files {stored}")
    expect(it.heard("get", **with_suffix)[:2] == (0, b"{}"), "a version with a suffix is not read")
    expect(it.run("get", recorded=False) == (14, ""), "a version of another suffix is read")
    for suffix in ("", "a.b", "a/b", "s" * 214):
        expect(it.heard("get", options=("--suffix", suffix))[:2] == (2, b""), f"the suffix '{suffix}' is taken")
    expect("of named.json clock " in text_of(it.diaries[0]), "the recording is of another object")
    agrees(it, 1)
    return ["versions have the files of their suffix, and audited"]


def values(program, root, _seconds):
    """A value is the argument, the standard input or the bytes of a file, whatever bytes it has."""
    it = Versions(program, root, "valued")
    make_file(f"{root}/value", VALUE_OF_EACH_BYTE)
    each = VALUE_OF_EACH_BYTE
    puts = (
        (("init", "-"), each, each, PRINTED_BYTES),
        (("put", f"@{root}/value"), b"other", each, PRINTED_BYTES),
        (("put", ""), b"other", b"", ""),
        (("put", "--", "-n"), b"other", b"-n", "-n"),
        (("put", "-"), b"-", b"-", "-"),
        (("put", "-"), b"@file\n", b"@file\n", "@file%0A"),
        (("put", "a b%"), b"other", b"a b%", "a%20b%25"),
    )
    for id, (command, given, value, printed) in enumerate(puts, 1):
        told = it.heard(*command, given=given, recorded=True)
        expect(told[:2] == (0, f"{id}\n".encode()), f"{command}: status {told[0]}: {told[2]}")
        expect(it.heard("get")[:2] == (0, value), f"{command}: other bytes are read")
        expect(it.entries()[id] == (0, printed), f"{command}: other bytes are printed")
    status, said, complained = it.heard("put", f"@{root}/none", recorded=True)
    expect((status, said) == (1, b"") and f"{root}/none".encode() in complained, "a value of no file is no fault that names it")
    expect(it.heard("put", "-n")[0] == 2, "a value that begins with `-` is taken")
    agrees(it, len(puts))
    return ["a value is an argument, the standard input or a file, byte by byte, and audited"]


def numbers(program, root, _seconds):
    """A client's number is the one that is named, at least 1, or one of its own."""
    it = Versions(program, root, "numbered")
    diary = f"{root}/numbered.diary"
    for number in ("0", "-1", "one", str(2**64)):
        expect(it.heard("init", "1", options=(f"--client={number}", "--diary", diary))[:2] == (2, b""), f"the client's number {number} is taken")
    expect(not os.path.exists(f"{root}/numbered") and not os.path.exists(diary), "a client that was refused left something")
    it.diaries.append(diary)
    for client, command in (("--client=7", ("init", "1")), (f"--client={2**64 - 1}", ("put", "2")), (None, ("put", "3")), (None, ("get",))):
        expect(it.heard(*command, options=(*[client] * bool(client), "--diary", diary))[0] == 0, f"{command[0]} is refused to {client}")
    found = [int(number) for number in re.findall(r"^client (\d+) page 1000$", text_of(diary), re.M)]
    own = [abs(number - time.time_ns()) < 3_600 * 10**9 for number in found]
    expect(found[:2] == [7, 2**64 - 1] and own == [False, False, True, True] and found[2] < found[3], f"the clients are {found}")
    agrees(it, 3)
    return ["a client's number is the one that is named, or the time in nanoseconds, and audited"]


# Each command, with words that it takes.
EACH_COMMAND = (
    ("init", "1"),
    ("put", "1"),
    ("put", "--epoch", "1", "1"),
    ("claim",),
    ("get",),
    ("list",),
    ("history",),
    ("watch", "--after", "0", "--seconds", "0"),
    ("advance", "1"),
    ("delete", "1"),
    ("collect",),
    ("shell",),
    ("doctor",),
    ("clean", "1"),
    ("repair",),
    ("bench", "1"),
)


def missing_folders(program, root, _seconds):
    """A folder that is missing, as where nothing is mounted, is refused by each command, and neither it nor a recording is made; of
    one that is there the object's folder and that of boundaries alone are made."""
    gone, diary, file = f"{root}/gone", f"{root}/gone.diary", f"{root}/file"
    make_file(file, b"")
    for command in EACH_COMMAND:
        it = Versions(program, gone, "missed")
        options = ("--diary", diary) if command[0] not in ("doctor", "clean", "repair", "bench") else ()
        status, said, told = it.heard(*command, options=options)
        expect((status, said) == (2, b"") and b"is it mounted?" in told, f"{command[0]} of a folder that is missing: status {status}: {told}")
        status, said, told = Versions(program, file, "missed").heard(*command)
        expect((status, said) == (2, b"") and b"is no folder" in told, f"{command[0]} of a file: status {status}: {told}")
    expect(os.listdir(root) == ["file"], f"what is refused leaves {os.listdir(root)}")
    os.mkdir(gone)
    it = Versions(program, gone, "missed")
    for command in (("init", "1"), ("put", "2"), ("advance", "1")):
        expect(it.run(*command, recorded=False)[0] == 0, f"{command[0]} is refused in a folder that is there")
    expect(sorted(os.listdir(gone)) == ["gc", "missed"], f"an object makes {os.listdir(gone)}")
    return ["a folder that is missing is refused by each command, and not made"]


def environments(program, root, _seconds):
    """TXNOBJ_ROOT, TXNOBJ_NAME and TXNOBJ_DIARY stand for their options, which go before them; an empty one is none, and what records
    nothing takes no recording from there."""
    diary = f"{root}/named.diary"
    os.mkdir(f"{root}/other")

    def ran(*words, **variables):
        known = {f"TXNOBJ_{name.upper()}": value for name, value in variables.items()}
        how = {"capture_output": True, "text": True, "check": False, "timeout": 60}
        done = subprocess.run([program, *words], env={**os.environ, **known}, **how)
        return done.returncode, done.stdout

    named = {"root": root, "name": "named", "diary": diary}
    expect(ran("init", "1", **named) == (0, "1\n"), "a folder, a name and a recording of the environment are not taken")
    expect(ran("--root", f"{root}/other", "init", "2", **named) == (0, "1\n"), "the environment goes before --root")
    expect(ran("--name", "other", "init", "3", **named) == (0, "1\n"), "the environment goes before --name")
    expect(ran("--diary", f"{root}/other.diary", "put", "4", **named) == (0, "2\n"), "the environment goes before --diary")
    found = [(name, ran("--root", f"{root}{at}", "--name", name, "get")[1]) for at, name in (("", "named"), ("/other", "named"), ("", "other"))]
    expect(found == [("named", "4"), ("named", "2"), ("other", "3")], f"the environment leaves {found}")
    objects = [row for row in text_of(diary).splitlines() if row.startswith("client ")]
    expect(len(objects) == 3 and os.path.exists(f"{root}/other.diary"), f"the recording has {objects}")
    for command in (("doctor",), ("clean", "1")):
        expect(ran(*command, **named)[0] == 0, f"{command[0]} takes a recording of the environment")
    expect(ran("get", name="named", root="")[0] == 2 and ran("get", root=root, name="")[0] == 2, "an empty text is a folder or a name")
    expect(ran("get", name="named", root=root, diary="") == (0, "4"), "an empty text is a recording")
    return ["the environment stands for options that are not given"]


CHECKS = (
    watches,
    claims_alone,
    fenced_puts,
    recordings_of_several,
    recordings_at_once,
    stored_versions,
    removals,
    cleanings,
    repairs,
    doctors,
    clocks,
    suffixes,
    values,
    numbers,
    missing_folders,
    environments,
)
