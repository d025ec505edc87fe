"""What tools/try-folder does."""
from __future__ import annotations

import argparse
import html
import os
import re
import subprocess

from refuse_growths import NoLibrary, make_library
from replay_cases import xml_faults
from try_folder_clients import Object, Shell, Wrong, agrees, expect, on_one_folder, room_of_one_folder, together, tried
from try_folder_pairs import CHECKS as PAIRS
from try_folder_pairs import COUNTS

# How many updates a client makes whose memory is measured, and how many KiB more it may take than after the first of them.
FIRST_UPDATES, ALL_UPDATES, MOST_GROWN = 1_000, 100_000, 64


def odd_files(program, root, _seconds):
    """What is no regular file at a version's name is a fault of the system, and nothing hangs or is lost."""
    it = Object(program, root, "odd")
    it.told("init", "0")
    os.mkfifo(f"{root}/odd/00000000000000000002.val")
    for command in (("put", "1"), ("get",), ("list",), ("collect",)):
        expect(it.run(*command)[0] == 1, f"{' '.join(command)} beside a fifo is no fault of the system")
    os.remove(f"{root}/odd/00000000000000000002.val")
    expect(it.run("put", "1") == (0, "2\n"), "a put is refused after the fifo is gone")
    expect(it.run("get") == (0, "1"), "the newest value is not read")
    agrees(it, 2)
    return ["a fifo at a version's name is a fault, and nothing hangs"]


def benches(program, root, _seconds):
    """Processes that add by the store's calls alone leave their sum, in as many versions without a gap."""
    it, times, ended = Object(program, root, "benched"), COUNTS // 2, []
    together([lambda: ended.append(it.run("bench", str(times), recorded=False)[0])] * 4)
    expect(ended == [0] * 4, f"bench: statuses {ended}")
    names = sorted(name for name in os.listdir(f"{root}/benched") if name.endswith(".val"))
    expect(names == [f"{id:020}.val" for id in range(1, 4 * times + 1)], f"bench leaves {len(names)} versions")
    with open(f"{root}/benched/{names[-1]}", encoding="utf-8") as file:
        expect(file.read() == f"0:{4 * times}", "the last version does not say the sum")
    status, said = it.run("bench", "--list", "2", recorded=False)
    expect(status == 0 and said.endswith(f" versions {4 * times}\n"), f"bench --list: status {status}: {said.strip()}")
    return [f"4 processes add {times} each by the store's calls alone, with no gap", "all versions are listed in turn"]


def strangers(program, root, _seconds):
    """Of an object that is not a bench's own nothing is changed, and a command that records nothing takes no recording."""
    claims, raises = [("init", "1"), ("claim",)], [("init", "1"), ("put", "2"), ("advance", "1")]
    for name, before in (("of_text", [("init", "text")]), ("claimed", claims), ("raised", raises)):
        it = Object(program, root, name)
        for command in before:
            it.told(*command)
        was = it.told("history")
        expect(it.run("bench", "2", recorded=False)[0] == 2, f"bench adds to the object {name}")
        expect(it.told("history") == was, f"bench changed the object {name}")
    for command in (("bench", "2"), ("doctor",), ("clean", "1"), ("repair",), ("audit", "none")):
        expect(it.run(*command)[0] == 2, f"{command[0]} takes a recording")
    return ["what is not its own is left by bench as it is", "what records nothing refuses a recording"]


def unfit_words(program, root, _seconds):
    """What names no folder, and names that are too long for the files that writes make, are refused before anything is made;
    a boundary's file that says no number is told by its status."""
    it = Object(program, "", "unfit")
    for command in (("get",), ("doctor",)):
        expect(it.run(*command, recorded=False)[0] == 2, f"{command[0]} takes an empty root")
    expect(Object(program, root, "n" * 226).run("init", "1", recorded=False)[0] == 2, "a name of 226 bytes is taken")
    expect(not os.path.exists(f"{root}/{'n' * 226}"), "a refused name is made")
    it = Object(program, root, "n" * 225)
    it.told("init", "1")
    it.told("put", "2")
    it.told("advance", "1")
    with open(f"{root}/gc/{'n' * 225}.boundary", "w", encoding="utf-8") as file:
        file.write("no number")
    expect(it.run("get")[0] == 17, "a boundary that says no number is read")
    return ["an empty root and a name too long are refused", "the longest name has versions and a boundary"]


def script_of(an_object):
    """Three clients: one makes the object, one updates it, raises its boundary and deletes, and one reads it then."""
    an_object.told("init", "0")
    shell = Shell(an_object)
    for call in ("load", "update 1 0:1", "update 1 0:2", "update 1 0:3", "advance 2", "delete 1", "advance 3", "list - -"):
        answer = shell.ask(call)
        expect(answer and not answer.startswith(("refused", "not permitted")), f"{call}: {answer}")
    shell.end()
    expect(an_object.told("get") == "3", "the newest value is not read")


def changed(pattern, by, count=1):
    """A change of a recording: each place of this pattern."""
    return lambda text, _others: re.subn(pattern, by, text, count=count, flags=re.M)


def put_back(text, others):
    """The file that was deleted is told in front of a listing's others."""
    token = re.search(r"^reply \d+ \d+ put (\d+)$", others[0], re.M)[1]
    file = re.search(r"^ask \d+ \d+ create (\S+) ", others[0], re.M)[1]
    return re.subn(r"^(reply \d+ \d+ list last) ", rf"\g<1> {file}:{token}:3 ", text, flags=re.M)


def stale(text, others):
    """A read that began after the last update tells what was newest before it."""
    tokens = re.findall(r"^reply \d+ \d+ put (\d{9,})$", others[1], re.M)
    text, listed = re.subn(r"^(reply \d+ \d+ list last .*) \S+$", r"\g<1>", text, flags=re.M)
    text, asked = re.subn(r"^(ask \d+ \d+ get \S+/0{19})4(\.val -)$", r"\g<1>3\g<2>", text, flags=re.M)
    text, replied = re.subn(r"^(reply \d+ \d+ get )\d{9,} 303a33$", rf"\g<1>{tokens[1]} 303a32", text, flags=re.M)
    text, answered = re.subn(r"^(answer \d+ view 1 at )4 0:3$", r"\g<1>3 0:2", text, flags=re.M)
    return text, min(listed, asked, replied, answered)


# What is changed in which recording of the three, and each time has to be refused.
TAMPERED = {
    "a create that was lost": (1, changed(r"^(reply \d+ \d+ put )\d{9,}$", r"\g<1>AlreadyExists")),
    "a stale read": (2, stale),
    "a token that another put was given": (1, changed(r"^(reply \d+ \d+ put (\d+)\n[\s\S]*?reply \d+ \d+ put )\d+$", r"\g<1>\g<2>")),
    "a listing that misses one": (1, changed(r"^(reply \d+ \d+ list last \S+) \S+( \S+\nanswer \d+ ids 2) 3( 4)$", r"\g<1>\g<2>\g<3>")),
    "bytes that were read": (2, changed(r"^(reply \d+ \d+ get \d+ 303a3)3$([\s\S]*^answer \d+ view 1 at 4 0:)3$", r"\g<1>9\g<2>9")),
    "an answer": (1, changed(r"^(answer \d+ view \d+ at \d+ \d+:)\d+$", r"\g<1>123456")),
    "a boundary that falls": (2, changed(r"^(reply \d+ \d+ get )3 33$", r"\g<1>2 32")),
    "a delete that was undone": (2, put_back),
    "the client's number": (1, changed(r"^(client )\d+ ", r"\g<1>1 ")),
    "a row that is gone": (1, changed(r"^reply 2 .*\n", "")),
}


def tampering(program, root, _seconds):
    """A recording that was changed is refused, and the place is named."""
    it = Object(program, root, "tampered")
    script_of(it)
    agrees(it, 4)
    texts, refused = [], []
    for diary in it.diaries:
        with open(diary, encoding="utf-8") as file:
            texts.append(file.read())
    for what, (number, change) in TAMPERED.items():
        other, count = change(texts[number], texts)
        expect(count == 1, f"the recording has no row for: {what}")
        with open(it.diaries[number], "w", encoding="utf-8") as file:
            file.write(other)
        status, said = it.audit()
        expect(status == 4 and said.startswith("not one history: "), f"{what}: the audit says: {said.strip()}")
        expect(re.search(r"^at \S+\.diary, line \d+$", said, re.M), f"{what}: the audit names no line: {said.strip()}")
        refused.append(f"a recording is refused in which was changed: {what}")
        with open(it.diaries[number], "w", encoding="utf-8") as file:
            file.write(texts[number])
    agrees(it, 4)
    return refused


# The files beside recordings that have their drawings, where these are compared byte for byte.
DRAWN = {"trace": "drawn.trace", "picture": "drawn.svg"}
# A part of some recordings: the words, the status, and what is said.
PARTS = (
    (("trace", "--from", "5", "--calls", "3"), 0, "\npart of the recordings: store calls 5 to 7 of 17\n"),
    (("trace", "--from", "16"), 0, "\npart of the recordings: store calls 16 to 17 of 17\n"),
    (("picture", "--from", "5", "--calls", "3"), 0, "Part of the recordings of clients that share one object: store calls 5 to 7 of 17"),
    (("trace", "--from", "0"), 2, "there is no such part"),
    (("picture", "--calls", "0"), 2, "there is no such part"),
    (("picture", "--from", "18"), 2, "there is no such part"),
    (("audit", "--from", "1"), 2, "unexpected argument"),
)


def parts(program, _root, _seconds):
    """A part of recordings is drawn, by its store calls, and refused where there is none."""
    folder = f"{os.path.dirname(os.path.dirname(os.path.realpath(__file__)))}/cases/recordings/two_in_conflict"
    diaries = sorted(it for it in os.listdir(folder) if it.endswith(".diary"))
    for words, status, said in PARTS:
        how = {"cwd": folder, "capture_output": True, "text": True, "check": False, "timeout": 60}
        ran = subprocess.run([program, *words, *diaries], **how)
        expect(ran.returncode == status and said in ran.stdout + ran.stderr, f"{' '.join(words)}: status {ran.returncode}: {ran.stderr.strip()}")
    return ["a part of recordings is drawn"]


def recordings(program, _root, _seconds):
    """An audit says of each folder of recordings what its file `said` says, and so do its drawings, of which the picture is XML."""
    cases, told = f"{os.path.dirname(os.path.dirname(os.path.realpath(__file__)))}/cases/recordings", []
    for name in sorted(os.listdir(cases)):
        diaries = sorted(it for it in os.listdir(f"{cases}/{name}") if it.endswith(".diary"))
        how = {"cwd": f"{cases}/{name}", "capture_output": True, "text": True, "check": False, "timeout": 60}
        ran = subprocess.run([program, "audit", *diaries], **how)
        with open(f"{cases}/{name}/said", encoding="utf-8") as file:
            said = file.read()
        expect(ran.stdout == said, f"{name}: the audit says: {ran.stdout.strip()}")
        drawn = {it: subprocess.run([program, it, *diaries], **how) for it in ("trace", "picture")}
        for it, ran in drawn.items():
            text = html.unescape(ran.stdout) if it == "picture" else ran.stdout
            expect(ran.returncode in (0, 4) and said.splitlines()[0] in text, f"{name}: its {it} ends with {ran.returncode} and says otherwise")
            for wanted in filter(os.path.isfile, [f"{cases}/{name}/{DRAWN[it]}"]):
                with open(wanted, encoding="utf-8") as file:
                    expect(ran.stdout == file.read(), f"{name}: its {it} is not the one in {DRAWN[it]}")
        if drawn["picture"].returncode == 0:
            wrong = xml_faults(drawn["picture"].stdout.encode())
            expect(not wrong, f"{name}: its picture is no XML: {wrong}")
        told.append(f"recordings are audited as is written beside them: {name}")
    expect(told, "there are no recordings")
    return told


# What a command changes, in its order: from the first file that it makes or locks to the sync that follows its last change.
ORDERS = {
    ("put", "2"): ("make new 3#", "sync 3#", "link 3# 3", "unlink 3#", "sync versions"),
    ("advance", "2"): ("lock boundary#0", "make new boundary#", "sync boundary#", "rename boundary# boundary", "sync gc"),
    ("delete", "1"): ("lock versions/#0", "unlink 1", "sync versions"),
    # (the versions above 3 are torn)
    ("repair",): ("lock versions/#0", "unlink 5", "unlink 4", "sync versions"),
}


def noted(it, library, command):
    """What a command asks of the system: a line for each call, with the names as they lie below the root, a version's as its
    id, and of a temporary name no more than its `#`."""
    with open(f"{it.root}/notes", "w+", encoding="utf-8") as notes:
        environment = {**os.environ, "LD_PRELOAD": library, "WATCHED_TO": str(notes.fileno())}
        how = {"stdin": subprocess.DEVNULL, "stdout": subprocess.DEVNULL, "env": environment, "timeout": 60}
        ran = subprocess.run(it.words(*command, recorded=False), pass_fds=[notes.fileno()], check=False, **how)
        expect(ran.returncode == 0, f"{' '.join(command)}: status {ran.returncode}")
        notes.seek(0)
        text = notes.read()
    for full, short in (
        (rf"{re.escape(it.root)}/gc/{it.name}\.boundary", "boundary"),
        (rf"{re.escape(it.root)}/{it.name}/0*(\d+)\.val", r"\1"),
        (rf"{re.escape(it.root)}/{it.name}(?=[/\n])", "versions"),
        (rf"{re.escape(it.root)}/", ""),
        (r"#\d{20}", "#"),
    ):
        text = re.sub(full, short, text)
    return text.splitlines()


def changes(lines):
    """The lines from the first file that is made or locked alone to the sync that follows the last change."""
    lines = [it for it in lines if not it.startswith("lock with others ")]
    places = [at for at, line in enumerate(lines) if not line.startswith("sync ")]
    if not places:
        return ()
    end = places[-1] + 1
    return tuple(lines[places[0] : end + (end < len(lines))])


def orders(program, root, _seconds):
    """A put, an advance, a delete and a repair ask the system for what they change in its order: a file is synced before it comes to
    its name, and its folder after that; the boundary is replaced and a version removed under a lock; of torn versions the greatest
    goes first."""
    try:
        library = make_library(f"{os.path.dirname(os.path.realpath(__file__))}/watch.c", f"{root}/watch.so")
    except NoLibrary as error:
        raise Wrong(f"no compiler makes tools/watch.c a library: {error}") from error
    for syncs in (True, False):
        it = Object(program, root, f"ordered-{syncs}".lower(), syncs=syncs)
        for command in (("init", "0"), ("put", "1"), ("advance", "1")):
            expect(it.run(*command, recorded=False)[0] == 0, f"{' '.join(command)} fails")
        for command, wanted in ORDERS.items():
            if command[0] == "repair":
                for id in (4, 5):
                    os.close(os.open(f"{root}/{it.name}/{id:020}.val", os.O_CREAT))
            lines = noted(it, library, command)
            told = [line for line in wanted if syncs or not line.startswith("sync ")]
            expect(syncs or not any(line.startswith("sync ") for line in lines), f"{' '.join(command)} syncs unasked: {lines}")
            expect(changes(lines) == tuple(told), f"{' '.join(command)}, {'synced' if syncs else 'not synced'}, asks for: {lines}")
    return ["what a put, an advance, a delete and a repair change is asked for in its order, with syncs and without"]


def own_memory(process):
    """The memory that a process has asked for, in KiB, whether the system has it in its own memory now or not."""
    with open(f"/proc/{process.pid}/status", encoding="ascii") as said:
        return int(re.search(r"VmData:\s*(\d+) kB", said.read())[1])


def goes_on(shell, times):
    """Updates a view so many times, in blocks of calls, and reads beside it."""
    block = "update 1 0:7\nread\nrefresh 1\nupdate 1 0:8\n" * 50
    for _ in range(times // 100):
        shell.process.stdin.write(block)
        shell.process.stdin.flush()
        for _ in range(200):
            said = shell.process.stdout.readline()
            expect(said.startswith(("view ", "read ")), f"a call of many is answered {said}")


def lasting(program, root, _seconds):
    """What a client keeps does not grow with its updates, recorded or not, once it has all the ids that it keeps."""
    grown = []
    for recorded in False, True:
        it = Object(program, root, f"lasting-{recorded}".lower())
        it.told("init", "0")
        shell = Shell(it, recorded)
        shell.ask("load")
        goes_on(shell, FIRST_UPDATES)
        first = own_memory(shell.process)
        goes_on(shell, ALL_UPDATES - FIRST_UPDATES)
        grown.append(own_memory(shell.process) - first)
        expect(grown[-1] <= MOST_GROWN, f"{ALL_UPDATES} updates take {grown[-1]} KiB more than {FIRST_UPDATES}")
        shell.end()
    return [f"a client takes at most {MOST_GROWN} KiB more after {ALL_UPDATES} updates than after {FIRST_UPDATES}"]


CHECKS = *map(on_one_folder, PAIRS), orders, odd_files, benches, strangers, unfit_words, lasting, tampering, recordings, parts


def main(words, usage, checks, checks_of_examples):
    form = argparse.RawDescriptionHelpFormatter
    parser = argparse.ArgumentParser(prog="tools/try-folder", description=usage, formatter_class=form)
    parser.add_argument("programs", nargs="+", metavar="PROGRAM")
    parser.add_argument("--seconds", type=float, default=60, metavar="N", help="how long processes are killed")
    parser.add_argument("--keep", action="store_true", help="leave the folders, and say where")
    examples = {"nargs": 2, "metavar": ("LEADER", "COUNTER"), "help": "builds of the two examples"}
    parser.add_argument("--examples", **examples)
    given = parser.parse_args(words)
    if given.examples:
        checks = [*checks, *checks_of_examples(*map(os.path.abspath, given.examples))]
    passed = failed = 0
    for program in map(os.path.abspath, given.programs):
        done = tried(program, checks, given.seconds, given.keep, room_of_one_folder)
        passed, failed = passed + done[0], failed + done[1]
    print(f"{passed} passed, {failed} failed")
    return 1 if failed else 0
