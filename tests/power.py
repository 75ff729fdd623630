#!/usr/bin/env python3
"""Cuts the power in a record of the built program's calls, and starts the program on what may be left.

A run over a few files is recorded by strace. At each call of the record many stops are tried. What a stop
leaves is drawn from what no sync has made durable by then: of each write all, a part, or any bytes; of each name
that came or went whether it did; of a rename both of its sides or none. Each is made a real folder, and the
program is started there until it ends with 0. Then every file has to be in `out` with its bytes, and
nothing may be left over, but for a folder aside whose marker didn't reach the disk.

This is a model of a file system that makes no more durable than it is asked to. To show that the trial can find
a loss, it is made again from records in which one kind of sync is left out; each of those has to lose.
"""

import os
import random
import re
import shutil
import subprocess

import store_format
import store_reader
from support import (DONE, Report, Wrong, age, find_program, in_memory, names, need, new_folder, options, parse_seeded,
                     put_flow, read_files, run, unmarked_aside, write_files)

FILES = {"a.txt": b"hi", "b": b"", "größe": bytes(range(256)) * 9}

CHANGING = ("openat,open,creat,mkdir,mkdirat,rename,renameat,renameat2,unlink,unlinkat,rmdir,link,linkat,"
            "symlink,symlinkat,write,writev,pwrite64,pwritev,pwritev2,truncate,ftruncate,fallocate,"
            "copy_file_range,sendfile,fsync,fdatasync,sync,syncfs,sync_file_range")


# The record.

def record(program, folder):
    """The changing calls of a run, each as its kind and what it works on; paths are below the folder."""
    with new_folder() as aside:
        trace = aside / "trace"
        subprocess.run(["strace", "-f", "-qq", "-xx", "-y", "-s", "1000000", "-e", "signal=none",
                        "-e", f"trace={CHANGING}", "-o", trace, program, "run"],
                       cwd=folder, stdin=subprocess.DEVNULL, stdout=subprocess.DEVNULL, check=True)
        lines = trace.read_text().splitlines()
    calls = [call for line in lines for call in read_call(line, os.fsencode(folder.resolve()))]
    need(calls, "the record is empty")
    return calls


def read_call(line, top):
    found = re.match(r"^(?:\d+\s+)?(\w+)\((.*)\)\s*= (-?\d+)", line)
    if found is None:
        raise Wrong(f"a line of the record has no reading: {line[:80]}")
    kind, given, answer = found.group(1), found.group(2), int(found.group(3))
    if answer < 0:
        return
    texts = [bytes.fromhex(text.replace("\\x", "")) for text in re.findall(r'"((?:\\x[0-9a-f]{2})*)"', given)]
    handles = [bytes.fromhex(text.replace("\\x", "")) for text in re.findall(r"<((?:\\x[0-9a-f]{2})*)>", given)]

    def below(path, handle=None):
        whole = os.path.normpath(os.path.join(handle or top, path))
        return os.path.relpath(whole, top) if whole == top or whole.startswith(top + b"/") else None

    if kind in ("openat", "open", "creat"):
        # A file that this program makes, it makes anew. What is only read changes nothing.
        path = below(texts[0], handles[0] if given.startswith(("AT_FDCWD<", *"0123456789")) else None)
        if path is not None and "O_CREAT" in given:
            need("O_EXCL" in given, f"a file that may be there is opened to be made: {line[:80]}")
            yield ("create", path)
    elif kind in ("mkdir", "mkdirat"):
        yield ("mkdir", below(texts[-1], handles[0] if kind == "mkdirat" else None))
    elif kind in ("rename", "link"):
        yield (kind, below(texts[0]), below(texts[1]))
    elif kind in ("unlink", "rmdir"):
        yield (kind, below(texts[0]))
    elif kind == "unlinkat":
        yield ("rmdir" if "AT_REMOVEDIR" in given else "unlink", below(texts[0], handles[0]))
    elif kind == "pwrite64":
        need(answer == len(texts[0]), "a write was cut in two")
        yield ("write", below(handles[0]), int(given.rsplit(", ", 1)[1]), texts[0])
    elif kind == "write":
        path = below(handles[0])
        if path is not None:
            need(answer == len(texts[0]), "a write was cut in two")
            yield ("append", path, texts[0])
    elif kind == "ftruncate":
        yield ("cut", below(handles[0]), int(given.rsplit(", ", 1)[1]))
    elif kind in ("fsync", "fdatasync"):
        yield ("sync", below(handles[0]))
    else:
        raise Wrong(f"the record has a call that this script doesn't know: {line[:80]}")


# What is on the disk, and what is pending.

class File:
    def __init__(self, durable=b""):
        self.durable = durable
        self.held = durable
        self.pending = []

    def change(self, step):
        self.held = step(self.held)
        self.pending.append(step)

    def sync(self):
        self.durable = self.held
        self.pending = []


class Unreached(File):
    """A file that holds what the disk never got. The system refused to sync it once, and doesn't tell again."""

    def __init__(self, durable, held):
        super().__init__(durable)
        self.held = held

    def sync(self):
        for step in self.pending:
            self.durable = step(self.durable)
        self.pending = []


class Folder:
    def __init__(self):
        self.durable = {}
        self.held = {}
        # Changes of entries, each with the number of the call that made it: a rename makes two.
        self.pending = []

    def change(self, call, name, node):
        apply(self.held, name, node)
        self.pending.append((call, name, node))

    def sync(self):
        self.durable = dict(self.held)
        self.pending = []


def apply(entries, name, node):
    if node is None:
        entries.pop(name, None)
    else:
        entries[name] = node


def durable_tree(path):
    """What stands in a real folder, with nothing pending. Names of one file give one file."""
    files = {}

    def read(entry):
        if entry.inode() not in files:
            with open(entry.path, "rb") as file:
                files[entry.inode()] = File(file.read())
        return files[entry.inode()]

    def tree(path):
        folder = Folder()
        for entry in os.scandir(path):
            folder.held[entry.name] = tree(entry.path) if entry.is_dir(follow_symlinks=False) else read(entry)
        folder.sync()
        return folder

    return tree(os.fsencode(path))


def find(top, path):
    node = top
    for name in path.split(b"/"):
        if name != b".":
            node = node.held[name]
    return node


def split(top, path):
    parent, _, name = path.rpartition(b"/")
    return find(top, parent or b"."), name


def replay(top, number, call):
    """Does a call of the record."""
    kind, path = call[0], call[1]
    if kind in ("create", "mkdir"):
        folder, name = split(top, path)
        folder.change(number, name, File() if kind == "create" else Folder())
    elif kind in ("unlink", "rmdir"):
        folder, name = split(top, path)
        folder.change(number, name, None)
    elif kind == "link":
        target, new = split(top, call[2])
        target.change(number, new, find(top, path))
    elif kind == "rename":
        (source, old), (target, new) = split(top, path), split(top, call[2])
        node = source.held[old]
        target.change(number, new, node)
        source.change(number, old, None)
    elif kind == "write":
        find(top, path).change(overwrite(call[2], call[3]))
    elif kind == "append":
        file = find(top, path)
        file.change(overwrite(len(file.held), call[2]))
    elif kind == "cut":
        find(top, path).change(lambda held: held[:call[2]])
    elif kind == "sync":
        find(top, path).sync()


def overwrite(at, bytes_):
    def step(held):
        held = held.ljust(at, b"\0")
        return held[:at] + bytes_ + held[at + len(bytes_):]
    step.range = (at, bytes_)
    return step


# What a stop leaves.

def drawn_file(file):
    left = file.durable
    for step in file.pending:
        if not hasattr(step, "range"):
            left = step(left) if random.random() < 0.5 else left
            continue
        at, bytes_ = step.range
        if at > len(left):
            left = left.ljust(at, b"\0")
        way = random.choice(("all", "none", "front", "back", "any"))
        if way == "all":
            left = step(left)
        elif way == "front":
            some = random.randint(0, len(bytes_))
            left = left[:at] + bytes_[:some] + left[at + some:]
        elif way == "back":
            some = random.randint(0, len(bytes_))
            old = left[at:at + some].ljust(some, b"\0")
            left = left[:at] + old + bytes_[some:] + left[at + len(bytes_):]
        elif way == "any":
            some = random.randint(0, len(bytes_))
            left = left[:at] + random.randbytes(some) + left[at + some:]
    return left


def drawn_tree(folder, done):
    """The entries that a stop leaves of a folder. `done` says of each pending call whether it counts."""
    entries = dict(folder.durable)
    for call, name, node in folder.pending:
        if done.setdefault(call, random.random() < 0.5):
            apply(entries, name, node)
    return entries


def lay(top, path):
    """Makes a real folder of what a stop leaves. A file that has two names there has both."""
    done, laid = {}, {}

    def lay_folder(folder, path):
        os.makedirs(path, exist_ok=True)
        for name, node in drawn_tree(folder, done).items():
            where = os.path.join(path, name)
            if isinstance(node, Folder):
                lay_folder(node, where)
            else:
                lay_file(node, where)

    def lay_file(node, where):
        if node in laid:
            os.link(laid[node], where)
            return
        with open(where, "wb") as file:
            file.write(drawn_file(node))
        age(where)
        laid[node] = where

    lay_folder(top, path)


# The trial.

def is_empty(files):
    """Whether a store's files stand for no file, its events tell of each that there was, and no claim is left."""
    state = store_reader.state_of(files)
    return (not isinstance(state, store_format.Damage) and not state.files and not store_reader.claims_in(files)
            and not store_reader.untold(state))


def recovers(program, parent, top, what):
    """Lays one image, and runs the program on it. Says what is wrong, or None."""
    with new_folder(parent) as folder:
        lay(top, os.fsencode(folder))
        ended = run(program, folder)
        if ended.status != DONE:
            return f"{what}: status {ended.status}"
        put = read_files(folder / "out")
        if names(folder / "in"):
            return f"{what}: in holds {names(folder / 'in')}"
        if put != FILES:
            lost = sorted(name for name, content in FILES.items() if put.get(name) != content)
            return f"{what}: not delivered as sent: {lost}"
        # A folder aside whose marker the stop took isn't known as one, and stays.
        if names(folder / "out") != sorted([*FILES, *unmarked_aside(folder / "out")]):
            return f"{what}: out holds {names(folder / 'out')}"
        left = store_reader.files_in(folder / "store")
        if not is_empty(left):
            return f"{what}: a file still waits, or a claim is left: {sorted(left)}"
    return None


def stops(program, parent, top, calls, picks):
    """Tries stops behind each call of a record. Gives what went wrong, and how many were tried."""
    wrong, tried = [], 0
    for number in range(len(calls) + 1):
        if number:
            replay(top, number, calls[number - 1])
        for _ in range(picks):
            tried += 1
            found = recovers(program, parent, top, f"a stop behind call {number} of {len(calls)}")
            if found is not None:
                wrong.append(found)
    return wrong, tried


def recorded(program, parent, body, store=None, taken=None):
    """Makes a folder with the files in its inbox, one of them aside as a stop may leave it, records a run, and goes on
    with both."""
    with new_folder(parent) as folder, new_folder(parent) as start:
        for made in (folder, start):
            put_flow(made)
            write_files(made / "in", FILES)
            if taken is not None:
                os.rename(made / "in" / taken, made / "in" / f".flow-taken-0-{taken}")
            if store is not None:
                write_files(made / "store", store)
        return body(start, record(program, folder))


def nothing_is_lost(program, parent, picks, store=None, taken=None):
    def body(start, calls):
        wrong, tried = stops(program, parent, durable_tree(start), calls, picks)
        need(not wrong, f"{len(wrong)} of {tried} stops: {wrong[:3]}")
        return f"{len(calls)} calls, {tried} stops"
    return recorded(program, parent, body, store, taken)


def nothing_is_lost_twice(program, parent, picks, rounds):
    """The power is cut at a random call, and then again while the program recovers."""
    def body(start, calls):
        wrong, tried = [], 0
        for _ in range(rounds):
            top = durable_tree(start)
            for number in range(random.randint(1, len(calls))):
                replay(top, number + 1, calls[number])
            with new_folder(parent) as image, new_folder(parent) as copy:
                lay(top, os.fsencode(image))
                shutil.copytree(image, copy, dirs_exist_ok=True)
                more, count = stops(program, parent, durable_tree(image), record(program, copy), picks)
            wrong += more
            tried += count
        need(not wrong, f"{len(wrong)} of {tried} stops: {wrong[:3]}")
        return f"{rounds} first stops, {tried} second ones"
    return recorded(program, parent, body)


def unmended():
    """A store with a file that waits, and with all that an opening mends or takes away."""
    writer = store_format.Writer().get("a.txt", FILES["a.txt"])
    files = writer.files()
    log, claim = files["log-1"], files["claim-0"]
    return {**files, "log-1": log[:-1] + b"\x42" + log[1:], "claim-0": claim + b"more", "claim-5": b"other",
            "log-0": log, "log-3": store_format.CLOSED + log[1:], "snapshot-3": files["snapshot-1"], "swap-1": b"x",
            "events-0": files["events-0"] + b"more", "events-3": b"x"}


def after_a_refused_sync(program, parent, picks, mark):
    """The system refused to sync the first file's entry, so that the file is in the store that is read and in the
    inbox. A run goes on there, and the power is cut."""
    writer = store_format.Writer().get("a.txt", FILES["a.txt"])
    files, durable = writer.files(), store_format.log(1)

    def body(start, calls):
        top = durable_tree(start)
        store = top.held[b"store"]
        store.held[b"log-1"] = store.durable[b"log-1"] = Unreached(durable, files["log-1"])
        return stops(program, parent, top, calls, picks)
    return recorded(program, parent, body, {**files, "lock": mark})


def nothing_is_lost_behind_a_mark(program, parent, picks):
    wrong, tried = after_a_refused_sync(program, parent, picks, b"\1")
    need(not wrong, f"{len(wrong)} of {tried} stops: {wrong[:3]}")
    return f"{tried} stops"


def a_loss_is_found_without_it(program, parent, picks):
    wrong, tried = after_a_refused_sync(program, parent, picks, b"\0")
    need(wrong, f"none of {tried} stops lost anything")
    return f"{len(wrong)} of {tried} stops lose"


def is_sync_of(call, kind):
    if call[0] != "sync":
        return False
    path = call[1]
    return {"log": path == b"store/log-1", "snapshot": path == b"store/snapshot-1",
            "claim": path.startswith(b"store/claim-"), "events": path.startswith(b"store/events-"),
            "store": path == b"store", "in": path == b"in", "out": path == b"out",
            "part": path.startswith(b"out/.flow-aside-")}[kind]


def a_loss_is_found(program, parent, picks, kind, taken=None):
    def body(start, calls):
        fewer = [call for call in calls if not is_sync_of(call, kind)]
        need(len(fewer) < len(calls), "there was no such sync")
        wrong, tried = stops(program, parent, durable_tree(start), fewer, picks)
        need(wrong, f"none of {tried} stops lost anything")
        return f"{len(wrong)} of {tried} stops lose"
    return recorded(program, parent, body, taken=taken)


def main():
    parser = options(__doc__)
    parser.add_argument("--picks", type=int, default=20, help="stops at each call (default 20)")
    given, seed = parse_seeded(parser)
    program = find_program(given.program)
    # What is on a disk is a model here.
    given.folder = in_memory(given.folder)
    print(f"power: {given.picks} stops at each call, seed {seed}", flush=True)
    report = Report()
    report.case("the power is cut at each call, and nothing is lost", nothing_is_lost, program, given.folder,
                given.picks)
    report.case("the power is cut again while a run recovers", nothing_is_lost_twice, program, given.folder,
                max(1, given.picks // 10), max(2, given.picks // 2))
    report.case("the power is cut while a store is mended", nothing_is_lost, program, given.folder, given.picks,
                unmended())
    report.case("the power is cut while a file gets its name back", nothing_is_lost, program, given.folder, given.picks,
                None, "a.txt")
    report.case("the power is cut behind a refused sync that left its mark, and nothing is lost",
                nothing_is_lost_behind_a_mark, program, given.folder, given.picks)
    report.case("without the mark of a refused sync a loss is found", a_loss_is_found_without_it, program,
                given.folder, min(max(given.picks, 4), 20))
    for kind, text in (("log", "the log"), ("snapshot", "the snapshot"), ("claim", "the contents"),
                       ("events", "the events"), ("store", "the store's folder"), ("part", "the file put aside"),
                       ("out", "the outbox's folder")):
        report.case(f"without the syncs of {text} a loss is found", a_loss_is_found, program, given.folder,
                    min(max(given.picks, 4), 20), kind)
    report.case("without the syncs of the inbox's folder a loss is found", a_loss_is_found, program, given.folder,
                min(max(given.picks, 4), 20), "in", "a.txt")
    report.end()


main()
