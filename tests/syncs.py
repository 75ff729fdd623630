#!/usr/bin/env python3
"""Counts the syncs that a run asks of real folders, and has the system refuse each of them alone.

A run that is refused one has to end with the status of that device. The next one has to end with 0 and to
deliver every file. Where a sync of the store was refused, what a read gives may never have reached the disk,
and no later sync tells: so the next run has to write each file of the store anew, which gives it a new inode,
and the run after that has to change nothing.
"""

import os
import re

import printed
import store_format
from support import (DAMAGED, DISK, DONE, INBOX, MARKER, OUTBOX, REFUSED, THE_TEXT, Report, find_program, names, need,
                     need_status, none_aside, options, photo, put_flow, read_files, run, traced, work_folder,
                     write_files)

FILES = {"a": b"first", "b": b"", "c": bytes(range(256)) * 9}

FOLDERS = [("fsync", ".")] * 3
LOG = ("fdatasync", "store/log-1")
SNAPSHOT = ("fdatasync", "store/snapshot-1")
CLAIM = ("fdatasync", "store/claim-0")
EVENTS = ("fdatasync", "store/events-0")
STORE = ("fsync", "store")

# What is asked for before the first file: main's three folders, what stands in the store, and where there is none the
# snapshot, a log of one closed gate, its Begin, and its first gate open.
OPENING_NEW = [*FOLDERS, STORE, SNAPSHOT, STORE, LOG, STORE, LOG, LOG]
OPENING = [*FOLDERS, LOG, SNAPSHOT, STORE]

# An entry is added behind a closed gate, with its events at the first of its syncs, and the gate is opened.
ENTRY = [LOG, EVENTS, LOG]

# The file that a put writes has the run's random number in its name, which is left out here.
PART = re.compile(r"\bpart-\d+$")

# A file is taken by an entry, with its content at the first of its syncs; it is put; an entry lets it go.
PUT = [("fsync", "out/.flow-aside-0/part"), ("fsync", "out")]
# The first put of a run makes the folder aside, of which the marker is synced.
MARKED = ("fsync", f"out/.flow-aside-0/{MARKER}")
FILE = [LOG, CLAIM, EVENTS, LOG, *PUT, *ENTRY]
# The first content of a claim makes it, as the first event its file, which the store's folder has to keep; an empty
# content has no bytes.
FILE_FIRST = [LOG, CLAIM, EVENTS, STORE, LOG, *PUT, *ENTRY]
FILE_EMPTY = [*ENTRY, *PUT, *ENTRY]

# At the end the claims go.
CLOSING = [STORE]

# After so many files, two entries each, the claims go too; the next content makes one anew.
RECLAIMED = 128



def with_marker(syncs):
    """A run's syncs, with that of the marker in front of its first put."""
    first = syncs.index(PUT[0]) if PUT[0] in syncs else len(syncs)
    return [*syncs[:first], *([MARKED] if first < len(syncs) else []), *syncs[first:]]


# What FILES asks for, by name.
ALL = with_marker([*FILE_FIRST, *FILE_EMPTY, *FILE, *CLOSING])

# A marked store's files are written anew under this name.
COPY = ("fsync", "store/.flow-aside")


def syncs_of(program, folder, *asked):
    """Runs the program under strace. Gives its status, and its syncs in order, each with its path. What it
    prints is the line of its status, if that has one."""
    status, said, trace = traced(program, folder, "fsync,fdatasync", *asked)
    need(said == printed.LINES.get(status, said), f"it printed {said!r}")
    top = os.path.realpath(folder)
    return status, [(kind, PART.sub("part", os.path.relpath(path, top)))
                    for kind, path in re.findall(r"\b(fsync|fdatasync)\(\d+<(.*)>\)", trace)]


def in_any_order(syncs):
    """These syncs, those of the files that stand in the store at the start without their paths: the folder lists them
    in any order."""
    first = syncs.index(STORE) if STORE in syncs else len(syncs)
    return [(kind, None if len(FOLDERS) <= place < first else path) for place, (kind, path) in enumerate(syncs)]


def refused(program, folder, syncs, number):
    """Runs the program with one of its syncs refused, and gives its status."""
    kind = syncs[number][0]
    when = sum(earlier == kind for earlier, _ in syncs[:number + 1])
    status, asked = syncs_of(program, folder, "-e", f"inject={kind}:error=EIO:when={when}")
    need(in_any_order(asked)[:number + 1] == in_any_order(syncs)[:number + 1]
         or in_any_order(asked) == in_any_order(syncs[:number + 1]), f"other syncs are asked for: {asked[:number + 1]}")
    return status


def status_of(syncs, number):
    """The status of the device that asks for a sync. Main asks for a folder for each of the three, in this order."""
    path = syncs[number][1]
    if path == ".":
        return (DISK, INBOX, OUTBOX)[number]
    return OUTBOX if path.startswith("out") else DISK


def is_store(sync):
    return sync[1].startswith("store")


def mark(folder):
    lock = folder / "store" / "lock"
    return lock.read_bytes() if lock.exists() else None


def kept(folder):
    """The files of the store with their bytes, without its lock."""
    return {name: data for name, data in read_files(folder / "store").items() if name != "lock"}


def inodes(folder):
    """The inode of each file of the store."""
    return {name: os.lstat(folder / "store" / name).st_ino for name in names(folder / "store") if name != "lock"}


def delivers(program, folder):
    need_status(run(program, folder), DONE)
    has_delivered(folder)


def has_delivered(folder):
    need(names(folder / "out") == sorted(FILES), f"out holds {names(folder / 'out')}")
    need(read_files(folder / "out") == FILES, "a file of out has other bytes")
    need(names(folder / "in") == [], f"in holds {names(folder / 'in')}")
    need(mark(folder) == b"\0", f"the lock holds {mark(folder)}")
    need(names(folder / "store") == ["events-0", "lock", "log-1", "snapshot-1"],
         f"store holds {names(folder / 'store')}")


class Cases:
    def __init__(self, program, parent):
        self.program = program
        self.parent = parent

    def folder(self):
        return work_folder(self.parent)

    # How many there are.

    def of_a_new_store(self):
        for count in (0, 1, 5):
            self.asks_for(count, OPENING_NEW)

    def of_many(self):
        """The claims are emptied on the way."""
        for count in (RECLAIMED, RECLAIMED + 1, 2 * RECLAIMED + 3):
            self.asks_for(count, OPENING_NEW)

    def asks_for(self, count, opening, before=lambda folder: None):
        with self.folder() as folder:
            before(folder)
            write_files(folder / "in", {f"{number:03}": b"x" for number in range(count)})
            status, syncs = syncs_of(self.program, folder)
            need(status == DONE, f"status {status}")
            each = [sync for number in range(count) for sync in (FILE if number % RECLAIMED else FILE_FIRST)]
            wanted = [*opening, *each, *(CLOSING if count else [])]
            need(in_any_order(syncs) == in_any_order(with_marker(wanted)),
                 f"{count} files: {syncs if count < 9 else f'{len(syncs)} syncs, and not {len(wanted)}'}")

    def of_a_store(self):
        for count in (0, 1, 5):
            self.asks_for(count, OPENING, lambda folder: need_status(run(self.program, folder), DONE))

    def of_all_kinds(self):
        with self.folder() as folder:
            write_files(folder / "in", FILES)
            status, syncs = syncs_of(self.program, folder)
            need(status == DONE and syncs == [*OPENING_NEW, *ALL], f"status {status}, {syncs}")

    def of_a_queue(self):
        """What waits is put and let go: two syncs of the outbox for each file, two of the log, one of the events."""
        writer = store_format.Writer()
        for name, content in FILES.items():
            writer.get(name, content)
        with self.folder() as folder:
            write_files(folder / "store", writer.files())
            status, syncs = syncs_of(self.program, folder)
            need(status == DONE, f"status {status}")
            wanted = [*FOLDERS, LOG, SNAPSHOT, CLAIM, EVENTS, STORE, *[*PUT, *ENTRY] * len(FILES), *CLOSING]
            need(in_any_order(syncs) == in_any_order(with_marker(wanted)), f"{syncs}")

    def of_a_mended_store(self):
        """The log is cut behind its last gate, then the gate is closed; a greater log is cut to a byte; then what
        doesn't matter goes, which the next sync makes durable with the first entry."""
        files = store_format.Writer().get("a", b"one").files()
        log, claim = files["log-1"], files["claim-0"]
        files |= {"log-1": log[:-1] + b"\x42tail", "claim-0": claim + b"more", "log-3": b"\0" + log[1:],
                  "events-0": files["events-0"] + b"more", "claim-9": b"x"}
        with self.folder() as folder:
            write_files(folder / "store", files)
            status, syncs = syncs_of(self.program, folder)
            need(status == DONE, f"status {status}")
            standing = [("fdatasync", f"store/{name}") for name in files]
            wanted = [*FOLDERS, *standing, STORE, LOG, LOG, ("fdatasync", "store/log-3"), *PUT, LOG, CLAIM, EVENTS,
                      STORE, LOG, *CLOSING]
            need(in_any_order(syncs) == in_any_order(with_marker(wanted)), f"{syncs}")

    def of_what_is_not_opened(self):
        """Damage and another flow's store: the opening's first sync, and none behind it."""
        other = store_format.Writer()
        other.state.flow = bytes(32)
        torn = store_format.Writer().get("a", b"one").files() | {"claim-0": b"two"}
        for files, wanted in ((other.start().files(), REFUSED), (torn, DAMAGED)):
            with self.folder() as folder:
                write_files(folder / "store", files)
                status, syncs = syncs_of(self.program, folder)
                need(status == wanted, f"status {status}")
                standing = [("fdatasync", f"store/{name}") for name in files]
                need(in_any_order(syncs) == in_any_order([*FOLDERS, *standing, STORE]), f"{syncs}")

    def of_what_is_marked_and_not_opened(self):
        """A store that is damaged or of another flow, and whose lock a refused sync has marked: its files are written
        anew before 4 or 3 is told, with the bytes that they have. Then no mark is left: a second run writes nothing."""
        def tear(folder):
            write_files(folder / "store", {"claim-0": b"torn!"})

        def other_flow(folder):
            put_flow(folder, THE_TEXT + b" ")

        for change, wanted in ((tear, DAMAGED), (other_flow, REFUSED)):
            with self.folder() as folder:
                self.marked(folder)
                change(folder)
                self.writes_anew_alone(folder, wanted)

    def writes_anew_alone(self, folder, wanted):
        """A run ends with this status. Each file of the store is another one with the same bytes, all else stays."""
        outside = [folder / name for name in ("in", "out", "flow.json")]
        files, before, others = kept(folder), inodes(folder), photo(*outside)
        status, syncs = syncs_of(self.program, folder)
        need(status == wanted, f"status {status} where {wanted} is wanted")
        need(syncs == [*FOLDERS, *[COPY] * len(files), STORE], f"status {status}: {syncs}")
        need(mark(folder) == b"\0", f"status {status}: the lock holds {mark(folder)}")
        need(kept(folder) == files, f"status {status}: the store has other bytes")
        after = inodes(folder)
        need(all(after[name] != before[name] for name in files), f"status {status}: {after}, and was {before}")
        need(photo(*outside) == others, f"status {status}: more was written")
        stays = photo(folder)
        need_status(run(self.program, folder), wanted)
        need(photo(folder) == stays, f"status {status}: the second run changed something")

    # Each is refused alone.

    def each_refused(self, prepare):
        """Has each sync of a run refused alone. The run begins in a folder that `prepare` fills."""
        with self.folder() as folder:
            prepare(folder)
            status, syncs = syncs_of(self.program, folder)
            need(status == DONE, f"status {status}")
        for number in range(len(syncs)):
            with self.folder() as folder:
                prepare(folder)
                self.is_told(folder, syncs, number)
        return f"{len(syncs)} syncs"

    def is_told(self, folder, syncs, number):
        what = f"{syncs[number]}, sync {number + 1} of {len(syncs)}"
        was = mark(folder)
        status = refused(self.program, folder, syncs, number)
        need(status == status_of(syncs, number), f"{what}: status {status}")
        none_aside(folder)
        # A mark stays until the store was written anew, which the syncs of its copies and of the folder end.
        left = b"\1" if is_store(syncs[number]) else mark_left(syncs, number, was)
        need(mark(folder) == left, f"{what}: the lock holds {mark(folder)}")
        before = names(folder / "store") if (folder / "store").exists() else []
        need(".flow-aside" not in before, f"{what}: a copy is left")
        self.delivers_anew(folder, len(before) - 1 if left == b"\1" else 0, what)
        stays = photo(folder)
        delivers(self.program, folder)
        need(photo(folder) == stays, f"{what}: the third run changed something")

    def delivers_anew(self, folder, copies, what):
        """The next run delivers, and first writes so many files of the store anew."""
        status, syncs = syncs_of(self.program, folder)
        need(status == DONE, f"{what}: status {status} of the second run")
        need(syncs.count(COPY) == copies, f"{what}: {syncs.count(COPY)} files are written anew, and not {copies}")
        need(syncs[len(FOLDERS):len(FOLDERS) + copies] == [COPY] * copies, f"{what}: the opening asks for {syncs[:8]}")
        has_delivered(folder)

    def in_a_new_folder(self):
        return self.each_refused(lambda folder: write_files(folder / "in", FILES))

    def in_a_store_that_stands(self):
        def prepare(folder):
            need_status(run(self.program, folder), DONE)
            write_files(folder / "in", FILES)
        return self.each_refused(prepare)

    def in_a_marked_store(self):
        return self.each_refused(self.marked)

    def marked(self, folder):
        """A store that took the first of three files, and of which the sync behind that entry's gate was refused."""
        write_files(folder / "in", FILES)
        status = refused(self.program, folder, [*OPENING_NEW, *ALL], len(OPENING_NEW) + FILE_FIRST.index(STORE) + 1)
        need(status == DISK and mark(folder) == b"\1", f"status {status}, and the lock holds {mark(folder)}")
        need(names(folder / "store") == ["claim-0", "events-0", "lock", "log-1", "snapshot-1"],
             f"{names(folder / 'store')}")

    # What a mark has the next run do.

    def every_file_anew(self):
        with self.folder() as folder:
            self.marked(folder)
            for name in ("log-1", "snapshot-1"):
                os.chmod(folder / "store" / name, 0o600)
            # Files that don't matter are written anew, too, before they go; other entries aren't.
            others = {"notes": b"mine", "log-01": b"x"}
            write_files(folder / "store", {**others, "claim-7": b"content" * 30_000, "snapshot-0": b"x"})
            before = inodes(folder)
            status, syncs = syncs_of(self.program, folder)
            need(status == DONE, f"status {status}")
            need(syncs[3:10] == [*[COPY] * 6, STORE], f"the opening asks for {syncs[:11]}")
            after = inodes(folder)
            need(sorted(after) == sorted([*others, "events-0", "log-1", "snapshot-1"]), f"store holds {sorted(after)}")
            for name in after:
                need((after[name] != before[name]) == (name not in others), f"{name} has inode {after[name]}")
            need(read_files(folder / "out") == FILES, "a file of out has other bytes")
            for name in ("log-1", "snapshot-1"):
                need(os.lstat(folder / "store" / name).st_mode & 0o777 == 0o600, "a file may be read by others now")

    def left_copy(self):
        """What a stop left of a copy goes, with the mark or without it."""
        for marked in (False, True):
            with self.folder() as folder:
                (self.marked if marked else lambda folder: write_files(folder / "in", FILES))(folder)
                write_files(folder / "store", {".flow-aside": b"half"})
                delivers(self.program, folder)

    def copy_refused(self):
        """Where the copy can't be made the files stand, and so does the mark."""
        with self.folder() as folder:
            self.marked(folder)
            (folder / "store" / ".flow-aside").mkdir()
            before = photo(folder)
            need_status(run(self.program, folder), DISK)
            need(photo(folder) == before, "something changed")
            (folder / "store" / ".flow-aside").rmdir()
            delivers(self.program, folder)

    def other_locks(self):
        """A lock that is empty, as older stores have it, bears no mark; any other byte than 0 is one."""
        for lock, anew in ((b"", False), (b"\0", False), (b"\1", True), (b"\xff", True), (b"12", True)):
            with self.folder() as folder:
                write_files(folder / "in", FILES)
                delivers(self.program, folder)
                write_files(folder / "store", {"lock": lock})
                before = inodes(folder)
                need_status(run(self.program, folder), DONE)
                need(mark(folder)[:1] == b"\0", f"{lock}: the lock holds {mark(folder)}")
                need((inodes(folder) != before) == anew, f"{lock}: {inodes(folder)}, and was {before}")


def mark_left(syncs, number, was):
    """The lock's bytes after a run of which no sync of the store was refused."""
    if was is None:
        return None if number == 0 else b"\0"
    # Main's first folder is the store's: without it the lock isn't even taken.
    return was if number == 0 else b"\0"


def main():
    given = options(__doc__).parse_args()
    cases = Cases(find_program(given.program), given.folder)
    report = Report()
    for text, body in (
            ("the syncs of a run in a new folder: the opening's, nine for each further file, and the end's",
             cases.of_a_new_store),
            ("the syncs of a run over so many files that claims are emptied on the way", cases.of_many),
            ("the syncs of a run over a store that stands", cases.of_a_store),
            ("the syncs of an empty file, and of the first content of a claim", cases.of_all_kinds),
            ("the syncs of a run over a store in which files wait", cases.of_a_queue),
            ("the syncs of a run over a store that has to be mended", cases.of_a_mended_store),
            ("a damaged store and another flow's: the opening's first sync alone", cases.of_what_is_not_opened),
            ("the same with a marked lock: 4 and 3, and each file written anew with its bytes",
             cases.of_what_is_marked_and_not_opened),
            ("each sync of a run in a new folder is refused alone", cases.in_a_new_folder),
            ("each sync of a run over a store that stands is refused alone", cases.in_a_store_that_stands),
            ("each sync of a run that writes a store anew is refused alone", cases.in_a_marked_store),
            ("behind a refused sync each file of the store is written anew, and nothing else", cases.every_file_anew),
            ("what a stop left of a copy goes", cases.left_copy),
            ("where no copy can be made: 5, and nothing changes", cases.copy_refused),
            ("a lock that is empty or holds other bytes", cases.other_locks)):
        report.case(text, body)
    report.end()


if __name__ == "__main__":
    main()
