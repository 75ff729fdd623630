#!/usr/bin/env python3
"""Changes the folders of a run while it stands still between two of its calls.

strace stops the program behind a call on one path; then a change is made there, as by another program, and it goes on.
A file of the inbox is opened and read once, and looked at before its session is committed. Where another file stands
under the name by then, or somebody wrote to it, nothing of it is taken and the file stays: the next run takes it as it is
then. A put is durable in the folder
that the outbox's path leads to. The folder in which puts are written stays from one to the next; another one is made
where it is gone, or something else stands in its place.
"""

import contextlib
import os
import re
import shutil
import signal
import stat
import subprocess

import store_format
import store_reader
from support import (DAMAGED, DONE, INBOX, MARK, MARKER, OUTBOX, THE_TEXT, Report, find_program, names, need, new_folder,
                     none_aside, options, read_files, run, stopped_in, work_folder, write_files)

CONTENT_MAX = 16_777_216

FILES = {"a": b"the first bytes", "b": b"another file"}

# The folder in which puts are written.
ASIDE = ".flow-aside-0"


class Cases:
    def __init__(self, program, parent):
        self.program = program
        self.parent = parent

    def behind_the_reading(self, change):
        """Makes a change behind the reading of `a`. Gives the status, how often `a` was opened, and the files of `in` and
        of `out`, and then the status of the next run and the files of `out` behind it."""
        with work_folder(self.parent) as folder:
            write_files(folder / "in", FILES)
            status, calls = stopped_in(self.program, folder, "in/a", "pread64", 1, change)
            state = store_reader.state_of(store_reader.files_in(folder / "store"))
            need(not isinstance(state, store_format.Damage), f"the store is damaged: {state}")
            need(state.queued() == [], f"{state.queued()} wait")
            found = status, calls.count("openat"), read_files(folder / "in"), read_files(folder / "out")
            return found, (run(self.program, folder).status, read_files(folder / "out"))

    def is_taken(self, change):
        """The file is the one that was read, and is delivered."""
        found, _ = self.behind_the_reading(change)
        need(found == (DONE, 1, {}, FILES), f"status, opened, in and out: {found}")

    def is_left(self, change, bytes_):
        """The file is another one, or was written to: the run ends with 6 and takes nothing, the next run takes it."""
        found, behind = self.behind_the_reading(change)
        need(found == (INBOX, 1, FILES | {"a": bytes_}, {}), f"status, opened, in and out: {found}")
        need(behind == (DONE, FILES | {"a": bytes_}), f"status and out of the next run: {behind}")

    def stays_as_it_was(self):
        self.is_taken(lambda folder: None)

    def replaced(self):
        self.is_left(lambda folder: replace(folder, b"of another file"), b"of another file")
        self.is_left(lambda folder: replace(folder, b"longer than that before"), b"longer than that before")

    def replaced_by_the_same_bytes(self):
        self.is_left(lambda folder: replace(folder, FILES["a"]), FILES["a"])

    def written_over(self):
        self.is_left(lambda folder: write(folder, "r+b", b"THE"), b"THE first bytes")

    def grows(self):
        self.is_left(lambda folder: write(folder, "ab", b" and more"), FILES["a"] + b" and more")

    def shrinks(self):
        self.is_left(lambda folder: os.truncate(folder / "in" / "a", 3), FILES["a"][:3])
        self.is_left(lambda folder: os.truncate(folder / "in" / "a", 0), b"")

    def moved_and_back(self):
        def change(folder):
            os.rename(folder / "in" / "a", folder / "aside")
            os.rename(folder / "aside", folder / "in" / "a")
        self.is_taken(change)

    def refuses(self, change, left):
        """Where no regular file stands under the name, the run ends with 6 and nothing is taken."""
        found, _ = self.behind_the_reading(change)
        need(found == (INBOX, 1, left, {}), f"status, opened, in and out: {found}")

    def removed(self):
        self.refuses(remove, {"b": FILES["b"]})

    def replaced_by_another_kind(self):
        for change in (put_link, put_pipe, put_folder):
            self.refuses(change, {"b": FILES["b"]})

    def behind_the_listing(self):
        """The listing tells the size. A reading looks again, at what stands there and how large it is."""
        for change, left in ((remove, ["b"]), (put_pipe, ["a", "b"]),
                             (lambda folder: os.truncate(folder / "in" / "a", CONTENT_MAX + 1), ["a", "b"])):
            with work_folder(self.parent) as folder:
                write_files(folder / "in", FILES)
                status, _ = stopped_in(self.program, folder, "in/a", "statx", 1, change)
                need(status == INBOX, f"status {status}")
                need(names(folder / "in") == left, f"in holds {names(folder / 'in')}")
                need(names(folder / "out") == [], f"out holds {names(folder / 'out')}")

    def other_content(self):
        """A claim has other bytes than were written to it: the reading before the put finds that."""
        def change(folder):
            with open(folder / "store" / "claim-0", "r+b") as file:
                file.write(b"X")

        with work_folder(self.parent) as folder:
            write_files(folder / "in", FILES)
            # By then the content is acknowledged.
            status, _ = stopped_in(self.program, folder, "in/a", "rename", 1, change)
            need(status == DAMAGED, f"status {status}")
            need(names(folder / "out") == [], f"out holds {names(folder / 'out')}")

    def other_outbox(self):
        """Another folder takes the outbox's place between two puts: the second one is synced there."""
        def change(folder):
            os.rename(folder / "out", folder / "old")
            (folder / "out").mkdir()

        with work_folder(self.parent) as folder:
            write_files(folder / "in", FILES)
            (folder / "out").mkdir()
            status, calls = stopped_in(self.program, folder, "out", "fsync", 1, change)
            need(status == DONE, f"status {status}")
            need(read_files(folder / "old") == {"a": FILES["a"]}, f"old holds {names(folder / 'old')}")
            need(read_files(folder / "out") == {"b": FILES["b"]}, f"out holds {names(folder / 'out')}")
            need(calls.count("fsync") == 2, f"the calls on out: {calls}")

    def no_outbox(self):
        with work_folder(self.parent) as folder:
            write_files(folder / "in", FILES)
            (folder / "out").mkdir()
            status, _ = stopped_in(self.program, folder, "out", "fsync", 1,
                                   lambda folder: os.rename(folder / "out", folder / "old"))
            need(status == OUTBOX, f"status {status}")
            need(run(self.program, folder).status == DONE, "the next run doesn't end with 0")
            need(read_files(folder / "out") == {"b": FILES["b"]}, f"out holds {names(folder / 'out')}")

    # The folder aside.

    def aside_made(self):
        """A run makes one folder aside for all puts, and a further one behind each put whose name is that folder's."""
        for files, wanted in ((("a", "b", "c"), (0,)),
                              (("-", ".flow-aside-0", ".flow-aside-3", "b", "c"), (0, 1)),
                              (("-", ".flow-aside-0", ".flow-aside-1", "b", ".flow-aside-5"), (0, 1, 2)),
                              ((".flow-aside-0", ".flow-aside-1", "b"), (1, 2))):
            made = self.made_for({name: name.encode() for name in files})
            need(made == [f"out/.flow-aside-{number}" for number in wanted], f"{files}: it makes {made}")

    def made_for(self, files):
        """The folders that a run over these files makes in the outbox, which it has to deliver."""
        text = THE_TEXT.replace(b'"GetFile"', b'"GetFile", "properties": {"File Filter": "[^/]+"}')
        with work_folder(self.parent, text) as folder, new_folder() as aside:
            write_files(folder / "in", files)
            ended = subprocess.run(["strace", "-f", "-qq", "-e", "trace=mkdir,mkdirat", "-e", "signal=none",
                                    "-o", aside / "trace", self.program, "run"], cwd=folder, check=False,
                                   stdin=subprocess.DEVNULL, stdout=subprocess.DEVNULL, stderr=subprocess.DEVNULL)
            need(ended.returncode == DONE, f"{sorted(files)}: status {ended.returncode}")
            self.holds(folder, files)
            return re.findall(r'"(out/[^"]*)".* = 0$', (aside / "trace").read_text(), re.MULTILINE)

    def holds(self, folder, files):
        """The outbox holds these files and nothing else."""
        need(names(folder / "out") == sorted(files), f"out holds {names(folder / 'out')}")
        need(read_files(folder / "out") == files, "a file of out has other bytes")

    @contextlib.contextmanager
    def behind_a_put(self, change, wanted):
        """Makes a change in a folder behind the first of two puts. The run has to end with this status."""
        def stays(folder):
            need(names(folder / "out") == [ASIDE, "a"], f"behind a put out holds {names(folder / 'out')}")
            need(names(folder / "out" / ASIDE) == [MARKER], f"aside there is {names(folder / 'out' / ASIDE)}")
            change(folder / "out" / ASIDE)

        with work_folder(self.parent) as folder:
            write_files(folder / "in", FILES)
            (folder / "out").mkdir()
            status, _ = stopped_in(self.program, folder, "out", "fsync", 1, stays)
            need(status == wanted, f"status {status}")
            yield folder

    def aside_stays(self):
        with self.behind_a_put(lambda aside: None, DONE) as folder:
            self.holds(folder, FILES)

    def aside_removed(self):
        with self.behind_a_put(shutil.rmtree, DONE) as folder:
            self.holds(folder, FILES)

    def aside_filled(self):
        """What somebody puts into the folder aside stays there, and so does the folder, until that is gone."""
        others = {"other": b"x", "part": b"y"}
        with self.behind_a_put(lambda aside: write_files(aside, others), DONE) as folder:
            for _ in range(2):
                need(names(folder / "out") == [ASIDE, *FILES], f"out holds {names(folder / 'out')}")
                need(read_files(folder / "out" / ASIDE) == {**others, MARKER: MARK},
                     f"aside there is {names(folder / 'out' / ASIDE)}")
                need(run(self.program, folder).status == DONE, "the next run doesn't end with 0")
            for name in others:
                os.unlink(folder / "out" / ASIDE / name)
            need(run(self.program, folder).status == DONE, "the last run doesn't end with 0")
            self.holds(folder, FILES)

    def aside_replaced(self):
        """Whatever takes its place stays as it is, and another folder is made. No link is followed."""
        def put_folder_there(aside):
            aside.mkdir()
            write_files(aside, {"mine": b"mine"})

        def put_folders_there(aside):
            # A file system may give a new one the inode of one that went.
            for _ in range(4):
                aside.mkdir()
                aside.rmdir()
            aside.mkdir()

        for make in (lambda aside: aside.write_bytes(b"mine"), lambda aside: os.symlink(".", aside), os.mkfifo,
                     os.mkdir, put_folder_there, put_folders_there):
            def replace_it(aside, make=make):
                shutil.rmtree(aside)
                make(aside)
                self.before = os.lstat(aside), names(aside) if stat.S_ISDIR(os.lstat(aside).st_mode) else None

            with self.behind_a_put(replace_it, DONE) as folder:
                need(names(folder / "out") == [ASIDE, *FILES], f"out holds {names(folder / 'out')}")
                aside = folder / "out" / ASIDE
                now = os.lstat(aside), names(aside) if stat.S_ISDIR(os.lstat(aside).st_mode) else None
                need(now == self.before, "what took its place changed")
                shutil.rmtree(aside) if now[1] is not None else os.unlink(aside)
                self.holds(folder, FILES)

    def outbox_moved_within_a_put(self):
        """The outbox is moved away within the second put, and one takes its place in which a folder stands that is
        somebody's, or one that a stop left."""
        for marked in (False, True):
            parts = {"part": b"half", "part-0": b"half"} if not marked else {"part-0": b"half", MARKER: MARK}

            def move(folder, parts=parts):
                os.rename(folder / "out", folder / "old")
                (folder / "out" / ASIDE).mkdir(parents=True)
                write_files(folder / "out" / ASIDE, parts)

            with work_folder(self.parent) as folder:
                write_files(folder / "in", FILES)
                (folder / "out").mkdir()
                # Behind the sync of what it wrote. The marker's sync is the eighth, and the first put makes two.
                status, _ = stopped_in(self.program, folder, None, "fsync", 11, move)
                need(status == OUTBOX, f"status {status}")
                need(names(folder / "old") == [ASIDE, "a"], f"old holds {names(folder / 'old')}")
                need(len(names(folder / "old" / ASIDE)) == 2, f"aside there is {names(folder / 'old' / ASIDE)}")
                need(read_files(folder / "out" / ASIDE) == parts, "the other folder changed")
                need(run(self.program, folder).status == DONE, "the next run doesn't end with 0")
                if not marked:
                    need(read_files(folder / "out" / ASIDE) == parts, "the other folder changed")
                    shutil.rmtree(folder / "out" / ASIDE)
                self.holds(folder, {"b": FILES["b"]})

    def killed_behind(self, path, call, when, left):
        """Kills a run behind this call. In the outbox stand these files and one empty folder, which the next run
        removes."""
        with work_folder(self.parent) as folder:
            write_files(folder / "in", FILES)
            (folder / "out").mkdir()
            status, _ = stopped_in(self.program, folder, path, call, when, lambda folder: None, signal.SIGKILL)
            need(status == -signal.SIGKILL, f"status {status}")
            need(names(folder / "out") == [ASIDE, *left], f"out holds {names(folder / 'out')}")
            need(names(folder / "out" / ASIDE) == [MARKER], f"aside there is {names(folder / 'out' / ASIDE)}")
            need(run(self.program, folder).status == DONE, "the next run doesn't end with 0")
            self.holds(folder, FILES)

    def killed_before_the_marker(self):
        """A stop behind the making of the folder and before its marker is whole leaves a folder that isn't known as
        one aside: it stays, and the next run makes another."""
        # The first lock is the store's.
        for path, call, when, marker in ((f"out/{ASIDE}", "mkdir", 1, None), (None, "flock", 2, b"")):
            with work_folder(self.parent) as folder:
                write_files(folder / "in", FILES)
                (folder / "out").mkdir()
                status, _ = stopped_in(self.program, folder, path, call, when, lambda folder: None, signal.SIGKILL)
                need(status == -signal.SIGKILL, f"status {status}")
                left = {} if marker is None else {MARKER: marker}
                for _ in range(2):
                    need(names(folder / "out")[:1] == [ASIDE], f"out holds {names(folder / 'out')}")
                    need(read_files(folder / "out" / ASIDE) == left, f"aside there is {names(folder / 'out' / ASIDE)}")
                    need(run(self.program, folder).status == DONE, "the next run doesn't end with 0")
                need(names(folder / "out") == [ASIDE, *FILES], f"out holds {names(folder / 'out')}")

    def killed_behind_the_marker(self):
        """From when the marker is whole on what a stop leaves goes with the next run."""
        # The syncs before it: main's folders, three of a new store's folder, and one behind its first claim.
        self.killed_behind(None, "fsync", 8, [])

    def killed_behind_a_put(self):
        self.killed_behind("out", "fsync", 1, ["a"])
        self.killed_behind("out", "fsync", 2, ["a", "b"])

    def killed_behind_all(self):
        """The claim goes once all is done: the next run puts nothing."""
        self.killed_behind("store/claim-0", "unlink", 1, ["a", "b"])

    def refused_looks(self):
        """Each look at a file of the inbox, at the outbox's folder or at that aside is refused alone: its device failed."""
        tried = 0
        for path, wanted in (("in/a", INBOX), ("out", OUTBOX), (f"out/{ASIDE}", OUTBOX)):
            looks = self.looks_at(path, "trace=statx", DONE)
            need(looks, f"there is no look at {path}")
            for number in range(1, looks + 1):
                # The last look at the folder aside is the end's, which leaves it where it can't look.
                left = path == f"out/{ASIDE}" and number == looks
                self.looks_at(path, f"inject=statx:error=EIO:when={number}", DONE if left else wanted, left)
            tried += looks
        return f"{tried} looks"

    def looks_at(self, path, asked, wanted, left=False):
        """How many looks at a path a run makes, which has to end with this status. The next one delivers."""
        with work_folder(self.parent) as folder, new_folder() as aside:
            write_files(folder / "in", FILES)
            (folder / "out").mkdir()
            ended = subprocess.run(["strace", "-f", "-qq", "-y", "-P", path, "-e", "trace=statx", "-e", asked,
                                    "-o", aside / "trace", self.program, "run"], cwd=folder, check=False,
                                   stdin=subprocess.DEVNULL, stdout=subprocess.DEVNULL, stderr=subprocess.DEVNULL)
            need(ended.returncode == wanted, f"{asked} on {path}: status {ended.returncode}")
            if not left:
                none_aside(folder)
            need(run(self.program, folder).status == DONE, f"{asked} on {path}: the next run doesn't end with 0")
            need(names(folder / "in") == [] and read_files(folder / "out") == FILES, f"{asked} on {path}: a file is lost")
            none_aside(folder)
            return (aside / "trace").read_text().count("statx(")


def remove(folder):
    os.unlink(folder / "in" / "a")


def put_link(folder):
    os.rename(folder / "in" / "a", folder / "aside")
    os.symlink("../aside", folder / "in" / "a")


def put_pipe(folder):
    remove(folder)
    os.mkfifo(folder / "in" / "a")


def put_folder(folder):
    remove(folder)
    os.mkdir(folder / "in" / "a")


def replace(folder, bytes_):
    write_files(folder, {"aside": bytes_})
    os.rename(folder / "aside", folder / "in" / "a")


def write(folder, how, bytes_):
    with open(folder / "in" / "a", how) as file:
        file.write(bytes_)


def main():
    given = options(__doc__).parse_args()
    cases = Cases(find_program(given.program), given.folder)
    report = Report()
    for text, body in (
            ("a file that stays as it was is opened once", cases.stays_as_it_was),
            ("another file takes its place behind the reading: 6, and the next run delivers that one", cases.replaced),
            ("another file of the same bytes takes its place: the same", cases.replaced_by_the_same_bytes),
            ("it is written over behind the reading: 6, and the next run delivers all of its new bytes", cases.written_over),
            ("it grows behind the reading: 6, and the next run delivers all of it", cases.grows),
            ("it shrinks behind the reading: 6, and the next run delivers it", cases.shrinks),
            ("it is moved away and back", cases.moved_and_back),
            ("it is removed behind the reading: 6, nothing taken", cases.removed),
            ("a link, a pipe or a folder takes its place: 6, nothing taken", cases.replaced_by_another_kind),
            ("it goes, becomes a pipe or too large behind the listing: 6, nothing taken", cases.behind_the_listing),
            ("a content has other bytes than were written: 4, nothing put", cases.other_content),
            ("another folder takes the outbox's place between two puts: that one is synced", cases.other_outbox),
            ("the outbox is moved away between two puts: 7, and later delivered", cases.no_outbox),
            ("each look at a file of the inbox, the outbox or its folder aside is refused alone", cases.refused_looks),
            ("puts share a folder aside, and one whose name is that folder's has another made", cases.aside_made),
            ("behind a put the folder aside has its marker alone, and at the end it is gone", cases.aside_stays),
            ("the folder aside is removed between two puts: it is made anew", cases.aside_removed),
            ("something is put into the folder aside between two puts: it stays", cases.aside_filled),
            ("something takes that folder's place: it stays, and another one is made", cases.aside_replaced),
            ("the outbox is moved away within a put: 7, and later delivered", cases.outbox_moved_within_a_put),
            ("killed before the marker is whole: the folder stays, and the next run makes another",
             cases.killed_before_the_marker),
            ("killed behind the marker: the next run removes the folder", cases.killed_behind_the_marker),
            ("killed behind a put: the folder is left, and the next run removes it", cases.killed_behind_a_put),
            ("killed once all is done: so it is, though the next run puts nothing", cases.killed_behind_all)):
        report.case(text, body)
    report.end()


main()
