#!/usr/bin/env python3
"""Tries the built program over real folders: what it delivers, what it leaves, and how it refuses."""

import fcntl
import os
import random
import resource
import signal
import subprocess
import time

import printed
import store_format
import store_reader
from support import (DISK, DONE, INBOX, MARK, MARKER, MEMORY, OUTBOX, SINK, SOURCE, THE_TEXT, USAGE, Report,
                     find_program, make_foreign_aside, names, need, need_status, new_folder, none_aside, options,
                     parse_seeded, photo, process_state, put_flow, read_files, run, run_for, start, wait_for,
                     work_folder, write_files)

CONTENT_MAX = 16_777_216

THREE = {"a.txt": b"first", "b.csv": b"1,2\n3,4\n", "c": b""}


class Cases:
    def __init__(self, program, parent, count):
        self.program = program
        self.parent = parent
        self.count = count

    def folder(self):
        return work_folder(self.parent)

    def run(self, folder, *words, limits=None):
        ended = run(self.program, folder, words or ("run",), limits)
        need(ended.said == printed.LINES.get(ended.status, ended.said),
             f"with status {ended.status} it printed {ended.said!r}")
        return ended

    def delivers(self, folder, files):
        """The next run ends with 0, and `out` then holds these files and nothing else."""
        ended = self.run(folder)
        need_status(ended, DONE)
        need(ended.said == printed.summary(state_of(folder), printed.listed(folder)), f"it printed {ended.said!r}")
        need(names(folder / "out") == sorted(files), f"out holds {names(folder / 'out')[:8]}")
        need(read_files(folder / "out") == files, "a file of out has other bytes")
        need(waiting(folder) == [], "the store still holds a file")
        need(claims(folder) == [], f"the store still holds contents: {claims(folder)}")

    # What is delivered.

    def many(self):
        with self.folder() as folder:
            files = {f"file-{n:05}": random.randbytes(1024) for n in range(self.count)}
            write_files(folder / "in", files)
            self.delivers(folder, files)
            need(names(folder / "in") == [], "in isn't empty")

    def empty_file(self):
        with self.folder() as folder:
            write_files(folder / "in", {"empty": b""})
            self.delivers(folder, {"empty": b""})

    def no_files(self):
        with self.folder() as folder:
            self.delivers(folder, {})
            need(names(folder) == ["flow.json", "in", "out", "store"], "the three folders aren't made")
            files = store_reader.files_in(folder / "store")
            state = state_of(folder)
            need(files == store_format.Writer(state.store).files(), "the store isn't a new one")

    def largest(self):
        with self.folder() as folder:
            fits = random.randbytes(CONTENT_MAX)
            write_files(folder / "in", {"fits": fits, "over": fits + b"1", "small": b"s"})
            self.delivers(folder, {"fits": fits, "small": b"s"})
            need(read_files(folder / "in") == {"over": fits + b"1"}, "the larger file didn't stay as it was")

    def others_stay(self):
        with self.folder() as folder:
            inbox = folder / "in"
            write_files(inbox, THREE)
            (inbox / "folder").mkdir()
            write_files(inbox / "folder", {"inner": b"stays"})
            (inbox / "link").symlink_to("folder/inner")
            (inbox / "broken").symlink_to("nowhere")
            os.mkfifo(inbox / "pipe")
            self.delivers(folder, THREE)
            need(names(inbox) == ["broken", "folder", "link", "pipe"], f"in holds {names(inbox)}")
            need((inbox / "folder" / "inner").read_bytes() == b"stays", "the folder's file changed")

    def odd_names(self):
        files = {"größe-水.txt": b"1", " ": b"2", "a\nb": b"3", "-rf": b"4", "\\": b"5", "...": b"6",
                 "n" * 255: b"7", ".flow-aside-0": b"8", ".flow-aside-1": b"9", ".hidden": b"10"}
        with self.folder() as folder:
            put_flow(folder, THE_TEXT.replace(b'"GetFile"', b'"GetFile", "properties": {"File Filter": "[^/]+"}'))
            write_files(folder / "in", files)
            self.delivers(folder, files)

    def hidden(self):
        """Names that begin with a dot, or have a line feed, are passed by no filter that isn't given."""
        others = {".hidden": b"1", "...": b"2", ".flow-aside-0": b"3", "a\nb": b"4"}
        with self.folder() as folder:
            write_files(folder / "in", {**THREE, **others})
            self.delivers(folder, THREE)
            need(read_files(folder / "in") == others, f"in holds {names(folder / 'in')}")

    def replaces(self):
        with self.folder() as folder:
            write_files(folder / "in", {"a": b"newer"})
            write_files(folder / "out", {"a": b"old and longer", "other": b"stays"})
            self.delivers(folder, {"a": b"newer", "other": b"stays"})

    def order(self):
        """The log tells in which order the files came: by the bytes of their names, and that each went at once."""
        with self.folder() as folder:
            write_files(folder / "in", {name: name.encode() for name in ("b", "a", "é", "B", "aa")})
            started = time.time() * 1000
            need_status(self.run(folder), DONE)
            state = state_of(folder)
            moments = [entry.moment for entry in state.entries]
            need(moments == sorted(moments), f"the moments fall: {moments}")
            need(started - 1 <= moments[0] and moments[-1] <= time.time() * 1000 + 1, "the moments are another time's")
            writer = store_format.Writer(state.store)
            for name in ("B", "a", "aa", "b", "é"):
                for step in (lambda: writer.get(name, name.encode()), writer.put):
                    writer.moment = moments[len(writer.entries)]
                    step()
            need((folder / "store" / "log-1").read_bytes() == writer.log(), "the log isn't two entries for each file")

    def other_ids(self):
        """Each store has an id of its own, which stays."""
        ids = set()
        for _ in range(4):
            with self.folder() as folder:
                write_files(folder / "in", THREE)
                self.delivers(folder, THREE)
                ids.add(state_of(folder).store)
                write_files(folder / "in", THREE)
                self.delivers(folder, THREE)
                ids.add(state_of(folder).store)
        need(len(ids) == 4, f"four stores have the ids {ids}")

    def claims_grow(self):
        """Contents share a claim until it has a MiB, and the claims go at the end."""
        with self.folder() as folder:
            files = {f"{n:02}": random.randbytes(300_000) for n in range(9)}
            write_files(folder / "in", files)
            self.delivers(folder, files)
            places = [(placed.content.slot, placed.content.offset) for entry in state_of(folder).entries
                      for placed in entry.placed]
            need(places == [(n // 4, n % 4 * 300_000) for n in range(9)], f"the contents stand at {places}")

    def twice(self):
        with self.folder() as folder:
            write_files(folder / "in", THREE)
            self.delivers(folder, THREE)
            before = photo(folder / "store", folder / "in", folder / "out")
            self.delivers(folder, THREE)
            need(photo(folder / "store", folder / "in", folder / "out") == before,
                 "the second run changed something")
            write_files(folder / "in", {"d": b"later"})
            self.delivers(folder, {**THREE, "d": b"later"})

    def other_entries(self):
        """What stands in the store's folder under other names is left alone."""
        with self.folder() as folder:
            write_files(folder / "in", THREE)
            others = {"notes": b"mine", "log-01": b"x", "log-": b"y", "LOG-1": b"z", "log-1.old": b"w",
                      "claim-00": b"v", "claims-0": b"u", "snapshot-18446744073709551616": b"t"}
            write_files(folder / "store", others)
            before = photo(*(folder / "store" / name for name in others))
            self.delivers(folder, THREE)
            need(photo(*(folder / "store" / name for name in others)) == before, "one of them changed")

    # What is refused, and what is left then.

    def out_is_a_file(self):
        with self.folder() as folder:
            write_files(folder / "in", THREE)
            write_files(folder, {"out": b"no folder"})
            # Each run takes one file more before it puts one.
            for count in (1, 2, 3, 3):
                need_status(self.run(folder), OUTBOX)
                need((folder / "out").read_bytes() == b"no folder", "out changed")
                taken = sorted(THREE)[:count]
                need(waiting(folder) == [(name, THREE[name]) for name in taken], f"{waiting(folder)} wait")
                need(names(folder / "in") == sorted(set(THREE) - set(taken)), f"in holds {names(folder / 'in')}")
            (folder / "out").unlink()
            self.delivers(folder, THREE)

    def out_has_a_folder(self):
        with self.folder() as folder:
            write_files(folder / "in", THREE)
            (folder / "out" / "b.csv").mkdir(parents=True)
            need_status(self.run(folder), OUTBOX)
            need(waiting(folder) == [("b.csv", THREE["b.csv"])], "the store doesn't hold the file")
            need(names(folder / "out") == ["a.txt", "b.csv"], f"out holds {names(folder / 'out')}")
            (folder / "out" / "b.csv").rmdir()
            self.delivers(folder, THREE)

    def store_is_a_file(self):
        with self.folder() as folder:
            write_files(folder / "in", THREE)
            write_files(folder, {"store": b"no folder"})
            before = photo(folder / "in", folder / "store")
            need_status(self.run(folder), DISK)
            need(photo(folder / "in", folder / "store") == before, "in or store changed")
            need(names(folder / "out") == [], "out isn't empty")
            (folder / "store").unlink()
            self.delivers(folder, THREE)

    def stands_a_folder(self, name):
        """A folder stands under the name of a file of the store."""
        with self.folder() as folder:
            write_files(folder / "in", THREE)
            (folder / "store" / name).mkdir(parents=True)
            before = photo(folder / "in")
            need_status(self.run(folder), DISK)
            need(photo(folder / "in") == before, "in changed")
            (folder / "store" / name).rmdir()
            self.delivers(folder, THREE)

    def log_is_a_folder(self):
        for name in ("log-1", "snapshot-1", "claim-0", "claim-9"):
            self.stands_a_folder(name)

    def in_is_a_file(self):
        with self.folder() as folder:
            write_files(folder, {"in": b"no folder"})
            need_status(self.run(folder), INBOX)
            need((folder / "in").read_bytes() == b"no folder", "in changed")
            (folder / "in").unlink()
            write_files(folder / "in", THREE)
            self.delivers(folder, THREE)

    def name_is_no_text(self):
        with self.folder() as folder:
            bad = b"caf\xe9"
            write_files(folder / "in", {**THREE, os.fsdecode(bad): b"latin"})
            before = photo(folder / "in")
            need_status(self.run(folder), INBOX)
            need(photo(folder / "in") == before, "in changed")
            need(names(folder / "out") == [] and waiting(folder) == [], "something was taken")
            os.unlink(os.path.join(os.fsencode(folder / "in"), bad))
            self.delivers(folder, THREE)

    def other_words(self):
        words = ((), ("runs",), ("run", "run"), ("RUN",), ("",), ("run", ""), ("--help",), (" run",), (b"\xff",),
                 (b"run", b"\xff"), (b"\xffrun",), ("queue",), ("queues", "run"), ("trial",), ("trial", "20", "run"),
                 ("--threads", "1", "run"), ("run", "--"),
                 ("run", "--threads", "0"), ("run", "--threads=17"), ("run", "--max-commits", "4194305"),
                 ("run", "--checkpoint=1000001"), ("run", "--checkpoint"), ("run", "--checkpoint="),
                 ("run", "--threads", "-4"), ("run", "--threads", "4", "--threads=4"), ("run", "-t", "4"))
        with self.folder() as folder:
            write_files(folder / "in", THREE)
            for part in ("store", "out"):
                (folder / part).mkdir()
            before = photo(folder)
            for said in words:
                ended = run(self.program, folder, said)
                need((ended.status, ended.said) == (USAGE, printed.USAGE_LINE), f"{said}: {ended.status}, {ended.said!r}")
            need(photo(folder) == before, "something in the folder changed")
            self.delivers(folder, THREE)

    def text_is_no_file(self):
        """A flow's text is a regular file, or a link to one: nothing else is read, nor waited for."""
        makers = (os.mkfifo, os.mkdir, lambda path: os.symlink("/dev/zero", path), lambda path: os.symlink("nowhere", path),
                  lambda path: os.symlink("pipe", path))
        for make in makers:
            with new_folder(self.parent) as folder:
                write_files(folder / "in", THREE)
                os.mkfifo(folder / "pipe")
                make(folder / "flow.json")
                before = photo(folder / "in")
                need(run_for(self.program, folder, 20) == SOURCE, "the run doesn't end with 8")
                need(photo(folder / "in") == before, "in changed")
                need(names(folder / "store") == [] and names(folder / "out") == [], "store or out isn't empty")
                (folder / "flow.json").rmdir() if (folder / "flow.json").is_dir() else (folder / "flow.json").unlink()
                write_files(folder, {"text": THE_TEXT})
                (folder / "flow.json").symlink_to("text")
                self.delivers(folder, THREE)

    def other_words_make_nothing(self):
        with new_folder(self.parent) as folder:
            need_status(run(self.program, folder, ("runs",)), USAGE)
            need(names(folder) == [], f"it made {names(folder)}")

    def second_process(self):
        with self.folder() as folder:
            files = {f"{n:05}": random.randbytes(2000) for n in range(max(200, self.count))}
            write_files(folder / "in", files)
            first = start(self.program, folder)
            try:
                wait_for(lambda: (folder / "out").is_dir() and len(os.listdir(folder / "out")) > 3, first)
                first.send_signal(signal.SIGSTOP)
                wait_for(lambda: process_state(first.pid) == "T", first)
                left = len(names(folder / "in"))
                need(left > 0, "the first process was done too early")
                before = photo(folder / "store", folder / "in", folder / "out")
                need_status(self.run(folder), DISK)
                need(photo(folder / "store", folder / "in", folder / "out") == before,
                     "the second process touched something")
                first.send_signal(signal.SIGCONT)
                status = first.wait(120)
                need(status == DONE, f"the first process ended with {status}")
            finally:
                first.kill()
                first.wait()
            need(read_files(folder / "out") == files and names(folder / "in") == [], "a file is missing")
            self.delivers(folder, files)
            return f"stopped with {left} of {len(files)} files left"

    def write_is_refused(self, limit, size):
        """The system refuses a write of a file past a size, in the middle of it."""
        with self.folder() as folder:
            files = {f"{n:03}": random.randbytes(size) for n in range(60)}
            write_files(folder / "in", files)

            def limits():
                signal.signal(signal.SIGXFSZ, signal.SIG_IGN)
                resource.setrlimit(resource.RLIMIT_FSIZE, (limit, limit))

            need_status(self.run(folder, limits=limits), DISK)
            none_aside(folder)
            put = read_files(folder / "out")
            left = read_files(folder / "in")
            need(0 < len(put) < len(files), f"{len(put)} files were put")
            need({**put, **left} == files, "a file is neither in out nor in in")
            self.delivers(folder, files)
            return f"{len(put)} files were put before it"

    def claim_is_refused(self):
        return self.write_is_refused(33_333, 2000)

    def entry_is_refused(self):
        return self.write_is_refused(5_555, 10)

    def memory_is_refused(self):
        """Less and less memory: each run ends with 0 or with 12, and nothing is lost."""
        files = {"large": random.randbytes(CONTENT_MAX), "small": b"s"}
        statuses = {}
        for megabytes in (64, 48, 32, 24, 22, 20, 18, 16):
            with self.folder() as folder:
                write_files(folder / "in", files)

                def limits():
                    resource.setrlimit(resource.RLIMIT_AS, (megabytes * 1_000_000,) * 2)

                statuses[megabytes] = status = self.run(folder, limits=limits).status
                need(status in (DONE, MEMORY), f"status {status} with {megabytes} MB")
                none_aside(folder)
                kept = {**read_files(folder / "out"), **dict(waiting(folder)), **read_files(folder / "in")}
                need(kept == files, f"a file is lost with {megabytes} MB")
                self.delivers(folder, files)
        need(MEMORY in statuses.values(), f"no run wants more: {statuses}")
        return ", ".join(f"{megabytes} MB: {status}" for megabytes, status in statuses.items())

    def streams_are_closed(self):
        """Where the standard streams are closed the summary can't be printed, and it doesn't land in a file of ours."""
        with self.folder() as folder:
            write_files(folder / "in", THREE)
            status = subprocess.run(["sh", "-c", 'exec "$0" run <&- >&- 2>&-', self.program],
                                    cwd=folder).returncode
            need(status == SINK, f"status {status}")
            need(read_files(folder / "out") == THREE, "out holds other files")
            self.delivers(folder, THREE)

    # What an earlier stop left.

    def others_aside(self):
        """Whatever has the name of a folder aside and isn't one stays as it is, whoever made it."""
        with self.folder() as folder:
            (folder / "out").mkdir()
            paths = make_foreign_aside(folder / "out")
            before = photo(*paths)
            for round_ in range(2):
                write_files(folder / "in", THREE)
                need_status(self.run(folder), DONE)
                need(photo(*paths) == before, f"run {round_ + 1} changed what isn't its own")
                need(names(folder / "out") == sorted([*THREE, *(path.name for path in paths)]),
                     f"out holds {names(folder / 'out')}")

    def aside_in_use(self):
        """A folder aside of a process that goes on stays, and goes once the process has ended."""
        with self.folder() as folder:
            write_files(folder / "in", THREE)
            leave_aside(folder)
            kept = folder / "out" / ".flow-aside-5"
            with open(kept / MARKER, "rb") as marker:
                fcntl.flock(marker, fcntl.LOCK_EX)
                before = photo(kept)
                need_status(self.run(folder), DONE)
                need(photo(kept) == before, "the folder of another process changed")
                need(names(folder / "out") == sorted([*THREE, kept.name]), f"out holds {names(folder / 'out')}")
            self.delivers(folder, THREE)

    def others_in_aside(self):
        """What somebody put into a folder aside stays, and the folder with it, until it is gone."""
        with self.folder() as folder:
            write_files(folder / "in", THREE)
            leave_aside(folder)
            aside = folder / "out" / ".flow-aside-0"
            write_files(aside, {"mine": b"mine", "part": b"mine too", "part-01": b"and this"})
            for _ in range(2):
                need_status(self.run(folder), DONE)
                need(aside.is_dir(), "the folder is gone")
                need(names(aside) == sorted(["mine", "part", "part-01", MARKER]), f"aside there is {names(aside)}")
                need(names(folder / "out") == sorted([*THREE, aside.name]), f"out holds {names(folder / 'out')}")
            for name in ("mine", "part", "part-01"):
                (aside / name).unlink()
            self.delivers(folder, THREE)

    def aside_is_swept(self):
        with self.folder() as folder:
            write_files(folder / "in", THREE)
            leave_aside(folder)
            self.delivers(folder, THREE)

    def aside_is_swept_at_the_end(self):
        """A run that puts nothing sweeps where it ends with 0. Else it leaves what isn't its own."""
        with self.folder() as folder:
            write_files(folder / "in", THREE)
            self.delivers(folder, THREE)
            leave_aside(folder)
            before = photo(folder / "out")
            (folder / "in").rmdir()
            (folder / "in").write_bytes(b"no folder")
            need_status(self.run(folder), INBOX)
            need(photo(folder / "out") == before, "out changed")
            (folder / "in").unlink()
            write_files(folder / "out", {".flow-aside-7": b"mine"})
            self.delivers(folder, {**THREE, ".flow-aside-7": b"mine"})

    def taken_twice(self):
        """A removal from the inbox that a stop took back: the file is delivered a second time, the same."""
        with self.folder() as folder:
            write_files(folder / "in", {"a": b"one"})
            self.delivers(folder, {"a": b"one"})
            write_files(folder / "in", {"a": b"one"})
            self.delivers(folder, {"a": b"one"})


def leave_aside(folder):
    """Leaves aside in the outbox what a stop may leave."""
    for number in (0, 5):
        (folder / "out" / f".flow-aside-{number}").mkdir(parents=True)
        write_files(folder / "out" / f".flow-aside-{number}", {MARKER: MARK, "part-77": b"half"})


def state_of(folder):
    state = store_reader.state_of(store_reader.files_in(folder / "store"))
    need(not isinstance(state, store_format.Damage), f"the store is damaged: {state}")
    return state


def waiting(folder):
    return state_of(folder).queued()


def claims(folder):
    return store_reader.claims_in(store_reader.files_in(folder / "store"))


def main():
    parser = options(__doc__)
    parser.add_argument("--count", type=int, default=1000, help="how many small files (default 1000)")
    given, seed = parse_seeded(parser)
    cases = Cases(find_program(given.program), given.folder, given.count)
    report = Report()
    print(f"folders: {given.count} small files, seed {seed}", flush=True)
    for text, body in (
            (f"{given.count} files of 1 KiB are delivered, and in is empty", cases.many),
            ("an empty file is delivered", cases.empty_file),
            ("with nothing to do the three folders and a new store are made", cases.no_files),
            ("a file of 16,777,216 bytes is delivered, and one of 16,777,217 stays", cases.largest),
            ("a folder, two links and a pipe stay, and the files beside them are delivered", cases.others_stay),
            ("names that need care are delivered", cases.odd_names),
            ("names that begin with a dot stay, where no filter is given", cases.hidden),
            ("a file of the same name in out is replaced, and another one stays", cases.replaces),
            ("files are taken in the order of their names' bytes", cases.order),
            ("each store has an id of its own", cases.other_ids),
            ("contents share claims, which go at the end", cases.claims_grow),
            ("a second run after status 0 ends with 0 and changes nothing", cases.twice),
            ("other entries in store are left alone", cases.other_entries),
            ("out is a file: 7, the store holds the bytes, and a later run delivers them", cases.out_is_a_file),
            ("a folder stands under the name in out: 7, and later delivered", cases.out_has_a_folder),
            ("store is a file: 5, in untouched", cases.store_is_a_file),
            ("a folder stands under the name of a file of the store: 5, in untouched", cases.log_is_a_folder),
            ("in is a file: 6", cases.in_is_a_file),
            ("a name in in isn't UTF-8: 6, in untouched", cases.name_is_no_text),
            ("flow.json is a pipe, a folder or a device: 8, and not waited for", cases.text_is_no_file),
            ("other words than run: 2, nothing touched", cases.other_words),
            ("other words than run in a new folder: nothing is made", cases.other_words_make_nothing),
            ("a second process gets 5 and touches nothing, and the first ends with 0", cases.second_process),
            ("the system refuses to write a content: 5, nothing lost", cases.claim_is_refused),
            ("the system refuses to write an entry: 5, nothing lost", cases.entry_is_refused),
            ("memory that the system refuses: 12, nothing lost", cases.memory_is_refused),
            ("the standard streams are closed", cases.streams_are_closed),
            ("what a stop left aside in out is swept", cases.aside_is_swept),
            ("a folder aside of another process stays as long as that goes on", cases.aside_in_use),
            ("folders, files and links of such names that aren't ours are untouched", cases.others_aside),
            ("what somebody put into a folder aside stays", cases.others_in_aside),
            ("it is swept at the end of a run that puts nothing, with 0 alone", cases.aside_is_swept_at_the_end),
            ("a file that comes back to in is delivered again", cases.taken_twice)):
        report.case(text, body)
    report.end()


main()
