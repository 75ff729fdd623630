#!/usr/bin/env python3
"""Changes a file of the inbox while a run takes it, and hands in others beside runs.

strace stops a run behind each of its calls on a file in `in`. There the file is renamed over, appended to, cut, replaced
by a link, removed or made such that it can't be removed, or the run is killed. What was handed in is accounted for by its
bytes: a flow delivers each file under a name of its own, so all deliveries can be seen. The last whole version of each
file arrives, at least once; a change that falls between the last reading and the removal is told by status 6; what can't
be removed isn't taken.

A file that was written to lately is waited for, by a listing or a reading; who goes on writing to it keeps it in `in`.

Then versions are handed in by rename beside runs without end, so that each is known to be taken or to be still there; and
writers append to files in `in`, which nobody should: none of those arrives cut but one whose writer paused for as long as
a run waits.
"""

import contextlib
import ctypes
import errno
import json
import os
import random
import re
import shutil
import signal
import subprocess
import threading
import time

from support import (DONE, INBOX, Report, age, find_program, in_memory, names, need, need_status, new_folder, options,
                     parse_seeded, read_files, run, stopped_in, traced, work_folder, write_files)

# Each file gets its identifier as its name.
FLOW = json.dumps({
    "processors": [
        {"id": "get", "type": "GetFile"},
        {"id": "name", "type": "UpdateAttribute", "properties": {"filename": "${uuid}"},
         "terminated": ["failure"]},
        {"id": "put", "type": "PutFile", "properties": {"Conflict Resolution Strategy": "replace"},
         "terminated": ["success", "failure"]},
    ],
    "connections": [
        {"id": "c1", "from": "get", "to": "name", "relationships": ["success"]},
        {"id": "c2", "from": "name", "to": "put", "relationships": ["success"]},
    ],
}).encode()

FIRST, OTHER, MORE, NEWER, LINKED = b"the first bytes", b"another file", b" and more", b"a newer version", b"not in `in`"

# What the file is called while it is aside.
ASIDE = ".flow-taken-0-a"

PATHS = ["in", "in/a", f"in/{ASIDE}"]

AT_FDCWD, NOREPLACE, EXCHANGE = -100, 1, 2

# For how many seconds nobody has to have written to a file before it is taken. The times of files have ticks, of ten
# milliseconds at most.
SETTLE, TICK = 0.2, 0.01


class Stop:
    """A place behind one of a run's calls: the call's name, and the how manieth of that name it is."""

    def __init__(self, line, earlier):
        self.call = re.match(r"(\w+)\(", line).group(1)
        self.when = 1 + sum(other.startswith(f"{self.call}(") for other in earlier)
        self.line = line


class Cases:
    def __init__(self, program, parent, runs, hands, writers):
        self.program = program
        self.parent = in_memory(parent)
        self.disk = parent
        self.runs = runs
        self.hands = hands
        self.writers = writers

    @contextlib.contextmanager
    def folder(self, files=None, on_disk=False):
        with work_folder(self.disk if on_disk else self.parent, FLOW) as folder:
            write_files(folder / "in", {"a": FIRST, "b": OTHER} if files is None else files)
            yield folder

    def stops(self):
        """The calls of a run on the folder, the file `a` and where that is aside."""
        with self.folder() as folder, new_folder() as aside:
            on_paths = [word for path in PATHS for word in ("-P", path)]
            ended = subprocess.run(["strace", "-f", "-qq", *on_paths, "-e", "trace=%file,%desc", "-e", "signal=none",
                                    "-o", aside / "trace", self.program, "run"], cwd=folder, check=False,
                                   stdin=subprocess.DEVNULL, stdout=subprocess.DEVNULL, stderr=subprocess.DEVNULL)
            need(ended.returncode == DONE, f"status {ended.returncode} under strace")
            lines = [line.split(None, 1)[1] for line in (aside / "trace").read_text().splitlines()]
        stops = [Stop(line, lines[:number]) for number, line in enumerate(lines)]
        # Where it was read, where it was set aside, and where it was looked at there.
        self.seen = max(number for number, line in enumerate(lines) if line.startswith("pread64("))
        looked = max(number for number, line in enumerate(lines) if line.startswith('statx(AT_FDCWD, "in/a"'))
        self.looks = sum(line.startswith("statx(") for line in lines[:looked + 1])
        self.probed = next(number for number, line in enumerate(lines) if line.startswith("rmdir("))
        self.aside = next(number for number, line in enumerate(lines) if re.match(rf'rename\w*\(.*"in/{ASIDE}"', line))
        self.judged = next(number for number, line in enumerate(lines)
                           if re.match(rf'statx\(AT_FDCWD, "in/{ASIDE}"', line))
        need(self.probed < self.seen < looked < self.aside < self.judged, f"the calls are {lines}")
        return stops

    def at_each_stop(self, change, judge):
        """Makes a change behind each call, and runs the flow to its end. A handle that was opened before writes."""
        stops = self.stops()
        for number, stop in enumerate(stops):
            with self.folder() as folder, open(folder / "in" / "a", "r+b", buffering=0) as handle:
                (folder / "elsewhere").write_bytes(LINKED)
                status, _ = stopped_in(self.program, folder, PATHS, stop.call, stop.when,
                                       lambda folder, handle=handle: change(folder, handle))
                need(status in (DONE, INBOX), f"behind {stop.line}: status {status}")
                after = delivered(folder)
                self.to_the_end(folder)
                judge(number, f"behind {stop.line}", status, after, folder)
                need(OTHER in delivered(folder), f"behind {stop.line}: the other file isn't delivered")
        return f"{len(stops)} places"

    def to_the_end(self, folder, runs=3):
        """Runs until nothing is left to take. What was set aside may have to wait for its name."""
        for _ in range(runs):
            ended = run(self.program, folder)
            need(ended.status == DONE, f"a later run ends with {ended.status}")
            left = sorted(read_files(folder / "in"))
            if not left:
                return
        need(not left, f"in keeps {left}")

    def told(self, number, status, until, place):
        # Before the reading the run may see the file as it is then.
        if self.seen < number < until:
            need(status == INBOX, f"{place}: the change isn't told, status {status}")

    def appended(self):
        def change(_, handle):
            os.lseek(handle.fileno(), 0, os.SEEK_END)
            handle.write(MORE)

        def judge(number, place, status, _, folder):
            self.told(number, status, self.judged, place)
            # Whoever writes to a file that was removed writes to nothing.
            if number < self.judged:
                need(FIRST + MORE in delivered(folder), f"{place}: {delivered(folder)} were delivered")
        return self.at_each_stop(change, judge)

    def cut(self):
        def judge(number, place, status, _, folder):
            self.told(number, status, self.judged, place)
            if number < self.judged:
                need(FIRST[:3] in delivered(folder), f"{place}: {delivered(folder)} were delivered")
        return self.at_each_stop(lambda _, handle: handle.truncate(3), judge)

    def written_over(self):
        def judge(number, place, status, _, folder):
            self.told(number, status, self.judged, place)
            if number < self.judged:
                need(b"THE" + FIRST[3:] in delivered(folder), f"{place}: {delivered(folder)} were delivered")
        return self.at_each_stop(lambda _, handle: handle.write(b"THE"), judge)

    def renamed_over(self):
        def judge(number, place, status, _, folder):
            self.told(number, status, self.aside, place)
            need(NEWER in delivered(folder), f"{place}: {delivered(folder)} were delivered")
        return self.at_each_stop(lambda folder, _: hand_in(folder, NEWER), judge)

    def linked(self):
        def change(folder, _):
            with contextlib.suppress(FileNotFoundError):
                os.rename(folder / "in" / "a", folder / "moved")
            os.symlink("../elsewhere", folder / "in" / "a")

        def judge(number, place, status, _, folder):
            self.told(number, status, self.aside, place)
            need(os.path.islink(folder / "in" / "a"), f"{place}: in holds {names(folder / 'in')}")
            need(LINKED not in delivered(folder), f"{place}: what the link leads to was delivered")
            moved = (folder / "moved").read_bytes() if (folder / "moved").exists() else None
            need(moved == FIRST or FIRST in delivered(folder), f"{place}: the first bytes are lost")
        return self.at_each_stop(change, judge)

    def removed(self):
        def change(folder, _):
            with contextlib.suppress(FileNotFoundError):
                os.unlink(folder / "in" / "a")

        return self.at_each_stop(change, lambda number, place, status, _, folder:
                                 self.told(number, status, self.aside, place))

    def made_unremovable(self):
        """It is taken once at most until it can be removed, and then it goes."""
        if not can_be_kept(self.parent):
            return "left out: chattr +i isn't to be had here"
        stops = self.stops()
        for number, stop in enumerate(stops):
            if number > self.judged:
                break
            with self.folder({"a": FIRST}) as folder:
                kept = []

                def keep(folder, kept=kept):
                    kept.extend(name for name in ("a", ASIDE) if (folder / "in" / name).exists())
                    chattr("+i", folder / "in" / kept[0])
                try:
                    status, _ = stopped_in(self.program, folder, PATHS, stop.call, stop.when, keep)
                    for _ in range(3):
                        need(status == INBOX, f"behind {stop.line}: status {status}")
                        # The store may have it by then. Nothing goes on as long as each run ends so.
                        need(delivered(folder) == [], f"behind {stop.line}: {delivered(folder)} were delivered")
                        status = run(self.program, folder).status
                finally:
                    for name in kept:
                        chattr("-i", folder / "in" / name)
                self.to_the_end(folder)
                most = 2 if number >= self.probed else 1
                need(1 <= len(delivered(folder)) <= most, f"behind {stop.line}: {delivered(folder)} were delivered")
        return f"{number} places"

    def never_removable(self):
        """Many runs over a file that can be read and not removed deliver nothing of it."""
        ways = 0
        for name, keep, free in (
                ("chattr +i", lambda folder: chattr("+i", folder / "in" / "a"),
                 lambda folder: chattr("-i", folder / "in" / "a")),
                ("a folder that may not be written to", lambda folder: os.chmod(folder / "in", 0o555),
                 lambda folder: os.chmod(folder / "in", 0o777)),
                ("somebody's file in a sticky folder", lambda folder: os.chmod(folder / "in", 0o1777),
                 lambda folder: os.chmod(folder / "in", 0o777))):
            as_user = name != "chattr +i"
            if not (os.geteuid() == 0 if as_user else can_be_kept(self.parent)):
                continue
            ways += 1
            with self.folder({"a": FIRST}) as folder:
                if as_user:
                    os.chmod(folder, 0o777)
                keep(folder)
                try:
                    for _ in range(self.runs):
                        status = self.run_as(folder, as_user)
                        need(status == INBOX, f"{name}: status {status}")
                        need(not (folder / "out").exists() or not delivered(folder), f"{name}: it was delivered")
                finally:
                    free(folder)
                need(self.run_as(folder, as_user) == DONE, f"{name}: the last run doesn't end with 0")
                need(delivered(folder) == [FIRST] and names(folder / "in") == [], f"{name}: it isn't delivered once")
        return f"{ways} ways, {self.runs} runs each"

    def run_as(self, folder, as_user):
        """The status of a run, as a user who owns nothing here where that is asked."""
        who = {"user": 65534, "group": 65534, "extra_groups": []} if as_user else {}
        return subprocess.run([self.program, "run"], cwd=folder, check=False, stdin=subprocess.DEVNULL,
                              stdout=subprocess.DEVNULL, stderr=subprocess.DEVNULL, **who).returncode

    def killed(self):
        """Killed behind each call on it: it arrives, at most twice, and nothing stays in `in`."""
        stops = self.stops()
        for stop in stops:
            with self.folder() as folder:
                status, _ = stopped_in(self.program, folder, PATHS, stop.call, stop.when, lambda folder: None,
                                       signal.SIGKILL)
                need(status == -signal.SIGKILL, f"behind {stop.line}: status {status}")
                self.to_the_end(folder)
                count = delivered(folder).count(FIRST)
                need(1 <= count <= 2, f"behind {stop.line}: it was delivered {count} times")
        return f"{len(stops)} places"

    # A file that changed, and gets its name back.

    def put_back(self, more=(), change=lambda folder: None):
        """A file is appended to behind its last look, and a rule of strace's meets the calls that give it its name
        back. The status, and the folder behind three more runs."""
        def append(folder):
            with open(folder / "in" / "a", "ab") as file:
                file.write(MORE)
            change(folder)

        with self.folder() as folder:
            status, _ = stopped_in(self.program, folder, PATHS, "statx", self.looks, append,
                                   more=["-e", "trace=link,linkat,rename,renameat,renameat2,unlink,unlinkat,statx,fsync",
                                         *more])
            left = read_files(folder / "in")
            self.to_the_end(folder)
            got = delivered(folder)
            need(FIRST + MORE in got and OTHER in got, f"{more}: {got} were delivered")
            return status, left

    def given_back(self):
        need(self.put_back() == (INBOX, {"a": FIRST + MORE, "b": OTHER}), "it isn't left under its name")

    def given_back_without_links(self):
        found = self.put_back(["-e", "inject=link,linkat:error=EPERM"])
        need(found == (INBOX, {"a": FIRST + MORE, "b": OTHER}), f"status and in: {found}")

    def killed_while_given_back(self):
        # Each is killed before it is made.
        for call, left in (("rename", {"a"}), ("link", {ASIDE}), ("fsync", {"a", ASIDE}), ("unlink", {"a", ASIDE})):
            status, found = self.put_back(["-e", f"inject={call}:signal=SIGKILL:when=1"])
            need(status == -signal.SIGKILL, f"{call}: status {status}")
            need(set(found) == left | {"b"}, f"{call}: in holds {sorted(found)}")

    def refused_while_given_back(self):
        for call in ("link", "fsync", "unlink"):
            status, _ = self.put_back(["-e", f"inject={call}:error=EIO:when=1"])
            need(status == INBOX, f"{call}: status {status}")

    def waits_for_its_name(self):
        """Another file came under its name while it was aside: both stay, and are delivered one behind the other."""
        with self.folder() as folder, open(folder / "in" / "a", "ab", buffering=0) as handle:
            def change(folder):
                handle.write(MORE)
                hand_in(folder, NEWER)

            self.stops()
            status, _ = stopped_in(self.program, folder, PATHS, "rename", 1, change)
            need(status == INBOX, f"status {status}")
            found = read_files(folder / "in")
            need(found == {"a": NEWER, ASIDE: FIRST + MORE, "b": OTHER}, f"in holds {found}")
            need(run(self.program, folder).status == DONE, "the next run doesn't end with 0")
            need(read_files(folder / "in") == {ASIDE: FIRST + MORE}, f"in holds {names(folder / 'in')}")
            self.to_the_end(folder, 1)
            got = delivered(folder)
            need(sorted(got) == sorted([FIRST, NEWER, OTHER, FIRST + MORE]), f"{got} were delivered")

    def refused_removal(self):
        """Each call that removes it is refused alone: 6, and the next run takes it again."""
        for call in ("rename", "unlink"):
            with self.folder({"a": FIRST}) as folder, new_folder() as aside:
                ended = subprocess.run(["strace", "-f", "-qq", "-P", "in/a", "-P", f"in/{ASIDE}", "-e", f"trace={call}",
                                        "-e", f"inject={call}:error=EIO:when=1", "-o", aside / "trace", self.program, "run"],
                                       cwd=folder, check=False, stdin=subprocess.DEVNULL, stdout=subprocess.DEVNULL,
                                       stderr=subprocess.DEVNULL)
                need(ended.returncode == INBOX, f"{call}: status {ended.returncode}")
                need(read_files(folder / "in") == {"a": FIRST}, f"{call}: in holds {names(folder / 'in')}")
                self.to_the_end(folder)
                need(delivered(folder) == [FIRST, FIRST], f"{call}: {delivered(folder)} were delivered")

    def refused_reading(self):
        """A reading that is refused isn't tried again."""
        with self.folder({"a": FIRST}) as folder, new_folder() as aside:
            ended = subprocess.run(["strace", "-f", "-qq", "-P", "in/a", "-e", "trace=pread64", "-e",
                                    "inject=pread64:error=EIO:when=1", "-o", aside / "trace", self.program,
                                    "run"], cwd=folder, check=False, stdin=subprocess.DEVNULL,
                                   stdout=subprocess.DEVNULL, stderr=subprocess.DEVNULL)
            need(ended.returncode == INBOX, f"status {ended.returncode}")
            count = (aside / "trace").read_text().count("pread64(")
            need(count == 1, f"{count} reads")
            need(delivered(folder) == [] and names(folder / "in") == ["a"], "something was done")

    def long_names(self):
        """A name that has no room for what is set before it is removed where it stands."""
        for length in (241, 242, 255):
            name = "x" * length
            with self.folder({name: FIRST}) as folder:
                self.to_the_end(folder, 1)
                need(delivered(folder) == [FIRST], f"{length} bytes: {delivered(folder)} were delivered")
            with self.folder({name: FIRST}) as folder:
                def append(folder, name=name):
                    with open(folder / "in" / name, "ab") as file:
                        file.write(MORE)
                status, _ = stopped_in(self.program, folder, f"in/{name}", "statx", 3, append)
                need(status == INBOX, f"{length} bytes: status {status}")
                need(read_files(folder / "in") == {name: FIRST + MORE}, f"{length} bytes: in holds {names(folder / 'in')}")
                self.to_the_end(folder)
                need(delivered(folder).count(FIRST + MORE) == 1, f"{length} bytes: it isn't delivered whole")

    def names_aside(self):
        """What is named as a file aside gets its name back; what is nearly named so stays, and so does a folder."""
        near = [".flow-taken-", ".flow-taken-0", ".flow-taken-0-", ".flow-taken-00-c", ".flow-taken-10-c", ".flow-taken--c",
                ".flow-taken-x-c", ".flow-taken-0-.."]
        with self.folder({ASIDE: NEWER, "a": FIRST, ".flow-taken-7-c-d": OTHER, **{name: name.encode() for name in near}}
                         ) as folder:
            (folder / "in" / ".flow-taken-0-d").mkdir()
            need(run(self.program, folder).status == DONE, "the run doesn't end with 0")
            need(sorted(delivered(folder)) == sorted([FIRST, OTHER]), f"{delivered(folder)} were delivered")
            need(names(folder / "in") == sorted([*near, ASIDE, ".flow-taken-0-d"]), f"in holds {names(folder / 'in')}")
            need(run(self.program, folder).status == DONE, "the next run doesn't end with 0")
            need(NEWER in delivered(folder), "what waited isn't delivered")
            need(names(folder / "in") == sorted([*near, ".flow-taken-0-d"]), f"in holds {names(folder / 'in')}")

    # Files that were written to lately.

    def sleeps(self, prepare, wanted):
        """How often a run sleeps, with what is made of `in` once that was opened for the listing."""
        with self.folder() as folder:
            status, calls = stopped_in(self.program, folder, None, "openat", self.opened,
                                       lambda folder: prepare(folder / "in"),
                                       more=["-e", "trace=openat,nanosleep,clock_nanosleep"])
            need(status == DONE, f"status {status}")
            need(sorted(delivered(folder)) == sorted(wanted), f"{delivered(folder)} were delivered")
            return sum(call.endswith("nanosleep") for call in calls)

    def lets_settle(self):
        """A run waits once, for all files that were just written, and takes them. It waits for no other file."""
        def write_three(inbox):
            for name in ("a", "c", "d"):
                (inbox / name).write_bytes(MORE)

        def hand_in_three(inbox):
            write_three(inbox.parent)
            time.sleep(4 * TICK)
            for name in ("a", "c", "d"):
                os.rename(inbox.parent / name, inbox / name)

        def date_in_the_future(inbox):
            write_three(inbox)
            for name in ("a", "c", "d"):
                os.utime(inbox / name, (time.time() + 3600, time.time() + 3600))

        with self.folder() as folder:
            opened = re.findall(r'openat\([^"]*"([^"]*?)/?"', traced(self.program, folder, "openat")[2])
            self.opened = 1 + opened.index("in")
        three = [MORE, MORE, MORE, OTHER]
        for name, prepare, wanted, sleeps in (
                ("old files", lambda inbox: None, [FIRST, OTHER], 0), ("files just written", write_three, three, 1),
                ("files handed in by a rename", hand_in_three, three, 0),
                ("files dated in the future", date_in_the_future, three, 0)):
            found = self.sleeps(prepare, wanted)
            need(found == sleeps, f"for {name} a run sleeps {found} times")

    def stays_while_it_is_written(self):
        """A run leaves a file that is being written, and takes what is old; the next one waits for its end."""
        with self.folder() as folder:
            with written_on(folder / "in" / "a"):
                ended = run(self.program, folder)
                need_status(ended, DONE)
                need(delivered(folder) == [OTHER], f"{delivered(folder)} were delivered")
                need(b"\ninbox 0\n" in ended.said, f"it said {ended.said!r}")
            whole = (folder / "in" / "a").read_bytes()
            need(run(self.program, folder).status == DONE, "the next run doesn't end with 0")
            need(sorted(delivered(folder)) == sorted([OTHER, whole]), "the next run doesn't deliver it whole")

    def written_behind_the_listing(self):
        """Who begins to write to a file behind the look of a run's listing, or behind its reading, is found by the next
        look: 6, nothing taken of it."""
        for call in ("statx", "pread64"):
            with self.folder() as folder, contextlib.ExitStack() as writing:
                status, _ = stopped_in(self.program, folder, "in/a", call, 1,
                                       lambda folder, writing=writing: writing.enter_context(
                                           written_on(folder / "in" / "a")))
                need(status == INBOX and FIRST not in [each[:len(FIRST)] for each in delivered(folder)],
                     f"{call}: status {status}, {delivered(folder)} were delivered")
                writing.close()
                whole = (folder / "in" / "a").read_bytes()
                self.to_the_end(folder, 1)
                need(sorted(delivered(folder)) == sorted([OTHER, whole]), f"{call}: it isn't delivered whole, and once")

    # Beside runs without end.

    @contextlib.contextmanager
    def runs_beside(self, folder):
        """Runs the flow again and again. The statuses are 0 and 6."""
        ending, found = threading.Event(), []

        def again():
            while not ending.is_set():
                found.append(run_quietly(self.program, folder))

        beside = threading.Thread(target=again)
        beside.start()
        try:
            yield found
        finally:
            ending.set()
            beside.join()
        need(set(found) <= {DONE, INBOX}, f"runs ended with {set(found)}")

    def handed_over(self):
        """Each version takes the place of what stands under the name, and that comes back to who hands it in. So a version
        is back there or it was taken, and what was taken is delivered."""
        with self.folder({}, on_disk=True) as folder:
            (folder / "hand").mkdir()
            back = set()
            with self.runs_beside(folder) as found:
                for number in range(self.hands):
                    version = f"version {number} ".encode() * random.choice((1, 40, 4000))
                    replaced = exchange_in(folder, version)
                    if replaced is not None:
                        back.add(replaced)
                    wait_until(lambda: not (folder / "in" / "a").exists(), random.random() * 0.2)
            self.to_the_end(folder)
            got = {int(bytes_.split()[1]) for bytes_ in delivered(folder)}
            whole = all(bytes_ == f"version {bytes_.split()[1].decode()} ".encode() * (len(bytes_)
                        // len(f"version {bytes_.split()[1].decode()} ")) for bytes_ in delivered(folder))
            need(whole, "a version is cut")
            lost = set(range(self.hands)) - got - {int(bytes_.split()[1]) for bytes_ in back}
            need(not lost, f"versions {sorted(lost)} are lost")
            return (f"{self.hands} handed in, {len(delivered(folder))} deliveries, {len(back)} came back; "
                    f"{len(found)} runs, {found.count(INBOX)} with 6")

    def written_beside(self):
        """Writers append to files in `in` for a second each. None arrives cut but one whose writer paused for so long."""
        with self.folder({}, on_disk=True) as folder:
            texts, pauses = {}, {}
            with self.runs_beside(folder) as found:
                for first in range(0, self.writers, 10):
                    threads = [threading.Thread(target=append_for_a_second, args=(folder, number, texts, pauses))
                               for number in range(first, min(first + 10, self.writers))]
                    for thread in threads:
                        thread.start()
                    for thread in threads:
                        thread.join()
            self.to_the_end(folder)
            got = set(delivered(folder))
            cut = [number for number, text in texts.items() if text not in got]
            strange = [bytes_ for bytes_ in got if not any(text.startswith(bytes_) for text in texts.values())]
            need(not strange, f"{len(strange)} deliveries are no beginning of a file")
            steady = [number for number in cut if pauses[number] < SETTLE - TICK]
            need(not steady, f"{len(cut)} of {len(texts)} arrived cut, {len(steady)} of them with no pause")
            paused = sum(pause >= SETTLE - TICK for pause in pauses.values())
            return (f"{len(texts)} writers, {paused} of which paused: {len(texts) - len(cut)} arrived whole, {len(cut)} cut; "
                    f"{len(found)} runs, {found.count(INBOX)} with 6")


def run_quietly(program, folder):
    return subprocess.run([program, "run"], cwd=folder, check=False, stdin=subprocess.DEVNULL, stdout=subprocess.DEVNULL,
                          stderr=subprocess.DEVNULL).returncode


def wait_until(holds, seconds):
    """Waits until something holds, and so long at most."""
    end = time.monotonic() + seconds
    while not holds() and time.monotonic() < end:
        time.sleep(0.001)


def append_for_a_second(folder, number, texts, pauses):
    """Notes what it wrote, and for how long it paused at most: from before one write to behind the next."""
    text, longest = b"", 0.0
    last = time.monotonic()
    end = last + 1
    with open(folder / "in" / f"w{number}", "ab", buffering=0) as file:
        while last < end:
            piece = f"{number}: a piece of it\n".encode()
            begun = time.monotonic()
            file.write(piece)
            text += piece
            longest, last = max(longest, time.monotonic() - last), begun
            time.sleep(random.choice((0.001, 0.01, 0.03)))
    texts[number], pauses[number] = text, longest


@contextlib.contextmanager
def written_on(path):
    """Appends to a file in short steps. The first piece is written before this goes on."""
    ending, begun = threading.Event(), threading.Event()

    def append():
        with open(path, "ab", buffering=0) as file:
            while not ending.is_set():
                file.write(MORE)
                begun.set()
                time.sleep(0.005)

    writer = threading.Thread(target=append)
    writer.start()
    begun.wait()
    try:
        yield
    finally:
        ending.set()
        writer.join()


def delivered(folder):
    """The bytes of each delivery."""
    return list(read_files(folder / "out").values())


def hand_in(folder, bytes_):
    (folder / "new").write_bytes(bytes_)
    os.rename(folder / "new", folder / "in" / "a")


def exchange_in(folder, bytes_):
    """Hands in a file under a name, and gives the bytes of what stood there, if anything did."""
    path, name = folder / "hand" / "new", folder / "in" / "a"
    path.write_bytes(bytes_)
    age(path)
    while True:
        if rename(path, name, EXCHANGE):
            replaced = path.read_bytes()
            path.unlink()
            return replaced
        if rename(path, name, NOREPLACE):
            return None


def rename(path, name, how):
    """Whether a rename of this kind was made. Where a name isn't there, or is, it isn't."""
    libc = ctypes.CDLL(None, use_errno=True)
    if libc.renameat2(AT_FDCWD, os.fsencode(path), AT_FDCWD, os.fsencode(name), how) == 0:
        return True
    failed = ctypes.get_errno()
    need(failed in (errno.ENOENT, errno.EEXIST), f"renameat2: {os.strerror(failed)}")
    return False


def chattr(how, path):
    subprocess.run(["chattr", how, path], check=True, stdout=subprocess.DEVNULL, stderr=subprocess.DEVNULL)


def can_be_kept(parent):
    """Whether chattr +i works for us there."""
    if shutil.which("chattr") is None:
        return False
    with new_folder(parent) as folder:
        write_files(folder, {"a": b""})
        try:
            chattr("+i", folder / "a")
            chattr("-i", folder / "a")
        except subprocess.CalledProcessError:
            return False
    return True


def main():
    parser = options(__doc__)
    parser.add_argument("--runs", type=int, default=30, help="how many runs meet a file that can't be removed")
    parser.add_argument("--hands", type=int, default=500, help="how many versions are handed in beside runs")
    parser.add_argument("--writers", type=int, default=500, help="how many files are written beside runs")
    parser.add_argument("--only", default="", help="only the cases whose lines have these words")
    given, seed = parse_seeded(parser)
    print(f"seed {seed}")
    cases = Cases(find_program(given.program), given.folder, given.runs, given.hands, given.writers)
    report = Report()
    for text, body in (
            ("appended to behind each call: whole in the end, and told", cases.appended),
            ("cut behind each call", cases.cut),
            ("written over behind each call", cases.written_over),
            ("renamed over behind each call: the newer one arrives", cases.renamed_over),
            ("replaced by a link behind each call: that stays, and isn't followed", cases.linked),
            ("removed behind each call", cases.removed),
            ("made unremovable behind each call: taken once at most until it can be removed", cases.made_unremovable),
            ("many runs over what can't be removed deliver nothing", cases.never_removable),
            ("killed behind each call", cases.killed),
            ("a file that changed gets its name back: 6", cases.given_back),
            ("the same where the system makes no links", cases.given_back_without_links),
            ("killed while it gets its name back", cases.killed_while_given_back),
            ("refused while it gets its name back", cases.refused_while_given_back),
            ("another file has its name: it waits", cases.waits_for_its_name),
            ("its removal is refused: 6, and taken again", cases.refused_removal),
            ("a reading is refused once: 6, and it isn't tried again", cases.refused_reading),
            ("the longest names", cases.long_names),
            ("names like those of files aside", cases.names_aside),
            ("just written: a run waits for all of them once, and for no other file", cases.lets_settle),
            ("being written: it stays, and the next run takes it whole", cases.stays_while_it_is_written),
            ("written to from behind the listing, or the reading: 6, nothing taken", cases.written_behind_the_listing),
            ("handed over by rename beside runs: each version is accounted for", cases.handed_over),
            ("written to beside runs", cases.written_beside)):
        if given.only in text:
            report.case(text, body)
    report.end()


main()
