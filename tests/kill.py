#!/usr/bin/env python3
"""Kills the built program at random moments over many files, and starts it again until it ends with 0.

After each kill the store's files stand for a state, and each file is in the inbox, whole in `out`, or in the store
with its bytes; besides, `out` has one folder aside at most. At the end every file's bytes have to be in `out` and
nothing else, `in` and the store have to be empty, no claim may be left, and no start may end with a status but 0: the
store opens every time. That is done in new folders until there were so many kills. Two flows that put into one outbox
are killed so too, each of them alone or both at once: none may end with a status but 0, and what others have there under
the names of folders aside stays as it is. A kill ends the process and not the machine, so this tries the order of the
program's steps, and not what a power cut leaves of pending writes.
"""

import random
import statistics
import time

import store_format
import store_reader
from support import (DONE, MARKER, Report, find_program, make_foreign_aside, names, need, options, parse_seeded, photo,
                     read_files, run_for, start, unmarked_aside, work_folder, write_files)

LARGEST = 200_000


def sizes(count):
    """A few small and empty files, one that fills a claim, and most of any size up to the largest."""
    few = [0, 0, 1, 4095, 4096, 4097, store_format.CLAIM_OPEN]
    return [few[n] if n < len(few) else random.randint(0, LARGEST) for n in range(count)]


def held(folder):
    """The state of the store's files."""
    state = store_reader.state_of(store_reader.files_in(folder / "store"))
    need(not isinstance(state, store_format.Damage), f"the store is damaged: {state}")
    untold = store_reader.untold(state)
    need(not untold, f"the events don't tell of the files {untold[:5]}")
    return state


def none_is_lost(folder, files):
    """After a stop each file is in the inbox, or whole in the outbox, or waits in the store with its bytes."""
    waits = dict(held(folder).queued())
    need(all(files.get(name) == content for name, content in waits.items()), "the store holds other bytes than sent")
    left = set(names(folder / "in"))
    put = set(names(folder / "out")) if (folder / "out").exists() else set()
    missing = set(files) - left - put - set(waits)
    need(not missing, f"lost after a stop: {sorted(missing)[:5]}")
    unmarked = unmarked_aside(folder / "out")
    need(all(names(folder / "out" / name) in ([], [MARKER]) for name in unmarked), "there is an unmarked folder in use")
    aside = sorted(put - set(files) - set(unmarked))
    need(len(aside) <= 1, f"besides files out holds {aside}")
    parts = [part for part in names(folder / "out" / aside[0]) if part != MARKER] if aside else []
    need(not parts or len(parts) == 1 and parts[0].startswith("part-"), f"aside there is {parts}")


class Rounds:
    """Kills, counted over all folders, with how long each run had."""

    def __init__(self, program, parent, count, files, pause):
        self.program, self.parent, self.count, self.files, self.pause = program, parent, count, files, pause
        self.had = []
        self.rounds = 0

    def drive(self, folder, files):
        """Starts and kills until a run ends by itself."""
        most, stuck, before = self.pause, 0, len(files)
        while True:
            seconds = random.uniform(0, most)
            status = run_for(self.program, folder, seconds)
            if status is not None:
                need(status == DONE, f"a start after {len(self.had)} kills ended with status {status}")
                return
            self.had.append(seconds)
            none_is_lost(folder, files)
            # The log grows, and with it the time that a start needs before it goes on.
            left = len(names(folder / "in"))
            stuck = stuck + 1 if left == before else 0
            before = left
            if stuck == 10:
                most, stuck = most * 1.5, 0

    def one(self):
        with work_folder(self.parent) as folder:
            files = {f"file-{n:05}": random.randbytes(size) for n, size in enumerate(sizes(self.files))}
            write_files(folder / "in", files)
            self.drive(folder, files)
            need(names(folder / "in") == [], f"in holds {names(folder / 'in')[:5]}")
            need(names(folder / "out") == sorted([*files, *unmarked_aside(folder / "out")]),
                 "out holds other names than were sent, or leftovers")
            need(read_files(folder / "out") == files, "a file of out has other bytes than were sent")
            need(names(folder / "store") == ["events-0", "lock", "log-1", "snapshot-1"],
                 f"store holds {names(folder / 'store')}")
            need(not held(folder).files, "a file still waits")
        self.rounds += 1

    def all(self):
        start = time.monotonic()
        while len(self.had) < self.count:
            before = len(self.had)
            self.one()
            if len(self.had) == before:
                # The runs are faster than the kills.
                self.pause /= 2
                need(self.pause > 1e-4, "no run was killed")
        return (f"{len(self.had)} kills in {self.rounds} folders of {self.files} files, killed after "
                f"{statistics.median(self.had) * 1000:.0f} ms (median), all in {time.monotonic() - start:.0f} s")


class Pairs:
    """Two flows with stores of their own and one outbox, run at once."""

    def __init__(self, program, parent, count, files):
        self.program, self.parent, self.count, self.files = program, parent, count, files
        self.kills = 0

    def one(self, kills, foreign):
        with work_folder(self.parent) as first, work_folder(self.parent) as second:
            (first / "out").mkdir()
            (second / "out").symlink_to(first / "out")
            foreign = make_foreign_aside(first / "out") if foreign else []
            before = photo(*foreign)
            files = {}
            for folder, letter in ((first, "a"), (second, "b")):
                own = {f"{letter}-{n:04}": random.randbytes(random.randint(0, 5000)) for n in range(self.files)}
                write_files(folder / "in", own)
                files |= own
            waits = [first, second]
            while waits:
                children = [(folder, start(self.program, folder)) for folder in waits]
                for _, child in random.sample(children, len(children)) if kills else ():
                    time.sleep(random.uniform(0, 0.05))
                    child.kill()
                ended = [(folder, child.wait()) for folder, child in children]
                need(all(status in (DONE, -9) for _, status in ended), f"the flows ended with {ended}")
                self.kills += sum(status != DONE for _, status in ended)
                kills = kills - 1 if kills else 0
                waits = [folder for folder, status in ended if status != DONE]
            need(names(first / "in") == [] and names(second / "in") == [], "a file is left")
            need(photo(*foreign) == before, "what isn't a run's was touched")
            others = {path.name for path in foreign}
            besides = set(names(first / "out")) - set(files) - others - set(unmarked_aside(first / "out"))
            need(not besides, f"out holds {sorted(besides)} besides")
            put = {name: content for name, content in read_files(first / "out").items() if name not in others}
            need(put == files, "a file of out has other bytes than were sent, or is missing")

    def all(self):
        for number in range(self.count):
            self.one(random.randint(0, 6), number % 2 == 0)
        return f"{self.count} pairs, {self.kills} kills; beside others' folders of such names: {(self.count + 1) // 2}"


def main():
    parser = options(__doc__)
    parser.add_argument("--pairs", type=int, default=50, help="how many pairs of flows into one outbox (default 50)")
    parser.add_argument("--count", type=int, default=1000, help="how many kills, at least (default 1000)")
    parser.add_argument("--files", type=int, default=200, help="how many files in each folder (default 200)")
    parser.add_argument("--pause", type=float, default=0.05,
                        help="the longest time before a kill, in seconds (default 0.05); it grows where "
                             "a run needs longer to go on")
    given, seed = parse_seeded(parser)
    print(f"kill: seed {seed}", flush=True)
    report = Report()
    rounds = Rounds(find_program(given.program), given.folder, given.count, given.files, given.pause)
    report.case("killed at random moments, every file arrives, and the store opens every time", rounds.all)
    pairs = Pairs(find_program(given.program), given.folder, given.pairs, given.files)
    report.case("two flows put into one outbox at once, and are killed: every file arrives", pairs.all)
    report.end()


main()
