#!/usr/bin/env python3
"""Tries checkpoints over real folders: a run whose log is begun anew, and such runs killed at random moments.

A generator makes files that a put delivers, two entries for each. Where the log has 4,096 entries the program writes
a snapshot and begins the next log, so the store's files stay small however many entries there were; its events grow.
After each kill the store stands for a state, by the format alone, with no more entries in its log than that, and at
the end each file was delivered.
"""

import random
import subprocess
import time

import store_format
import store_reader
from flow_texts import flow, generator, let_go, queue, state_of
from store_format import CREATE, DROP, SEND
from support import (DONE, Report, find_program, in_memory, names, need, need_status, options, parse_seeded, read_files,
                     run, start, work_folder)

# With so many entries in its log the program begins the next one.
ENTRIES = 4096


def text_of(count):
    return flow([generator("gen", count, "file ${generate.index}"), let_go("put", "replace")],
                [queue("made", "gen", "put")])


def size_of(folder, *kinds):
    return sum(len(content) for name, content in store_reader.files_in(folder / "store").items()
               if name.partition("-")[0] in kinds)


class Cases:
    def __init__(self, program, parent, files, count):
        self.program, self.parent, self.files, self.count = program, parent, files, count
        # A first guess of how long a run takes; it follows what is seen.
        self.seconds = 1.0

    def delivered(self, folder):
        """All files were made once and delivered, and the store tells so."""
        state = state_of(folder)
        wanted = {store_format.uuid_of(state.store, number): f"file {number}".encode()
                  for number in range(1, self.files + 1)}
        need(read_files(folder / "out") == wanted, "out holds other files than were made")
        need(not state.files and state.counts == (self.files, 0), f"it keeps {len(state.files)} files, {state.counts}")
        kinds = {kind: sum(event.kind == kind for event in state.events) for kind in (CREATE, SEND, DROP)}
        need(kinds == {CREATE: self.files, SEND: self.files, DROP: self.files}, f"the events tell {kinds}")
        return state

    def begins_anew(self):
        """One run: its current log follows from the entries, and earlier logs and snapshots are gone."""
        with work_folder(self.parent, text_of(self.files)) as folder:
            began = time.monotonic()
            need_status(run(self.program, folder), DONE)
            self.seconds = time.monotonic() - began
            state = self.delivered(folder)
            made, rest = divmod(2 * self.files, ENTRIES)
            need((state.log, len(state.entries)) == (made + 1, rest),
                 f"log {state.log} has {len(state.entries)} entries behind {made} checkpoints")
            kept = [name for name in names(folder / "store") if not name.startswith("events-")]
            need(kept == ["lock", f"log-{made + 1}", f"snapshot-{made + 1}"], f"store holds {kept}")
            return (f"{2 * self.files} entries, {made} checkpoints: log and snapshot "
                    f"{size_of(folder, 'log', 'snapshot')} bytes, events {size_of(folder, 'events')} bytes")

    def killed(self):
        """Runs that are killed again and again: nothing is lost, and no log grows past its limit."""
        kills, rounds, largest, last = 0, 0, 0, 0
        while kills < self.count or last < 2:
            need(rounds < 1000, "no kill came behind a checkpoint")
            before = kills
            with work_folder(self.parent, text_of(self.files)) as folder:
                while self.is_killed(folder):
                    kills += 1
                    state = state_of(folder)
                    need(len(state.entries) <= ENTRIES, f"log {state.log} has {len(state.entries)} entries")
                    # A store that isn't made yet has no log.
                    last = max(last, state.log or 0)
                    largest = max(largest, size_of(folder, "log", "snapshot", "claim"))
                self.delivered(folder)
            rounds += 1
            # Some kills for each folder: the first run may have been slower or faster than these.
            self.seconds *= 0.7 if kills - before < 3 else 1.3 if kills - before > 40 else 1
        return (f"{kills} kills in {rounds} folders of {self.files} files, behind logs up to {last}; logs, "
                f"snapshots and claims had at most {largest} bytes")

    def is_killed(self, folder):
        child = start(self.program, folder)
        try:
            status = child.wait(timeout=random.uniform(0, self.seconds / 2))
        except subprocess.TimeoutExpired:
            child.kill()
            child.wait()
            return True
        need(status == DONE, f"a run ended with {status}")
        return False


def main():
    parser = options(__doc__)
    parser.add_argument("--files", type=int, default=20_000, help="how many files a run makes (default 20,000)")
    parser.add_argument("--count", type=int, default=500, help="how many kills, at least (default 500)")
    given, seed = parse_seeded(parser)
    # What a disk leaves is nothing here.
    cases = Cases(find_program(given.program), in_memory(given.folder), given.files, given.count)
    print(f"checkpoints: {given.files} files, {given.count} kills, seed {seed}", flush=True)
    report = Report()
    report.case("the log is begun anew, and the earlier one goes", cases.begins_anew)
    report.case("killed at random moments, nothing is lost and the log stays short", cases.killed)
    report.end()


main()
