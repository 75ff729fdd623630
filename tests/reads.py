#!/usr/bin/env python3
"""Has the system refuse the reads of a run, from each of them on, over real folders.

A run has to end with the status of the device whose read is the first that is refused, and never as for want of memory:
the log, the snapshot, a live content and the events of a store that stands are read at opening, contents and files of the
inbox later. The next run has to end with 0 and to deliver every file.
"""

import re
import shutil

import printed
from support import (DISK, DONE, INBOX, OUTBOX, SOURCE, Report, find_program, need, need_status, new_folder, none_aside,
                     options, read_files, run, traced, work_folder, write_files)

FILES = {"a": b"first", "b": bytes(range(256)) * 9, "c": b"third"}


def calls_of(program, folder, call, *asked):
    """Runs the program under strace. Gives its status, and the calls of that name in order, each with its path.
    What it prints is the line of its status, if that has one."""
    status, said, trace = traced(program, folder, call, *asked)
    need(said == printed.LINES.get(status, said), f"it printed {said!r}")
    paths = re.findall(rf"{call}\(\d+<([^>]*)>", trace)
    return status, [path.removeprefix(f"{folder.resolve()}/") for path in paths]


def status_of(path):
    return SOURCE if path == "flow.json" else INBOX if path.startswith("in/") else DISK


class Cases:
    def __init__(self, program, parent):
        self.program = program
        self.parent = parent

    def prepare(self, folder):
        """A store that keeps a file which couldn't be put, and events, and a file that is still in the inbox."""
        write_files(folder / "in", FILES)
        (folder / "out" / "b").mkdir(parents=True)
        need_status(run(self.program, folder), OUTBOX)
        (folder / "out" / "b").rmdir()
        need(read_files(folder / "in") == {"c": FILES["c"]}, "the inbox holds something else")

    def each_refused(self, call, wanted):
        """Calls of this name are refused from each on, in copies of the folder. A run reads these files, at least."""
        with work_folder(self.parent) as folder:
            self.prepare(folder)
            with new_folder(self.parent) as first:
                copy = shutil.copytree(folder, first / "copy")
                status, paths = calls_of(self.program, copy, call)
                need(status == DONE, f"a run without a refusal ended with {status}")
            ours = [number for number, path in enumerate(paths) if not path.startswith("/")]
            missing = wanted - {paths[number] for number in ours}
            need(not missing, f"a run doesn't read {missing}")
            for number in ours:
                with new_folder(self.parent) as aside:
                    self.refused(shutil.copytree(folder, aside / "copy"), call, paths, number)
            return f"{len(ours)} reads"

    def refused(self, copy, call, paths, number):
        what = f"read {number} of {paths[number]}"
        status, _ = calls_of(self.program, copy, call, "-e", f"inject={call}:error=EIO:when={number + 1}+")
        need(status == status_of(paths[number]), f"{what} was refused, and the run ended with {status}")
        none_aside(copy)
        need_status(run(self.program, copy), DONE)
        need(read_files(copy / "out") == FILES, f"{what} was refused, and the next run delivered something else")

    def of_files(self):
        return self.each_refused("pread64", {"store/lock", "store/log-1", "store/snapshot-1", "store/claim-0",
                                             "store/events-0", "in/c"})

    def of_the_flow(self):
        return self.each_refused("read", {"flow.json"})


def main():
    given = options(__doc__).parse_args()
    cases = Cases(find_program(given.program), given.folder)
    report = Report()
    report.case("reads of store and inbox are refused, from each on", cases.of_files)
    report.case("reads of the flow are refused, from each on", cases.of_the_flow)
    report.end()


main()
