#!/usr/bin/env python3
"""Tries the trials of the built program (`trial N`): what each prints, beside what its flow makes of so many files and
what a run of the same flow prints; that it touches nothing but its output; its time and memory."""

import os
import subprocess

import printed
from flow_texts import flow, generator, let_go, processor, queue
from support import (DONE, ROOT, SINK, USAGE, Report, find_program, in_memory, names, need, need_status, new_folder,
                     options, photo, run, work_folder)

# The longest that the longest trial may take, in seconds, and the most memory, in bytes.
SECONDS = 60
BYTES = 1_000_000_000

# What a trial makes of a file that goes to tens: it is split into three lines, which are joined again.
PARTS = 3


def flow_of(count):
    """The text of a trial's flow."""
    return flow([generator("gen", count, "a${generate.index}\nb\nc\n"),
                 processor("route", "RouteOnAttribute", {"tens": "${generate.index:endsWith('0')}"}, tasks=4),
                 processor("split", "SplitText", {"Line Split Count": "1"}, ["original", "failure"], tasks=4),
                 processor("merge", "MergeContent", {"Merge Strategy": "Defragment"}, ["original", "failure"]),
                 let_go("put", "replace", tasks=4)],
                [queue("made", "gen", "route"), queue("tens", "route", "split", "tens"),
                 queue("rest", "route", "put", "unmatched"), queue("parts", "split", "merge", "splits"),
                 queue("whole", "merge", "put", "merged")])


def text_of(count):
    """What a trial of so many files prints."""
    tens = count // 10
    # Each file that was split and each of its parts is dropped too.
    events = {"CREATE": count, "FORK": tens, "JOIN": tens, "ROUTE": count, "SEND": count,
              "DROP": count + (1 + PARTS) * tens}
    lines = [*(f"connection {name} 0 0" for name in ("made", "tens", "rest", "parts", "whole")), "inbox 0",
             *(f"event {kind} {times}" for kind, times in events.items() if times)]
    return "".join(f"{line}\n" for line in lines).encode()


class Cases:
    def __init__(self, program, parent):
        self.program = program
        self.parent = parent

    def tells(self, *words):
        """A trial with these words, in a folder that stays empty."""
        with new_folder(self.parent) as folder:
            ended = run(self.program, folder, words)
            need_status(ended, DONE)
            need(names(folder) == [], f"{words} made {names(folder)}")
        return ended

    def trial(self, count):
        said = self.tells("trial", str(count)).said
        need(said == text_of(count), f"{said!r} was printed, wanted is {text_of(count)!r}")

    def longest(self):
        ended = self.tells("trial", "10000")
        need(ended.said == text_of(10_000), f"{ended.said!r} was printed")
        need(ended.seconds < SECONDS, f"it took {ended.seconds:.1f} s")
        need(ended.peak < BYTES, f"it took {ended.peak} bytes")
        return f"{ended.peak // 1_000_000} MB"

    def threads(self):
        for words in (["trial", "20", "--threads", "1"], ["trial", "--threads=16", "20"], ["trial", "0000000020"]):
            said = self.tells(*words).said
            need(said == text_of(20), f"{words} printed {said!r}")

    def as_a_run(self):
        """A run of the same flow from its text prints the same."""
        for count in (1, 20, 105):
            with work_folder(in_memory(self.parent), flow_of(count)) as folder:
                ended = run(self.program, folder)
                need_status(ended, DONE)
            said = self.tells("trial", str(count)).said
            need(said == ended.said, f"a trial prints {said!r}, a run {ended.said!r}")

    def leaves_all(self):
        """Beside a flow, files and a store it reads none of them, and writes none."""
        with work_folder(self.parent, b"no flow") as folder:
            for part in ("in", "out", "store"):
                (folder / part).mkdir()
                (folder / part / "a").write_bytes(b"a")
            before = photo(folder)
            ended = run(self.program, folder, ["trial", "20"])
            need((ended.status, ended.said) == (DONE, text_of(20)), f"{ended.status}: {ended.said!r}")
            need(photo(folder) == before, "something in the folder changed")

    def other_words(self):
        for words in (["trial"], ["trial", "0"], ["trial", "10001"], ["trial", "-1"], ["trial", "x"], ["trial", ""],
                      ["trial", "1", "2"], ["trial", "20", "--checkpoint", "5"], ["trial", "20", "--max-commits=5"],
                      ["trial", "20", "--threads", "17"], ["trials", "20"]):
            with new_folder(self.parent) as folder:
                ended = run(self.program, folder, words)
                need((ended.status, ended.said) == (USAGE, printed.USAGE_LINE), f"{words}: {ended.status}, {ended.said!r}")
                need(names(folder) == [], f"{words} made {names(folder)}")

    def sink_fails(self):
        with new_folder(self.parent) as folder:
            with open("/dev/full", "wb") as full:
                ended = subprocess.run([self.program, "trial", "20"], cwd=folder, stdout=full,
                                       stdin=subprocess.DEVNULL, check=False)
            need(ended.returncode == SINK, f"into a full device it ended with {ended.returncode}")
            reader, writer = os.pipe()
            os.close(reader)
            ended = subprocess.run([self.program, "trial", "20"], cwd=folder, stdout=writer, stdin=subprocess.DEVNULL,
                                   check=False)
            os.close(writer)
            need(ended.returncode == SINK, f"into a closed pipe it ended with {ended.returncode}")
            need(names(folder) == [], f"it made {names(folder)}")

    def stored(self):
        """The stored run of the program is such a trial."""
        crate = ROOT / "crates" / "flow_program"
        words = (crate / "args").read_text().split()
        need(words == ["trial", "20"], f"its words are {words}")
        need((crate / "stdout").read_bytes() == text_of(20), "its text is another")


def main():
    given = options(__doc__).parse_args()
    cases = Cases(find_program(given.program), given.folder)
    report = Report()
    for count in (1, 9, 10, 20):
        report.case(f"a trial of {count}", cases.trial, count)
    report.case("a trial of 10,000, within a minute and 1 GB", cases.longest)
    report.case("--threads changes nothing", cases.threads)
    report.case("a run of the same flow prints the same", cases.as_a_run)
    report.case("flow.json and the folders that stand there are left alone", cases.leaves_all)
    report.case("other words: 2", cases.other_words)
    report.case("an output that takes nothing: 9", cases.sink_fails)
    report.case("the program's stored run is a trial of 20", cases.stored)
    report.end()


if __name__ == "__main__":
    main()
