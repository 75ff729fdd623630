#!/usr/bin/env python3
"""What parts of the store cost, measured by the program `bench_parts` with less and with more of what each works on.

It prints how long the processor worked for both, the second as a ratio to the first, and the peaks of memory. The
program does each until it took a tenth of a second, and prints the mean, so that a coarse clock is enough. How many
claims are live should change nothing; twice the entries, files or forgotten events should take twice the time. Then it
prints what it costs to open stores of several sizes: for each number of live files the time and the peak by the entries
of the log.

Figures depend on the machine: this is no test, and isn't run by one.
"""

import os
import pathlib
import re
import subprocess
import sys
import time

sys.path.insert(0, str(pathlib.Path(__file__).resolve().parent.parent / "tests"))
sys.dont_write_bytecode = True

from machine import machine
from support import ROOT, need, need_status, new_folder, options, run

CRATE = ROOT / "crates" / "bench_parts"

# The word, what it measures, the two counts, and the ratio of their times that is wanted.
PARTS = [
    ("appends", "1,000,000 contents appended, by live claims", 10, 60_000, 1),
    ("loads", "a log loaded, by its entries", 50_000, 100_000, 2),
    ("groups", "a log of groups loaded, by its entries", 50_000, 100_000, 2),
    ("reads", "a snapshot read, by its files", 100_000, 200_000, 2),
    ("writes", "a snapshot written, by its files", 100_000, 200_000, 2),
    ("swaps_in", "a batch read, by its files", 10_000, 20_000, 2),
    ("swaps_out", "a batch written, by its files", 10_000, 20_000, 2),
    ("ages", "all events but 10,000 forgotten, by the files of 10,000", 51, 101, 2),
]

# The entries of a log and the live files with which stores are opened.
ENTRIES = [10, 4_096, 100_000]
LIVE = [1, 1_000, 100_000]


def built():
    """The program as the gate builds it, made anew where a source may be newer."""
    with open(os.devnull) as nothing:
        subprocess.run(["rt", "run", "--", "check"], cwd=CRATE, stdin=nothing, stdout=sys.stderr, check=True)
    return str(CRATE / "out" / "bench_parts")


def least(program, folder, words, times):
    """The least seconds of the processor of some runs, and the least peak of their memory."""
    seconds, peaks = [], []
    for _ in range(times):
        ended = run(program, folder, tuple(str(word) for word in words))
        need_status(ended, 0)
        said = re.fullmatch(rb"\w+ \d+: (\d+) in (\d+) microseconds\n", ended.said)
        need(said is not None, f"it printed {ended.said!r}")
        need(int(said.group(2)) > 0, "the system doesn't tell how long the processor worked")
        seconds.append(int(said.group(2)) / 1e6)
        peaks.append(ended.peak)
    return min(seconds), min(peaks)


def main():
    parser = options(__doc__)
    parser.add_argument("--times", type=int, default=5, help="runs of each, the least counts (default 5)")
    given = parser.parse_args()
    program = str(pathlib.Path(given.program).resolve()) if given.program else built()
    print(machine())
    print(f"bench/parts.py --times {given.times}")
    with new_folder(given.folder) as folder:
        for word, text, once, more, wanted in PARTS:
            one, one_peak = least(program, folder, (word, once), given.times)
            two, two_peak = least(program, folder, (word, more), given.times)
            print(f"{text}: {once:,} {one * 1e6:,.0f} microseconds, {one_peak / 1e6:.1f} MB; "
                  f"{more:,} {two * 1e6:,.0f} microseconds, {two_peak / 1e6:.1f} MB; "
                  f"ratio {two / one:.2f}, about {wanted} is wanted", flush=True)
        for live in LIVE:
            for entries in ENTRIES:
                took, peak = least(program, folder, ("opens", entries, live), given.times)
                print(f"a store opened, {live:,} live files, {entries:,} entries: {took * 1e6:,.0f} microseconds, "
                      f"{peak / 1e6:.1f} MB", flush=True)


main()
