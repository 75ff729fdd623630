#!/usr/bin/env python3
"""What processors cost beside plain loops over the same bytes, and what a queue costs, by the program `bench_flows`;
and what expressions cost a flow, by the built program over folders in memory.

It prints how long the processor worked for each part and for what stands beside it, the first as a ratio to the second.
Then it prints what it costs to pick a whole from ten times as many fragments. Last it prints what a queue costs of
1,000, 10,000 and 20,000 files that come, go, are picked or expire, and what Python's `heapq` costs over the same keys.

Figures depend on the machine: this is no test, and isn't run by one.
"""

import heapq
import os
import pathlib
import re
import subprocess
import sys
import time

sys.path.insert(0, str(pathlib.Path(__file__).resolve().parent.parent / "tests"))
sys.dont_write_bytecode = True

from flow_texts import flow, generator, processor, queue
from machine import machine
from support import DONE, ROOT, find_program, in_memory, need, need_status, new_folder, options, run, work_folder

CRATE = ROOT / "crates" / "bench_flows"

# A text of 16 MiB: so many lines, and the last one.
LINES = 262_143

# The word, how much there is, what it measures, and what stands beside it.
COMPARED = [
    ("split", LINES, "a text split into parts of 10,000 lines", "by a loop"),
    ("replace", LINES, "what a pattern finds in each line replaced", "by a loop"),
    ("route", LINES, "a text routed by what a pattern finds in its last line", "by a search"),
    ("merge", LINES, "parts of 10,000 lines joined", "by a loop"),
]

# How many fragments of 100 wholes are queued, and what is picked of them.
FRAGMENTS = [1_000, 10_000]
PICKED = [("picks", "ten picks of a whole"), ("waits", "ten picks that find no whole, one of each missing")]

# How many files wait in a queue, and as far from one another as this number tells they were entered.
WAITING = [1_000, 10_000, 20_000]
STRIDE = 7_919

# The word, what it measures, and the key of a file for a heap by its arrival and its moment of entry, which is its
# priority too; none where a heap has no such call.
QUEUED = [
    ("put", "files come, by priority", lambda arrival, entered: (entered, arrival)),
    ("first", "files go, the best first, by arrival", lambda arrival, entered: (arrival,)),
    ("newest", "the same by the latest entry", lambda arrival, entered: (-entered, arrival)),
    ("oldest", "the same by the earliest entry", lambda arrival, entered: (entered, arrival)),
    ("priority", "the same by priority", lambda arrival, entered: (entered, arrival)),
    ("one", "a thousand picks of one file", None),
    ("bin", "a thousand picks of a bin of 1,000", None),
    ("expired", "all files expire, and leave by one call", None),
]

# How many files the flow makes, and three expressions over a file's name.
FILES = 10_000
EXPRESSIONS = {name: f"${{filename:append('-{number}'):toUpper()}}"
               for number, name in enumerate(("first", "second", "third"), 1)}

SAID = re.compile(rb"\w+ \d+: (\d+) in (\d+) microseconds(?:, beside it (\d+) in (\d+))?\n")


def built():
    """The program as the gate builds it, made anew where a source may be newer."""
    with open(os.devnull) as nothing:
        subprocess.run(["rt", "run", "--", "check"], cwd=CRATE, stdin=nothing, stdout=sys.stderr, check=True)
    return str(CRATE / "out" / "bench_flows")


def said(program, folder, word, count):
    """The microseconds of the processor of a part, and of what stands beside it where there is something."""
    ended = run(program, folder, (word, str(count)))
    need_status(ended, 0)
    match = SAID.fullmatch(ended.said)
    need(match is not None, f"it printed {ended.said!r}")
    done, took, other, other_took = match.groups()
    need(other is None or done == other, f"they did something else: {ended.said!r}")
    return int(took), int(other_took or 0)


def flow_time(program, parent, expressions):
    """The microseconds of the processor of a flow that makes files and updates each of them by these expressions."""
    text = flow([generator("make", FILES, "x"),
                 processor("update", "UpdateAttribute", expressions, ("success", "failure"))],
                [queue("made", "make", "update")])
    with work_folder(parent, text) as folder:
        ended = run(program, folder)
        need_status(ended, DONE)
        return round(ended.busy * 1e6)


def updated(program, parent):
    """The same of the three expressions, and of none."""
    return flow_time(program, parent, EXPRESSIONS), flow_time(program, parent, {})


def mean(times, measure, *given):
    """The mean of some runs, of a part and of what stands beside it. The system counts in steps of milliseconds."""
    runs = [measure(*given) for _ in range(times)]
    return sum(took for took, _ in runs) // times, sum(took for _, took in runs) // times


def heap_time(word, key, count):
    """The microseconds of a heap to which these files come, or from which they go."""
    keys = [key(arrival, (count - 1 - arrival) * STRIDE % count) for arrival in range(count)]
    heap, start = [], time.process_time()
    for one in keys:
        heapq.heappush(heap, one)
    if word != "put":
        start = time.process_time()
        while heap:
            heapq.heappop(heap)
    return round((time.process_time() - start) * 1e6), 0


def tell_queue(times, program, folder, word, text, key):
    took = [mean(times, said, program, folder, word, count)[0] for count in WAITING]
    line = f"{text}: " + ", ".join(f"{count:,} in {one:,} microseconds" for count, one in zip(WAITING, took))
    if key is not None:
        beside = [mean(times, heap_time, word, key, count)[0] for count in WAITING]
        line += "; by heapq in " + ", ".join(f"{one:,}" for one in beside)
    print(line, flush=True)


def tell(text, took, other, beside):
    print(f"{text}: {took:,} microseconds, {other} {beside:,}; ratio {took / max(beside, 1):.2f}", flush=True)


def main():
    parser = options(__doc__)
    parser.add_argument("--flow", help="the built program that runs flows (default: built where that is due)")
    parser.add_argument("--times", type=int, default=20, help="runs of each, of which the mean is printed (default 20)")
    given = parser.parse_args()
    times, runner = given.times, find_program(given.flow)
    program = str(pathlib.Path(given.program).resolve()) if given.program else built()
    print(machine())
    print(f"bench/flows.py --times {times}")
    with new_folder(given.folder) as folder:
        for word, much, text, other in COMPARED:
            took, beside = mean(times, said, program, folder, word, much)
            tell(text, took, other, beside)
        took, beside = mean(times, updated, runner, in_memory(given.folder))
        tell(f"{FILES:,} files made and updated by three expressions", took, "by none", beside)
        for word, text in PICKED:
            once, more = (mean(times, said, program, folder, word, count)[0] for count in FRAGMENTS)
            print(f"{text}, from {FRAGMENTS[0]:,} fragments of 100 wholes {once:,} microseconds, from "
                  f"{FRAGMENTS[1]:,} {more:,}; ratio {more / max(once, 1):.2f}", flush=True)
        for word, text, key in QUEUED:
            tell_queue(times, program, folder, word, text, key)


if __name__ == "__main__":
    main()
