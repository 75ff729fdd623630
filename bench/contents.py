#!/usr/bin/env python3
"""How often a content is written: what a run of the built program writes to claims, as a multiple of what came in.

Each run is of a flow of its own in a new folder, once under strace, which tells the bytes of each write to a claim, and
once without it, for the peak of the process's resident memory as the system counts it (VmHWM). It needs strace.
"""

import pathlib
import re
import subprocess
import sys

sys.path.insert(0, str(pathlib.Path(__file__).resolve().parent.parent / "tests"))
sys.dont_write_bytecode = True

from flow_texts import flow, let_go, processor, queue, source
from support import DONE, find_program, in_memory, need, need_status, options, run, work_folder, write_files

MIB = 1024 * 1024
MOST = 16 * MIB
LINE = b"a line of sixty-four bytes, with some words that stand for text\n"


def fan(queues):
    """A source that leads into so many queues, each with a put behind it."""
    puts = [let_go(f"put-{n}", "replace") for n in range(queues)]
    return flow([source("get"), *puts], [queue(f"c{n}", "get", f"put-{n}") for n in range(queues)])


def split(lines):
    """A source, a split into parts of so many lines, and a put of the parts."""
    return flow([source("get"), processor("split", "SplitText", {"Line Split Count": str(lines)}, ["original", "failure"]),
                 let_go("put", "replace")],
                [queue("new", "get", "split"), queue("parts", "split", "put", "splits")])


def cases():
    whole = LINE * (MOST // len(LINE))
    yield "16 MiB into one queue", fan(1), whole
    yield "16 MiB into two queues", fan(2), whole
    yield "16 MiB into eight queues", fan(8), whole
    yield "16 MiB in 16 parts", split(len(whole) // len(LINE) // 16), whole
    yield "1,000 lines, each a part", split(1), LINE * 1000


def written(program, parent, text, content):
    """The bytes that a run writes to claims."""
    with work_folder(parent, text) as folder:
        write_files(folder / "in", {"a": content})
        trace = folder / "trace"
        ended = subprocess.run(["strace", "-f", "-qq", "-y", "-e", "signal=none", "-e", "trace=write,pwrite64", "-o", trace,
                                program, "run"], cwd=folder, stdin=subprocess.DEVNULL, stdout=subprocess.DEVNULL)
        need(ended.returncode == DONE, f"status {ended.returncode} under strace")
        return sum(map(int, re.findall(r"write(?:64)?\(\d+<[^>]*/store/claim-\d+>.* = (\d+)$", trace.read_text(),
                                       re.MULTILINE)))


def peak(program, parent, text, content):
    with work_folder(parent, text) as folder:
        write_files(folder / "in", {"a": content})
        ended = run(program, folder)
        need_status(ended, DONE)
        return ended.peak


def main():
    given = options(__doc__).parse_args()
    program = find_program(given.program)
    parent = in_memory(given.folder)
    print("| content | bytes written to claims | times the content | peak of memory, MiB |\n|---|---|---|---|")
    for what, text, content in cases():
        total = written(program, parent, text, content)
        print(f"| {what} | {total:,} | {total / len(content):.2f} | {peak(program, parent, text, content) / MIB:.0f} |",
              flush=True)


if __name__ == "__main__":
    main()
