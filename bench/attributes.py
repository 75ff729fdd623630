#!/usr/bin/env python3
"""How much memory the attributes of waiting files take: by how much the peak of a run grows with each further file, as a
multiple of the bytes of its attributes.

Each run is of a new folder, whose files get eight attributes and wait for a merge that needs more of them. The peak is
that of the process's resident memory as the system counts it (VmHWM).
"""

import pathlib
import sys

sys.path.insert(0, str(pathlib.Path(__file__).resolve().parent.parent / "tests"))
sys.dont_write_bytecode = True

from flow_texts import flow, processor, queue, source
from support import DONE, find_program, in_memory, need_status, options, run, work_folder, write_files

FEW, MANY = 400, 800
ATTRIBUTES = 8


def waiting(size):
    """A source, an update that sets attributes of so many bytes each, and a merge that waits for more files."""
    texts = {f"text-{n}": "y" * size for n in range(ATTRIBUTES)}
    return flow([source("get"), processor("set", "UpdateAttribute", texts, ["failure"]),
                 processor("merge", "MergeContent", {"Minimum Number of Entries": "1000"},
                           ["merged", "original", "failure"])],
                [queue("new", "get", "set"), queue("waiting", "set", "merge")])


def peak(program, parent, text, count):
    with work_folder(parent, text) as folder:
        write_files(folder / "in", {f"{n:04}": b"x" for n in range(count)})
        ended = run(program, folder)
        need_status(ended, DONE)
        return ended.peak


def main():
    given = options(__doc__).parse_args()
    program = find_program(given.program)
    parent = in_memory(given.folder)
    print("| bytes of an attribute | memory for a further file | times the bytes of its attributes |\n|---|---|---|")
    for size in (1000, 2000, 4000):
        text = waiting(size)
        each = (peak(program, parent, text, MANY) - peak(program, parent, text, FEW)) / (MANY - FEW)
        print(f"| {size:,} | {each:,.0f} | {each / (ATTRIBUTES * size):.2f} |", flush=True)


main()
