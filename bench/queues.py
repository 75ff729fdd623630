#!/usr/bin/env python3
"""How the time for a file grows with the files that wait, and with the connections of the flow.

Each row is a flow of its own, with 1,000, 4,000, 16,000 and 64,000 files. What is told is the processor's time for each
file, beside that of the row's first count:

- lines that a text is split into are taken one by one, each in a session of its own, out of a queue with one of the
  orders, or of one whose files expire after an hour;
- lines fill a queue, and none is taken; they all expire; 1,000 others pass beside them;
- lines are fragments of wholes of ten, of which one each is missing, and come one by one to a merge;
- two connections are used, beside up to 1,022 between processors that get no file, with and without an expiration.

Then come the processor's time for a log of 4 MiB in 9,600 lines that are split, named and put one by one, and the
memory of a further waiting file. All runs are in memory, if the system has a folder there: no disk is waited for.
"""

import pathlib
import sys
import time

sys.path.insert(0, str(pathlib.Path(__file__).resolve().parent.parent / "tests"))
sys.dont_write_bytecode = True

from flow_texts import flow, let_go, processor, queue, source
from support import BLOCKED, DONE, find_program, in_memory, need_status, options, run, work_folder, write_files

HOUR = 3_600_000

ORDERS = {"first in, first out": {"prioritizers": ["FirstInFirstOut"]},
          "newest first": {"prioritizers": ["NewestFlowFileFirst"]},
          "oldest first": {"prioritizers": ["OldestFlowFileFirst"]},
          "by priority": {"prioritizers": ["PriorityAttribute"]},
          "first in, first out, expiring": {"prioritizers": ["FirstInFirstOut"], "expiration": HOUR}}

COUNTS = (1_000, 4_000, 16_000, 64_000)
CONNECTIONS = (2, 64, 256, 1_024)

# How many lines a session splits at most, and how many pass beside those that stand.
PART = 4_000
PASSING = 1_000

# After so many milliseconds a file expires that waits in the queue of `expiring`: later than that queue is filled.
EXPIRATION = 30_000

# The lines of the log and how many bytes each has: 4 MiB in all.
LOG = (9_600, 437)


def lines(count, prefix=""):
    """Files of the inbox with so many lines in all."""
    sizes = [min(PART, count - first) for first in range(0, count, PART)]
    return {f"{prefix}{place:03}": b"".join(b"line %d\n" % line for line in range(size))
            for place, size in enumerate(sizes)}


def splitter(name, count=1):
    return processor(name, "SplitText", {"Line Split Count": str(count)}, ["original", "failure"])


def note(name, *terminated):
    return processor(name, "UpdateAttribute", {"seen": "yes"}, [*terminated, "failure"])


def one_by_one(order):
    return flow([source("get"), splitter("split"), note("note", "success")],
                [queue("new", "get", "split"),
                 queue("lines", "split", "note", "splits", objects=1_000_000, **ORDERS[order])])


def standing(**fields):
    """Lines of the files `stay..` stand in a queue: the processor that takes them is held back once it has taken one.
    Those of the files `pass..` pass."""
    return flow([source("stay", "stay.*"), splitter("split-stay"), note("hold"),
                 processor("wait", "MergeContent", {"Minimum Number of Entries": "1000"},
                           ["merged", "original", "failure"]),
                 source("pass", "pass.*"), splitter("split-pass"), note("note", "success")],
                [queue("new-stay", "stay", "split-stay"),
                 queue("standing", "split-stay", "hold", "splits", objects=1_000_000, **fields),
                 queue("held", "hold", "wait", objects=1),
                 queue("new-pass", "pass", "split-pass"),
                 queue("passing", "split-pass", "note", "splits", objects=1_000_000)])


def fragments():
    """Each tenth line of a whole of ten is let go, and the others come one by one to a merge."""
    return flow([source("get"), splitter("tens", 10), splitter("ones"),
                 processor("route", "RouteOnAttribute", {"last": "${fragment.index:equals('10')}"}, ["last"]),
                 processor("merge", "MergeContent", {"Merge Strategy": "Defragment"},
                           ["merged", "original", "failure"])],
                [queue("new", "get", "tens"), queue("wholes", "tens", "ones", "splits", objects=1_000_000),
                 queue("lines", "ones", "route", "splits", objects=1_000_000),
                 queue("waiting", "route", "merge", "unmatched", objects=1_000_000)])


def idle(count, fields):
    """So many connections between processors that get no file: each one leads into the next ones."""
    most = min(250, max(1, count // 4))
    names = ["none", *(f"idle-{place}" for place in range(most))]
    pairs = [(start, start + step) for step in range(1, 9) for start in range(most + 1 - step)][:count]
    leading = {start for start, _ in pairs}
    processors = [source("none", "none"),
                  *(note(name, *([] if place in leading else ["success"]))
                    for place, name in enumerate(names) if place)]
    return processors, [queue(f"idle-{start}-{end}", names[start], names[end], **fields) for start, end in pairs]


def used(connections, **fields):
    """Two connections are used of so many."""
    processors, queues = idle(connections - 2, fields) if connections > 2 else ([], [])
    return flow([source("get"), splitter("split"), note("note", "success"), *processors],
                [queue("new", "get", "split"), queue("lines", "split", "note", "splits", objects=1_000_000), *queues])


def named():
    """Lines get names of their own and are put."""
    name = {"filename": "${filename:append('-'):append(${fragment.index})}"}
    return flow([source("get"), splitter("split"), processor("name", "UpdateAttribute", name, ["failure"]),
                 let_go("put", "replace")],
                [queue("new", "get", "split"), queue("lines", "split", "name", "splits", objects=1_000_000),
                 queue("named", "name", "put", objects=1_000_000)])


def ended(program, folder, status):
    it = run(program, folder)
    need_status(it, status)
    return it


def whole(program, parent, text, files, status=DONE):
    """A run over these files."""
    with work_folder(parent, text) as folder:
        write_files(folder / "in", files)
        return ended(program, folder, status)


def drained(order):
    return lambda program, parent, count: whole(program, parent, one_by_one(order), lines(count)).busy / count


def filled(program, parent, count):
    return whole(program, parent, standing(), lines(count, "stay"), BLOCKED).busy / count


def expired(program, parent, count):
    with work_folder(parent, standing(expiration=EXPIRATION)) as folder:
        write_files(folder / "in", lines(count, "stay"))
        ended(program, folder, BLOCKED)
        time.sleep(EXPIRATION / 1_000)
        return ended(program, folder, DONE).busy / count


def beside(program, parent, count):
    """The time of each that passes, without that of a run in which none does: both open a store of those that stand."""
    with work_folder(parent, standing()) as folder:
        write_files(folder / "in", lines(count, "stay"))
        ended(program, folder, BLOCKED)
        alone = ended(program, folder, BLOCKED).busy
        write_files(folder / "in", lines(PASSING, "pass"))
        return (ended(program, folder, BLOCKED).busy - alone) / PASSING


def incomplete(program, parent, count):
    return whole(program, parent, fragments(), lines(count)).busy / count


def unused(**fields):
    """The time of each of 16,000 lines that pass through two of so many connections."""
    return lambda program, parent, count: whole(
        program, parent, used(count, **fields), lines(16_000)).busy / 16_000


def memory(program, parent, few=16_000, many=64_000):
    peaks = [whole(program, parent, standing(), lines(count, "stay"), BLOCKED).peak for count in (few, many)]
    return (peaks[1] - peaks[0]) / (many - few)


def rows():
    """Each row's name, its counts, and how the time for a file is found."""
    for order in ORDERS:
        yield f"taken one by one, {order}", COUNTS, drained(order)
    yield "filled", COUNTS, filled
    yield "expired at once", COUNTS, expired
    yield "1,000 that pass beside them", COUNTS, beside
    yield "fragments, one of each ten missing", COUNTS, incomplete
    yield "connections, of which two are used", CONNECTIONS, unused()
    yield "the same, where files expire", CONNECTIONS, unused(expiration=HOUR)


def main():
    parser = options(__doc__)
    parser.add_argument("--most", type=int, default=16_000, help="the most files of a row (default: 16,000)")
    parser.add_argument("--only", default="", help="only rows with this word in their names")
    given = parser.parse_args()
    program = find_program(given.program)
    parent = in_memory(given.folder)
    print("| row | count | microseconds for a file | beside the first |\n|---|---|---|---|")
    for name, counts, seconds in rows():
        first = None
        for count in counts:
            if count <= given.most and given.only in name:
                each = seconds(program, parent, count)
                first = first or each
                print(f"| {name} | {count:,} | {1e6 * each:,.1f} | {each / first:.2f} |", flush=True)
    if not given.only:
        count, size = LOG
        log = {"log": b"".join(b"%0*d\n" % (size - 1, line) for line in range(count))}
        print(f"\nthe log: {whole(program, parent, named(), log).busy:.2f} s")
        print(f"a further waiting file: {memory(program, parent):,.0f} bytes")


if __name__ == "__main__":
    main()
