#!/usr/bin/env python3
"""One table of what this version costs: each row is a ratio of two figures of the same run.

It takes what bench/run.py, contents.py, flows.py, events.py and queues.py measure, and puts beside it: the system's
calls for the flow's data in C (bench/protocol.c, compiled by gcc), `cp` and `sync`, a queue in Python and SQLite
(bench/sqlite_queue.py), `rsync --fsync` if it is installed, and plain loops (the program `bench_flows`). What is beside
the flow runs in turn with it, so that what else the machine does meets both; the median of the runs counts.

The parts are `large`, `small`, `contents`, `loops`, `merge`, `events` and `queue`; `--only` chooses some. `--quick`
takes few files and one run of each: it shows that the script works, and its figures say little. It needs strace and
gcc.

Figures depend on the machine: this is no test, and isn't run by one.
"""

import contextlib
import hashlib
import importlib.util
import math
import os
import pathlib
import random
import shutil
import statistics
import subprocess
import sys
import time
import typing

HERE = pathlib.Path(__file__).resolve().parent
sys.path.insert(0, str(HERE.parent / "tests"))
sys.dont_write_bytecode = True

from flow_texts import flow, let_go, processor, queue, source
from support import (DONE, THE_TEXT, find_program, in_memory, need, need_status, new_folder, options, read_files, run,
                     work_folder, write_files)

MIB = 1024 * 1024
MOST = 16 * MIB


def part(name):
    """Another script of this folder. Some of tests/ have the same names."""
    spec = importlib.util.spec_from_file_location(f"bench_{name}", HERE / f"{name}.py")
    module = importlib.util.module_from_spec(spec)
    spec.loader.exec_module(module)
    return module


copies, contents, loops, events, queues = map(part, ("run", "contents", "flows", "events", "queues"))


class Sizes(typing.NamedTuple):
    """How much each part works on."""
    times: int
    large: int
    small: int
    traced: tuple
    loops: int
    merged: int
    entries: tuple
    generated: tuple
    lines: tuple


FULL = Sizes(3, 12, 2_000, (200, 400), 20, 8_000, (125, 500, 1_000), (31, 500), (1_000, 64_000))
QUICK = Sizes(1, 2, 100, (10, 20), 2, 200, (10, 100), (2, 4), (100, 200))

# The calls of the system on data, which is opened, read, written, synced, renamed and removed, by their names.
ON_DATA = {"openat": "open", "open": "open", "close": "close", "pread64": "read", "pwrite64": "write",
           "fdatasync": "sync", "fsync": "sync", "rename": "rename", "renameat": "rename", "renameat2": "rename",
           "unlink": "remove", "unlinkat": "remove"}


class Row(typing.NamedTuple):
    """A figure of the flow, what is beside it, the ratio of both, and what is wanted."""
    what: str
    ours: str
    beside: str
    ratio: float
    wanted: str = ""

    def line(self):
        return f"| {self.what} | {self.ours} | {self.beside} | {self.ratio:.2f} | {self.wanted} |"


# ---- what is run

@contextlib.contextmanager
def filled(parent, files, text=THE_TEXT, made=()):
    """A folder with a flow, these files in `in`, and further folders; all of it is on the disk."""
    with work_folder(parent, text) as folder:
        write_files(folder / "in", files)
        for name in made:
            (folder / name).mkdir()
        os.sync()
        yield folder


def moved(program, words, parent, files):
    """A run of another program that moves files from `in` to `out`."""
    with filled(parent, files, made=("store", "out")) as folder:
        ended = run(program, folder, words)
        need_status(ended, 0)
        need(read_files(folder / "out") == files and not read_files(folder / "in"), "the files aren't moved")
        return ended


def compiled(folder):
    """The calls for the flow's data in C."""
    target = folder / "protocol"
    subprocess.run(["gcc", "-O2", "-Wall", "-Wextra", "-o", target, HERE / "protocol.c"], check=True)
    return str(target)


def copied(parent, files, command):
    """The seconds that a shell's commands take to copy the files, from `$1` to `$2`."""
    def copy(origin, target):
        subprocess.run(["sh", "-c", command, "copy", origin, target], check=True)
    return copies.timed(parent, files, copy)


def middle(runs, field):
    return statistics.median(getattr(ended, field) for ended in runs)


def in_turn(times, measures):
    """The answers of each measure, by its name. They run in turn."""
    answers = {name: [] for name in measures}
    for _ in range(times):
        for name, measure in measures.items():
            answers[name].append(measure())
    return answers


# ---- the parts

def large(given, sizes):
    """Files of 16 MiB through the standard flow."""
    files = copies.many(sizes.large, MOST)
    total = sum(map(len, files.values())) / 1e6

    def digests():
        begun = time.process_time()
        for content in files.values():
            hashlib.sha256(content).digest()
            hashlib.sha256(content).digest()
        return time.process_time() - begun

    found = in_turn(sizes.times, {
        "flow": lambda: copies.flow(given.program, given.folder, files), "digests": digests,
        "commands": lambda: copies.timed(given.folder, files, copies.copy_by_commands),
        "calls": lambda: copies.timed(given.folder, files, copies.copy_in_process)})
    busy, seconds, peak = (middle(found["flow"], field) for field in ("busy", "seconds", "peak"))
    of_digests, of_commands, of_calls = (statistics.median(found[name]) for name in ("digests", "commands", "calls"))
    what = f"{sizes.large} files of 16 MiB"
    yield Row(f"{what}: the processor", f"{total / busy:.0f} MB for each second",
              f"two SHA-256 of each in Python, {total / of_digests:.0f} MB", busy / of_digests, "80 MB")
    yield Row(f"{what}: peak of memory", f"{peak / 1e6:.1f} MB", "one content, 16.8 MB", peak / MOST, "22 MB")
    yield Row(f"{what}: the clock", f"{seconds:.2f} s", f"`cp` and `sync`, {of_commands:.2f} s", seconds / of_commands)
    yield Row(f"{what}: the clock", f"{seconds:.2f} s", f"the same calls in one process, {of_calls:.2f} s",
              seconds / of_calls)


def counted(program, words, parent, count, text):
    """How many calls a run over so many small files makes, by name, as strace counts them."""
    with filled(parent, copies.many(count, copies.SMALL), text, ("store", "out")) as folder:
        trace = folder / "trace"
        ended = subprocess.run(["strace", "-f", "-c", "-o", trace, program, *words], cwd=folder, check=False,
                               stdin=subprocess.DEVNULL, stdout=subprocess.DEVNULL)
        need(ended.returncode == DONE, f"status {ended.returncode} under strace")
        rows = copies.CALLS.findall(trace.read_text())
        return {name: int(number) for number, name in rows if name != "total"}


def further(program, words, parent, sizes, text=THE_TEXT):
    """The calls of a further file, by name."""
    few, more = sizes.traced
    one, two = (counted(program, words, parent, count, text) for count in (few, more))
    return {name: (two[name] - one.get(name, 0)) / (more - few) for name in two}


def on_data(calls):
    """The calls on data among these, by what they do."""
    kinds = dict.fromkeys(ON_DATA.values(), 0)
    for name, number in calls.items():
        if name in ON_DATA:
            kinds[ON_DATA[name]] += number
    return kinds


def told(kinds):
    return ", ".join(f"{number:.2f} {kind}" for kind, number in kinds.items())


def calls_of_a_file(given, sizes, protocol):
    """The system's calls of a further small file, beside those in C."""
    ours, plain = (further(program, words, given.folder, sizes)
                   for program, words in ((given.program, ("run",)), (protocol, ())))
    data, beside = on_data(ours), on_data(plain)
    print(f"calls on data of a further file: {told(data)}; in C: {told(beside)}", file=sys.stderr)
    yield Row("a small file: calls of the system", f"{sum(ours.values()):.2f}",
              f"the calls in C, {sum(plain.values()):.2f}", sum(ours.values()) / sum(plain.values()), "30 calls")
    yield Row("a small file: those on its data", f"{sum(data.values()):.2f}",
              f"the calls in C, {sum(beside.values()):.2f}", sum(data.values()) / sum(beside.values()), "1")
    yield Row("a small file: syncs", f"{data['sync']:.2f}", f"the calls in C, {beside['sync']:.2f}",
              data["sync"] / beside["sync"])


def calls_of_a_name(given, sizes):
    """The system's calls of a further file of the inbox whose name the source's filter doesn't pass."""
    text = flow([source("get", "none"), let_go("put", "replace")], [queue("new", "get", "put")])
    calls = {name: number for name, number in further(given.program, ("run",), given.folder, sizes, text).items()
             if number}
    total = sum(calls.values())
    yield Row("a name that no filter passes: calls of the system", told(calls), "one look", total, "1")


RSYNC = 'rsync --fsync -r -- "$1/" "$2/"'


def has_rsync():
    """Whether there is an rsync that syncs what it writes."""
    return shutil.which("rsync") is not None and subprocess.run(
        ["rsync", "--fsync", "--version"], check=False, stdout=subprocess.DEVNULL,
        stderr=subprocess.DEVNULL).returncode == 0


def small(given, sizes):
    """Small files through the standard flow."""
    files = copies.many(sizes.small, 4096)
    with new_folder() as aside:
        protocol = compiled(aside)
        yield from calls_of_a_file(given, sizes, protocol)
        yield from calls_of_a_name(given, sizes)
        measures = {
            "flow": lambda: copies.flow(given.program, given.folder, files),
            "C": lambda: moved(protocol, (), given.folder, files),
            "SQLite": lambda: moved(sys.executable, (str(HERE / "sqlite_queue.py"),), given.folder, files),
            "`cp` and `sync`": lambda: copies.timed(given.folder, files, copies.copy_by_commands),
            "the calls of `cp` and `sync` in one process":
                lambda: copies.timed(given.folder, files, copies.copy_in_process)}
        if has_rsync():
            measures["`rsync --fsync`, which syncs no folder"] = lambda: copied(given.folder, files, RSYNC)
        found = in_turn(sizes.times, measures)
    ours, plain, table = found.pop("flow"), found.pop("C"), found.pop("SQLite")
    what, count = f"{sizes.small:,} files of 4,096 bytes", sizes.small
    for name, runs, wanted in (("the calls in C", plain, "260 microseconds"), ("Python and SQLite", table, "")):
        busy, other = (1e6 * middle(of, "busy") / count for of in (ours, runs))
        yield Row(f"{what}: the processor", f"{busy:.0f} microseconds a file", f"{name}, {other:.0f}", busy / other,
                  wanted)
    seconds = middle(ours, "seconds")
    for name, other, wanted in (("the calls in C", middle(plain, "seconds"), "1.15"),
                                ("Python and SQLite", middle(table, "seconds"), ""),
                                *((name, statistics.median(runs), "") for name, runs in found.items())):
        yield Row(f"{what}: the clock", f"{seconds:.2f} s", f"{name}, {other:.2f} s", seconds / other, wanted)


def written_once(given, _sizes):
    """The bytes written to claims."""
    for what, text, content in contents.cases():
        total = contents.written(given.program, in_memory(given.folder), text, content)
        yield Row(f"{what}: bytes written to claims", f"{total:,}", f"the content, {len(content):,}",
                  total / len(content), "1.00")


def beside_loops(given, sizes):
    """Processors beside plain loops, by the program `bench_flows`."""
    program = given.loops or loops.built()
    with new_folder(given.folder) as folder:
        for word, much, text, other in loops.COMPARED:
            took, plain = loops.mean(sizes.loops, loops.said, program, folder, word, much)
            yield Row(text, f"{took / 1e3:.1f} ms", f"{other}, {plain / 1e3:.1f} ms", took / max(plain, 1),
                      "at most 1.2")


def joined(entries):
    """A source, and merges of so many files, which come one by one."""
    return flow([source("get"), processor("merge", "MergeContent", {"Minimum Number of Entries": str(entries),
                                                                    "Maximum Number of Entries": str(entries)},
                                          ["merged", "original", "failure"])], [queue("new", "get", "merge")])


def merge(given, sizes):
    """As many files in merges of few and of many."""
    count = sizes.merged
    parent, files = in_memory(given.folder), copies.many(count, copies.SMALL)

    def of_a_file(entries):
        with filled(parent, files, joined(entries)) as folder:
            ended = run(given.program, folder)
            need_status(ended, DONE)
            need(f"\nevent JOIN {count // entries}\n".encode() in ended.said, f"it said {ended.said!r}")
            return 1e6 * ended.busy / count

    found = in_turn(sizes.times, {entries: lambda entries=entries: of_a_file(entries) for entries in sizes.entries})
    *fewer, most = sizes.entries
    took = statistics.median(found[most])
    for few in fewer:
        beside = statistics.median(found[few])
        yield Row(f"{count:,} files in merges of {most:,}: the processor", f"{took:.1f} microseconds a file",
                  f"in merges of {few:,}, {beside:.1f}", took / beside,
                  f"at most {math.log(most) / math.log(few):.2f}, as k log k")


def opening(given, sizes):
    """Opening stores with few events and with many."""
    parent = in_memory(given.folder)

    def opened(count):
        with work_folder(parent, events.events_text(count)) as folder:
            (folder / "in").mkdir()
            events.measure(given.program, folder, "run")
            kept = int(events.ask(given.program, folder, "check").split()[-1])
            took = [events.measure(given.program, folder, "queues") for _ in range(sizes.times)]
            return kept, statistics.median(seconds for seconds, _ in took), max(peak for _, peak in took)

    (few, few_took, few_peak), (many, took, peak) = map(opened, sizes.generated)
    what, each, beside = f"opening with {many:,} events", took / many, few_took / few
    yield Row(f"{what}: the processor", f"{took:.2f} s, {1e6 * each:.2f} microseconds an event",
              f"with {few:,}, {1e6 * beside:.2f}", each / beside, "1")
    yield Row(f"{what}: peak of memory", f"{peak / 1e6:.1f} MB", f"with {few:,}, {few_peak / 1e6:.1f}", peak / few_peak,
              "1")


def waiting(given, sizes):
    """Lines that are taken one by one out of a queue of many."""
    parent = in_memory(given.folder)
    few, many = sizes.lines
    for order in ("first in, first out", "by priority"):
        once, more = (queues.drained(order)(given.program, parent, count) for count in (few, many))
        yield Row(f"one of {many:,} lines of a queue, {order}: the processor", f"{1e6 * more:.1f} microseconds",
                  f"one of {few:,}, {1e6 * once:.1f}", more / once)


PARTS = {"large": large, "small": small, "contents": written_once, "loops": beside_loops, "merge": merge,
         "events": opening, "queue": waiting}


def main():
    parser = options(__doc__)
    parser.add_argument("--loops", help="the built program `bench_flows` (default: built where that is due)")
    parser.add_argument("--only", default=",".join(PARTS), help="the parts, with commas between them")
    parser.add_argument("--times", type=int, help="runs of each, of which the median counts (default 3)")
    parser.add_argument("--quick", action="store_true", help="few files, one run of each")
    given = parser.parse_args()
    chosen = given.only.split(",")
    for name in chosen:
        need(name in PARTS, f"no part is named {name}")
    given.program = find_program(given.program)
    given.loops = str(pathlib.Path(given.loops).resolve()) if given.loops else None
    sizes = QUICK if given.quick else FULL
    if given.times:
        sizes = sizes._replace(times=given.times)
    random.seed(1)
    print(f"{copies.machine(given.folder)}, load {os.getloadavg()[0]:.1f} at the start; "
          f"{'few files, ' if given.quick else ''}the median of {sizes.times}\n")
    print("| what | the flow | beside it | ratio | wanted |\n|---|---|---|---|---|")
    for name in chosen:
        for row in PARTS[name](given, sizes):
            print(row.line(), flush=True)


if __name__ == "__main__":
    main()
