#!/usr/bin/env python3
"""What the built program costs, beside a plain durable copy of the same files made in the same run.

It times many small files and a few large ones through the standard flow, counts the syncs and the system's calls for
each further file (by strace), and shows that twice the files cost about twice as much, that a file of 16,384 costs
about what one of 1,024 does, and how memory grows. The plain copy is timed twice: by the commands `cp` and `sync` for
each file and its folder, and by the same calls within one process, which is the harder measure, since it starts no
process for each file. Ratios are of figures of one run, and so are the megabytes that each second of the processor
moves. Two other flows are timed: a put whose failures come back to it, and a source that leads into eight queues.

`--table` prints the main table of bench/README.md as Markdown, and what stands below it, in a few minutes: the copies,
twice the files, syncs and calls, without the other flows.

Figures depend on the machine: this is no test, and isn't run by one. It ends with 1 where a count or a growth isn't
what is demanded.
"""

import contextlib
import json
import os
import pathlib
import platform
import random
import re
import shutil
import statistics
import subprocess
import sys
import textwrap
import time

sys.path.insert(0, str(pathlib.Path(__file__).resolve().parent.parent / "tests"))
sys.dont_write_bytecode = True

import store_reader
from support import (DONE, THE_TEXT, find_program, need, need_status, new_folder, options, read_files, run, work_folder,
                     write_files)

SYNCS = "fsync,fdatasync,sync,syncfs,sync_file_range,msync"

# For each further file: one for the content and three for the entry that takes it, two for the outbox, three for the
# entry that lets it go.
SYNCS_OF_A_FILE = 9

# Where a source leads into so many queues: four for the entry that takes a file, and five for each of
# the file and its clones.
QUEUES = 8
SYNCS_OF_CLONES = 4 + 5 * QUEUES

# Within so few files no claim is emptied on the way. Each one that is asks for one sync more, as it is made anew.
FEW, MORE = 20, 120

# Each further file may ask the system so many times at most, with its share of what comes once in many files.
CALLS_OF_A_FILE = 36

# A line of what `strace -c` counts: how many calls, and of which name.
CALLS = re.compile(r"^ *[\d.]+ +[\d.]+ +\d+ +(\d+) (?: *\d+)? *(\w+)$", re.MULTILINE)

# Of these sizes all contents of a run go into one claim.
SMALL = 64

# Twice the files may take so many times as long, and a file so many bytes of memory: for its name in the listing, and
# for its two entries in the journal.
LEAST_TIME, MOST_TIME = 1.6, 2.5
MEMORY_OF_A_FILE = 500

# A file among 16,384 may take so many times as long as one among 1,024, and a try of a put behind many others so many
# times as long as one behind a quarter of them.
MOST_PER_FILE = 1.5

# For how many milliseconds a put tries again.
TRIES = 1000

# A new log begins where the current one has so many entries.
LOG_ENTRIES = 4096


def many(count, size):
    return {f"file-{n:06}": random.randbytes(size) for n in range(count)}


def copy_by_commands(source, target):
    """`cp` and `sync` of each file, and `sync` of its folder, as a careful script would."""
    script = 'cd "$1" && for f in *; do cp -- "$f" "$2/$f" && sync -- "$2/$f" && sync -- "$2" || exit 1; done'
    subprocess.run(["sh", "-c", script, "copy", source, target], check=True)


def copy_in_process(source, target):
    folder = os.open(target, os.O_RDONLY)
    for name in sorted(os.listdir(source)):
        with open(source / name, "rb") as file:
            content = file.read()
        with open(target / name, "wb") as file:
            file.write(content)
            file.flush()
            os.fsync(file.fileno())
        os.fsync(folder)
    os.close(folder)


def timed(parent, files, body):
    """The seconds of a copy of the files into a new folder."""
    with new_folder(parent) as folder:
        write_files(folder / "in", files)
        (folder / "out").mkdir()
        os.sync()
        start = time.monotonic()
        body(folder / "in", folder / "out")
        seconds = time.monotonic() - start
        need(read_files(folder / "out") == files, "the copy differs")
        return seconds


def processor(name, kind, *terminated, **properties):
    return {"id": name, "type": kind, "properties": properties, "terminated": list(terminated)}


def queue(name, origin, to, relationship="success", **fields):
    return {"id": name, "from": origin, "to": to, "relationships": [relationship], **fields}


def text_of(processors, queues):
    return json.dumps({"processors": processors, "connections": queues}).encode()


def ring(milliseconds):
    """A put that fails where its name stands, and to which its failures come back for so long, without a penalty."""
    put = processor("put", "PutFile", "success") | {"penalty": 0}
    return text_of([processor("get", "GetFile"), put],
                   [queue("c1", "get", "put"), queue("back", "put", "put", "failure", expiration=milliseconds)])


def fan(queues):
    """A source that leads into so many queues, each with a put behind it."""
    strategy = {"Conflict Resolution Strategy": "replace"}
    puts = [processor(f"put-{n}", "PutFile", "success", "failure", **strategy) for n in range(queues)]
    return text_of([processor("get", "GetFile"), *puts], [queue(f"c{n}", "get", f"put-{n}") for n in range(queues)])


def flow(program, parent, files, text=THE_TEXT):
    with work_folder(parent, text) as folder:
        write_files(folder / "in", files)
        os.sync()
        ended = run(program, folder)
        need_status(ended, DONE)
        need(read_files(folder / "out") == files, "out holds other bytes than were sent")
        return ended


def middle(runs):
    """The run of the median time."""
    return sorted(runs, key=lambda ended: ended.seconds)[len(runs) // 2]


class Page:
    """The main table of bench/README.md and the lines below it, as they are measured."""

    def __init__(self, parent, times):
        self.head = [f"{machine(parent)}, load {os.getloadavg()[0]:.1f} at the start, the median of {times} runs:", "",
                     "| | flow | `cp` and `sync` | the same calls in one process |", "|---|---|---|---|"]
        self.notes = []

    def row(self, text, count, total, ours, commands, process):
        each = f"{count / ours:.0f} files/s" if count > 100 else f"{total / ours:.0f} MB/s"
        copies = " | ".join(f"{it:.2f} s, ratio {ours / it:.{1 if ours / it >= 10 else 2}f}" for it in (commands, process))
        self.head.append(f"| {text} | {ours:.2f} s, {each} | {copies} |")

    def note(self, text):
        self.notes.append(textwrap.fill(f"- {text}", 120, subsequent_indent="  "))

    def text(self):
        return "\n".join([*self.head, "", *self.notes])


def compare(program, parent, times, text, files, page):
    total = sum(map(len, files.values())) / 1e6
    ours, commands, process = [], [], []
    # In turn, so that what else the machine does meets all three.
    for _ in range(times):
        ours.append(flow(program, parent, files))
        commands.append(timed(parent, files, copy_by_commands))
        process.append(timed(parent, files, copy_in_process))
    ours, commands, process = middle(ours), statistics.median(commands), statistics.median(process)
    count = len(files)

    def line(name, seconds):
        print(f"  {name:32} {seconds:8.2f} s {count / seconds:9.0f} files/s {total / seconds:8.1f} MB/s")

    print(text)
    line("flow run", ours.seconds)
    line("cp and sync, commands", commands)
    line("the same calls in one process", process)
    print(f"  ratio of time: {ours.seconds / commands:.2f} to the commands, "
          f"{ours.seconds / process:.2f} to the calls in one process")
    print(f"  {ours.busy:.2f} s of the processor: {total / ours.busy:.0f} MB for each of them; "
          f"peak of memory {ours.peak / 1e6:.1f} MB", flush=True)
    page.row(text, count, total, ours.seconds, commands, process)
    page.note(f"{text}: {ours.busy:.2f} s of the processor, {total / ours.busy:.0f} MB for each of them; the peak of "
              f"memory is {ours.peak / 1e6:.1f} MB.")


def traced(program, folder, *asked):
    """Runs the program under strace, and gives what that wrote."""
    trace = folder / "trace"
    command = ["strace", "-f", "-qq", "-e", "signal=none", *asked, "-o", trace, program, "run"]
    ended = subprocess.run(command, cwd=folder, stdin=subprocess.DEVNULL, stdout=subprocess.DEVNULL)
    need(ended.returncode == DONE, f"status {ended.returncode} under strace")
    return trace.read_text()


def syncs(program, parent, count, text=THE_TEXT):
    """How many syncs a run over so many files asks of the system, by kind."""
    with work_folder(parent, text) as folder:
        write_files(folder / "in", many(count, SMALL))
        lines = traced(program, folder, "-e", f"trace={SYNCS}").splitlines()
        need(all(line.endswith("= 0") for line in lines), "a sync failed, or was cut in two")
        kinds = {}
        for line in lines:
            kind = re.search(r"(\w+)\(", line).group(1)
            kinds[kind] = kinds.get(kind, 0) + 1
        return len(lines), kinds


def calls(program, parent, count):
    """How many calls a run over so many files makes, by name, as strace counts them."""
    with work_folder(parent) as folder:
        write_files(folder / "in", many(count, SMALL))
        table = traced(program, folder, "-c")
        rows = CALLS.findall(table)
        return {name: int(number) for number, name in rows if name != "total"}


def count_syncs(program, parent, page):
    none, kinds = syncs(program, parent, 0)
    print(f"syncs with no file: {none} ({told(kinds)}): three folders made, a store made", flush=True)
    few, _ = syncs(program, parent, FEW)
    more, _ = syncs(program, parent, MORE)
    slope = (more - few) / (MORE - FEW)
    print(f"syncs with {FEW} files: {few}; with {MORE} files: {more}")
    print(f"  for each further file: {slope:g}, {SYNCS_OF_A_FILE} are demanded; beside them "
          f"{few - FEW * SYNCS_OF_A_FILE}: {none} for the opening, and for the first claim and the closing "
          f"{few - FEW * SYNCS_OF_A_FILE - none}", flush=True)
    page.note(f"{slope:g} syncs for each further file, between {FEW} and {MORE} files (the plain copy makes two), {none} "
              f"for a run that makes its folders and its store and has no file, and "
              f"{few - FEW * SYNCS_OF_A_FILE - none} for the first claim and the closing.")
    one, _ = syncs(program, parent, 1000)
    two, kinds = syncs(program, parent, 2000)
    print(f"syncs with 1,000 files: {one}; with 2,000 files: {two} ({told(kinds)}): "
          f"{(two - one) / 1000:g} for each further file, with the claims that are made anew", flush=True)
    page.note(f"{(two - one) / 1000:g} syncs for each further file between 1,000 and 2,000, with the claims that are made "
              "anew.")
    clones = (syncs(program, parent, 2 * FEW, fan(QUEUES))[0] - syncs(program, parent, FEW, fan(QUEUES))[0]) / FEW
    print(f"syncs of a file that goes into {QUEUES} queues: {clones:g}, {SYNCS_OF_CLONES} are demanded", flush=True)
    return slope == SYNCS_OF_A_FILE and clones == SYNCS_OF_CLONES


def count_calls(program, parent, page):
    one, two = calls(program, parent, 1000), calls(program, parent, 2000)
    each = {name: (two[name] - one.get(name, 0)) / 1000 for name in two}
    total = sum(each.values())
    told_each = ", ".join(f"{name} {number:.2f}" for name, number in sorted(each.items(), key=lambda pair: -pair[1])
                          if number >= 0.01)
    print(f"calls of the system with 1,000 files: {sum(one.values())}; with 2,000 files: {sum(two.values())}")
    print(f"  for each further file: {total:.2f}, at most {CALLS_OF_A_FILE} are demanded: {told_each}", flush=True)
    page.note(f"{total:.2f} system calls for each further small file, between 1,000 and 2,000 files: {told_each}. Counts "
              "don't depend on the machine.")
    return total <= CALLS_OF_A_FILE


def told(kinds):
    return ", ".join(f"{count} {kind}" for kind, count in sorted(kinds.items()))


def grows(program, parent, times, page):
    once, twice = many(2000, 4096), many(4000, 4096)
    one, two = [], []
    for _ in range(times):
        one.append(flow(program, parent, once))
        two.append(flow(program, parent, twice))
    one, two = middle(one), middle(two)
    ratio, busy = two.seconds / one.seconds, two.busy / one.busy
    file = (two.peak - one.peak) / 2000
    print(f"2,000 files take {one.seconds:.2f} s and 4,000 take {two.seconds:.2f} s: ratio {ratio:.2f}; "
          f"of the processor {one.busy:.2f} s and {two.busy:.2f} s: ratio {busy:.2f}")
    print(f"  peak of memory {one.peak / 1e6:.2f} and {two.peak / 1e6:.2f} MB: {file:.0f} bytes for each further "
          "file, all of 4,096 bytes", flush=True)
    page.note(f"Twice the files (2,000 and 4,000) take {ratio:.2f} times as long, and {busy:.2f} times the processor; each "
              f"further file takes {file:.0f} bytes of memory.")
    return LEAST_TIME <= ratio <= MOST_TIME and file <= MEMORY_OF_A_FILE


def grows_far(program, parent, times):
    """The time of a file among few and among many."""
    few, much = many(1024, SMALL), many(16_384, SMALL)
    one = middle([flow(program, parent, few) for _ in range(times)])
    two = flow(program, parent, much)
    each, later = one.seconds / len(few), two.seconds / len(much)
    busy = (two.busy / len(much)) / (one.busy / len(few))
    print(f"1,024 files take {one.seconds:.2f} s, {each * 1e3:.2f} ms each; 16,384 take {two.seconds:.2f} s, "
          f"{later * 1e3:.2f} ms each: ratio {later / each:.2f}, of the processor {busy:.2f}; "
          f"peak of memory {one.peak / 1e6:.2f} and {two.peak / 1e6:.2f} MB", flush=True)
    return later / each <= MOST_PER_FILE


def tries(program, parent, milliseconds):
    """How often a put tried in this time, and the run."""
    with work_folder(parent, ring(milliseconds)) as folder:
        write_files(folder / "in", {"a": b"new"})
        write_files(folder / "out", {"a": b"before"})
        os.sync()
        ended = run(program, folder)
        need_status(ended, DONE)
        need(read_files(folder / "out") == {"a": b"before"}, "out changed")
        state = store_reader.state_of(store_reader.files_in(folder / "store"))
        # Each log but the current one had so many entries. The first entry took the file, the last one let it expire.
        return (state.log - 1) * LOG_ENTRIES + len(state.entries) - 2, ended


def comes_back(program, parent):
    """The time of a try of a put whose failures come back to it."""
    (few, one), (much, two) = tries(program, parent, TRIES), tries(program, parent, 4 * TRIES)
    each, later = one.busy / few, two.busy / much
    print(f"a put whose failures come back to it: {few} tries in {one.seconds:.2f} s, {much} in {two.seconds:.2f} s; "
          f"{each * 1e6:.0f} and {later * 1e6:.0f} microseconds of the processor each: ratio {later / each:.2f}",
          flush=True)
    return later / each <= MOST_PER_FILE


def fans_out(program, parent, times):
    """The time of a file that goes into one queue, and into eight."""
    files = many(500, 4096)
    one = middle([flow(program, parent, files, fan(1)) for _ in range(times)])
    eight = middle([flow(program, parent, files, fan(QUEUES)) for _ in range(times)])
    print(f"500 files into one queue take {one.seconds:.2f} s, into {QUEUES} queues {eight.seconds:.2f} s: "
          f"{one.seconds / 500 / 2 * 1e3:.2f} and {eight.seconds / 500 / (1 + QUEUES) * 1e3:.2f} ms for each session; "
          f"of the processor {one.busy:.2f} and {eight.busy:.2f} s", flush=True)


def machine(parent):
    model = re.search(r"^model name\s*: (.*)$", pathlib.Path("/proc/cpuinfo").read_text(), re.MULTILINE)
    with new_folder(parent) as folder:
        kind = subprocess.run(["stat", "-f", "-c", "%T", folder], stdout=subprocess.PIPE, text=True).stdout.strip()
    return (f"{time.strftime('%Y-%m-%d %H:%M')}, {os.cpu_count()} processors"
            f"{' ' + model.group(1) if model else ''}, Linux {platform.release()}, file system {kind}")


def main():
    parser = options(__doc__)
    parser.add_argument("--times", type=int, default=3, help="runs of each, the median counts (default 3)")
    parser.add_argument("--no-strace", action="store_true", help="leave out the counts of syncs and of calls")
    parser.add_argument("--table", action="store_true",
                        help="print the main table alone, as Markdown; what is said on the way goes to standard error")
    given = parser.parse_args()
    if not given.no_strace and shutil.which("strace") is None:
        sys.exit("strace is missing: install it (on Debian: apt-get install -y strace), or give --no-strace")
    program = find_program(given.program)
    random.seed(1)
    with contextlib.redirect_stdout(sys.stderr if given.table else sys.stdout):
        print(machine(given.folder))
        print(f"bench/run.py --times {given.times}")
        page = Page(given.folder, given.times)
        good = measured(program, given, page)
        print("as demanded" if good else "NOT as demanded")
    if given.table:
        print(page.text())
    sys.exit(0 if good else 1)


def measured(program, given, page):
    """Whether all that is measured is as demanded."""
    folder, times = given.folder, given.times
    compare(program, folder, times, "2,000 files, 8.2 MB", many(2000, 4096), page)
    compare(program, folder, times, "12 files of 16 MiB", many(12, 16 * 1024 * 1024), page)
    good = grows(program, folder, times, page)
    if not given.table:
        good &= grows_far(program, folder, times)
        good &= comes_back(program, folder)
        fans_out(program, folder, times)
    if not given.no_strace:
        good &= count_syncs(program, folder, page)
        good &= count_calls(program, folder, page)
    return good


if __name__ == "__main__":
    main()
