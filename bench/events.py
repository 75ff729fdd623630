#!/usr/bin/env python3
"""How the queries' time and memory grow with the events of a store, and with the files that wait.

The stores are made by runs of the program, in memory, if the system has a folder there: generated files are copied 999
times each, and all of these go, which makes 2,000 events for each; beside them a text of ten lines and one of 9,999 are
split. Each query's text goes nowhere. What is told of a query is the processor's time, the time for each event
beside that of the first store, and the peak of memory: 1.00 is a straight line. The same for files that wait.
"""

import os
import pathlib
import subprocess
import sys

sys.path.insert(0, str(pathlib.Path(__file__).resolve().parent.parent / "tests"))
sys.dont_write_bytecode = True

from flow_texts import flow, generator, processor, queue, source
from machine import machine
from support import DONE, LIMIT, Memory, find_program, in_memory, need, options, work_folder, write_files

# The files that are generated for a store: some 62,500, 250,000 and 1,000,000 events come of them.
GENERATED = (31, 125, 500)
COPIES = 999

# How many lines the two texts have that are split: as many relatives has each.
RELATIVES = {"10": 10, "10000": 9_999}

# How often a file is copied: after each time a session lets one of the 1,000 files go, and the others wait.
WAITING = (25, 100)

# Connections in which nothing waits, beside the two that lead to the files which do.
IDLE = (0, 200)


def events_text(count):
    """Copies that go, and a text that is split."""
    return flow([generator("make", count, "x"),
                 processor("copy", "DuplicateFlowFile", {"Number of Copies": str(COPIES)}, ["success"]), source("get"),
                 processor("split", "SplitText", {"Line Split Count": "1"}, ["original", "splits", "failure"])],
                [queue("made", "make", "copy"), queue("texts", "get", "split")])


def waiting_text(idle):
    """Copies that wait, and processors in a row that nothing comes to."""
    row = [processor(f"idle-{n}", "UpdateAttribute", {}, ["failure"]) for n in range(idle)]
    last = processor("last", "UpdateAttribute", {}, ["success", "failure"])
    ways = [queue(f"row-{n}", f"idle-{n}", f"idle-{n + 1}" if n + 1 < idle else "last") for n in range(idle)]
    return flow([generator("make", 1_000, "x"),
                 processor("copy", "DuplicateFlowFile", {"Number of Copies": str(COPIES)}),
                 processor("go", "UpdateAttribute", {}, ["success", "failure"]), *row, *([last] if row else [])],
                [queue("made", "make", "copy"), queue("copies", "copy", "go", objects=0, bytes=0), *ways])


def measure(program, folder, *words, status=DONE):
    """The processor's time of a command, and its peak of memory."""
    child = subprocess.Popen([program, *words], cwd=folder, stdin=subprocess.DEVNULL, stdout=subprocess.DEVNULL)
    memory = Memory(child.pid)
    _, ended, used = os.wait4(child.pid, 0)
    memory.stop()
    child.returncode = os.waitstatus_to_exitcode(ended)
    need(child.returncode == status, f"{words} ended with {child.returncode}")
    return used.ru_utime + used.ru_stime, memory.peak


def ask(program, folder, *words):
    return subprocess.run([program, *words], cwd=folder, stdout=subprocess.PIPE, text=True, check=True).stdout


class Table:
    """The lines of the figures, each beside the one of the same name in the first store."""

    def __init__(self):
        self.first = {}

    def line(self, name, count, seconds, peak):
        each = seconds / count
        beside = f"{each / self.first.setdefault(name, each):.2f}"
        print(f"| {name} | {count:,} | {seconds:.2f} | {beside} | {peak / 1e6:.1f} |", flush=True)


def uuid_of(first, number):
    """The identifier of a file, from that of any file of the store."""
    return f"{first[:24]}{number:012x}"


def named(program, folder, name):
    """The number of the file that came under a name, and the store's first identifier."""
    found = subprocess.run(["bash", "-c", f'"$0" events | grep -m 1 -F \'"detail":"{name}"\'', program], cwd=folder,
                           stdout=subprocess.PIPE, text=True, check=False).stdout
    return found[found.index('"uuid":"') + 8:][:36]


def with_events(program, parent, count, table):
    with work_folder(parent, events_text(count)) as folder:
        write_files(folder / "in", {name: b"".join(b"%d\n" % line for line in range(lines))
                                    for name, lines in RELATIVES.items()})
        made = measure(program, folder, "run")
        events = int(ask(program, folder, "check").split()[-1])
        table.line("the run that makes them", events, *made)
        for words in (["events"], ["check"], ["queues"]):
            table.line(words[0], events, *measure(program, folder, *words))
        for name, lines in RELATIVES.items():
            asked = named(program, folder, name)
            lines_told = ask(program, folder, "lineage", asked).count("\ndescendant ")
            need(lines_told == lines, f"it has {lines_told} relatives")
            table.line(f"lineage, {lines:,} relatives", events, *measure(program, folder, "lineage", asked))


def with_waiting(program, parent, count, idle, table):
    with work_folder(parent, waiting_text(idle)) as folder:
        # In turn a file is made, copied, and one goes.
        measure(program, folder, "run", "--max-commits", str(3 * count), status=LIMIT)
        waiting = int(ask(program, folder, "check").split()[3].rstrip(","))
        need(waiting == count * COPIES, f"{waiting} wait")
        table.line(f"queues, {idle + 2} connections", waiting, *measure(program, folder, "queues"))
        if not idle:
            table.line("check", waiting, *measure(program, folder, "check"))


def main():
    parser = options(__doc__)
    parser.add_argument("--most", type=int, default=GENERATED[-1], help="the most files that are generated")
    given = parser.parse_args()
    program, parent = find_program(given.program), in_memory(given.folder)
    print(machine())
    print("\n| command | events | seconds | for each event, beside the first | MB |\n|---|---|---|---|---|")
    table = Table()
    for count in GENERATED:
        if count <= given.most:
            with_events(program, parent, count, table)
    print("\n| command | files that wait | seconds | for each file, beside the first | MB |\n|---|---|---|---|---|")
    table = Table()
    for idle in IDLE:
        for count in WAITING:
            with_waiting(program, parent, count, idle, table)


if __name__ == "__main__":
    main()
