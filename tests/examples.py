#!/usr/bin/env python3
"""Runs the flows below examples/ over the data that people have, with the built program.

That is 10,000 lines, empty files, bytes that aren't UTF-8, names as long as a name may be, and the same name again.

No file may get lost but where the example's README says so. What a store still keeps at the end counts as lost here.
"""

import hashlib
import json
import subprocess

from flow_texts import flow, let_go, processor, queue, source, state_of
from store_format import uuid_of
from support import (DONE, ROOT, Report, find_program, in_memory, names, need, need_status, options, read_files, run,
                     work_folder, write_files)

LINES = 10_000

# Bytes that no UTF-8 has.
BROKEN = b"one\n\xff\xfe ERROR password=x\n,1234567812345678\n"

# The longest name that a file may have, in bytes.
NAME_MAX = 255


def long_name(end):
    return "n" * (NAME_MAX - len(end)) + end


def log(lines):
    """Lines of a log, of which each hundredth tells an error, and what a reader wants of them."""
    told = [f"{n} ERROR disk {n}\n" if n % 100 == 7 else f"{n} INFO start\n" if n % 3 else "\n" for n in range(lines)]
    return "".join(told).encode(), "".join(line for line in told if "ERROR" in line).encode()


def table(lines):
    """A table, of which each second line ends in a card number, and what stands in its place."""
    rows = [(f"{n},Ada,4111111111{n:06}\n", f"{n},Ada,************{n % 10000:04}\n") if n % 2 else
            (f"{n},Bob,none\r\n",) * 2 for n in range(lines)]
    return "".join(row[0] for row in rows).encode(), "".join(row[1] for row in rows).encode()


def part(content, number, lines=1000):
    rows = content.splitlines(keepends=True)
    return b"".join(rows[(number - 1) * lines:number * lines])


class Cases:
    def __init__(self, program, parent):
        self.program = program
        self.parent = parent

    def delivers(self, example, *rounds, standing=()):
        """Runs an example over some files, round after round in one folder. After each, `out` holds what was wanted of
        all rounds so far, and the store keeps no file."""
        text = (ROOT / "examples" / example / "flow.json").read_bytes()
        with work_folder(self.parent, text) as folder:
            wanted = dict(standing)
            write_files(folder / "out", wanted)
            for files, more in rounds:
                write_files(folder / "in", files)
                need_status(run(self.program, folder), DONE)
                wanted.update(more)
                got = read_files(folder / "out")
                lacks, besides = (sorted(set(a) - set(b))[:3] for a, b in ((wanted, got), (got, wanted)))
                need(got == wanted, f"out lacks {lacks}, has {besides} besides, or other bytes")
                need(not names(folder / "in"), f"in keeps {names(folder / 'in')[:3]}")
                need(not state_of(folder).files, "files wait in the store")

    def moved(self):
        """`first` and `deliver` move every file, whatever it holds, and a later one takes its name's place."""
        files = {"big": log(LINES)[0], "empty": b"", "broken": BROKEN, long_name(""): b"long"}
        again = {"big": b"smaller", "empty": b"no more"}
        for example in ("first", "deliver"):
            self.delivers(example, (files, files), (again, again))

    def errors(self):
        """Each error line arrives; what can't be searched arrives whole."""
        big, found = log(LINES)
        files = {"big.log": big, "none.log": b"INFO\n\nINFO\n", "empty.log": b"", "broken.log": BROKEN,
                 "open.log": b"INFO\nERROR no line end"}
        out = {"big.log.errors": found, "none.log.errors": b"", "empty.log.errors": b"",
               "broken.log.failed": BROKEN, "open.log.errors": b"ERROR no line end"}
        later = ({"big.log": b"ERROR later\n"}, {"big.log.errors": b"ERROR later\n"})
        self.delivers("errors", (files, out), later, ({long_name(".log"): b"ERROR\n"}, {}))

    def masked(self):
        """Each card number is masked, and a table that can't be searched arrives as it was."""
        big, masked = table(LINES)
        files = {"big.csv": big, "empty.csv": b"", "broken.csv": BROKEN, long_name(".csv"): b"1,2"}
        out = {"big.csv": masked, "empty.csv": b"", "broken.csv.not-masked": BROKEN, long_name(".csv"): b"1,2"}
        self.delivers("mask", (files, out), ({"big.csv": b"a"}, {"big.csv": b"a"}))

    def passwords(self):
        """Each password is hidden in text of many lines."""
        lines = [f"user{n}\tpassword : p{n}\n" if n % 2 else f"line {n}\n" for n in range(LINES)]
        hidden = [f"user{n}\tpassword : (hidden)\n" if n % 2 else f"line {n}\n" for n in range(LINES)]
        files = {"big": "".join(lines).encode(), "empty": b"", "broken": BROKEN, long_name(""): b"Token=1"}
        out = {"big": "".join(hidden).encode(), "empty": b"", "broken.not-searched": BROKEN,
               long_name(""): b"Token=(hidden)"}
        self.delivers("passwords", (files, out), ({"big": b"secret=1"}, {"big": b"secret=(hidden)"}))

    def parts(self):
        """A table arrives in parts and whole; one of too many parts in parts alone."""
        files = {"big.csv": table(LINES)[0], "one.csv": b"no line end", "empty.csv": b"", "broken.csv": BROKEN,
                 "full.csv": b"a\n" * 1000, "more.csv": b"b\n" * 1001}
        out = dict(files)
        for name, content in files.items():
            for number in range(1, -(-len(content.splitlines()) // 1000) + 1):
                out[f"{name}.part-{number}"] = part(content, number)
        many = b"\n" * 1_000_001
        many_out = {f"many.csv.part-{number}": b"\n" * 1000 for number in range(1, 1001)}
        many_out["many.csv.part-1001"] = b"\n"
        named = {long_name(".csv"): b"1\n"}
        self.delivers("parts", (files, out), (named, named), ({"many.csv": many}, many_out))

    def sorted(self):
        """Each file arrives under one name, whatever it is."""
        files = {"a.PNG": BROKEN, "b.csv": log(LINES)[0], "C.CSV": b"", "d": b"other", "e.txt": b""}
        out = {"picture-a.PNG": BROKEN, "table-b.csv": log(LINES)[0], "table-c.csv": b"", "d": b"other", "e.txt": b""}
        self.delivers("sort", (files, out), ({"d": b"again"}, {"d": b"again"}), ({long_name(".csv"): b"lost"}, {}))

    def receipts(self):
        """Each file arrives with its receipt, and one whose receipt can't have a name arrives alone."""
        files = {"big": log(LINES)[0], "empty": b"", "broken": BROKEN}
        out = dict(files)
        for name, content in files.items():
            receipt = {"content_SHA-256": hashlib.sha256(content).hexdigest(), "filename": name}
            out[f"{name}.receipt.json"] = json.dumps(receipt, separators=(",", ":")).encode()
        alone = {long_name(""): b"no receipt"}
        self.delivers("receipts", (files, out), (alone, alone))

    def duplicates(self):
        """Each content arrives once, also when it comes again in a later run."""
        contents = [b"", BROKEN, log(LINES)[0], b"x"]
        files = {f"{n}": contents[n % 4] for n in range(40)} | {long_name(""): b"long"}
        out = {hashlib.sha256(content).hexdigest(): content for content in files.values()}
        self.delivers("duplicates", (files, out), ({"again": b"x"}, {}))

    def kept(self):
        """What stands in the outbox stays, and the newer one arrives beside it."""
        files = {"a.txt": b"new", "b.md": b"", "c.txt": log(LINES)[0]}
        out = {"newer-a.txt": b"new", "b.md": b"", "c.txt": log(LINES)[0]}
        self.delivers("notes", (files, out), ({"a.txt": b"third"}, {"newer-a.txt": b"third"}),
                      standing={"a.txt": b"old"}.items())

    def retried(self):
        """What can't be put is tried three times, and then put under another name."""
        files = {"a": b"new", "b": b""}
        self.delivers("retry", (files, {"late-a": b"new", "b": b""}), ({"a": b"third"}, {"late-a": b"third"}),
                      standing={"a": b"old"}.items())


    def waiting(self):
        """A run ends with 0 though files wait for a merge's minimum, and tools/waiting lists them."""
        merge = processor("merge", "MergeContent", {"Merge Strategy": "Bin-Packing Algorithm",
                                                    "Minimum Number of Entries": "5"}, ["original", "failure"])
        text = flow([source("get"), merge, let_go("put", "replace")],
                    [queue("new", "get", "merge"), queue("merged", "merge", "put", "merged")])
        with work_folder(self.parent, text) as folder:
            self.lists(folder, 2, "")
            write_files(folder / "in", {"a": b"1", "b": b"", "c": b"333"})
            need_status(run(self.program, folder), DONE)
            need(not names(folder / "out") and not names(folder / "in"), "files are where they shouldn't be")
            state = state_of(folder)
            wanted = "".join(f"new {uuid_of(state.store, number)} {size} {name}\n"
                             for number, (size, name) in enumerate([(1, "a"), (0, "b"), (3, "c")], 1))
            self.lists(folder, 1, wanted)
            write_files(folder / "in", {"d": b"4", "e": b"5"})
            need_status(run(self.program, folder), DONE)
            self.lists(folder, 0, "")

    def lists(self, folder, status, wanted):
        """tools/waiting ends so over a folder, and prints this."""
        told = subprocess.run([ROOT / "tools" / "waiting", folder], stdout=subprocess.PIPE, stderr=subprocess.DEVNULL,
                              text=True, check=False)
        need((told.returncode, told.stdout) == (status, wanted), f"it ended with {told.returncode}: {told.stdout!r}")


def main():
    given = options(__doc__.splitlines()[0]).parse_args()
    cases = Cases(find_program(given.program), in_memory(given.folder))
    report = Report()
    for body in (cases.moved, cases.errors, cases.masked, cases.passwords, cases.parts, cases.sorted, cases.receipts,
                 cases.duplicates, cases.kept, cases.retried, cases.waiting):
        report.case(body.__doc__.splitlines()[0].rstrip("."), body)
    report.end()


if __name__ == "__main__":
    main()
