#!/usr/bin/env python3
"""Twelve tasks that people have, each by a flow written from README.md and docs/FLOW.md alone: what has to arrive is
compared byte for byte, `flow explain` refuses none of the flows, and at the end nothing waits.

Examples solve some of these tasks too (tests/examples.py); the flows here are others."""

import hashlib
import json
import os
import subprocess
import sys
import time

from flow_texts import flow, generator, let_go, processor, put, queue, source, state_of
from support import (BLOCKED, DONE, ROOT, Report, find_program, in_memory, names, need, need_status, new_folder,
                     options, put_flow, read_files, run, work_folder, write_files)

sys.path.insert(0, str(ROOT / "tools"))

import flow_rules  # noqa: E402

LINES = 100_000


def update(name, **attributes):
    return processor(name, "UpdateAttribute", attributes)


def replace(name, search, value):
    return processor(name, "ReplaceText", {"Search Value": search, "Replacement Value": value})


def both(name, origin, to, *relationships):
    return {"id": name, "from": origin, "to": to, "relationships": list(relationships or ("success", "failure"))}


def digest(content):
    return hashlib.sha256(content).hexdigest()


def receipt(content):
    return json.dumps({"content_SHA-256": digest(content)}, separators=(",", ":")).encode()


# Each task: the flow, what is handed in, what stands in `out` before, what stands there at the end, and what stays.
LOG = "".join(f"{n} {'ERROR' if n % 1000 == 0 else 'INFO'} line {n}\n" for n in range(LINES)).encode()
TABLE = "".join(f"{n};row {n}\n" for n in range(LINES)).encode()

TASKS = {
    "files are moved by a pattern of their names": (
        flow([source("get", r"report-\d+\.csv"), put("put", "fail", "success"), update("late", filename="${uuid}"),
              let_go("aside", "replace")],
             [queue("new", "get", "put"), queue("there", "put", "late", "failure"), both("named", "late", "aside")]),
        {"report-1.csv": b"1", "report-22.csv": b"", "report-x.csv": b"x", "a report-1.csv": b"a",
         "report-1.csv.gz": b"z"},
        {}, {"report-1.csv": b"1", "report-22.csv": b""}, ["a report-1.csv", "report-1.csv.gz", "report-x.csv"]),
    "files are routed by their names, and renamed": (
        flow([source("get"),
              processor("route", "RouteOnAttribute", {"bills": "${filename:startsWith('bill')}",
                                                      "letters": "${filename:endsWith('.txt')}"}),
              update("bill", filename="bill of ${filename:substringAfter('bill-')}"),
              update("letter", filename="${filename:substringBefore('.')}.letter"), let_go("put", "replace")],
             [queue("new", "get", "route"), queue("b", "route", "bill", "bills"),
              queue("l", "route", "letter", "letters"), queue("o", "route", "put", "unmatched"),
              both("b2", "bill", "put"), both("l2", "letter", "put")]),
        {"bill-7.pdf": b"7", "hello.txt": b"h", "bill-8.txt": b"8", "other": b"o"},
        {}, {"bill of 7.pdf": b"7", "hello.letter": b"h", "bill of 8.txt": b"8", "bill-8.letter": b"8", "other": b"o"}),
    "errors are taken out of a log of 100,000 lines": (
        flow([source("get", r".*\.log"), replace("keep", r"(?m)^(.*\bERROR\b.*\n)|^.*\n", "$1"),
              update("name", filename="${filename:replace('.log', '.errors')}"),
              update("bad", filename="${filename}.bad"), let_go("put", "replace")],
             [queue("new", "get", "keep"), queue("kept", "keep", "name"), queue("not", "keep", "bad", "failure"),
              both("named", "name", "put"), both("marked", "bad", "put")]),
        {"a.log": LOG, "none.log": b"1 INFO\n2 INFO\n", "empty.log": b"", "raw.log": b"\xff ERROR\n"},
        {}, {"a.errors": b"".join(line for line in LOG.splitlines(True) if b"ERROR" in line), "none.errors": b"",
             "empty.errors": b"", "raw.log.bad": b"\xff ERROR\n"}),
    "a digest is put beside each file": (
        flow([source("get"), processor("hash", "CryptographicHashContent"),
              processor("write", "AttributesToJSON", {"Destination": "flowfile-content",
                                                      "Attributes List": "content_SHA-256"}),
              update("name", filename="${filename}.sha256"), let_go("put", "replace")],
             [queue("new", "get", "hash"), both("files", "hash", "put"), queue("copies", "hash", "write"),
              both("written", "write", "name"), both("named", "name", "put")]),
        {"a": b"a", "b": b"", "c": TABLE}, {},
        {"a": b"a", "b": b"", "c": TABLE, "a.sha256": receipt(b"a"), "b.sha256": receipt(b""),
         "c.sha256": receipt(TABLE)}),
    "each content is kept once": (
        flow([source("get"), processor("hash", "CryptographicHashContent"),
              update("name", filename="${content_SHA-256}"), let_go("put", "ignore")],
             [queue("new", "get", "hash"), both("hashed", "hash", "name"), both("named", "name", "put")]),
        {f"copy {n}": f"content {n % 7}".encode() for n in range(50)}, {},
        {digest(f"content {n}".encode()): f"content {n}".encode() for n in range(7)}),
    "what can't be delivered is tried again, and gives up by its age": (
        flow([source("get"), put("put", "fail", "success", penalty=100)],
             [queue("new", "get", "put"), queue("again", "put", "put", "failure", expiration=1000)]),
        {"there": b"new", "free": b"free"}, {"there": b"old"}, {"there": b"old", "free": b"free"}),
    "passwords are taken out of texts": (
        flow([source("get"), replace("hide", r"(?i)(password\s*[=:]\s*)\S+", "${1}***"),
              update("raw", filename="${filename}.raw"), let_go("put", "replace")],
             [queue("new", "get", "hide"), queue("hidden", "hide", "put"), queue("not", "hide", "raw", "failure"),
              both("named", "raw", "put")]),
        {"a.conf": b"user=x\npassword = s3cret\nPASSWORD:t\n" + TABLE, "b": b"", "c": b"\xffpassword=x"}, {},
        {"a.conf": b"user=x\npassword = ***\nPASSWORD:***\n" + TABLE, "b": b"", "c.raw": b"\xffpassword=x"}),
    "a text of 100,000 lines is split, and joined again": (
        flow([source("get"), processor("split", "SplitText", {"Line Split Count": "500"}, ["original"]),
              replace("work", ";row ", ","), let_go("put", "replace"),
              processor("join", "MergeContent", {"Merge Strategy": "Defragment"}, ["original"])],
             [queue("new", "get", "split"), queue("parts", "split", "work", "splits"),
              queue("whole", "split", "put", "failure"), both("worked", "work", "join"),
              both("joined", "join", "put", "merged", "failure")]),
        {"table": TABLE}, {}, {"table": TABLE.replace(b";row ", b",")}),
    "each file goes to three outputs": (
        flow([source("get"), update("plain", filename="${filename}"), update("backup", filename="backup-${filename}"),
              update("stamped", filename="${filename}.${uuid:length()}"), let_go("put", "replace")],
             [queue("one", "get", "plain"), queue("two", "get", "backup"), queue("three", "get", "stamped"),
              both("p", "plain", "put"), both("b", "backup", "put"), both("s", "stamped", "put")]),
        {"a": b"a", "b": TABLE}, {},
        {"a": b"a", "backup-a": b"a", "a.36": b"a", "b": TABLE, "backup-b": TABLE, "b.36": TABLE}),
    "test data are made": (
        flow([generator("make", 250, "${generate.index};${generate.index:plus(1000)}\n"),
              update("name", filename="test-${generate.index}.csv"), let_go("put", "replace")],
             [queue("made", "make", "name"), both("named", "name", "put")]),
        {}, {}, {f"test-{n}.csv": f"{n};{n + 1000}\n".encode() for n in range(1, 251)}),
}

# A merge that waits for five files, after a queue that is full with three.
JOIN = processor("join", "MergeContent", {"Minimum Number of Entries": "5"}, ["original"])


def narrow(objects):
    return flow([source("get"), JOIN, let_go("put", "replace")],
                [queue("new", "get", "join", objects=objects), both("joined", "join", "put", "merged", "failure")])


class Cases:
    def __init__(self, program, parent):
        self.program = program
        self.parent = parent

    def task(self, text, files, standing, wanted, left=()):
        """What has to arrive does, and nothing else; what no filter passes stays in `in`."""
        self.explained(text)
        with work_folder(self.parent, text) as folder:
            write_files(folder / "in", files)
            write_files(folder / "out", standing)
            need_status(run(self.program, folder), DONE)
            self.arrived(folder, wanted)
            need(names(folder / "in") == sorted(left), f"in has {names(folder / 'in')}")

    @staticmethod
    def explained(text):
        need(not flow_rules.Flow(text).findings, f"`flow explain` refuses it: {flow_rules.Flow(text).findings}")

    @staticmethod
    def arrived(folder, wanted):
        got = read_files(folder / "out")
        lacks, besides = (sorted(set(a) - set(b))[:3] for a, b in ((wanted, got), (got, wanted)))
        need(got == wanted, f"out lacks {lacks}, has {besides} besides, or other bytes")
        need(not state_of(folder).files, "files wait in the store")

    def blocked(self):
        """A flow is blocked, and goes on by the way out that docs/FLOW.md says."""
        files = {f"{n}.txt": f"{n}\n".encode() for n in range(10)}
        with new_folder(self.parent) as parent:
            folder, saved = parent / "flow", parent / "saved"
            folder.mkdir()
            put_flow(folder, narrow(3))
            write_files(folder / "in", files)
            for _ in range(2):
                ended = run(self.program, folder)
                need_status(ended, BLOCKED)
                need(ended.said.endswith(b"blocked: new\n"), f"it said {ended.said!r}")
            need(len(names(folder / "in")) == 7, "more or fewer than three were taken")
            told = subprocess.run([ROOT / "tools" / "rescue", ".", "../saved", "--program", self.program], cwd=folder,
                                  stdout=subprocess.DEVNULL, check=False)
            need(told.returncode == 0, f"tools/rescue ended with {told.returncode}")
            subprocess.run(["rm", "-r", folder / "store"], check=True)
            put_flow(folder, narrow(100))
            for line in (saved / "index.tsv").read_text().splitlines():
                uuid, _, _, name, _ = line.split("\t")
                os.rename(saved / uuid, folder / "in" / name)
            need_status(run(self.program, folder), DONE)
            joined = sorted(read_files(folder / "out").values())
            need(joined == [b"0\n1\n2\n3\n4\n", b"5\n6\n7\n8\n9\n"], f"out has {joined}")
            need(not state_of(folder).files, "files wait in the store")

    def one_after_the_other(self):
        """Two flows one after the other, which run at the same time, deliver each file once."""
        first = flow([source("get"), update("name", filename="${uuid}_${filename}"), let_go("put", "replace")],
                     [queue("new", "get", "name"), both("named", "name", "put")])
        second = flow([source("get"), let_go("put", "replace"),
                       update("name", filename="${filename:substringAfter('_')}")],
                      [queue("new", "get", "name"), both("named", "name", "put")])
        files = {f"{n}.txt": f"{n}".encode() * 100 for n in range(300)}
        with new_folder(self.parent) as parent:
            for name, text in (("first", first), ("second", second)):
                (parent / name).mkdir()
                put_flow(parent / name, text)
                self.explained(text)
            (parent / "first" / "out").mkdir()
            (parent / "second" / "in").symlink_to("../first/out")
            write_files(parent / "first" / "in", files)
            runs = subprocess.Popen([self.program, "run"], cwd=parent / "first", stdout=subprocess.DEVNULL)
            rounds = 0
            while runs.poll() is None or names(parent / "first" / "out"):
                need_status(run(self.program, parent / "second"), DONE)
                rounds += 1
                time.sleep(0.01)
            need(runs.returncode == DONE, f"the first ended with {runs.returncode}")
            need_status(run(self.program, parent / "second"), DONE)
            self.arrived(parent / "first", {})
            self.arrived(parent / "second", files)
        return f"{rounds} runs of the second"


def main():
    given = options(__doc__.splitlines()[0]).parse_args()
    cases = Cases(find_program(given.program), in_memory(given.folder))
    report = Report()
    for what, task in TASKS.items():
        report.case(what, cases.task, *task)
    for body in (cases.blocked, cases.one_after_the_other):
        report.case(body.__doc__.splitlines()[0].rstrip("."), body)
    report.end()


if __name__ == "__main__":
    main()
