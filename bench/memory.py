#!/usr/bin/env python3
"""The greatest memory of a run of the built program for each type of processor, with contents at their limit.

Each run is of a flow of its own in a new folder: a source or a generator, the processor, and a put. What is told is the
peak of the process's resident memory, as the system counts it (VmHWM), in MiB and as a multiple of the largest content,
16 MiB. It prints a table, which docs/PROCESSORS.md has; with `--limit N` it ends with 1 where a peak is more than N times
the largest content.
"""

import pathlib
import sys

sys.path.insert(0, str(pathlib.Path(__file__).resolve().parent.parent / "tests"))
sys.dont_write_bytecode = True

from flow_texts import flow, let_go, processor, queue, source
from machine import machine
from support import DONE, find_program, in_memory, need_status, options, run, work_folder, write_files

MOST = 16_777_216
MIB = 1024 * 1024

# What the largest content is made of: a line of 64 bytes, with a word, a number and a sign that JSON escapes.
LINE = b"word 0123456789 \"quoted\" and some more text, up to the end of it\n"[:63] + b"\n"
FULL = {"a": LINE * (MOST // len(LINE))}


def one(kind, properties, files, *relationships, terminated=()):
    """A flow that leads what goes to these relationships of a processor to a put, and lets the others go."""
    puts = [let_go("put", "replace")] if relationships else []
    return flow([source("get"), processor("it", kind, properties, terminated), *puts],
                [queue("new", "get", "it"),
                 *(queue(f"to-{name}", "it", "put", name) for name in relationships)]), files


def cases():
    own = {f"p{number:02}": f"(w)(o)(r)(d) [0-9]+|{number}" for number in range(64)}
    attributes = {f"k{number:02}": "\"" * 990 for number in range(64)}
    joins = flow([source("get"), processor("it", "MergeContent", {"Minimum Number of Entries": "1000"},
                                           ["original", "failure"]), let_go("put", "replace")],
                 [queue("new", "get", "it"), queue("joined", "it", "put", "merged")])
    to_json = flow([source("get"), processor("set", "UpdateAttribute", attributes, ["failure"]),
                    processor("it", "AttributesToJSON", {"Destination": "flowfile-content"}, ["failure"]),
                    let_go("put", "replace")],
                   [queue("new", "get", "set"), queue("set", "set", "it"), queue("json", "it", "put")])
    longest = {f"k{number:02}": "${filename:append('" + "x" * 900 + "'):replace('x', '" + "y" * 32 + "')"
                                ":substringAfter('y'):length()}" for number in range(64)}
    fails = ("success", "failure")
    yield "GetFile, PutFile", "a file of 16 MiB", (flow([source("get"), let_go("put", "replace")],
                                                        [queue("new", "get", "put")]), FULL)
    yield "UpdateAttribute", "64 values whose texts are long on the way", one("UpdateAttribute", longest, FULL, *fails)
    yield "RouteOnAttribute", "64 relationships, all true, one of them led on", one(
        "RouteOnAttribute", {name: "${filename:isEmpty():not()}" for name in own}, FULL, "p00",
        terminated=[*list(own)[1:], "unmatched"])
    yield "AttributesToJSON", "attributes of 64 KiB, each byte escaped", (to_json, FULL)
    yield "DuplicateFlowFile", "999 copies of 16 MiB", one(
        "DuplicateFlowFile", {"Number of Copies": "999"}, FULL, terminated=["success"])
    yield "CryptographicHashContent", "16 MiB", one("CryptographicHashContent", {}, FULL, *fails)
    yield "SplitText", "16 MiB in 9,893 parts", one("SplitText", {"Line Split Count": "27"}, FULL, "original",
                                                     "failure", terminated=["splits"])
    yield "SegmentContent", "16 MiB in 9,987 parts", one("SegmentContent", {"Segment Size": "1680"}, FULL, "original",
                                                          "failure", terminated=["segments"])
    yield "ReplaceText", "each byte of 16 MiB by itself", one(
        "ReplaceText", {"Search Value": "(?s)(.)", "Replacement Value": "$1"}, FULL, *fails)
    yield "ReplaceText", "1 MiB made 16 MiB", one(
        "ReplaceText", {"Search Value": "x", "Replacement Value": "0123456789abcdef"}, {"a": b"x" * MIB}, *fails)
    yield "ReplaceText", "60 kB that would make 3.6 GB", one(
        "ReplaceText", {"Search Value": ".", "Replacement Value": "x" * 60_000}, {"a": b"a" * 60_000}, *fails)
    yield "ReplaceText", "400 kB that would make 24 GB", one(
        "ReplaceText", {"Search Value": ".", "Replacement Value": "x" * 60_000}, {"a": b"a" * 400_000}, *fails)
    yield "ReplaceText", "16 MiB that would make 480 GB", one(
        "ReplaceText", {"Search Value": "(?s).*", "Replacement Value": "$0" * 30_000}, FULL, *fails)
    yield "ReplaceText", "a text in 16 MiB by one as long", one(
        "ReplaceText", {"Replacement Strategy": "Literal Replace", "Search Value": "word", "Replacement Value": "WORD"},
        FULL, *fails)
    yield "ExtractText", "64 patterns with four groups over 16 MiB", one(
        "ExtractText", own, FULL, "matched", "unmatched")
    yield "RouteOnContent", "64 patterns over 16 MiB, one of them led on", one(
        "RouteOnContent", own, FULL, "p00", terminated=[*list(own)[1:], "unmatched"])
    yield "ModifyBytes", "16 MiB but for a byte", one("ModifyBytes", {"Start Offset": "1"}, FULL, "success")
    yield "MergeContent", "1,000 files, 16 MiB together", (
        joins, {f"{number:04}": LINE * (MOST // len(LINE) // 1000) for number in range(1000)})


def main():
    parser = options(__doc__)
    parser.add_argument("--limit", type=float, help="how many times the largest content a run may take")
    given = parser.parse_args()
    program = find_program(given.program)
    worst = 0
    print(f"{machine()}\n")
    print("| type | with | MiB | times the largest content |\n|---|---|---|---|")
    for kind, what, (text, files) in cases():
        with work_folder(in_memory(given.folder), text) as folder:
            write_files(folder / "in", files)
            ended = run(program, folder)
            need_status(ended, DONE)
        worst = max(worst, ended.peak / MOST)
        print(f"| {kind} | {what} | {ended.peak / MIB:.0f} | {ended.peak / MOST:.1f} |", flush=True)
    if given.limit is not None and worst > given.limit:
        sys.exit(f"the greatest is {worst:.1f} times the largest content")


main()
