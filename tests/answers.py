#!/usr/bin/env python3
"""Small runs and queries, one after the other over real folders, each with its status and the very text that it prints.

All is data: the flow's text, what stands in the folders before, the words, and what stands there afterwards. The stores
that stand before are written from the format alone, so that identifiers are known; times of the clock are masked.
"""

import hashlib
import re
import subprocess
import typing

import printed
import store_format
from flow_texts import flow, generator, let_go, processor, queue, source
from printed import USAGE_LINE
from store_format import (ATTRIBUTES_MODIFIED, CLONE, CLOSED, CREATE, DROP, FORK, JOIN, RECEIVE, ROUTE, SEND, Begin,
                          Content, Event, FlowFile, Writer, block, entry, frame)
from support import (ABSENT, BLOCKED, DAMAGED, DISK, DONE, INBOX, LIMIT, OUTBOX, REFUSED, SINK, SOURCE, THE_TEXT, USAGE,
                     Report, find_program, in_memory, need, new_folder, options, photo, put_flow, read_files,
                     write_files)

# The id of the stores that stand before, and the identifiers of their files.
STORE = 0x123456789abcde
FILES = [f"01234567-89ab-8cde-8000-{number:012x}" for number in range(6)]
NOBODY = "00000000-0000-0000-0000-000000000000"

# What a time of the clock is told as. The stores that stand before tell 1000.
NOW = "0"


class Case(typing.NamedTuple):
    """Words, each with the status and the text that come, in a folder in which these files stand before and afterwards.

    Only the folders that are named are compared. Where `full` is set, the output takes nothing."""
    what: str
    asked: tuple
    text: bytes | None = THE_TEXT
    before: dict = {}
    after: dict = {}
    full: bool = False


def new_store(text=THE_TEXT):
    return Writer(state=store_format.new_state(STORE, store_format.flow_of(text))).files()


def digest(content):
    return hashlib.sha256(content).digest()


def event(number, kind, component, file, content, detail="", parents=(), children=()):
    told = Event(number, kind, 0, component, file, parents, children, detail, len(content), digest(content))
    return printed.event_line(STORE, told)


# ---- a file that comes and goes

A = {"a.txt": b"hi"}
COME_AND_GONE = "connection c1 0 0\ninbox 0\nevent RECEIVE 1\nevent SEND 1\nevent DROP 1\n"
TWICE = "connection c1 0 0\ninbox 0\nevent RECEIVE 2\nevent SEND 2\nevent DROP 2\n"
NOTHING = "connection c1 0 0\ninbox 0\n"

TAKEN = Writer(STORE).get("a.txt", b"hi").files()
GONE = Writer(STORE).get("a.txt", b"hi").put().files()

# A stop before the file's session was acknowledged: its content and its event stand there already, and its entry may
# stand behind the closed gate.
NEW = new_store()
UNACKNOWLEDGED = {**TAKEN, "log-1": NEW["log-1"]}
BEHIND_THE_GATE = {**TAKEN, "log-1": NEW["log-1"] + TAKEN["log-1"][len(NEW["log-1"]):]}

HI = "8f434346648f6b96df89dda901c5176b10a6d83961dd3c1ac88b59b2dc327aa4"
THREE_EVENTS = "".join(
    f'{{"children":[],"component":"{component}","detail":"{detail}","digest":"{HI}","event":{number},"kind":"{kind}",'
    f'"moment":1000,"parents":[],"size":2,"uuid":"01234567-89ab-8cde-8000-000000000001"}}\n'
    for number, component, detail, kind in ((1, "get", "a.txt", "RECEIVE"), (2, "put", "a.txt", "SEND"),
                                            (3, "put", "success", "DROP")))

COMES_AND_GOES = (
    Case("a file", ((["run"], DONE, COME_AND_GONE),), before={"in": A}, after={"in": {}, "out": A}),
    Case("an empty file", ((["run"], DONE, COME_AND_GONE),), before={"in": {"e": b""}},
         after={"in": {}, "out": {"e": b""}}),
    Case("nothing", ((["run"], DONE, NOTHING), (["check"], DONE, "store sound: files 0, events 0\n"),
                     (["queues"], DONE, "connection c1 0 0\n"), (["events"], DONE, "")), before={"in": {}},
         after={"out": {}}),
    Case("a stop before the file's session: its content and its event don't count",
         ((["check"], DONE, "store sound: files 0, events 0\n"), (["run"], DONE, COME_AND_GONE)),
         before={"in": A, "store": UNACKNOWLEDGED}, after={"in": {}, "out": A}),
    Case("a stop before the file's session, with its entry behind the closed gate",
         ((["check"], DONE, "store sound: files 0, events 0\n"), (["run"], DONE, COME_AND_GONE)),
         before={"in": A, "store": BEHIND_THE_GATE}, after={"in": {}, "out": A}),
    Case("a stop before the file is removed from the inbox: it comes twice",
         ((["check"], DONE, "store sound: files 1, events 1\n"),
          (["queues"], DONE, f"connection c1 1 2\nfile {FILES[1]} 2\n"), (["content", FILES[1]], DONE, "hi"),
          (["run"], DONE, TWICE)), before={"in": A, "store": TAKEN}, after={"in": {}, "out": A}),
    Case("what is told of a file that has gone",
         ((["check"], DONE, "store sound: files 0, events 3\n"), (["queues"], DONE, "connection c1 0 0\n"),
          (["events"], DONE, THREE_EVENTS), (["lineage", FILES[1]], DONE, f"file {FILES[1]}\n{THREE_EVENTS}"),
          (["lineage", f"urn:uuid:{FILES[1].upper()}"], DONE, f"file {FILES[1]}\n{THREE_EVENTS}"),
          (["content", FILES[1]], ABSENT, f"absent: {FILES[1]}\n"),
          (["lineage", FILES[2]], ABSENT, f"absent: {FILES[2]}\n"), (["lineage", NOBODY], ABSENT, f"absent: {NOBODY}\n"),
          (["content", FILES[1].replace("-", "").upper()], ABSENT, f"absent: {FILES[1]}\n")),
         before={"store": GONE}, after={"store": GONE}),
    Case("a greater log of one byte is none", ((["check"], DONE, "store sound: files 0, events 3\n"),),
         before={"store": {**GONE, "log-2": b"\x5a"}}, after={"store": {**GONE, "log-2": b"\x5a"}}),
    Case("a file that is too large is left, and counted",
         ((["run"], DONE, "connection c1 0 0\ninbox 1\nevent RECEIVE 1\nevent SEND 1\nevent DROP 1\n"),),
         before={"in": {"m": bytes(16_777_216), "n": bytes(16_777_217)}}, after={"out": {"m": bytes(16_777_216)}}),
)


# ---- sessions that are counted

TEN = {f"a{n}": b"hi" for n in range(10)}

COUNTED = (
    Case("five sessions of ten files, and the rest",
         ((["run", "--threads", "1", "--max-commits", "5"], LIMIT,
           "connection c1 1 2\ninbox 7\nevent RECEIVE 3\nevent SEND 2\nevent DROP 2\nlimit: journal 5\n"),
          (["queues"], DONE, f"connection c1 1 2\nfile {FILES[3]} 2\n"),
          (["run"], DONE, "connection c1 0 0\ninbox 0\nevent RECEIVE 10\nevent SEND 10\nevent DROP 10\n")),
         before={"in": TEN, "store": NEW}, after={"in": {}, "out": TEN}),
)


# ---- flows of several processors

COPIES = flow([generator("gen", 2, "x"), processor("dup", "DuplicateFlowFile", {"Number of Copies": "4"}),
               let_go("put", "replace")], [queue("c1", "gen", "dup"), queue("c2", "dup", "put", objects=2)])

ALL_COPIES = ("connection c1 0 0\nconnection c2 0 0\ninbox 0\nevent CREATE 2\nevent CLONE 8\nevent SEND 10\n"
              "event DROP 10\n")

RING = flow([generator("gen", 3, "x"), processor("a", "UpdateAttribute", {}, ["failure"]),
             processor("b", "UpdateAttribute", {}, ["failure"])],
            [queue("in", "gen", "a"), queue("ab", "a", "b", objects=1), queue("ba", "b", "a", objects=1)])

THREE_WAYS = flow([generator("gen", 1), let_go("put", "replace")],
                  [queue("c1", "gen", "put"), queue("c2", "gen", "put", expiration=1), queue("c3", "gen", "put")])

ERRORS = flow([source("get"), processor("split", "SplitText", {"Line Split Count": "1"}, ["original", "failure"]),
               processor("route", "RouteOnContent",
                         {"Match Requirement": "content must contain match", "errors": "ERROR"}, ["unmatched"]),
               processor("merge", "MergeContent", {}, ["original", "failure"]),
               processor("name", "UpdateAttribute", {"filename": "${filename:append('.errors')}"}, ["failure"]),
               let_go("put", "fail")],
              [queue("lines", "get", "split"), queue("parts", "split", "route", "splits"),
               queue("errors", "route", "merge", "errors"), queue("merged", "merge", "name", "merged"),
               queue("named", "name", "put")])
LOG = [b"INFO start\n", b"ERROR disk\n", b"INFO stop\n"]


def cloned():
    """A store behind the session of a generator whose file went three ways, two as clones, long ago."""
    state = store_format.new_state(STORE, store_format.flow_of(THREE_WAYS))
    nothing = Content(0, 0, 0, digest(b""))
    for number in (1, 2, 3):
        state.files[number] = FlowFile(number - 1, number, (("filename", "x"),), nothing, 1000, 0, number)
    state.events = [Event(1, CREATE, 1000, "gen", 1, (), (), "", 0, nothing.digest),
                    *(Event(number, CLONE, 1000, "gen", 1, (1,), (number,), "", 0, nothing.digest)
                      for number in (2, 3))]
    state.counts, state.next_number, state.next_arrival, state.last_event = (1, 0), 4, 4, 3
    return Writer(state=state).files()


# Of the file 1 come the lines 2 to 4, and of the line 3 the merged file 5. The turn goes on from the processor that had
# it: so the first line is routed, then the second, which goes out by the others, then the third.
OF_ERRORS = "".join((
    event(1, RECEIVE, "get", 1, b"".join(LOG), "app.log"),
    event(2, FORK, "split", 1, b"".join(LOG), "", (1,), (2, 3, 4)),
    event(3, DROP, "split", 1, b"".join(LOG), "original"),
    event(4, ROUTE, "route", 2, LOG[0], "unmatched"),
    event(5, DROP, "route", 2, LOG[0], "unmatched"),
    event(6, ROUTE, "route", 3, LOG[1], "errors"),
    event(7, JOIN, "merge", 5, LOG[1], "", (3,), (5,)),
    event(8, DROP, "merge", 3, LOG[1], "original"),
    event(9, ATTRIBUTES_MODIFIED, "name", 5, LOG[1]),
    event(10, SEND, "put", 5, LOG[1], "app.log.errors"),
    event(11, DROP, "put", 5, LOG[1], "success"),
    event(12, ROUTE, "route", 4, LOG[2], "unmatched"),
    event(13, DROP, "route", 4, LOG[2], "unmatched")))

FLOWS = (
    Case("copies into a queue that is full with two",
         ((["run", "--threads", "1", "--max-commits", "2"], LIMIT,
           "connection c1 0 0\nconnection c2 5 5\ninbox 0\nevent CREATE 1\nevent CLONE 4\nlimit: journal 2\n"),
          # The generator's second file waits until the queue has fewer than two.
          (["run", "--threads", "1", "--max-commits", "5"], LIMIT,
           "connection c1 1 1\nconnection c2 1 1\ninbox 0\nevent CREATE 2\nevent CLONE 4\nevent SEND 4\nevent DROP 4\n"
           "limit: journal 5\n"),
          (["run"], DONE, ALL_COPIES)), COPIES),
    Case("copies, in one run", ((["run"], DONE, ALL_COPIES),), COPIES),
    Case("one of three ways lets nothing wait",
         ((["run"], DONE, "connection c1 0 0\nconnection c2 0 0\nconnection c3 0 0\ninbox 0\nevent CREATE 1\n"
           "event CLONE 2\nevent SEND 2\nevent DROP 2\nevent EXPIRE 1\n"),),
         THREE_WAYS, before={"store": cloned()}, after={"out": {"x": b""}}),
    Case("a ring that is full",
         ((["run", "--threads", "1"], BLOCKED,
           "connection in 1 1\nconnection ab 1 1\nconnection ba 1 1\ninbox 0\nevent CREATE 3\nblocked: ab\n"),
          (["queues"], DONE, f"connection in 1 1\nfile {FILES[3]} 1\nconnection ab 1 1\nfile {FILES[2]} 1\n"
           f"connection ba 1 1\nfile {FILES[1]} 1\n"),
          (["content", FILES[2]], DONE, "x"), (["check"], DONE, "store sound: files 3, events 3\n")),
         RING, before={"store": new_store(RING)}),
    Case("the errors of a log, and where they came from",
         ((["run"], DONE, "connection lines 0 0\nconnection parts 0 0\nconnection errors 0 0\nconnection merged 0 0\n"
           "connection named 0 0\ninbox 0\nevent RECEIVE 1\nevent FORK 1\nevent JOIN 1\nevent ATTRIBUTES_MODIFIED 1\n"
           "event ROUTE 3\nevent SEND 1\nevent DROP 5\n"),
          (["lineage", FILES[1]], DONE, f"file {FILES[1]}\ndescendant {FILES[2]}\ndescendant {FILES[3]}\n"
           f"descendant {FILES[4]}\ndescendant {FILES[5]}\n{OF_ERRORS}"),
          (["events"], DONE, OF_ERRORS), (["check"], DONE, "store sound: files 0, events 13\n")),
         ERRORS, before={"in": {"app.log": b"".join(LOG)}, "store": new_store(ERRORS)},
         after={"in": {}, "out": {"app.log.errors": LOG[1]}}),
)


# ---- refusals

# The store is of the text with one blank less.
WIDER = THE_TEXT.replace(b'"c1"', b' "c1"')

# The second processor has a type that there isn't, and the id of the first.
MISTAKEN = flow([source("get"), {**let_go("get", "replace"), "type": "GetFiles"}], [queue("c1", "get", "put")])

TOLD_BEGIN = block(*entry(Begin(1)))[-store_format.DIGEST:]
KEPT_BEGIN = bytes([TOLD_BEGIN[0] ^ 1]) + TOLD_BEGIN[1:]
FLIPPED = {**GONE, "log-1": GONE["log-1"].replace(TOLD_BEGIN, KEPT_BEGIN, 1)}
DAMAGED_LOG = f"damaged: log 1 at 0 kept {KEPT_BEGIN.hex()} found {TOLD_BEGIN.hex()}\n"

# Files of each kind, damaged, and what is told of them.
DAMAGES = {
    "a log that ends in its last entry": ({**GONE, "log-1": GONE["log-1"][:-2]},
                                          f"log 1 at {len(TAKEN['log-1']) - 1} short"),
    "a log that begins as another": ({**GONE, "log-1": frame(Begin(2)) + CLOSED}, "log 1 at 0 form"),
    "no snapshot": ({**GONE, "snapshot-1": b""}, "snapshot 1 at 0 short"),
    "a snapshot of an End alone": ({**GONE, "snapshot-1": block(store_format.END, bytes(8))}, "snapshot 1 at 0 form"),
    "no claim": ({**TAKEN, "claim-0": b""}, "claim 0 at 0 short"),
    "another content": ({**TAKEN, "claim-0": b"ho"}, f"claim 0 at 0 kept {HI} found {digest(b'ho').hex()}"),
    "no events": ({**GONE, "events-0": b""}, "events 0 at 0 short"),
    "a block of another kind among the events": ({**GONE, "events-0": block(store_format.END, bytes(8))},
                                                 "events 0 at 0 form"),
    "a batch where no store is": ({"swap-1": b"x"}, "swap 1 at 0 form"),
    "a claim where no store is": ({"claim-3": b"x"}, "claim 3 at 0 form"),
}


def used_up():
    """A store that has no number left for a file."""
    state = store_format.new_state(STORE)
    state.next_number = store_format.NUMBER_LIMIT - 1
    return Writer(state=state).files()


REFUSED_RUNS = (
    Case("a store of a text with one blank less", ((["run"], REFUSED, "flow refused: rule 13 at /\n"),
                                                   (["check"], DONE, "store sound: files 0, events 3\n")),
         WIDER, before={"in": A, "store": GONE}, after={"in": A, "out": {}, "store": GONE}),
    Case("a processor of a type that there isn't",
         ((["run"], REFUSED, "flow refused: rule 3 at /processors/1/type\n"),), MISTAKEN, before={"in": A},
         after={"in": A, "out": {}, "store": {}}),
    Case("a text that is cut", ((["run"], REFUSED, "flow refused: rule 1 at /\n"),), THE_TEXT[:-3], before={"in": A},
         after={"in": A, "out": {}, "store": {}}),
    Case("a bit of a log's first digest", ((["check"], DAMAGED, DAMAGED_LOG), (["run"], DAMAGED, DAMAGED_LOG),
                                           (["events"], DAMAGED, DAMAGED_LOG), (["queues"], DAMAGED, DAMAGED_LOG),
                                           (["content", FILES[1]], DAMAGED, DAMAGED_LOG),
                                           (["lineage", FILES[1]], DAMAGED, DAMAGED_LOG)),
         before={"in": A, "store": FLIPPED}, after={"in": A, "out": {}, "store": FLIPPED}),
    *(Case(f"damage: {what}", ((["check"], DAMAGED, f"damaged: {told}\n"), (["run"], DAMAGED, f"damaged: {told}\n")),
           before={"in": A, "store": files}, after={"in": A, "out": {}, "store": files})
      for what, (files, told) in DAMAGES.items()),
    Case("no numbers are left",
         ((["run"], LIMIT, "connection c1 0 0\ninbox 1\nlimit: numbers 4611686018427387903\n"),),
         before={"in": A, "store": used_up()}, after={"in": A, "out": {}}),
    Case("no thread", ((["run", "--threads", "0"], USAGE, USAGE_LINE.decode()),), before={"in": A}, after={"in": A}),
)


# ---- devices that fail

FAULTS = (
    Case("the store is a file", ((["run"], DISK, "disk fault\n"), (["check"], DISK, "disk fault\n")),
         before={"in": A, "store": b"no folder"}, after={"in": A, "out": {}}),
    Case("the inbox is a file", ((["run"], INBOX, "inbox fault\n"),), before={"in": b"no folder"}, after={"out": {}}),
    Case("the outbox is a file: what was taken waits in the store",
         ((["run"], OUTBOX, "outbox fault\n"), (["queues"], DONE, f"connection c1 1 2\nfile {FILES[1]} 2\n"),
          (["content", FILES[1]], DONE, "hi")), before={"in": A, "out": b"no folder", "store": NEW}, after={"in": {}}),
    Case("there is no text", ((["run"], SOURCE, "source fault\n"),), None, before={"in": A},
         after={"in": A, "out": {}, "store": {}}),
    Case("the output takes nothing", ((["run"], SINK, None),), before={"in": A}, after={"in": {}, "out": A}, full=True),
    Case("the output of queries takes nothing",
         tuple((words, SINK, None) for words in (["check"], ["events"], ["queues"], ["lineage", FILES[1]])),
         before={"store": GONE}, after={"store": GONE}, full=True),
    Case("the output takes no refusal: its status stays",
         ((["run"], DAMAGED, None), (["content", FILES[1]], DAMAGED, None), (["runs"], USAGE, None)),
         before={"in": A, "store": FLIPPED}, after={"in": A, "store": FLIPPED}, full=True),
)


def stand(folder, before):
    for name, files in before.items():
        if isinstance(files, bytes):
            write_files(folder, {name: files})
        else:
            write_files(folder / name, files)


def ask(program, folder, words, full):
    """The status and the text, in which times of the clock are masked; no text where the output takes nothing."""
    with open("/dev/full" if full else "/dev/null", "wb") as output:
        ended = subprocess.run([program, *words], cwd=folder, stdin=subprocess.DEVNULL,
                               stdout=output if full else subprocess.PIPE, stderr=subprocess.STDOUT, timeout=120,
                               check=False)
    said = None if full else re.sub(r'"moment":\d{13}\b', f'"moment":{NOW}', ended.stdout.decode())
    return ended.returncode, said


def holds(folder, name, files):
    there = read_files(folder / name)
    if name == "store":
        # An empty file counts as none, and the lock is none of a store's files.
        there, files = ({key: data for key, data in store.items() if data and key != "lock"}
                        for store in (there, files))
    need(there == files, f"{name} holds {sorted(there)}, or other bytes")


def try_case(program, parent, case):
    with new_folder(parent) as folder:
        if case.text is not None:
            put_flow(folder, case.text)
        stand(folder, case.before)
        for words, status, text in case.asked:
            before = photo(folder) if words[0] != "run" else None
            told = ask(program, folder, words, case.full)
            need(told == (status, text), f"{words}: {told[0]} and {told[1]!r}, wanted are {status} and {text!r}")
            need(before is None or photo(folder) == before, f"{words} changed something")
        for name, files in case.after.items():
            holds(folder, name, files)


def main():
    given = options(__doc__.splitlines()[0]).parse_args()
    program, parent = find_program(given.program), in_memory(given.folder)
    report = Report()
    for case in (*COMES_AND_GOES, *COUNTED, *FLOWS, *REFUSED_RUNS, *FAULTS):
        report.case(case.what, try_case, program, parent, case)
    report.end()


if __name__ == "__main__":
    main()
