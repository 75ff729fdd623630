#!/usr/bin/env python3
"""Tries the processors that work on attributes with the built program, over real folders.

What each makes of its files shows in the outbox and in the events. Last, a flow of all of them is killed at random
moments and started again until it ends by itself.
"""

import collections
import hashlib
import json
import random
import subprocess

import store_format
import store_reader
from flow_texts import flow, generator, kinds, let_go, processor, queue, source, state_of, told
from store_format import ATTRIBUTES_MODIFIED, CLONE, CONTENT_MODIFIED, CREATE, DROP, RECEIVE, ROUTE, SEND
from support import (DONE, REFUSED, Report, find_program, in_memory, names, need, need_status, options, parse_seeded,
                     photo, read_files, run, start, work_folder, write_files)

BOTH = ("success", "failure")


def through(*processors):
    """A flow of a source, these processors one behind the other by success, and a put that replaces."""
    chain = [source("get"), *processors, let_go("put", "replace")]
    ids = [one["id"] for one in chain]
    return flow(chain, [queue(f"to-{to}", origin, to) for origin, to in zip(ids, ids[1:])])


class Cases:
    def __init__(self, program, parent, count):
        self.program = program
        self.parent = parent
        self.count = count

    def run(self, folder, status=DONE):
        ended = run(self.program, folder)
        need_status(ended, status)
        return ended

    def ends(self, text, files, out):
        """Runs a flow over these files to its end, and gives what its store tells."""
        with work_folder(self.parent, text) as folder:
            write_files(folder / "in", files)
            self.run(folder)
            need(read_files(folder / "out") == out, f"out holds {names(folder / 'out')[:8]}, or other bytes")
            state = state_of(folder)
            need(not state.files, f"the store holds {state.files}")
            return state

    def updates(self):
        """Values are computed over the attributes as they came: names are exchanged, not overwritten."""
        text = through(processor("first", "UpdateAttribute", {"p": "1-${filename}", "q": "2"}, ["failure"]),
                       processor("swap", "UpdateAttribute", {"p": "${q}", "q": "${p}", "uuid": "x"}, ["failure"]),
                       processor("name", "UpdateAttribute", {"filename": "${p}.${q}"}, ["failure"]))
        state = self.ends(text, {"a": b"one"}, {"2.1-a": b"one"})
        need(kinds(state) == {RECEIVE: 1, ATTRIBUTES_MODIFIED: 3, SEND: 1, DROP: 1}, f"the events tell {kinds(state)}")

    def updates_nothing(self):
        """Without own properties nothing is modified, and a value that can't be computed goes to failure, unchanged."""
        text = flow([source("get"), processor("none", "UpdateAttribute", {}, ["failure"]),
                     processor("bad", "UpdateAttribute", {"filename": "b", "n": "${filename:plus(1)}"}, ["success"]),
                     let_go("put", "replace")],
                    [queue("c1", "get", "none"), queue("c2", "none", "bad"), queue("c3", "bad", "put", "failure")])
        state = self.ends(text, {"a": b"one"}, {"a": b"one"})
        need(kinds(state) == {RECEIVE: 1, SEND: 1, DROP: 1}, f"the events tell {kinds(state)}")

    def names_meet(self):
        """Two made files get one name: the first is sent, the other meets it and goes to failure."""
        text = flow([generator("gen", 2, "${generate.index}"),
                     processor("name", "UpdateAttribute", {"filename": "x"}, ["failure"], tasks=2),
                     let_go("put", "fail", tasks=2)],
                    [queue("c1", "gen", "name"), queue("c2", "name", "put")])
        state = self.ends(text, {}, {"x": b"1"})
        need(kinds(state) == {CREATE: 2, ATTRIBUTES_MODIFIED: 2, SEND: 1, DROP: 2}, f"the events tell {kinds(state)}")
        need(told(state)[DROP, "put", "failure"] == 1, f"the events tell {told(state)}")

    def routes(self):
        """A file goes to each own relationship that is true, and to unmatched where none is; each is told."""
        text = flow([source("get"),
                     processor("route", "RouteOnAttribute", {
                         "a": "${filename:startsWith('a')}", "b": "${filename:endsWith('b')}",
                         "n": "${filename:plus(1)}",
                     }),
                     *(processor(f"name-{to}", "UpdateAttribute", {"filename": f"{to}-${{filename}}"}, ["failure"])
                       for to in ("a", "b", "n", "unmatched")),
                     let_go("put", "replace")],
                    [queue("new", "get", "route"),
                     *(queue(f"to-{to}", "route", f"name-{to}", to) for to in ("a", "b", "n", "unmatched")),
                     *(queue(f"put-{to}", f"name-{to}", "put") for to in ("a", "b", "n", "unmatched"))])
        files = {"a": b"1", "b": b"2", "ab": b"3", "c": b"4"}
        out = {"a-a": b"1", "b-b": b"2", "a-ab": b"3", "b-ab": b"3", "unmatched-c": b"4"}
        state = self.ends(text, files, out)
        need(kinds(state) == {RECEIVE: 4, CLONE: 1, ROUTE: 5, ATTRIBUTES_MODIFIED: 5, SEND: 5, DROP: 5},
             f"the events tell {kinds(state)}")
        routed = collections.Counter(event.detail for event in state.events if event.kind == ROUTE)
        need(routed == {"a": 2, "b": 2, "unmatched": 1}, f"they were routed as {routed}")

    def notes_digests(self):
        """The digest that is noted is the content's."""
        text = through(processor("digest", "CryptographicHashContent", {}, ["failure"]),
                       processor("name", "UpdateAttribute", {"filename": "${content_SHA-256}"}, ["failure"]))
        files = {"empty": b"", "hi": b"hi", "bytes": random.randbytes(100_000), "largest": bytes(16_777_216)}
        self.ends(text, files, {hashlib.sha256(content).hexdigest(): content for content in files.values()})

    def writes_json(self):
        """The attributes as a JSON object, in place of the content or as an attribute."""
        text = through(processor("own", "UpdateAttribute", {"quote": "a\"b\\é", "size": "3"}, ["failure"]),
                       processor("note", "AttributesToJSON", {"Attributes List": "size, quote,missing"}, ["failure"]),
                       processor("json", "AttributesToJSON", {"Destination": "flowfile-content"}, ["failure"]))
        with work_folder(self.parent, text) as folder:
            write_files(folder / "in", {"a": b"one"})
            self.run(folder)
            state = state_of(folder)
            wanted = {"filename": "a", "path": "./", "quote": "a\"b\\é", "size": "3",
                      "uuid": store_format.uuid_of(state.store, 1)}
            wanted["JSONAttributes"] = compact({name: wanted.get(name, "") for name in ("missing", "quote", "size")})
            need(read_files(folder / "out") == {"a": compact(wanted).encode()},
                 f"out holds {read_files(folder / 'out')}")
            need(kinds(state) == {RECEIVE: 1, ATTRIBUTES_MODIFIED: 2, CONTENT_MODIFIED: 1, SEND: 1, DROP: 1},
                 f"the events tell {kinds(state)}")

    def duplicates(self):
        """Copies go by success with the file, under its name, into a queue that wasn't full before."""
        text = flow([generator("gen", 2, "${generate.index}"),
                     processor("dup", "DuplicateFlowFile", {"Number of Copies": "4"}), let_go("put", "replace")],
                    [queue("c1", "gen", "dup"), queue("c2", "dup", "put", objects=2)])
        with work_folder(self.parent, text) as folder:
            self.run(folder)
            state = state_of(folder)
            made = [event.file for event in state.events if event.kind == CREATE]
            out = {store_format.uuid_of(state.store, number): str(place).encode()
                   for place, number in enumerate(made, 1)}
            need(read_files(folder / "out") == out, f"out holds {names(folder / 'out')}")
            need(kinds(state) == {CREATE: 2, CLONE: 8, SEND: 10, DROP: 10}, f"the events tell {kinds(state)}")
            family = [(event.file, event.children) for event in state.events if event.kind == CLONE]
            need(len(set(family)) == 8 and {file for file, _ in family} == set(made), f"the clones are {family}")

    def refuses(self):
        """Own properties that break a rule: nothing is touched."""
        for one in (processor("p", "UpdateAttribute", {"": "x"}, BOTH),
                    processor("p", "UpdateAttribute", {"a": "${"}, BOTH),
                    processor("p", "RouteOnAttribute", {"unmatched": "true"}, ["unmatched"]),
                    processor("p", "RouteOnAttribute", {"a": "true"}, ["unmatched"]),
                    processor("p", "DuplicateFlowFile", {"Number of Copies": "1000"}, ["success"]),
                    processor("p", "AttributesToJSON", {"Destination": "content"}, BOTH),
                    processor("p", "CryptographicHashContent", {"a": "x"}, BOTH)):
            self.refuses_one(one)

    def refuses_one(self, one):
        """A flow with this processor is refused, and the run of it changes nothing."""
        with work_folder(self.parent, flow([source("get"), one], [queue("c", "get", "p")])) as folder:
            write_files(folder / "in", {"a": b"one"})
            self.run(folder, REFUSED)
            before = photo(folder)
            self.run(folder, REFUSED)
            need(photo(folder) == before, f"the run of {one} changed something")
            need(read_files(folder / "in") == {"a": b"one"}, f"the run of {one} took a file")
            need(not names(folder / "out"), f"the run of {one} delivered {names(folder / 'out')}")

    def killed(self):
        """All of them in one flow: at the end all is delivered, and the events tell of each file."""
        text = flow([source("get"), processor("digest", "CryptographicHashContent", {}, ["failure"]),
                     processor("dup", "DuplicateFlowFile", {"Number of Copies": "2"}),
                     processor("route", "RouteOnAttribute",
                               {"all": "true", "even": "${filename:endsWith('0')}"}, ["unmatched"]),
                     processor("json", "AttributesToJSON", {"Attributes List": "content_SHA-256",
                                                            "Destination": "flowfile-content"}, ["failure"]),
                     processor("name", "UpdateAttribute", {"filename": "${filename}.json"}, ["failure"]),
                     let_go("put", "replace")],
                    [queue("c1", "get", "digest"), queue("c2", "digest", "dup"), queue("c3", "dup", "route"),
                     queue("c4", "route", "put", "all"), queue("c5", "route", "json", "even"),
                     queue("c6", "json", "name"), queue("c7", "name", "put")])
        files = {str(n): f"file {n}".encode() for n in range(20)}
        out = dict(files)
        for name, content in files.items():
            if name.endswith("0"):
                out[f"{name}.json"] = compact({"content_SHA-256": hashlib.sha256(content).hexdigest()}).encode()
        self.delivers_under_kills(text, files, out)

    def delivers_under_kills(self, text, files, out):
        """Runs that are killed at random moments deliver all at the end."""
        kills = 0
        while kills < self.count:
            with work_folder(self.parent, text) as folder:
                write_files(folder / "in", files)
                kills += self.kill_until_done(folder)
                need(read_files(folder / "out") == out, f"out holds {names(folder / 'out')[:8]}, or other bytes")
                need(not names(folder / "in"), f"in holds {names(folder / 'in')}")
                need(not state_of(folder).files, "the store holds files")

    def kill_until_done(self, folder):
        kills = 0
        while True:
            child = start(self.program, folder)
            try:
                status = child.wait(timeout=random.uniform(0, 0.08))
            except subprocess.TimeoutExpired:
                child.kill()
                child.wait()
                kills += 1
                state_of_any(folder)
                continue
            need(status == DONE, f"a run ended with {status}")
            return kills


def state_of_any(folder):
    """What a killed run left stands for a state."""
    state = store_reader.state_of(store_reader.files_in(folder / "store"))
    need(not isinstance(state, store_format.Damage), f"the store is damaged: {state}")


def compact(members):
    return json.dumps(dict(sorted(members.items(), key=lambda member: member[0].encode())), ensure_ascii=False,
                      separators=(",", ":"))


def main():
    parser = options(__doc__)
    parser.add_argument("--count", type=int, default=100, help="how many kills, at least (default 100)")
    given, seed = parse_seeded(parser)
    # What a disk leaves is nothing here.
    cases = Cases(find_program(given.program), in_memory(given.folder), given.count)
    print(f"processors: {given.count} kills, seed {seed}", flush=True)
    report = Report()
    for text, body in (
            ("attributes are set from those that came", cases.updates),
            ("attributes that aren't set", cases.updates_nothing),
            ("two files that get one name", cases.names_meet),
            ("files are routed by their attributes", cases.routes),
            ("digests of contents", cases.notes_digests),
            ("attributes as JSON", cases.writes_json),
            ("copies, past a queue's limit", cases.duplicates),
            ("own properties that break a rule: 3, nothing touched", cases.refuses),
            ("a flow of all of them, killed at random moments", cases.killed)):
        report.case(text, body)
    report.end()


if __name__ == "__main__":
    main()
