#!/usr/bin/env python3
"""Tries the processors that work on texts and bytes, and the merge, with the built program, over real folders.

What each makes of its files shows in the outbox and in the events. Last, a flow that splits, routes, replaces and merges
is killed at random moments and started again until it ends by itself.
"""

import random

import processors
from flow_texts import flow, generator, kinds, let_go, processor, queue, source, told
from processors import through
from store_format import ATTRIBUTES_MODIFIED, CLONE, CONTENT_MODIFIED, CREATE, DROP, FORK, JOIN, RECEIVE, ROUTE, SEND
from support import (Report, find_program, in_memory, names, need, options, parse_seeded, read_files, work_folder,
                     write_files)

CONTENT_MAX = 16_777_216

# What MergeContent and SplitText let go beside what they make.
REST = ["original", "failure"]


def splitter(lines, **fields):
    return processor("split", "SplitText", {"Line Split Count": str(lines)}, REST, **fields)


def merger(**properties):
    named = {name.replace("_", " "): value for name, value in properties.items()}
    return processor("merge", "MergeContent", named, REST)


class Cases(processors.Cases):
    def log_pipeline(self):
        """Errors out of a log: split into lines, routed by a pattern, merged, named."""
        text = flow([source("get"), splitter(1),
                     processor("route", "RouteOnContent", {"Match Requirement": "content must contain match",
                                                           "errors": "ERROR"}, ["unmatched"]),
                     merger(), processor("name", "UpdateAttribute", {"filename": "${filename:append('.errors')}"},
                                         ["failure"]), let_go("put", "fail")],
                    [queue("new", "get", "split"), queue("lines", "split", "route", "splits"),
                     queue("errors", "route", "merge", "errors"), queue("merged", "merge", "name", "merged"),
                     queue("named", "name", "put")])
        state = self.ends(text, {"app.log": b"INFO start\nERROR disk\nINFO stop\n"},
                          {"app.log.errors": b"ERROR disk\n"})
        need(kinds(state) == {RECEIVE: 1, FORK: 1, JOIN: 1, ATTRIBUTES_MODIFIED: 1, ROUTE: 3, SEND: 1, DROP: 5},
             f"the events tell {kinds(state)}")

    def whole_again(self):
        """What was split by lines and merged by its fragments is what it was, whatever its end."""
        text = flow([source("get"), splitter(2), merger(Merge_Strategy="Defragment"), let_go("put", "fail")],
                    [queue("new", "get", "split"), queue("lines", "split", "merge", "splits"),
                     queue("merged", "merge", "put", "merged")])
        files = {"a": b"x\ny\nz", "b": b"1\n2\n3\n4\n", "c": b"\n\n\n", "d": b"\xff\n\x00" * 40}
        state = self.ends(text, files, files)
        told_kinds = kinds(state)
        need(told_kinds[FORK] == 4 and told_kinds[JOIN] == 4, f"the events tell {told_kinds}")
        for event in state.events:
            if event.kind == JOIN:
                need(len(event.parents) >= 2 and event.children == (event.file,) or event.children == [event.file],
                     f"a join tells {event}")

    def one_part(self):
        """A part that is the whole content is a clone; an empty content has no part."""
        text = flow([source("get"), splitter(5), let_go("put", "fail")],
                    [queue("new", "get", "split"), queue("lines", "split", "put", "splits")])
        state = self.ends(text, {"a": b"one\ntwo"}, {"a": b"one\ntwo"})
        need(kinds(state) == {RECEIVE: 1, CLONE: 1, SEND: 1, DROP: 2}, f"the events tell {kinds(state)}")
        state = self.ends(text, {"empty": b""}, {})
        need(kinds(state) == {RECEIVE: 1, DROP: 1}, f"the events tell {kinds(state)}")

    def too_many_parts(self):
        """A file of as many lines as a session may have files goes to failure, whole."""
        text = flow([source("get"), processor("split", "SplitText", {"Line Split Count": "1"},
                                              ["original", "splits"]), let_go("put", "fail")],
                    [queue("new", "get", "split"), queue("failed", "split", "put", "failure")])
        files = {"most": b"\n" * 9_999, "more": b"\n" * 10_000}
        state = self.ends(text, files, {"more": files["more"]})
        need(told(state)[DROP, "split", "splits"] == 9_999, f"the parts are {told(state)[DROP, 'split', 'splits']}")

    def replaces(self):
        """Matches of a pattern, or places of a text; a content that isn't UTF-8 goes to failure."""
        pattern = through(processor("swap", "ReplaceText",
                                    {"Search Value": r"(\w+)=(\w+)", "Replacement Value": "$2:${1}$$"}, ["failure"]))
        self.ends(pattern, {"a": b"k=v, n=1\n", "b": b"none", "c": b"", "bad": b"k=v\xff"},
                  {"a": b"v:k$, 1:n$\n", "b": b"none", "c": b""})
        literal = through(processor("swap", "ReplaceText",
                                    {"Replacement Strategy": "Literal Replace", "Search Value": "aa",
                                     "Replacement Value": "$1"}, ["failure"]))
        state = self.ends(literal, {"a": b"aaa.aa", "b": b"b"}, {"a": b"$1a.$1", "b": b"b"})
        need(kinds(state)[CONTENT_MODIFIED] == 2, f"the events tell {kinds(state)}")

    def replaced_by_more(self):
        """What would be made is longer than a content may be: the file goes to failure as it was, and no memory is taken
        for what isn't made. Up to the limit it is made."""
        for search, value, content in (
                (".", "x" * 60_000, b"a" * 60_000), (".", "x" * 60_000, b"a" * 400_000),
                ("(?s).*", "$0" * 30_000, b"a" * 60_000),
                ("(a)(b)?", "$2$1$1$2" * 10_000, b"ab" * 30_000), ("(?P<all>(?s:.+))", "${all}$$" * 300, b"a" * 60_000),
                ("", "y" * 300, b"a" * 60_000), ("a|(b)|$", "${1}" * 20 + "x" * 280, b"a" * 60_000)):
            self.goes_to_failure(search, value, content)
        most = CONTENT_MAX // 16
        for search, value, content, out in (
                ("a", "0123456789abcdef", b"a" * most, b"0123456789abcdef" * most),
                ("(a)|b", "$1$1$9$nobody$$$", b"a" * 9_000 + b"b" * 9_000, b"aa$$" * 9_000 + b"$$" * 9_000),
                ("(?s).+", "$0" * 16, b"a" * most, b"a" * CONTENT_MAX)):
            self.ends(through(processor("swap", "ReplaceText", {"Search Value": search, "Replacement Value": value},
                                        ["failure"])), {"a": content}, {"a": out})
        self.goes_to_failure("a", "0123456789abcdef", b"a" * most + b"b")
        self.goes_to_failure("(?s).+", "b" + "$0" * 16, b"a" * most)

    def goes_to_failure(self, search, value, content):
        text = flow([source("get"), processor("swap", "ReplaceText",
                                              {"Search Value": search, "Replacement Value": value}, ["success"]),
                     let_go("put", "replace")],
                    [queue("new", "get", "swap"), queue("failed", "swap", "put", "failure")])
        with work_folder(self.parent, text) as folder:
            write_files(folder / "in", {"a": content})
            ended = self.run(folder)
            need(read_files(folder / "out") == {"a": content}, f"{search}: out holds {names(folder / 'out')}")
            need(ended.peak < 4 * CONTENT_MAX, f"{search}: the run takes {ended.peak:,} bytes")

    def extracts(self):
        """Groups of the first match become attributes, by which the file is named here."""
        text = flow([source("get"), processor("find", "ExtractText", {"k": r"(\d)(x)?", "line": "^.*"}),
                     processor("name", "UpdateAttribute", {"filename": "${filename}-${k}-${k.0}-${k.1}-${k.2}-${line}"},
                               ["failure"]),
                     processor("other", "UpdateAttribute", {"filename": "${filename}-unmatched"}, ["failure"]),
                     let_go("put", "fail")],
                    [queue("new", "get", "find"), queue("found", "find", "name", "matched"),
                     queue("rest", "find", "other", "unmatched"), queue("named", "name", "put"),
                     queue("others", "other", "put")])
        state = self.ends(text, {"a": b"a7", "b": b"b8x\nmore", "n": b"\xff7"},
                          {"a-7-7-7--a7": b"a7", "b-8-8x-8-x-b8x": b"b8x\nmore", "n-unmatched": b"\xff7"})
        need(kinds(state)[ATTRIBUTES_MODIFIED] == 5, f"the events tell {kinds(state)}")

    def segments(self):
        """Bytes in parts of a size, and joined in bins of three."""
        text = flow([source("get"), processor("cut", "SegmentContent", {"Segment Size": "2"}, REST),
                     merger(Minimum_Number_of_Entries="3", Maximum_Number_of_Entries="3"), let_go("put", "fail")],
                    [queue("new", "get", "cut"), queue("parts", "cut", "merge", "segments"),
                     queue("joined", "merge", "put", "merged")])
        state = self.ends(text, {"a": b"abcde"}, {"a": b"abcde"})
        need(kinds(state) == {RECEIVE: 1, FORK: 1, JOIN: 1, SEND: 1, DROP: 5}, f"the events tell {kinds(state)}")

    def large(self):
        """16 MiB cut into 16 parts that stand in the store by reference, and whole again."""
        text = flow([source("get"), processor("cut", "SegmentContent", {"Segment Size": "1048576"}, REST),
                     merger(Merge_Strategy="Defragment"), let_go("put", "fail")],
                    [queue("new", "get", "cut"), queue("parts", "cut", "merge", "segments"),
                     queue("joined", "merge", "put", "merged")])
        files = {"large": random.randbytes(16_777_216)}
        self.ends(text, files, files)

    def modifies(self):
        """Bytes cut at both ends."""
        text = through(processor("cut", "ModifyBytes", {"Start Offset": "1", "End Offset": "1"}))
        state = self.ends(text, {"a": b"abc", "b": b"a", "c": b""}, {"a": b"b", "b": b"", "c": b""})
        need(kinds(state)[CONTENT_MODIFIED] == 3, f"the events tell {kinds(state)}")

    def routes(self):
        """A file goes to each own relationship whose pattern finds something; one may have to match all."""
        out = {}
        for requirement, found in (("content must contain match", {"a": "ab", "b": "ab", "c": "", "n": ""}),
                                   ("content must match exactly", {"a": "a", "b": "", "c": "", "n": ""})):
            text = flow([source("get"),
                         processor("route", "RouteOnContent", {"Match Requirement": requirement, "a": "a+", "b": "a."}),
                         *(processor(f"name-{to}", "UpdateAttribute", {"filename": f"{to}-${{filename}}"}, ["failure"])
                           for to in ("a", "b", "unmatched")), let_go("put", "replace")],
                        [queue("new", "get", "route"),
                         *(queue(f"to-{to}", "route", f"name-{to}", to) for to in ("a", "b", "unmatched")),
                         *(queue(f"put-{to}", f"name-{to}", "put") for to in ("a", "b", "unmatched"))])
            files = {"a": b"aaa", "b": b"xay", "c": b"x", "n": b"a\xff"}
            out = {f"{to}-{name}": files[name] for name, all_found in found.items()
                   for to in (all_found or ["unmatched"])}
            self.ends(text, files, out)

    def refuses(self):
        """Properties that break a rule: nothing is touched."""
        for one in (processor("p", "SplitText", {"Line Split Count": "0"}, ["original", "splits", "failure"]),
                    processor("p", "SplitText", {}, ["original", "splits", "failure"]),
                    processor("p", "SegmentContent", {"Segment Size": "16777217"}, ["segments", *REST]),
                    processor("p", "ReplaceText", {"Search Value": "(", "Replacement Value": ""},
                              ["success", "failure"]),
                    processor("p", "ReplaceText", {"Search Value": "", "Replacement Value": "",
                                                   "Replacement Strategy": "Literal Replace"}, ["success", "failure"]),
                    processor("p", "ExtractText", {"a": "("}, ["matched", "unmatched"]),
                    processor("p", "RouteOnContent", {"unmatched": "a"}, ["unmatched"]),
                    processor("p", "RouteOnContent", {"Match Requirement": "any", "a": "a"}, ["a", "unmatched"]),
                    processor("p", "MergeContent", {"Minimum Number of Entries": "3",
                                                    "Maximum Number of Entries": "2"}, ["merged", *REST])):
            self.refuses_one(one)

    def fragments_of_many(self):
        """Fragments of many wholes that stand in one queue, in turns: each whole is joined by itself."""
        text = flow([generator("gen", 60, "a${generate.index}\nb\nc\n"), splitter(1, tasks=4),
                     merger(Merge_Strategy="Defragment"),
                     processor("name", "UpdateAttribute", {"filename": "${generate.index}"}, ["failure"]),
                     let_go("put", "fail")],
                    [queue("made", "gen", "split"), queue("lines", "split", "merge", "splits"),
                     queue("joined", "merge", "name", "merged"), queue("named", "name", "put")])
        state = self.ends(text, {}, {str(n): f"a{n}\nb\nc\n".encode() for n in range(1, 61)})
        need(kinds(state) == {CREATE: 60, FORK: 60, JOIN: 60, ATTRIBUTES_MODIFIED: 60, SEND: 60, DROP: 300},
             f"the events tell {kinds(state)}")

    def killed(self):
        """Lines of tables, split, masked and joined: at the end all is delivered, and the events tell of each file."""
        text = flow([source("get"), splitter(1),
                     processor("route", "RouteOnContent", {"Match Requirement": "content must contain match",
                                                           "even": "[02468]\\s*$"}),
                     processor("mask", "ReplaceText", {"Search Value": "\\d", "Replacement Value": "#"}, ["failure"]),
                     processor("gather", "UpdateAttribute", {}, ["failure"]),
                     merger(Merge_Strategy="Defragment"), let_go("put", "replace")],
                    [queue("new", "get", "split"), queue("lines", "split", "route", "splits"),
                     queue("even", "route", "mask", "even"), queue("odd", "route", "gather", "unmatched"),
                     queue("masked", "mask", "gather"), queue("all", "gather", "merge"),
                     queue("joined", "merge", "put", "merged")])
        lines = [[f"{random.randrange(1000)}\n" for _ in range(random.randrange(1, 12))] for _ in range(8)]
        files = {str(n): "".join(one).encode() for n, one in enumerate(lines)}
        out = {str(n): "".join(line if int(line) % 2 else "#" * (len(line) - 1) + "\n" for line in one).encode()
               for n, one in enumerate(lines)}
        self.delivers_under_kills(text, files, out)


def main():
    parser = options(__doc__)
    parser.add_argument("--count", type=int, default=100, help="how many kills, at least (default 100)")
    given, seed = parse_seeded(parser)
    # What a disk leaves is nothing here.
    cases = Cases(find_program(given.program), in_memory(given.folder), given.count)
    print(f"texts: {given.count} kills, seed {seed}", flush=True)
    report = Report()
    for text, body in (
            ("errors out of a log", cases.log_pipeline),
            ("split and merged, whole again", cases.whole_again),
            ("a part that is the whole, and none", cases.one_part),
            ("as many parts as may be, and one more", cases.too_many_parts),
            ("replaced by a pattern and by a text", cases.replaces),
            ("replaced by more than a content may be, and by as much", cases.replaced_by_more),
            ("extracted groups", cases.extracts),
            ("segments, and a bin", cases.segments),
            ("16 MiB in parts, and whole again", cases.large),
            ("bytes cut at both ends", cases.modifies),
            ("routed by contents", cases.routes),
            ("properties that break a rule: 3, nothing touched", cases.refuses),
            ("fragments of many wholes", cases.fragments_of_many),
            ("a flow of these, killed at random moments", cases.killed)):
        report.case(text, body)
    report.end()


if __name__ == "__main__":
    main()
