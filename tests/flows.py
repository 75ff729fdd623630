#!/usr/bin/env python3
"""Tries flows of many forms with the built program, over real folders.

What a flow delivers, what its events and its log tell, how it ends where it can't go on, and which texts and stores
are refused. Last, a flow with clones is killed at random moments and started again until it ends by itself.
"""

import collections
import json
import random
import shutil
import time

import printed
import store_format
import store_reader
from flow_texts import flow, generator, kinds, let_go, processor, put, queue, source, state_of, told
from store_format import CLONE, CREATE, DROP, EXPIRED, RECEIVE, SEND, Expire, Writer
from support import (BLOCKED, DAMAGED, DONE, LIMIT, REFUSED, SOURCE, THE_TEXT, USAGE, Report, find_program,
                     in_memory, names, need, need_status, new_folder, none_aside, options, parse_seeded, photo,
                     put_flow, read_files, run, run_for, start, unmarked_aside, wait_for, work_folder, write_files)

STRATEGIES = ("replace", "ignore", "fail")

# The longest text that a flow may have.
TEXT_MAX = 4_194_304


# ---- flows

# The own patterns of processors. How many bytes of memory a run may take for each of them: in all, where it holds them;
# and beside what it takes without them, where it lets those of each processor go.
MANY = [{f"p{one:02}": f"name=([a-z]+);x={place:03}{one:02}" for one in range(64)} for place in range(40)]
PATTERNS = sum(map(len, MANY))
MOST_OF_A_PATTERN = 30_000
MOST_OF_ONE_LET_GO = 3_000
# Own patterns of one processor, far more than it may have, in some 0.9 MB of text. How many bytes of memory a run may
# take for such a text.
CROWD = {f"p{place:05}": f"name=([a-z]+);x={place:05}" for place in range(23_000)}
MOST_OF_A_CROWD = 64_000_000


def ring(penalty=0, more=(), **fields):
    """A put that fails where its name stands, and whose failures go back to it."""
    return flow([source("get"), put("put", "fail", "success", penalty=penalty)],
                [queue("c1", "get", "put", **dict(more)), queue("back", "put", "put", "failure", **fields)])


# ---- what a store tells

def most_in_queues(folder, text):
    """How many files each connection had at most, by the log of a new store."""
    state = state_of(folder)
    replay = store_reader.Replay(store_format.new_state(state.store, store_format.flow_of(text)))
    most = collections.Counter()
    for entry in state.entries:
        need(replay.apply(entry), f"an entry doesn't fit: {entry}")
        most |= collections.Counter(file.connection for file in replay.state.files.values())
    return [most[place] for place in range(len(state.connections))]


def claims(folder):
    return store_reader.claims_in(store_reader.files_in(folder / "store"))



class Cases:
    def __init__(self, program, parent, count):
        self.program = program
        self.parent = parent
        self.count = count
        # A run of these flows takes some hundredths of a second in memory: a kill comes within this time at first.
        self.pause = 0.02

    def folder(self, text=THE_TEXT):
        return work_folder(self.parent, text)

    def run(self, folder, status=DONE, *more):
        ended = run(self.program, folder, ("run", *more))
        need_status(ended, status)
        if status in (DONE, BLOCKED, LIMIT):
            need(printed.is_end(ended.said, status, state_of_written(folder), printed.listed(folder)),
                 f"it printed {ended.said!r}")
        elif status in printed.LINES:
            need(ended.said == printed.LINES[status], f"it printed {ended.said!r}")
        none_aside(folder)
        return ended

    def ends_with(self, folder, out):
        """The next run ends with 0, with these files in the outbox, and nothing is left in the store."""
        self.run(folder)
        need(read_files(folder / "out") == out, f"out holds {names(folder / 'out')[:8]}, or other bytes")
        need(names(folder / "out") == sorted(out), f"out holds {names(folder / 'out')[:8]}")
        state = state_of(folder)
        need(not state.files and not claims(folder), f"the store holds {state.files}, {claims(folder)}")
        return state

    def changes_nothing(self, folder, status=DONE):
        before = photo(folder)
        self.run(folder, status)
        need(photo(folder) == before, f"the run that ended with {status} changed something")

    # What flows deliver.

    def filters(self):
        """Each source takes what its filter passes, the first name first; what none passes stays."""
        files = {name: name.encode()
                 for name in ("a.csv", "b.json", "c.txt", ".d.csv", "e.csv.part", "f.CSV", "g.log")}
        text = flow([source("tables", r".*\.(csv|json)"), source("logs", r".*\.(log|csv|CSV)"), let_go("put", "fail")],
                    [queue("t", "tables", "put"), queue("l", "logs", "put")])
        with self.folder(text) as folder:
            write_files(folder / "in", files)
            stay = {name: files.pop(name) for name in ("c.txt", "e.csv.part")}
            state = self.ends_with(folder, files)
            need(read_files(folder / "in") == stay, f"in holds {names(folder / 'in')}")
            # In turn: the first name of the one, then of the other, then a put.
            came = [(event.component, event.detail) for event in state.events if event.kind == RECEIVE]
            need(came == [("tables", ".d.csv"), ("logs", "a.csv"), ("tables", "b.json"), ("logs", "f.CSV"),
                          ("logs", "g.log")], f"they came as {came}")

    def generates(self):
        """A thousand files of an expression, each under its uuid, and never more."""
        count = 1000
        text = flow([generator("beat", count, "beat ${generate.index:plus(0)} of 1000\n"), let_go("put", "fail")],
                    [queue("beats", "beat", "put")])
        with self.folder(text) as folder:
            self.run(folder)
            state = state_of(folder)
            wanted = {store_format.uuid_of(state.store, number): f"beat {number} of 1000\n".encode()
                      for number in range(1, count + 1)}
            need(read_files(folder / "out") == wanted, "out holds other files")
            need(state.counts == (count, 0) and not state.files and not claims(folder), f"it keeps {state.counts}")
            need(told(state)[CREATE, "beat", ""] == count, f"the events tell {told(state).most_common(4)}")
            self.changes_nothing(folder)

    def clones(self):
        """One source into three queues, and a put of each strategy, in two orders."""
        files, standing = {"free": b"one", "taken": b"two"}, {"taken": b"before", "other": b"stays"}
        for order in (STRATEGIES, STRATEGIES[::-1]):
            text = flow([source("get"), *(let_go(strategy, strategy) for strategy in order)],
                        [queue(f"to-{strategy}", "get", strategy) for strategy in order])
            with self.folder(text) as folder:
                write_files(folder / "in", files)
                write_files(folder / "out", standing)
                state = self.ends_with(folder, {**standing, **files})
                need(told(state) == self.wanted_of_clones(order, files, standing), f"{order}: {told(state)}")
                family = [(event.parents, event.children) for event in state.events if event.kind == CLONE]
                need(family == [((1,), (2,)), ((1,), (3,)), ((4,), (5,)), ((4,), (6,))], f"clones {family}")

    def wanted_of_clones(self, order, files, standing):
        """What the events tell where each file goes to a put of each strategy, in this order."""
        wanted, there = collections.Counter(), set(standing)
        for name in sorted(files):
            wanted[RECEIVE, "get", name] += 1
            wanted[CLONE, "get", ""] += 2
            for strategy in order:
                sends = strategy == "replace" or name not in there
                fails = strategy == "fail" and name in there
                wanted[SEND, strategy, name] += sends
                wanted[DROP, strategy, "failure" if fails else "success"] += 1
                there.add(name)
        return +wanted

    def widest(self):
        """A relationship that leads into eight queues: the file and seven clones, of which each goes its way."""
        text = flow([source("get"), *(let_go(f"put-{n}", "replace") for n in range(8))],
                    [queue(f"c{n}", "get", f"put-{n}") for n in range(8)])
        files = {f"{n}": random.randbytes(n * 100) for n in range(20)}
        with self.folder(text) as folder:
            write_files(folder / "in", files)
            state = self.ends_with(folder, files)
            kinds = collections.Counter(event.kind for event in state.events)
            need(kinds == {RECEIVE: 20, CLONE: 140, SEND: 160, DROP: 160}, f"the events tell {kinds}")

    def goes_on(self):
        """What a put sent goes on to another one, which finds the name there."""
        text = flow([source("get"), put("first", "replace", "failure"), let_go("second", "fail")],
                    [queue("c1", "get", "first"), queue("c2", "first", "second")])
        with self.folder(text) as folder:
            write_files(folder / "in", {"a": b"one"})
            state = self.ends_with(folder, {"a": b"one"})
            need(told(state) == {(RECEIVE, "get", "a"): 1, (SEND, "first", "a"): 1, (DROP, "second", "failure"): 1},
                 f"the events tell {told(state)}")

    def order(self):
        """A queue gives its files by its prioritizers. The first came last."""
        priorities = {"d": "A-99", "e": None, "b": "100", "c": "A-100", "a": "99"}
        for prioritizers, wanted in ((["NewestFlowFileFirst"], "debca"), (["OldestFlowFileFirst"], "acbed"),
                                     (["FirstInFirstOut"], "debca"), ([], "acbed"), (["PriorityAttribute"], "abcde")):
            text = flow([source("get"), let_go("put", "replace")],
                        [queue("c1", "get", "put", prioritizers=prioritizers)])
            writer = Writer(state=store_format.new_state(1, store_format.flow_of(text)))
            for name, priority in priorities.items():
                file = writer.made(name, name.encode())
                if priority is not None:
                    attributes = sorted([*file.attributes, ("priority", priority)])
                    writer.state.files[file.number] = file._replace(attributes=tuple(attributes))
                # Each one's data entered before that of the one before.
                writer.moment -= 1
            with self.folder(text) as folder:
                write_files(folder / "store", writer.start().files())
                self.run(folder)
                sent = "".join(event.detail for event in state_of_written(folder).events if event.kind == SEND)
                need(sent == wanted, f"{prioritizers}: {sent}")

    # Expiries, penalties, full queues.

    def expires(self):
        """Files that are too old go, with an event each; the others are delivered."""
        text = flow([source("get"), let_go("put", "replace")], [queue("c1", "get", "put", expiration=600_000)])
        writer = Writer(state=store_format.new_state(1, store_format.flow_of(text)))
        for name in ("old", "older"):
            writer.made(name, b"too old")
        writer.moment = int(time.time() * 1000)
        writer.made("young", b"in time")
        with self.folder(text) as folder:
            write_files(folder / "store", writer.start().files())
            self.run(folder)
            need(read_files(folder / "out") == {"young": b"in time"}, f"out holds {names(folder / 'out')}")
            state = state_of_written(folder)
            need(not state.files and not claims(folder), f"the store holds {state.files}, {claims(folder)}")
            need(told(state) == {(EXPIRED, "c1", ""): 2, (SEND, "put", "young"): 1, (DROP, "put", "success"): 1},
                 f"the events tell {told(state)}")
            need(isinstance(state.entries[0], Expire) and state.entries[0].numbers == (1, 2),
                 f"the first entry is {state.entries[0]}")

    def expires_meanwhile(self):
        """A file that fails, and would wait longer for the end of its penalty than its queue lets it."""
        text = ring(penalty=200, expiration=50)
        with self.folder(text) as folder:
            write_files(folder / "in", {"a": b"new"})
            write_files(folder / "out", {"a": b"before"})
            state = self.ends_with(folder, {"a": b"before"})
            need(told(state) == {(RECEIVE, "get", "a"): 1, (EXPIRED, "back", ""): 1}, f"the events tell {told(state)}")
            got, failed, expired = state.entries
            need(isinstance(expired, Expire) and expired.numbers == (1,), f"the last entry is {expired}")
            need(got.moment + 50 <= expired.moment, f"it expired {expired.moment - got.moment} ms after it came")
            need(failed.placed[0].penalty_end == failed.moment + 200, "the penalty's end is another one")

    def waits_out_a_penalty(self):
        """A file that fails waits for its penalty's end, and goes on to another put."""
        text = flow([source("get"), put("first", "fail", "success", penalty=200), let_go("again", "replace")],
                    [queue("c1", "get", "first"), queue("c2", "first", "again", "failure")])
        with self.folder(text) as folder:
            write_files(folder / "in", {"a": b"new", "b": b"free"})
            write_files(folder / "out", {"a": b"before"})
            state = self.ends_with(folder, {"a": b"new", "b": b"free"})
            need(told(state) == {(RECEIVE, "get", "a"): 1, (RECEIVE, "get", "b"): 1, (SEND, "first", "b"): 1,
                                 (SEND, "again", "a"): 1, (DROP, "first", "success"): 1, (DROP, "again", "success"): 1},
                 f"the events tell {told(state)}")
            failed = next(entry for entry in state.entries if entry.processor == 1 and entry.placed)
            last = state.entries[-1]
            need(last.processor == 2 and failed.moment + 200 <= last.moment,
                 f"it went on {last.moment - failed.moment} ms later")
            need(len(state.entries) == 5, f"{len(state.entries)} entries")

    def fails_until_it_may(self):
        """A put whose failures go back to it: it tries again behind each penalty, until the name is free."""
        text = ring(penalty=200)
        with self.folder(text) as folder:
            write_files(folder / "in", {"a": b"new"})
            write_files(folder / "out", {"a": b"before"})
            child = start(self.program, folder)
            try:
                # The entry that took it, and two that it failed in.
                wait_for(lambda: entries_now(folder) >= 3, child)
                (folder / "out" / "a").unlink()
                status = child.wait(60)
                need(status == DONE, f"status {status}")
            finally:
                child.kill()
                child.wait()
            state = self.ends_with(folder, {"a": b"new"})
            need(told(state) == {(RECEIVE, "get", "a"): 1, (SEND, "put", "a"): 1, (DROP, "put", "success"): 1},
                 f"the events tell {told(state)}")
            moments = [entry.moment for entry in state.entries[1:]]
            need(len(moments) >= 3 and all(later - earlier >= 200 for earlier, later in zip(moments, moments[1:])),
                 f"it tried at {moments}")
            return f"{len(moments)} tries"

    def holds_back(self):
        """A full queue holds back what leads into it, and nothing else."""
        for limits, most in (({"objects": 1}, 1), ({"objects": 3}, 3), ({"bytes": 9}, 3), ({"objects": 0}, 10)):
            text = flow([generator("one", 10, "1234"), generator("two", 10, "5678"), let_go("put", "fail")],
                        [queue("c1", "one", "put"), queue("c2", "two", "put", **limits)])
            with self.folder(text) as folder:
                self.run(folder)
                need(sorted(read_files(folder / "out").values()) == [b"1234"] * 10 + [b"5678"] * 10, "other files")
                need(most_in_queues(folder, text) == [1, most], f"{limits}: {most_in_queues(folder, text)} files")

    def drains(self):
        """A queue that is past its threshold of swapping goes on, as long as something can be done."""
        text = flow([generator("one", 9), generator("two", 9), let_go("put", "fail")],
                    [queue("c1", "one", "put"), queue("c2", "two", "put", swap=2)])
        with self.folder(text) as folder:
            self.run(folder)
            need(len(names(folder / "out")) == 18, f"out holds {len(names(folder / 'out'))} files")
            need(most_in_queues(folder, text)[1] >= 3, "the queue was never past its threshold")

    def reclaims(self):
        """Claims are emptied on the way, so that the store doesn't grow with all that is moved."""
        files = {f"{n:04}": random.randbytes(16_384) for n in range(1000)}
        with self.folder() as folder:
            write_files(folder / "in", files)
            child, most = start(self.program, folder), 0
            while child.poll() is None:
                most = max(most, sum(name.startswith("claim-") for name in names_in(folder / "store")))
                time.sleep(0.001)
            need(child.returncode == DONE, f"status {child.returncode}")
            need(read_files(folder / "out") == files, "out holds other files")
            need(0 < most <= 4, f"there were {most} claims")
            return f"{most} claims of 16 at most"

    # Where a flow can't go on.

    def blocks(self):
        """A put whose failure goes into its own queue of one file, and whose name stands in the outbox: 10. The files
        stay in the store, and the same happens at each run, until the one that fills the queue is too old."""
        for penalty in (0, 100):
            with self.folder(ring(penalty, objects=1)) as folder:
                files = {"a": b"new", "b": b"free", "c": random.randbytes(3000)}
                write_files(folder / "in", files)
                write_files(folder / "out", {"a": b"before"})
                self.run(folder, BLOCKED)
                state = state_of(folder)
                need(dict(state.queued()) == files, f"{state.queued()} wait")
                need([file.connection for file in state.files.values()] == [1, 0, 0], "they wait in other queues")
                need(names(folder / "in") == [] and read_files(folder / "out") == {"a": b"before"}, "in or out differs")
                self.changes_nothing(folder, BLOCKED)
                # What comes in later is taken as far as there is room.
                write_files(folder / "in", {"d": b"later"})
                self.run(folder, BLOCKED)
                need(dict(state_of(folder).queued()) == {**files, "d": b"later"}, "another file waits")
                # The name is free now, and still nothing may leave the put.
                (folder / "out" / "a").unlink()
                self.changes_nothing(folder, BLOCKED)

    def unblocks(self):
        """Where the full queue lets its files go after a time, a later run goes on."""
        text = ring(objects=1, expiration=2500)
        with self.folder(text) as folder:
            write_files(folder / "in", {"a": b"new", "b": b"free"})
            write_files(folder / "out", {"a": b"before"})
            began = time.monotonic()
            self.run(folder, BLOCKED)
            need(time.monotonic() - began < 2.5, "this machine is too busy for this case")
            time.sleep(2.6)
            state = self.ends_with(folder, {"a": b"before", "b": b"free"})
            need(told(state)[EXPIRED, "back", ""] == 1, f"the events tell {told(state)}")

    def past_swap(self):
        """A flow that can't go on, with a queue past its threshold of swapping: 10, be that the full one or another."""
        files = {name: name.encode() * 9 for name in "abcde"}
        for text, failing, waiting in ((ring(more={"swap": 2}, objects=1), "a", [4, 1]),
                                       (ring(swap=2, objects=3), "abc", [2, 3])):
            with self.folder(text) as folder:
                before = {name: b"before" for name in failing}
                write_files(folder / "in", files)
                write_files(folder / "out", before)
                self.run(folder, BLOCKED)
                state = state_of(folder)
                need(dict(state.queued()) == files, f"{state.queued()} wait")
                held = collections.Counter(file.connection for file in state.files.values())
                need([held[0], held[1]] == waiting, f"{held} wait in the queues")
                need(names(folder / "in") == [] and read_files(folder / "out") == before, "in or out differs")
                self.changes_nothing(folder, BLOCKED)

    def journal_is_full(self):
        """A put that fails without a penalty tries on until the run's journal is full: 11. The next run delivers."""
        with self.folder(ring()) as folder:
            write_files(folder / "in", {"a": b"new"})
            write_files(folder / "out", {"a": b"before"})
            self.run(folder, LIMIT)
            (folder / "out" / "a").unlink()
            self.run(folder)
            need(read_files(folder / "out") == {"a": b"new"}, f"out holds {names(folder / 'out')}")
            return f"log {state_of(folder).log} is current"

    def few_sessions(self):
        """A run of five sessions at most ends with 11 where more would come; the next one goes on."""
        words = (("--threads", "1", "--max-commits", "5"), ("--max-commits=5", "--threads=16"))
        for said in words:
            with self.folder() as folder:
                files = {f"a{n}": b"hi" for n in range(10)}
                write_files(folder / "in", files)
                self.run(folder, LIMIT, *said)
                state = state_of(folder)
                need(state.queued() == [("a2", b"hi")], f"{state.queued()} wait")
                need(names(folder / "in") == [f"a{n}" for n in range(3, 10)], f"in holds {names(folder / 'in')}")
                need(kinds(state) == {RECEIVE: 3, SEND: 2, DROP: 2}, f"the events tell {kinds(state)}")
                self.run(folder)
                need(kinds(state_of(folder)) == {RECEIVE: 10, SEND: 10, DROP: 10}, "other events were told")
                need(read_files(folder / "out") == files, f"out holds {names(folder / 'out')}")

    def short_logs(self):
        """A log of as many entries as the words say is followed by a new one."""
        text = flow([generator("gen", 45, "x"), let_go("put", "replace")], [queue("made", "gen", "put")])
        for most in (1, 20, 90, 91, 1_000_000):
            with self.folder(text) as folder:
                self.run(folder, DONE, f"--checkpoint={most}")
                state = state_of(folder)
                made, rest = divmod(90, most)
                need((state.log, len(state.entries)) == (made + 1, rest),
                     f"log {state.log} has {len(state.entries)} entries with --checkpoint={most}")

    # What isn't run.

    def other_text(self):
        """The store is of another text, be it by one line feed, or of the program that ran one fixed flow: 3, and
        nothing is written. With its own text the store is as before."""
        with self.folder() as folder:
            write_files(folder / "in", {"a": b"one"})
            self.run(folder)
            write_files(folder / "in", {"b": b"two"})
            for text in (THE_TEXT + b"\n", THE_TEXT.replace(b'"c1"', b'"c2"'), flow([], [])):
                put_flow(folder, text)
                self.changes_nothing(folder, REFUSED)
            put_flow(folder)
            self.ends_with(folder, {"a": b"one", "b": b"two"})
        fixed = Writer(state=store_format.new_state(1, store_format.FIXED_FLOW))
        for writer in (fixed, Writer(state=store_format.new_state(1, store_format.FIXED_FLOW)).get("a", b"one")):
            with self.folder() as folder:
                for part in ("in", "out"):
                    write_files(folder / part, {"b": b"two"})
                write_files(folder / "store", {**writer.files(), "lock": b"\0"})
                self.changes_nothing(folder, REFUSED)

    def no_text(self):
        """There is no flow.json, or it can't be read: 8. But for the three folders nothing is made or touched."""
        for make in (lambda path: None, lambda path: path.mkdir(), lambda path: path.symlink_to("nowhere")):
            with new_folder(self.parent) as folder:
                make(folder / "flow.json")
                there = names(folder)
                write_files(folder / "in", {"a": b"one"})
                self.run(folder, SOURCE)
                need(names(folder) == sorted([*there, "in", "out", "store"]), f"it made {names(folder)}")
                need(names(folder / "store") == names(folder / "out") == [], "store or out isn't empty")
                write_files(folder / "store", Writer().get("w", b"waits").files())
                self.changes_nothing(folder, SOURCE)

    def refused_texts(self):
        """A text that breaks a rule: 3, and nothing is touched."""
        read = json.loads(THE_TEXT)
        get, sink = read["processors"]
        c1 = read["connections"][0]
        texts = [b"", b"{", b"[]", b"null", b"\xff", b"{}", THE_TEXT[:-3], THE_TEXT + b"x",
                 b" " * (TEXT_MAX + 1 - len(THE_TEXT)) + THE_TEXT,
                 flow([{**get, "type": "GetFiles"}, sink], [c1]), flow([get, get, sink], [c1]),
                 flow([get, sink], [{**c1, "to": "get"}]), flow([get, sink], []),
                 flow([get, {**sink, "terminated": ["success"]}], [c1]), flow([source("get", "("), sink], [c1]),
                 flow([generator("get", 1, "${"), sink], [c1]), flow([generator("get", 1_000_001), sink], [c1]),
                 flow([get, sink], [{**c1, "swap": 1}]), flow([{**get, "task": 1}, sink], [c1]),
                 flow([get, *(let_go(f"put-{n}", "fail") for n in range(9))],
                      [queue(f"c{n}", "get", f"put-{n}") for n in range(9)])]
        for text in texts:
            with self.folder(text) as folder:
                write_files(folder / "in", {"a": b"one"})
                self.run(folder, REFUSED)
                need(names(folder / "store") == names(folder / "out") == [] and names(folder / "in") == ["a"],
                     f"{text[:60]}: something was touched")
                write_files(folder / "store", Writer().get("w", b"waits").files())
                self.changes_nothing(folder, REFUSED)
        with self.folder(b" " * (TEXT_MAX - len(THE_TEXT)) + THE_TEXT) as folder:
            write_files(folder / "in", {"a": b"one"})
            self.ends_with(folder, {"a": b"one"})
        return f"{len(texts)} texts"

    def many_patterns(self):
        """Texts of many patterns that are refused: 3, in little time and memory. Where a pattern can't be read, those
        of the processors before it are held until then. Behind it, and where another rule is broken, only one at a
        time is, also of a processor that has far more than it may."""
        bare = self.peak_of_patterns([{"p00": "("}, *({} for _ in MANY[1:])], 8, "/processors/1/properties/p00")
        held, gone = MOST_OF_A_PATTERN * PATTERNS, bare + MOST_OF_ONE_LET_GO * PATTERNS
        last = len(MANY) - 1
        peaks = [self.peak_of_patterns(MANY, 11, "/connections/0/more", more=1)]
        need(peaks[0] < gone, f"{peaks[0]:,} bytes with an unknown field, {bare:,} without patterns")
        for place, name, most in ((0, "p00", gone), (0, "p63", gone), (last, "p00", held), (last, "p63", held)):
            own = [dict(texts) for texts in MANY]
            own[place][name] = "("
            peaks.append(self.peak_of_patterns(own, 8, f"/processors/{place + 1}/properties/{name}"))
            need(peaks[-1] < most, f"{peaks[-1]:,} bytes with {name} of processor {place}, {bare:,} without patterns")
        unread = {**CROWD, max(CROWD): "("}
        for own, rule, place in (([CROWD], 10, "/processors/1/properties"),
                                 ([unread], 8, f"/processors/1/properties/{max(CROWD)}"),
                                 ([{"p00": "("}, CROWD], 8, "/processors/1/properties/p00")):
            peaks.append(self.peak_of_patterns(own, rule, place))
            need(peaks[-1] < MOST_OF_A_CROWD, f"{peaks[-1]:,} bytes with {len(CROWD)} patterns of one processor")
        return f"{PATTERNS} and {len(CROWD)} patterns, {' '.join(f'{peak / 1e6:.1f}' for peak in (bare, *peaks))} MB"

    def peak_of_patterns(self, own, rule, place, **fields):
        """The most memory, in bytes, that a text of these own patterns takes until it is refused."""
        finders = [processor(f"f{number}", "ExtractText", texts, ["matched", "unmatched"])
                   for number, texts in enumerate(own)]
        with self.folder(flow([source("get"), *finders, let_go("put", "fail")],
                              [queue("c1", "get", "put", **fields)])) as folder:
            ended = self.run(folder, REFUSED)
            need(ended.said == f"flow refused: rule {rule} at {place}\n".encode(), f"it printed {ended.said!r}")
            return ended.peak

    def which_is_told(self):
        """Of several causes the words come first, then the text, its rules, the store, the inbox."""
        damaged = {**Writer().get("w", b"waits").files(), "claim-0": b"waitz"}
        with new_folder(self.parent) as folder:
            write_files(folder, {"in": b"no folder"})
            write_files(folder / "store", {**damaged, "lock": b"\0"})
            (folder / "out").mkdir()
            for text, status in ((None, SOURCE), (b"{}", REFUSED), (THE_TEXT, DAMAGED)):
                if text is not None:
                    put_flow(folder, text)
                before = photo(folder)
                need_status(run(self.program, folder, ("runs",)), USAGE)
                need_status(run(self.program, folder), status)
                need(photo(folder) == before, f"status {status}, and something changed")

    # Kills.

    def killed(self):
        """Two sources, each into two queues: what one names stays where it stands, the other replaces it."""
        text = flow([source("keep", "keep-.*"), source("new", "new-.*"), let_go("keeps", "ignore"),
                     let_go("fails", "fail"), let_go("replaces", "replace"), let_go("ignores", "ignore")],
                    [queue("k1", "keep", "keeps"), queue("k2", "keep", "fails"),
                     queue("n1", "new", "replaces", objects=5), queue("n2", "new", "ignores")])
        kills = rounds = 0
        while kills < self.count:
            with self.folder(text) as folder:
                files = {f"{kind}-{n:03}": random.randbytes(random.choice((0, 1, 4096, random.randint(0, 50_000))))
                         for n in range(60) for kind in ("keep", "new")}
                standing = {name: b"before " + name.encode() for name in random.sample(sorted(files), 40)}
                write_files(folder / "in", files)
                write_files(folder / "out", standing)
                kills += self.until_done(folder, lambda: self.nothing_is_lost(folder, files, standing))
                wanted = {**files, **{name: data for name, data in standing.items() if name.startswith("keep")}}
                state = self.ends_with(folder, wanted)
                family = collections.Counter(event.parents[0] for event in state.events if event.kind == CLONE)
                came = [event.file for event in state.events if event.kind == RECEIVE]
                need(all(family[number] == 1 for number in came) and len(family) == len(came), "a clone is missing")
            rounds += 1
            need(rounds < 10 * self.count, f"only {kills} of {rounds} runs were killed")
        return f"{kills} kills in {rounds} folders"

    def generates_killed(self):
        """A generator makes each of its files once, however often it is killed."""
        count, kills = 2_000, 0
        text = flow([generator("beat", count, "${generate.index}"), let_go("put", "replace")],
                    [queue("beats", "beat", "put", objects=7)])
        with self.folder(text) as folder:
            kills = self.until_done(folder, lambda: state_of(folder))
            state = state_of(folder)
            wanted = {store_format.uuid_of(state.store, n): str(n).encode() for n in range(1, count + 1)}
            self.ends_with(folder, wanted)
            need(told(state)[CREATE, "beat", ""] == count and state.counts == (count, 0), f"it made {state.counts}")
            return f"{kills} kills"

    def until_done(self, folder, check):
        """Starts and kills until a run ends by itself, and removes the folders that a kill left in `out` without their
        marker, as a user would. How often it was killed."""
        kills, most = 0, self.pause
        while True:
            status = run_for(self.program, folder, random.uniform(0, most))
            if status is not None:
                need(status == DONE, f"a start after {kills} kills ended with status {status}")
                for name in unmarked_aside(folder / "out"):
                    shutil.rmtree(folder / "out" / name)
                return kills
            kills += 1
            most *= 1.03
            check()

    def nothing_is_lost(self, folder, files, standing):
        """Each file is in the inbox, or in the outbox, or waits with its bytes; what stays there is as it was."""
        waits = state_of(folder).queued()
        need(all(files[name] == content for name, content in waits), "the store holds other bytes than sent")
        put_there = read_files(folder / "out") if (folder / "out").exists() else {}
        there = {name for name, content in put_there.items() if content == files[name]}
        kept = {name for name in standing if name.startswith("keep")}
        need(all(put_there.get(name) == standing[name] for name in kept), "a file that stays was replaced")
        lost = set(files) - set(names(folder / "in")) - {name for name, _ in waits} - there - kept
        need(not lost, f"lost after a stop: {sorted(lost)[:5]}")


def names_in(folder):
    return names(folder) if folder.exists() else []


def entries_now(folder):
    """How many entries the log has, while a run may be writing it."""
    try:
        return len(store_reader.entries_of(1, (folder / "store" / "log-1").read_bytes())[0])
    except (OSError, store_reader.Damaged):
        return 0


def state_of_written(folder):
    """The state of a store, which may have begun with files of which no event tells that they came."""
    state = store_reader.state_of(store_reader.files_in(folder / "store"))
    need(not isinstance(state, store_format.Damage), f"the store is damaged: {state}")
    return state


def main():
    parser = options(__doc__)
    parser.add_argument("--count", type=int, default=200, help="how many kills, at least (default 200)")
    parser.add_argument("--whole", action="store_true",
                        help="with a run until its journal is full, which takes minutes")
    given, seed = parse_seeded(parser)
    # What a disk leaves is nothing here.
    cases = Cases(find_program(given.program), in_memory(given.folder), given.count)
    print(f"flows: {given.count} kills, seed {seed}", flush=True)
    report = Report()
    for text, body in (
            ("two sources with filters", cases.filters),
            ("a thousand files of an expression", cases.generates),
            ("one source into three queues, and a put of each strategy", cases.clones),
            ("one source into eight queues", cases.widest),
            ("a put behind a put", cases.goes_on),
            ("the orders of a queue", cases.order),
            ("files that are too old go, with their events", cases.expires),
            ("a file that fails expires before its penalty ends", cases.expires_meanwhile),
            ("a file that fails waits for its penalty's end", cases.waits_out_a_penalty),
            ("a file that fails comes back until its name is free", cases.fails_until_it_may),
            ("a full queue holds its source back", cases.holds_back),
            ("a queue past its threshold of swapping is drained", cases.drains),
            ("claims are emptied on the way", cases.reclaims),
            ("a ring that is full: 10, again and again, nothing lost", cases.blocks),
            ("a ring whose file expires goes on", cases.unblocks),
            ("a ring past a threshold of swapping: 10, nothing lost", cases.past_swap),
            ("a run of five sessions at most: 11, and the next one goes on", cases.few_sessions),
            ("logs of as many entries as the words say", cases.short_logs),
            ("a changed text, or a store of the fixed flow of before: 3, nothing written", cases.other_text),
            ("no flow.json: 8, nothing touched", cases.no_text),
            ("texts that break a rule: 3, nothing touched", cases.refused_texts),
            ("many patterns in a text that is refused", cases.many_patterns),
            ("which of several causes is told", cases.which_is_told),
            ("a flow with clones, killed at random moments", cases.killed),
            ("a generator, killed at random moments", cases.generates_killed)):
        report.case(text, body)
    if given.whole:
        report.case("a run whose journal is full: 11, nothing lost", cases.journal_is_full)
    report.end()


main()
