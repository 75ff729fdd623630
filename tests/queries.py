#!/usr/bin/env python3
"""Tries the queries of the built program (`queues`, `events`, `lineage`, `content`, `check`) over stores that its runs left:
what each prints, beside what the store's format says, and that nothing but that is done."""

import contextlib
import fcntl
import json
import os
import random
import signal
import subprocess
import time

import printed
import store_format
import store_reader
from flow_texts import flow, generator, let_go, processor, queue, source
from support import (ABSENT, DAMAGED, DISK, DONE, SINK, SOURCE, USAGE, Report, find_program, in_memory, names, need,
                     need_status, new_folder, options, parse_seeded, photo, process_state, run, wait_for,
                     work_folder, write_files)

TELLS_KIN = (store_format.FORK, store_format.JOIN, store_format.CLONE)

# Some stay in a merge that waits for more, some in a queue that is full, and some have gone out.
WAITS = flow([source("parts", r".*\.part"), source("whole", r".*\.txt"),
              processor("split", "SplitText", {"Line Split Count": "1"}, ["failure", "original"]),
              processor("merge", "MergeContent", {"Minimum Number of Entries": "100"}, ["failure", "original"]),
              processor("name", "UpdateAttribute", {"filename": 'a "name"\twith \\ signs ü'}, ["failure"]),
              let_go("put", "replace")],
             [queue("read", "parts", "split"), queue("lines", "split", "merge", "splits"),
              queue("merged", "merge", "put", "merged"), queue("texts", "whole", "put"), queue("copies", "whole", "name"),
              queue("named", "name", "merge")])


def expected_line(state, event):
    return printed.event_line(state.store, event)


def expected_queues(state):
    lines = []
    for place, name in enumerate(state.connections):
        files = sorted((file for file in state.files.values() if file.connection == place), key=lambda file: file.arrival)
        lines.append(f"connection {name} {len(files)} {sum(file.content.size for file in files)}\n")
        lines += [f"file {store_format.uuid_of(state.store, file.number)} {file.content.size}\n" for file in files]
    return "".join(lines)


def closure(pairs, file):
    found, due = set(), [file]
    while due:
        for other in pairs.get(due.pop(), ()):
            if other not in found:
                found.add(other)
                due.append(other)
    return found


def expected_lineage(state, file):
    parents, children = {}, {}
    for event in state.events:
        if event.kind in TELLS_KIN:
            for child in event.children:
                for parent in event.parents:
                    parents.setdefault(child, set()).add(parent)
                    children.setdefault(parent, set()).add(child)
    up, down = closure(parents, file), closure(children, file)
    told = [("file", file), *(("ancestor", one) for one in sorted(up)), *(("descendant", one) for one in sorted(down))]
    return "".join([*(f"{word} {store_format.uuid_of(state.store, one)}\n" for word, one in told),
                    *(expected_line(state, event) for event in state.events
                      if event.file == file or event.file in up or event.file in down)])


class Cases:
    def __init__(self, program, parent, count):
        self.program = program
        self.parent = parent
        self.count = count

    def ask(self, folder, *words, status=DONE):
        """What a query prints, which changes nothing."""
        before = photo(folder)
        ended = run(self.program, folder, words)
        need_status(ended, status)
        need(photo(folder) == before, f"{words} changed something in the folder")
        return ended.said.decode()

    def says(self, folder, words, text, status=DONE):
        said = self.ask(folder, *words, status=status)
        need(said == text, f"{words} printed {said[:300]!r}, wanted is {text[:300]!r}")

    def waiting(self, folder):
        """A run over files of which most wait behind it; the text of the flow and its state."""
        write_files(folder / "in", {f"{n}.part": b"".join(b"%d of %d\n" % (line, n) for line in range(n % 7))
                                    for n in range(self.count // 20)}
                    | {f"{n}.txt": random.randbytes(n * 37 % 1000) for n in range(self.count // 20)})
        need_status(run(self.program, folder), DONE)
        state = store_reader.state_of(store_reader.files_in(folder / "store"), store_format.flow_of(WAITS))
        need(state.files and state.events, f"the store has nothing to ask for: {state}")
        return state

    def answers(self):
        with work_folder(self.parent, WAITS) as folder:
            state = self.waiting(folder)
            self.says(folder, ["queues"], expected_queues(state))
            self.says(folder, ["events"], "".join(expected_line(state, event) for event in state.events))
            self.says(folder, ["check"], f"store sound: files {len(state.files)}, events {len(state.events)}\n")

    def contents(self):
        with work_folder(self.parent, WAITS) as folder:
            state = self.waiting(folder)
            for number in range(1, state.next_number + 1):
                asked = store_format.uuid_of(state.store, number)
                if number in state.files:
                    ended = run(self.program, folder, ["content", asked.upper()])
                    need_status(ended, DONE)
                    need(ended.said == state.contents[number], f"the content of {number} is {ended.said[:80]!r}")
                else:
                    self.says(folder, ["content", asked], f"absent: {asked}\n", ABSENT)
            other = store_format.uuid_of(state.store ^ 1, min(state.files))
            self.says(folder, ["content", other], f"absent: {other}\n", ABSENT)

    def lineages(self):
        with work_folder(self.parent, WAITS) as folder:
            state = self.waiting(folder)
            for number in range(1, state.next_number):
                asked = store_format.uuid_of(state.store, number)
                self.says(folder, ["lineage", asked], expected_lineage(state, number))
            for asked in (store_format.uuid_of(state.store, state.next_number), store_format.uuid_of(state.store ^ 1, 1)):
                self.says(folder, ["lineage", asked], f"absent: {asked}\n", ABSENT)

    def merged(self):
        """A file that was merged of parts: it comes from all of them, and each part's lineage has it."""
        text = flow([source("get"), processor("split", "SplitText", {"Line Split Count": "1"}, ["failure", "original"]),
                     processor("merge", "MergeContent", {"Merge Strategy": "Defragment"}, ["failure", "original"]),
                     let_go("put", "replace")],
                    [queue("read", "get", "split"), queue("parts", "split", "merge", "splits"),
                     queue("merged", "merge", "put", "merged")])
        with work_folder(self.parent, text) as folder:
            write_files(folder / "in", {"whole": b"one\ntwo\nthree\n"})
            need_status(run(self.program, folder), DONE)
            state = store_reader.state_of(store_reader.files_in(folder / "store"), store_format.flow_of(text))
            need(state.next_number == 6, f"there are other files: {state.next_number}")
            for number in range(1, 6):
                self.says(folder, ["lineage", store_format.uuid_of(state.store, number)], expected_lineage(state, number))
            first = self.ask(folder, "lineage", store_format.uuid_of(state.store, 1))
            need(first.count("\ndescendant ") == 4 and "ancestor" not in first, f"the first file's lineage is {first}")

    def no_store(self):
        with new_folder(self.parent) as folder:
            asked = store_format.uuid_of(1, 1)
            for words, text, status in ((["queues"], "", DONE), (["events"], "", DONE),
                                        (["check"], "store sound: files 0, events 0\n", DONE),
                                        (["content", asked], f"absent: {asked}\n", ABSENT),
                                        (["lineage", asked], f"absent: {asked}\n", ABSENT)):
                self.says(folder, words, text, status)
            need(names(folder) == [], "a query made a folder")

    def damaged(self):
        with work_folder(self.parent, WAITS) as folder:
            state = self.waiting(folder)
            for name, data in sorted(store_reader.files_in(folder / "store").items()):
                if not data:
                    continue
                at = random.randrange(len(data))
                (folder / "store" / name).write_bytes(data[:at] + bytes([data[at] ^ 1]) + data[at + 1:])
                found = store_reader.state_of(store_reader.files_in(folder / "store"), store_format.flow_of(WAITS))
                if isinstance(found, store_format.Damage):
                    one = store_format.uuid_of(state.store, 1)
                    for words in (["check"], ["queues"], ["events"], ["content", one], ["lineage", one]):
                        said = self.ask(folder, *words, status=DAMAGED)
                        need(printed.is_damage(said.encode(), found), f"{words} printed {said!r}, not {found}")
                else:
                    self.ask(folder, "check")
                (folder / "store" / name).write_bytes(data)
            self.says(folder, ["check"], f"store sound: files {len(state.files)}, events {len(state.events)}\n")

    def beside_a_run(self):
        """Who has the store alone keeps a query out; queries share it, and a run waits for them."""
        with work_folder(self.parent, WAITS) as folder:
            state = self.waiting(folder)
            with open(folder / "store" / "lock", "rb") as lock:
                fcntl.flock(lock, fcntl.LOCK_EX)
                self.says(folder, ["check"], "disk fault\n", DISK)
                need(run(self.program, folder).status == DISK, "a second run had the store")
                fcntl.flock(lock, fcntl.LOCK_SH)
                self.says(folder, ["check"], f"store sound: files {len(state.files)}, events {len(state.events)}\n")
                child = subprocess.Popen([self.program, "run"], cwd=folder)
                time.sleep(0.5)
                need(child.poll() is None, f"a run beside a query ended with {child.poll()}")
            need(child.wait(60) == DONE, f"a run that waited for a query ended with {child.returncode}")

    def sink_fails(self):
        with work_folder(self.parent, WAITS) as folder:
            self.waiting(folder)
            before = photo(folder)
            for words in (["queues"], ["events"], ["check"]):
                with open("/dev/full", "wb") as full:
                    ended = subprocess.run([self.program, *words], cwd=folder, stdout=full, stdin=subprocess.DEVNULL)
                need(ended.returncode == SINK, f"{words} into a full device ended with {ended.returncode}")
            reader, writer = os.pipe()
            os.close(reader)
            ended = subprocess.run([self.program, "events"], cwd=folder, stdout=writer, stdin=subprocess.DEVNULL)
            os.close(writer)
            need(ended.returncode == SINK, f"events into a closed pipe ended with {ended.returncode}")
            need(photo(folder) == before, "a query changed something")

    @contextlib.contextmanager
    def told(self):
        """A folder whose store has far more events than a pipe takes, and the text of these."""
        text = flow([generator("make", self.count * 10), processor("note", "UpdateAttribute", {"seen": "yes"},
                                                                   ["success", "failure"])],
                    [queue("made", "make", "note")])
        with work_folder(in_memory(self.parent), text) as folder:
            need_status(run(self.program, folder), DONE)
            state = store_reader.state_of(store_reader.files_in(folder / "store"), store_format.flow_of(text))
            yield folder, "".join(expected_line(state, event) for event in state.events)

    def start(self, folder, *words, **fields):
        return subprocess.Popen([self.program, *words], cwd=folder, stdin=subprocess.DEVNULL, **fields)

    def one_line_is_read(self):
        """`flow events | head -n 1`."""
        with self.told() as (folder, text):
            before = photo(folder)
            ended = subprocess.run(["bash", "-c", '"$0" events | head -n 1; echo "${PIPESTATUS[0]}"', self.program],
                                   cwd=folder, stdout=subprocess.PIPE, timeout=60, check=False)
            need(ended.stdout.decode() == text[:text.index("\n") + 1] + "9\n", f"it printed {ended.stdout[:400]!r}")
            need(photo(folder) == before, "something changed")

    def nobody_reads(self):
        """A query whose text nobody reads waits, and so does a run beside it, but no query. It ends once its pipe is
        closed, or all of it is read."""
        with self.told() as (folder, text):
            before = photo(folder)
            waits = self.start(folder, "events", stdout=subprocess.PIPE)
            os.read(waits.stdout.fileno(), 1)
            self.says(folder, ["events"], text)
            need(waits.poll() is None, f"it ended with {waits.poll()}")
            waits.stdout.close()
            need(waits.wait(60) == SINK, f"it ended with {waits.returncode} as its pipe was closed")
            waits = self.start(folder, "events", stdout=subprocess.PIPE)
            front = os.read(waits.stdout.fileno(), 1)
            goes_on = self.start(folder, "run", stdout=subprocess.DEVNULL)
            time.sleep(0.3)
            need(waits.poll() is None and goes_on.poll() is None, f"they ended with {waits.poll()} and {goes_on.poll()}")
            need(photo(folder) == before, "something changed")
            rest, _ = waits.communicate(timeout=60)
            need((waits.returncode, (front + rest).decode()) == (DONE, text),
                 f"it ended with {waits.returncode}, or told other events")
            need(goes_on.wait(60) == DONE, f"the run beside it ended with {goes_on.returncode}")

    def takes_no_more(self):
        """A pipe that is full and doesn't wait."""
        with self.told() as (folder, _):
            before = photo(folder)
            for words in (["events"], ["check"], ["queues"]):
                reader, writer = os.pipe()
                os.set_blocking(writer, False)
                with contextlib.suppress(BlockingIOError):
                    while True:
                        os.write(writer, b"x")
                ended = self.start(folder, *words, stdout=writer)
                need(ended.wait(60) == SINK, f"{words} ended with {ended.returncode}")
                os.close(writer)
                os.close(reader)
            need(photo(folder) == before, "something changed")

    def output_is_closed(self):
        with work_folder(self.parent, WAITS) as folder:
            state = self.waiting(folder)
            # One with a content: of an empty one there is nothing to print.
            one = store_format.uuid_of(state.store, max(state.files, key=lambda number: len(state.contents[number])))
            before = photo(folder)
            for words in (["queues"], ["events"], ["check"], ["lineage", one], ["content", one]):
                ended = subprocess.run(["sh", "-c", 'exec "$0" "$@" >&-', self.program, *words], cwd=folder,
                                       check=False)
                need(ended.returncode == SINK, f"{words} ended with {ended.returncode}")
            need(photo(folder) == before, "something changed")

    def killed(self):
        """A query is killed while it prints. The store is as it was, and free."""
        with self.told() as (folder, text):
            before = photo(folder)
            for words in (["events"], ["lineage", json.loads(text[:text.index("\n")])["uuid"]], ["check"]):
                child = self.start(folder, *words, stdout=subprocess.PIPE)
                if words == ["events"]:
                    need(child.stdout.read(1000) == text[:1000].encode(), "it begins otherwise")
                child.kill()
                child.wait()
                child.stdout.close()
                need(photo(folder) == before, f"{words} changed something")
            self.says(folder, ["events"], text)
            need_status(run(self.program, folder), DONE)

    def beside_one_that_goes_on(self):
        """A run is stopped on its way: queries get 5 and touch nothing, and it goes on to its end."""
        with work_folder(self.parent) as folder:
            files = {f"{n:05}": random.randbytes(2000) for n in range(max(200, self.count))}
            write_files(folder / "in", files)
            child = self.start(folder, "run", stdout=subprocess.DEVNULL)
            try:
                wait_for(lambda: (folder / "out").is_dir() and len(names(folder / "out")) > 3, child)
                child.send_signal(signal.SIGSTOP)
                wait_for(lambda: process_state(child.pid) == "T", child)
                one = store_format.uuid_of(1, 1)
                for words in (["queues"], ["events"], ["check"], ["lineage", one], ["content", one]):
                    self.says(folder, words, "disk fault\n", DISK)
                child.send_signal(signal.SIGCONT)
                need(child.wait(120) == DONE, f"the run ended with {child.returncode}")
            finally:
                child.kill()
                child.wait()
            need(names(folder / "out") == sorted(files) and names(folder / "in") == [], "a file is missing")
            self.says(folder, ["check"], f"store sound: files 0, events {3 * len(files)}\n")

    def run_cant_print(self):
        """A run whose output takes nothing ends with 9, and did all else; one that failed keeps its status."""
        with work_folder(self.parent, WAITS) as told, work_folder(self.parent, WAITS) as untold:
            for folder in (told, untold):
                write_files(folder / "in", {f"{n}.txt": b"%d" % n for n in range(20)})
            need_status(run(self.program, told), DONE)
            with open("/dev/full", "wb") as full:
                ended = subprocess.run([self.program, "run"], cwd=untold, stdout=full, stdin=subprocess.DEVNULL)
            need(ended.returncode == SINK, f"a run into a full device ended with {ended.returncode}")
            need([names(untold / part) for part in ("in", "out")] == [names(told / part) for part in ("in", "out")],
                 "in and out aren't as behind a run that could print")
            states = [store_reader.state_of(store_reader.files_in(folder / "store"), store_format.flow_of(WAITS))
                      for folder in (told, untold)]
            need(printed.summary(states[0], 0) == printed.summary(states[1], 0), "the stores have different states")
            reader, writer = os.pipe()
            os.close(reader)
            ended = subprocess.run([self.program, "run"], cwd=untold, stdout=writer, stdin=subprocess.DEVNULL)
            need(ended.returncode == SINK, f"a run into a closed pipe ended with {ended.returncode}")
            (untold / "flow.json").unlink()
            ended = subprocess.run([self.program, "run"], cwd=untold, stdout=writer, stdin=subprocess.DEVNULL)
            os.close(writer)
            need(ended.returncode == SOURCE, f"without a flow a run into a closed pipe ended with {ended.returncode}")
            need_status(run(self.program, told), DONE)

    def other_words(self):
        with work_folder(self.parent, WAITS) as folder:
            one = store_format.uuid_of(1, 1)
            for words in (["queues", "x"], ["events", "--threads", "2"], ["check", "--"], ["content"], ["lineage"],
                          ["content", "x"], ["lineage", one, one], ["content", f"--uuid={one}"], ["Queues"], ["trial"]):
                ended = run(self.program, folder, words)
                need((ended.status, ended.said) == (USAGE, printed.USAGE_LINE), f"{words}: {ended.status}, {ended.said!r}")
            need(names(folder) == ["flow.json"], "refused words made something")

    def many_events(self):
        """The memory of `events` and `check` doesn't grow with the events."""
        peaks = []
        for count in (1_000, 10_000):
            text = flow([generator("make", count), let_go("put", "replace")], [queue("made", "make", "put")])
            with work_folder(in_memory(self.parent), text) as folder:
                need_status(run(self.program, folder), DONE)
                state = store_reader.state_of(store_reader.files_in(folder / "store"), store_format.flow_of(text))
                ended = run(self.program, folder, ["events"])
                need_status(ended, DONE)
                need(ended.said.decode() == "".join(expected_line(state, event) for event in state.events),
                     "the events are others")
                peaks.append(ended.peak)
                need_status(run(self.program, folder, ["check"]), DONE)
        need(peaks[1] < peaks[0] + 2_000_000, f"the peaks of memory are {peaks}")


def main():
    parser = options(__doc__)
    parser.add_argument("--count", type=int, default=1000, help="twenty times as many files as each flow takes in")
    given, seed = parse_seeded(parser)
    cases = Cases(find_program(given.program), given.folder, given.count)
    report = Report()
    print(f"queries: seed {seed}", flush=True)
    for text, body in (
            ("queues, events and check print what the store's format says", cases.answers),
            ("content prints the bytes of each live file, and 13 tells of any other", cases.contents),
            ("lineage prints the kin of each file and the events of all of them", cases.lineages),
            ("a merged file comes from its parts, and a split one leads to it", cases.merged),
            ("without a store the queries answer as over an empty one, and make nothing", cases.no_store),
            ("a damaged store is told by its first damage, and left alone", cases.damaged),
            ("a query beside a run gets 5, queries share the store, and a run waits for them", cases.beside_a_run),
            ("an output that takes nothing: 9", cases.sink_fails),
            ("a run whose output takes nothing: 9, and all else is done", cases.run_cant_print),
            ("of all events one line is read: 9", cases.one_line_is_read),
            ("a query whose text nobody reads", cases.nobody_reads),
            ("a pipe that is full: 9", cases.takes_no_more),
            ("the output is closed: 9", cases.output_is_closed),
            ("a query that is killed leaves the store as it was", cases.killed),
            ("queries beside a run on its way", cases.beside_one_that_goes_on),
            ("words with too much or too little: 2", cases.other_words),
            ("events of 10,000 files take no more memory than those of 1,000", cases.many_events)):
        report.case(text, body)
    report.end()


if __name__ == "__main__":
    main()
