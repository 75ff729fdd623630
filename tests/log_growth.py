#!/usr/bin/env python3
"""Opens long logs and large snapshots, written from the format alone, and shows that time and memory grow in a
straight line.

Each shape is tried with a number of sessions and with four times as many. The processor's time beyond that of an empty
store grows by about 4 then, and the peak of memory may. A state in which letting a file go moved the others would make
the time grow by 16. What else a machine does has made it 3 times as long where the sessions were twice as many, so the
limit lies between.
"""

import hashlib

import store_format
from store_format import GET, PUT, Content, Event, FlowFile, Session
from support import DONE, Report, find_program, names, need, need_status, options, run, work_folder

CONTENT = bytes(200)
DIGEST = hashlib.sha256(CONTENT).digest()

# So many times the entries may take so many times as long, and so many times the memory.
TIMES = 4
MOST_TIME = 10
MOST_MEMORY = 5
# By how many bytes the peak may differ between two stores whose size it doesn't depend on.
MOST_BESIDE = 300_000

# How often each store is opened.
LEAST_TRIES, MOST_TRIES = 3, 20


class Store:
    """A store that is written fast: each file has the same content."""

    def __init__(self):
        self.state = store_format.new_state(1)
        self.frames = [store_format.frame(store_format.Begin(1))]
        self.first = store_format.snapshot(self.state)
        self.events = []
        self.next = 1

    def made(self):
        number, self.next = self.next, self.next + 1
        return FlowFile(0, number, (("filename", f"file-{number:07}"), ("path", "./")),
                        Content(0, 0, len(CONTENT), DIGEST), 1000, 0, number)

    def session(self, processor, gone, placed):
        self.frames.append(store_format.frame(Session(processor, 1000, gone, placed, self.next, self.next)))

    def get(self):
        self.session(GET, (), (self.made(),))

    def put(self, *numbers):
        self.session(PUT, numbers, ())

    def files(self):
        return {"log-1": b"".join([*self.frames, store_format.CLOSED]), "snapshot-1": self.first, "claim-0": CONTENT,
                **store_format.events_files(self.events)}


def empty(entries):
    return Store()


def gets_then_puts(entries):
    store = Store()
    for _ in range(entries // 2):
        store.get()
    for number in range(1, entries // 2 + 1):
        store.put(number)
    return store


def each_at_once(store, first, last):
    """The files of these numbers come, each of which goes before the next one comes."""
    for number in range(first, last + 1):
        store.get()
        store.put(number)
    return store


def in_turn(entries):
    return each_at_once(Store(), 1, entries // 2)


def never_empty(entries):
    """In turn, but the first file waits all the time, and at the end."""
    store = Store()
    store.get()
    return each_at_once(store, 2, entries // 2)


def last_first(entries):
    """All come, and then the last one goes first."""
    store = Store()
    for _ in range(entries // 2):
        store.get()
    for number in range(entries // 2, 0, -1):
        store.put(number)
    return store


def in_snapshot(entries):
    """As many files in the snapshot, and one entry that lets all of them go."""
    store = Store()
    files = {file.number: file for file in (store.made() for _ in range(entries))}
    store.state.files = files
    store.state.next_number = store.state.next_arrival = store.next
    store.first = store_format.snapshot(store.state)
    store.put(*files)
    return store


def events_alone(entries):
    """Four times as many events, and nothing else."""
    store = Store()
    store.events = [Event(number, store_format.ROUTE, 1000, "put", 1, (), (), f"relationship-{number:07}", len(CONTENT),
                          DIGEST) for number in range(1, 4 * entries + 1)]
    store.state.last_event = len(store.events)
    store.first = store_format.snapshot(store.state)
    return store


def none_wait():
    return []


def first_waits():
    return ["file-0000001"]


# Of each shape its store, and the files that wait in it.
SHAPES = {
    "all come, then all go": (gets_then_puts, none_wait),
    "all come, and the last one goes first": (last_first, none_wait),
    "they come and go in turn": (in_turn, none_wait),
    "in turn, and one file waits all the time": (never_empty, first_waits),
    "all are in the snapshot, and one entry lets them go": (in_snapshot, none_wait),
    "events, four for each entry": (events_alone, none_wait),
}


class Opening:
    """A store that is opened again and again. The fastest opening and the peak of memory are kept."""

    def __init__(self, program, folder, store):
        self.program = program
        self.folder = folder
        self.files = store.files()
        self.fastest = None
        self.peak = 0
        for part in ("store", "in", "out"):
            (folder / part).mkdir()

    def again(self, waits):
        # Those of the checkpoint that the last run made.
        for name in ("log-2", "snapshot-2"):
            (self.folder / "store" / name).unlink(missing_ok=True)
        for name, data in self.files.items():
            (self.folder / "store" / name).write_bytes(data)
        ended = run(self.program, self.folder)
        need_status(ended, DONE)
        put = names(self.folder / "out")
        need(put == waits, f"out holds {put[:5]}")
        if self.fastest is None or ended.busy < self.fastest.busy:
            self.fastest = ended
        self.peak = max(self.peak, ended.peak)

    def said(self):
        return (f"{sum(map(len, self.files.values())) / 1e6:.1f} MB in {self.fastest.busy:.2f} s "
                f"({self.fastest.seconds:.2f} s by the clock), peak {self.peak / 1e6:.1f} MB")


def grows(program, parent, entries, shape):
    made, waits = SHAPES[shape]
    with work_folder(parent) as idle, work_folder(parent) as small, work_folder(parent) as large:
        none = Opening(program, idle, empty(0))
        one = Opening(program, small, made(entries))
        two = Opening(program, large, made(TIMES * entries))
        # In turn, so that what else the machine does meets all; and until the fastest are near enough.
        for tries in range(1, MOST_TRIES + 1):
            none.again([])
            one.again(waits())
            two.again(waits())
            time_ratio = (two.fastest.busy - none.fastest.busy) / max(1e-9, one.fastest.busy - none.fastest.busy)
            if tries >= LEAST_TRIES and time_ratio <= MOST_TIME:
                break
    memory_ratio = (two.peak - none.peak) / max(1, one.peak - none.peak)
    note = (f"{one.said()}; {two.said()}; with an empty store peak {none.peak / 1e6:.1f} MB; "
            f"ratio of time {time_ratio:.2f}, of memory {memory_ratio:.2f}, fastest of {tries}")
    need(time_ratio <= MOST_TIME, f"the time's ratio is above {MOST_TIME}: {note}")
    if made is events_alone:
        need(two.peak - one.peak <= MOST_BESIDE, f"the memory grows with the events: {note}")
    else:
        need(memory_ratio <= MOST_MEMORY, f"the memory's ratio is above {MOST_MEMORY}: {note}")
    return note


def main():
    parser = options(__doc__)
    parser.add_argument("--entries", type=int, default=25_000,
                        help=f"entries of the shorter log (default 25000); the longer one has {TIMES} times as many")
    given = parser.parse_args()
    program = find_program(given.program)
    print(f"log_growth: {given.entries} and {TIMES * given.entries} entries", flush=True)
    report = Report()
    for shape in SHAPES:
        report.case(shape, grows, program, given.folder, given.entries, shape)
    report.end()


main()
