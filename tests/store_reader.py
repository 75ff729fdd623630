"""What a store's files stand for, read from their format alone (docs/STORE.md), without the program.

A store's files are a map from names, as `log-1`, to bytes; a file that isn't there is an empty one. `state_of` says
for which state they stand, or names their first damage. store_format.py has the records, and writes them.

Records of both versions of the format are read, and a group of entries. A store of the second version is damaged, since
none is in force; so is one in which a batch matters: the file that is wanted counts as absent. `batch_of` says what a
swap file has by itself.
"""

import collections
import hashlib
import pathlib
import re

from store_format import (AGE, ATTRIBUTES_MAX, BATCH, BEGIN, CLONE, CONTENT_MAX, CREATE, DIGEST, DROP, END, EVENT,
                          EVENTS_PER_FILE, EXPIRE, EXPIRED, FILE, FIRST, FORK, GROUP, HEAD, HEADER, JOIN, KEY_MAX,
                          KINDS, LIVE_BYTES_MAX, LIVE_FILES_MAX, NO_GENERATOR, NUMBER_LIMIT, OPEN, OVERHEAD,
                          PAYLOAD_MAX, RECEIVE, REPLAY, SECOND, SESSION, SLOTS, STORE_LIMIT, SWAP_IN, SWAP_OUT,
                          THE_FLOW, Age, Batch, Begin, Content, Damage, Event, Expire, FlowFile, Session, State, SwapIn,
                          SwapOut, new_state, record_size)


# ---- reading fields

class Unreadable(Exception):
    """A field can't be read."""


class Fields:
    """The fields of a payload, from left to right."""

    def __init__(self, payload):
        self.payload = payload
        self.at = 0

    def raw(self, size):
        end = self.at + size
        if end > len(self.payload):
            raise Unreadable
        value, self.at = self.payload[self.at:end], end
        return value

    def uint(self, size):
        return int.from_bytes(self.raw(size), "big")

    def number(self, least=0):
        value = self.uint(8)
        if not least <= value < NUMBER_LIMIT:
            raise Unreadable
        return value

    def text(self, size=2):
        try:
            return self.raw(self.uint(size)).decode()
        except UnicodeDecodeError:
            raise Unreadable from None

    def listed(self, item):
        return tuple(item() for _ in range(self.uint(4)))

    def numbers(self):
        return self.listed(self.number)

    def version(self):
        value = self.uint(1)
        if value not in (FIRST, SECOND):
            raise Unreadable
        return value

    def attributes(self):
        pairs, last, start = [], b"", self.at
        for _ in range(self.uint(2)):
            key = self.text()
            if not 1 <= len(key.encode()) <= KEY_MAX or key == "uuid" or key.encode() <= last:
                raise Unreadable
            last = key.encode()
            pairs.append((key, self.text(4)))
            if self.at - start > ATTRIBUTES_MAX:
                raise Unreadable
        return tuple(pairs)

    def content(self):
        slot = self.uint(4)
        if slot >= SLOTS:
            raise Unreadable
        offset, size = self.number(), self.uint(8)
        if size > CONTENT_MAX or offset + size >= NUMBER_LIMIT:
            raise Unreadable
        return Content(slot, offset, size, self.raw(DIGEST))

    def active_file(self):
        return FlowFile(self.uint(2), self.number(1), self.attributes(), self.content(), self.uint(8), self.uint(8),
                        self.number())

    def session(self):
        read = Session(self.uint(2), self.uint(8), self.numbers(), self.listed(self.active_file), self.number(),
                       self.number(), self.number(), self.uint(2), self.number())
        if read.generator == NO_GENERATOR and read.count != 0:
            raise Unreadable
        return read

    def begin(self):
        version, number = self.version(), self.uint(8)
        if number > NUMBER_LIMIT or version == FIRST and number == NUMBER_LIMIT:
            raise Unreadable
        return Begin(number, version)

    def expire(self):
        return Expire(self.uint(2), self.uint(8), self.numbers(), self.number())

    def swap_out(self):
        return SwapOut(self.uint(2), self.number(), self.numbers())

    def swap_in(self):
        return SwapIn(self.uint(2), self.number())

    def age(self):
        return Age(self.number())

    def item(self):
        kind = self.uint(1)
        if kind not in ENTRIES or kind == BEGIN:
            raise Unreadable
        return whole(self.raw(self.uint(4)), ENTRIES[kind])

    def group(self):
        entries = self.listed(self.item)
        if len(entries) < 2:
            raise Unreadable
        return entries

    def head(self):
        version, store = self.version(), self.uint(8)
        if store >= STORE_LIMIT:
            raise Unreadable
        is_second = version == SECOND
        flow, connections = self.raw(DIGEST), self.listed(self.text)
        processors, counts = self.listed(self.text) if is_second else (), self.numbers()
        next_number, next_arrival, last_event = self.number(), self.number(), self.number()
        line = self.uint(8) if is_second else 0
        if line % EVENTS_PER_FILE or line > last_event:
            raise Unreadable
        return State(store, flow, connections, counts, next_number, next_arrival, last_event, self.number(), processors,
                     line, version)

    def event(self):
        number, kind = self.number(1), self.uint(1)
        if not CREATE <= kind <= REPLAY:
            raise Unreadable
        return Event(number, kind, self.uint(8), self.text(), self.number(1), self.numbers(), self.numbers(),
                     self.text(4), self.uint(8), self.raw(DIGEST))

    def batch(self):
        return Batch(self.uint(2), self.number(), self.number(), self.uint(8), self.uint(8))

    def end(self):
        return self.uint(8)


ENTRIES = {BEGIN: Fields.begin, SESSION: Fields.session, EXPIRE: Fields.expire, SWAP_OUT: Fields.swap_out,
           SWAP_IN: Fields.swap_in, AGE: Fields.age}


def whole(payload, read):
    """What a payload says, all of it."""
    fields = Fields(payload)
    value = read(fields)
    if fields.at != len(payload):
        raise Unreadable
    return value


# ---- reading blocks

class Damaged(Exception):
    """Files stand for no state. It has their first damage."""

    def __init__(self, kind, number, offset, cause):
        super().__init__()
        self.damage = Damage(kind, number, offset, cause)


def block_at(data, start, damaged):
    """The kind and the payload of the block at an offset, and where it ends. `damaged` makes an error of a cause."""
    have = len(data) - start
    if have < HEADER:
        raise damaged("Short")
    size = int.from_bytes(data[start:start + 4], "big")
    if size > PAYLOAD_MAX:
        raise damaged("Form")
    if have < size + OVERHEAD:
        raise damaged("Short")
    body = data[start + 4:start + HEADER + size]
    end = start + size + OVERHEAD
    if hashlib.sha256(body).digest() != data[end - DIGEST:end]:
        raise damaged("Digest")
    return body[0], body[1:], end


def record_at(data, start, wanted, damaged):
    """The kind of the block at an offset, what it says, and where it ends. `wanted` has how each kind is read."""
    kind, payload, end = block_at(data, start, damaged)
    if kind not in wanted:
        raise damaged("Form")
    try:
        return kind, whole(payload, wanted[kind]), end
    except Unreadable:
        raise damaged("Form") from None


# ---- the log

def is_passed_over(data):
    return len(data) < 2 or data[:1] != OPEN


def entries_of(number, data):
    """The entries behind the Begin, each with the offset of its gate, and the offset of the last gate."""
    found, at = [], 0
    while at + 1 < len(data) and data[at:at + 1] == OPEN:
        def damaged(cause, at=at):
            return Damaged("log", number, at, cause)
        kind, payload, end = block_at(data, at + 1, damaged)
        try:
            read = entries_in(kind, payload)
        except Unreadable:
            raise damaged("Form") from None
        if at == 0 and read != (Begin(number),):
            raise damaged("Form")
        # No log of the first version has agings.
        if any(isinstance(entry, Age) for entry in read):
            raise damaged("Form")
        found += [(at, entry) for entry in read]
        at = end
    return found[1:], at


def entries_in(kind, payload):
    """The entries of a block's payload: those of a group, or the one of another kind."""
    if kind == GROUP:
        return whole(payload, Fields.group)
    if kind not in ENTRIES:
        raise Unreadable
    return (whole(payload, ENTRIES[kind]),)


# ---- the snapshot

def joins(state, file, last, arrivals, encoded):
    """Whether a file may stand behind those of a snapshot that were read before it."""
    return (not state.batches and last < file.number < state.next_number and file.connection < len(state.connections)
            and 0 < file.arrival < state.next_arrival and file.arrival not in arrivals
            and len(state.files) < LIVE_FILES_MAX and encoded + record_size(file) <= LIVE_BYTES_MAX)


def snapshot_of(number, data):
    """What a snapshot says. What stands behind its End doesn't matter."""
    def damaged_at(at):
        return lambda cause: Damaged("snapshot", number, at, cause)

    _, state, at = record_at(data, 0, {HEAD: Fields.head}, damaged_at(0))
    if (state.version != FIRST or not are_distinct(state.connections)
            or 0 in (state.next_number, state.next_arrival, state.next_batch)):
        raise damaged_at(0)("Form")
    last, arrivals, encoded = 0, set(), 0
    while True:
        kind, value, end = record_at(data, at, {FILE: Fields.active_file, BATCH: Fields.batch, END: Fields.end},
                                     damaged_at(at))
        if kind == FILE and joins(state, value, last, arrivals, encoded):
            state.files[value.number] = value
            last, encoded = value.number, encoded + record_size(value)
            arrivals.add(value.arrival)
        elif kind == BATCH and value.batch > max(state.batches, default=0):
            state.batches[value.batch] = value
        elif kind == END and value == 1 + len(state.files) + len(state.batches):
            return state
        else:
            raise damaged_at(at)("Form")
        at = end


# ---- a swap file

def swapped_files(batch, data):
    """The files of a batch, as its swap file has them. What stands behind its End doesn't matter."""
    files, at = [], 0
    while True:
        def damaged(cause, at=at):
            return Damaged("swap", batch, at, cause)
        kind, value, at = record_at(data, at, {FILE: Fields.active_file, END: Fields.end}, damaged)
        last = files[-1].number if files else 0
        if kind == FILE and value.connection == 0 and value.number > last:
            files.append(value)
        elif kind == END and value == len(files):
            return files
        else:
            raise damaged("Form")


def batch_of(batch, data):
    """The files of a batch whose swap file has these bytes, or its first damage."""
    try:
        return swapped_files(batch, data)
    except Damaged as error:
        return error.damage


# ---- the entries' fit

def are_distinct(values):
    return len(set(values)) == len(values)


class Replay:
    """A state to which entries are applied one by one. It keeps the files' arrivals and how long their records are."""

    def __init__(self, state):
        self.state = state
        self.arrivals = {file.arrival for file in state.files.values()}
        self.encoded = sum(map(record_size, state.files.values()))

    def apply(self, entry):
        """Applies an entry. Whether it fits."""
        if isinstance(entry, Session):
            return self.session(entry)
        if isinstance(entry, Expire):
            return self.expire(entry)
        # A Begin further on fits nowhere, nor does the return of a batch where none is swapped out.
        return False

    def are_active_in(self, connection, going):
        files = self.state.files
        return are_distinct(going) and all(n in files and files[n].connection == connection for n in going)

    def drop(self, going):
        for number in going:
            file = self.state.files.pop(number)
            self.arrivals.remove(file.arrival)
            self.encoded -= record_size(file)

    def session(self, entry):
        state, gone = self.state, entry.gone
        if gone and (gone[0] not in state.files or not self.are_active_in(state.files[gone[0]].connection, gone)):
            return False
        self.drop(gone)
        if not self.has_place(entry):
            return False
        for file in entry.placed:
            state.files[file.number] = file
            self.arrivals.add(file.arrival)
            self.encoded += record_size(file)
        state.next_number, state.next_arrival = entry.next_number, entry.next_arrival
        state.last_event = entry.last_event
        if entry.generator != NO_GENERATOR:
            counts = list(state.counts)
            counts[entry.generator] = entry.count
            state.counts = tuple(counts)
        return len(state.files) <= LIVE_FILES_MAX and self.encoded <= LIVE_BYTES_MAX

    def has_place(self, entry):
        state, placed = self.state, entry.placed
        return (are_distinct([file.number for file in placed]) and are_distinct([file.arrival for file in placed])
                and all(file.number not in state.files and file.arrival not in self.arrivals
                        and file.connection < len(state.connections) and file.number < entry.next_number
                        and 0 < file.arrival < entry.next_arrival for file in placed)
                and (entry.generator == NO_GENERATOR or entry.generator < len(state.counts))
                and state.next_number <= entry.next_number and state.next_arrival <= entry.next_arrival
                and state.last_event <= entry.last_event)

    def expire(self, entry):
        state = self.state
        if not self.are_active_in(entry.connection, entry.numbers):
            return False
        if entry.last_event != state.last_event + len(entry.numbers):
            return False
        self.drop(entry.numbers)
        state.last_event = entry.last_event
        return True


# ---- the state

def by_number(files, kind):
    """The files of a kind that aren't empty, by their numbers."""
    found = {}
    for name, data in files.items():
        match = re.fullmatch(r"([a-z]+)-(0|[1-9][0-9]*)", name)
        if match and match.group(1) == kind and int(match.group(2)) < 2**64 and data:
            found[int(match.group(2))] = data
    return found


def stray(files):
    """The first file that a store which isn't made yet doesn't have."""
    for kind in KINDS:
        least = 2 if kind in ("log", "snapshot") else 0
        for number in sorted(by_number(files, kind)):
            if number >= least:
                return Damaged(kind, number, 0, "Form")
    return None


def agrees(state, flow):
    """Where a Head names this flow, its connections and its processors are the flow's too."""
    return state.flow != flow.digest or (state.connections == flow.connections and len(state.counts) == flow.processors)


def test_batches(state, entries):
    """No batch is swapped out yet: the file of the lowest one that matters counts as absent."""
    matter = [*state.batches, *(entry.batch for _, entry in entries if isinstance(entry, SwapOut))]
    if matter:
        raise Damaged("swap", min(matter), 0, "Short")


def read_contents(state, claims):
    """Reads the live files' contents, by the files' numbers."""
    for number in sorted(state.files):
        at = state.files[number].content
        claim = claims.get(at.slot, b"")
        if len(claim) < at.end:
            raise Damaged("claim", at.slot, at.offset, "Short")
        content = claim[at.offset:at.end]
        if hashlib.sha256(content).digest() != at.digest:
            raise Damaged("claim", at.slot, at.offset, "Digest")
        state.contents[number] = content


def read_events(last, files):
    """The events up to the last one, by number. What stands behind them doesn't matter."""
    events, at = [], 0
    while len(events) < last:
        file, place = divmod(len(events), EVENTS_PER_FILE)
        if place == 0:
            at = 0

        def damaged(cause, file=file, at=at):
            return Damaged("events", file, at, cause)
        kind, payload, at = block_at(files.get(file, b""), at, damaged)
        try:
            event = whole(payload, Fields.event)
        except Unreadable:
            raise damaged("Form") from None
        if kind != EVENT or event.number != len(events) + 1:
            raise damaged("Form")
        events.append(event)
    return events


def read_state(files, flow, lot):
    logs = by_number(files, "log")
    current = max((number for number, data in logs.items() if not is_passed_over(data)), default=None)
    if current is None:
        found = stray(files)
        if found is not None:
            raise found
        return new_state(lot, flow)
    entries, end = entries_of(current, logs[current])
    state = snapshot_of(current, by_number(files, "snapshot").get(current, b""))
    if not agrees(state, flow):
        raise Damaged("snapshot", current, 0, "Form")
    test_batches(state, entries)
    replay = Replay(state)
    for at, entry in entries:
        if not replay.apply(entry):
            raise Damaged("log", current, at, "Form")
    read_contents(state, by_number(files, "claim"))
    state.events = read_events(state.last_event, by_number(files, "events"))
    state.log, state.entries, state.end = current, tuple(entry for _, entry in entries), end
    return state


def state_of(files, flow=THE_FLOW, lot=0):
    """The state that files stand for, for who has this flow, or their first damage."""
    try:
        return read_state(files, flow, lot)
    except Damaged as error:
        return error.damage


def untold(state):
    """The numbers of the files that the events of a flow tell nothing of, or too much. Of each file one event tells
    that it came, and once it isn't live any more one that it went."""
    came = collections.Counter(event.file for event in state.events if event.kind in (CREATE, RECEIVE))
    came.update(child for event in state.events if event.kind in (FORK, JOIN, CLONE) for child in event.children)
    went = collections.Counter(event.file for event in state.events if event.kind in (DROP, EXPIRED))
    return [number for number in range(1, state.next_number)
            if came[number] != 1 or went[number] != (number not in state.files)]


def files_in(folder):
    """The files of a store's folder by name; none where there is no folder."""
    folder = pathlib.Path(folder)
    return {entry.name: entry.read_bytes() for entry in folder.iterdir()
            if entry.is_file() and entry.name.partition("-")[0] in KINDS} if folder.is_dir() else {}


def claims_in(files):
    """The names of the claims that aren't empty."""
    return sorted(f"claim-{number}" for number in by_number(files, "claim"))
