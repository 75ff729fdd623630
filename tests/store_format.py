"""What a store keeps, and its files, written from their format alone (docs/STORE.md), without the program.

A store's files are a map from names, as `log-1`, to bytes; a file that isn't there is an empty one. `log`, `snapshot`,
`Claims` and `events_files` write them, also records that the program doesn't write: groups of entries, agings, batches
with their swap files, and the second version of the format. store_reader.py says for which state they stand.
"""

import dataclasses
import hashlib
import json
import typing
import uuid

from support import THE_TEXT

OPEN, CLOSED = b"\x5a", b"\x00"
# The versions of the format. A store of the second is damaged, since none is in force.
FIRST, SECOND = 1, 2
HEADER, DIGEST = 5, 32
# What a block has beside its payload.
OVERHEAD = HEADER + DIGEST

BEGIN, SESSION, EXPIRE, SWAP_OUT, SWAP_IN, GROUP, AGE = range(1, 8)
HEAD, FILE, BATCH, END = 10, 11, 12, 13
EVENT = 20

# The kinds of events.
CREATE, RECEIVE, FORK, JOIN, CLONE, CONTENT_MODIFIED = range(1, 7)
ATTRIBUTES_MODIFIED, ROUTE, SEND, DROP, EXPIRED, REPLAY = range(7, 13)

KINDS = ("log", "snapshot", "swap", "claim", "events")

# Limits.
PAYLOAD_MAX = 2**30
NUMBER_LIMIT = 2**62
STORE_LIMIT = 2**60
NO_GENERATOR = 65_535
SLOTS = 65_536
CONTENT_MAX = 16_777_216
ATTRIBUTES_MAX = 65_536
# Of a key of attributes, and of a file's name.
KEY_MAX = 255
LIVE_FILES_MAX = 1_048_576
LIVE_BYTES_MAX = 2**30
# A claim takes appends while it is shorter.
CLAIM_OPEN = 1_048_576
# How many events a file of them has, at most.
EVENTS_PER_FILE = 10_000

# The places of the processors in the standard flow, and their ids.
GET, PUT = 0, 1
IDS = ("get", "put")


# ---- what a store keeps

class Content(typing.NamedTuple):
    slot: int
    offset: int
    size: int
    digest: bytes

    @property
    def end(self):
        return self.offset + self.size


class FlowFile(typing.NamedTuple):
    connection: int
    number: int
    attributes: tuple
    content: Content
    entered: int
    penalty_end: int
    arrival: int

    @property
    def name(self):
        """The attribute `filename`."""
        return dict(self.attributes).get("filename")


class Session(typing.NamedTuple):
    processor: int
    moment: int
    gone: tuple
    placed: tuple
    next_number: int
    next_arrival: int
    last_event: int = 0
    generator: int = NO_GENERATOR
    count: int = 0


class Expire(typing.NamedTuple):
    connection: int
    moment: int
    numbers: tuple
    last_event: int


class SwapOut(typing.NamedTuple):
    connection: int
    batch: int
    numbers: tuple


class SwapIn(typing.NamedTuple):
    connection: int
    batch: int


class Begin(typing.NamedTuple):
    log: int
    version: int = FIRST


class Age(typing.NamedTuple):
    line: int


class Group(typing.NamedTuple):
    """Entries behind one gate."""
    entries: tuple


class Batch(typing.NamedTuple):
    connection: int
    batch: int
    files: int
    bytes: int
    encoded: int


class Event(typing.NamedTuple):
    number: int
    kind: int
    moment: int
    component: str
    file: int
    parents: tuple
    children: tuple
    detail: str
    size: int
    digest: bytes


class Flow(typing.NamedTuple):
    """What a store keeps of its flow: its text's digest, its connections' ids, and how many processors it has."""
    digest: bytes
    connections: tuple
    processors: int


def flow_of(text):
    """What a store keeps of the flow of a text."""
    read = json.loads(text)
    return Flow(hashlib.sha256(text).digest(), tuple(connection["id"] for connection in read["connections"]),
                len(read["processors"]))


# The standard flow.
THE_FLOW = flow_of(THE_TEXT)
# That of the program that ran one fixed flow: the same, of the empty text.
FIXED_FLOW = THE_FLOW._replace(digest=hashlib.sha256(b"").digest())


@dataclasses.dataclass
class State:
    """What files stand for. `contents` has the bytes of each file by its number; `events` are those up to the last one;
    `log` is the current log's number, and None where a store isn't made yet; `end` is the offset of its last gate."""
    store: int
    flow: bytes
    connections: tuple
    counts: tuple
    next_number: int = 1
    next_arrival: int = 1
    last_event: int = 0
    next_batch: int = 1
    processors: tuple = ()
    line: int = 0
    version: int = FIRST
    files: dict = dataclasses.field(default_factory=dict)
    batches: dict = dataclasses.field(default_factory=dict)
    contents: dict = dataclasses.field(default_factory=dict)
    events: list = dataclasses.field(default_factory=list)
    log: int | None = None
    entries: tuple = ()
    end: int | None = None

    def queued(self):
        """The files by their arrival, as pairs of name and bytes."""
        return [(file.name, self.contents[file.number])
                for file in sorted(self.files.values(), key=lambda file: file.arrival)]

    def delivered(self):
        """What the standard flow delivers of them, the oldest first: a file under no name, or under a bad one, is
        dropped."""
        return {file.name: self.contents[file.number]
                for file in sorted(self.files.values(), key=lambda file: (file.entered, file.arrival))
                if is_name(file.name)}


def is_name(text):
    """Whether a text names a file in a folder."""
    return (text is not None and 1 <= len(text.encode()) <= KEY_MAX and text not in (".", "..")
            and "/" not in text and "\0" not in text)


class Damage(typing.NamedTuple):
    """The first damage of some files. The cause is Digest, Short or Form."""
    kind: str
    number: int
    offset: int
    cause: str


def uuid_of(store, number):
    """The text of a flow file's identifier."""
    high, low = divmod(store, 2**12)
    return str(uuid.UUID(int=(high << 80) | (8 << 76) | (low << 64) | (2 << 62) | number))


def new_state(store, flow=THE_FLOW):
    return State(store % STORE_LIMIT, flow.digest, flow.connections, (0,) * flow.processors)


# ---- writing

def uint(value, size):
    return value.to_bytes(size, "big")


def block(kind, payload=b""):
    body = bytes([kind]) + payload
    return uint(len(payload), 4) + body + hashlib.sha256(body).digest()


def text(value, size=2):
    value = value if isinstance(value, bytes) else value.encode()
    return uint(len(value), size) + value


def listed(items):
    items = list(items)
    return uint(len(items), 4) + b"".join(items)


def numbers(values):
    return listed(uint(value, 8) for value in values)


def attributes(pairs):
    pairs = sorted(pairs, key=lambda pair: pair[0].encode())
    return uint(len(pairs), 2) + b"".join(text(key) + text(value, 4) for key, value in pairs)


def content_ref(at):
    return uint(at.slot, 4) + uint(at.offset, 8) + uint(at.size, 8) + at.digest


def flow_file(file):
    return (uint(file.number, 8) + attributes(file.attributes) + content_ref(file.content)
            + uint(file.entered, 8) + uint(file.penalty_end, 8) + uint(file.arrival, 8))


def active_file(file):
    return uint(file.connection, 2) + flow_file(file)


def record_size(file):
    return len(flow_file(file))


def entry(value):
    """The kind and the payload of an entry of a log."""
    if isinstance(value, Begin):
        return BEGIN, uint(value.version, 1) + uint(value.log, 8)
    if isinstance(value, Group):
        return GROUP, listed(map(item, value.entries))
    if isinstance(value, Age):
        return AGE, uint(value.line, 8)
    if isinstance(value, Session):
        return SESSION, b"".join([
            uint(value.processor, 2), uint(value.moment, 8), numbers(value.gone),
            listed(map(active_file, value.placed)), uint(value.next_number, 8), uint(value.next_arrival, 8),
            uint(value.last_event, 8), uint(value.generator, 2), uint(value.count, 8)])
    if isinstance(value, Expire):
        return EXPIRE, (uint(value.connection, 2) + uint(value.moment, 8) + numbers(value.numbers)
                        + uint(value.last_event, 8))
    if isinstance(value, SwapOut):
        return SWAP_OUT, uint(value.connection, 2) + uint(value.batch, 8) + numbers(value.numbers)
    return SWAP_IN, uint(value.connection, 2) + uint(value.batch, 8)


def item(value):
    """An entry of a group."""
    kind, payload = entry(value)
    return uint(kind, 1) + uint(len(payload), 4) + payload


def frame(value):
    """An open gate and the block of an entry, or of a group of them."""
    return OPEN + block(*entry(value))


def log(number, *entries):
    """A log at rest: its Begin, these entries, and a closed gate."""
    return b"".join([frame(Begin(number)), *map(frame, entries), CLOSED])


def head(state):
    """A Head, by its version: the second has the processors' ids and the line too."""
    is_second = state.version == SECOND
    return b"".join([
        uint(state.version, 1), uint(state.store, 8), state.flow, listed(map(text, state.connections)),
        listed(map(text, state.processors)) if is_second else b"", numbers(state.counts), uint(state.next_number, 8),
        uint(state.next_arrival, 8), uint(state.last_event, 8), uint(state.line, 8) if is_second else b"",
        uint(state.next_batch, 8)])


def batch_payload(batch):
    return (uint(batch.connection, 2) + uint(batch.batch, 8) + uint(batch.files, 8) + uint(batch.bytes, 8)
            + uint(batch.encoded, 8))


def with_end(blocks):
    """These blocks, and an End that counts them."""
    return b"".join(blocks) + block(END, uint(len(blocks), 8))


def snapshot(state):
    blocks = [block(HEAD, head(state))]
    blocks += [block(FILE, active_file(state.files[number])) for number in sorted(state.files)]
    blocks += [block(BATCH, batch_payload(state.batches[number])) for number in sorted(state.batches)]
    return with_end(blocks)


def swap_file(files):
    """The swap file of a batch of these files, which ascend by number. It doesn't say of which queue they are: the
    connection is 0."""
    return with_end([block(FILE, active_file(file._replace(connection=0))) for file in files])


def event_payload(event):
    return b"".join([
        uint(event.number, 8), uint(event.kind, 1), uint(event.moment, 8), text(event.component), uint(event.file, 8),
        numbers(event.parents), numbers(event.children), text(event.detail, 4), uint(event.size, 8), event.digest])


def events_files(events):
    """The files of these events, which are numbered from 1 on."""
    return {f"events-{first // EVENTS_PER_FILE}":
            b"".join(block(EVENT, event_payload(event)) for event in events[first:first + EVENTS_PER_FILE])
            for first in range(0, len(events), EVENTS_PER_FILE)}


class Claims:
    """Contents, put where the store puts them: at the end of the lowest claim that is shorter than CLAIM_OPEN."""

    def __init__(self):
        self.claims = []

    def append(self, content):
        slot = next((slot for slot, claim in enumerate(self.claims) if len(claim) < CLAIM_OPEN), len(self.claims))
        if slot == len(self.claims):
            self.claims.append(bytearray())
        at = Content(slot, len(self.claims[slot]), len(content), hashlib.sha256(content).digest())
        self.claims[slot] += content
        return at

    def files(self):
        return {f"claim-{slot}": bytes(claim) for slot, claim in enumerate(self.claims) if claim}


class Writer:
    """A store of the standard flow, written session by session. It keeps the state that its files stand for."""

    def __init__(self, store=1, moment=1000, state=None):
        self.state = state or new_state(store)
        self.moment = moment
        self.claims = Claims()
        self.entries = []
        self.first = snapshot(self.state)

    def made(self, name, content):
        """The next file, whose content is appended to a claim."""
        state = self.state
        file = FlowFile(0, state.next_number, (("filename", name), ("path", "./")), self.claims.append(content),
                        self.moment, 0, state.next_arrival)
        state.files[file.number] = file
        state.next_number += 1
        state.next_arrival += 1
        return file

    def start(self):
        """What was made so far stands in the snapshot, what comes in entries. Else the snapshot is a new store's."""
        self.first = snapshot(self.state)
        return self

    def tell(self, kind, processor, file, detail):
        """One event more of a file."""
        events = self.state.events
        events.append(Event(len(events) + 1, kind, self.moment, IDS[processor], file.number, (), (), detail,
                            file.content.size, file.content.digest))
        self.state.last_event = len(events)

    def session(self, processor, gone, placed):
        self.entries.append(Session(processor, self.moment, tuple(gone), tuple(placed), self.state.next_number,
                                    self.state.next_arrival, self.state.last_event))

    def get(self, name, content):
        """The source took a file."""
        file = self.made(name, content)
        self.tell(RECEIVE, GET, file, name)
        self.session(GET, (), (file,))
        return self

    def put(self, number=None):
        """The sink let a file go, the one that came first where no other is named."""
        files = self.state.files
        number = number or min(files, key=lambda known: files[known].arrival)
        file = files.pop(number)
        if is_name(file.name):
            self.tell(SEND, PUT, file, file.name)
        self.tell(DROP, PUT, file, "success" if is_name(file.name) else "failure")
        self.session(PUT, (number,), ())
        return self

    def log(self):
        return log(1, *self.entries)

    def files(self):
        return {"log-1": self.log(), "snapshot-1": self.first, **self.claims.files(), **events_files(self.state.events)}
