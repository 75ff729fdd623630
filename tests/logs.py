#!/usr/bin/env python3
"""Opens stores that are written from the format alone, whole, cut short and damaged, with the built program.

Of a store that a stop may leave, the files that wait are delivered, its log is mended, and what doesn't matter goes.
A damaged store gives status 4, and nothing is written anywhere. Of each damage the reader in store_reader.py has to
say the same as the table here.

Swap files, which no program writes yet, are written and read from the format alone: whole, cut short and with changed
bits. Those of crates/repository_cases, which another program made, have to be the same byte by byte.
"""

import hashlib
import json
import re
import struct

import printed
import store_format
import store_reader
from store_format import (CLOSED, EVENT, GET, GROUP, OPEN, PUT, SWAP_IN, Age, Batch, Begin, Content, Damage, Expire,
                          Group, Session, SwapOut, Writer, block, entry, event_payload, events_files, frame, log,
                          snapshot, swap_file)
from store_reader import batch_of, state_of
from support import (DAMAGED, DONE, ROOT, Report, find_program, names, need, need_status, options, photo, put_store,
                     read_files, run, work_folder, write_files)

ABC = {"a": b"one", "b": b"", "größe": "drei".encode()}

# What the worked example of docs/STORE.md is made of.
EXAMPLE_STORE, EXAMPLE_MOMENT = 0x123456789abcde, 1000


def three():
    """A store with three files that wait."""
    writer = Writer()
    for name, content in ABC.items():
        writer.get(name, content)
    return writer


THREE = three()
BEGIN = frame(Begin(1))
A, B, C = map(frame, THREE.entries)
DROP = frame(Session(PUT, 1000, (1,), (), 4, 4, 3))
EMPTY = snapshot(Writer().state)
WHOLE = BEGIN + A + B + C + CLOSED
EVENTS = events_files(THREE.state.events)["events-0"]


def store(log=WHOLE, snapshot=EMPTY, claims=None, number=1, **others):
    """The files of a store with this log and snapshot; the claims and the events are those of the three files."""
    claims = THREE.claims.files() if claims is None else claims
    return {f"log-{number}": log, f"snapshot-{number}": snapshot, **claims, "events-0": EVENTS,
            **{name.replace("_", "-"): data for name, data in others.items()}}


def flipped(data, at, bit=0):
    """These bytes with one bit changed."""
    changed = bytearray(data)
    changed[at] ^= 1 << bit
    return bytes(changed)


def closed(data, part):
    """These bytes, with the gate of this frame closed: the frame stands behind a gate that isn't open."""
    at = data.index(part)
    return data[:at] + CLOSED + data[at + 1:]


def first(*wanted):
    return {name: ABC[name] for name in wanted}


def of(number, entries, begins=None):
    """A log of this number with these entries."""
    return frame(Begin(number if begins is None else begins)) + b"".join(entries) + CLOSED


def in_snapshot():
    """A store whose snapshot has the three files; the first one is let go by an entry."""
    writer = Writer()
    for name, content in ABC.items():
        writer.made(name, content)
    return writer.start().put().files()


def one_entry():
    """An entry lets one file go, places another, and sets the count of a generator."""
    writer = Writer().get("a", b"one")
    del writer.state.files[1]
    placed = writer.made("b", b"two")
    writer.entries.append(Session(1, 5, (1,), (placed,), 3, 3, 1, 1, 7))
    return writer.files()


def twice():
    return Writer().get("a", b"one").get("a", b"two").files()


def named(*names):
    """A store with a file under each of these names, or under none."""
    writer = Writer()
    for name in names:
        writer.made(name or "", b"x")
        if name is None:
            last = writer.state.next_number - 1
            writer.state.files[last] = writer.state.files[last]._replace(attributes=())
    return writer.start().files()


def expired():
    """The first of three files has expired, and an event tells of it."""
    writer = three()
    file = writer.state.files.pop(1)
    writer.tell(store_format.EXPIRED, GET, file, "")
    writer.state.events[-1] = writer.state.events[-1]._replace(component="c1")
    writer.entries.append(Expire(0, 1000, (1,), writer.state.last_event))
    return writer.files()


def without_events():
    """A store of sessions that no event tells of, as were written before events were kept."""
    entries = [entry._replace(last_event=0) for entry in THREE.entries]
    return store(log(1, *entries), events_0=b"")


def every_kind():
    """Events of each kind, with parents, children and details, stand in front of the only file's."""
    writer = Writer()
    file = writer.made("a", ABC["a"])
    for kind in range(store_format.CREATE, store_format.REPLAY + 1):
        writer.tell(kind, PUT, file, "")
        writer.state.events[-1] = writer.state.events[-1]._replace(
            parents=(1, 2**62 - 1) * (kind % 3), children=(7,) * (kind % 2), detail="größe" * kind,
            moment=2**64 - kind)
    return writer.start().files()


def crowded(count):
    """A store whose snapshot has a file and so many events."""
    writer = Writer()
    file = writer.made("a", ABC["a"])
    for _ in range(count):
        writer.tell(store_format.ROUTE, PUT, file, "x")
    return writer.start()


def in_two_files():
    """The events of the second file's entry stand in a second file of events."""
    return crowded(store_format.EVENTS_PER_FILE).get("b", ABC["b"]).files()


def numbered_anew():
    writer = crowded(store_format.EVENTS_PER_FILE).get("b", ABC["b"])
    last = writer.state.events[-1]._replace(number=1)
    return writer.files() | {"events-1": block(EVENT, event_payload(last))}


def grouped():
    """The three files come in, and the first one goes, all behind one gate."""
    writer = three().put()
    return writer.files() | {"log-1": log(1, Group(tuple(writer.entries)))}


def items(*entries):
    """A log with one of these items behind its first entry, in a group whatever they are."""
    payload = struct.pack(">I", len(entries)) + b"".join(
        struct.pack(">BI", kind, len(payload)) + payload for kind, payload in entries)
    return store(of(1, [A, OPEN + block(GROUP, payload)]))


NONE = {}
REST = frame(Group(tuple(THREE.entries[1:])))
PAYLOADS = [entry(value) for value in THREE.entries]

# The files of a store, and what is delivered from it.
SOUND = {
    "no file": ({}, NONE),
    "an empty log": ({"log-1": b""}, NONE),
    "a log of one byte, a closed gate": ({"log-1": CLOSED}, NONE),
    "a log of one byte, an open gate": ({"log-1": OPEN}, NONE),
    "a log whose first byte is no open gate": ({"log-1": CLOSED + BEGIN[1:] + CLOSED, "snapshot-1": EMPTY}, NONE),
    "a log whose first byte is torn": ({"log-1": b"\x18" + BEGIN[1:] + CLOSED}, NONE),
    "a snapshot that is torn, and no log": ({"snapshot-1": b"\xff" * 100}, NONE),
    "a snapshot, and a log of one byte": ({"log-1": CLOSED, "snapshot-1": EMPTY}, NONE),
    "a new store": (store(log(1), claims={}), NONE),
    "three files wait": (store(), ABC),
    "two of three were let go": (Writer().get("a", b"1").get("b", b"2").put(2).get("c", b"3").put(1).files(),
                                 {"c": b"3"}),
    "the same name twice, the later one counts": (twice(), {"a": b"two"}),
    "all were let go": (three().put().put().put().files(), NONE),
    "three entries behind one gate": (store(log(1, Group(tuple(THREE.entries)))), ABC),
    "an entry, and two behind one gate": (store(log(1, THREE.entries[0], Group(tuple(THREE.entries[1:])))), ABC),
    "a group that takes a file in and lets it go": (grouped(), first("b", "größe")),
    "a group behind a closed gate": (
        store(closed(log(1, THREE.entries[0], Group(tuple(THREE.entries[1:]))), REST)), first("a")),
    "three files in the snapshot, the first was let go": (in_snapshot(), first("b", "größe")),
    "an entry that lets a file go and places one": (one_entry(), {"b": b"two"}),
    "files under no name or a bad one are dropped": (
        named(None, "", ".", "..", "a/b", "nul\0", "n" * 256, "good"), {"good": b"x"}),
    "an expiry of no file": (store(of(1, [A, B, frame(Expire(0, 7, (), 2))])), first("a", "b")),
    "an expiry of a file, with its event": (expired(), first("b", "größe")),
    "entries that no event tells of": (without_events(), ABC),
    "events of each kind, in front of all entries": (every_kind(), first("a")),
    "the last events stand in a second file": (in_two_files(), first("a", "b")),
    "the last gate is missing": (store(WHOLE[:-1]), ABC),
    "the last gate is open, and the last byte": (store(WHOLE[:-1] + OPEN), ABC),
    "the last gate is torn": (store(WHOLE[:-1] + b"\x42"), ABC),
    "half a frame behind a closed gate": (store(BEGIN + A + CLOSED + B[1:90]), first("a")),
    "a whole frame behind a closed gate": (store(closed(WHOLE, C)), first("a", "b")),
    "rubbish behind a closed gate": (store(BEGIN + A + CLOSED + b"\xff" * 500), first("a")),
    "open gates behind a closed one": (store(BEGIN + A + CLOSED + B + C + CLOSED), first("a")),
    "a changed bit in an open gate: a shorter state": (store(flipped(WHOLE, len(BEGIN + A))), first("a")),
    "bytes past the end of a claim": (store(claims={"claim-0": b"onedrei" + b"\xff" * 9}), ABC),
    "bytes behind the snapshot's End": (store(snapshot=EMPTY + b"\x00" * 9), ABC),
    "a greater log of one byte": (store(log_2=OPEN), ABC),
    "a greater log that is passed over": (store(log_9=CLOSED + WHOLE[1:]), ABC),
    "log 7 is current": (store(of(7, [A, B, C]), number=7), ABC),
    "lower logs and other snapshots don't matter": (
        store(of(7, [A, B]), number=7, log_1=b"\x5a\xff", log_6=OPEN * 99, snapshot_1=b"x", snapshot_8=EMPTY),
        first("a", "b")),
    "other claims, batches and events don't matter": (
        store(claim_3=b"x", claim_70000=b"y", swap_1=b"z", events_1=b"w", events_70000=b"v"), ABC),
    "a whole swap file of a batch that nothing names": (store(swap_1=swap_file(THREE.state.files.values())), ABC),
    "bytes behind the last event": (store(events_0=EVENTS + b"\xff" * 9), ABC),
    "a whole event behind the last one": (store(BEGIN + A + CLOSED), first("a")),
}


def ended(number=1, at=0, cause="Form", kind="log"):
    return Damage(kind, number, at, cause)


def changed(at, **fields):
    """The log of the three files, of which the one at a place has other fields in its entry."""
    entries = list(THREE.entries)
    placed = entries[at].placed[0]._replace(**{name: value for name, value in fields.items()
                                               if name in placed_fields()})
    entries[at] = entries[at]._replace(placed=(placed,), **{name: value for name, value in fields.items()
                                                            if name not in placed_fields()})
    return store(log(1, *entries))


def placed_fields():
    return store_format.FlowFile._fields


def head(**fields):
    """A store with no entry whose Head has other fields."""
    state = Writer().state
    for name, value in fields.items():
        setattr(state, name, value)
    return store(log(1), snapshot(state), claims={})


def counted(blocks):
    """A snapshot of a Head and these blocks, and a right End."""
    state = Writer().state
    state.next_number = state.next_arrival = 9
    return store(log(1), block(store_format.HEAD, store_format.head(state)) + b"".join(blocks)
                 + block(store_format.END, struct.pack(">Q", 1 + len(blocks))))


FILES = [THREE.state.files[number] for number in (1, 2, 3)]
HEAD_SIZE = len(block(store_format.HEAD, store_format.head(Writer().state)))


def file_blocks(*files):
    return [block(store_format.FILE, store_format.active_file(file)) for file in files]


ATS = [0, len(BEGIN), len(BEGIN + A), len(BEGIN + A + B), len(BEGIN + A + B + C)]
SECOND = HEAD_SIZE + len(file_blocks(FILES[0])[0])
BATCH = block(store_format.BATCH, store_format.batch_payload(Batch(0, 1, 2, 3, 4)))



def event_blocks(*numbers):
    return b"".join(block(EVENT, event_payload(THREE.state.events[number - 1])) for number in numbers)


EVENT_ATS = [len(event_blocks(*range(1, number))) for number in (1, 2, 3)]

# The files of a store that stand for nothing, and the first damage.
DAMAGE = {
    # The log.
    "one bit of the Begin's digest": (store(flipped(WHOLE, len(BEGIN) - 1)), ended(cause="Digest")),
    "one bit of the Begin's payload": (store(flipped(WHOLE, 6)), ended(cause="Digest")),
    "one bit of an entry": (store(flipped(WHOLE, ATS[1] + 20)), ended(at=ATS[1], cause="Digest")),
    "one bit of a kind": (store(flipped(WHOLE, ATS[1] + 5)), ended(at=ATS[1], cause="Digest")),
    "one bit of the last digest": (store(flipped(WHOLE, len(WHOLE) - 2)), ended(at=ATS[3], cause="Digest")),
    "a length that is too great by one": (store(flipped(BEGIN + A + CLOSED, ATS[1] + 4, 0)),
                                          ended(at=ATS[1], cause="Digest")),
    "a length past the end": (store(flipped(BEGIN + A + CLOSED, ATS[1] + 3)), ended(at=ATS[1], cause="Short")),
    "a length past 2^30": (store(WHOLE[:-1] + OPEN + struct.pack(">I", 2**30 + 1) + b"\x02"), ended(at=ATS[4])),
    "an open gate with half a block behind it": (store(BEGIN + A + B[:90]), ended(at=ATS[2], cause="Short")),
    "an open gate with one byte behind it": (store(WHOLE[:-1] + OPEN + b"\0"), ended(at=ATS[4], cause="Short")),
    "a block without its last byte": (store(WHOLE[:-2]), ended(at=ATS[3], cause="Short")),
    "no Begin": (store(A + CLOSED), ended()),
    "a Begin of another log": (store(of(1, [A], begins=2)), ended()),
    "a Begin of version 0, as the first path has it": (
        store(OPEN + block(1, struct.pack(">BQ", 0, 1)) + CLOSED), ended()),
    "a Begin that stands twice": (store(of(1, [A, BEGIN])), ended(at=ATS[2])),
    "a Begin of the second version": (store(frame(Begin(1, store_format.SECOND)) + A + CLOSED), ended()),
    "a group in place of the Begin": (store(frame(Group((Begin(1), *THREE.entries))) + CLOSED), ended()),
    "a group of one entry": (items(PAYLOADS[1]), ended(at=ATS[2])),
    "a group of none": (items(), ended(at=ATS[2])),
    "a group with a Begin": (items(PAYLOADS[1], (1, BEGIN[6:-32])), ended(at=ATS[2])),
    "a group in a group": (items(PAYLOADS[1], (GROUP, REST[6:-32])), ended(at=ATS[2])),
    "a group whose second entry has a byte left over": (
        items(PAYLOADS[1], (2, PAYLOADS[2][1] + b"\0")), ended(at=ATS[2])),
    "a group with a byte left over": (store(of(1, [A, OPEN + block(GROUP, REST[6:-32] + b"\0")])), ended(at=ATS[2])),
    "one bit of a group": (store(flipped(BEGIN + A + REST + CLOSED, ATS[2] + 70)), ended(at=ATS[2], cause="Digest")),
    "an aging in a log of the first version": (store(log(1, *THREE.entries, Age(0))), ended(at=ATS[4])),
    "an aging in a group": (store(log(1, Group((*THREE.entries, Age(0))))), ended(at=ATS[1])),
    "a kind that there isn't": (store(of(1, [A, OPEN + block(30)])), ended(at=ATS[2])),
    "an entry with a byte left over": (store(of(1, [OPEN + block(2, A[6:-32] + b"\0")])), ended(at=ATS[1])),
    "an entry with a byte missing": (store(of(1, [OPEN + block(2, A[6:-33])])), ended(at=ATS[1])),
    "a greater log is damaged": (store(log_3=OPEN + b"x"), ended(3, cause="Short")),
    # Fields that have no reading.
    "a file of number 0": (changed(1, number=0), ended(at=ATS[2])),
    "a file of number 2^62": (changed(1, number=2**62), ended(at=ATS[2])),
    "a file of arrival 0": (changed(1, arrival=0), ended(at=ATS[2])),
    "a slot past the last": (changed(1, content=FILES[1].content._replace(slot=65_536)), ended(at=ATS[2])),
    "a content of more than 16 MiB": (changed(1, content=FILES[1].content._replace(size=2**24 + 1)), ended(at=ATS[2])),
    "a content that ends at 2^62": (changed(1, content=FILES[1].content._replace(offset=2**62 - FILES[1].content.size)),
                                    ended(at=ATS[2])),
    "the attribute uuid": (changed(1, attributes=(("uuid", "x"),)), ended(at=ATS[2])),
    "an empty key": (changed(1, attributes=(("", "x"),)), ended(at=ATS[2])),
    "a key of 256 bytes": (changed(1, attributes=(("k" * 256, "x"),)), ended(at=ATS[2])),
    "a key twice": (changed(1, attributes=(("k", "x"), ("k", "x"))), ended(at=ATS[2])),
    "attributes of 65,537 bytes": (changed(1, attributes=(("k", "v" * 65_528),)), ended(at=ATS[2])),
    "a value that isn't UTF-8": (store(of(1, [OPEN + block(2, A[6:-32].replace(b"./", b"\xff/"))])), ended(at=ATS[1])),
    "no generator, and a count": (changed(1, count=1), ended(at=ATS[2])),
    # The entries' fit.
    "a file goes that isn't there": (store(of(1, [DROP])), ended(at=ATS[1])),
    "a file goes twice": (store(of(1, [A, B, C, DROP, DROP])), ended(at=ATS[4] + len(DROP))),
    "the second entry of a group doesn't fit": (items(PAYLOADS[1], PAYLOADS[1]), ended(at=ATS[2])),
    "a file goes twice in one entry": (changed(1, gone=(1, 1)), ended(at=ATS[2])),
    "a number that is taken": (changed(1, number=1), ended(at=ATS[2])),
    "an arrival that is taken": (changed(1, arrival=1), ended(at=ATS[2])),
    "a number that isn't below the next": (changed(1, number=3), ended(at=ATS[2])),
    "an arrival that isn't below the next": (changed(1, arrival=3), ended(at=ATS[2])),
    "a connection that there isn't": (changed(1, connection=1), ended(at=ATS[2])),
    "a generator that there isn't": (changed(1, generator=2), ended(at=ATS[2])),
    "a counter that falls": (changed(2, next_number=2, number=1, gone=(1,)), ended(at=ATS[3])),
    "an expiry of a file that isn't there": (store(of(1, [A, frame(Expire(0, 7, (2,), 1))])), ended(at=ATS[2])),
    "the return of a batch that isn't swapped out": (
        store(of(1, [A, OPEN + block(SWAP_IN, struct.pack(">HQ", 0, 1))])), ended(at=ATS[2])),
    # The snapshot.
    "no snapshot": (store(snapshot=b""), ended(kind="snapshot", cause="Short")),
    "a snapshot of another number": (store(of(2, [A]), EMPTY, number=2) | {"snapshot-2": b"", "snapshot-1": EMPTY},
                                     ended(2, kind="snapshot", cause="Short")),
    "a Head cut short": (store(snapshot=EMPTY[:60]), ended(kind="snapshot", cause="Short")),
    "one bit of a Head": (store(snapshot=flipped(EMPTY, 20)), ended(kind="snapshot", cause="Digest")),
    "no End": (store(snapshot=EMPTY[:HEAD_SIZE]), ended(at=HEAD_SIZE, kind="snapshot", cause="Short")),
    "an End that counts wrong": (
        store(snapshot=EMPTY[:HEAD_SIZE] + block(13, struct.pack(">Q", 2))), ended(at=HEAD_SIZE, kind="snapshot")),
    "no Head": (store(snapshot=EMPTY[HEAD_SIZE:]), ended(kind="snapshot")),
    "two Heads": (store(snapshot=EMPTY[:HEAD_SIZE] + EMPTY), ended(at=HEAD_SIZE, kind="snapshot")),
    "a store id of 2^60": (head(store=2**60), ended(kind="snapshot")),
    "a Head of the second version": (
        head(version=store_format.SECOND, processors=("get", "put")), ended(kind="snapshot")),
    "a next number of 0": (head(next_number=0), ended(kind="snapshot")),
    "a next arrival of 0": (head(next_arrival=0), ended(kind="snapshot")),
    "a next batch of 0": (head(next_batch=0), ended(kind="snapshot")),
    "a next number of 2^62": (head(next_number=2**62), ended(kind="snapshot")),
    "a connection twice": (head(connections=("c1", "c1")), ended(kind="snapshot")),
    "this flow, and another connection": (head(connections=("c2",)), ended(kind="snapshot")),
    "this flow, and another number of processors": (head(counts=(0,)), ended(kind="snapshot")),
    "files that don't ascend": (counted(file_blocks(FILES[1], FILES[0])), ended(at=SECOND, kind="snapshot")),
    "a file twice": (counted(file_blocks(FILES[0], FILES[0])), ended(at=SECOND, kind="snapshot")),
    "an arrival twice": (
        counted(file_blocks(FILES[0], FILES[1]._replace(arrival=1))), ended(at=SECOND, kind="snapshot")),
    "an arrival of 0": (counted(file_blocks(FILES[0]._replace(arrival=0))), ended(at=HEAD_SIZE, kind="snapshot")),
    "a file in a connection that there isn't": (
        counted(file_blocks(FILES[0]._replace(connection=1))), ended(at=HEAD_SIZE, kind="snapshot")),
    "a file past the next number": (
        counted(file_blocks(FILES[0]._replace(number=9))), ended(at=HEAD_SIZE, kind="snapshot")),
    "a batch, and a file behind it": (counted([BATCH, *file_blocks(FILES[0])]),
                                      ended(at=HEAD_SIZE + len(BATCH), kind="snapshot")),
    # Batches, contents and events.
    "a batch in the snapshot": (counted([BATCH]), ended(kind="swap", cause="Short")),
    "a batch in the snapshot, with its swap file": (counted([BATCH]) | {"swap-1": swap_file(FILES[:2])},
                                                    ended(kind="swap", cause="Short")),
    "a batch that an entry swaps out": (store(of(1, [A, frame(SwapOut(0, 1, (1,)))]), swap_1=b"x"),
                                        ended(kind="swap", cause="Short")),
    "a batch that an entry swaps out, with its swap file": (
        store(of(1, [A, frame(SwapOut(0, 1, (1,)))]), swap_1=swap_file(FILES[:1])), ended(kind="swap", cause="Short")),
    "a content cut short": (store(claims={"claim-0": b"onedre"}), ended(0, 3, "Short", "claim")),
    "no claim": (store(claims={}), ended(0, 0, "Short", "claim")),
    "one bit of a content": (store(claims={"claim-0": b"onedrej"}), ended(0, 3, "Digest", "claim")),
    "a content in another claim": (
        changed(0, content=Content(5, 0, 3, FILES[0].content.digest)), ended(5, 0, "Short", "claim")),
    "no events": (store(events_0=b""), ended(0, 0, "Short", "events")),
    "a last event that no file has": (changed(2, last_event=4), ended(0, len(EVENTS), "Short", "events")),
    "a last event in a file that isn't there": (in_two_files() | {"events-1": b""}, ended(1, 0, "Short", "events")),
    "an event cut short": (store(events_0=EVENTS[:-1]), ended(0, EVENT_ATS[2], "Short", "events")),
    "one bit of an event": (store(events_0=flipped(EVENTS, EVENT_ATS[1] + 9)),
                            ended(0, EVENT_ATS[1], "Digest", "events")),
    "an event twice": (store(events_0=event_blocks(1, 1, 3)), ended(0, EVENT_ATS[1], kind="events")),
    "events that begin at 2": (store(events_0=event_blocks(2, 3)), ended(0, kind="events")),
    "an event in a block of another kind": (
        store(events_0=block(11, event_payload(THREE.state.events[0]))), ended(0, kind="events")),
    "an event with a byte left over": (
        store(events_0=block(EVENT, event_payload(THREE.state.events[0]) + b"\0")), ended(0, kind="events")),
    "an event of a kind that there isn't": (
        store(events_0=block(EVENT, event_payload(THREE.state.events[0]._replace(kind=13)))), ended(0, kind="events")),
    "an event of no file": (
        store(events_0=block(EVENT, event_payload(THREE.state.events[0]._replace(file=0)))), ended(0, kind="events")),
    "the numbers begin anew in a second file": (numbered_anew(), ended(1, kind="events")),
    # Which of two is the first.
    "log before snapshot": (store(flipped(WHOLE, 20), snapshot=b""), ended(cause="Digest")),
    "snapshot before fit": (store(of(1, [DROP]), snapshot=b""), ended(kind="snapshot", cause="Short")),
    "batches before fit": (store(of(1, [DROP, frame(SwapOut(0, 4, ())), frame(SwapOut(0, 2, ()))])),
                           ended(2, kind="swap", cause="Short")),
    "fit before contents": (store(of(1, [A, A]), claims={}), ended(at=ATS[2])),
    "contents before events": (store(events_0=b"", claims={}), ended(0, 0, "Short", "claim")),
    # No log is current.
    "no log, and a claim": ({"claim-3": b"x", "claim-2": b"x"}, ended(2, kind="claim")),
    "a closed first gate, and a claim": (store(CLOSED + WHOLE[1:]), ended(0, kind="claim")),
    "no log, and a greater one that is passed over": ({"log-2": CLOSED, "snapshot-3": EMPTY}, ended(2)),
    "no log, and a greater snapshot": ({"snapshot-2": EMPTY, "swap-1": b"x"}, ended(2, kind="snapshot")),
    "no log, and a batch": ({"swap-1": b"x", "claim-0": b"x"}, ended(kind="swap")),
    "no log, and a whole swap file": ({"swap-0": swap_file(FILES)}, ended(0, kind="swap")),
    "no log, and events": ({"events-0": b"x"}, ended(0, kind="events")),
}


def is_at_rest(folder):
    """The store stands for no file, its log for that state alone, and there is no file that doesn't matter."""
    files = store_reader.files_in(folder / "store")
    state = state_of(files)
    need(not isinstance(state, Damage), f"the store is damaged: {state}")
    need(state.log is not None and not state.files, "the store isn't an empty one")
    log = files[f"log-{state.log}"]
    need(log[state.end:] == CLOSED, "the log isn't at rest")
    events = events_files(state.events)
    need(names(folder / "store") == sorted(["lock", f"log-{state.log}", f"snapshot-{state.log}", *events]),
         f"store holds {names(folder / 'store')}")
    need({name: files[name] for name in events} == events, "something stands behind the last event")
    return state


def sound(program, parent, case):
    files, delivered = SOUND[case]
    state = state_of(files)
    need(not isinstance(state, Damage), f"the reader says {state}")
    need(state.delivered() == delivered, f"the reader says {state.queued()}")
    with work_folder(parent) as folder:
        put_store(folder, files)
        need_status(run(program, folder), DONE)
        need(read_files(folder / "out") == delivered, f"out holds {read_files(folder / 'out')}")
        after = is_at_rest(folder)
        need((after.log, after.counts, after.next_number) == (state.log or 1, state.counts, state.next_number),
             "it keeps something else")
        need(after.events[:len(state.events)] == state.events, "it keeps other events")
        write_files(folder / "in", {"later": b"more"})
        need_status(run(program, folder), DONE)
        need(read_files(folder / "out") == {**delivered, "later": b"more"}, "a later file isn't delivered")
        need(is_at_rest(folder).next_number == state.next_number + 1, "the later file isn't the next one")


def damaged(program, parent, case):
    files, damage = DAMAGE[case]
    found = state_of(files)
    need(found == damage, f"the reader says {found}")
    with work_folder(parent) as folder:
        put_store(folder, files)
        write_files(folder / "in", {"waits": b"untouched"})
        write_files(folder / "out", {"a": b"from before"})
        before = photo(folder)
        ended = run(program, folder)
        need_status(ended, DAMAGED)
        need(printed.is_damage(ended.said, damage), f"it printed {ended.said!r}")
        need(photo(folder) == before, "something was written")
        need(names(folder) == ["flow.json", "in", "out", "store"], f"it made {names(folder)}")


# ---- swap files

# The swap files of crates/repository_cases are read as this batch.
CASES_BATCH = 1


def swapped(*files):
    """These files as a swap file has them."""
    return [file._replace(connection=0) for file in files]


def made_for_cases(count):
    """The files that crates/repository_cases makes by their numbers."""
    for number in range(2, 3 * count + 2, 3):
        content = Content(number // 1000 % 65_536, number % 1000 * 100, 100,
                          hashlib.sha256(struct.pack(">Q", number)).digest())
        yield store_format.FlowFile(0, number, (("filename", f"file-{number}"),), content, 1000, number % 2,
                                    number // 2)


def damage_text(data, damage):
    """What crates/repository_cases prints of the damage of a swap file of these bytes."""
    place, left = f"{damage.kind}-{damage.number} at {damage.offset}: ", data[damage.offset:]
    if damage.cause == "Form":
        return place + "no reading"
    size = int.from_bytes(left[:4], "big")
    if damage.cause == "Short":
        needed = store_format.HEADER if len(left) < store_format.HEADER else size + store_format.OVERHEAD
        return f"{place}{needed} bytes needed, {len(left)} there"
    end = store_format.HEADER + size
    found = hashlib.sha256(left[4:end]).hexdigest()
    return f"{place}digest {left[end:end + store_format.DIGEST].hex()} stored, {found} found"


def batch_text(case):
    """What crates/repository_cases prints of a case of a batch."""
    if "made_batch" in case:
        files = list(made_for_cases(case["made_batch"]))
        data = swap_file(files)
        need(batch_of(CASES_BATCH, data) == files, f"of {case} other files are read")
        return f"{len(files)} files, 0 bytes left, {len(data)} bytes there, {hashlib.sha256(data).hexdigest()}"
    data = bytes.fromhex(case["batch"])
    read = batch_of(CASES_BATCH, data)
    if isinstance(read, Damage):
        return damage_text(data, read)
    return f"{len(read)} files, 0 bytes left, {swap_file(read).hex()} there"


def batches_of_the_cases(_program, _parent):
    """The swap files of crates/repository_cases say the same here: files, which are written alike, or a damage."""
    crate = ROOT / "crates" / "repository_cases"
    cases = map(json.loads, (crate / "stdin").read_text().splitlines())
    tried = [(case, said) for case, said in zip(cases, (crate / "stdout").read_text().splitlines(), strict=True)
             if ("batch" in case or "made_batch" in case) and "failing" not in case]
    for case, said in tried:
        text = batch_text(case)
        need(text == said, f"{str(case)[:120]}: {text[:200]}, where it prints {said[:200]}")
    need(len(tried) >= 10, f"only {len(tried)} cases have a batch")
    return f"{len(tried)} cases"


def block_of(starts, at):
    """Where the block begins that has the byte at an offset."""
    return max(start for start in starts if start <= at)


def cut_and_changed_batches(_program, _parent):
    """A swap file is read back as its files, whatever follows it; cut anywhere, or with one bit of any byte changed, it
    is damaged at the block of that byte."""
    data = swap_file(FILES)
    blocks = file_blocks(*swapped(*FILES))
    starts = [len(b"".join(blocks[:place])) for place in range(len(blocks) + 1)]
    for behind in (b"", b"\0", data):
        need(batch_of(7, data + behind) == swapped(*FILES), f"other files are read, with {len(behind)} bytes behind")
    for size in range(len(data)):
        found = batch_of(7, data[:size])
        need(found == Damage("swap", 7, block_of(starts, size), "Short"), f"of {size} bytes the reader says {found}")
    for at in range(len(data)):
        for bit in range(8):
            start = block_of(starts, at)
            found = batch_of(7, flipped(data, at, bit))
            # A changed length cuts the block, names one that is too long, or gives it another digest.
            causes = ("Digest",) if at - start >= 4 else ("Digest", "Short", "Form")
            need(isinstance(found, Damage) and found[:3] == ("swap", 7, start) and found.cause in causes,
                 f"byte {at}, bit {bit}: the reader says {found}")
    return f"{len(data)} cuts, {8 * len(data)} bits"


def bent_batches(_program, _parent):
    """Blocks that are whole, and have no place in a swap file."""
    one, two = file_blocks(*swapped(*FILES[:2]))
    end = block(store_format.END, struct.pack(">Q", 2))
    wrong = {"another connection": (len(one), one + file_blocks(FILES[1]._replace(connection=1))[0] + end),
             "a number twice": (len(one), one + one + end),
             "numbers that fall": (len(two), two + one + end),
             "an End that counts itself": (len(one + two), one + two + block(store_format.END, struct.pack(">Q", 3))),
             "an End that counts too few": (len(one + two), one + two + block(store_format.END, struct.pack(">Q", 1))),
             "a Head": (0, EMPTY),
             "a Batch": (len(one), one + BATCH + end),
             "a File with a byte left over": (len(one), one + block(store_format.FILE, two[5:-32] + b"\0") + end),
             "a File with a byte missing": (len(one), one + block(store_format.FILE, two[5:-33]) + end),
             "an End with a byte left over": (
                 len(one + two), one + two + block(store_format.END, struct.pack(">Q", 2) + b"\0")),
             "a length past 2^30": (len(one), one + struct.pack(">I", 2**30 + 1) + two[4:] + end)}
    for what, (at, data) in wrong.items():
        found = batch_of(7, data)
        need(found == Damage("swap", 7, at, "Form"), f"{what}: the reader says {found}")
    return f"{len(wrong)} files"


# ---- the examples of the docs

def dumps():
    """The examples in bytes of docs/STORE.md, in their order: each begins at place 0."""
    text = (ROOT / "docs" / "STORE.md").read_text()
    found = []
    for place, digits in re.findall(r"^([0-9a-f]{3})  ((?:[0-9a-f]{2} ?)+)", text, re.MULTILINE):
        if int(place, 16) == 0:
            found.append(b"")
        need(int(place, 16) == len(found[-1]), f"the line at {place} stands {len(found[-1]):x} bytes from the start")
        found[-1] += bytes.fromhex(digits)
    return found


def example(program, parent):
    """The worked example of the docs is what the format says, and what the program writes but for id and moments."""
    writer = Writer(EXAMPLE_STORE, EXAMPLE_MOMENT).get("a.txt", b"hi")
    batch = swap_file(writer.state.files.values())
    writer.put()
    need(dumps() == [writer.first, writer.log(), writer.files()["events-0"], batch], "it isn't what the format says")
    with work_folder(parent) as folder:
        write_files(folder / "in", {"a.txt": b"hi"})
        need_status(run(program, folder), DONE)
        state = is_at_rest(folder)
        files = store_reader.files_in(folder / "store")
    got, put = state.entries
    again = Writer(state.store, got.moment).get("a.txt", b"hi")
    again.moment = put.moment
    again.put()
    need(files == {"log-1": again.log(), "snapshot-1": again.first, **events_files(again.state.events)},
         "it isn't what the program writes")
    need(0 < got.moment <= put.moment, f"moments {got.moment} and {put.moment}")


def smaller_examples(_program, _parent):
    """The smaller examples of the docs, in one line each."""
    text = (ROOT / "docs" / "STORE.md").read_text()
    for what, data in (("the attributes", store_format.attributes([("filename", "a.txt")])),
                       ("the block of kind 0x61", block(0x61, b"bc"))):
        need(f"`{data.hex()}`" in text, f"{what} should be {data.hex()}")


def changed_bits(program, parent):
    """One bit of each byte of a log at rest is changed. Only a gate's is not told, and ends the log there."""
    data = BEGIN + A + B + CLOSED
    gates = {ATS[1]: NONE, ATS[2]: first("a"), ATS[3]: first("a", "b")}
    for at in range(len(data)):
        with work_folder(parent) as folder:
            put_store(folder, store(flipped(data, at, at % 8)))
            ended = run(program, folder)
            what = f"byte {at}, bit {at % 8}"
            if at in gates:
                need(ended.status == DONE, f"{what}, in a gate: status {ended.status}")
                need(read_files(folder / "out") == gates[at], f"{what}, in a gate: {names(folder / 'out')}")
            else:
                need(ended.status == DAMAGED, f"{what}: status {ended.status}")
    return f"{len(data)} bits"


def main():
    given = options(__doc__).parse_args()
    program = find_program(given.program)
    report = Report()
    print("logs: stores written from the format alone", flush=True)
    report.case("the worked example of docs/STORE.md", example, program, given.folder)
    report.case("the smaller examples of docs/STORE.md", smaller_examples, program, given.folder)
    report.case("a changed bit is told, unless it is a gate's", changed_bits, program, given.folder)
    report.case("the swap files of crates/repository_cases", batches_of_the_cases, program, given.folder)
    report.case("swap files cut short, and with a changed bit", cut_and_changed_batches, program, given.folder)
    report.case("swap files with blocks that have no place there", bent_batches, program, given.folder)
    for case in SOUND:
        report.case(f"opens: {case}", sound, program, given.folder, case)
    for case in DAMAGE:
        report.case(f"status 4: {case}", damaged, program, given.folder, case)
    report.end()


main()
