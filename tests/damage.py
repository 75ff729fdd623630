#!/usr/bin/env python3
"""Changes each byte of each file of a small store, and cuts each file at each length, and opens it with the program.

The store is written from the format alone: two files wait, one in the snapshot and one by an entry, and an entry let
a third one go. The program has to end as the reader in store_reader.py says: with 4, or with 3 where it is another
flow's store, and then nothing was written anywhere; or with 0, and then it delivers the files of the state that the
bytes stand for. Since a digest tells a changed byte, each byte that a digest covers is changed once more with the
digest made anew: so the fields themselves are tried.

Beside that: a store of the first path, stores of other flows, and stores at their limits.
"""

import hashlib
import json
import os
import random

import printed
import store_format
import store_reader
from store_format import CLAIM_OPEN, NUMBER_LIMIT, SLOTS, Content, Damage, FlowFile, Writer
from store_reader import state_of
from support import (DAMAGED, DONE, LIMIT, REFUSED, THE_TEXT, Report, find_program, in_memory, names, need, need_status,
                     options, parse_seeded, photo, put_store, read_files, run, work_folder, write_files)

# In the quick form every so many of the cases.
STEP = 7


def small_store():
    """A store that names each kind of thing that today's stores have."""
    writer = Writer(0x123456789abcde)
    writer.made("gone.txt", b"let go")
    writer.made("größe", b"b" * 40)
    writer.start()
    return writer.get("c.csv", b"1,2\n3,4\n").put(1).files()


def changed_bytes(files, values):
    """Each byte changed, to so many other values each."""
    for name, data in sorted(files.items()):
        for at in range(len(data)):
            for value in random.sample([value for value in range(256) if value != data[at]], values):
                yield f"{name} byte {at} is {value:02x}", {**files, name: data[:at] + bytes([value]) + data[at + 1:]}


def bodies(name, data):
    """Where the kind and the payload of each block of a file stand."""
    if name.startswith("claim"):
        return
    at = 0
    while at + 1 < len(data):
        # In a log a gate stands before each block.
        start = at + 4 + name.startswith("log")
        end = start + 1 + int.from_bytes(data[start - 4:start], "big")
        yield start, end
        at = end + store_format.DIGEST


def changed_fields(files, values):
    """Each byte of a kind or a payload changed, to so many other values each, with a right digest."""
    for name, data in sorted(files.items()):
        for start, end in bodies(name, data):
            for at in range(start, end):
                for value in random.sample([value for value in range(256) if value != data[at]], values):
                    body = data[start:at] + bytes([value]) + data[at + 1:end]
                    whole = data[:start] + body + hashlib.sha256(body).digest() + data[end + store_format.DIGEST:]
                    yield f"{name} byte {at} is {value:02x}, and the digest is right", {**files, name: whole}


def cuts(files):
    """Each file cut at each length. At length 0 it isn't there."""
    for name, data in sorted(files.items()):
        for size in range(len(data)):
            yield f"{name} is cut to {size}", {**files, name: data[:size]}


def put_some(folder, files):
    """A store of these files, of which the empty ones aren't there."""
    put_store(folder, {name: data for name, data in files.items() if data})


def refusal(said):
    """The status of a store that isn't opened, and None for one that is."""
    if isinstance(said, Damage):
        return DAMAGED
    return None if said.flow == store_format.THE_FLOW.digest else REFUSED


def is_refusal(told, said):
    """Whether that is what a run prints of this refusal."""
    return printed.is_damage(told, said) if isinstance(said, Damage) else told == b"flow refused: rule 13 at /\n"


def ends_as_said(program, parent, what, files):
    """Runs the program over these files. Whether they are opened."""
    said = state_of(files)
    refused = refusal(said)
    with work_folder(parent) as folder:
        put_some(folder, files)
        before = photo(folder)
        ended = run(program, folder)
        if refused is not None:
            need(ended.status == refused, f"{what}: status {ended.status}, and the reader says {said}")
            need(is_refusal(ended.said, said), f"{what}: it printed {ended.said!r}, and the reader says {said}")
            need(photo(folder) == before, f"{what}: something was written")
            return False
        need(ended.status == DONE, f"{what}: status {ended.status}, and the reader says that it is sound")
        need(read_files(folder / "out") == said.delivered(), f"{what}: out holds {names(folder / 'out')}")
        holds_nothing(folder, what)
        return True


def waits_for_long(files):
    """Whether a file is penalised, so that the program waits before it puts it."""
    said = state_of(files)
    return not isinstance(said, Damage) and any(file.penalty_end for file in said.files.values())


def holds_nothing(folder, what="the store"):
    files = store_reader.files_in(folder / "store")
    state = state_of(files)
    need(not isinstance(state, Damage), f"{what}: {state}")
    need(not state.files and not store_reader.claims_in(files), f"{what}: it holds a file, or a claim")


def all_cases(program, parent, cases, step):
    """Every so many of the cases, from a random one on."""
    cases = list(cases)
    tried = [(what, files) for what, files in cases[random.randrange(step)::step] if not waits_for_long(files)]
    opened = sum(ends_as_said(program, parent, what, files) for what, files in tried)
    return f"{len(tried)} of {len(cases)}: {opened} are opened, {len(tried) - opened} are refused"


# ---- stores that aren't opened, and stores at their limits

def is_refused(program, parent, files, status):
    """The program ends with this status, and nothing is written, also when it is tried again."""
    with work_folder(parent) as folder:
        put_some(folder, files)
        write_files(folder / "in", {"waits": b"untouched"})
        write_files(folder / "out", {"other": b"stays"})
        before = photo(folder)
        for _ in range(2):
            need_status(run(program, folder), status)
            need(photo(folder) == before, "something was written")


def first_path(program, parent):
    """A log as the first path wrote it: version 0, a file that joined its queue, and left it."""
    added = b"\x00\x05a.txt\x00\x00\x00\x02hi"
    frames = [(1, b"\x00" + (1).to_bytes(8, "big")), (30, added), (31, b"")]
    log = b"".join(store_format.OPEN + store_format.block(*frame) for frame in frames) + store_format.CLOSED
    for files in ({"log-1": log}, {"log-1": log, "snapshot-1": store_format.snapshot(Writer().state)}):
        need(state_of(files) == Damage("log", 1, 0, "Form"), "the reader says something else")
        is_refused(program, parent, files, DAMAGED)


def of_flow(flow):
    """A writer of a new store of another flow."""
    return Writer(state=store_format.new_state(1, flow))


def other_flow(program, parent):
    """A store of a flow with another text, be it by one blank; also where files wait in it. The program that ran one
    fixed flow had the empty text."""
    blank = store_format.flow_of(THE_TEXT + b" ")
    for flow in (store_format.FIXED_FLOW, blank, blank._replace(digest=bytes(32)),
                 blank._replace(connections=("in", "out"), processors=3)):
        is_refused(program, parent, of_flow(flow).files(), REFUSED)
        is_refused(program, parent, of_flow(flow).get("a", b"one").files(), REFUSED)


def damaged_and_other(program, parent):
    """A store of another flow that is damaged too: the damage is told."""
    files = of_flow(store_format.FIXED_FLOW).get("a", b"one").files()
    is_refused(program, parent, {**files, "claim-0": b"onf"}, DAMAGED)
    is_refused(program, parent, {**files, "snapshot-1": files["snapshot-1"][:-1]}, DAMAGED)


def numbers_are_used_up(program, parent):
    """Where no number or no arrival is left the run ends with 11 as the next file is to be taken, and nothing is done.
    With an empty inbox what waits is delivered."""
    last = NUMBER_LIMIT - 1
    for fields in ({"next_number": last}, {"next_arrival": last}, {"next_number": last, "next_arrival": last}):
        writer = Writer()
        writer.made("waits", b"delivered")
        for name, value in fields.items():
            setattr(writer.state, name, value)
        writer.start()
        with work_folder(parent) as folder:
            put_some(folder, writer.files())
            write_files(folder / "in", {"a": b"one", "b": b"two"})
            before = photo(folder / "in", folder / "out", folder / "store" / "log-1")
            for _ in range(2):
                need_status(run(program, folder), LIMIT)
                need(photo(folder / "in", folder / "out", folder / "store" / "log-1") == before, "something changed")
            for name in ("a", "b"):
                (folder / "in" / name).unlink()
            need_status(run(program, folder), DONE)
            need(read_files(folder / "out") == {"waits": b"delivered"}, f"out holds {names(folder / 'out')}")
            state = state_of(store_reader.files_in(folder / "store"))
            need(not isinstance(state, Damage) and not state.files, f"the store holds {state}")
            need(all(getattr(state, name) == value for name, value in fields.items()), "a counter changed")


def one_number_is_left(program, parent):
    """The last number that a file may have is used."""
    writer = Writer()
    writer.state.next_number = NUMBER_LIMIT - 2
    writer.start()
    with work_folder(parent) as folder:
        put_some(folder, writer.files())
        write_files(folder / "in", {"a": b"one", "b": b"two"})
        need_status(run(program, folder), LIMIT)
        need(read_files(folder / "out") == {"a": b"one"}, f"out holds {names(folder / 'out')}")
        need(read_files(folder / "in") == {"b": b"two"}, f"in holds {names(folder / 'in')}")


def roomy():
    """The standard flow with a queue that is never full, and of which no part has to be swapped out too early."""
    read = json.loads(THE_TEXT)
    read["connections"][0] |= {"objects": 0, "swap": 40_000}
    return json.dumps(read).encode()


def claims_are_used_up(program, parent):
    """Every claim is full: each has an empty content at its end. The next file isn't taken; with an empty inbox what
    waits is delivered, and then there is room."""
    text = roomy()
    writer = of_flow(store_format.flow_of(text))
    state, empty = writer.state, hashlib.sha256(b"").digest()
    for slot in range(SLOTS):
        number = slot + 1
        state.files[number] = FlowFile(0, number, (("filename", f"{slot % 10}"),), Content(slot, CLAIM_OPEN, 0, empty),
                                       1, 0, number)
    state.next_number = state.next_arrival = SLOTS + 1
    writer.start()
    with work_folder(parent, text) as folder:
        put_some(folder, {"log-1": writer.log(), "snapshot-1": writer.first})
        for slot in range(SLOTS):
            path = folder / "store" / f"claim-{slot}"
            path.touch()
            os.truncate(path, CLAIM_OPEN)
        write_files(folder / "in", {"a": b"one"})
        ended = run(program, folder)
        need_status(ended, LIMIT)
        need(ended.said == b"connection c1 65536 0\ninbox 1\nlimit: claims 65536\n", f"it printed {ended.said!r}")
        need(read_files(folder / "in") == {"a": b"one"} and not names(folder / "out"), "in or out changed")
        (folder / "in" / "a").unlink()
        need_status(run(program, folder), DONE)
        need(len(names(folder / "out")) == 10, f"out holds {len(names(folder / 'out'))} files")
        write_files(folder / "in", {"a": b"one"})
        need_status(run(program, folder), DONE)
        need(read_files(folder / "out")["a"] == b"one", "the next run doesn't deliver it")
        holds_nothing(folder)


def main():
    parser = options(__doc__)
    parser.add_argument("--whole", action="store_true", help="all cases, and each byte changed to three other values")
    given, seed = parse_seeded(parser)
    program = find_program(given.program)
    # What a disk leaves is nothing here.
    given.folder = in_memory(given.folder)
    step, values = (1, 3) if given.whole else (STEP, 1)
    print(f"damage: {'all' if step == 1 else f'every {step}th'} of the cases, seed {seed}", flush=True)
    files = small_store()
    need([name for name, _ in state_of(files).queued()] == ["größe", "c.csv"], "the small store is another one")
    report = Report()
    sizes = ", ".join(f"{name} of {len(data)} bytes" for name, data in sorted(files.items()))
    report.case(f"a byte is changed in {sizes}", all_cases, program, given.folder, changed_bytes(files, values), step)
    report.case("a byte that a digest covers is changed, and the digest too", all_cases, program, given.folder,
                changed_fields(files, values), step)
    report.case("a file is cut short, or isn't there", all_cases, program, given.folder, cuts(files), step)
    for text, body in (("a store of the first path: 4, nothing written", first_path),
                       ("a store of another flow: 3, nothing written", other_flow),
                       ("a store of another flow that is damaged: 4, nothing written", damaged_and_other),
                       ("no number is left: 11, and with an empty inbox what waits is delivered", numbers_are_used_up),
                       ("one number is left: one file, and then 11", one_number_is_left)):
        report.case(text, body, program, given.folder)
    if given.whole:
        report.case("no claim is left: 11, and with an empty inbox what waits goes", claims_are_used_up, program,
                    given.folder)
    report.end()


main()
