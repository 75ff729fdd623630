"""What runs and queries print, as the store's format and the folders say it: nothing of the program is used."""

import json
import os
import re
import stat

import store_format

KINDS = {store_format.CREATE: "CREATE", store_format.RECEIVE: "RECEIVE", store_format.FORK: "FORK",
         store_format.JOIN: "JOIN", store_format.CLONE: "CLONE", store_format.CONTENT_MODIFIED: "CONTENT_MODIFIED",
         store_format.ATTRIBUTES_MODIFIED: "ATTRIBUTES_MODIFIED", store_format.ROUTE: "ROUTE",
         store_format.SEND: "SEND", store_format.DROP: "DROP", store_format.EXPIRED: "EXPIRE"}

USAGE_LINE = (b"usage: flow run, queues, events, lineage UUID, content UUID, check, trial N; "
              b"options --threads N --max-commits N --checkpoint N\n")

# By status; a refused text and a damaged store say more.
LINES = {2: USAGE_LINE, 5: b"disk fault\n", 6: b"inbox fault\n", 7: b"outbox fault\n", 8: b"source fault\n",
         12: b"out of memory\n"}


def event_line(store, event):
    """The line of an event of a store of this id."""
    def uuids(files):
        return [store_format.uuid_of(store, number) for number in files]
    told = {"children": uuids(event.children), "component": event.component, "detail": event.detail,
            "digest": event.digest.hex(), "event": event.number, "kind": KINDS[event.kind], "moment": event.moment,
            "parents": uuids(event.parents), "size": event.size, "uuid": store_format.uuid_of(store, event.file)}
    return json.dumps(told, separators=(",", ":"), ensure_ascii=False) + "\n"


def is_damage(said, damage):
    """Whether that is what is printed of a damage. Which digests it names isn't looked at."""
    place = re.escape(f"damaged: {damage.kind} {damage.number} at {damage.offset} ")
    wrong = "kept [0-9a-f]{64} found [0-9a-f]{64}" if damage.cause == "Digest" else damage.cause.lower()
    return re.fullmatch(place + wrong + "\n", said.decode()) is not None


def listed(folder):
    """How many files of the inbox a run lists: those that are no folders, links or pipes."""
    return sum(stat.S_ISREG(entry.stat(follow_symlinks=False).st_mode) for entry in os.scandir(folder / "in"))


def summary(state, left):
    """The summary of a store's state, with so many files left in the inbox."""
    lines = []
    for place, name in enumerate(state.connections):
        sizes = [file.content.size for file in state.files.values() if file.connection == place]
        lines.append(f"connection {name} {len(sizes)} {sum(sizes)}\n")
    lines.append(f"inbox {left}\n")
    for code, kind in sorted(KINDS.items()):
        count = sum(event.kind == code for event in state.events)
        if count:
            lines.append(f"event {kind} {count}\n")
    return "".join(lines).encode()


def is_end(said, status, state, left):
    """Whether that is what a run prints which ended with 0, 10 or 11, with this state and so many files left."""
    front = summary(state, left)
    if status == 0:
        return said == front
    behind = said[len(front):]
    word = b"blocked: " if status == 10 else b"limit: "
    return said.startswith(front) and behind.startswith(word) and behind.endswith(b"\n") and behind.count(b"\n") == 1
