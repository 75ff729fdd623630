#!/usr/bin/env python3
"""Tries tools/rescue and tools/draw over stores that runs of the built program left: what they save and draw beside
what the store's format says, that they change nothing, and what they say where they can't."""

import hashlib
import json
import random
import re
import subprocess
import sys

import store_format
import store_reader
from flow_texts import flow, let_go, processor, queue, source
from pictures import Drawn, is_flow, is_lineage, random_flow, random_lineage
from queries import TELLS_KIN, closure
from support import (BLOCKED, DONE, ROOT, Report, find_program, in_memory, names, need, new_folder, options,
                     parse_seeded, photo, read_files, run, work_folder, write_files)

sys.path.insert(0, str(ROOT / "tools"))

import flow_queries  # noqa: E402
from draw_flow import FlowPicture  # noqa: E402
from draw_lineage import LineagePicture  # noqa: E402

PARTLY, UNUSABLE = 1, 2

# All waits before a merge at last: lines of a text, which are changed; copies; and what was merged of three.
TEXT = flow([source("lines", r"(?s).*\.lines"), source("whole", r"(?s).*\.txt"), source("parts", r"(?s).*\.part"),
             processor("split", "SplitText", {"Line Split Count": "1"}, ["failure", "original"]),
             processor("mark", "ReplaceText", {"Replacement Strategy": "Literal Replace", "Search Value": "1",
                                               "Replacement Value": "one"}),
             processor("copy", "DuplicateFlowFile", {"Number of Copies": "2"}),
             processor("join", "MergeContent", {"Minimum Number of Entries": "3", "Maximum Number of Entries": "3"},
                       ["failure", "original"]),
             processor("hold", "MergeContent", {"Minimum Number of Entries": "1000"}, ["failure", "original"]),
             let_go("put", "replace")],
            [queue("read", "lines", "split"), queue("split-lines", "split", "mark", "splits"),
             queue("marked", "mark", "hold", relationships=["success", "failure"]), queue("texts", "whole", "copy"),
             queue("copies", "copy", "hold", objects=6), queue("parts", "parts", "join"),
             queue("joined", "join", "hold", "merged"), queue("held", "hold", "put", "merged")])

# Names that say something to a shell, a terminal, a table or a page.
ODD = ["..txt", "a\tb\nc\r.txt", '"<b>&amp;\\u0041\\.txt', "\x1b[31mred.txt", "ü€\U0001d11e\u202e.txt", "$(id) .txt",
       "p 1.part", "]]><svg>.part", "'3'.part"]

WRAPPER = """#!{python}
# Answers as the program does, but for one thing.
import os, subprocess, sys
words = sys.argv[1:]
ended = subprocess.run([{program!r}, *words], stdout=subprocess.PIPE)
status, said = ended.returncode, ended.stdout
{change}
sys.stdout.buffer.write(said)
sys.exit(status)
"""

# Every detail is another name.
HOSTILE = """import json
if words[0] == 'lineage':
    events = [json.loads(line) for line in said.splitlines() if line[:1] == b'{{']
    said = said[:len(said) - sum(len(line) + 1 for line in said.split(b'\\n') if line[:1] == b'{{')]
    for event in events:
        event['detail'] = {given}[event['event'] % len({given})]
        said += json.dumps(event).encode() + b'\\n'
"""


# ---- what is in an index

def plain(text):
    """What a text stands for whose characters that can't be shown are escapes."""
    def of(found):
        mark = found.group(1)
        return {"\\": "\\", "t": "\t", "n": "\n", "r": "\r"}.get(mark) or chr(int(mark[1:], 16))
    return re.sub(r"\\(\\|t|n|r|u[0-9a-f]{4}|U[0-9a-f]{8})", of, text)


def parents_of(state):
    pairs = {}
    for event in state.events:
        if event.kind in TELLS_KIN:
            for child in event.children:
                pairs.setdefault(child, set()).update(event.parents)
    return pairs


def expected_index(state):
    """Of each file that waits, by its identifier: connection, size, names and digest."""
    came, pairs = {}, parents_of(state)
    for event in state.events:
        if event.kind == store_format.RECEIVE:
            came[event.file] = event.detail
    found = {}
    for number, file in state.files.items():
        kin = {number} if number in came else closure(pairs, number)
        origins = list(dict.fromkeys(name for one, name in came.items() if one in kin))
        uuid = store_format.uuid_of(state.store, number)
        found[uuid] = (state.connections[file.connection], file.content.size, origins,
                       hashlib.sha256(state.contents[number]).hexdigest())
    return found


def read_index(path):
    found = {}
    text = path.read_bytes().decode()
    need(text.endswith("\n") or not text, "the index ends within a line")
    for line in text.split("\n")[:-1]:
        need(line.replace("\t", "").isprintable(), f"the index has the line {line!r}")
        uuid, connection, size, shown, digest = line.split("\t")
        need(uuid not in found, f"{uuid} stands twice")
        found[uuid] = (connection, int(size), [plain(name) for name in shown.split("/")] if shown else [], digest)
    return found


class Cases:
    def __init__(self, program, parent, count):
        self.program = program
        self.parent = parent
        self.count = count

    def state(self, folder, count=6):
        """A run after which all files wait in the store, and its state."""
        write_files(folder / "in", {name: random.randbytes(random.randrange(1, 99)) for name in ODD}
                    | {"many.lines": b"".join(b"%d\n" % line for line in range(1, count + 1)), "none.txt": b""})
        ended = run(self.program, folder)
        need(ended.status in (DONE, BLOCKED), f"the run ended with {ended.status}")
        state = store_reader.state_of(store_reader.files_in(folder / "store"), store_format.flow_of(TEXT))
        need(len(state.files) >= count + 8, f"the store holds {len(state.files)} files")
        return state

    def call(self, tool, *words, status, program=None):
        """How a tool ends that is called in this way: standard output and standard error."""
        ended = subprocess.run([ROOT / "tools" / tool, *words, "--program", program or self.program],
                               stdout=subprocess.PIPE, stderr=subprocess.PIPE, check=False)
        said = ended.stderr.decode()
        need(ended.returncode == status, f"{tool} {words} ended with {ended.returncode}, not {status}: {said[:500]}")
        need("Traceback" not in said, f"{tool} {words} broke: {said[-500:]}")
        return ended.stdout.decode(), said

    def wrapper(self, folder, change):
        """A program that answers as the built one does, but for a change."""
        path = folder / "wrapper"
        path.write_text(WRAPPER.format(python=sys.executable, program=self.program, change=change), encoding="utf-8")
        path.chmod(0o755)
        return path

    # Rescues.

    def rescues(self):
        """All that waits is saved, with the names under which it came, and the store is left as it is."""
        with work_folder(self.parent, TEXT) as folder, new_folder(self.parent) as other:
            state = self.state(folder, self.count)
            before, out = photo(folder), other / "saved"
            said, _ = self.call("rescue", folder, out, status=DONE)
            need(photo(folder) == before, "something changed in the flow's folder")
            wanted = expected_index(state)
            size = sum(entry[1] for entry in wanted.values())
            need(said == f"saved {len(wanted)} of {len(wanted)} files, {size} bytes\n", f"it said {said!r}")
            need(read_index(out / "index.tsv") == wanted, "the index is another")
            saved = read_files(out)
            del saved["index.tsv"]
            need(saved == {store_format.uuid_of(state.store, number): state.contents[number] for number in state.files},
                 f"other files are saved: {sorted(saved)[:5]}")
            need(names(other) == ["saved"] and len(names(out)) == len(wanted) + 1, "something stands elsewhere")
            before = photo(out)
            _, said = self.call("rescue", folder, out, status=UNUSABLE)
            need(photo(out) == before and "isn't empty" in said, "a folder that isn't empty was taken")

    def partly(self):
        """What can't be saved is told, and all else is saved."""
        with work_folder(self.parent, TEXT) as folder, new_folder(self.parent) as other:
            state = self.state(folder, 2)
            own = {event.file for event in state.events}
            one = next(number for number, file in sorted(state.files.items()) if number in own and file.content.size)
            uuid, every = store_format.uuid_of(state.store, one), expected_index(state)
            less = {name: entry for name, entry in every.items() if name != uuid}
            unnamed = every | {uuid: (*every[uuid][:2], [], every[uuid][3])}
            content, told = f"if words == ['content', {uuid!r}]: ", f"if words == ['lineage', {uuid!r}]: "
            again = "if words == ['queues'] and os.path.exists('asked'): said = b''\nopen('asked', 'w')"
            for number, (change, wanted) in enumerate((
                    (content + "said = bytes([said[0] ^ 1]) + said[1:]", less), (content + "said += b'x'", less),
                    (content + "status, said = 5, said[:1]", less), (content + "status, said = 13, b''", less),
                    (told + "status, said = 12, b''", unnamed), (told + "said = said[:-9]", unnamed), (again, every))):
                out = other / str(number)
                _, said = self.call("rescue", folder, out, status=PARTLY, program=self.wrapper(other, change))
                need(said.count("\n") == 1, f"{change!r}: it says {said}")
                need(read_index(out / "index.tsv") == wanted, f"{change!r}: the index is another")
                wrong = [f"{uuid}.wrong"] if number < 2 else []
                need(names(out) == sorted([*wanted, "index.tsv", *wrong]), f"{change!r}: there are other files")

    def nothing(self):
        """Where the words, the folders or the store are wrong a rescue ends with 2, and makes nothing."""
        with work_folder(self.parent, TEXT) as folder, new_folder(self.parent) as other:
            out = other / "out"
            self.call("rescue", folder, out, status=UNUSABLE)
            self.state(folder)
            for name in ("in", "out", "store"):
                self.call("rescue", folder, folder / name, status=UNUSABLE)
                self.call("rescue", folder, folder / name / "a", status=UNUSABLE)
            self.call("rescue", folder, status=UNUSABLE)
            self.call("rescue", folder, other / "none" / "a", status=UNUSABLE)
            self.call("rescue", folder, out, status=UNUSABLE, program=other / "none")
            for change in ("said = said[:-1]", "said = said.replace(b'file ', b'file ../')", "said = b'x\\n'",
                           "said = said.replace(b'connection copies ', b'connection copies 1')", "status = 12"):
                before = photo(folder)
                self.call("rescue", folder, out, status=UNUSABLE, program=self.wrapper(other, change))
                need(photo(folder) == before, f"{change!r}: something changed")
            snapshot = next((folder / "store").glob("snapshot-*"))
            snapshot.write_bytes(snapshot.read_bytes()[:-1])
            _, said = self.call("rescue", folder, out, status=UNUSABLE)
            need("damaged: " in said, f"it says {said}")
            need(names(other) == ["wrapper"], "a folder was made")

    def hostile(self):
        """A name that an event gives becomes no path, and no mark of a table, a terminal or a page."""
        given = ["../../a", "/etc/passwd", "a\tb\nc", "\x1b[2J\x00", "\ud800", "]]></title><script>",
                 "\ufffe\x85\u2028"]
        with work_folder(self.parent, TEXT) as folder, new_folder(self.parent) as other:
            state = self.state(folder)
            program = self.wrapper(other, HOSTILE.format(given=ascii(given)))
            self.call("rescue", folder, other / "saved", status=DONE, program=program)
            index = (other / "saved" / "index.tsv").read_bytes().decode()
            need(all(len(line.split("\t")) == 5 and line.replace("\t", "").isprintable()
                     for line in index.split("\n")[:-1]), "the index has other columns")
            need(names(other) == ["saved", "wrapper"] and len(names(other / "saved")) == len(state.files) + 1,
                 "something stands elsewhere")
            for number in range(1, len(given) + 1):
                uuid = store_format.uuid_of(state.store, number)
                Drawn(self.call("draw", "lineage", folder, uuid, status=DONE, program=program)[0])
        odd = flow([processor(name, name) for name in given], [queue(name, given[0], name, name) for name in given])
        need(len(Drawn(FlowPicture(odd, []).draw()).boxes) == 2 * len(given), "a part isn't drawn")

    # Pictures.

    def flows(self):
        """Each processor and connection of a flow is drawn, and what waits in the store."""
        with work_folder(self.parent, TEXT) as folder:
            Drawn(self.call("draw", "flow", folder, status=DONE)[0])
            state = self.state(folder)
            before = photo(folder)
            drawn = Drawn(self.call("draw", "flow", folder, status=DONE)[0])
            need(photo(folder) == before, "something changed in the folder")
            is_flow(drawn, TEXT)
            for place, name in enumerate(state.connections):
                sizes = [file.content.size for file in state.files.values() if file.connection == place]
                kind = "full" if name == "copies" else "waiting" if sizes else "empty"
                told = f"{len(sizes)} file{'s' * (len(sizes) != 1)}" + (f", {sum(sizes)} bytes" if sizes else "")
                shown, kinds = drawn.texts[f"connection-{name}"][2], drawn.kinds[f"connection-{name}"]
                told = f"full: {told}" if kind == "full" else told
                need(shown == told and kind in kinds, f"{name}: {shown}, {kinds}, where {told} is wanted")
            put = drawn.texts["processor-put"]
            need(put == ["put", "PutFile", "terminated: success, failure"], f"the put is drawn as {put}")

    def forms(self):
        """Flows of all forms: the examples, rings, many connections between few, 40 and 256 processors, none."""
        page = (ROOT / "examples" / "errors" / "flow.svg").read_text(encoding="utf-8")
        need(self.call("draw", "flow", ROOT / "examples" / "errors", status=DONE)[0] == page, "flow.svg is an old one")
        texts = [path.read_bytes() for path in sorted((ROOT / "examples").glob("*/flow.json"))]
        sizes = ((0, 0), (1, 0), (1, 5), (2, 30), (6, 9), (256, 300), *((40, 70),) * 6)
        texts += [random_flow(*size) for size in sizes]
        for text in texts:
            is_flow(Drawn(FlowPicture(text, []).draw()), text)
        return f"{len(texts)} flows"

    def lineages(self):
        """A file's lineage: each relative on its side, with its events, and all kin."""
        with work_folder(self.parent, TEXT) as folder:
            state = self.state(folder, self.count)
            split = next(event.file for event in state.events if event.kind == store_format.FORK)
            joined = next(event.file for event in state.events if event.kind == store_format.JOIN)
            for number in {split, joined, *random.sample(range(1, state.next_number), 8)}:
                told = flow_queries.lineage(self.program, folder, store_format.uuid_of(state.store, number))
                is_lineage(Drawn(LineagePicture(told).draw()), told)
                need(number != split or len(told.descendants) == self.count, f"{split} has other descendants")
                need(number != joined or len(told.ancestors) == 3, f"{joined} has other ancestors")
            before, uuid = photo(folder), store_format.uuid_of(state.store, joined)
            told = flow_queries.lineage(self.program, folder, uuid)
            is_lineage(Drawn(self.call("draw", "lineage", folder, uuid.upper(), status=DONE)[0]), told)
            need(photo(folder) == before, "something changed in the folder")
        sizes = [(0, 0), (0, 300), (300, 0), (3, 5)]
        for size in [*sizes, *((random.randrange(40), random.randrange(200)) for _ in range(5))]:
            told = random_lineage(*size)
            is_lineage(Drawn(LineagePicture(told).draw()), told)

    def refuses(self):
        """Words and texts that can't be drawn: 2, and nothing on standard output."""
        with work_folder(self.parent, TEXT) as folder:
            one = store_format.uuid_of(1, 1)
            self.call("draw", "lineage", folder, one, status=UNUSABLE)
            state = self.state(folder)
            for words in ((), ("flow",), ("lineage", folder), ("lineage", folder, "x"), ("lineage", folder, one),
                          ("lineage", folder, store_format.uuid_of(state.store, state.next_number)), ("flows", folder)):
                need(self.call("draw", *words, status=UNUSABLE)[0] == "", f"{words} printed something")
            read = json.loads(TEXT)
            others = [{**read, "connections": read["connections"][1:]}, {**read, "processors": read["processors"][1:]},
                      {**read, "processors": {}}, {"processors": []}, [], {**read, "connections": [{"id": 1}]},
                      {**read, "connections": read["connections"] * 2}]
            for text in [*(json.dumps(other).encode() for other in others), b"", b"\xff", b"[" * 100_000]:
                (folder / "flow.json").write_bytes(text)
                need(self.call("draw", "flow", folder, status=UNUSABLE)[0] == "", f"{text[:80]} printed something")
            (folder / "flow.json").unlink()
            self.call("draw", "flow", folder, status=UNUSABLE)


def main():
    parser = options(__doc__.splitlines()[0])
    parser.add_argument("--count", type=int, default=200, help="the lines of the longest text that is split")
    given, seed = parse_seeded(parser)
    cases = Cases(find_program(given.program), in_memory(given.folder), given.count)
    report = Report()
    print(f"tools: seed {seed}", flush=True)
    for body in (cases.rescues, cases.partly, cases.nothing, cases.hostile, cases.flows, cases.forms, cases.lineages,
                 cases.refuses):
        report.case(body.__doc__.splitlines()[0].rstrip("."), body)
    report.end()


if __name__ == "__main__":
    main()
