"""Asks the built program what a store holds, and reads its answers (docs/QUERIES.md). tools/rescue and tools/draw share
it. Nothing here reads a store's files."""

import dataclasses
import json
import os
import pathlib
import re
import subprocess
import typing

ROOT = pathlib.Path(__file__).resolve().parent.parent

ABSENT = 13
MEANINGS = {2: "it knows no such query", 4: "the store is damaged", 5: "the store can't be read, or a run has it",
            9: "its output failed", 12: "want of memory", ABSENT: "the store has nothing of this identifier"}

UUID = re.compile(r"[0-9a-f]{8}(-[0-9a-f]{4}){3}-[0-9a-f]{12}")
FIELDS = {"children": list, "component": str, "detail": str, "digest": str, "event": int, "kind": str, "parents": list,
          "size": int, "uuid": str}


class Unanswered(Exception):
    """A query that wasn't answered: the program's status, and None where the answer can't be read."""

    def __init__(self, status, what):
        super().__init__(what)
        self.status = status


class Waiting(typing.NamedTuple):
    uuid: str
    size: int


class Queue(typing.NamedTuple):
    """What waits in a connection, the first that came at the front."""
    connection: str
    files: tuple

    @property
    def bytes(self):
        return sum(file.size for file in self.files)


@dataclasses.dataclass
class Lineage:
    """A file, those that it came from and those that came from it, as they were made, and the events of all of them."""
    file: str
    ancestors: list = dataclasses.field(default_factory=list)
    descendants: list = dataclasses.field(default_factory=list)
    events: list = dataclasses.field(default_factory=list)


def is_uuid(text):
    return UUID.fullmatch(text) is not None


def readable(text):
    """A text in one line, in which each character that can't be shown, and each backslash, is an escape."""
    def shown(character):
        if character == "\\":
            return "\\\\"
        if character in "\t\n\r":
            return {"\t": "\\t", "\n": "\\n", "\r": "\\r"}[character]
        if character.isprintable():
            return character
        code = ord(character)
        return f"\\u{code:04x}" if code < 0x10000 else f"\\U{code:08x}"
    return "".join(map(shown, text))


def find_program(named):
    """The path of the program that is named, or of the one that the launcher `flow` beside this folder runs. It is
    looked for once, since the launcher compares all sources with it at each call."""
    if named is None:
        built = subprocess.run([ROOT / "tools" / "build"], stdout=subprocess.PIPE, text=True, check=False)
        if built.returncode != 0:
            raise Unanswered(1, "the program can't be built")
        named = built.stdout.strip()
    path = pathlib.Path(named).resolve()
    if not path.is_file() or not os.access(path, os.X_OK):
        raise Unanswered(1, f"no program is at {readable(str(path))}")
    return str(path)


def ask(program, folder, *words):
    """What a query prints in a folder, all of it."""
    ended = subprocess.run([program, *words], cwd=folder, stdin=subprocess.DEVNULL, stdout=subprocess.PIPE, check=False)
    if ended.returncode != 0:
        said = readable(ended.stdout[:200].decode("utf-8", "replace").partition("\n")[0])
        meaning = MEANINGS.get(ended.returncode, "another failure")
        raise Unanswered(ended.returncode, f"`{' '.join(words)}` ended with {ended.returncode}, {meaning}: {said}")
    return ended.stdout


def lines_of(printed, words):
    """The lines of an answer, each of which has its line feed."""
    try:
        text = printed.decode()
    except UnicodeDecodeError:
        raise Unanswered(None, f"the answer to `{words}` isn't UTF-8") from None
    if text and not text.endswith("\n"):
        raise Unanswered(None, f"the answer to `{words}` is cut short")
    return text.split("\n")[:-1]


def queues(program, folder):
    """The connections in the order of the flow, with what waits in each."""
    found, files, told = [], [], None
    for line in [*lines_of(ask(program, folder, "queues"), "queues"), None]:
        file = re.fullmatch(r"file (\S+) ([0-9]+)", line or "")
        head = re.fullmatch(r"connection (.*) ([0-9]+) ([0-9]+)", line or "")
        if file and is_uuid(file.group(1)) and told is not None:
            files.append(Waiting(file.group(1), int(file.group(2))))
            continue
        if told is not None:
            found.append(Queue(told.group(1), tuple(files)))
            if (len(files), found[-1].bytes) != (int(told.group(2)), int(told.group(3))):
                raise Unanswered(None, f"`queues` lists other files than it counts in {readable(told.group(1))}")
        if line is not None and head is None:
            raise Unanswered(None, f"`queues` has the line {readable(line[:200])}")
        files, told = [], head
    return found


def event_of(line):
    """The event that a line tells."""
    try:
        event = json.loads(line)
    except ValueError:
        event = None
    if not isinstance(event, dict) or any(not isinstance(event.get(name), kind) for name, kind in FIELDS.items()):
        raise Unanswered(None, f"`lineage` has the line {readable(line[:200])}")
    return event


def lineage(program, folder, uuid):
    """The lineage of a file. A store that has no event of it leaves `Unanswered` with ABSENT."""
    told = Lineage(uuid)
    groups = {"ancestor": told.ancestors, "descendant": told.descendants}
    for line in lines_of(ask(program, folder, "lineage", uuid), "lineage"):
        word, _, rest = line.partition(" ")
        if line.startswith("{"):
            told.events.append(event_of(line))
        elif word in groups and is_uuid(rest):
            groups[word].append(rest)
        elif line != f"file {uuid}":
            raise Unanswered(None, f"`lineage` has the line {readable(line[:200])}")
    return told
