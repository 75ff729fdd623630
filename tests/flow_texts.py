"""Texts of flows, made of processors and queues, and what a store tells of a run of one."""

import collections
import json

import store_format
import store_reader
from support import need


def source(name, pattern=None):
    return {"id": name, "type": "GetFile", "properties": {} if pattern is None else {"File Filter": pattern}}


def generator(name, count, text=""):
    return {"id": name, "type": "GenerateFlowFile", "properties": {"Count": str(count), "Custom Text": text}}


def put(name, strategy, *terminated, **fields):
    return {"id": name, "type": "PutFile", "properties": {"Conflict Resolution Strategy": strategy},
            "terminated": list(terminated), **fields}


def let_go(name, strategy, **fields):
    """A put that lets all of its files go."""
    return put(name, strategy, "success", "failure", **fields)


def queue(name, origin, to, relationship="success", **fields):
    return {"id": name, "from": origin, "to": to, "relationships": [relationship], **fields}


def flow(processors, queues):
    return json.dumps({"processors": processors, "connections": queues}, indent=1).encode()


def processor(name, kind, properties=None, terminated=(), **fields):
    return {"id": name, "type": kind, "properties": properties or {}, "terminated": list(terminated), **fields}


def state_of(folder):
    state = store_reader.state_of(store_reader.files_in(folder / "store"))
    need(not isinstance(state, store_format.Damage), f"the store is damaged: {state}")
    untold = store_reader.untold(state)
    need(not untold, f"the events don't tell of the files {untold[:5]}")
    return state


def kinds(state):
    """How many events of each kind there are."""
    return dict(collections.Counter(event.kind for event in state.events))


def told(state):
    """How often each processor or connection told what, with which detail."""
    return collections.Counter((event.kind, event.component, event.detail) for event in state.events)
