"""What is legal in a flow and rarely meant."""

import dataclasses
import re

CALL = re.compile(r"[A-Za-z_]:[a-z][A-Za-z]*\(")
GROUP_NAME = re.compile(r"\(\?P?<([A-Za-z_][A-Za-z0-9_]*)>")
REFERENCE = re.compile(r"\$\$|\$\{([^}]*)\}|\$([A-Za-z0-9_]+)")


@dataclasses.dataclass
class Warning_:
    line: int
    what: str


def of(flow):
    """All warnings of a flow, by line."""
    found = doubled(flow.top)
    for one in flow.processors:
        if one.type is not None:
            found += terminated(one) + constants(one) + templates(one) + merges(one)
    for one in flow.connections:
        found += expirations(one) + narrow(flow, one)
    return sorted(found + rings(flow), key=lambda warning: warning.line)


def doubled(value):
    """Keys that stand twice in one object: the last one counts."""
    found, seen = [], set()
    if value.kind == "object":
        for name, line, member in value.data:
            if name in seen:
                found.append(Warning_(line, f"`{name}` stands twice in one object: the last one counts"))
            seen.add(name)
            found += doubled(member)
    for item in value.items():
        found += doubled(item)
    return found


def terminated(one):
    line, names, kind = one.line("terminated"), one.names("terminated"), one.text("type")
    if one.type.source and "success" in names:
        return [Warning_(line, f"{one.name}: each file that it makes is deleted at once (success is terminated)")]
    if "failure" not in names:
        return []
    if kind == "PutFile" and one.property("Conflict Resolution Strategy") == "fail":
        return [Warning_(line, f"{one.name}: a file is deleted if `out` has its name already (the strategy is fail, "
                         "and failure is terminated)")]
    if kind == "PutFile":
        return [Warning_(line, f"{one.name}: a file whose name `out` can't have is deleted (failure is terminated)")]
    return [Warning_(line, f"{one.name}: files that fail are deleted (failure is terminated)")]


def constants(one):
    """Own expressions that are the same for every file."""
    found = []
    for name in one.own:
        text = one.property_text(name)
        if text is None or "${" in text:
            continue
        if one.type.own == "expression of a relationship" and text.lower() != "true":
            found.append(Warning_(one.line("properties", name),
                                  f"{one.name}: `{name}` is never true: an expression stands in `${{..}}`"))
        elif one.type.own == "expression of an attribute" and CALL.search(text):
            found.append(Warning_(one.line("properties", name), f"{one.name}: `{name}` is the text `{text}` as it "
                                  "stands: an expression stands in `${..}`"))
    return found


def templates(one):
    """Groups in a replacement that the pattern doesn't have: they stand for nothing."""
    if one.text("type") != "ReplaceText" or one.property("Replacement Strategy") != "Regex Replace":
        return []
    pattern, template = one.property("Search Value"), one.property("Replacement Value")
    if pattern is None or template is None:
        return []
    plain = re.sub(r"\\.|\[(?:\\.|[^\]\\])*\]", "", pattern)
    names = set(GROUP_NAME.findall(plain))
    count = len(re.findall(r"\((?!\?)", plain)) + len(names)
    found = []
    for reference in REFERENCE.finditer(template):
        name = reference.group(1) if reference.group(1) is not None else reference.group(2)
        if name is None or name in names or (name.isdigit() and int(name) <= count):
            continue
        is_run_on = name[:1].isdigit() and not name.isdigit()
        hint = f" (write `${{{name[0]}}}{name[1:]}` for group {name[0]})" if is_run_on else ""
        found.append(Warning_(one.line("properties", "Replacement Value"), f"{one.name}: the pattern has no group "
                              f"`{name}`: `{reference.group()}` stands for nothing{hint}"))
    return found


def merges(one):
    if one.text("type") != "MergeContent":
        return []
    if one.property("Merge Strategy") == "Defragment":
        return [Warning_(one.value.line, f"{one.name}: fragments wait without end if one of their whole is missing, "
                         "and the run ends with 0 or 10; a whole of more than 1,000 goes to failure")]
    least = one.property("Minimum Number of Entries")
    if least not in (None, "1"):
        return [Warning_(one.line("properties", "Minimum Number of Entries"),
                         f"{one.name}: fewer than {least} files wait without end, and the run ends with 0 or 10")]
    return []


def narrow(flow, one):
    """A queue that is full before the merge behind it has as many files as it waits for."""
    value, target = one.fields.get("objects"), flow.named_as(one.target)
    if value is None or value.kind != "number" or target is None or target.text("type") != "MergeContent":
        return []
    most, least = value.data, target.property("Minimum Number of Entries") or ""
    if target.property("Merge Strategy") == "Defragment" or not (most.isdigit() and least.isdigit()):
        return []
    if not 0 < int(most) < int(least):
        return []
    return [Warning_(one.line("objects"), f"{one.name}: it is full with {most} files, and {target.name} waits for "
                     f"{least}: the flow is blocked then")]


def expirations(one):
    value = one.fields.get("expiration")
    if value is None or value.kind != "number" or value.data == "0":
        return []
    return [Warning_(one.line("expiration"), f"{one.name}: a file that waits here is deleted {value.data} ms after it, "
                     "or the file that it is of, came into the flow")]


def rings(flow):
    """Connections that lead back to where they began, without a pause on the way: a put's failure with a penalty."""
    onward = {}
    for connection in flow.connections:
        source, target = flow.named_as(connection.source), flow.named_as(connection.target)
        if source is None or target is None or is_pause(source, connection):
            continue
        onward.setdefault(source.id, []).append((target.id, connection))
    found, told = [], set()
    for start in onward:
        connection = back_to(start, onward)
        if connection is not None and connection.place not in told:
            told.add(connection.place)
            found.append(Warning_(connection.value.line, f"{connection.name}: closes a ring without a pause: a file "
                                  "may go round until it expires or the run ends with 11"))
    return found


def is_pause(source, connection):
    penalty = source.fields.get("penalty")
    return (source.text("type") == "PutFile" and connection.names("relationships") == ["failure"]
            and (penalty is None or penalty.data != "0"))


def back_to(start, onward):
    """The connection that leads back to a processor, if one is reached from it."""
    seen, ways = set(), [start]
    while ways:
        for target, connection in onward.get(ways.pop(), []):
            if target == start:
                return connection
            if target not in seen:
                seen.add(target)
                ways.append(target)
    return None
