"""What breaks a rule in the text of a flow, every place at once, in the order in which the program looks."""

import dataclasses
import difflib

import flow_expressions
import flow_json
import flow_patterns
from flow_tables import (CONNECTION, CONNECTIONS_MAX, FAN_OUT_MAX, ID_MAX, OWN_NAME_MAX, OWN_PROPERTIES_MAX,
                         PRIORITIZERS, PROCESSOR, PROCESSORS_MAX, REQUIRED, TEXT_MAX, TOP, TYPES)

ID_LETTERS = frozenset("ABCDEFGHIJKLMNOPQRSTUVWXYZabcdefghijklmnopqrstuvwxyz0123456789_.-")
DIGITS = frozenset("0123456789")


@dataclasses.dataclass
class Finding:
    """A rule that is broken at a place (a path of names and numbers), with its line and what is wrong there."""
    rule: int
    path: tuple
    line: int
    what: str

    @property
    def place(self):
        """The place as a JSON pointer (RFC 6901); `/` stands for the whole text."""
        return "".join("/" + str(step).replace("~", "~0").replace("/", "~1") for step in self.path) or "/"


def nearest(name, names):
    found = difflib.get_close_matches(name, list(names), 1, 0.6)
    return f" (`{found[0]}`?)" if found else ""


def listed(names):
    return ", ".join(f"`{name}`" for name in names)


def name_bytes(name):
    return name.encode()


def texts(value):
    """The texts of a list of texts, and none where it is something else."""
    items = value.items() if value is not None else []
    return [item.data for item in items] if all(item.kind == "text" for item in items) else []


class Part:
    """A processor or a connection, with its place in its list."""

    def __init__(self, value, field, place):
        self.value = value
        self.fields = value.members()
        self.path = (field, place)
        self.place = place

    def text(self, field):
        value = self.fields.get(field)
        return value.data if value is not None and value.kind == "text" else None

    def names(self, field):
        return texts(self.fields.get(field))

    def line(self, *path):
        """The line of a field of this part, of an item of it, or of the part."""
        value, line = self.value, self.value.line
        for step in path:
            if value.kind == "object":
                found = [(at, member) for name, at, member in value.data if name == step]
                if not found:
                    return line
                line, value = found[-1]
            elif value.kind == "list" and isinstance(step, int):
                value = value.items()[step]
                line = value.line
        return line


class Processor(Part):
    def __init__(self, value, place):
        super().__init__(value, "processors", place)
        self.id = self.text("id")
        self.type = TYPES.get(self.text("type"))
        given = self.fields.get("properties")
        self.given = given.members() if given is not None else {}
        self.may_give = given is None or given.kind == "object"
        self.own = sorted(set(self.given) - set(self.type.properties), key=name_bytes) if self.type else []

    @property
    def name(self):
        return f'processor "{self.id}"' if self.id is not None else f"processor number {self.place + 1}"

    @property
    def relationships(self):
        if self.type is None:
            return []
        return (self.own if self.type.own_is_relationship else []) + list(self.type.relationships)

    def property_text(self, name):
        """The text of a property as it is given."""
        value = self.given.get(name)
        return value.data if value is not None and value.kind == "text" else None

    def property(self, name):
        """The text of a property, or its default."""
        value = self.given.get(name)
        if value is not None:
            return value.data if value.kind == "text" else None
        return self.type.properties[name].default


class Connection(Part):
    def __init__(self, value, place):
        super().__init__(value, "connections", place)
        self.id = self.text("id")
        self.source = self.text("from")
        self.target = self.text("to")

    @property
    def name(self):
        return f'connection "{self.id}"' if self.id is not None else f"connection number {self.place + 1}"


class Flow:
    """The text of a flow, and all that breaks a rule in it."""

    def __init__(self, data):
        self.findings = []
        self.processors = []
        self.connections = []
        self.top = None
        if len(data) > TEXT_MAX:
            self.found(10, (), 1, f"the text has more than {TEXT_MAX:,} bytes")
            return
        try:
            self.top = flow_json.read(data)
        except flow_json.NotJson as error:
            self.found(1, (), error.line, f"this is no JSON: {error}")
            return
        if self.top.kind != "object":
            self.found(1, (), self.top.line, "a flow is an object, in braces")
            return
        self.read()

    @property
    def named(self):
        """The finding that the program goes by: the lowest rule, at its first place."""
        return min(self.findings, key=lambda finding: finding.rule, default=None)

    def found(self, rule, path, line, what):
        self.findings.append(Finding(rule, tuple(path), line, what))

    def read(self):
        fields = self.top.members()

        def parts(field, make):
            value = fields.get(field)
            items = enumerate(value.items() if value is not None else [])
            return [make(item, place) for place, item in items if item.kind == "object"]
        self.processors = parts("processors", Processor)
        self.connections = parts("connections", Connection)
        whole = Part(self.top, "", 0)
        whole.path = ()
        self.fields(whole, TOP, "the flow")
        self.crowds(fields)
        for processor in self.processors:
            self.processor(processor)
        for connection in self.connections:
            self.connection(connection)

    # ---- fields

    def fields(self, part, table, name):
        for field, shape in table.items():
            value = part.fields.get(field)
            if value is None:
                if field in REQUIRED:
                    self.found(2, (*part.path, field), part.value.line, f"{name}: `{field}` is missing")
                continue
            line = part.line(field)
            wrong = misshapen(shape, value)
            if wrong is not None:
                self.found(7, (*part.path, field), line, f"{name}: `{field}` {wrong}")
            if isinstance(shape, tuple) and value.kind == "number" and not is_within(value.data, *shape):
                self.found(12, (*part.path, field), line, f"{name}: `{field}` is {value.data}, and may be a whole "
                           f"number from {shape[0]:,} to {shape[1]:,}")

    def unknown_fields(self, part, table, name):
        for field in sorted(set(part.fields) - set(table), key=name_bytes):
            self.found(11, (*part.path, field), part.line(field),
                       f"{name}: there is no field `{field}`{nearest(field, table)}")

    def crowds(self, fields):
        """Too many processors, connections, or connections of one relationship; and the top's unknown fields."""
        line = Part(self.top, "", 0).line
        if "processors" in fields and len(fields["processors"].items()) > PROCESSORS_MAX:
            self.found(10, ("processors",), line("processors"), f"there are over {PROCESSORS_MAX} processors")
        count = len(fields["connections"].items()) if "connections" in fields else 0
        if count > CONNECTIONS_MAX:
            self.found(10, ("connections",), line("connections"),
                       f"there are more than {CONNECTIONS_MAX:,} connections")
        crowded = [(processor, name) for processor in self.processors for name in processor.relationships
                   if len(self.carriers(processor, name)) > FAN_OUT_MAX]
        for processor, name in crowded[:1]:
            self.found(10, ("connections",), line("connections"),
                       f"{processor.name}: `{name}` leads into more than {FAN_OUT_MAX} connections")
        top = Part(self.top, "", 0)
        top.path = ()
        self.unknown_fields(top, TOP, "the flow")

    # ---- processors

    def carriers(self, processor, name):
        """The connections that a relationship of a processor leads into."""
        return [connection for connection in self.connections
                if processor.id is not None and connection.source == processor.id
                and name in connection.names("relationships")]

    def processor(self, one):
        self.fields(one, PROCESSOR, one.name)
        self.doubled(one, self.processors)
        kind = one.text("type")
        if kind is not None and one.type is None:
            self.found(3, (*one.path, "type"), one.line("type"),
                       f"{one.name}: there is no type `{kind}`{nearest(kind, TYPES)}")
        if one.type is not None:
            self.ends(one)
            self.wrong_names(one, "terminated", one)
            self.properties(one)
        elif one.given:
            for name in sorted(one.given, key=name_bytes):
                self.found(7, (*one.path, "properties", name), one.line("properties", name),
                           f"{one.name}: `{name}` is a property of no known type")
        self.unknown_fields(one, PROCESSOR, one.name)

    def doubled(self, one, others):
        if one.id is not None and any(other.id == one.id for other in others if other.place < one.place):
            self.found(4, (*one.path, "id"), one.line("id"), f'the id "{one.id}" stands twice')

    def ends(self, one):
        """Each relationship is terminated or connected, and not both."""
        loose = []
        for name in one.relationships:
            connected = bool(self.carriers(one, name))
            if (name in one.names("terminated")) == connected:
                how = "both terminated and connected" if connected else "neither terminated nor connected"
                loose.append(f"relationship `{name}` is {how}")
        for what in loose:
            self.found(6, one.path, one.value.line, f"{one.name}: {what}")

    def wrong_names(self, part, field, processor):
        """Names of relationships that the processor doesn't have, or that stand twice in one list."""
        names = part.names(field)
        for place, name in enumerate(names):
            if name not in processor.relationships:
                has = processor.relationships
                what = f"{processor.name} has no relationship `{name}`{nearest(name, has)}; it has {listed(has)}"
            elif name in names[:place]:
                what = f"{part.name}: `{name}` stands twice in `{field}`"
            else:
                continue
            self.found(6, (*part.path, field, place), part.line(field, place), what)

    def properties(self, one):
        path = (*one.path, "properties")
        for name, row in one.type.properties.items():
            if row.default is None and one.may_give and name not in one.given:
                self.found(2, (*path, name), one.line("properties"),
                           f"{one.name}: the property `{name}` is missing")
        if len(one.own) > OWN_PROPERTIES_MAX and one.type.own is not None:
            self.found(10, path, one.line("properties"),
                       f"{one.name} has more than {OWN_PROPERTIES_MAX} own properties")
        for name in sorted(one.given, key=name_bytes):
            self.given(one, name, (*path, name), one.line("properties", name))
        self.number_properties(one, path)

    def given(self, one, name, path, line):
        """A property as it is given: of the type, or the processor's own."""
        value = one.given[name]
        row = one.type.properties.get(name)
        at = f"{one.name}: `{name}`"
        known = one.type.properties
        if row is None and one.type.own is None:
            self.found(7, path, line, f"{at} is no property of {one.text('type')}{nearest(name, known)}; it has "
                       + (listed(known) or "none"))
        elif row is None and not 1 <= len(name.encode()) <= OWN_NAME_MAX:
            self.found(7, path, line, f"{at}: the name of an own property has 1 to {OWN_NAME_MAX} bytes")
        elif row is None and one.type.own_is_relationship and name in one.type.relationships:
            self.found(7, path, line, f"{at} is a relationship that is there anyway")
        elif value.kind != "text":
            self.found(7, path, line, f"{at} has to be a text, in quotes")
        elif row is not None and is_choice(row.form) and value.data not in row.form:
            self.found(7, path, line,
                       f"{at} is `{value.data}`{nearest(value.data, row.form)}, and may be {listed(row.form)}")
        elif name == "Search Value" and row is not None and self.is_literal(one):
            if not value.data:
                self.found(7, path, line, f"{at} is empty: nothing can be searched for")
        else:
            self.text_of(one, name, at, path, line)

    @staticmethod
    def is_literal(one):
        return one.property("Replacement Strategy") == "Literal Replace"

    def text_of(self, one, name, at, path, line):
        row, text = one.type.properties.get(name), one.given[name].data
        form = one.type.own if row is None else row.form
        if form in ("pattern", "search", "pattern of an attribute", "pattern of a relationship"):
            whole = form == "pattern" or (form == "pattern of a relationship"
                                          and one.property("Match Requirement") == "content must match exactly")
            wrong, rule = flow_patterns.wrong_with(f"\\A(?:{text})\\z" if whole else text), 8
        elif form in ("expression", "expression of an attribute", "expression of a relationship"):
            wrong, rule = flow_expressions.wrong_with(text), 9
        else:
            return
        if wrong is not None:
            self.found(rule, path, line, f"{at} can't be read: {wrong}")

    def number_properties(self, one, path):
        for name in sorted(one.type.properties, key=name_bytes):
            form = one.type.properties[name].form
            text = one.property(name)
            line = one.line("properties", name)
            if isinstance(form, tuple) and isinstance(form[0], int) and text is not None and not is_number(text, *form):
                self.found(12, (*path, name), line, f"{one.name}: `{name}` is `{text}`, and may be a whole number from "
                           f"{form[0]:,} to {form[1]:,}, in quotes")
            if name == "Minimum Number of Entries" and self.is_above(one):
                self.found(12, (*path, name), line, f"{one.name}: the minimum is above the maximum")

    @staticmethod
    def is_above(one):
        least, most = one.property("Minimum Number of Entries"), one.property("Maximum Number of Entries")
        return (one.property("Merge Strategy") == "Bin-Packing Algorithm" and least is not None and most is not None
                and is_number(least, 0, 2**63) and is_number(most, 0, 2**63) and int(least) > int(most))

    # ---- connections

    def connection(self, one):
        self.fields(one, CONNECTION, one.name)
        self.doubled(one, self.connections)
        ids = [processor.id for processor in self.processors if processor.id is not None]
        source, target = self.named_as(one.source), self.named_as(one.target)
        if one.source is not None and source is None:
            self.found(5, (*one.path, "from"), one.line("from"),
                       f"{one.name}: no processor has the id `{one.source}`{nearest(one.source, ids)}")
        if one.target is not None and target is None:
            self.found(5, (*one.path, "to"), one.line("to"),
                       f"{one.name}: no processor has the id `{one.target}`{nearest(one.target, ids)}")
        elif target is not None and target.type is not None and target.type.source:
            self.found(5, (*one.path, "to"), one.line("to"),
                       f"{one.name}: {target.name} is a {target.text('type')}, which takes no files of the flow")
        if source is not None and source.type is not None:
            self.wrong_names(one, "relationships", source)
        self.unknown_fields(one, CONNECTION, one.name)

    def named_as(self, name):
        return next((processor for processor in self.processors if name is not None and processor.id == name), None)


def is_choice(form):
    """A property that is one of some words."""
    return isinstance(form, tuple) and isinstance(form[0], str)


def is_within(written, least, most):
    """A number as JSON writes it is a whole one, without sign, point and exponent, within a range."""
    return set(written) <= DIGITS and least <= int(written) <= most


def is_number(text, least, most):
    return 1 <= len(text) <= 10 and set(text) <= DIGITS and least <= int(text) <= most


def misshapen(shape, value):
    """What is wrong with the kind of a field's value, or None."""
    if isinstance(shape, tuple):
        return None if value.kind == "number" else "has to be a number, without quotes"
    if shape == "objects":
        right = value.kind == "list" and all(item.kind == "object" for item in value.items())
        return None if right else "has to be a list of objects"
    if shape == "id":
        right = value.kind == "text" and 1 <= len(value.data) <= ID_MAX and set(value.data) <= ID_LETTERS
        return None if right else f"has to be a text of 1 to {ID_MAX} letters, digits, `_`, `.` and `-`"
    if shape == "text":
        return None if value.kind == "text" else "has to be a text, in quotes"
    if shape == "object":
        return None if value.kind == "object" else "has to be an object, in braces"
    if value.kind != "list" or any(item.kind != "text" for item in value.items()):
        return "has to be a list of texts, in square brackets"
    if shape == "some names" and not value.items():
        return "has to name at least one relationship"
    if shape == "prioritizers":
        given = texts(value)
        unknown = [name for name in given if name not in PRIORITIZERS]
        if unknown:
            return f"has `{unknown[0]}`{nearest(unknown[0], PRIORITIZERS)}; there are {listed(PRIORITIZERS)}"
        if len(set(given)) < len(given):
            return "names one prioritizer twice"
    return None
