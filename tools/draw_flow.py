"""Draws a flow: a box for each processor, and one for each connection on the way between two of them."""

import collections
import json

from draw_layers import Layers
from draw_svg import LINE, MARGIN, Picture, cut, height_of, marker, number, width_of
from flow_queries import readable
from flow_tables import TYPES

OBJECTS, BYTES = 10_000, 1_073_741_824
WIDEST = 34
HEADER = 2 * LINE

STYLE = """.processor rect { fill: #f6f8fa; stroke: #57606a; stroke-width: 1.5; }
.source rect { fill: #dafbe1; stroke: #1a7f37; }
.put rect { fill: #ddf4ff; stroke: #0969da; }
.connection rect { fill: #ffffff; stroke: #d0d7de; }
.waiting rect { fill: #fff8c5; stroke: #bf8700; }
.full rect { fill: #ffebe9; stroke: #cf222e; stroke-width: 2.5; }
.name { font-weight: bold; }
text.small { fill: #57606a; }
text.end { fill: #cf222e; }
path.leads { stroke: #57606a; }
path.back { stroke: #8250df; stroke-dasharray: 5 3; }
"""


class NoFlow(Exception):
    """Why a text can't be drawn as a flow."""


def is_list_of(value, kind):
    return isinstance(value, list) and all(isinstance(item, kind) for item in value)


def read(data):
    """The processors and the connections of a text. It may break other rules of flows, but these can be drawn."""
    try:
        top = json.loads(data)
    except (ValueError, RecursionError) as error:
        raise NoFlow(f"flow.json is no JSON: {error}") from None
    if not isinstance(top, dict):
        raise NoFlow("flow.json is no object")
    processors, connections = top.get("processors"), top.get("connections")
    if not is_list_of(processors, dict) or not is_list_of(connections, dict):
        raise NoFlow("flow.json: `processors` and `connections` have to be lists of objects")
    for parts, fields in ((processors, ("id", "type")), (connections, ("id", "from", "to"))):
        if any(not isinstance(part.get(field), str) for part in parts for field in fields):
            raise NoFlow(f"flow.json: a part lacks one of the texts {', '.join(fields)}")
        if len({part["id"] for part in parts}) < len(parts):
            raise NoFlow("flow.json: an id stands twice")
    ids = {processor["id"] for processor in processors}
    if any(connection[end] not in ids for connection in connections for end in ("from", "to")):
        raise NoFlow("flow.json: `from` or `to` of a connection names no processor")
    if any(not is_list_of(connection.get("relationships"), str) for connection in connections) or any(
            not is_list_of(processor.get("terminated", []), str) for processor in processors):
        raise NoFlow("flow.json: relationships have to be lists of texts")
    return processors, connections


def backward(processors, connections):
    """The places of the connections that lead back: to a processor from which, on a way from the sources on, theirs was
    reached. Without them there is no ring."""
    leaving = collections.defaultdict(list)
    for place, connection in enumerate(connections):
        leaving[connection["from"]].append((place, connection["to"]))
    led_to = {connection["to"] for connection in connections}
    ids = [processor["id"] for processor in processors]
    back, begun, ended = set(), set(), set()
    for first in sorted(ids, key=lambda name: name in led_to):
        ways = [(first, iter(leaving[first]))] if first not in begun else []
        begun.add(first)
        while ways:
            name, rest = ways[-1]
            place, other = next(rest, (None, None))
            if place is None:
                ended.add(name)
                ways.pop()
            elif other not in begun:
                begun.add(other)
                ways.append((other, iter(leaving[other])))
            elif other not in ended:
                back.add(place)
    return back


def rows(processors, connections, back):
    """The row of each processor: below all from which a connection leads to it that doesn't lead back."""
    leaving, due = collections.defaultdict(list), collections.Counter()
    for place, connection in enumerate(connections):
        if place not in back:
            leaving[connection["from"]].append(connection["to"])
            due[connection["to"]] += 1
    row = {processor["id"]: 0 for processor in processors}
    ready = collections.deque(name for name in row if not due[name])
    while ready:
        name = ready.popleft()
        for other in leaving[name]:
            row[other] = max(row[other], row[name] + 1)
            due[other] -= 1
            if not due[other]:
                ready.append(other)
    return row


def described(part):
    """All that the text says of a part, shown where the pointer rests."""
    return "\n".join(f"{readable(name)}: {readable(value if isinstance(value, str) else json.dumps(value))}"
                     for name, value in part.items())


def processor_lines(processor):
    lines = [(cut(processor["id"], WIDEST), "name"), (cut(processor["type"], WIDEST), "small")]
    if processor.get("terminated"):
        lines.append((cut("terminated: " + ", ".join(processor["terminated"]), WIDEST), "end"))
    return lines


def limit(connection, field, default):
    value = connection.get(field, default)
    return value if isinstance(value, int) else default


def counted(files, size):
    return f"{files} file{'s' * (files != 1)}, {size} bytes"


def filling(connection, queue):
    """Whether a queue is full, or only waits, or is empty; and how that is told."""
    if queue is None or not queue.files:
        return "empty", "0 files"
    objects, size = limit(connection, "objects", OBJECTS), limit(connection, "bytes", BYTES)
    told = counted(len(queue.files), queue.bytes)
    if 0 < objects <= len(queue.files) or 0 < size <= queue.bytes:
        return "full", f"full: {told}"
    return "waiting", told


def connection_lines(connection, queue):
    kind, told = filling(connection, queue)
    return [(cut(connection["id"], WIDEST), "name"), (cut(", ".join(connection["relationships"]), WIDEST), "small"),
            (told, "small" if kind == "empty" else "count")]


def drawn(places, start, end):
    """A way through places of consecutive rows: bent between two rows alone, straight beside the boxes of a row."""
    first, last = places[0], places[-1]
    down = first.y < last.y
    x, y = start, first.under if down else first.over
    steps = [f"M{number(x)} {number(first.bottom if down else first.y)}V{number(y)}"]
    for place in places[1:]:
        to_x, to_y = (end if place is last else place.x), (place.over if down else place.under)
        middle = (y + to_y) / 2
        steps.append(f"C{number(x)} {number(middle)} {number(to_x)} {number(middle)} {number(to_x)} {number(to_y)}")
        x, y = to_x, (place.under if down else place.over)
        steps.append(f"V{number(y if place is not last else place.y if down else place.bottom)}")
    return "".join(steps)


class FlowPicture:
    def __init__(self, data, queues):
        self.processors, self.connections = read(data)
        self.queues = {queue.connection: queue for queue in queues}
        strange = sorted(set(self.queues) - {connection["id"] for connection in self.connections})
        if strange:
            raise NoFlow(f"the store is that of another text: it has the connection {readable(strange[0])}")
        self.back = backward(self.processors, self.connections)
        self.lines = {("processor", one["id"]): processor_lines(one) for one in self.processors}
        self.lines |= {("connection", one["id"]): connection_lines(one, self.queues.get(one["id"]))
                       for one in self.connections}
        self.layers = Layers(self.boxes(), self.edges())
        self.ports = self.spread_ports()

    def boxes(self):
        """Processors stand in the even rows, connections in the odd ones: below the processor that they lead from, or
        above it where they lead back."""
        row = rows(self.processors, self.connections, self.back)
        found = {("processor", name): 2 * at for name, at in row.items()}
        for place, connection in enumerate(self.connections):
            up = place in self.back and row[connection["from"]] > row[connection["to"]]
            found["connection", connection["id"]] = 2 * row[connection["from"]] + (-1 if up else 1)
        return {key: (width_of(self.lines[key]), height_of(self.lines[key]), at) for key, at in found.items()}

    def edges(self):
        """Two for each connection, one behind the other: into its box, and out of it."""
        return [edge for connection in self.connections
                for edge in ((("processor", connection["from"]), ("connection", connection["id"])),
                             (("connection", connection["id"]), ("processor", connection["to"])))]

    def spread_ports(self):
        """Where each edge begins and ends: side by side on a box's side, by where they come from."""
        sides = collections.defaultdict(list)
        for number_of, path in enumerate(self.layers.paths):
            for end, near in ((0, 1), (-1, -2)):
                box, other = self.layers.places[path[end]], self.layers.places[path[near]]
                sides[path[end], box.row < other.row].append((other.x, number_of, end))
        ports = {}
        for (key, _), ends in sides.items():
            box = self.layers.places[key]
            for place, (_, number_of, end) in enumerate(sorted(ends), 1):
                ports[number_of, end] = box.left + box.width * place / (len(ends) + 1)
        return ports

    def draw(self):
        """The picture as a text."""
        picture = Picture(STYLE)
        picture.add(f"<defs>{marker('leads', '#57606a')}{marker('back', '#8250df')}</defs>")
        picture.add(f'<g transform="translate({MARGIN} {MARGIN + HEADER})">')
        for number_of, path in enumerate(self.layers.paths):
            self.draw_edge(picture, number_of, path)
        for processor in self.processors:
            kind = TYPES.get(processor["type"])
            role = " source" if kind and kind.source else " put" if processor["type"] == "PutFile" else ""
            self.draw_box(picture, ("processor", processor["id"]), "processor" + role, processor)
        for connection in self.connections:
            kind, _ = filling(connection, self.queues.get(connection["id"]))
            self.draw_box(picture, ("connection", connection["id"]), f"connection {kind}", connection)
        picture.add("</g>")
        title = self.title()
        picture.text("name", MARGIN, MARGIN + 12, title)
        width, height = self.layers.size
        width = max(width, width_of([(title, "name")]))
        return picture.written(width + 2 * MARGIN, height + 2 * MARGIN + HEADER, title)

    def title(self):
        files = sum(len(queue.files) for queue in self.queues.values())
        size = sum(queue.bytes for queue in self.queues.values())
        return (f"{len(self.processors)} processors, {len(self.connections)} connections; "
                + (f"waiting: {counted(files, size)}" if files else "nothing waits"))

    def draw_box(self, picture, key, kind, part):
        place = self.layers.places[key]
        picture.box({"class": kind, "id": "-".join(key)}, place.left, place.y, (place.width, place.height),
                    self.lines[key], described(part))

    def draw_edge(self, picture, number_of, path):
        kind = "back" if number_of // 2 in self.back else "leads"
        places = [self.layers.places[key] for key in path]
        way = drawn(places, self.ports[number_of, 0], self.ports[number_of, -1])
        names = {"class": kind, "data-from": "-".join(path[0]), "data-to": "-".join(path[-1])}
        if path[-1][0] == "processor" or kind == "back":
            names["marker-end"] = f"url(#{kind})"
        picture.path(names, way)
