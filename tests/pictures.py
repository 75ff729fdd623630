"""What a picture of tools/draw shows: its boxes with their texts, and the lines between them. That it is sound XML of a
few harmless elements, that no boxes overlap and that no line leads through one is checked of each."""

import collections
import json
import random
import re
import sys
from xml.etree import ElementTree

from flow_texts import flow, processor, queue
from support import ROOT, need

sys.path.insert(0, str(ROOT / "tools"))

from flow_queries import Lineage, readable  # noqa: E402

SVG = "{http://www.w3.org/2000/svg}"
# Boxes are looked up by squares of so many pixels.
CELL = 100
TAGS = ("svg", "title", "style", "rect", "defs", "marker", "path", "g", "text")


class Drawn:
    """The boxes of a picture by their ids, their texts, and its lines with the points where they bend or pass."""

    def __init__(self, text):
        self.root = ElementTree.fromstring(text)
        self.boxes, self.texts, self.kinds = {}, {}, {}
        for group in self.root.iter(f"{SVG}g"):
            if group.get("id") is not None:
                need(group.get("id") not in self.boxes, f"{group.get('id')} stands twice")
                at = {name: float(group.find(f"{SVG}rect").get(name)) for name in ("x", "y", "width", "height")}
                self.boxes[group.get("id")] = (at["x"], at["y"], at["x"] + at["width"], at["y"] + at["height"])
                self.texts[group.get("id")] = [line.text for line in group.findall(f"{SVG}text")]
                self.kinds[group.get("id")] = group.get("class").split()
        self.lines = [(line.get("data-from"), line.get("data-to"), points_of(line.get("d")))
                      for line in self.root.iter(f"{SVG}path") if line.get("data-from") is not None]
        self.is_harmless()
        self.is_apart()

    def is_harmless(self):
        for element in self.root.iter():
            need(element.tag.removeprefix(SVG) in TAGS, f"there is a {element.tag}")
            for name, value in element.items():
                need(not name.startswith("on") and "href" not in name and "url" not in value.replace("url(#", "("),
                     f"an element has {name}={value!r}")
            need(element.tag != f"{SVG}style" or not re.search("url|@|http", element.text), "the style names something")

    def is_apart(self):
        """No two boxes overlap, all are within the picture, and no line leads through one."""
        left, top, width, height = map(float, self.root.get("viewBox").split())
        shift = re.search(r"translate\(([0-9.]+) ([0-9.]+)\)", next(self.root.iter(f"{SVG}g")).get("transform"))
        right, bottom = left + width - float(shift.group(1)), top + height - float(shift.group(2))
        boxes, cells = sorted(self.boxes.items(), key=lambda named: named[1]), collections.defaultdict(list)
        for place, (name, box) in enumerate(boxes):
            need(0 <= box[0] and box[2] <= right and 0 <= box[1] and box[3] <= bottom, f"{name} is outside: {box}")
            for other, its in boxes[place + 1:]:
                if its[0] >= box[2]:
                    break
                need(its[1] >= box[3] or its[3] <= box[1], f"{name} and {other} overlap")
            for column in range(int(box[0] // CELL), int(box[2] // CELL) + 1):
                for row in range(int(box[1] // CELL), int(box[3] // CELL) + 1):
                    cells[column, row].append((name, box))
        for start, end, points in self.lines:
            need(self.touches(start, points[0]) and self.touches(end, points[-1]), f"{start} and {end} aren't touched")
            for x, y in points:
                inside = [name for name, box in cells.get((x // CELL, y // CELL), ())
                          if box[0] + 1 < x < box[2] - 1 and box[1] + 1 < y < box[3] - 1]
                need(not inside, f"the line from {start} to {end} leads through {inside}")

    def touches(self, name, point):
        left, top, right, bottom = self.boxes[name]
        x, y = point
        return (left - 0.2 <= x <= right + 0.2 and min(abs(y - top), abs(y - bottom)) < 0.2
                or top - 0.2 <= y <= bottom + 0.2 and min(abs(x - left), abs(x - right)) < 0.2)


def points_of(drawn):
    """Points along a path of straight lines and curves, its ends among them."""
    points = []
    for step, given in re.findall("([MLVC])([^MLVC]*)", drawn):
        values = [float(value) for value in given.split()]
        if step == "M":
            points.append(tuple(values))
            continue
        start = points[-1]
        ends = {"L": [values], "V": [(start[0], values[0])]}.get(step) or [values[:2], values[2:4], values[4:]]
        for part in range(1, 17):
            t = part / 16
            if len(ends) == 1:
                points.append(tuple(start[axis] + (ends[0][axis] - start[axis]) * t for axis in (0, 1)))
            else:
                points.append(tuple((1 - t)**3 * start[axis] + 3 * (1 - t)**2 * t * ends[0][axis]
                                    + 3 * (1 - t) * t * t * ends[1][axis] + t**3 * ends[2][axis] for axis in (0, 1)))
    return points


def is_shown(shown, text):
    """A line shows a text, or a front of it where it is too long."""
    return shown == text or shown[-1] == "…" and text.startswith(shown[:-1])


def is_flow(drawn, text):
    """Each processor and each connection of the text is drawn, and two lines for each connection, from box to box."""
    read = json.loads(text)
    wanted = {f"processor-{one['id']}": [one["id"], one["type"]] for one in read["processors"]}
    wanted |= {f"connection-{one['id']}": [one["id"], ", ".join(one["relationships"])] for one in read["connections"]}
    need(set(drawn.boxes) == set(wanted), f"other boxes: {set(drawn.boxes) ^ set(wanted)}")
    for name, texts in wanted.items():
        shown = drawn.texts[name]
        need(all(map(is_shown, shown, texts)), f"{name} has the texts {shown}")
    ends = [(f"processor-{one['from']}", f"connection-{one['id']}", f"processor-{one['to']}")
            for one in read["connections"]]
    lines = sorted((start, end) for start, end, _ in drawn.lines)
    need(lines == sorted(pair for three in ends for pair in (three[:2], three[1:])), "other lines lead from box to box")


def is_told(line, event):
    """A line of a box tells of an event, perhaps with a cut detail, or of several like it."""
    line = re.sub(" ×[0-9]+$", "", line)
    return (line.startswith(f"{event['kind']} {event['component']}")
            and (line.endswith("…") or line.endswith(readable(event["detail"]))))


def is_lineage(drawn, told):
    """Each file of a lineage is drawn with its events, on its side of the file asked for, and a line for each kin."""
    files = [told.file, *told.ancestors, *told.descendants]
    need(sorted(drawn.boxes) == sorted(f"file-{file}" for file in files), "other files are drawn")
    middle = drawn.boxes[f"file-{told.file}"]
    for file in files:
        box, (first, *lines) = drawn.boxes[f"file-{file}"], drawn.texts[f"file-{file}"]
        need(first == file[-12:], f"{file} is drawn as {first}")
        need(file not in told.ancestors or box[2] < middle[0], f"{file} isn't left of the middle")
        need(file not in told.descendants or middle[2] < box[0], f"{file} isn't right of the middle")
        for event in told.events:
            if event["uuid"] == file and not any(line.endswith(" more") for line in lines):
                need(any(is_told(line, event) for line in lines), f"{file}: {event} isn't told in {lines}")
    kin = {(f"file-{parent}", f"file-{child}") for event in told.events for parent in event["parents"]
           for child in event["children"] if parent in files and child in files}
    need({line[:2] for line in drawn.lines} == kin and len(drawn.lines) == len(kin), "other kin are drawn")


def random_flow(processors, connections):
    """Boxes of all widths, and connections from each to any, also to itself."""
    ids = [f"{n}-" + "".join(random.choices("abcdefgh._-", k=random.randrange(60))) for n in range(processors)]
    types = ("GetFile", "PutFile", "UpdateAttribute", "MergeContent")
    parts = [processor(name, random.choice(types), terminated=["success", "failure"][:random.randrange(3)])
             for name in ids]
    return flow(parts, [queue(f"c{n}" * random.randrange(1, 9), random.choice(ids), random.choice(ids),
                              objects=random.randrange(9)) for n in range(connections)])


def random_lineage(ancestors, descendants):
    """A file that came from so many in some generations, and from which so many came, with kin among all of these."""
    uuids = [f"00000000-0000-8000-8000-{number:012x}" for number in range(ancestors + descendants + 1)]
    told = Lineage(uuids[ancestors], uuids[:ancestors], uuids[ancestors + 1:])
    pairs = []
    for number in range(len(uuids)):
        least = 0 if number <= ancestors else ancestors
        if number > least:
            pairs += [(random.randrange(least, number), number) for _ in range(random.choice((0, 1, 1, 3)))]
    pairs += [(number, random.randrange(number + 1, ancestors + 1)) for number in range(ancestors)]
    pairs += [(0, len(uuids) - 1)] if ancestors and descendants else []
    ends = [("DROP", number, None) for number in range(len(uuids))]
    for kind, parent, child in [*(("FORK", *pair) for pair in pairs), *ends]:
        told.events.append({"event": len(told.events) + 1, "kind": kind, "uuid": uuids[parent], "component": "some",
                            "detail": "x" * random.randrange(40) if child is None else "", "size": 1, "digest": "",
                            "parents": [] if child is None else [uuids[parent]],
                            "children": [] if child is None else [uuids[child]]})
    return told
