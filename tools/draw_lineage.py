"""Draws a file's lineage: the file in the middle, left of it those that it came from, right those that came from it.

Each generation is a grid of boxes. Lines run in the gaps between columns and between rows alone, so that none crosses a
box; those of one parent, or of one child where that has more, share a colour and a place in a gap."""

import collections
import itertools
import math

from draw_svg import CHARACTER, LINE, MARGIN, PADDING, Picture, cut, height_of, marker, number, width_of
from flow_queries import readable

WIDEST = 40
# How many events a box shows; the middle one shows more.
MOST, MOST_IN_MIDDLE = 10, 30
LEAST_ROWS = 16
ROW_GAP, COLUMN_GAP, GENERATION_GAP = 18, 30, 56
HEADER = 2 * LINE
# Where lines meet a box, below its upper corner.
PORT = PADDING + LINE / 2
COLOURS = ("#0969da", "#8250df", "#1a7f37", "#bf8700", "#cf222e", "#57606a", "#bf3989")

STYLE = """.ancestor rect { fill: #ddf4ff; stroke: #0969da; }
.descendant rect { fill: #dafbe1; stroke: #1a7f37; }
.file rect { fill: #fff8c5; stroke: #bf8700; stroke-width: 2.5; }
.name { font-weight: bold; }
text.small { fill: #57606a; }
""" + "".join(f"path.way-{place} {{ stroke: {colour}; }}\n" for place, colour in enumerate(COLOURS))


def kin_of(told):
    """The pairs of a parent and its child among the files of a lineage, each once."""
    files = {told.file, *told.ancestors, *told.descendants}
    pairs = {(parent, child): None for event in told.events if event["kind"] in ("FORK", "JOIN", "CLONE")
             for parent in event["parents"] for child in event["children"] if {parent, child} <= files}
    return list(pairs)


def generations(told, pairs):
    """In which column each file stands: the file in 0, each one right of all its parents."""
    column = {told.file: 0} | {name: -1 for name in told.ancestors} | {name: 1 for name in told.descendants}
    right = [pair for pair in pairs if column[pair[1]] > 0 and column[pair[0]] > 0]
    left = [pair[::-1] for pair in pairs if column[pair[0]] < 0 and column[pair[1]] < 0][::-1]
    for near, step in ((right, 1), (left, -1)):
        # Each round settles at least one generation more.
        for _ in range(len(column)):
            before = dict(column)
            for parent, child in near:
                column[child] = max(column[child] * step, column[parent] * step + 1) * step
            if column == before:
                break
    return column


def event_text(event):
    """What an event tells: its kind, who did it, its detail, and of how many files where it ties some together."""
    told = f"{event['kind']} {event['component']}"
    if event["kind"] in ("FORK", "CLONE"):
        told += f": to {len(event['children'])}"
    elif event["kind"] == "JOIN":
        told += f": of {len(event['parents'])}"
    return told + (f": {event['detail']}" if event["detail"] else "")


def event_lines(events, most):
    """The lines of a box's events: equal ones in a row are one, and of too many the first and the last ones stand."""
    lines = []
    for text, same in itertools.groupby(map(event_text, events)):
        count = len(list(same))
        lines.append(cut(text, WIDEST) if count == 1 else f"{cut(text, WIDEST - 7)} ×{count}")
    if len(lines) > most:
        left_out = len(lines) - most + 1
        lines[most // 2:len(lines) - (most - 1 - most // 2)] = [f"… {left_out} more"]
    return [(line, "small") for line in lines] or [("no event of its own", "small")]


class Grid:
    """A generation: its boxes in columns, from the top to the bottom, each row as high as its highest box."""

    def __init__(self, files, lines):
        self.files = files
        self.places = {file: place for place, file in enumerate(files)}
        self.count = max(LEAST_ROWS, math.ceil(1.2 * math.sqrt(len(files))))
        self.columns = math.ceil(len(files) / self.count)
        self.rows = min(self.count, len(files))
        self.box_width = max(width_of(lines[file]) for file in files)
        self.heights = [max(height_of(lines[file]) for file in files[row::self.count]) for row in range(self.rows)]
        self.width = self.columns * self.box_width + (self.columns - 1) * COLUMN_GAP
        self.height = sum(self.heights) + (self.rows + 1) * ROW_GAP
        self.left = self.top = 0.0

    def column(self, file):
        return self.places[file] // self.count

    def row(self, file):
        return self.places[file] % self.count

    def column_left(self, column):
        return self.left + column * (self.box_width + COLUMN_GAP)

    def gap(self, row):
        """The upper end of the gap above a row; behind the last row there is one too."""
        return self.top + sum(self.heights[:row]) + row * ROW_GAP

    def corner(self, file):
        return self.column_left(self.column(file)), self.gap(self.row(file)) + ROW_GAP


class LineagePicture:
    def __init__(self, told):
        self.told = told
        self.pairs = kin_of(told)
        self.column = generations(told, self.pairs)
        self.events = collections.defaultdict(list)
        for event in told.events:
            self.events[event["uuid"]].append(event)
        self.lines = {file: self.box_lines(file) for file in self.column}
        files = collections.defaultdict(list)
        for file in [*told.ancestors, told.file, *told.descendants]:
            files[self.column[file]].append(file)
        self.grids = {column: Grid(files[column], self.lines) for column in sorted(files)}
        self.stand()
        self.hubs = self.find_hubs()

    def box_lines(self, file):
        most = MOST_IN_MIDDLE if file == self.told.file else MOST
        return [(file[-12:], "name"), *event_lines(self.events[file], most)]

    def stand(self):
        """Puts the generations beside each other, their middles on one height."""
        self.height = max(grid.height for grid in self.grids.values())
        x = float(GENERATION_GAP)
        for column in sorted(self.grids):
            grid = self.grids[column]
            grid.left, grid.top = x, (self.height - grid.height) / 2
            x += grid.width + GENERATION_GAP
        self.width = x

    def find_hubs(self):
        """Of each pair the file that has more of them, with its number among such: lines of one hub share their way."""
        children = collections.Counter(parent for parent, _ in self.pairs)
        parents = collections.Counter(child for _, child in self.pairs)
        numbers = {}
        hubs = {(parent, child): parent if children[parent] >= parents[child] else child
                for parent, child in self.pairs}
        return {pair: numbers.setdefault(hub, len(numbers)) for pair, hub in hubs.items()}

    # The ways of the lines.

    def beside(self, column, place):
        """The vertical gap right of a column of a generation, with the places of two hubs in it apart."""
        grid = self.grids[column]
        last = place >= grid.columns - 1
        left = grid.left - GENERATION_GAP if place < 0 else grid.column_left(place) + grid.box_width
        return left, GENERATION_GAP if last or place < 0 else COLUMN_GAP

    def way(self, pair):
        """The corners of a line from a parent's right side to its child's left one."""
        hub = self.hubs[pair]
        (parent, child), points = pair, []

        def across(column, place):
            left, width = self.beside(column, place)
            return left + 6 + (hub * 5) % (width - 16)

        def along(column, row):
            return self.grids[column].gap(row) + 4 + (hub * 4) % (ROW_GAP - 6)
        first, last = self.column[parent], self.column[child]
        grid, other = self.grids[first], self.grids[last]
        x, y = grid.corner(parent)
        points.append((x + grid.box_width, y + PORT))
        points.append((across(first, grid.column(parent)), y + PORT))
        if grid.column(parent) < grid.columns - 1:
            y = along(first, grid.row(parent) + 1)
            points += [(points[-1][0], y), (across(first, grid.columns - 1), y)]
        for column in range(first + 1, last):
            passed = self.grids[column]
            row = min(range(passed.rows + 1), key=lambda row: abs(passed.gap(row) - points[-1][1]))
            y = along(column, row)
            points += [(points[-1][0], y), (across(column, passed.columns - 1), y)]
        x, y = other.corner(child)
        if other.column(child) > 0:
            gap = along(last, other.row(child))
            points += [(points[-1][0], gap), (across(last, other.column(child) - 1), gap)]
        return [*points, (points[-1][0], y + PORT), (x, y + PORT)]

    def draw(self):
        """The picture as a text."""
        picture = Picture(STYLE)
        heads = "".join(marker(f"way-{place}", colour) for place, colour in enumerate(COLOURS))
        picture.add(f'<defs>{heads}</defs>\n<g transform="translate({MARGIN} {MARGIN + HEADER})">')
        for pair in self.pairs:
            if self.column[pair[0]] < self.column[pair[1]]:
                way = f"way-{self.hubs[pair] % len(COLOURS)}"
                names = {"class": way, "data-from": f"file-{pair[0]}", "data-to": f"file-{pair[1]}",
                         "marker-end": f"url(#{way})"}
                picture.path(names, "M" + "L".join(f"{number(x)} {number(y)}" for x, y in self.way(pair)))
        for column, grid in self.grids.items():
            kind = "ancestor" if column < 0 else "descendant" if column > 0 else "file"
            for file in grid.files:
                left, top = grid.corner(file)
                size = (grid.box_width, height_of(self.lines[file]))
                names = {"class": kind, "id": f"file-{file}"}
                picture.box(names, left, top, size, self.lines[file], self.described(file))
        picture.add("</g>")
        title = self.title()
        picture.text("name", MARGIN, MARGIN + 12, title)
        width = max(self.width, len(title) * CHARACTER)
        return picture.written(width + 2 * MARGIN, self.height + 2 * MARGIN + HEADER, title)

    def described(self, file):
        return "\n".join([file, *(f"event {event['event']}: {readable(event_text(event))}, {event['size']} bytes"
                                  for event in self.events[file])])

    def title(self):
        return (f"{self.told.file}: {len(self.told.ancestors)} ancestors, {len(self.told.descendants)} descendants, "
                f"{len(self.told.events)} events")
