"""Places the boxes of a graph in rows, so that none overlaps another and few edges cross.

Rows are given by the caller. An edge that passes a row without ending in it gets a narrow place of its own there. The
order within the rows is that with the fewest crossings that some sweeps find, and each box stands as near as the others
let it to the middle of its neighbours."""

import bisect
import dataclasses

GAP = 22
ROW_GAP = 28
SWEEPS, PATIENCE = 12, 150_000


@dataclasses.dataclass
class Place:
    """A box, or the place of an edge in a row that it passes; x and y are the middle of its top side. Its row reaches
    from `over` to `under`."""
    row: int
    width: float
    height: float
    is_box: bool = True
    x: float = 0
    y: float = 0
    over: float = 0
    under: float = 0

    @property
    def left(self):
        return self.x - self.width / 2

    @property
    def right(self):
        return self.x + self.width / 2

    @property
    def bottom(self):
        return self.y + self.height


def nearest(wished, weights, distances):
    """Positions in ascending order, each at least its distance behind the one before, that are nearest to those wished:
    the sum of their squared differences, each times its weight, is the least. Neighbours that are too near are put
    together into blocks, which move as one."""
    shifts = [0.0]
    for distance in distances:
        shifts.append(shifts[-1] + distance)
    blocks = []
    for wish, weight, shift in zip(wished, weights, shifts):
        at, heavy, count = wish - shift, weight, 1
        while blocks and blocks[-1][0] >= at:
            other, other_heavy, other_count = blocks.pop()
            at = (at * heavy + other * other_heavy) / (heavy + other_heavy)
            heavy, count = heavy + other_heavy, count + other_count
        blocks.append((at, heavy, count))
    starts = [at for at, _, count in blocks for _ in range(count)]
    return [start + shift for start, shift in zip(starts, shifts)]


class Layers:
    """`boxes` has width, height and row of each box by its key, `edges` pairs of keys of different rows."""

    def __init__(self, boxes, edges):
        self.places = {key: Place(row, width, height) for key, (width, height, row) in boxes.items()}
        self.paths = []
        self.links = []
        for number, (tail, head) in enumerate(edges):
            self.paths.append(self.path(number, tail, head))
        self.rows = [[] for _ in range(1 + max((place.row for place in self.places.values()), default=-1))]
        for key, place in self.places.items():
            self.rows[place.row].append(key)
        self.above, self.below = {key: [] for key in self.places}, {key: [] for key in self.places}
        for upper, lower in self.links:
            self.below[upper].append(lower)
            self.above[lower].append(upper)
        # A picture of very many places is drawn with less care.
        self.sweeps = max(2, min(SWEEPS, PATIENCE // (1 + len(self.places))))
        self.order()
        self.spread()
        self.stack()

    def path(self, number, tail, head):
        """The places that an edge leads through, of which those between its ends are new."""
        first, last = self.places[tail].row, self.places[head].row
        step = 1 if first < last else -1
        path = [tail]
        for row in range(first + step, last, step):
            path.append(("edge", number, row))
            self.places[path[-1]] = Place(row, 10, 0, is_box=False)
        path.append(head)
        self.links += [pair[::step] for pair in zip(path, path[1:])]
        return path

    # The order within the rows.

    def order(self):
        best, least = [list(row) for row in self.rows], self.crossings()
        for sweep in range(self.sweeps):
            down = sweep % 2 == 0
            near = self.above if down else self.below
            for number in range(len(self.rows)) if down else reversed(range(len(self.rows))):
                self.sort(number, near)
            found = self.crossings()
            if found < least:
                best, least = [list(row) for row in self.rows], found
        self.rows = best

    def sort(self, number, near):
        """Sorts a row by the mean place of each one's neighbours; one without neighbours stays about where it is."""
        places = {key: place for row in self.rows[max(0, number - 1):number + 2] for place, key in enumerate(row)}
        row = self.rows[number]
        means = {key: sum(places[other] for other in near[key]) / len(near[key]) if near[key] else place
                 for place, key in enumerate(row)}
        row.sort(key=means.get)

    def crossings(self):
        """How many pairs of links cross each other."""
        total = 0
        for upper, lower in zip(self.rows, self.rows[1:]):
            places = {key: place for place, key in enumerate(lower)}
            seen = []
            for key in upper:
                ends = sorted(places[other] for other in self.below[key])
                total += sum(len(seen) - bisect.bisect_right(seen, end) for end in ends)
                for end in ends:
                    bisect.insort(seen, end)
        return total

    # Where they stand.

    def spread(self):
        """Moves each row to its neighbours above, then below, at last to both. The leftmost stands at 0 then."""
        for row in self.rows:
            self.move(row, {key: 0.0 for key in row})
        for sweep in range(2 * self.sweeps):
            last = sweep >= 2 * self.sweeps - 2
            for row in self.rows if sweep % 2 == 0 else reversed(self.rows):
                near = {key: (self.above[key] if last or sweep % 2 == 0 else [])
                        + (self.below[key] if last or sweep % 2 else []) for key in row}
                self.move(row, {key: self.mean(key, others) for key, others in near.items()})
        least = min((place.left for place in self.places.values()), default=0)
        for place in self.places.values():
            place.x -= least

    def mean(self, key, others):
        """Where the neighbours are in the middle; those of the way of a long edge count more."""
        if not others:
            return self.places[key].x
        weights = [1 if self.places[other].is_box else 8 for other in others]
        return sum(self.places[other].x * weight for other, weight in zip(others, weights)) / sum(weights)

    def move(self, row, wished):
        places = [self.places[key] for key in row]
        distances = [(left.width + right.width) / 2 + GAP for left, right in zip(places, places[1:])]
        weights = [1 if place.is_box else 8 for place in places]
        for place, x in zip(places, nearest([wished[key] for key in row], weights, distances)):
            place.x = x

    def stack(self):
        """Puts the rows below each other. The further the links between two rows lead aside, the more room they get."""
        y = 0.0
        for number, row in enumerate(self.rows):
            height = max((self.places[key].height for key in row), default=0)
            for key in row:
                place = self.places[key]
                if not place.is_box:
                    place.height = height
                place.y = y + (height - place.height) / 2
                place.over, place.under = y, y + height
            aside = max((abs(self.places[key].x - self.places[other].x) for key in row for other in self.below[key]),
                        default=0)
            y += height + ROW_GAP + min(70, aside / 10)

    @property
    def size(self):
        """Width and height of all of them together."""
        return (max((place.right for place in self.places.values()), default=0),
                max((place.bottom for place in self.places.values()), default=0))
