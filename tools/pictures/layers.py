"""Places the things of a graph in layers, so that every arrow goes down.

An arrow that follows from others is left out. One that passes a layer has a place
of its own there, so that it goes round the boxes. Within a layer the order is that
with the fewest crossings that some sweeps find. All is the same for the same graph.
"""


def reachable(below, name):
    """All that stands below."""
    found, left = set(), list(below[name])
    while left:
        it = left.pop()
        if it not in found:
            found.add(it)
            left += below[it]
    return found


def reduced(below):
    """The graph without the arrows that follow from others."""
    far = {name: reachable(below, name) for name in below}
    return {name: [d for d in deps if not any(d in far[e] for e in deps if e != d)] for name, deps in below.items()}


def heights(below):
    """For each thing the length of the longest way down from it."""
    known = {}

    def height(name):
        if name not in known:
            known[name] = 1 + max((height(d) for d in below[name]), default=-1)
        return known[name]

    for name in sorted(below):
        height(name)
    return known


class Layers:
    """The layers, from the top down, each a list of places in order; a place is a
    name, or a triple (start, end, height) where an arrow passes; and the short
    arrows between places of neighbouring layers. Each thing is as high as the
    longest way down from it, unless heights are given."""

    def __init__(self, below, high=None):
        graph, high = reduced(below), high or heights(below)
        self.rows = [[] for _ in range(max(high.values()) + 1)]
        self.arrows, self.ways = [], []
        for name in sorted(below):
            self.rows[high[name]].append(name)
        for start in sorted(graph):
            for end in graph[start]:
                passed = [(start, end, h) for h in range(high[start] - 1, high[end], -1)]
                for it in passed:
                    self.rows[it[2]].append(it)
                way = [start, *passed, end]
                self.ways.append(way)
                self.arrows += list(zip(way, way[1:]))
        self.rows.reverse()
        self.down, self.up = {}, {}
        for start, end in self.arrows:
            self.down.setdefault(start, []).append(end)
            self.up.setdefault(end, []).append(start)
        self.arrange()

    def crossings(self):
        """How often arrows cross."""
        at = {it: place for row in self.rows for place, it in enumerate(row)}
        count = 0
        for row in self.rows:
            ends = [(at[it], at[d]) for it in row for d in self.down.get(it, [])]
            count += sum(a < c and b > d or a > c and b < d for i, (a, b) in enumerate(ends) for c, d in ends[:i])
        return count

    def sweep(self, rows, near):
        """Orders each row by the middle of its neighbours in the row before."""
        for before, row in zip(rows, rows[1:]):
            at = {it: place / max(len(before) - 1, 1) for place, it in enumerate(before)}
            own = {it: place / max(len(row) - 1, 1) for place, it in enumerate(row)}
            middle = {}
            for it in row:
                seen = [at[n] for n in near.get(it, [])]
                middle[it] = sum(seen) / len(seen) if seen else own[it]
            row.sort(key=middle.get)

    def exchange(self):
        """Exchanges neighbours as long as that saves a crossing."""
        best, better = self.crossings(), True
        while better:
            better = False
            for row in self.rows:
                for place in range(len(row) - 1):
                    row[place : place + 2] = row[place : place + 2][::-1]
                    now = self.crossings()
                    if now < best:
                        best, better = now, True
                    else:
                        row[place : place + 2] = row[place : place + 2][::-1]

    def arrange(self):
        """Takes the best order of several sweeps."""
        best = None
        for _ in range(12):
            self.sweep(self.rows, self.up)
            self.sweep(self.rows[::-1], self.down)
            if best is None or self.crossings() < best[0]:
                best = self.crossings(), [row[:] for row in self.rows]
        self.rows = [row[:] for row in best[1]]
        self.exchange()

    def across(self, width, room, gap):
        """Where each place lies: its middle, from 0 to the width. `room` tells how wide a place is."""
        x = {}
        for row in self.rows:
            used = sum(room(it) for it in row) + gap * (len(row) - 1)
            left = (width - used) / 2
            for it in row:
                x[it] = left + room(it) / 2
                left += room(it) + gap
        for turn in range(240):
            down, both = turn % 2 == 0, turn > 40
            for row in self.rows if not down else self.rows[::-1]:
                wanted = []
                for it in row:
                    seen = self.down.get(it, []) * (down or both) + self.up.get(it, []) * (both or not down)
                    wanted.append(sum(x[n] for n in seen) / len(seen) if seen else x[it])
                x.update(zip(row, spread(wanted, [room(it) for it in row], gap, width)))
        outer = [(x[it] - room(it) / 2, x[it] + room(it) / 2) for it in x]
        shift = (width - min(a for a, _ in outer) - max(b for _, b in outer)) / 2
        return {it: at + shift for it, at in x.items()}


def spread(wanted, rooms, gap, width):
    """The middles nearest to what is wanted, in this order, that keep apart and within the width."""
    offsets, left = [], 0
    for room in rooms:
        offsets.append(left + room / 2)
        left += room + gap
    blocks = []
    for want, offset in zip(wanted, offsets):
        blocks.append([want - offset, 1])
        while len(blocks) > 1 and blocks[-2][0] > blocks[-1][0]:
            value, count = blocks.pop()
            before, many = blocks.pop()
            blocks.append([(before * many + value * count) / (many + count), many + count])
    most = max(width - (left - gap), 0)
    starts = [min(max(value, 0), most) for value, count in blocks for _ in range(count)]
    return [start + offset for start, offset in zip(starts, offsets)]
