"""Layered layout: boxes in columns from left to right, and a path for each edge.

Cycles are broken in depth-first order, layers are longest paths, long edges pass their layers in lanes of their own,
barycenter sweeps order each layer, and heights follow the neighbours. Many layers are wrapped into bands, one below the
other; an edge between two bands runs between the columns and in a channel above the band of its target.
"""
import bisect
import math
from typing import NamedTuple

GAP = 70            # between columns
BOX_GAP = 16        # between the boxes of a column
LANE = 9            # the height of a lane
LANES_PER_BOX = 8   # edges beyond this many lanes run below the boxes
TRACK = 5           # between two edges in a channel
TRACKS = 40         # more edges than this share their tracks


class Size(NamedTuple):
    width: float
    height: float


class Edge(NamedTuple):
    """From box to box; `out_y` and `in_y` are where it leaves and enters, from the top of its box."""
    source: int
    target: int
    out_y: float
    in_y: float


class Box(NamedTuple):
    x: float
    y: float
    width: float
    height: float


class Layout(NamedTuple):
    """`paths` has the SVG path of each edge."""
    boxes: list
    paths: list
    width: float
    height: float


def layout(sizes, edges):
    """Boxes that no edge touches stand in rows below the others."""
    touched = sorted({end for edge in edges for end in (edge.source, edge.target)})
    place = {box: i for i, box in enumerate(touched)}
    placement = _Placement([sizes[box] for box in touched],
                           [edge._replace(source=place[edge.source], target=place[edge.target]) for edge in edges])
    boxes = dict(zip(touched, placement.boxes))
    others = [box for box in range(len(sizes)) if box not in boxes]
    area = sum((sizes[box].width + BOX_GAP) * (sizes[box].height + BOX_GAP) for box in others)
    width = max(placement.width, 1.5 * math.sqrt(area), max((size.width for size in sizes), default=0) + GAP)
    height = _add_rows(boxes, others, sizes, placement.height, width)
    paths = [placement.path(number) for number in range(len(edges))]
    return Layout([boxes[box] for box in range(len(sizes))], paths, width, height)


def _add_rows(boxes, others, sizes, y, width):
    """Places the others in rows from `y`, and gives where they end."""
    x, tallest = GAP / 2, 0.0
    for box in others:
        if x + sizes[box].width > width and x > GAP / 2:
            x, y, tallest = GAP / 2, y + tallest + BOX_GAP, 0.0
        boxes[box] = Box(x, y, *sizes[box])
        x += sizes[box].width + BOX_GAP
        tallest = max(tallest, sizes[box].height)
    return y + tallest + BOX_GAP if others else y


def depth_first(count, after):
    """The nodes so that edges lead on, and the pairs (source, target) that lead back."""
    entered = {target for targets in after for target in targets}
    roots = [node for node in range(count) if node not in entered] + [node for node in range(count) if node in entered]
    state, order, back = [0] * count, [], set()
    for root in roots:
        stack = [] if state[root] else [(root, iter(after[root]))]
        state[root] = state[root] or 1
        while stack:
            node, targets = stack[-1]
            target = next(targets, None)
            if target is None:
                state[node] = 2
                order.append(node)
                stack.pop()
            elif state[target] == 1:
                back.add((node, target))
            elif state[target] == 0:
                state[target] = 1
                stack.append((target, iter(after[target])))
    return order[::-1], back


def layers_of(count, after, most):
    """The layer of each node, at most so many to a layer, and the pairs that lead back."""
    order, back = depth_first(count, after)
    layer, fill = [0] * count, {}
    before = [[] for _ in range(count)]
    for node in order:
        while fill.get(layer[node], 0) >= most:
            layer[node] += 1
        fill[layer[node]] = fill.get(layer[node], 0) + 1
        for target in after[node]:
            if (node, target) not in back:
                before[target].append(node)
                layer[target] = max(layer[target], layer[node] + 1)
    for node in reversed(order):
        # what nothing enters moves up to what it feeds
        targets = [layer[target] for target in after[node] if (node, target) not in back]
        wanted = min(targets, default=0) - 1
        if not before[node] and wanted > layer[node] and fill.get(wanted, 0) < most:
            fill[layer[node]] -= 1
            fill[wanted] = fill.get(wanted, 0) + 1
            layer[node] = wanted
    used = {number: i for i, number in enumerate(sorted(set(layer)))}
    return [used[number] for number in layer], back


def settle(wanted, weights, apart, low, high):
    """Places in order from `low` to `high`, `apart[i]` or more between i and i + 1, as near to the wanted ones as can be."""
    shifts, blocks = [0.0], []
    for gap in apart:
        shifts.append(shifts[-1] + gap)
    for want, weight, shift in zip(wanted, weights, shifts):
        blocks.append([want - shift, weight, 1])
        while len(blocks) > 1 and blocks[-2][0] > blocks[-1][0]:
            mean, total, size = blocks.pop()
            last = blocks[-1]
            last[0] = (last[0] * last[1] + mean * total) / (last[1] + total)
            last[1] += total
            last[2] += size
    places = [max(low, min(high - shifts[-1], mean)) for mean, _, size in blocks for _ in range(size)]
    return [place + shift for place, shift in zip(places, shifts)]


class _Placement:
    """Items are the boxes by number and, behind them, lanes."""

    def __init__(self, sizes, edges):
        self.sizes, self.edges = sizes, edges
        self.count = len(sizes)
        after = [[] for _ in sizes]
        for source, target in dict.fromkeys((edge.source, edge.target) for edge in edges):
            after[source].append(target)
        side = math.sqrt(self.count)
        self.layer, self.back = layers_of(self.count, after, max(10, math.ceil(1.3 * side)))
        self.depth = max(self.layer, default=-1) + 1
        most = max(14, math.ceil(0.9 * side))
        self.per_band = most if self.depth > most + 2 else max(self.depth, 1)
        self.heights = [size.height for size in sizes]
        self.anchor, self.lanes, self.segments = {}, {}, []
        self._add_lanes()
        self._order()
        self._place_columns()
        self._place_rows()

    def band(self, item):
        return self.layer[item] // self.per_band

    def column(self, item):
        return self.layer[item] % self.per_band

    def _add_lanes(self):
        """Lanes for edges within a band, the shortest edges first, as long as there are some left."""
        spans = [abs(self.layer[edge.source] - self.layer[edge.target]) for edge in self.edges]
        shared, left = {}, LANES_PER_BOX * self.count + 100
        for number in sorted(range(len(self.edges)), key=lambda number: spans[number]):
            edge = self.edges[number]
            if self.band(edge.source) == self.band(edge.target) and spans[number] <= left:
                before = len(self.heights)
                self.lanes[number] = self._back_lanes(edge) if self._is_back(edge) else self._lanes(edge, shared)
                left -= len(self.heights) - before

    def _is_back(self, edge):
        return self.layer[edge.source] >= self.layer[edge.target]

    def _lane(self, layer):
        self.heights.append(LANE)
        self.layer.append(layer)
        return len(self.heights) - 1

    def _lanes(self, edge, shared):
        """Lanes between the layers of an edge; edges from one place share theirs."""
        lanes, last, out = [], edge.source, edge.out_y - self.heights[edge.source] / 2
        for layer in range(self.layer[edge.source] + 1, self.layer[edge.target]):
            key = edge.source, edge.out_y, layer
            if key not in shared:
                shared[key] = self._lane(layer)
                self.segments.append((last, out, shared[key], 0.0))
            last, out = shared[key], 0.0
            lanes.append(last)
        self.segments.append((last, out, edge.target, edge.in_y - self.heights[edge.target] / 2))
        return lanes

    def _back_lanes(self, edge):
        """Lanes beside both boxes and in the layers between, in the order in which the edge passes them."""
        lanes = [self._lane(layer) for layer in range(self.layer[edge.source], self.layer[edge.target] - 1, -1)]
        self.segments += [(right, 0.0, left, 0.0) for left, right in zip(lanes, lanes[1:])]
        self.anchor[lanes[-1]] = edge.target
        self.anchor[lanes[0]] = edge.source
        return lanes

    def _order(self):
        """Orders each layer by the barycenters of its neighbours; the order with the fewest crossings stays."""
        self.left, self.right = [[] for _ in self.heights], [[] for _ in self.heights]
        for a, a_y, b, b_y in self.segments:
            self.right[a].append((b, a_y, b_y))
            self.left[b].append((a, b_y, a_y))
        self.layers = [[] for _ in range(self.depth)]
        for item in sorted(range(len(self.heights)), key=lambda item: (self.anchor.get(item, item), item)):
            self.layers[self.layer[item]].append(item)
        best, best_crossings = [list(layer) for layer in self.layers], self._crossings()
        for sweep in range(16 if self.count <= 200 else 6):
            self._sweep(sweep % 2 == 0)
            crossings = self._crossings()
            if crossings < best_crossings:
                best, best_crossings = [list(layer) for layer in self.layers], crossings
        self.layers = best

    def _positions(self):
        return {item: place for layer in self.layers for place, item in enumerate(layer)}

    def _sweep(self, rightward):
        place = self._positions()
        sides = self.left if rightward else self.right
        for layer in self.layers if rightward else reversed(self.layers):
            keys = {}
            for item in layer:
                found = [place[other] + other_y / 1000 for other, _, other_y in sides[item]]
                keys[item] = sum(found) / len(found) if found else place[item]
            layer.sort(key=lambda item: (keys[self.anchor.get(item, item)], item))
            for i, item in enumerate(layer):
                place[item] = i

    def _crossings(self):
        place, between = self._positions(), {}
        for a, a_y, b, b_y in self.segments:
            between.setdefault(self.layer[a], []).append((place[a], a_y, place[b], b_y))
        crossings = 0
        for ends in between.values():
            seen = []
            for _, _, b, b_y in sorted(ends):
                crossings += len(seen) - bisect.bisect_right(seen, (b, b_y))
                bisect.insort(seen, (b, b_y))
        return crossings

    def _place_columns(self):
        widths = [0.0] * self.per_band
        for item in range(self.count):
            widths[self.column(item)] = max(widths[self.column(item)], self.sizes[item].width)
        self.column_left, self.column_right, x = [], [], GAP / 2
        for width in widths:
            self.column_left.append(x)
            self.column_right.append(x + width)
            x += width + GAP
        self.width = x - GAP / 2

    def _place_rows(self):
        """The middle of each item: near its neighbours within a layer, then below the band before."""
        self.middle = [0.0] * len(self.heights)
        self.room = {}
        for number, layer in enumerate(self.layers):
            height = sum(self.heights[item] + BOX_GAP for item in layer)
            band, y = number // self.per_band, -height / 2
            self.room[band] = max(self.room.get(band, 0.0), 1.1 * height + 4 * BOX_GAP)
            for item in layer:
                self.middle[item] = y + self.heights[item] / 2
                y += self.heights[item] + BOX_GAP
        for sweep in range(10 if self.count <= 200 else 4):
            for layer in self.layers if sweep % 2 == 0 else reversed(self.layers):
                self._settle_layer(layer, (self.left, self.right) if sweep > 5 else
                                   (self.left,) if sweep % 2 == 0 else (self.right,))
        self._stack_bands()
        self.boxes = [Box(self._box_left(item), self.middle[item] - size.height / 2, *size)
                      for item, size in enumerate(self.sizes)]

    def _box_left(self, item):
        left, right = self.column_left[self.column(item)], self.column_right[self.column(item)]
        return (left + right - self.sizes[item].width) / 2

    def _settle_layer(self, layer, sides):
        wanted, weights, apart = [], [], []
        for i, item in enumerate(layer):
            near = [self.middle[other] + other_y - y for side in sides for other, y, other_y in side[item]]
            wanted.append(sum(near) / len(near) if near else self.middle[item])
            weights.append(1.0 if item < self.count else 3.0)
            if i:
                last = layer[i - 1]
                gap = BOX_GAP if item < self.count or last < self.count else 0
                apart.append((self.heights[last] + self.heights[item]) / 2 + gap)
        room = self.room[self.band(layer[0])] / 2
        low, high = self.heights[layer[0]] / 2 - room, room - self.heights[layer[-1]] / 2
        for item, middle in zip(layer, settle(wanted, weights, apart, low, high)):
            self.middle[item] = middle

    def _stack_bands(self):
        self._assign_tracks()
        self.channel, y = {}, 0.0
        for band in range(-(-self.depth // self.per_band)):
            items = [item for item in range(len(self.heights)) if self.band(item) == band]
            self.channel[band] = y + TRACK
            y += TRACK * min(self.tracks_in.get(band, 0), TRACKS) + BOX_GAP
            top = min(self.middle[item] - self.heights[item] / 2 for item in items)
            bottom = max(self.middle[item] + self.heights[item] / 2 for item in items)
            for item in items:
                self.middle[item] += y - top
            y += bottom - top + BOX_GAP
        self.height = y

    def _assign_tracks(self):
        """Edges between bands that leave one place for one band share a track."""
        tracks, self.tracks_in, self.track = {}, {}, {}
        for number, edge in enumerate(self.edges):
            band = self.band(edge.target)
            if band != self.band(edge.source):
                key = band, edge.source, edge.out_y
                if key not in tracks:
                    tracks[key] = self.tracks_in.get(band, 0)
                    self.tracks_in[band] = tracks[key] + 1
                self.track[number] = tracks[key] % TRACKS

    def path(self, number):
        edge = self.edges[number]
        source, target = self.boxes[edge.source], self.boxes[edge.target]
        start = source.x + source.width, source.y + edge.out_y
        end = target.x, target.y + edge.in_y
        points = _Path(start)
        if number in self.track:
            self._channel_path(points, number, start, end)
        elif self._is_back(edge):
            self._back_path(points, number, start, end)
        else:
            self._forward_path(points, number, end)
        return points.text()

    def _forward_path(self, points, number, end):
        edge = self.edges[number]
        points.line(self.column_right[self.column(edge.source)], points.y)
        for lane in self.lanes.get(number, ()):
            points.curve(self.column_left[self.column(lane)], self.middle[lane])
            points.line(self.column_right[self.column(lane)], self.middle[lane])
        points.curve(self.column_left[self.column(edge.target)], end[1])
        points.line(*end)

    def _back_path(self, points, number, start, end):
        """Out to the right, round to a lane beside the box, leftwards, and round again."""
        edge, turn = self.edges[number], GAP * 0.35
        points.line(self.column_right[self.column(edge.source)], start[1])
        for i, lane in enumerate(self.lanes.get(number, ())):
            bend = turn if i == 0 else None
            points.curve(self.column_right[self.column(lane)], self.middle[lane], bend)
            points.line(self.column_left[self.column(lane)], self.middle[lane])
        points.curve(self.column_left[self.column(edge.target)], end[1], -turn)
        points.line(*end)

    def _channel_path(self, points, number, start, end):
        edge, track = self.edges[number], self.track[number]
        offset = 8 + track * (GAP - 24) / TRACKS
        x_out = self.column_right[self.column(edge.source)] + offset
        x_in = self.column_left[self.column(edge.target)] - 16 - (GAP - 24) * track / TRACKS
        y = self.channel[self.band(edge.target)] + TRACK * track
        for x, y in ((x_out, start[1]), (x_out, y), (x_in, y), (x_in, end[1]), end):
            points.line(x, y)


class _Path:
    """An SVG path that is drawn piece by piece."""

    def __init__(self, start):
        self.x, self.y = start
        self.pieces = ['M%.1f %.1f' % start]

    def line(self, x, y):
        if abs(x - self.x) > 0.05 or abs(y - self.y) > 0.05:
            self.pieces.append('L%.1f %.1f' % (x, y))
        self.x, self.y = x, y

    def curve(self, x, y, bend=None):
        """A curve that leaves and arrives level; `bend` is how far a turn swings out."""
        out, into = ((x - self.x) / 2, (self.x - x) / 2) if bend is None else (bend, bend)
        self.pieces.append('C%.1f %.1f %.1f %.1f %.1f %.1f' % (self.x + out, self.y, x + into, y, x, y))
        self.x, self.y = x, y

    def text(self):
        return ''.join(self.pieces)
