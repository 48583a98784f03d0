"""Pictures of graphs as SVG: the graph, and with an answer the folded one below it."""
import re
from typing import NamedTuple
from xml.sax.saxutils import escape

from . import tables
from .explain import node_fate, wire_fate
from .folded import Folded
from .layout import Box, Edge, Size, layout
from .values import format_value

MARGIN = 16
NAME_WIDTH, TEXT_WIDTH = 7.3, 6.1   # of a letter, in the bold 12 px and the plain 10 px face
ROW = 14
LONGEST = 2 + 2 * tables.TEXT_BYTES  # letters of a name or value that are shown: of each text all

STYLE = """
text { font: 10px "DejaVu Sans Mono", Menlo, Consolas, monospace; fill: #222; }
.name { font-size: 12px; font-weight: bold; }
.class { fill: #666; }
.value { font-weight: bold; fill: #0b5c2e; }
.heading { font: bold 14px sans-serif; }
.out { text-anchor: end; }
.box { fill: #fff; stroke: #333; stroke-width: 1.5; }
.inner { fill: none; stroke: none; }
.literal .box { fill: #e3f4e8; stroke: #0b7a3b; }
.literal .inner { stroke: #0b7a3b; stroke-width: 1; }
.removed .box { fill: #f3f3f3; stroke: #a33; stroke-dasharray: 6 4; }
.removed text { fill: #8a5a5a; }
.taken .box { fill: #f3f3f3; stroke: #777; stroke-dasharray: 2 3; }
.taken text { fill: #777; }
.wire { fill: none; stroke: #555; stroke-width: 1.3; stroke-linejoin: round; marker-end: url(#arrow); }
.wire.dropped { stroke: #c06060; stroke-dasharray: 2 4; }
.wire.moved { stroke: #8a6d1a; stroke-dasharray: 9 3 2 3; }
.wire.new { stroke: #1357b8; stroke-width: 2.2; }
.wire.fault { stroke: #c00; stroke-width: 3; stroke-dasharray: 12 3; }
"""

ARROW = ('<marker id="arrow" viewBox="0 0 8 8" refX="8" refY="4" markerWidth="8" markerHeight="8" '
         'markerUnits="userSpaceOnUse" orient="auto"><path d="M0 0.8L8 4L0 7.2z" fill="#555"/></marker>')

BOX_LEGEND = {'kept': 'kept', 'literal': 'made a literal', 'removed': 'removed', 'taken': 'feeds nothing: taken'}
WIRE_LEGEND = {'same': 'wire as it was', 'dropped': 'wire dropped', 'moved': 'wire led elsewhere', 'new': 'wire that is new'}


class Card(NamedTuple):
    """A node's box: `left` and `right` have the label of each port there, `tip` is what a pointer shows."""
    node: int
    style: str
    name: str
    subtitle: str
    value: str
    left: dict
    right: dict
    tip: str

    @property
    def rows_top(self):
        return 50 if self.value else 36

    @property
    def size(self):
        lefts, rights = list(self.left.values()), list(self.right.values())
        rows = max(len(lefts), len(rights))
        labels = max(map(len, lefts), default=0) + max(map(len, rights), default=0) + 2
        inner = max(NAME_WIDTH * len(self.name), TEXT_WIDTH * len(self.subtitle), NAME_WIDTH * len(self.value),
                    TEXT_WIDTH * labels)
        return Size(max(70, round(inner) + 16), self.rows_top + ROW * rows + 6)

    def y_of(self, port, labels):
        """Where a wire meets the box, from its top."""
        return self.rows_top + ROW * list(labels).index(port) + ROW / 2


def shown(text):
    return text if len(text) <= LONGEST else text[:LONGEST - 1] + '…'


def cards_of(graph, wires, folded, after):
    """The cards of a panel: all nodes, or after folding those that remain."""
    into, out_of = {}, {}
    for wire in wires:
        into.setdefault(wire.target, set()).add(wire.target_port)
        out_of.setdefault(wire.source, set()).add(wire.source_port)
    values = {}
    for item in graph.properties:
        values.setdefault(item.node, {})[item.port] = item.value
    cards = []
    for node in range(len(graph.nodes)):
        if not after or folded.remains(node):
            made = after and folded.is_literal(node)
            inputs = {} if made else values.get(node, {})
            left = {port: _input_label(port, inputs.get(port)) for port in sorted(into.get(node, set()) | set(inputs))}
            right = {port: tables.PORTS[port].name for port in sorted(out_of.get(node, ()))}
            cards.append(_card(graph, node, folded, left, right))
    return cards


def _input_label(port, value):
    return tables.PORTS[port].name + ('' if value is None else '=' + shown(format_value(value)))


def _card(graph, node, folded, left, right):
    subtitle = '%d %s%s' % (node, graph.nodes[node].node_class.name, graph.nodes[node].flag_words)
    style, value, tip = 'kept', '', graph.names[node]
    if folded is not None:
        tip = '%s: %s' % (graph.names[node], node_fate(folded, node))
        style = _style(folded, node)
        known = folded.answer.known.get(node)
        value = '' if known is None else '= ' + shown(format_value(known))
    return Card(node, style, shown(graph.names[node]), subtitle, value, left, right, tip)


def _style(folded, node):
    if not folded.remains(node):
        return 'taken' if node in folded.swept else 'removed'
    return 'literal' if folded.is_literal(node) else 'kept'


def draw(graph, name, answer=None, fault=None):
    """The picture; `fault` is the number of a wire to point out. Raises NotAnAnswer where the answer is not the graph's."""
    boxes, wires = {'kept': 'node: number, class, values and ports'}, {'same': 'wire'}
    if answer is None:
        styles = [('fault' if number == fault else 'same', graph.wire_text(wire)) for number, wire in enumerate(graph.wires)]
        panels = [_panel(name, cards_of(graph, graph.wires, None, False), graph.wires, styles)]
    else:
        folded = Folded(graph, answer)
        boxes = {style: words for style, words in BOX_LEGEND.items() if style != 'taken' or folded.swept}
        wires = WIRE_LEGEND
        panels = [_panel('%s, before folding' % name, cards_of(graph, graph.wires, folded, False), graph.wires,
                         _styles_before(folded)),
                  _panel('%s, after folding' % name, cards_of(graph, answer.wires, folded, True), answer.wires,
                         _styles_after(folded))]
    if fault is not None:
        wires = {**wires, 'fault': 'wire that is refused'}
    return _document(name, [_legend(boxes, wires)] + panels)


def _document(name, parts):
    """Parts one below the other; each has lines, width and height."""
    width = max(part[1] for part in parts) + 2 * MARGIN
    lines, y = [], MARGIN
    for part, _, height in parts:
        lines += ['<g transform="translate(%d %d)">' % (MARGIN, y), *part, '</g>']
        y += height + MARGIN
    head = ['<?xml version="1.0" encoding="UTF-8"?>',
            # spaces of texts stay as many as they are
            '<svg xmlns="http://www.w3.org/2000/svg" xml:space="preserve" width="%d" height="%d" viewBox="0 0 %d %d">' % (
                width, y, width, y),
            '<title>%s</title>' % _text(name), '<style>%s</style>' % STYLE, '<defs>%s</defs>' % ARROW,
            '<rect width="100%" height="100%" fill="#fff"/>']
    return '\n'.join(head + lines + ['</svg>']) + '\n'


def _text(text):
    return escape(re.sub(r'[\x00-\x08\x0b\x0c\x0e-\x1f\ufffe\uffff\ud800-\udfff]', '?', text))


def _panel(heading, cards, wires, styles):
    """Lines, width and height of a graph with its heading."""
    place = {card.node: i for i, card in enumerate(cards)}
    edges = [Edge(place[wire.source], place[wire.target],
                  cards[place[wire.source]].y_of(wire.source_port, cards[place[wire.source]].right),
                  cards[place[wire.target]].y_of(wire.target_port, cards[place[wire.target]].left)) for wire in wires]
    result = layout([card.size for card in cards], edges)
    lines = ['<text class="heading" x="0" y="14">%s</text>' % _text(heading),
             '<g class="panel" transform="translate(0 24)">']
    for (style, tip), path in zip(styles, result.paths):
        lines.append('<path class="wire %s" d="%s"><title>%s</title></path>' % (style, path, _text(tip)))
    for card, box in zip(cards, result.boxes):
        lines += _card_lines(card, box)
    return lines + ['</g>'], max(result.width, 9 * len(heading)), result.height + 24


def _styles_before(folded):
    """The style of each wire of the graph, and what a pointer shows."""
    graph, styles = folded.graph, []
    for wire, change in zip(graph.wires, folded.changes):
        style = 'dropped' if not change.wires else 'same' if change.wires == [wire] else 'moved'
        styles.append((style, '%s: %s' % (graph.wire_text(wire), wire_fate(graph, wire, change))))
    return styles


def _styles_after(folded):
    before = set(folded.graph.wires)
    return [('same' if wire in before else 'new', folded.graph.wire_text(wire)) for wire in folded.answer.wires]


def _card_lines(card, box):
    left, right = box.x + 8, box.x + box.width - 8
    labels = [('name', left, 17, card.name), ('class', left, 30, card.subtitle), ('value', left, 44, card.value)]
    for ports, x, style in ((card.left, left, 'in'), (card.right, right, 'out')):
        labels += [(style, x, card.y_of(port, ports) + 3.5, text) for port, text in ports.items()]
    return ['<g class="node %s" data-node="%d">' % (card.style, card.node), '<title>%s</title>' % _text(card.tip),
            *_box_lines(card.style, box),
            *('<text class="%s" x="%.1f" y="%.1f">%s</text>' % (style, x, box.y + y, _text(text))
              for style, x, y, text in labels if text), '</g>']


def _box_lines(style, box):
    """Kept nodes have corners, literals are round with a double line, removed nodes are dashed, taken ones dotted."""
    corner = min(14, box.height / 2) if style == 'literal' else 3
    rect = '<rect class="%s" x="%.1f" y="%.1f" width="%.1f" height="%.1f" rx="%d"/>'
    lines = [rect % ('box', box.x, box.y, box.width, box.height, corner)]
    if style == 'literal':
        lines.append(rect % ('inner', box.x + 3, box.y + 3, box.width - 6, box.height - 6, corner - 3))
    return lines


def _legend(boxes, wires):
    """Lines, width and height of a sample of each style, with its words."""
    lines, x = ['<g class="legend">'], 0
    for style, words in boxes.items():
        lines += ['<g class="%s">' % style, *_box_lines(style, Box(x, 2, 34, 20)), '</g>']
        lines.append('<text x="%d" y="16">%s</text>' % (x + 42, words))
        x += 42 + TEXT_WIDTH * len(words) + 24
    for style, words in wires.items():
        lines.append('<path class="wire %s" d="M%d 12L%d 12"/>' % (style, x, x + 40))
        lines.append('<text x="%d" y="16">%s</text>' % (x + 48, words))
        x += 48 + TEXT_WIDTH * len(words) + 24
    return lines + ['</g>'], x, 26
