"""Graphs and answers as the records of document 01: reading them, with questions 1 to 8 and 12, and writing them."""
import struct
from typing import NamedTuple

from . import tables
from .values import Value, is_text


class Node(NamedTuple):
    number_of_class: int
    flags: int

    @property
    def node_class(self):
        return tables.CLASSES[self.number_of_class]

    @property
    def nofold(self):
        return bool(self.flags & tables.NOFOLD)

    @property
    def label(self):
        return bool(self.flags & tables.LABEL)

    @property
    def flag_words(self):
        """The set bits of the flags byte, each by its name after a space."""
        return ''.join(' ' + name.lower() for name, bit in tables.FLAGS.items() if self.flags & bit)


class Wire(NamedTuple):
    source: int
    source_port: int
    target: int
    target_port: int


class Property(NamedTuple):
    node: int
    port: int
    value: Value


class Row(NamedTuple):
    number_of_class: int
    variants: tuple


class Graph:
    """The parts of a graph, each in the order of its records. `names` has a name for each node."""

    def __init__(self):
        self.nodes, self.wires, self.properties, self.rows, self.annihilators = [], [], [], [], []
        self._names = None

    @property
    def names(self):
        if self._names is None:
            self._names = [default_name(node, number) for number, node in enumerate(self.nodes)]
        return self._names

    @names.setter
    def names(self, names):
        self._names = names

    def end(self, node, port):
        """The end of a wire, or the place of a property, by name."""
        return '%s.%s' % (self.names[node], tables.PORTS[port].name)

    def source(self, wire):
        """The source of a wire by name; Output goes without saying."""
        output = wire.source_port == tables.OUTPUT
        return self.names[wire.source] if output else self.end(wire.source, wire.source_port)

    def wire_text(self, wire):
        return '%s -> %s' % (self.source(wire), self.end(wire.target, wire.target_port))


class Fate(NamedTuple):
    """What became of a node: its kind (kept, removed or a literal), and a literal's value."""
    kind: tables.Kind
    value: Value = None


class Answer(NamedTuple):
    """`known` has the known values by node, `fates` one fate for each node."""
    known: dict
    fates: list
    wires: list


class Refused(Exception):
    """A refusal by questions 1 to 8 and 12, with what was expected and found; `record` has the record's bytes, `ordinal` its
    place."""

    def __init__(self, number, place, expected, found, record=b'', ordinal=''):
        super().__init__('refused %d at %d' % (number, place))
        self.number, self.place, self.expected, self.found = number, place, expected, found
        self.record, self.ordinal = record, ordinal


class NotAnAnswer(Exception):
    """Bytes that are no answer to the graph."""


def default_name(node, number):
    """The class in small letters with the node's number, as logical_and4."""
    words = ''.join('_' + letter.lower() if letter.isupper() else letter for letter in node.node_class.name)
    return '%s%d' % (words[1:], number)


def encode(graph):
    """The records of a graph, kinds rising."""
    kinds = {kind.variant: kind for kind in tables.PROPERTIES}
    records = [(tables.NODE, node) for node in graph.nodes]
    records += [(tables.WIRE, wire) for wire in graph.wires]
    records += [(kinds[p.value.variant], (p.node, p.port, *p.value.words)) for p in graph.properties]
    records += [(tables.ROW, (row.number_of_class, *row.variants)) for row in graph.rows]
    records += [(tables.ANNIHILATOR, (number_of_class,)) for number_of_class in graph.annihilators]
    records.sort(key=lambda record: record[0].number)
    return b''.join(struct.pack(kind.format, kind.number, *fields) for kind, fields in records)


def decode(data):
    """The graph that an input says; raises Refused with the first of questions 1 to 8 and 12 that is answered with no."""
    if len(data) > tables.LIMITS['INPUT']:
        raise Refused(1, 0, 'at most {:,} bytes'.format(tables.LIMITS['INPUT']), '{:,} bytes'.format(len(data)))
    reader = _Reader(data)
    while reader.at < len(data):
        reader.take()
    return reader.graph


def listed(names, numbers):
    """`0 (Output) to 9 (InputC)`, `12 (LogicalAnd) or 13 (LogicalOr)`: what a field may have."""
    numbers = list(numbers)
    if len(numbers) > 3:
        return '%d (%s) to %d (%s)' % (numbers[0], names[numbers[0]].name, numbers[-1], names[numbers[-1]].name)
    return ' or '.join('%d (%s)' % (number, names[number].name) for number in numbers)


def found_byte(byte, offset):
    return '%d (byte %02X at offset %d)' % (byte, byte, offset)


class _Reader:
    """Asks questions 2 to 8 and 12 of one record after the other. A question gives None, or what was expected and found."""

    def __init__(self, data):
        self.data, self.at, self.graph = data, 0, Graph()
        self.last_kind = None
        self.count = 0
        self.offsets = {}

    def take(self):
        questions = [(2, self._known_kind), (3, self._whole), (4, self._all_listed), (12, self._no_order_of_texts),
                     (5, self._in_order), (6, self._nodes_present), (7, self._first), (8, self._within_limits)]
        self.kind, self.fields = tables.GRAPH_KINDS.get(self.data[self.at]), ()
        for number, question in questions:
            fault = question()
            if fault is not None:
                raise Refused(number, self.at, *fault, self._record(), self._ordinal())
        self._add()
        self.last_kind = self.kind
        self.count += 1
        self.at += self.kind.length

    def _record(self):
        return self.data[self.at:self.at + (self.kind.length if self.kind else 1)]

    def _ordinal(self):
        kind = 'a record of no kind' if self.kind is None else kind_words(self.kind)
        return 'record %d from 0, %s' % (self.count, kind)

    def _known_kind(self):
        if self.kind is None:
            first, *_, last = tables.GRAPH_KINDS.values()
            return ('a kind from %02X (%s) to %02X (%s)' % (first.number, first.name, last.number, last.name),
                    '%02X' % self.data[self.at])
        return None

    def _whole(self):
        if len(self.data) - self.at < self.kind.length:
            return ('%d bytes for %s' % (self.kind.length, kind_words(self.kind)),
                    '%d before the input ends' % (len(self.data) - self.at))
        self.fields = struct.unpack_from(self.kind.format, self.data, self.at)[1:]
        return None

    def _offset_of(self, field):
        """The offset of a field in the input."""
        return self.at + struct.calcsize('<B' + ''.join(tables.FIELD_CODES[f] for f in self.kind.fields[:field]))

    def _all_listed(self):
        for i, (field, number) in enumerate(zip(self.kind.fields, self.fields)):
            expected = self._expected(field, i)
            if expected is not None and number not in expected[0]:
                return expected[1], found_byte(number, self._offset_of(i))
        return self._all_characters() if self.kind is tables.TEXT_PROPERTY else None

    def _all_characters(self):
        *_, length, chars = self.fields
        for i, byte in enumerate(chars):
            at = self._offset_of(len(self.fields) - 1) + i
            if i < length and byte not in tables.TEXT_CHARS:
                return ('a character from %d (space) to %d (~)' % (tables.TEXT_CHARS[0], tables.TEXT_CHARS[-1]),
                        found_byte(byte, at))
            if i >= length and byte:
                return '0 behind a text of %d character%s' % (length, '' if length == 1 else 's'), found_byte(byte, at)
        return None

    def _no_order_of_texts(self):
        if self.kind is not tables.ROW or self.fields[0] not in tables.ORDER_GATES:
            return None
        for i, (field, number) in enumerate(zip(self.kind.fields, self.fields)):
            if field == 'variant' and number == tables.TEXT.number:
                return ('a variant other than %d (%s), as %s is for what has an order' % (
                    number, tables.TEXT.name, tables.CLASSES[self.fields[0]].name), found_byte(number, self._offset_of(i)))
        return None

    def _expected(self, field, i):
        """The numbers that a field may have, and the same in words; None for a field that question 4 leaves."""
        if field == 'class':
            return self._expected_class()
        if field == 'flags':
            bits = ', '.join('%d: %s' % (bit, name.lower()) for name, bit in tables.FLAGS.items())
            return range(tables.LISTED_FLAGS + 1), 'flags 0 to %d (%s)' % (tables.LISTED_FLAGS, bits)
        if field == 'port':
            ports = tables.WIRE_PORTS if self.kind is tables.WIRE else tables.PORTS
            return range(len(ports)), 'a port from ' + listed(tables.PORTS, range(len(ports)))
        if field == 'bool':
            return range(2), 'a Bool, 0 or 1'
        if field == 'length':
            return range(tables.TEXT_BYTES + 1), 'a length from 0 to %d' % tables.TEXT_BYTES
        if field == 'variant':
            node_class = tables.CLASSES[self.fields[0]]
            length = tables.row_length(node_class)
            if i > length:
                return range(1), '0, as %s has %d input%s in a row' % (node_class.name, length, '' if length == 1 else 's')
            return range(len(tables.VARIANTS)), 'a variant from ' + listed(tables.VARIANTS, range(len(tables.VARIANTS)))
        return None

    def _expected_class(self):
        if self.kind is tables.NODE:
            classes = range(len(tables.CLASSES))
        elif self.kind is tables.ROW:
            classes = [c.number for c in tables.CLASSES if c.folding.has_rows]
        else:
            classes = list(tables.ANNIHILATORS)
        return classes, 'a class: ' + listed(tables.CLASSES, classes)

    def _in_order(self):
        if self.last_kind is not None and self.kind.number < self.last_kind.number:
            return ('kind %02X (%s) or higher, as in the record before' % (self.last_kind.number, self.last_kind.name),
                    'kind %02X (%s)' % (self.kind.number, self.kind.name))
        return None

    def _nodes_present(self):
        for i, (field, number) in enumerate(zip(self.kind.fields, self.fields)):
            if field == 'node' and number >= len(self.graph.nodes):
                count = len(self.graph.nodes)
                expected = 'a node from 0 to %d' % (count - 1) if count else 'no such record, as the graph has no nodes'
                return expected, 'node %d (at offset %d)' % (number, self._offset_of(i))
        return None

    def _key(self):
        """What may stand once: node and port of a property, the class of an annihilator."""
        return {'Property': self.fields[:2], 'Annihilator': self.fields[:1]}.get(self.kind.role)

    def _first(self):
        key = self._key()
        if key is None or key not in self.offsets:
            return None
        if self.kind is tables.ANNIHILATOR:
            return 'one annihilator of a class', 'a second of %s; the first is at offset %d' % (
                tables.CLASSES[key[0]].name, self.offsets[key])
        return 'one property of a node and port', 'a second of node %d, port %d (%s); the first is at offset %d' % (
            *key, tables.PORTS[key[1]].name, self.offsets[key])

    def _within_limits(self):
        limit = tables.ROLE_LIMITS.get(self.kind.role)
        if limit is not None and len(self._part()) >= limit:
            names = {'Node': 'nodes', 'Wire': 'wires', 'Property': 'properties', 'Row': 'rows'}
            return 'at most {:,} {}'.format(limit, names[self.kind.role]), 'one more'
        return None

    def _part(self):
        """The part of the graph that the record belongs to."""
        return {'Node': self.graph.nodes, 'Wire': self.graph.wires, 'Property': self.graph.properties,
                'Row': self.graph.rows, 'Annihilator': self.graph.annihilators}[self.kind.role]

    def _add(self):
        fields = self.fields
        item = {'Node': lambda: Node(*fields),
                'Wire': lambda: Wire(*fields),
                'Property': lambda: Property(*fields[:2], Value(self.kind.variant, fields[2:])),
                'Row': lambda: Row(fields[0], fields[1:]),
                'Annihilator': lambda: fields[0]}[self.kind.role]()
        self._part().append(item)
        if self._key() is not None:
            self.offsets[self._key()] = self.at


def kind_words(kind):
    """`a wire`, `an Int property`, `a fate (kept)`: a record of the kind."""
    name = {'Property': kind.name + ' property', 'Fate': 'fate (%s)' % kind.name}.get(kind.role, kind.name)
    return ('an ' if name[0] in 'aeiouAEIOU' else 'a ') + name


def decode_answer(data, graph):
    """The answer that bytes say; raises NotAnAnswer where they cannot be an answer to the graph."""
    answer = Answer({}, [], [])
    at = 0
    while at < len(data):
        kind = tables.FATE_KINDS.get(data[at]) or tables.GRAPH_KINDS.get(data[at])
        if kind is None or kind.role not in ('Fate', 'Property', 'Wire'):
            raise NotAnAnswer('at offset %d: %02X is no kind of record of an answer' % (at, data[at]))
        if at + kind.length > len(data):
            raise NotAnAnswer('at offset %d: %s is cut off' % (at, kind_words(kind)))
        try:
            _add_to_answer(answer, graph, kind, struct.unpack_from(kind.format, data, at)[1:])
        except NotAnAnswer as wrong:
            raise NotAnAnswer('at offset %d: %s' % (at, wrong)) from None
        at += kind.length
    if len(answer.fates) != len(graph.nodes):
        raise NotAnAnswer('it has %d fates for %d nodes' % (len(answer.fates), len(graph.nodes)))
    return answer


def _add_to_answer(answer, graph, kind, fields):
    nodes = [number for field, number in zip(kind.fields, fields) if field == 'node']
    if max(nodes) >= len(graph.nodes):
        raise NotAnAnswer('node %d is not in the graph' % max(nodes))
    if kind.role == 'Property':
        if answer.fates or answer.wires or nodes[0] <= next(reversed(answer.known), -1):
            raise NotAnAnswer('a known value out of order')
        if fields[1] != tables.VALUE:
            raise NotAnAnswer('a known value with port %d' % fields[1])
        if kind is tables.TEXT_PROPERTY and not is_text(*fields[2:]):
            raise NotAnAnswer('a known text that is none')
        answer.known[nodes[0]] = Value(kind.variant, fields[2:])
    elif kind.role == 'Fate':
        if nodes[0] != len(answer.fates) or answer.wires:
            raise NotAnAnswer('the fate of node %d stands where that of node %d should' % (nodes[0], len(answer.fates)))
        answer.fates.append(Fate(kind, Value(kind.variant, fields[1:]) if kind.variant else None))
    else:
        if any(not number < len(tables.WIRE_PORTS) for number in (fields[1], fields[3])):
            raise NotAnAnswer('a wire with a port that no wire has')
        answer.wires.append(Wire(*fields))
