"""The text form of a graph. Lines stand in any order; those of one kind keep theirs in the records.

    # a comment
    steps: Literal Value=200            a node: name, class, then `nofold`, `label` and properties where it has some
    scaled: Multiply nofold InputB=2.5  `nofold`: it is left as it is
    spare: Literal label Value=0.98     `label`: it is named by a label, and stays though it feeds nothing
    scaled.InputB = 2.5                 a property on a line of its own
    steps -> scaled.InputA              a wire; the source's port is Output unless written
    way.ExecOutA -> pen.Exec
    row Multiply(Int, Float)            a row of the table; Unwired for an input without wire and property
    annihilator LogicalAnd

Values: 200 an Int (0x1F too), 2.5 a Float (inf, -inf, nan and nan(0x7FF8000000000001) too), true and false,
(1.0, 2.0, 3.0) a Vector, Rotator(..) and Quat(..) and Color(..) with three, four and four parts,
"denim" a Text of at most 16 characters from space to ~, with \\" for a quote and \\\\ for a backslash.
"""
import difflib
import re
from typing import NamedTuple

from . import tables
from .records import Graph, Node, Property, Row, Wire, encode
from .values import BadValue, format_value, read_value

TOKEN = re.compile(r'\s*(?:(#.*)|(->|[-+]?\.?\d[\w.]*(?:(?<=[eE])[-+]\d\w*)?|-inf\b|[^\W\d]\w*|[:=.(),]'
                   r'|"(?:[^"\\]|\\.)*")|(\S))')
NAME = re.compile(r'[^\W\d]\w*')
UNCLOSED = '"'
WORDS = ('row', 'annihilator')
FLAGS = {name.lower(): bit for name, bit in tables.FLAGS.items()}
LONGEST_LINE = 100


class Problem(NamedTuple):
    line: int
    column: int
    message: str


class BadText(Exception):
    """Text that says no graph: its problems, in the order of lines."""

    def __init__(self, problems):
        super().__init__(problems)
        self.problems = sorted(problems)


class _Stop(Exception):
    """The line at hand says nothing; the token at fault, and what is wrong."""


def near(word, choices):
    """`; did you mean 'left'?` where one of the choices is near, else nothing."""
    choices = list(choices)
    by_small = {choice.lower(): choice for choice in choices}
    found = difflib.get_close_matches(word.lower(), by_small, 1, 0.6)
    if not found:
        # the end of a longer name, as And of LogicalAnd
        found = [small for small in by_small if len(word) > 2 and small.endswith(word.lower())]
    return "; did you mean '%s'?" % by_small[found[0]] if found else ''


class _Line:
    """The tokens of a line, taken from the front."""

    def __init__(self, text):
        self.tokens, self.columns, self.at = [], [], 0
        end = 0
        for match in TOKEN.finditer(text):
            token = match.group(2) or match.group(3)
            if match.group(3) and token != UNCLOSED:
                raise _Stop(match.start(3) + 1, "'%s' has no meaning here" % token)
            if token:
                end = match.end()
                self.tokens.append(token)
                self.columns.append(end - len(token) + 1)
            if token == UNCLOSED:
                break
        self.columns.append(end + 1)

    def peek(self):
        """The token at the front; the text that an unclosed quote begins is none."""
        token = self.tokens[self.at] if self.at < len(self.tokens) else ''
        if token == UNCLOSED:
            self.stop('this quote is not closed on its line')
        return token

    @property
    def column(self):
        return self.columns[min(self.at, len(self.columns) - 1)]

    def stop(self, message):
        raise _Stop(self.column, message)

    def unexpected(self, wanted):
        self.stop('expected %s, found %s' % (wanted, "'%s'" % self.peek() if self.peek() else 'the end of the line'))

    def take(self, mark):
        if self.peek() != mark:
            self.unexpected("'%s'" % mark)
        self.at += 1

    def name(self, wanted):
        if not NAME.fullmatch(self.peek()):
            self.unexpected(wanted)
        self.at += 1
        return self.tokens[self.at - 1], self.columns[self.at - 1]

    def entry(self, table, wanted, others=()):
        """An entry of a table by its name; `others` are words that could have stood here too."""
        entries = {entry.name: entry for entry in table}
        if NAME.fullmatch(self.peek()) and self.peek() not in entries:
            self.stop("no %s is called '%s'%s" % (wanted, self.peek(), near(self.peek(), [*entries, *others])))
        return entries[self.name('a ' + wanted)[0]]

    def value(self):
        self.peek()
        try:
            value, used = read_value(self.tokens[self.at:])
        except BadValue as bad:
            self.at = min(self.at + bad.part, len(self.tokens))
            self.peek()
            raise _Stop(self.column + bad.within, str(bad)) from None
        self.at += used
        return value

    def end(self):
        if self.peek():
            self.stop("'%s' is one thing too many on this line" % self.peek())


class _Parser:
    """Takes up lines; names of nodes are looked up when all lines are read."""

    def __init__(self):
        self.graph, self.problems = Graph(), []
        self.numbers, self.names, self.lines = {}, [], {}
        self.wires, self.properties = [], []

    def read(self, text):
        for number, line in enumerate(text.split('\n'), 1):
            try:
                self.number = number
                self._read_line(_Line(line.rstrip('\r')))
            except _Stop as stop:
                self.problems.append(Problem(number, *stop.args))
        self._resolve()
        if self.problems:
            raise BadText(self.problems)
        self.graph.names = self.names
        return self.graph

    def _read_line(self, line):
        if not line.tokens:
            return
        if line.peek() in WORDS and (line.tokens + [''])[1] not in (':', '->', '.'):
            word, _ = line.name('')
            self._read_row(line) if word == 'row' else self._read_annihilator(line)
            line.end()
            return
        name = line.name("a node's name, 'row' or 'annihilator'")
        if line.peek() == ':':
            self._read_node(line, *name)
        elif line.peek() in ('.', '->'):
            self._read_wire_or_property(line, name)
        else:
            line.unexpected("':' with a class, '->' with a target, or '.' with a port behind '%s'" % name[0])
        line.end()

    def _read_node(self, line, name, column):
        if name in WORDS:
            raise _Stop(column, "'%s' begins a line of another kind and cannot name a node" % name)
        if name in self.numbers:
            raise _Stop(column, "a node called '%s' stands on line %d already" % (name, self.lines[name]))
        self._count(self.graph.nodes, 'NODES', column)
        # the name is taken even where the class is wrong, so that its wires are not wrong too
        self.numbers[name], self.lines[name] = len(self.names), self.number
        self.names.append(name)
        self.graph.nodes.append(Node(tables.OTHER, 0))
        line.take(':')
        node_class = line.entry(tables.CLASSES, 'class')
        self.graph.nodes[-1] = Node(node_class.number, self._read_flags(line))
        while line.peek():
            port_column = line.column
            if line.peek() in FLAGS:
                line.stop("'%s' stands before the properties" % line.peek())
            port = line.entry(tables.PORTS, 'port', FLAGS)
            self._read_property(line, (name, column), port, port_column)

    def _read_flags(self, line):
        flags = 0
        while line.peek() in FLAGS:
            if flags & FLAGS[line.peek()]:
                line.stop("'%s' stands there already" % line.peek())
            flags |= FLAGS[line.name('a flag')[0]]
        return flags

    def _read_property(self, line, name, port, column):
        line.take('=')
        self.properties.append((self.number, column, name, port.number, line.value()))

    def _read_wire_or_property(self, line, name):
        port, column = tables.PORTS[tables.OUTPUT], line.column
        if line.peek() == '.':
            line.take('.')
            column = line.column
            port = line.entry(tables.PORTS, 'port')
        if line.peek() == '=':
            self._read_property(line, name, port, column)
            return
        if line.peek() != '->':
            line.unexpected("'->' with a target or '=' with a value")
        self._wire_port(port, column)
        line.take('->')
        target = line.name("a node's name")
        line.take('.')
        column = line.column
        target_port = line.entry(tables.PORTS, 'port')
        self._wire_port(target_port, column)
        self.wires.append((self.number, name, port.number, target, target_port.number))

    def _wire_port(self, port, column):
        if port.number == tables.VALUE:
            raise _Stop(column, 'no wire has the port Value: it is for properties')

    def _read_row(self, line):
        column = line.column
        node_class = line.entry(tables.CLASSES, 'class')
        length = tables.row_length(node_class)
        if not length:
            raise _Stop(column, 'no row is for %s' % node_class.name)
        line.take('(')
        variants = [self._read_variant(line, node_class)]
        while line.peek() == ',':
            line.take(',')
            variants.append(self._read_variant(line, node_class))
        if len(variants) != length:
            raise _Stop(column, 'a row of %s has %d variant%s, not %d' % (
                node_class.name, length, '' if length == 1 else 's', len(variants)))
        line.take(')')
        self._count(self.graph.rows, 'ROWS', column)
        padding = (tables.UNWIRED.number,) * (tables.ROW_VARIANTS - length)
        self.graph.rows.append(Row(node_class.number, tuple(variants) + padding))

    def _read_variant(self, line, node_class):
        column = line.column
        variant = line.entry(tables.VARIANTS, 'variant')
        if variant is tables.TEXT and node_class.number in tables.ORDER_GATES:
            raise _Stop(column, 'no row of %s names Text: texts have no order' % node_class.name)
        return variant.number

    def _read_annihilator(self, line):
        column = line.column
        node_class = line.entry(tables.CLASSES, 'class')
        if node_class.number not in tables.ANNIHILATORS:
            names = ' and '.join(tables.CLASSES[number].name for number in tables.ANNIHILATORS)
            raise _Stop(column, 'annihilators are for %s' % names)
        if node_class.number in self.graph.annihilators:
            raise _Stop(column, '%s has an annihilator already' % node_class.name)
        self.graph.annihilators.append(node_class.number)

    def _count(self, part, limit, column):
        if len(part) == tables.LIMITS[limit]:
            raise _Stop(column, 'a graph has at most {:,} {}'.format(tables.LIMITS[limit], limit.lower()))

    def _resolve(self):
        """Gives wires and properties the numbers of their nodes."""
        for wire in self.wires:
            self._try(wire[0], self._add_wire, *wire[1:])
        seen = {}
        for item in self.properties:
            self._try(item[0], self._add_property, seen, *item)

    def _try(self, number, add, *args):
        try:
            add(*args)
        except _Stop as stop:
            self.problems.append(Problem(number, *stop.args))

    def _node(self, name, column):
        if name not in self.numbers:
            raise _Stop(column, "no node is called '%s'%s" % (name, near(name, self.numbers)))
        return self.numbers[name]

    def _add_wire(self, source, source_port, target, target_port):
        self._count(self.graph.wires, 'WIRES', source[1])
        self.graph.wires.append(Wire(self._node(*source), source_port, self._node(*target), target_port))

    def _add_property(self, seen, line, column, name, port, value):
        node = self._node(*name)
        if (node, port) in seen:
            place = '%s.%s' % (name[0], tables.PORTS[port].name)
            raise _Stop(column, '%s has a value already, on line %d' % (place, seen[node, port]))
        self._count(self.graph.properties, 'PROPERTIES', column)
        seen[node, port] = line
        self.graph.properties.append(Property(node, port, value))


def parse(text):
    """The graph that a text says, with the text's names; raises BadText."""
    graph = _Parser().read(text)
    length = len(encode(graph))
    if length > tables.LIMITS['INPUT']:
        last = text.rstrip('\n').count('\n') + 1
        raise BadText([Problem(last, 1, 'the graph has {:,} bytes of records, and an input at most {:,}'.format(
            length, tables.LIMITS['INPUT']))])
    return graph


def write(graph):
    """A graph as text."""
    sections = [_nodes(graph), _properties(graph), _wires(graph), _rows(graph), _annihilators(graph)]
    return '\n'.join(''.join(line + '\n' for line in section) for section in sections if section)


def _by_node(graph):
    """The variants whose properties stand in the order of nodes; these go with their nodes."""
    last, ordered = {}, {kind.variant for kind in tables.PROPERTIES}
    for node, _, value in graph.properties:
        if node < last.get(value.variant, 0):
            ordered.discard(value.variant)
        last[value.variant] = node
    return ordered


def _nodes(graph):
    beside, ordered = {}, _by_node(graph)
    for item in graph.properties:
        if item.value.variant in ordered:
            beside.setdefault(item.node, []).append(item)
    lines = []
    for number, node in enumerate(graph.nodes):
        head = '%s: %s%s' % (graph.names[number], node.node_class.name, node.flag_words)
        items = beside.get(number, [])
        full = head + ''.join(' %s=%s' % (tables.PORTS[item.port].name, format_value(item.value)) for item in items)
        lines += [full] if len(full) <= LONGEST_LINE else [head] + [_property_line(graph, item) for item in items]
    return lines


def _property_line(graph, item):
    return '%s = %s' % (graph.end(item.node, item.port), format_value(item.value))


def _properties(graph):
    ordered = _by_node(graph)
    return [_property_line(graph, item) for item in graph.properties if item.value.variant not in ordered]


def _wires(graph):
    return [graph.wire_text(wire) for wire in graph.wires]


def _rows(graph):
    lines = []
    for row in graph.rows:
        node_class = tables.CLASSES[row.number_of_class]
        variants = row.variants[:tables.row_length(node_class)]
        lines.append('row %s(%s)' % (node_class.name, ', '.join(tables.VARIANTS[v].name for v in variants)))
    return lines


def _annihilators(graph):
    return ['annihilator ' + tables.CLASSES[number].name for number in graph.annihilators]
