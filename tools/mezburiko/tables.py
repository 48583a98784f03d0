#!/usr/bin/env python3
"""What document 01 lists: kinds of records, classes, ports, variants, flags, limits and refusals.

This is the one table of the tools. `tables.py --rust` prints it as Rust, for the programs under compare/;
`tests/graph_tool` holds it to crates/ir. A `constant` is the name in crates/ir, a `name` the one in the text form.
"""
import struct
import sys
from typing import NamedTuple


class Port(NamedTuple):
    number: int
    constant: str
    name: str


class Folding(NamedTuple):
    """How the nodes of a class fold: the ports of the inputs that decide it, and whether rows name the class."""
    name: str
    inputs: tuple
    has_rows: bool


class Class(NamedTuple):
    number: int
    constant: str
    name: str
    folding: Folding


class Variant(NamedTuple):
    """A variant of an operand; `parts` names the numbers of its value."""
    number: int
    constant: str
    name: str
    parts: tuple


class Kind(NamedTuple):
    """A kind of record: what it says (`role`), and the fields of its body."""
    number: int
    constant: str
    name: str
    role: str
    fields: tuple
    variant: Variant = None

    @property
    def length(self):
        """The length of the record with its kind byte."""
        return struct.calcsize(self.format)

    @property
    def format(self):
        """The struct format of the record: the kind byte and the fields."""
        return '<B' + ''.join(FIELD_CODES[field] for field in self.fields)


class Refusal(NamedTuple):
    """`number` is that of document 01's question, `words` what is wrong, `remedy` what to do."""
    number: int
    words: str
    remedy: str


PORTS = tuple(Port(number, *names) for number, names in enumerate([
    ('OUTPUT', 'Output'),
    ('EXEC', 'Exec'),
    ('INPUT_A', 'InputA'),
    ('INPUT_B', 'InputB'),
    ('B_SELECT_B', 'BSelectB'),
    ('B_COND', 'BCond'),
    ('EXEC_OUT_A', 'ExecOutA'),
    ('EXEC_OUT_B', 'ExecOutB'),
    ('RER_INPUT', 'RerInput'),
    ('THIRD_INPUT', 'InputC'),
    ('VALUE', 'Value'),
]))
OUTPUT, EXEC, INPUT_A, INPUT_B, B_SELECT_B, B_COND, EXEC_OUT_A, EXEC_OUT_B, RER_INPUT, THIRD_INPUT, VALUE = range(11)
# wires have every port but Value
WIRE_PORTS = PORTS[:VALUE]

NEVER = Folding('Never', (), False)
LITERAL_FOLDING = Folding('Literal', (), False)
MICROCHIP = Folding('Microchip', (RER_INPUT,), False)
SELECT_FOLDING = Folding('Select', (B_SELECT_B,), True)
BRANCH_FOLDING = Folding('Branch', (B_COND,), True)
UNARY = Folding('Unary', (INPUT_A,), True)
BINARY = Folding('Binary', (INPUT_A, INPUT_B), True)
TERNARY = Folding('Ternary', (INPUT_A, INPUT_B, THIRD_INPUT), True)
FOLDINGS = (NEVER, LITERAL_FOLDING, MICROCHIP, SELECT_FOLDING, BRANCH_FOLDING, UNARY, BINARY, TERNARY)
# of nodes that only give a value: those that the last stage takes where they feed nothing and have no flag
PURE = (LITERAL_FOLDING, UNARY, BINARY, TERNARY)

CLASSES = tuple(Class(number, *entry) for number, entry in enumerate([
    ('OTHER', 'Other', NEVER),
    ('LITERAL', 'Literal', LITERAL_FOLDING),
    ('MICROCHIP_INPUT', 'MicrochipInput', MICROCHIP),
    ('MICROCHIP_OUTPUT', 'MicrochipOutput', MICROCHIP),
    ('SELECT', 'Select', SELECT_FOLDING),
    ('BRANCH', 'Branch', BRANCH_FOLDING),
    ('COMPARE_EQUAL', 'Equal', BINARY),
    ('COMPARE_NOT_EQUAL', 'NotEqual', BINARY),
    ('COMPARE_LESS', 'Less', BINARY),
    ('COMPARE_LESS_OR_EQUAL', 'LessOrEqual', BINARY),
    ('COMPARE_GREATER', 'Greater', BINARY),
    ('COMPARE_GREATER_OR_EQUAL', 'GreaterOrEqual', BINARY),
    ('LOGICAL_AND', 'LogicalAnd', BINARY),
    ('LOGICAL_OR', 'LogicalOr', BINARY),
    ('LOGICAL_XOR', 'LogicalXor', BINARY),
    ('LOGICAL_NOT', 'LogicalNot', UNARY),
    ('LOGICAL_NAND', 'LogicalNand', BINARY),
    ('LOGICAL_NOR', 'LogicalNor', BINARY),
    ('MATH_ADD', 'Add', BINARY),
    ('MATH_SUBTRACT', 'Subtract', BINARY),
    ('MATH_MULTIPLY', 'Multiply', BINARY),
    ('MATH_DIVIDE', 'Divide', BINARY),
    ('MATH_MODULO', 'Modulo', BINARY),
    ('MATH_ABS', 'Abs', UNARY),
    ('MATH_SIGN', 'Sign', UNARY),
    ('MATH_NEGATE', 'Negate', UNARY),
    ('MATH_MIN', 'Min', BINARY),
    ('MATH_MAX', 'Max', BINARY),
    ('MATH_CLAMP', 'Clamp', TERNARY),
    ('MATH_MOD_FLOORED', 'ModuloFloored', BINARY),
    ('ROUND', 'Round', UNARY),
    ('FLOOR', 'Floor', UNARY),
    ('CEIL', 'Ceil', UNARY),
    ('BITWISE_AND', 'BitwiseAnd', BINARY),
    ('BITWISE_OR', 'BitwiseOr', BINARY),
    ('BITWISE_XOR', 'BitwiseXor', BINARY),
    ('BITWISE_NOT', 'BitwiseNot', UNARY),
    ('BITWISE_NAND', 'BitwiseNand', BINARY),
    ('BITWISE_NOR', 'BitwiseNor', BINARY),
    ('BITWISE_SHIFT_LEFT', 'ShiftLeft', BINARY),
    ('BITWISE_SHIFT_RIGHT', 'ShiftRight', BINARY),
    ('BITWISE_BIT_COUNT', 'BitCount', UNARY),
    ('MATH_SQRT', 'Sqrt', UNARY),
]))
OTHER, LITERAL, MICROCHIP_INPUT, MICROCHIP_OUTPUT, SELECT, BRANCH = range(6)
# the order gates, Less to GreaterOrEqual, whose rows name no text
ORDER_GATES = range(8, 12)
LOGICAL_AND, LOGICAL_OR = 12, 13
# the classes that may have an annihilator record, each with the Bool that settles it
ANNIHILATORS = {LOGICAL_AND: False, LOGICAL_OR: True}

VARIANTS = tuple(Variant(number, *entry) for number, entry in enumerate([
    ('UNWIRED', 'Unwired', ()),
    ('INT', 'Int', ('int',)),
    ('FLOAT', 'Float', ('float',)),
    ('BOOL', 'Bool', ('bool',)),
    ('VECTOR', 'Vector', ('x', 'y', 'z')),
    ('ROTATOR', 'Rotator', ('pitch', 'yaw', 'roll')),
    ('QUAT', 'Quat', ('x', 'y', 'z', 'w')),
    ('COLOR', 'Color', ('r', 'g', 'b', 'a')),
    ('TEXT', 'Text', ('text',)),
]))
UNWIRED, INT, FLOAT, BOOL, VECTOR, ROTATOR, QUAT, COLOR, TEXT = VARIANTS
ROW_VARIANTS = 3

# the bits of a node's flags byte; every other bit is 0
FLAGS = {'NOFOLD': 0x01, 'LABEL': 0x02}
NOFOLD, LABEL = FLAGS.values()
LISTED_FLAGS = NOFOLD | LABEL

# how many bytes a text has at most; its record has so many, and 0 for those that it does not use
TEXT_BYTES = 16
# the bytes of a text: space to ~
TEXT_CHARS = range(32, 127)

# the struct code of each field; a float stands as its bits
FIELD_CODES = {'class': 'B', 'flags': 'B', 'node': 'H', 'port': 'B', 'variant': 'B', 'int': 'q', 'float': 'Q', 'bool': 'B',
               'length': 'B', 'chars': '%ds' % TEXT_BYTES}


def _value_fields(variant):
    fields = {INT: ('int',), BOOL: ('bool',), TEXT: ('length', 'chars')}
    return fields.get(variant, ('float',) * len(variant.parts))


def _property(number, variant):
    return Kind(number, variant.constant, variant.name, 'Property', ('node', 'port') + _value_fields(variant), variant)


def _literal(number, variant):
    name = 'literal ' + variant.name
    return Kind(number, 'LITERAL_' + variant.constant, name, 'Fate', ('node',) + _value_fields(variant), variant)


NODE = Kind(0x01, 'NODE', 'node', 'Node', ('class', 'flags'))
WIRE = Kind(0x02, 'WIRE', 'wire', 'Wire', ('node', 'port', 'node', 'port'))
TEXT_PROPERTY = _property(0x0C, TEXT)
PROPERTIES = (*(_property(0x03 + i, variant) for i, variant in enumerate(VARIANTS[1:COLOR.number + 1])), TEXT_PROPERTY)
ROW = Kind(0x0A, 'ROW', 'row', 'Row', ('class',) + ('variant',) * ROW_VARIANTS)
ANNIHILATOR = Kind(0x0B, 'ANNIHILATOR', 'annihilator', 'Annihilator', ('class',))
KEPT = Kind(0x10, 'KEPT', 'kept', 'Fate', ('node',))
REMOVED = Kind(0x11, 'REMOVED', 'removed', 'Fate', ('node',))
LITERALS = tuple(_literal(0x12 + i, variant) for i, variant in enumerate(VARIANTS[1:5]))

# the kinds of records of a graph in their order, and those of an answer: its known values are the properties' kinds
GRAPH_KINDS = {kind.number: kind for kind in sorted((NODE, WIRE, *PROPERTIES, ROW, ANNIHILATOR))}
FATE_KINDS = {kind.number: kind for kind in (KEPT, REMOVED, *LITERALS)}

LIMITS = {'INPUT': 65_536, 'NODES': 1_024, 'WIRES': 4_096, 'PROPERTIES': 2_048, 'ROWS': 1_024}
# the limit of question 8 for each role that has one
ROLE_LIMITS = {'Node': LIMITS['NODES'], 'Wire': LIMITS['WIRES'], 'Property': LIMITS['PROPERTIES'], 'Row': LIMITS['ROWS']}
# what an answer has at most, by question 10, and the answer buffer of the program `fold`
ANSWER_WIRES = 4_096
ANSWER_BYTES = 65_536

REFUSALS = {refusal.number: refusal for refusal in [
    Refusal(1, 'the input is longer than 65,536 bytes',
            'divide the graph in two, or leave out nodes, wires and rows that nothing needs'),
    Refusal(2, 'a record begins with a byte that is no kind of record (01 to 0C)',
            'check that the file holds graph records; the record before may be too long or too short'),
    Refusal(3, 'the input ends inside a record',
            'store or send the whole file again: its end is missing'),
    Refusal(4, 'a class, flag, port, variant or Bool byte, or the length or a byte of a text, is not one that document 01 lists',
            'give that field a listed value'),
    Refusal(12, 'a row of Less, LessOrEqual, Greater or GreaterOrEqual names Text',
            'leave the row out: texts have no order'),
    Refusal(5, 'a record stands after one of a higher kind',
            'put the records in the order of their kinds: nodes, wires, Int to Color properties, rows, annihilators, texts'),
    Refusal(6, 'a record names a node that is not there',
            'add the node, or correct the number: nodes count from 0'),
    Refusal(7, 'a property of the same node and port, or an annihilator of the same class, stands before',
            'leave one of the two out'),
    Refusal(8, 'there are more than 1,024 nodes, 4,096 wires, 2,048 properties or 1,024 rows',
            'make the graph smaller'),
    Refusal(9, 'the rewriting of a wire never ends: removed Selects or Branches lead it in a cycle',
            'break the cycle at one of its wires, or mark one of its Selects or Branches nofold'),
    Refusal(10, 'the answer has more than 4,096 wires, or does not fit its buffer',
            'lead fewer wires into Branches whose taken side has many wires, or lend a larger buffer'),
]}
# those of a graph that passes decoding
LATER_REFUSALS = (9, 10)


def _rust_module(name, doc, entries, form='{}'):
    lines = ['/// ' + doc, '#[allow(dead_code)]', 'pub mod %s {' % name]
    lines += ['    pub const %s: %s = %s;' % (constant, kind, form.format(number)) for constant, kind, number in entries]
    return lines + ['}']


def _rust_array(name, doc, element, items):
    items = list(items)
    lines = ['/// ' + doc, '#[allow(dead_code)]', 'pub const %s: [%s; %d] = [' % (name, element, len(items))]
    return lines + ['    %s,' % item for item in items] + ['];']


def _bytes(table):
    return [(entry.constant, 'u8', entry.number) for entry in table]


def _quoted(text):
    return '"%s"' % text


def _rust_modules():
    kinds = [*GRAPH_KINDS.values(), *FATE_KINDS.values()]
    yield _rust_module('kind', 'Kinds of records, of a graph and of an answer.', _bytes(kinds), '0x{:02X}')
    yield _rust_module('class', 'Classes of nodes.', _bytes(CLASSES))
    yield _rust_module('port', 'Ports.', _bytes(PORTS))
    yield _rust_module('variant', 'Variants of operands.', _bytes(VARIANTS))
    yield _rust_module('flag', 'Bits of the flags byte, and all that are listed.',
                       [(name, 'u8', bit) for name, bit in FLAGS.items()] + [('LISTED', 'u8', LISTED_FLAGS)])
    yield _rust_module('limit', 'What a graph and its answer have at most.',
                       [(name, 'usize', limit) for name, limit in LIMITS.items()]
                       + [('ANSWER_WIRES', 'usize', ANSWER_WIRES), ('ANSWER_BYTES', 'usize', ANSWER_BYTES)])


def _rust_arrays():
    kinds = {**GRAPH_KINDS, **FATE_KINDS}
    lengths = [kinds[number].length if number in kinds else 0 for number in range(max(kinds) + 1)]
    yield _rust_array('RECORD_LENGTHS', 'The length of each kind of record with its kind byte; 0 for what is no kind.',
                      'usize', lengths)
    yield _rust_array('CLASS_NAMES', 'The name of each class.', '&str', (_quoted(c.name) for c in CLASSES))
    yield _rust_array('PORT_NAMES', 'The name of each port.', '&str', (_quoted(p.name) for p in PORTS))
    yield _rust_array('VARIANT_NAMES', 'The name of each variant.', '&str', (_quoted(v.name) for v in VARIANTS))
    yield _rust_array('INPUT_PORTS', 'The ports of each class that decide how it folds, in order.', '&[u8]',
                      ('&%s' % list(c.folding.inputs) for c in CLASSES))
    yield _rust_array('ROW_LENGTHS', 'How many variants a row of each class has; 0 where the class has no rows.', 'usize',
                      (row_length(c) for c in CLASSES))
    yield _rust_array('ORDER_GATES', 'The order gates, whose rows name no text.', 'u8', ORDER_GATES)
    yield _rust_array('ANNIHILATORS', 'Classes that may have an annihilator, with the Bool that settles them.',
                      '(u8, bool)', ('(%d, %s)' % (c, str(b).lower()) for c, b in ANNIHILATORS.items()))


def row_length(node_class):
    """How many variants a row of a class has; 0 where the class has no rows."""
    return len(node_class.folding.inputs) if node_class.folding.has_rows else 0


def rust():
    """The tables as Rust items, to be included from a build script."""
    blocks = [['// Printed by tools/mezburiko/tables.py --rust.'], *_rust_modules(), *_rust_arrays()]
    return '\n\n'.join('\n'.join(block) for block in blocks) + '\n'


if __name__ == '__main__':
    if sys.argv[1:] != ['--rust']:
        sys.exit('usage: tables.py --rust')
    sys.stdout.write(rust())
