"""Values of properties and literals: their text, and which of them are true."""
import math
import re
import struct
from typing import NamedTuple

from . import tables

STANDARD_NAN = 0x7FF8000000000000
MIN_INT, MAX_INT = -2**63, 2**63 - 1
# beyond this a whole number need not be a float
MAX_EXACT = 2**53
# the texts that count as false
FALSE_TEXTS = ('', '0', 'false')


class Value(NamedTuple):
    """`words` are the fields of a record's body: an Int as a signed number, a Bool as 0 or 1, a float as its bits, a text as
    its length and its bytes with those that it does not use."""
    variant: tables.Variant
    words: tuple


class BadValue(Exception):
    """Text that is no value; `part` is the number of the token at fault, `within` that of its character at fault."""

    def __init__(self, message, part=0, within=0):
        super().__init__(message)
        self.part, self.within = part, within


def float_of(bits):
    return struct.unpack('<d', struct.pack('<Q', bits))[0]


def bits_of(number):
    return struct.unpack('<Q', struct.pack('<d', number))[0]


def format_float(bits):
    """The shortest text that reads back as the same bits."""
    number = float_of(bits)
    if math.isnan(number):
        return 'nan' if bits == STANDARD_NAN else 'nan(0x%016X)' % bits
    return repr(number)


def text_value(characters):
    """A text as a value; the characters are those that a text may have."""
    return Value(tables.TEXT, (len(characters), characters.encode('ascii').ljust(tables.TEXT_BYTES, b'\0')))


def characters_of(value):
    """The characters of a text."""
    length, chars = value.words
    return chars[:length].decode('ascii')


def is_text(length, chars):
    """Whether the fields of a record say a text."""
    used, rest = chars[:length], chars[length:]
    return length <= tables.TEXT_BYTES and all(byte in tables.TEXT_CHARS for byte in used) and not any(rest)


def format_text(characters):
    """A text in quotes."""
    return '"%s"' % re.sub(r'["\\]', r'\\\g<0>', characters)


def format_value(value):
    variant, words = value
    if variant is tables.TEXT:
        return format_text(characters_of(value))
    if variant is tables.INT:
        return str(words[0])
    if variant is tables.BOOL:
        return 'true' if words[0] else 'false'
    parts = [format_float(bits) for bits in words]
    if variant is tables.FLOAT:
        return parts[0]
    name = '' if variant is tables.VECTOR else variant.name
    return '%s(%s)' % (name, ', '.join(parts))


def is_true(value):
    """Whether a condition counts as true; `None` stands for Unwired."""
    if value is None:
        return False
    if value.variant in (tables.INT, tables.BOOL):
        return value.words[0] != 0
    if value.variant is tables.FLOAT:
        number = float_of(value.words[0])
        return math.isfinite(number) and number != 0
    return value.variant is tables.TEXT and characters_of(value) not in FALSE_TEXTS


def read_value(tokens):
    """The value that a list of tokens says, and how many of the tokens it takes."""
    if not tokens:
        raise BadValue('a value is missing')
    variant = _composite(tokens)
    if variant is not None:
        return _read_composite(variant, tokens)
    if tokens[0][0] == '"':
        return text_value(_read_text(tokens[0])), 1
    if tokens[0] in ('true', 'false'):
        return Value(tables.BOOL, (int(tokens[0] == 'true'),)), 1
    if re.fullmatch(r'[-+]?(\d+|0[xX]\w*)', tokens[0]):
        return Value(tables.INT, (_read_int(tokens[0]),)), 1
    if re.fullmatch(r'[^\W\d]\w*', tokens[0]) and tokens[0] not in ('nan', 'inf'):
        raise BadValue("'%s' is not a value; a text stands in quotes" % tokens[0])
    bits, used = _read_float(tokens)
    return Value(tables.FLOAT, (bits,)), used


def _composite(tokens):
    if tokens[0] == '(':
        return tables.VECTOR
    for variant in (tables.VECTOR, tables.ROTATOR, tables.QUAT, tables.COLOR):
        if tokens[0] == variant.name:
            return variant
    return None


def _read_composite(variant, tokens):
    form = '%s has %d parts: (%s)' % (variant.name, len(variant.parts), ', '.join(variant.parts))
    at = 0 if tokens[0] == '(' else 1
    words = []
    for mark in ('(',) + (',',) * (len(variant.parts) - 1):
        if tokens[at:at + 1] != [mark]:
            raise BadValue(form, at)
        bits, used = _part(tokens[at + 1:], at + 1)
        words.append(bits)
        at += 1 + used
    if tokens[at:at + 1] != [')']:
        raise BadValue(form, at)
    return Value(variant, tuple(words)), at + 1


def _part(tokens, at):
    try:
        return _read_float(tokens)
    except BadValue as bad:
        raise BadValue(str(bad), at + bad.part) from None


def _read_text(token):
    """The characters of a text in quotes."""
    characters = []
    for match in re.finditer(r'\\?(.)', token[1:-1]):
        written, character = match.group(0), match.group(1)
        if len(written) > 1 and character not in '"\\':
            raise BadValue("no escape is '%s': there are \\\" and \\\\" % printed(written), within=1 + match.start())
        if ord(character) not in tables.TEXT_CHARS:
            raise BadValue("'%s' is not for texts: they have only space to ~" % printed(character), within=1 + match.start())
        characters.append(character)
    if len(characters) > tables.TEXT_BYTES:
        raise BadValue('a text has at most %d characters, and this one %d' % (tables.TEXT_BYTES, len(characters)))
    return ''.join(characters)


def printed(text):
    """Text for a message: what cannot be printed stands as its escape in Python."""
    return ''.join(character if character.isprintable() else repr(character)[1:-1] for character in text)


def _read_int(text):
    try:
        number = int(text, 0 if 'x' in text.lower() else 10)
    except ValueError:
        raise BadValue("'%s' is not a number" % text) from None
    if not MIN_INT <= number <= MAX_INT:
        raise BadValue('%s is not an Int: those go from -2^63 to 2^63 - 1' % text)
    return number


def _read_float(tokens):
    """Bits of a float, and the tokens that it takes."""
    text = tokens[0] if tokens else ''
    if text == 'nan' and tokens[1:2] == ['(']:
        return _read_nan(tokens)
    if text in ('nan', 'inf', '-inf'):
        return bits_of(float(text)), 1
    if not re.fullmatch(r'[-+]?(\d+\.?\d*|\.\d+)([eE][-+]?\d+)?', text):
        raise BadValue("'%s' is not a value" % text if text else 'a value is missing')
    number = float(text)
    if math.isinf(number):
        raise BadValue('%s is too large for a Float' % text)
    if re.fullmatch(r'[-+]?\d+', text) and abs(int(text)) > MAX_EXACT and int(number) != int(text):
        raise BadValue('no Float is exactly %s' % text)
    return bits_of(number), 1


def _read_nan(tokens):
    form = 'a NaN with bits is written nan(0x7FF8000000000001)'
    if len(tokens) < 4 or tokens[3] != ')' or not re.fullmatch(r'0x[0-9A-Fa-f]{16}', tokens[2]):
        raise BadValue(form, 2)
    bits = int(tokens[2], 16)
    if not math.isnan(float_of(bits)):
        raise BadValue('%s are not the bits of a NaN' % tokens[2], 2)
    return bits, 4
