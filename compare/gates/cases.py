"""Gate cases for runs beside the Rust: every class from 6 on special operands, Sqrt on many more, and all but the order gates
on texts; and Min, Max and Clamp by IEEE 754-2019.

A case is the 100 bytes that `oracle gates` reads (docs/ORACLE.md): the class, then three operands of a variant byte and
32 bytes of value. An answer is 33 bytes, an operand's form.
"""
import hashlib
import itertools
import math
import pathlib
import struct
import subprocess
import sys

ROOT = pathlib.Path(__file__).resolve().parent.parent.parent
sys.path.insert(0, str(ROOT / 'tools'))
from mezburiko import tables  # noqa: E402

TARGET = ROOT / 'compare' / 'oracle' / 'target'
ORACLE, EXACT = TARGET / 'release' / 'oracle', TARGET / 'exact' / 'release' / 'oracle'
CASE, ANSWER = 100, 33
# Where the Rust leaves the sign of a zero open.
MIN, MAX, CLAMP = OPEN_ZEROS = 26, 27, 28
SQRT = 42
FLOATS = {2: 1, 4: 3, 5: 3, 6: 4, 7: 4}
NAN = 0x7FF8000000000000

# From its negative to it every Int is a float.
SHORT = 1 << 53
SMALLEST, LARGEST = -(1 << 63), (1 << 63) - 1
# Where Ints begin or cease to be floats: around 2^53, half way between two floats (2^54+2, 2^62+512, 2^63-512), a power of
# two, the largest multiple of 1,024, and both ends.
BOUNDARIES = [
    SHORT - 1, SHORT, SHORT + 1, -SHORT - 1, SHORT + 2, (1 << 54) + 2, 1 << 60, (1 << 62) + 512,
    LARGEST - 1023, LARGEST - 511, LARGEST, SMALLEST, SMALLEST + 1,
]
INTS = [
    0, 1, -1, 2, 3, -3, -7, 7, 10, 63, 64, -64, 0x5555555555555555, -(1 << 62), -SHORT, LARGEST - 1, *BOUNDARIES,
]
# The floats next to zero and to the infinities, the smallest normal one, and what is no finite number.
EXTREMES = [
    5e-324, -5e-324, 2.2250738585072014e-308, 1.7976931348623157e308, -1.7976931348623157e308, math.inf, -math.inf, math.nan,
]
DOUBLES = [
    0.0, -0.0, 1.0, -1.0, 0.5, -0.5, 1.5, 2.5, -2.5, 3.0, -6.0, -7.0, 0.1, 0.49999999999999994, -0.49999999999999994,
    4503599627370495.5, -4503599627370497.5, 9007199254740992.0, 1e16, *EXTREMES,
]
# What Min, Max and Clamp meet besides, by its bits: neighbours of 1, -1 and the smallest normal floats; a NaN with a sign, one
# with a payload and a signalling one.
NEIGHBOURS = [
    0x3FEFFFFFFFFFFFFF, 0x3FF0000000000001, 0xBFEFFFFFFFFFFFFF, 0xBFF0000000000001, 0x000FFFFFFFFFFFFF, 0x800FFFFFFFFFFFFF,
    0x8010000000000000, 0xFFF8000000000000, 0x7FF8000000000001, 0x7FF0000000000001,
]
COMPOSITES = [
    (4, 0.0, -0.0, 0.0), (4, 1.0, -2.0, 3.5), (4, 0.5, 0.25, -0.75), (4, math.nan, 1.0, math.inf), (4, 1e308, 1e308, -1e308),
    (5, 0.0, 0.0, 0.0), (5, 1.0, math.nan, -2.0),
    (6, 0.0, 0.0, 0.0, 0.0), (6, 0.0, 0.0, 0.0, 1.0), (6, math.inf, -1.0, 2.0, 0.5),
    (7, 0.0, 0.0, 0.0, 0.0), (7, 0.25, 0.5, 1.0, math.nan),
]


def operand(variant, value=b''):
    return bytes([variant]) + value.ljust(32, b'\0')


def whole_number(n):
    return operand(1, struct.pack('<q', n))


def floats(variant, *parts):
    return operand(variant, struct.pack('<%dd' % len(parts), *parts))


def text(chars):
    return operand(tables.TEXT.number, bytes([len(chars)]) + chars)


UNWIRED, TRUE = operand(0), operand(3, b'\1')
OPERANDS = (
    [UNWIRED]
    + [whole_number(n) for n in INTS]
    + [floats(2, x) for x in DOUBLES]
    + [operand(3), TRUE]
    + [floats(*composite) for composite in COMPOSITES]
)


ZEROS = [whole_number(0), floats(2, 0.0), floats(2, -0.0)]
MORE = [operand(2, struct.pack('<Q', bits)) for bits in NEIGHBOURS]
LIMITS = ZEROS + [floats(2, x) for x in (1.0, -1.0, *EXTREMES)] + MORE


# ---- texts, and what they meet besides ----

# False ones and what looks so; decimal forms and what looks so, the last three the first characters of longer ones; names.
TEXTS = [text(chars) for chars in [
    b'', b'0', b'false', b'False', b'00', b' 0', b'0 ', b'-0', b'7', b'07', b'+7', b'7.0', b'-7', b'9' * 16, b'-' + b'9' * 15,
    b'1' + b'0' * 15, b'%.16s' % str(SMALLEST).encode(), b'%.16s' % str(LARGEST).encode(),
    b'denim', b'denin', b'deni', b' ~' * 8,
]]
# Ints of 16 and 17 characters; 0, 7, -7 and both ends are among INTS.
TEXT_INTS = [whole_number(n) for n in (10 ** 16 - 1, 10 ** 16, 10 ** 15, 1 - 10 ** 15, -10 ** 15)]
# What texts meet in classes of three inputs.
FEW = [UNWIRED, whole_number(1), floats(2, 1.0), TRUE, floats(4, 1.0, -2.0, 3.5), text(b''), text(b'1')]


def has_text(case):
    return any(given[0] == tables.TEXT.number for given in operands(case))


def with_text(gate):
    """A class on operands of which one is a text at least."""
    chosen_from = FEW if input_count(gate) == 3 else TEXTS + TEXT_INTS + OPERANDS
    return filter(has_text, of(gate, chosen_from))


# ---- what Sqrt meets besides ----

HIDDEN, SIGN = 1 << 52, 1 << 63


def some_bits(length, *key):
    """A number of so many bits, the first a 1 and the others as the key decides."""
    scattered = hashlib.sha256(repr((length, *key)).encode()).digest()
    return int.from_bytes(scattered[:8], 'big') >> 64 - length | 1 << length - 1


def bits_of(x):
    return struct.unpack('<Q', struct.pack('<d', x))[0]


def of_each_exponent():
    """Floats of each exponent, the infinities' too: the first, the last and some between, and one with a sign."""
    for exponent in range(2048):
        some = [some_bits(53, exponent, i) - HIDDEN for i in range(8)]
        for significand in (0, 1, HIDDEN // 2, HIDDEN - 2, HIDDEN - 1, *some):
            yield exponent * HIDDEN + significand
        yield SIGN + exponent * HIDDEN + some[0]


def of_each_length():
    """Subnormals and their neighbours, of either sign at times."""
    for length in range(1, 53):
        for number in (1 << length - 1, *(some_bits(length, 'subnormal', i) for i in range(4))):
            yield from (number - 1, number, number + 1, SIGN + number)


def around_squares():
    """The float next to a square, times powers of 4, and its neighbours: of small numbers, of numbers of 26 and 27 bits, whose
    squares just fit a float or just do not, and of odd ones of 54 bits, which are half way between two floats."""
    small = list(range(1, 257))
    fitting = [some_bits(length, 'square', i) for length in (26, 27) for i in range(500)]
    odd = [some_bits(54, 'tie', i) | 1 for i in range(1500)]
    for number in small + fitting + odd:
        for power in (-1000, -60, 0, 62, 800):
            near = bits_of(math.ldexp(float(number * number), power))
            yield from (near - 1, near, near + 1)


def root_ints():
    """Squares of each length and their neighbours, those of numbers that end in zeros too, and other multiples of 1,024; some
    are negative."""
    for length in range(1, 33):
        for i in range(6):
            number = some_bits(length, 'whole', i)
            for root in (number, number >> length // 2 << length // 2):
                square = root * root
                yield from (n for n in (square - 1, square, square + 1, -square) if SMALLEST <= n <= LARGEST)
    for length in range(54, 64):
        for i in range(40):
            number = some_bits(length, 'long', i)
            yield from (number, number >> 10 << 10, -(number >> 10 << 10))


def root_operands():
    bits = {*of_each_exponent(), *of_each_length(), *around_squares()}
    given = {operand(2, struct.pack('<Q', word)) for word in bits} | {whole_number(n) for n in root_ints()}
    return sorted(given.difference(OPERANDS))


ROOTS = root_operands()


def input_count(gate):
    return len(tables.CLASSES[gate].folding.inputs)


def operands(case):
    return [case[at:at + 33] for at in (1, 34, 67)][:input_count(case[0])]


def of(gate, chosen_from):
    """A class on every one, pair or triple of some operands."""
    count = input_count(gate)
    for chosen in itertools.product(chosen_from, repeat=count):
        yield bytes([gate]) + b''.join(chosen) + UNWIRED * (3 - count)


def every():
    """Every class on OPERANDS, all but the order gates with texts, Min, Max and Clamp on LIMITS too, and Sqrt on ROOTS; no case
    twice."""
    for gate in range(6, len(tables.CLASSES)):
        yield from of(gate, OPERANDS)
        if gate in OPEN_ZEROS:
            yield from (case for case in of(gate, LIMITS) if not set(MORE).isdisjoint(operands(case)))
        if gate not in tables.ORDER_GATES:
            yield from with_text(gate)
    yield from of(SQRT, ROOTS)


def ask(oracle, cases):
    out = subprocess.run([oracle, 'gates'], input=b''.join(cases), capture_output=True, check=True).stdout
    assert len(out) == ANSWER * len(cases), 'the oracle did not answer every case'
    return [out[at:at + ANSWER] for at in range(0, len(out), ANSWER)]


def rust(cases):
    """What the Rust gives, answer by answer."""
    return ask(ORACLE, cases)


def exact(cases):
    """What the exact oracle gives, in which every Int that some f64 equals becomes a float."""
    return ask(EXACT, cases)


def held_to(cases):
    """What each case is held to, and whether that is the exact oracle's answer: it is where the two differ, which they may
    on a long Int that the Rust gives nothing for."""
    for case, original, other in zip(cases, rust(cases), exact(cases), strict=True):
        differ = alike(case[0], original) != alike(case[0], other)
        assert not differ or original == UNWIRED and has_long_int(case), 'the oracles differ: %s' % case.hex()
        yield (other if differ else original), differ


def has_long_int(case):
    return any(given[0] == 1 and abs(whole(given)) > SHORT for given in operands(case))


# ---- Min, Max and Clamp by the standard, a second writing ----

def whole(given):
    """An Int or Bool as a whole number, else None."""
    if given[0] in (1, 3):
        return struct.unpack_from('<q', given, 1)[0]
    return None


def as_float(given):
    """A Float as it is, and an Int that is still itself after it was a float; else None."""
    if given[0] == 2:
        return struct.unpack_from('<d', given, 1)[0]
    if given[0] == 1 and int(float(whole(given))) == whole(given):
        return float(whole(given))
    return None


def signed(x):
    """What numbers are ordered by: the value, and of two zeros the sign, as -0 compares less than +0."""
    return x, math.copysign(1, x)


def minimum_number(x, y):
    """IEEE 754-2019, 9.6: x if x < y, y if y < x, and the number if one operand is a number and the other is a NaN."""
    return min((v for v in (x, y) if not math.isnan(v)), key=signed, default=math.nan)


def maximum_number(x, y):
    return max((v for v in (x, y) if not math.isnan(v)), key=signed, default=math.nan)


def limited(gate, lower, higher, x, y, z=None):
    if gate == CLAMP:
        return lower(higher(x, y), z)
    return lower(x, y) if gate == MIN else higher(x, y)


def standard(case):
    """What document 01 gives for a case of classes 26 to 28."""
    wholes, floats = ([read(given) for given in operands(case)] for read in (whole, as_float))
    if None not in wholes:
        return operand(1, struct.pack('<q', limited(case[0], min, max, *wholes)))
    value = math.nan if None in floats else limited(case[0], minimum_number, maximum_number, *floats)
    return operand(2, struct.pack('<d', value)) if math.isfinite(value) else UNWIRED


def alike(gate, answer):
    """An answer with what counts alike beside the Rust made equal: all NaNs, and zeros of either sign in classes 26 to 28."""
    words = list(struct.unpack('<4Q', answer[1:]))
    for i in range(FLOATS.get(answer[0], 0)):
        if words[i] & 0x7FFFFFFFFFFFFFFF > 0x7FF0000000000000:
            words[i] = NAN
        elif gate in OPEN_ZEROS and words[i] == 1 << 63:
            words[i] = 0
    return answer[:1] + struct.pack('<4Q', *words)
