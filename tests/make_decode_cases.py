#!/usr/bin/env python3
"""make_decode_cases.py > crates/decode_cases/stdin: inputs for the decoder, each with the answer that document 01 gives.

A case is eight little-endian numbers of eight bytes (the input's length, the refusal's number and place, the counts of nodes, wires,
properties, rows and annihilators) and then the input. The last line on standard error is the number of cases."""
import pathlib
import struct
import sys

sys.path.insert(0, str(pathlib.Path(__file__).resolve().parent.parent / 'tools'))
from mezburiko import tables  # noqa: E402

cases = []


def accept(data, nodes=0, wires=0, properties=0, rows=0, annihilators=0):
    cases.append((data, 0, 0, nodes, wires, properties, rows, annihilators))


def refuse(data, number, place):
    cases.append((data, number, place, 0, 0, 0, 0, 0))


def node(kind=0, flags=0):
    return bytes([1, kind, flags])


def wire(source, out, target, into):
    return struct.pack("<BHBHB", 2, source, out, target, into)


def integer(n, port, value=0):
    return struct.pack("<BHBq", 3, n, port, value)


def real(n, port, value=0.0):
    return struct.pack("<BHBd", 4, n, port, value)


def boolean(n, port, value):
    return struct.pack("<BHBB", 5, n, port, value)


def parts(kind, n, port, count):
    return struct.pack("<BHB", kind, n, port) + bytes(8 * count)


def text(n, port, value=b"", length=None):
    return struct.pack(tables.TEXT_PROPERTY.format, 12, n, port, len(value) if length is None else length, value)


def row(kind, *variants):
    return bytes([10, kind, *variants])


def annihilator(kind):
    return bytes([11, kind])


NODES = node(1) + node(18) + node(0)
WIRES = wire(0, 0, 1, 2) + wire(1, 0, 2, 2)
WORKED = NODES + WIRES + integer(0, 10, 2) + integer(1, 3, 5) + row(18, 1, 1, 0)
ALL = (NODES + WIRES + integer(0, 10, -1) + real(0, 9) + boolean(0, 8, 1) + parts(6, 0, 7, 3) + parts(7, 0, 6, 3)
       + parts(8, 0, 5, 4) + parts(9, 0, 4, 4) + row(18, 1, 1, 0) + row(4, 3, 0, 0) + annihilator(12) + annihilator(13)
       + text(0, 3, b"cloth") + text(2, 10))

accept(b"")
accept(WORKED, 3, 2, 2, 1, 0)
accept(ALL, 3, 2, 9, 2, 2)
# every cut of a valid graph: the record that the cut falls into, or the shorter graph
at, counts, roles = 0, [0] * 5, ('Node', 'Wire', 'Property', 'Row', 'Annihilator')
while at < len(ALL):
    kind = tables.GRAPH_KINDS[ALL[at]]
    size = kind.length
    accept(ALL[:at], *counts)
    for cut in range(1, size):
        refuse(ALL[:at + cut], 3, at)
    counts[roles.index(kind.role)] += 1
    at += size
# 2: no kind
for kind in (0, 13, 16, 255):
    refuse(NODES + bytes([kind]) + bytes(40), 2, 9)
# 4: what is not listed
refuse(node(43), 4, 0)
accept(node(42), 1)
for flags in (*range(8), 8, 11, 16, 32, 64, 128, 255):
    for kind in (0, 1, 4, 42):
        two = node(kind, flags % 4) + node(kind, flags)
        (accept(two, 2) if flags < 4 else refuse(two, 4, 3))
refuse(node() + wire(0, 10, 0, 2), 4, 3)
refuse(node() + wire(0, 0, 0, 10), 4, 3)
accept(node() + wire(0, 9, 0, 9), 1, 1)
refuse(node() + integer(0, 11), 4, 3)
accept(node() + integer(0, 10), 1, 0, 1)
refuse(node() + boolean(0, 0, 2), 4, 3)
for kind in range(4):
    refuse(row(kind, 0, 0, 0), 4, 0)
refuse(row(43, 0, 0, 0), 4, 0)
for kind, inputs in ((4, 1), (5, 1), (6, 2), (15, 1), (23, 1), (28, 3), (36, 1), (41, 1), (42, 1)):
    for place in range(3):
        top = [0, 0, 0]
        for variant in (7, 8):
            top[place] = variant
            (accept(row(kind, *top), rows=1) if place < inputs else refuse(row(kind, *top), 4, 0))
        top[place] = 9
        refuse(row(kind, *top), 4, 0)
for kind in (0, 11, 14, 255):
    refuse(annihilator(kind), 4, 0)
# 4: texts, each used byte 32 to 126 and the rest 0
for n in range(17):
    accept(node() + text(0, n % 11, bytes(range(32, 32 + n))), 1, 0, 1)
    refuse(node() + text(0, 0, b"~" * n, n + 1), 4, 3)
    if n:
        refuse(node() + text(0, 0, b"~" * n, n - 1), 4, 3)
        for wrong in (0, 31, 127, 255):
            refuse(node() + text(0, 0, b" " * (n - 1) + bytes([wrong]), n), 4, 3)
refuse(node() + text(0, 0, b" " * 16, 17), 4, 3)
refuse(node() + text(0, 0, b" " * 16, 255), 4, 3)
refuse(node() + text(0, 11), 4, 3)
# 12: right after 4, for each record: order gates' rows name no text
for kind in (7, 8, 9, 10, 11, 12):
    for variants in ((8, 0, 0), (0, 8, 0), (8, 8, 0)):
        (accept(row(kind, *variants), rows=1) if kind in (7, 12) else refuse(row(kind, *variants), 12, 0))
refuse(row(8, 8, 0, 8), 4, 0)
refuse(row(8, 8, 9, 0), 4, 0)
refuse(annihilator(12) + row(8, 8, 0, 0), 12, 2)
refuse(row(18, 1, 1, 0) * 1024 + row(11, 0, 8, 0), 12, 5120)
refuse(row(8, 1, 1, 0) + row(8, 1, 8, 0), 12, 5)
accept(row(8, 7, 7, 0), rows=1)
# 5: a node after a wire, an Int after a Float
refuse(NODES + WIRES + node(), 5, 23)
refuse(NODES + real(0, 1) + integer(0, 2), 5, 21)
refuse(NODES + text(0, 1) + annihilator(12), 5, 30)
refuse(NODES + text(0, 1) + integer(0, 2), 5, 30)
# 6: a wire before any node, a node past the last
refuse(WIRES, 6, 0)
refuse(NODES + wire(0, 0, 3, 0), 6, 9)
refuse(NODES + wire(3, 0, 0, 0), 6, 9)
refuse(NODES + integer(3, 0), 6, 9)
refuse(integer(0, 0), 6, 0)
refuse(NODES + text(3, 0), 6, 9)
# 7: judged by node and port, not by kind; equal wires and rows may repeat
refuse(NODES + integer(1, 3) + real(1, 3), 7, 21)
refuse(NODES + integer(1, 3) + text(1, 3), 7, 21)
refuse(NODES + text(1, 3) + text(1, 3), 7, 30)
accept(NODES + integer(1, 3) + real(1, 4) + real(2, 3), 3, 0, 3)
refuse(annihilator(12) + annihilator(13) + annihilator(12), 7, 4)
accept(NODES + WIRES + WIRES + row(18, 1, 1, 0) * 2, 3, 4, 0, 2)
# 8, and the order of the questions
accept(node() * 1024, 1024)
refuse(node() * 1025, 8, 3072)
refuse(node() * 1024 + node(43), 4, 3072)
accept(node() + wire(0, 0, 0, 0) * 4096, 1, 4096)
refuse(node() + wire(0, 0, 0, 0) * 4097, 8, 3 + 7 * 4096)
flags = b"".join(boolean(n, p, 0) for n in range(205) for p in range(10))
accept(node() * 205 + flags[:5 * 2048], 205, 0, 2048)
refuse(node() * 205 + flags[:5 * 2049], 8, 615 + 5 * 2048)
refuse(node() * 205 + flags[:5 * 2048] + boolean(0, 0, 0), 7, 615 + 5 * 2048)
refuse(node() * 205 + flags[:5 * 2048] + text(204, 9), 8, 615 + 5 * 2048)
accept(row(18, 1, 1, 0) * 1024, rows=1024)
refuse(row(18, 1, 1, 0) * 1025, 8, 5120)
# 1: 65,536 bytes and one more
full = (node() * 1024 + wire(1, 0, 2, 2) * 4096 + b"".join(parts(8, n, 1, 4) for n in range(900)) + row(18, 1, 1, 0) * 278
        + annihilator(12))
assert len(full) == 65536
accept(full, 1024, 4096, 900, 278, 1)
refuse(full + b"\0", 1, 0)

stored = b"".join(struct.pack("<8Q", len(data), *numbers) + data for data, *numbers in cases)
# what crates/decode_cases reads at most
assert len(stored) <= 327680
sys.stdout.buffer.write(stored)
print(f"{len(cases)} cases", file=sys.stderr)
