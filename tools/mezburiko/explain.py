"""Refusals and answers in words."""
from . import tables
from .folded import Folded
from .values import format_value


def plural(count, word):
    """`1 wire`, `2 wires`."""
    ending = 's' if count != 1 else ''
    return '{:,} {}'.format(count, 'properties' if ending and word == 'property' else word + ending)


def counts(graph):
    parts = [(graph.nodes, 'node'), (graph.wires, 'wire'), (graph.properties, 'property'), (graph.rows, 'row'),
             (graph.annihilators, 'annihilator')]
    return ', '.join(plural(len(part), word) for part, word in parts)


def heading(number, place):
    return ['refused %d at %d: question %d of document 01' % (number, place, number), '  ' + tables.REFUSALS[number].words]


def remedy(number):
    return ['  what to do: ' + tables.REFUSALS[number].remedy]


def of_refusal(refused):
    """A refusal by questions 1 to 8 and 12."""
    lines = heading(refused.number, refused.place)
    if refused.record:
        lines.append('  where:      %s: %s' % (refused.ordinal, refused.record.hex(' ').upper()))
    return lines + ['  expected:   ' + refused.expected, '  found:      ' + refused.found] + remedy(refused.number)


def of_later_refusal(number, place, graph):
    """A refusal of the folder itself, of a graph that passes questions 1 to 8 and 12."""
    lines = heading(number, place)
    if number == 9:
        wire = wire_at(graph, place)
        if wire is None:
            return None
        lines.append('  where:      wire %d: %s' % (wire, graph.wire_text(graph.wires[wire])))
        cycle = find_cycle(graph, graph.wires[wire])
        if cycle:
            lines.append('  look at:    the cycle ' + ' -> '.join(graph.names[node] for node in cycle + cycle[:1]))
    if number == 10:
        lines += _busiest_branch(graph)
    return lines + remedy(number)


def wire_at(graph, place):
    """The number of the wire whose record is at an offset, or None."""
    number, rest = divmod(place - tables.NODE.length * len(graph.nodes), tables.WIRE.length)
    return number if rest == 0 and 0 <= number < len(graph.wires) else None


def find_cycle(graph, wire):
    """A shortest cycle of Branches ahead of the wire's target, or of Selects behind its source, in the order of the wires."""
    ahead, behind = {}, {}
    for source, source_port, target, target_port in graph.wires:
        if source_port in (tables.EXEC_OUT_A, tables.EXEC_OUT_B) and target_port == tables.EXEC:
            ahead.setdefault(source, []).append(target)
        if target_port in (tables.INPUT_A, tables.INPUT_B):
            behind.setdefault(target, []).append(source)
    branches, selects = ({number for number, node in enumerate(graph.nodes) if node == (which, 0)}
                         for which in (tables.BRANCH, tables.SELECT))
    return _cycle_from(wire.target, ahead, branches) or _cycle_from(wire.source, behind, selects)[::-1]


def _cycle_from(start, steps, allowed):
    """A shortest cycle among the allowed nodes that can be reached from `start`, or an empty list."""
    best = []
    for node in _reached([start] if start in allowed else [], steps, allowed):
        came = _reached([node], steps, allowed)
        ends = [last for last in came if node in steps.get(last, ())]
        if ends:
            path, last = [], ends[0]
            while last is not None:
                path.append(last)
                last = came[last]
            if not best or len(path) < len(best):
                best = path[::-1]
    return best


def _reached(starts, steps, allowed):
    """The nodes reached in breadth, each with the node before it."""
    came = {node: None for node in starts}
    for node in (queue := list(starts)):
        for after in steps.get(node, ()):
            if after in allowed and after not in came:
                came[after] = node
                queue.append(after)
    return came


def _busiest_branch(graph):
    """The Branch that multiplies its wires the most, as a hint."""
    into, out_of = {}, {}
    for wire in graph.wires:
        if wire.target_port == tables.EXEC:
            into[wire.target] = into.get(wire.target, 0) + 1
        out_of[wire.source, wire.source_port] = out_of.get((wire.source, wire.source_port), 0) + 1
    branches = [(into.get(node, 0) * out_of.get((node, port), 0), node, port)
                for node in range(len(graph.nodes)) if graph.nodes[node].number_of_class == tables.BRANCH
                for port in (tables.EXEC_OUT_A, tables.EXEC_OUT_B)]
    product, node, port = max(branches, default=(0, 0, 0))
    if not product:
        return []
    return ['  look at:    %s: %s into Exec times %s out of %s is %s' % (
        graph.names[node], plural(into[node], 'wire'), plural(out_of[node, port], 'wire'), tables.PORTS[port].name,
        '{:,}'.format(product))]


def of_answer(graph, answer, pops=None):
    """An accepted graph: what became of each node and wire. Raises NotAnAnswer."""
    folded = Folded(graph, answer)
    return _summary(folded, pops) + ['', 'nodes'] + _node_lines(folded) + ['', 'wires'] + _wire_lines(folded)


def _summary(folded, pops):
    fates, wires = folded.answer.fates, folded.graph.wires
    literals = sum(1 for fate in fates if fate.value is not None)
    kept = sum(1 for fate in fates if fate.kind is tables.KEPT)
    swept = ', %d taken' % len(folded.swept) if folded.swept else ''
    lines = ['accepted: ' + counts(folded.graph),
             '  nodes: %d kept, %d made literal, %d removed%s; %d known' % (
                 kept, literals, len(folded.taken), swept, len(folded.answer.known)),
             '  wires: %d before, %d after' % (len(wires), len(folded.answer.wires))]
    if pops is not None:
        lines.append('  pops:  %d' % pops)
    return lines


def _table(rows):
    """Rows in columns; the last cell may be of any length."""
    widths = [max((len(row[i]) for row in rows), default=0) for i in range(max((len(row) for row in rows), default=1) - 1)]
    return ['  ' + '  '.join([cell.ljust(width) for cell, width in zip(row, widths)] + [row[-1]]) for row in rows]


def _node_lines(folded):
    graph = folded.graph
    return _table([(str(number), graph.names[number], node.node_class.name, node_fate(folded, number))
                   for number, node in enumerate(graph.nodes)])


def node_fate(folded, node):
    """What became of a node, in words."""
    known = folded.answer.known.get(node)
    value = '' if known is None else format_value(known)
    if folded.is_literal(node):
        words = 'made a literal: ' + value
        return 'feeds nothing: taken, was ' + words if node in folded.swept else words + _label(folded, node)
    words = ', known as ' + value if value else ''
    if node in folded.swept:
        return 'feeds nothing: taken' + words
    if node in folded.taken:
        return 'removed: ' + _port_words(folded, node) + words
    return 'kept' + words + (' (nofold)' if folded.graph.nodes[node].nofold else '') + _label(folded, node)


def _label(folded, node):
    """Says a label where it had a meaning: beside nodes that were taken."""
    return ' (label)' if folded.swept and folded.graph.nodes[node].label else ''


def _port_words(folded, node):
    graph, taken = folded.graph, folded.taken[node]
    condition = 'Unwired' if taken.condition is None else format_value(taken.condition)
    port = tables.PORTS[taken.port].name
    wires = [graph.wires[number] for number in taken.wires]
    if graph.nodes[node].number_of_class == tables.SELECT:
        return 'with condition %s it is its %s, %s' % (condition, port, graph.source(wires[0]))
    targets = ', '.join(graph.end(wire.target, wire.target_port) for wire in wires)
    return 'with condition %s it is its %s, %s' % (condition, port, 'to ' + targets if targets else 'with no wire')


def _wire_lines(folded):
    rows = []
    for number, (wire, change) in enumerate(zip(folded.graph.wires, folded.changes)):
        rows.append((str(number), folded.graph.wire_text(wire), wire_fate(folded.graph, wire, change)))
    return _table(rows)


def wire_fate(graph, wire, change):
    """What became of a wire, in words."""
    if not change.wires:
        return 'dropped: ' + change.reason
    if change.wires == [wire]:
        return 'as it was'
    return 'now ' + ', '.join(graph.wire_text(new) for new in change.wires)
