"""What an answer did to its graph: which port each removed node took, which nodes feed nothing and were taken, and what
each wire became."""
from collections import Counter
from typing import NamedTuple

from . import tables
from .records import NotAnAnswer, Wire
from .values import Value, is_true


class Taken(NamedTuple):
    """The port that a removed Select or Branch took, its condition (None: Unwired) and the numbers of that port's wires."""
    condition: Value
    port: int
    wires: tuple


class Change(NamedTuple):
    """The wires that a wire became, and in words why there is none."""
    wires: list
    reason: str = ''


def wires_of(changes):
    return [wire for change in changes for wire in change.wires]


class Folded:
    """Raises NotAnAnswer where the answer cannot be the graph's. `swept` has the nodes that the last stage took; it is empty
    where the stage did not run or found none."""

    def __init__(self, graph, answer):
        self.graph, self.answer = graph, answer
        self.into, self.out_of = {}, {}
        for number, wire in enumerate(graph.wires):
            self.into.setdefault((wire.target, wire.target_port), []).append(number)
            self.out_of.setdefault((wire.source, wire.source_port), []).append(number)
        for node, fate in enumerate(answer.fates):
            if fate.value is not None and answer.known.get(node) != fate.value:
                raise NotAnAnswer('%s is made a literal that is not its known value' % graph.names[node])
        self.values = {(item.node, item.port): item.value for item in graph.properties}
        gone = [node for node, fate in enumerate(answer.fates) if fate.kind is tables.REMOVED]
        self.swept = {node for node in gone if self._is_pure(node)}
        self.taken = {node: self._taken(node) for node in gone if node not in self.swept}
        self._leads = {}
        self.changes = self._all_changes()

    def removed(self, node, number_of_class):
        return node in self.taken and self.graph.nodes[node].number_of_class == number_of_class

    def is_literal(self, node):
        """Whether the node was made a literal; of a gate that was taken, its known value says so."""
        if node in self.swept:
            return self.graph.nodes[node].number_of_class != tables.LITERAL and node in self.answer.known
        return self.answer.fates[node].value is not None

    def remains(self, node):
        return self.answer.fates[node].kind is not tables.REMOVED

    def _is_pure(self, node):
        return self.graph.nodes[node].node_class.folding in tables.PURE

    def _taken(self, node):
        name, node_class = self.graph.names[node], self.graph.nodes[node].node_class
        if node_class.number not in (tables.SELECT, tables.BRANCH):
            raise NotAnAnswer('%s is removed, and no %s ever is' % (name, node_class.name))
        condition = self._condition(node, node_class.folding.inputs[0])
        if node_class.number == tables.BRANCH:
            port = tables.EXEC_OUT_A if is_true(condition) else tables.EXEC_OUT_B
            return Taken(condition, port, tuple(self.out_of.get((node, port), ())))
        port = tables.INPUT_B if is_true(condition) else tables.INPUT_A
        wires = self.into.get((node, port), ())
        if len(wires) != 1:
            raise NotAnAnswer('%s is removed with %d wires at %s' % (name, len(wires), tables.PORTS[port].name))
        return Taken(condition, port, tuple(wires))

    def _condition(self, node, port):
        wires = self.into.get((node, port), ())
        if not wires:
            return self.values.get((node, port))
        source = self.graph.wires[wires[0]].source
        if len(wires) > 1 or source not in self.answer.known:
            raise NotAnAnswer('%s is removed, and its condition is not known' % self.graph.names[node])
        return self.answer.known[source]

    def _all_changes(self):
        changes, count = [], 0
        for wire in self.graph.wires:
            changes.append(self._change(wire))
            count += len(changes[-1].wires)
            if count > tables.ANSWER_WIRES:
                raise NotAnAnswer('it has fates that give too many wires')
        if self.swept:
            self._check_swept(wires_of(changes))
            changes = [self._swept_change(change) for change in changes]
        if wires_of(changes) != self.answer.wires:
            raise NotAnAnswer('its wires are not what this graph and these fates give')
        return changes

    def _check_swept(self, wires):
        """Raises NotAnAnswer where the taken nodes are not those that feed nothing, with these wires before the stage."""
        name, nodes, dead = self.graph.names, self.graph.nodes, self._dead(wires)
        for node in sorted(self.swept ^ dead):
            if node in dead:
                raise NotAnAnswer('%s feeds nothing and stays, and others are taken' % name[node])
            if nodes[node].flags:
                raise NotAnAnswer('%s is taken, and it is marked%s' % (name[node], nodes[node].flag_words))
            fed = next(wire.target for wire in wires if wire.source == node and wire.target not in dead)
            raise NotAnAnswer('%s is taken, and it feeds %s' % (name[node], name[fed]))
        literals = [kind.variant for kind in tables.LITERALS]
        for node in self.swept:
            if self.is_literal(node) and self.answer.known[node].variant not in literals:
                raise NotAnAnswer('%s is known as what no gate gives' % name[node])

    def _dead(self, wires):
        """The nodes that feed nothing, or only such nodes, and may be taken."""
        may_go = {node for node in range(len(self.graph.nodes)) if self._is_pure(node) and not self.graph.nodes[node].flags}
        feeding, sources = Counter(wire.source for wire in wires), {}
        for wire in wires:
            sources.setdefault(wire.target, []).append(wire.source)
        dead = [node for node in may_go if not feeding[node]]
        for node in dead:
            for source in sources.get(node, ()):
                feeding[source] -= 1
                if not feeding[source] and source in may_go:
                    dead.append(source)
        return set(dead)

    def _swept_change(self, change):
        """The change without the wires into taken nodes."""
        wires = [wire for wire in change.wires if wire.target not in self.swept]
        if wires or not change.wires:
            return Change(wires, change.reason)
        names = list(dict.fromkeys(self.graph.names[wire.target] for wire in change.wires))
        return Change([], '%s %s taken' % (', '.join(names), 'is' if len(names) == 1 else 'are'))

    def _change(self, wire):
        reason = self._reason(wire)
        if reason:
            return Change([], reason)
        if not self._leads_on(wire.target):
            return Change([], '%s is removed and leads to no node that remains' % self.graph.names[wire.target])
        source, port = self._source(wire.source, wire.source_port)
        if self.removed(source, tables.BRANCH):
            return Change([], 'it starts at %s, which is removed' % self.graph.names[source])
        targets = self._targets(wire.target, wire.target_port, tables.ANSWER_WIRES + 1)
        return Change([Wire(source, port, *target) for target in targets])

    def _reason(self, wire):
        """Why a wire is dropped for its target alone; empty where it is not."""
        name = self.graph.names[wire.target]
        if self.is_literal(wire.target):
            return '%s is taken' % name if wire.target in self.swept else '%s is a literal now' % name
        into_branch = self.removed(wire.target, tables.BRANCH) and wire.target_port != tables.EXEC
        return '%s is removed' % name if into_branch or self.removed(wire.target, tables.SELECT) else ''

    def _source(self, node, port):
        """Where a source comes to behind removed Selects."""
        passed = set()
        while self.removed(node, tables.SELECT):
            if node in passed:
                raise NotAnAnswer('removed Selects lead in a cycle')
            passed.add(node)
            wire = self.graph.wires[self.taken[node].wires[0]]
            node, port = wire.source, wire.source_port
        return (node, tables.OUTPUT) if self.is_literal(node) else (node, port)

    def _next(self, branch):
        """The taken wires of a removed Branch that are not dropped at once."""
        wires = [self.graph.wires[number] for number in self.taken[branch].wires]
        return [wire for wire in wires if not self._reason(wire)]

    def _leads_on(self, node):
        """Whether a node remains, or is a removed Branch that leads to one that remains."""
        if node not in self._leads:
            order, path = [node], set()
            while order:
                self._visit(order, path)
        return self._leads[node]

    def _visit(self, order, path):
        """One step of the search in depth: the last node of `order` is settled, or what it needs is added."""
        node = order[-1]
        if node in self._leads or not self.removed(node, tables.BRANCH):
            self._leads.setdefault(node, True)
            order.pop()
            return
        targets = [wire.target for wire in self._next(node)]
        unsettled = [target for target in targets if target not in self._leads]
        if unsettled and node in path:
            raise NotAnAnswer('removed Branches lead in a cycle')
        if unsettled:
            path.add(node)
            order.extend(unsettled)
            return
        path.discard(node)
        self._leads[node] = any(self._leads[target] for target in targets)
        order.pop()

    def _targets(self, node, port, most):
        """The ends that a wire into a node comes to behind removed Branches, in order, as far as `most`."""
        found, ahead = [], [(node, port)]
        while ahead and len(found) < most:
            node, port = ahead.pop()
            if self.removed(node, tables.BRANCH):
                ends = [(wire.target, wire.target_port) for wire in self._next(node) if self._leads_on(wire.target)]
                ahead.extend(reversed(ends))
            else:
                found.append((node, port))
        return found
