//! Rewriting of the wires under a plan: what becomes of each wire record, and refusal 9.
//!
//! Two tables say what becomes of a wire, one by its target and one by its source. For a planned
//! Branch the first has the number of free targets that it leads to, and lists of wires lead
//! there; for a planned Select the second has the source that stands for it. They are filled in
//! time linear in nodes and wires, and writing takes time linear in the wires written.
use crate::Refusal;
use crate::decode::{Graph, wire_source, wire_target};
use crate::index::PortRef;
use crate::listing::*;
use crate::worklist::{Plan, Plans};

pub const MAX_REWRITTEN: usize = MAX_WIRES;
/// How many rewritten wires there may be before a sweep.
pub const MAX_UNSWEPT: usize = MAX_WIRES;

/// What a wire into a node becomes.
mod target {
    pub const NOTHING: u16 = 0;
    pub const ITSELF: u16 = 1;
    /// Into a Branch at Exec, as many wires as the rest of the number says, up to `CAP`; at another
    /// port, nothing.
    pub const BRANCH: u16 = 0x8000;
    pub const CAP: u16 = super::MAX_REWRITTEN as u16 + 1;
    /// In place of a count: a cycle.
    pub const CYCLE: u16 = CAP + 1;
}

/// Where a wire from a node starts: a port reference, or one of these.
mod source {
    pub const ITSELF: u16 = u16::MAX;
    /// The wire is dropped.
    pub const NOWHERE: u16 = ITSELF - 1;
    pub const CYCLE: u16 = ITSELF - 2;
    /// Of a Select that is not followed yet, and of one that is being followed.
    pub const UNKNOWN: u16 = ITSELF - 3;
    pub const OPEN: u16 = ITSELF - 4;
}

/// The end of a list of wires.
const END: u16 = u16::MAX;

/// The rewritten wires: the graph's own where nothing is planned, else in `buffer`. Refusal 10 where
/// they are too many.
pub fn rewritten<'a>(
    graph: &'a Graph,
    plans: &Plans,
    buffer: &'a mut [u8; 7 * MAX_UNSWEPT],
) -> Result<&'a [[u8; 7]], Refusal> {
    if !plans.any() {
        return Ok(graph.wires);
    }
    let mut rewriting = Rewriting::new(graph, plans);
    rewriting.prepare();
    // Without Selects and Branches the wires only get fewer.
    if (plans.selects || plans.branches) && rewriting.count()? > MAX_UNSWEPT {
        return Err((10, 0));
    }
    let mut writer = Writer { out: buffer, at: 0 };
    rewriting.write(&mut writer);
    let length = writer.at;
    Ok(buffer[..length].as_chunks().0)
}

pub struct Rewriting<'a> {
    graph: &'a Graph<'a>,
    plans: &'a Plans,
    targets: [u16; MAX_NODES],
    sources: [u16; MAX_NODES],
    /// Of each planned Branch, the first of its taken wires; after each wire, the next.
    first: [u16; MAX_NODES],
    next: [u16; MAX_WIRES],
    /// The wires to go on with, Branch by Branch.
    stack: [u16; MAX_NODES],
}

impl<'a> Rewriting<'a> {
    #[inline(always)]
    pub fn new(graph: &'a Graph, plans: &'a Plans) -> Self {
        Rewriting {
            graph,
            plans,
            targets: [target::NOTHING; MAX_NODES],
            sources: [0; MAX_NODES],
            first: [0; MAX_NODES],
            next: [0; MAX_WIRES],
            stack: [0; MAX_NODES],
        }
    }

    /// Fills the tables.
    pub fn prepare(&mut self) {
        self.fill();
        if self.plans.branches {
            self.list_taken();
            self.count_targets();
        }
        if self.plans.selects {
            self.follow_selects();
        }
    }

    fn fill(&mut self) {
        for node in 0..self.graph.nodes.len() {
            (self.targets[node], self.sources[node]) = match self.plans.plan[node] {
                Plan::Keep => (target::ITSELF, source::ITSELF),
                Plan::BecomeLiteral => (target::NOTHING, PortRef::new(node as u16, port::OUTPUT).0),
                Plan::ShortCircuit => (target::NOTHING, source::UNKNOWN),
                Plan::Truncate => (target::NOTHING, source::NOWHERE),
            };
        }
    }

    /// The number of wires left, or refusal 9 at the first wire whose rewriting does not end.
    pub fn count(&self) -> Result<usize, Refusal> {
        let mut total = 0;
        for (number, wire) in self.graph.wires.iter().enumerate() {
            let targets = self.target_count(wire);
            if targets == 0 {
                continue;
            }
            let source = self.source(wire);
            if targets == target::CYCLE || source == source::CYCLE {
                return Err((9, self.graph.wire_offset(number)));
            }
            if source != source::NOWHERE {
                total += usize::from(targets);
            }
        }
        Ok(total)
    }

    /// How many free targets a wire has, up to `CAP`, or `CYCLE`.
    #[inline(always)]
    fn target_count(&self, wire: &[u8; 7]) -> u16 {
        let target = self.targets[usize::from(wire_target(wire))];
        if target & target::BRANCH == 0 {
            target
        } else if wire[6] == port::EXEC {
            target & !target::BRANCH
        } else {
            0
        }
    }

    #[inline(always)]
    fn source(&self, wire: &[u8; 7]) -> u16 {
        self.sources[usize::from(wire_source(wire))]
    }

    /// Whether a wire stays as it is.
    #[inline(always)]
    fn is_unchanged(&self, wire: &[u8; 7]) -> bool {
        let stays = self.targets[usize::from(wire_target(wire))] == target::ITSELF;
        let source = self.source(wire);
        stays && (source == source::ITSELF || source == PortRef::new(wire_source(wire), wire[3]).0)
    }

    /// Writes the wires left, unchanged ones in runs. `count` accepts them, or there is no planned
    /// Select or Branch.
    pub fn write(&mut self, out: &mut Writer) {
        let mut rest = self.graph.wires;
        while let Some((wire, after)) = rest.split_first() {
            if self.is_unchanged(wire) {
                let run = after.iter().position(|wire| !self.is_unchanged(wire));
                let (unchanged, after) = rest.split_at(1 + run.unwrap_or(after.len()));
                out.put(unchanged.as_flattened());
                rest = after;
            } else {
                self.write_changed(wire, out);
                rest = after;
            }
        }
    }

    #[inline(always)]
    fn write_changed(&mut self, wire: &[u8; 7], out: &mut Writer) {
        if self.target_count(wire) == 0 {
            return;
        }
        let source = match self.source(wire) {
            source::NOWHERE => return,
            source::ITSELF => PortRef::new(wire_source(wire), wire[3]),
            source => PortRef(source),
        };
        let target = wire_target(wire);
        if self.plans.is_branch(target) {
            self.each_target(target, |wire| out.put_wire(source, wire));
        } else {
            out.put_wire(source, wire);
        }
    }

    fn follow_selects(&mut self) {
        for select in 0..self.graph.nodes.len() {
            if self.sources[select] == source::UNKNOWN {
                let end = self.follow(select);
                self.close(select, end);
            }
        }
    }

    /// Opens the Selects from one on along their chosen sources, up to where these end.
    fn follow(&mut self, select: usize) -> u16 {
        let mut at = select;
        loop {
            self.sources[at] = source::OPEN;
            let chosen = self.plans.route[at];
            at = chosen.node();
            match self.sources[at] {
                source::UNKNOWN => {}
                source::OPEN => return source::CYCLE,
                source::ITSELF => return chosen.0,
                end => return end,
            }
        }
    }

    /// Gives the end to each open Select from one on.
    fn close(&mut self, select: usize, end: u16) {
        let mut at = select;
        while self.sources[at] == source::OPEN {
            self.sources[at] = end;
            at = self.plans.route[at].node();
        }
    }

    /// Lists the taken wires of each planned Branch in wire order.
    fn list_taken(&mut self) {
        self.first = [END; MAX_NODES];
        for (number, wire) in self.graph.wires.iter().enumerate().rev() {
            let source = wire_source(wire);
            if self.plans.is_branch(source) && self.plans.takes(source, wire[3]) {
                let first = &mut self.first[usize::from(source)];
                self.next[number] = *first;
                *first = number as u16;
            }
        }
    }

    /// Counts the free targets of each planned Branch, depth first.
    fn count_targets(&mut self) {
        let mut search = Search::new();
        for branch in 0..self.graph.nodes.len() as u16 {
            if self.plans.is_branch(branch) && search.enter(branch, self.first(branch)) {
                self.finish(&mut search);
            }
        }
    }

    /// Works a search off until no Branch is open.
    fn finish(&mut self, search: &mut Search) {
        while let Some(top) = search.top() {
            if top.wire == END {
                self.targets[usize::from(top.branch)] = counted(top.count);
                self.keep_live(top.branch);
                search.leave();
                continue;
            }
            let wire = &self.graph.wires[usize::from(top.wire)];
            let target = wire_target(wire);
            let mut count = self.target_count(wire);
            if wire[6] == port::EXEC && self.plans.is_branch(target) {
                if search.is_open(target) {
                    count = target::CYCLE;
                } else if search.enter(target, self.first(target)) {
                    continue;
                }
            }
            search.advance(count, &self.next);
        }
    }

    fn first(&self, branch: u16) -> u16 {
        self.first[usize::from(branch)]
    }

    /// Keeps of a counted Branch's wires those that lead to a free target. A single one into
    /// another Branch gives way to the list of that one, so every list that leads to lists has two
    /// wires or more.
    fn keep_live(&mut self, branch: u16) {
        let (mut head, mut tail, mut kept) = (END, END, 0);
        let mut at = self.first(branch);
        while at != END {
            let number = usize::from(at);
            if self.target_count(&self.graph.wires[number]) != 0 {
                match tail {
                    END => head = at,
                    _ => self.next[usize::from(tail)] = at,
                }
                (tail, kept) = (at, kept + 1);
            }
            at = self.next[number];
        }
        if kept > 0 {
            self.next[usize::from(tail)] = END;
        }
        if kept == 1 {
            let target = wire_target(&self.graph.wires[usize::from(head)]);
            if self.plans.is_branch(target) {
                head = self.first(target);
            }
        }
        self.first[usize::from(branch)] = head;
    }

    /// Calls `f` with each wire that enters a free target of a Branch, in order.
    #[inline(always)]
    fn each_target(&mut self, branch: u16, mut f: impl FnMut(&[u8; 7])) {
        let mut depth = 0;
        let mut at = self.first(branch);
        loop {
            while at == END {
                if depth == 0 {
                    return;
                }
                depth -= 1;
                at = self.stack[depth];
            }
            let wire = &self.graph.wires[usize::from(at)];
            let after = self.next[usize::from(at)];
            if !self.plans.is_branch(wire_target(wire)) {
                f(wire);
                at = after;
                continue;
            }
            if after != END {
                self.stack[depth] = after;
                depth += 1;
            }
            at = self.first(wire_target(wire));
        }
    }
}

/// A Branch's entry in the table of targets.
fn counted(count: u16) -> u16 {
    match count {
        0 => target::NOTHING,
        _ => target::BRANCH | count,
    }
}

/// Appends to a buffer that has room for all that is written.
pub struct Writer<'a> {
    pub out: &'a mut [u8],
    pub at: usize,
}

impl Writer<'_> {
    #[inline(always)]
    pub fn put(&mut self, bytes: &[u8]) {
        self.out[self.at..self.at + bytes.len()].copy_from_slice(bytes);
        self.at += bytes.len();
    }

    /// Puts a wire record with another source: the record as it is, then its first four bytes.
    #[inline(always)]
    fn put_wire(&mut self, source: PortRef, wire: &[u8; 7]) {
        let record: &mut [u8; 7] = self.out[self.at..].first_chunk_mut().expect("room");
        let head =
            u32::from(source.port()) << 24 | (source.node() as u32) << 8 | u32::from(kind::WIRE);
        *record = *wire;
        record[..4].copy_from_slice(&head.to_le_bytes());
        self.at += 7;
    }
}

/// A depth-first search: the open Branches, each with the wire that it is at and its count so far.
struct Search {
    visits: [Visit; MAX_NODES],
    stack: [Open; MAX_NODES],
    depth: usize,
}

#[derive(Clone, Copy, PartialEq)]
enum Visit {
    New,
    Open,
    Done,
}

#[derive(Clone, Copy)]
struct Open {
    branch: u16,
    wire: u16,
    count: u16,
}

impl Search {
    #[inline(always)]
    fn new() -> Self {
        let nothing = Open {
            branch: 0,
            wire: 0,
            count: 0,
        };
        Search {
            visits: [Visit::New; MAX_NODES],
            stack: [nothing; MAX_NODES],
            depth: 0,
        }
    }

    /// Opens a Branch at its first wire; `false` if it was visited before.
    fn enter(&mut self, branch: u16, wire: u16) -> bool {
        let visit = &mut self.visits[usize::from(branch)];
        if *visit != Visit::New {
            return false;
        }
        *visit = Visit::Open;
        self.stack[self.depth] = Open {
            branch,
            wire,
            count: 0,
        };
        self.depth += 1;
        true
    }

    fn is_open(&self, branch: u16) -> bool {
        self.visits[usize::from(branch)] == Visit::Open
    }

    fn top(&self) -> Option<&Open> {
        self.stack[..self.depth].last()
    }

    /// Adds a count to the Branch on top and goes to its next wire.
    fn advance(&mut self, count: u16, next: &[u16; MAX_WIRES]) {
        let top = &mut self.stack[self.depth - 1];
        top.count = added(top.count, count);
        top.wire = next[usize::from(top.wire)];
    }

    /// Closes the Branch on top. The one below is still at the wire that enters it.
    fn leave(&mut self) {
        self.depth -= 1;
        self.visits[usize::from(self.stack[self.depth].branch)] = Visit::Done;
    }
}

/// The sum of two counts, up to `CAP`; a cycle makes a cycle.
fn added(x: u16, y: u16) -> u16 {
    match (x, y) {
        (target::CYCLE, _) | (_, target::CYCLE) => target::CYCLE,
        _ => (x + y).min(target::CAP),
    }
}
