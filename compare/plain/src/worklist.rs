//! The worklist: which nodes become known, and what is planned.
use crate::decode::Graph;
use crate::gates;
use crate::index::{Feed, Index, PortRef};
use crate::listing::*;
use crate::value::{self, Known, Operand, UNWIRED, Value};

#[derive(Clone, Copy, PartialEq)]
pub enum Plan {
    /// The node stays as it is.
    Keep,
    /// It becomes a literal of its known value.
    BecomeLiteral,
    /// A Select that gives way to its chosen source.
    ShortCircuit,
    /// A Branch that gives way to the targets of the port that it takes.
    Truncate,
}

/// What is planned. Every table starts as zeros.
pub struct Plans {
    pub plan: [Plan; MAX_NODES],
    /// Of a planned Select, its chosen source; of a planned Branch, the port that it takes.
    pub route: [PortRef; MAX_NODES],
    /// Whether some node is to become a literal, and the bytes of all such values.
    pub literals: bool,
    pub literal_bytes: usize,
    /// Whether some Select, and some Branch, is planned.
    pub selects: bool,
    pub branches: bool,
}

impl Plans {
    #[inline(always)]
    pub fn nothing() -> Self {
        Plans {
            plan: [Plan::Keep; MAX_NODES],
            route: [PortRef(0); MAX_NODES],
            literals: false,
            literal_bytes: 0,
            selects: false,
            branches: false,
        }
    }

    /// Whether something is planned.
    #[inline(always)]
    pub fn any(&self) -> bool {
        self.literals || self.selects || self.branches
    }

    #[inline(always)]
    pub fn is_branch(&self, node: u16) -> bool {
        self.plan[usize::from(node)] == Plan::Truncate
    }

    /// Gives a node the fate of a planned Select; of a literal, with the bytes of its value.
    pub fn remove(&mut self, node: usize, value_bytes: usize) {
        if self.plan[node] == Plan::BecomeLiteral {
            self.literal_bytes -= value_bytes;
        }
        self.plan[node] = Plan::ShortCircuit;
    }

    #[inline(always)]
    pub fn is_removed(&self, node: u16) -> bool {
        let plan = self.plan[usize::from(node)];
        matches!(plan, Plan::ShortCircuit | Plan::Truncate)
    }

    /// Whether a planned Branch takes this port.
    pub fn takes(&self, branch: u16, port: u8) -> bool {
        self.route[usize::from(branch)].port() == port
    }
}

/// Runs the worklist from nothing known and planned, and gives the number of pops.
///
/// A node becomes known by its own trial only, so none that waits is known.
pub fn run(graph: &Graph, index: &Index, known: &mut Known, plans: &mut Plans) -> usize {
    let mut queue = Queue::empty();
    queue.fill(graph.nodes.len());
    let mut consumers = NodeSet::empty();
    let mut trials = Trials {
        graph,
        index,
        known,
        plans,
    };
    let mut pops = 0;
    while let Some(node) = queue.pop() {
        pops += 1;
        if !trials.becomes_known(node) {
            queue.reopen(node);
            continue;
        }
        index.each_consumer(node, |consumer| {
            if queue.is_open(consumer) {
                consumers.add(consumer);
            }
        });
        consumers.drain(|consumer| queue.push(consumer));
    }
    pops
}

/// The waiting nodes as a ring, with a mark for each node that waits or is known: neither is put
/// in. So no node waits twice, and the ring has places enough.
struct Queue {
    ring: [u16; MAX_NODES],
    marks: [bool; MAX_NODES],
    head: usize,
    count: usize,
}

impl Queue {
    #[inline(always)]
    fn empty() -> Self {
        Queue {
            ring: [0; MAX_NODES],
            marks: [false; MAX_NODES],
            head: 0,
            count: 0,
        }
    }

    /// Puts so many nodes into an empty queue.
    #[inline(always)]
    fn fill(&mut self, nodes: usize) {
        for (node, place) in self.ring.iter_mut().enumerate() {
            *place = node as u16;
        }
        self.marks[..nodes].fill(true);
        self.count = nodes;
    }

    /// Takes the node at the front; it stays marked.
    #[inline(always)]
    fn pop(&mut self) -> Option<usize> {
        self.count = self.count.checked_sub(1)?;
        let node = self.ring[self.head % MAX_NODES];
        self.head += 1;
        Some(usize::from(node))
    }

    #[inline(always)]
    fn push(&mut self, node: usize) {
        self.ring[(self.head + self.count) % MAX_NODES] = node as u16;
        self.marks[node % MAX_NODES] = true;
        self.count += 1;
    }

    /// Lets a node be put in again.
    #[inline(always)]
    fn reopen(&mut self, node: usize) {
        self.marks[node % MAX_NODES] = false;
    }

    #[inline(always)]
    fn is_open(&self, node: usize) -> bool {
        !self.marks[node % MAX_NODES]
    }
}

/// A set of nodes that is emptied in number order: a bit for each node, and one for each word that
/// has some.
struct NodeSet {
    words: [u64; MAX_NODES / 64],
    used: u16,
}

impl NodeSet {
    fn empty() -> Self {
        NodeSet {
            words: [0; MAX_NODES / 64],
            used: 0,
        }
    }

    #[inline(always)]
    fn add(&mut self, node: usize) {
        let word = node % MAX_NODES / 64;
        self.words[word] |= 1 << (node % 64);
        self.used |= 1 << word;
    }

    #[inline(always)]
    fn drain(&mut self, mut f: impl FnMut(usize)) {
        while self.used != 0 {
            let word = self.used.trailing_zeros() as usize;
            self.used &= self.used - 1;
            let mut bits = std::mem::take(&mut self.words[word]);
            while bits != 0 {
                f(64 * word + bits.trailing_zeros() as usize);
                bits &= bits - 1;
            }
        }
    }
}

struct Trials<'a> {
    graph: &'a Graph<'a>,
    index: &'a Index,
    known: &'a mut Known,
    plans: &'a mut Plans,
}

impl Trials<'_> {
    /// Tries an unknown node: adds what the trial gives, and says whether the node is known then.
    #[inline(always)]
    fn becomes_known(&mut self, node: usize) -> bool {
        let [_, class, flags] = self.graph.nodes[node];
        if flags & flag::NOFOLD != 0 {
            return false;
        }
        match class {
            class::OTHER => false,
            class::LITERAL => self.literal(node),
            class::CHIP_INPUT | class::CHIP_OUTPUT => self.chip(node),
            class::SELECT => self.select(node),
            class::BRANCH => self.branch(node),
            _ => self.gate(node, class),
        }
    }

    fn literal(&mut self, node: usize) -> bool {
        let Feed::Property(offset) = self.index.feed(node, port::VALUE) else {
            return false;
        };
        self.known.put_property(node, &self.graph.input[offset..]);
        true
    }

    /// A chip node passes on what its one wire brings.
    fn chip(&mut self, node: usize) -> bool {
        match self.index.feed(node, port::RER_INPUT) {
            Feed::Wire(source) => self.takes_value(node, source),
            _ => false,
        }
    }

    /// Gives a node the value of its source, if that has one.
    fn takes_value(&mut self, node: usize, source: PortRef) -> bool {
        let known = self.known.has(source.node());
        if known {
            self.known.copy(node, source.node());
        }
        known
    }

    fn select(&mut self, node: usize) -> bool {
        let Some(truthy) = self.condition(node, class::SELECT, port::SELECT_B) else {
            return false;
        };
        let chosen = if truthy { port::INPUT_B } else { port::INPUT_A };
        let Feed::Wire(source) = self.index.feed(node, chosen) else {
            return false;
        };
        self.plans.plan[node] = Plan::ShortCircuit;
        self.plans.selects = true;
        self.plans.route[node] = source;
        self.takes_value(node, source)
    }

    fn branch(&mut self, node: usize) -> bool {
        if let Some(truthy) = self.condition(node, class::BRANCH, port::COND) {
            let port = if truthy {
                port::EXEC_OUT_A
            } else {
                port::EXEC_OUT_B
            };
            self.plans.plan[node] = Plan::Truncate;
            self.plans.branches = true;
            self.plans.route[node] = PortRef::new(node as u16, port);
        }
        false
    }

    /// The truth of a Select's or Branch's condition, where its row is there.
    fn condition(&self, node: usize, class: u8, port: u8) -> Option<bool> {
        let mut held = [0.0; 4];
        let condition = self.resolve(node, port, &mut held)?;
        let covered = self.index.covers(class, condition.variant, 0, 0);
        covered.then(|| condition.truthy())
    }

    #[inline(always)]
    fn gate(&mut self, node: usize, class: u8) -> bool {
        let value = self
            .evaluated(node, class)
            .or_else(|| self.annihilated(node, class));
        let Some(value) = value else {
            return false;
        };
        let size = self.known.put(node, value);
        self.plans.plan[node] = Plan::BecomeLiteral;
        self.plans.literals = true;
        self.plans.literal_bytes += size;
        true
    }

    /// What a gate gives once none of its inputs is unresolved.
    #[inline(always)]
    fn evaluated(&self, node: usize, class: u8) -> Option<Value> {
        let (mut held_a, mut held_b, mut held_c) = ([0.0; 4], [0.0; 4], [0.0; 4]);
        let inputs = row_length(class);
        let a = self.resolve(node, port::INPUT_A, &mut held_a)?;
        let (mut b, mut c) = (UNWIRED, UNWIRED);
        if inputs > 1 {
            b = self.resolve(node, port::INPUT_B, &mut held_b)?;
        }
        if inputs > 2 {
            c = self.resolve(node, port::INPUT_C, &mut held_c)?;
        }
        if !self.index.covers(class, a.variant, b.variant, c.variant) {
            return None;
        }
        match gates::eval(class, a, b, c) {
            Some(Value::Float(x)) if !x.is_finite() => None,
            value => value,
        }
    }

    /// The Bool that settles a gate, where an input is known as that.
    #[inline(always)]
    fn annihilated(&self, node: usize, class: u8) -> Option<Value> {
        if !self.index.has_annihilator(class) {
            return None;
        }
        let settling = class == class::LOGICAL_OR;
        let settles = |port: u8| {
            let mut held = [0.0; 4];
            let operand = self.resolve(node, port, &mut held).unwrap_or(UNWIRED);
            operand.variant == variant::BOOL && operand.truthy() == settling
        };
        let settled = settles(port::INPUT_A) || settles(port::INPUT_B);
        settled.then_some(Value::Bool(settling))
    }

    /// What a port gives, with `held` for the floats of a property; `None` where it is unresolved.
    #[inline(always)]
    fn resolve<'a>(&'a self, node: usize, port: u8, held: &'a mut [f64; 4]) -> Option<Operand<'a>> {
        match self.index.feed(node, port) {
            Feed::Nothing => Some(UNWIRED),
            Feed::Property(offset) => Some(value::read(&self.graph.input[offset..], held)),
            Feed::Wires => None,
            Feed::Wire(source) => {
                let operand = self.known.get(source.node());
                (operand.variant != variant::UNWIRED).then_some(operand)
            }
        }
    }
}
