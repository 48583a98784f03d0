//! Harness, no part of the Rust: runs `fold_certified_constants` and takes out what it found, and
//! runs `sweep_dead_pure`. A child module of lower/fold/mod.rs reaches its private items.
//!
//! `rewrite_wires` never ends on some graphs, and on some its list outgrows every memory before it
//! ends. `may_pass` and `may_hold` stop it there. It treats each wire by itself and puts what the
//! wire becomes in its place, so each wire is then given to it alone, a pass at a time: a wire that
//! comes back to itself is one on which it never ends.
use super::{PlanAction, Value, fold_certified_constants, rewrite_wires, sweep_dead_pure};
use crate::collections::{HashMap, HashSet};
use crate::ir::{Module, NodeId, PortRef, Wire};
use std::cell::{Cell, RefCell};

/// Document 01's limit of rewritten wires; beyond it they are counted, not listed.
pub const MAX_REWRITTEN: u64 = 4_096;
/// The longest list that `rewrite_wires` may build.
const MAX_WIRES: usize = 200_000;

type Known = HashMap<NodeId, Value>;
type Plan = HashMap<NodeId, PlanAction>;

/// What the fold found, and how its rewriting went. The nodes' fates are in the module.
pub struct Folded {
    pub known: Known,
    pub pops: usize,
    pub rewriting: Rewriting,
}

pub enum Rewriting {
    /// It ended on the whole list: the module has the wires.
    Whole,
    /// It outgrew `MAX_WIRES`, and ends on each wire alone: how many wires are left (`u64::MAX`
    /// for that many or more) and, where that is at most `MAX_REWRITTEN`, which.
    Apart { total: u64, wires: Vec<Wire> },
    /// The first wire at fault is one that it never ends on: its number.
    Diverges(usize),
    /// The first wire at fault is one that it ends on and leaves at a removed node: its number.
    Dangles(usize),
}

thread_local! {
    static POPS: Cell<usize> = const { Cell::new(0) };
    static KEPT: RefCell<Option<(Known, Plan, Vec<Wire>)>> = const { RefCell::new(None) };
    static PASSES_LEFT: Cell<usize> = const { Cell::new(0) };
    static STOPPED: Cell<bool> = const { Cell::new(false) };
    static PURE: Cell<&'static [&'static str]> = const { Cell::new(&[]) };
}

/// `fold_certified_constants` through `apply`.
pub fn fold(root: &mut Module) -> Folded {
    // A wire on which `rewrite_wires` ends is changed by at most nodes + 1 passes: each but the
    // last enters a planned Branch, or leaves a planned Select, that the wire had not met so
    // before. One more pass changes nothing.
    limit_passes(root.nodes.len() + 2);
    POPS.set(0);
    fold_certified_constants(root);
    let stopped = STOPPED.get();
    let (known, plan, wires) = KEPT.take().unwrap_or_default();
    let rewriting = if stopped || root.wires.iter().any(|w| dangles(w, &plan)) {
        rewrite_apart(&wires, &plan)
    } else {
        Rewriting::Whole
    };
    Folded {
        known,
        pops: POPS.get(),
        rewriting,
    }
}

/// `sweep_dead_pure`, with these classes in place of those of `is_pure_expr`.
pub fn sweep(root: &mut Module, pure: &'static [&'static str], protected: &HashSet<NodeId>) {
    PURE.set(pure);
    sweep_dead_pure(root, protected);
}

/// Asked of each node's class, in place of `is_pure_expr`.
pub(super) fn is_pure(class: &str) -> bool {
    PURE.get().contains(&class)
}

/// Called for each node taken from the worklist.
pub(super) fn pop() {
    POPS.set(POPS.get() + 1);
}

/// Called after `apply`, with the wires as they were before it.
pub(super) fn keep(known: Known, plan: Plan, wires: Vec<Wire>) {
    KEPT.set(Some((known, plan, wires)));
}

/// Whether `rewrite_wires` may begin a pass.
pub(super) fn may_pass() -> bool {
    match PASSES_LEFT.get().checked_sub(1) {
        Some(left) => PASSES_LEFT.set(left),
        None => STOPPED.set(true),
    }
    !STOPPED.get()
}

/// Whether `rewrite_wires` may go on with a list of this length.
pub(super) fn may_hold(wires: usize) -> bool {
    if wires > MAX_WIRES {
        STOPPED.set(true);
    }
    !STOPPED.get()
}

fn limit_passes(passes: usize) {
    PASSES_LEFT.set(passes);
    STOPPED.set(false);
}

/// What one pass of `rewrite_wires` makes of a wire; `None` where it leaves it unchanged.
fn rewrite_once(wire: Wire, plan: &Plan) -> Option<Vec<Wire>> {
    limit_passes(1);
    let next = rewrite_wires(vec![wire], plan);
    STOPPED.get().then_some(next)
}

/// Whether an end of the wire is a removed node.
fn dangles(wire: &Wire, plan: &Plan) -> bool {
    [wire.source, wire.target].iter().any(|end| {
        matches!(
            plan.get(&end.node_id),
            Some(PlanAction::ShortCircuit { .. } | PlanAction::Truncate { .. })
        )
    })
}

fn rewrite_apart(wires: &[Wire], plan: &Plan) -> Rewriting {
    let mut total = 0u64;
    let mut left = Vec::new();
    for (number, &wire) in wires.iter().enumerate() {
        let mut alone = Alone {
            plan,
            seen: HashMap::default(),
        };
        match alone.end(wire) {
            End::Left(n) => total = total.saturating_add(n),
            End::Dangles => return Rewriting::Dangles(number),
            End::Diverges => return Rewriting::Diverges(number),
        }
        if total <= MAX_REWRITTEN {
            alone.list(wire, &mut left);
        } else {
            left.clear();
        }
    }
    Rewriting::Apart { total, wires: left }
}

/// The rewriting of one wire alone.
struct Alone<'p> {
    plan: &'p Plan,
    /// Each wire met on the way: its end (`None` while that is being worked out) and what one pass
    /// makes of it, nothing for a wire that is left.
    seen: HashMap<(PortRef, PortRef), (Option<End>, Vec<Wire>)>,
}

/// How the rewriting of a wire ends, the worst last.
#[derive(Clone, Copy, PartialEq, Eq, PartialOrd, Ord)]
enum End {
    /// With this many wires.
    Left(u64),
    Dangles,
    Diverges,
}

impl End {
    fn and(self, other: Self) -> Self {
        match (self, other) {
            (Self::Left(m), Self::Left(n)) => Self::Left(m.saturating_add(n)),
            _ => self.max(other),
        }
    }
}

impl Alone<'_> {
    fn end(&mut self, wire: Wire) -> End {
        let key = (wire.source, wire.target);
        if let Some((end, _)) = self.seen.get(&key) {
            return end.unwrap_or(End::Diverges);
        }
        self.seen.insert(key, (None, Vec::new()));
        let (end, next) = match rewrite_once(wire, self.plan) {
            None if dangles(&wire, self.plan) => (End::Dangles, Vec::new()),
            None => (End::Left(1), Vec::new()),
            Some(next) => {
                let end = next
                    .iter()
                    .fold(End::Left(0), |end, &w| end.and(self.end(w)));
                (end, next)
            }
        };
        self.seen.insert(key, (Some(end), next));
        end
    }

    /// Appends the wires that are left of a wire whose end is known to be `Left`.
    fn list(&self, wire: Wire, left: &mut Vec<Wire>) {
        let (end, next) = &self.seen[&(wire.source, wire.target)];
        if *end == Some(End::Left(0)) {
            return;
        }
        if next.is_empty() {
            left.push(wire);
        }
        for &w in next {
            self.list(w, left);
        }
    }
}
