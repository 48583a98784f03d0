//! The answer: known values, fates, rewritten wires.
use crate::Refusal;
use crate::decode::{Graph, wire_target};
use crate::listing::*;
use crate::rewrite::{MAX_REWRITTEN, Rewriting, Writer};
use crate::value::Known;
use crate::worklist::{Plan, Plans};

/// What folding has found.
pub struct Found<'a> {
    pub graph: &'a Graph<'a>,
    pub known: &'a Known,
    pub plans: &'a Plans,
}

impl Found<'_> {
    /// The lengths of the known values and of the fates.
    fn lengths(&self) -> (usize, usize) {
        let known = 4 * self.known.count + self.known.bytes;
        let fates = 3 * self.graph.nodes.len() + self.plans.literal_bytes;
        (known, fates)
    }

    /// Writes the answer and gives its length. A refused answer leaves `out` as it is.
    pub fn write(&self, out: &mut [u8]) -> Result<usize, Refusal> {
        if self.plans.any() {
            return self.write_rewritten(out);
        }
        let wires = self.graph.wires;
        self.check_room(wires.len(), out)?;
        let mut writer = self.write_nodes(out);
        writer.put(wires.as_flattened());
        Ok(writer.at)
    }

    /// Without Selects and Branches the wires only get fewer: they are counted where the buffer
    /// does not hold them all.
    fn write_rewritten(&self, out: &mut [u8]) -> Result<usize, Refusal> {
        let mut rewriting = Rewriting::new(self.graph, self.plans);
        rewriting.prepare();
        let all = self.check_room(self.graph.wires.len(), out);
        if self.plans.selects || self.plans.branches || all.is_err() {
            self.check_room(rewriting.count()?, out)?;
        }
        let mut writer = self.write_nodes(out);
        rewriting.write(&mut writer);
        Ok(writer.at)
    }

    /// Writes the answer of which so many of the rewritten wires stay, those into no removed node,
    /// and gives its length. A refused answer leaves `out` as it is.
    pub fn write_swept(
        &self,
        wires: &[[u8; 7]],
        left: usize,
        out: &mut [u8],
    ) -> Result<usize, Refusal> {
        self.check_room(left, out)?;
        let mut writer = self.write_nodes(out);
        if left == wires.len() {
            writer.put(wires.as_flattened());
            return Ok(writer.at);
        }
        for wire in wires {
            if !self.plans.is_removed(wire_target(wire)) {
                writer.put(wire);
            }
        }
        Ok(writer.at)
    }

    /// Refusal 10.
    fn check_room(&self, wires: usize, out: &[u8]) -> Result<(), Refusal> {
        let (known, fates) = self.lengths();
        if wires > MAX_REWRITTEN || known + fates + 7 * wires > out.len() {
            return Err((10, 0));
        }
        Ok(())
    }

    /// Writes the known values and the fates; the writer is behind them.
    fn write_nodes<'o>(&self, out: &'o mut [u8]) -> Writer<'o> {
        let (known_length, fates_length) = self.lengths();
        let (mut at, mut fate_at) = (0, known_length);
        for node in 0..self.graph.nodes.len() {
            let variant = self.known.variant(node);
            let [low, high] = (node as u16).to_le_bytes();
            if variant != variant::UNWIRED {
                let head = [kind_of(variant), low, high, port::VALUE];
                at += self.known.write(node, head, &mut out[at..]);
            }
            fate_at += match self.plans.plan[node] {
                Plan::Keep => put(out, fate_at, [kind::KEPT, low, high]),
                Plan::BecomeLiteral => {
                    let head = [kind::REMOVED + variant, low, high];
                    self.known.write(node, head, &mut out[fate_at..])
                }
                _ => put(out, fate_at, [kind::REMOVED, low, high]),
            };
        }
        Writer {
            out,
            at: known_length + fates_length,
        }
    }
}

#[inline(always)]
fn put(out: &mut [u8], at: usize, record: [u8; 3]) -> usize {
    out[at..at + 3].copy_from_slice(&record);
    3
}
