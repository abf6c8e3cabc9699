//! What can be reached at all: refusals at places, shapes of planned trees, and planned rows under each name line with
//! each LOSS.

use super::MOST_LOSS;
use crate::settings::read_value;
use crate::{Kind, Outcome, Phrase, LOSS_NAMES};
use std::collections::BTreeMap;

/// The depths that can be the first with too few slots (condition 7, with each router's own limit of request E2). Found
/// by `search` below, which goes through every tree, superframe order and load that document 01 and request E5 allow.
/// Depth 3 is never the first, and neither is one from 7 on.
const OVERFULL_DEPTHS: [u32; 6] = [0, 1, 2, 4, 5, 6];

/// The shapes that some planned row has are those with SINK = 0, whatever H is, and those with 1 ≤ SINK ≤ H ≤ 8. Found
/// by the same search.
const HIGHEST_WITH_SINK_AT_ROOT: u64 = 12;
const HIGHEST_WITH_SINK_BELOW: u64 = 8;

/// Phrase and place of every refusal that a row can get after the name line was found right. Numbers 2 to 6 have every
/// place that the table of document 01 and request E5 name for them; that rows for all of them exist is shown by
/// drawing them. Text after the last value has place 13 under 12 names and 14 under 13; the value of place 13 and the
/// others there need 13 names.
pub fn reachable_refusals() -> Vec<(Phrase, u32)> {
    let at = |phrase, places: &[u32]| places.iter().map(|&place| (phrase, place)).collect::<Vec<_>>();
    let columns: Vec<u32> = (1..=13).collect();
    [
        at(Phrase::Value, &columns),
        at(Phrase::TextAfter, &[13, 14]),
        at(Phrase::Range, &columns),
        at(Phrase::OrdersAtOdds, &[2]),
        at(Phrase::RoutersAtOdds, &[4]),
        at(Phrase::NothingSenses, &[5]),
        at(Phrase::SinkTooDeep, &[7]),
        at(Phrase::SinkOnOneBranch, &[7]),
        at(Phrase::FrameTooLong, &[11]),
        at(Phrase::LossWithoutAck, &[13]),
        at(Phrase::Reservations, &[0]),
        at(Phrase::Routers, &[0]),
        at(Phrase::Slots, &OVERFULL_DEPTHS),
    ]
    .concat()
}

/// Every (H, SINK) for which some row is planned.
pub fn plannable_shapes() -> Vec<(u64, u64)> {
    let at_root = (0..=HIGHEST_WITH_SINK_AT_ROOT).map(|height| (height, 0));
    let below = (1..=HIGHEST_WITH_SINK_BELOW).flat_map(|height| (1..=height).map(move |sink| (height, sink)));
    at_root.chain(below).collect()
}

/// How often each refusal, by phrase and place, each shape of a plan and each LOSS of one has occurred.
#[derive(Default)]
pub struct Seen {
    pub refusals: BTreeMap<(Phrase, u32), u64>,
    pub shapes: BTreeMap<(u64, u64), u64>,
    /// Planned rows by their LOSS; none for those under 12 names.
    pub losses: BTreeMap<Option<u64>, u64>,
}

impl Seen {
    /// Counts what came of a row under a name line. H is the number of upward lines, SINK the depth of the sink's line.
    pub fn note(&mut self, names: &[u8], row: &[u8], outcome: &Outcome) {
        match outcome {
            Err(refusal) => *self.refusals.entry((refusal.phrase, refusal.place)).or_default() += 1,
            Ok(plan) => {
                let last = row.rsplit(|&byte| byte == b' ').next().and_then(read_value);
                *self.losses.entry(last.filter(|_| names == LOSS_NAMES.as_bytes())).or_default() += 1;
                let height = plan.lines.iter().filter(|line| line.kind == Kind::Up).count();
                let sink = plan.lines.iter().find(|line| line.kind == Kind::Sink).map_or(0, |line| line.depth);
                *self.shapes.entry((height as u64, sink as u64)).or_default() += 1;
            }
        }
    }

    /// What can be reached and has not occurred.
    pub fn missing(&self) -> Vec<String> {
        let refusals = reachable_refusals().into_iter().filter(|refusal| !self.refusals.contains_key(refusal));
        let shapes = plannable_shapes().into_iter().filter(|shape| !self.shapes.contains_key(shape));
        let losses = [None].into_iter().chain((0..=MOST_LOSS).map(Some)).filter(|loss| !self.losses.contains_key(loss));
        refusals.map(name_refusal).chain(shapes.map(name_shape)).chain(losses.map(name_loss)).collect()
    }

    /// What has occurred although the search says that it cannot. A wrong name line (number 1) is no concern here.
    pub fn unexpected(&self) -> Vec<String> {
        let (refusals, shapes) = (reachable_refusals(), plannable_shapes());
        let refusals = self.refusals.keys().copied().filter(|seen| seen.0 != Phrase::Names && !refusals.contains(seen));
        let shapes = self.shapes.keys().copied().filter(|shape| !shapes.contains(shape));
        refusals.map(name_refusal).chain(shapes.map(name_shape)).collect()
    }
}

fn name_refusal((phrase, place): (Phrase, u32)) -> String {
    format!("refusal {} at place {place} ({phrase:?})", phrase.number())
}

fn name_loss(loss: Option<u64>) -> String {
    loss.map_or("plan under 12 names".to_string(), |loss| format!("plan with LOSS {loss}"))
}

fn name_shape((height, sink): (u64, u64)) -> String {
    format!("plan with H {height} and SINK {sink}")
}

#[cfg(test)]
mod tests {
    use super::*;
    use crate::settings::{settle, Settings, RANGES};
    use crate::tree::reserve;
    use std::collections::BTreeSet;

    /// RATE, M, ACK and LOSS.
    type Load = (u64, u64, bool, u64);

    /// One load for each product RATE × X, in the order of the products, where X is the time of the exchange with its
    /// failed tries. Slots depend on RATE and X through their product alone: k is the smallest with k × S ≥ n × RATE ×
    /// X, where n counts the sensors behind the link.
    fn loads() -> Vec<Load> {
        let with_ack = (0..=MOST_LOSS).map(|loss| (true, loss));
        let tries: Vec<(bool, u64)> = [(false, 0)].into_iter().chain(with_ack).collect();
        let mut exchanges = BTreeMap::new();
        for octets in 6..=127 {
            for &(acknowledged, loss) in &tries {
                let exchange = crate::air::exchange_with_loss(octets, acknowledged, loss);
                exchanges.entry(exchange).or_insert((octets, acknowledged, loss));
            }
        }
        let mut loads = BTreeMap::new();
        for rate in RANGES[8].0..=RANGES[8].1 {
            for (exchange, &(octets, acknowledged, loss)) in &exchanges {
                loads.entry(rate * exchange).or_insert((rate, octets, acknowledged, loss));
            }
        }
        loads.into_values().collect()
    }

    /// Every tree and superframe order that conditions 3 to 6 let pass with BO = 14. BO counts in condition 6 alone of
    /// those conditions and 7, and the largest one lets most trees pass. BURST counts in none.
    fn trees() -> Vec<Settings> {
        let mut trees = Vec::new();
        let ranges = [1, 2, 3, 4, 5, 6].map(|column: usize| RANGES[column]);
        let mut values = ranges.map(|(low, _)| low);
        loop {
            let [so, h, nr, ne, own, sink] = values;
            let settled = settle(&[14, so, h, nr, ne, own, sink, 1, 1, 5, 1, 0, 0]);
            trees.extend(settled.ok().filter(|tree| reserve(tree).err().is_none_or(|refusal| refusal.number == 7)));
            let Some(column) = (0..6).find(|&column| values[column] < ranges[column].1) else {
                return trees;
            };
            values[column] += 1;
            values[..column].copy_from_slice(&ranges.map(|(low, _)| low)[..column]);
        }
    }

    /// Goes through the loads of a tree from the least to the one with which depth 0 has too few slots; with a greater
    /// load it has too few as well, as no reservation then has fewer slots.
    fn search_tree(mut tree: Settings, loads: &[Load], depths: &mut BTreeSet<u32>) -> bool {
        let mut planned = false;
        for &(rate, octets, acknowledged, loss) in loads {
            (tree.rate, tree.octets, tree.acknowledged, tree.loss) = (rate, octets, acknowledged, loss);
            match reserve(&tree).err() {
                None => planned = true,
                Some(refusal) => {
                    depths.insert(refusal.place);
                    if refusal.place == 0 {
                        break;
                    }
                }
            }
        }
        planned
    }

    #[test]
    #[ignore = "an exhaustive search, some seconds long in release"]
    fn search() {
        let loads = loads();
        let mut depths = BTreeSet::new();
        let mut shapes = BTreeSet::new();
        for tree in trees() {
            let shape = (tree.height as u64, tree.sink as u64);
            if search_tree(tree, &loads, &mut depths) {
                shapes.insert(shape);
            }
        }
        assert_eq!(depths, BTreeSet::from(OVERFULL_DEPTHS));
        assert_eq!(shapes, BTreeSet::from_iter(plannable_shapes()));
    }
}
