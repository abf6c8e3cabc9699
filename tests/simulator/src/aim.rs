//! Offsets, and for each node the symbol in which frames should come to it so that the whole tree's
//! frames meet at the sink.
//!
//! For one link with m starts the worst symbol for a frame to come is that of the window's last
//! start: it misses it, and the first frame is at the receiver BI − (m − 2) × X symbols later, which
//! is the latency T of document 01 (X with failed tries, as everywhere here). If the receiver's last
//! start is in that very symbol, the same happens there. So the symbols are worked out from the sink
//! outward: a node whose frames should come to its neighbour in symbol w has its first start in
//! symbol w − X, or as soon after it as the window allows, and its own frames should come in the last
//! start of the interval before.

use crate::air;
use crate::chance::Chance;
use crate::hold::Promises;
use crate::row::Row;
use crate::tree::{Way, Ways};
use crate::windows::{Place, Windows};

/// One offset and one symbol to aim at for each node.
#[derive(Clone, Debug)]
pub struct Aim {
    pub offsets: Vec<u64>,
    pub symbols: Vec<u64>,
}

/// Chooses offsets and symbols for a tree.
pub fn aim(
    row: &Row,
    promises: &Promises,
    tree: &impl Ways,
    windows: Windows,
    chance: &mut Chance,
) -> Result<Aim, String> {
    let ways = tree.ways();
    let sink = ways.iter().position(Option::is_none).ok_or("no sink")?;
    let order = outward(&ways, sink);
    let (bi, x) = (air::interval(row), air::exchange(row));
    let seed = chance.draw();
    let mut aim = Aim { offsets: vec![0; ways.len()], symbols: vec![0; ways.len()] };
    aim.symbols[sink] = at_sink(row, promises, &ways, &order)?;
    for node in order {
        let Some(Way { next, line }) = ways[node] else { continue };
        let slots = promises.line(line)?.slots;
        let first = aim.symbols[next] - x;
        let offset = windows.offset(&Place { row, slots, line, first, seed }, chance)?;
        aim.offsets[node] = offset;
        let begin = first.saturating_sub(offset).div_ceil(bi) * bi + offset;
        let rest = air::exchanges(row, slots).saturating_sub(1) * x;
        aim.symbols[node] = (begin + rest).saturating_sub(bi);
    }
    Ok(aim)
}

/// All nodes, the sink first, each after its neighbour on the way to the sink.
fn outward(ways: &[Option<Way>], sink: usize) -> Vec<usize> {
    let mut senders = vec![Vec::new(); ways.len()];
    for (node, way) in ways.iter().enumerate() {
        if let Some(way) = way {
            senders[way.next].push(node);
        }
    }
    let mut order = vec![sink];
    let mut done = 0;
    while done < order.len() {
        order.extend(&senders[order[done]]);
        done += 1;
    }
    order
}

/// The symbol to aim at for the sink: so late that no node's symbol is before 0 (a link takes at most
/// two intervals and an exchange), and within its interval so that a window there can begin with the
/// interval. A link with one exchange moves the windows behind it one exchange towards the beginning
/// of the interval, so there must be room for those.
fn at_sink(row: &Row, promises: &Promises, ways: &[Option<Way>], order: &[usize]) -> Result<u64, String> {
    let mut singles = std::collections::BTreeSet::new();
    for way in ways.iter().flatten() {
        if air::exchanges(row, promises.line(way.line)?.slots) == 1 {
            singles.insert(way.line);
        }
    }
    let links = longest_route(ways, order) + 2;
    let room = air::exchange(row) * (1 + singles.len() as u64);
    Ok(3 * links * air::interval(row) + room % air::interval(row))
}

/// The links of the longest route, where the nodes are given so that each comes after its neighbour on
/// the way to the sink.
fn longest_route(ways: &[Option<Way>], order: &[usize]) -> u64 {
    let mut links = vec![0; ways.len()];
    for &node in order {
        links[node] = ways[node].map_or(0, |way| links[way.next] + 1);
    }
    links.into_iter().max().unwrap_or(0)
}
