//! Rules of requests E3 and E5, each with one thing wrong.

use reference::{Beside, Kind, Network, Refusal as Reason, Superframe, TreeLink, TreePlan};

/// A planner's conditions 6, 5 and 7.
pub type Check = fn(&Network) -> Result<(), Reason>;
/// What becomes of a right plan of a network with these links.
pub type Change = fn(&[TreeLink], &mut TreePlan);
/// The list that is read in place of the one that was lent.
pub type Reading = fn(&[u8]) -> Vec<u8>;
/// What is taken in place of what is given beside a list.
pub type Taking = fn(&Beside) -> Beside;

/// Wrong conditions, with what is wrong in each.
pub const WRONG_CHECKS: [(&str, Check); 9] = [
    ("a downward link in the superframe of its receiver", |network| {
        let moved =
            |link: TreeLink| TreeLink { superframe: if is_down(&link) { link.to } else { link.superframe }, ..link };
        check_links(network, network.links().into_iter().map(moved).collect())
    }),
    ("the child on the sink's path counted twice", |network| {
        let mut links = network.links();
        links.extend(network.links().into_iter().filter(is_down));
        check_links(network, links)
    }),
    ("silent links counted as reservations", |network| {
        check_counted(network, |superframe, silent| superframe.reservations += silent)
    }),
    ("silent links counted for the beacon", |network| {
        let order = network.superframe_order();
        let reservable = |reservations: u64| {
            let beacon = if reservations == 0 { 38 } else { 40 + 6 * reservations };
            16_u64.saturating_sub((440 + beacon).div_ceil(60 << order))
        };
        check_counted(network, |superframe, silent| {
            superframe.reservable = reservable(superframe.reservations + silent);
        })
    }),
    ("7 before 5 at each router", |network| {
        network.check_routers()?;
        let mut superframes = network.superframes(&network.links()).into_iter();
        first(superframes.find_map(|superframe| superframe.too_full().or(superframe.too_many())))
    }),
    ("5 at all routers before 7 at any", |network| {
        network.check_routers()?;
        let superframes = network.superframes(&network.links());
        let too_many = superframes.iter().find_map(Superframe::too_many);
        first(too_many.or_else(|| superframes.iter().find_map(Superframe::too_full)))
    }),
    ("routers from the highest number on", |network| {
        network.check_routers()?;
        let mut superframes = network.superframes(&network.links()).into_iter().rev();
        first(superframes.find_map(|superframe| superframe.too_many().or(superframe.too_full())))
    }),
    ("6 after 5 and 7", |network| {
        check_superframes(network.superframes(&network.links()))?;
        network.check_routers()
    }),
    ("no condition 6", |network| check_superframes(network.superframes(&network.links()))),
];

/// Wrong lines, with what is wrong in each.
pub const WRONG_LINES: [(&str, Change); 7] = [
    ("the parent's depth", |_, plan| {
        plan.lines.iter_mut().for_each(|node| node.line.depth = node.line.depth.saturating_sub(1));
    }),
    ("a latency where there is no traffic", |_, plan| {
        let latency = plan.lines.iter().map(|node| node.line.latency).max().unwrap_or(0);
        silent(plan).for_each(|node| plan.lines[node].line.latency = latency);
    }),
    ("a ROUTE where there is no traffic", |links, plan| {
        for node in silent(plan) {
            let next = links.iter().find(|link| link.from as usize == node + 1).map(|link| link.to as usize - 1);
            plan.lines[node].route = next.map_or(0, |next| plan.lines[next].route);
        }
    }),
    ("a ROUTE without its last link", |links, plan| {
        let next = |node: u32| links.iter().find(|link| link.from == node).map(|link| link.to);
        for node in 0..plan.lines.len() {
            let mut nearest = node as u32 + 1;
            while let Some(nearer) = next(nearest).filter(|&nearer| next(nearer).is_some()) {
                nearest = nearer;
            }
            let delay = plan.lines[nearest as usize - 1].line.delay;
            plan.lines[node].route = plan.lines[node].route.saturating_sub(delay);
        }
    }),
    ("the total at the sink", |_, plan| {
        let longest = plan.lines.iter().map(|node| node.route).max().unwrap_or(0);
        plan.lines.iter_mut().filter(|node| node.line.kind == Kind::Sink).for_each(|node| node.line.delay = longest);
    }),
    ("U for a leaf that is silent", |_, plan| {
        let leaves = silent(plan).filter(|&node| plan.lines[node].line.kind == Kind::EndNode).collect::<Vec<_>>();
        leaves.into_iter().for_each(|node| plan.lines[node].line.kind = Kind::Up);
    }),
    ("depth 0 for end nodes, as in a row", |_, plan| {
        plan.lines.iter_mut().filter(|node| node.line.kind == Kind::EndNode).for_each(|node| node.line.depth = 0);
    }),
];

/// Wrong readings of a list, with what each passes over or takes for something else.
pub const WRONG_READINGS: [(&str, Reading); 12] = [
    ("CR before LF", |list| replaced(list, "\r\n", "\n")),
    ("blank lines", |list| {
        let lines = list.split_inclusive(|&byte| byte == b'\n');
        lines.filter(|line| *line != b"\n").collect::<Vec<_>>().concat()
    }),
    ("more than one space", |list| replaced(list, "  ", " ")),
    ("a space behind a line", |list| replaced(list, " \n", "\n")),
    ("leading zeros", |list| replaced(&replaced(list, " 00", " 0"), "\n0", "\n")),
    ("small letters", |list| list.to_ascii_uppercase()),
    ("a fifth value", |list| {
        let line = |line: &[u8]| line.split(|&byte| byte == b' ').take(4).collect::<Vec<_>>().join(&b' ');
        list.split(|&byte| byte == b'\n').map(line).collect::<Vec<_>>().join(&b'\n')
    }),
    ("lines behind the 254th node", |list| {
        list.split_inclusive(|&byte| byte == b'\n').take(255).collect::<Vec<_>>().concat()
    }),
    ("the bytes from a byte 0 on", |list| list.split(|&byte| byte == 0).next().unwrap_or_default().to_vec()),
    ("PARENT 0 for the root", |list| {
        with_values(list, |[node, parent, ..]| *parent = if *node > 1 { (*parent).max(1) } else { *parent })
    }),
    ("one 0 of BURST and RATE for two", |list| {
        with_values(list, |[.., burst, rate]| {
            (*burst, *rate) = if *burst * *rate == 0 { (0, 0) } else { (*burst, *rate) }
        })
    }),
    ("BURST 256 or RATE 4096 for one less", |list| {
        with_values(list, |[.., burst, rate]| (*burst, *rate) = (*burst - *burst / 256, *rate - *rate / 4096))
    }),
];

/// Wrong ways to take LOSS, with what is wrong in each.
pub const WRONG_LOSSES: [(&str, Taking); 5] = [
    ("LOSS is passed over", |beside| Beside { loss: 0, ..*beside }),
    ("one failed try less", |beside| Beside {
        loss: beside.loss - u32::from((1..=7).contains(&beside.loss)),
        ..*beside
    }),
    ("LOSS 8 is 7", |beside| Beside { loss: beside.loss - u32::from(beside.loss == 8), ..*beside }),
    ("the lowest 8 bits of LOSS", |beside| Beside { loss: beside.loss % 256, ..*beside }),
    ("LOSS is 0 where ACK is 0", |beside| Beside {
        loss: if beside.ack == 0 && beside.loss <= 7 { 0 } else { beside.loss },
        ..*beside
    }),
];

/// The list with other values in the lines that have four of them.
fn with_values(list: &[u8], change: fn(&mut [u64; 4])) -> Vec<u8> {
    let line = |line: &[u8]| {
        let text = String::from_utf8_lossy(line);
        let values: Option<Vec<u64>> = text.split(' ').map(|value| value.parse().ok()).collect();
        match values.and_then(|values| <[u64; 4]>::try_from(values).ok()) {
            Some(mut values) if text.len() < 20 => {
                change(&mut values);
                values.map(|value| value.to_string()).join(" ").into_bytes()
            }
            _ => line.to_vec(),
        }
    };
    list.split(|&byte| byte == b'\n').map(line).collect::<Vec<_>>().join(&b'\n')
}

fn replaced(list: &[u8], old: &str, new: &str) -> Vec<u8> {
    let text: String = list.iter().map(|&byte| char::from(byte)).collect();
    text.replace(old, new).chars().map(|letter| letter as u8).collect()
}

/// A link to a child lies in its sender's superframe.
fn is_down(link: &TreeLink) -> bool {
    link.superframe == link.from
}

fn check_links(network: &Network, links: Vec<TreeLink>) -> Result<(), Reason> {
    network.check_routers()?;
    check_superframes(network.superframes(&links))
}

/// Conditions 5 and 7 after a change of each superframe, which has so many links without traffic.
fn check_counted(network: &Network, change: impl Fn(&mut Superframe, u64)) -> Result<(), Reason> {
    network.check_routers()?;
    let links = network.links();
    let mut superframes = network.superframes(&links);
    for superframe in &mut superframes {
        let silent = links.iter().filter(|link| link.superframe == superframe.router && link.rate == 0);
        change(superframe, silent.count() as u64);
    }
    check_superframes(superframes)
}

fn check_superframes(superframes: Vec<Superframe>) -> Result<(), Reason> {
    first(superframes.iter().find_map(|superframe| superframe.too_many().or(superframe.too_full())))
}

fn first(refusal: Option<Reason>) -> Result<(), Reason> {
    refusal.map_or(Ok(()), Err)
}

/// The nodes whose link has no traffic.
fn silent(plan: &TreePlan) -> impl Iterator<Item = usize> {
    let is_silent = |node: &usize| plan.lines[*node].line.rate == 0 && plan.lines[*node].line.kind != Kind::Sink;
    (0..plan.lines.len()).filter(is_silent).collect::<Vec<_>>().into_iter()
}
