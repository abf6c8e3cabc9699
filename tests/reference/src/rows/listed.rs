//! Rows whose full balanced tree can be given as a node list (request E3 of document 02), and what the plans of both
//! must have in common. Every router of such a row has end nodes, or the root is its only router: a router without
//! children is none in a node list.

use super::*;
use crate::{Beside, LIST_NAMES, MOST_NODES};
use std::collections::BTreeMap;

/// The deepest sink of such a row: a tree with NR = 2, NE = 1 and H = 6 has 254 nodes.
pub const DEEPEST_SINK: u64 = 6;

/// A row with the node list of its full tree, in which the nodes stand in some order.
pub struct Listed {
    /// The name line of the row.
    pub heading: Heading,
    /// The line of values, without its LF.
    pub row: Vec<u8>,
    pub list: Vec<u8>,
    pub beside: Beside,
    nodes: Vec<Node>,
}

/// A node of the list: its own depth, and the kind and the depth of the row's line for it.
#[derive(Clone, Copy)]
struct Node {
    parent: u32,
    depth: u64,
    line: (char, u64),
}

/// An answer to a row or a list: number and place, and the text.
#[derive(Clone, Copy)]
pub struct Answered<'a> {
    pub number: u32,
    pub place: u32,
    pub text: &'a [u8],
}

/// A row that keeps condition 2 and, but for its settings, conditions 3 and 4; with sinks of all depths, and under both
/// name lines.
pub fn listed(rng: &mut Rng) -> Listed {
    let heading = rng.pick(&Heading::BOTH);
    let sink = rng.range(0, DEEPEST_SINK);
    let shapes: Vec<[u64; 3]> =
        shapes().into_iter().filter(|[h, nr, _]| sink == 0 || (*h >= sink && *nr > 1)).collect();
    let [h, nr, ne] = rng.pick(&shapes);
    let mut values = [0, 0, h, nr, ne, if ne == 0 { 1 } else { rng.below(2) }, sink, draw_burst(rng), 1, 0, 0, 0, 0];
    draw_settings(rng, heading, &mut values);
    if plans(&values) {
        let fastest = planned::fastest(&values);
        let any = rng.range(1, fastest);
        values[RATE] = rng.pick(&[1, any, fastest, 4095.min(fastest + 1)]);
    }
    if rng.one_in(8) {
        spoil_settings(rng, heading, &mut values);
    }
    Listed::new(rng, heading, &values)
}

/// H, NR and NE of all trees with at most 254 nodes; NE + NR may be above 7.
fn shapes() -> Vec<[u64; 3]> {
    let mut shapes: Vec<[u64; 3]> = (0..=7).map(|ne| [0, 0, ne]).collect();
    for h in 1..=12_u32 {
        for nr in 1..=7_u64 {
            let routers: u64 = (0..=h).map(|depth| nr.pow(depth)).sum();
            let most = MOST_NODES as u64;
            shapes.extend((1..=7).filter(|ne| routers * (1 + ne) <= most).map(|ne| [u64::from(h), nr, ne]));
        }
    }
    shapes
}

/// BO, SO, HEAD, DATA, ACK and LOSS, often with just room for the routers, seldom with half of it.
fn draw_settings(rng: &mut Rng, heading: Heading, values: &mut Values) {
    let short = u64::from(values[H] > 0 && rng.one_in(16));
    let gap = order_gap(values[H], values[NR]) - short;
    values[SO] = if rng.one_in(2) { MOST_ORDER - gap } else { rng.range(0, MOST_ORDER - gap) };
    values[BO] = if rng.one_in(2) || short == 1 { values[SO] + gap } else { rng.range(values[SO] + gap, MOST_ORDER) };
    let octets = planned::draw_octets(rng);
    set_octets(rng, values, octets);
    [values[ACK], values[LOSS]] = draw_tries(rng, heading);
}

/// One of the settings outside its range, or two at odds.
fn spoil_settings(rng: &mut Rng, heading: Heading, values: &mut Values) {
    let settings = if heading == Heading::WithLoss { 9 } else { 7 };
    match rng.below(settings) {
        0 => values[BO] = rng.range(15, 9999),
        1 => values[SO] = rng.range(15, 9999),
        2 => values[HEAD] = rng.pick(&[0, 4, 127, 9999]),
        3 => values[DATA] = rng.pick(&[0, 123, 9999]),
        4 => values[ACK] = rng.range(2, 9999),
        5 => (values[BO], values[SO]) = (rng.range(0, 13), 14),
        6 => (values[HEAD], values[DATA]) = (126, rng.range(2, 122)),
        7 => values[LOSS] = rng.range(MOST_LOSS + 1, 9999),
        _ => (values[ACK], values[LOSS]) = (0, rng.range(1, MOST_LOSS)),
    }
}

impl Listed {
    fn new(rng: &mut Rng, heading: Heading, values: &Values) -> Listed {
        let mut nodes = grow(rng, values);
        let sink = lead_to_sink(rng, &mut nodes, values[SINK]);
        let settings = [BO, SO, HEAD, DATA, ACK, LOSS].map(|column| values[column] as u32);
        let [beacon_order, superframe_order, head, data, ack, loss] = settings;
        let beside = Beside { beacon_order, superframe_order, head, data, ack, sink, loss };
        let mut list = LIST_NAMES.to_string();
        for (number, node) in (1..).zip(&nodes) {
            let senses = node.line.0 == 'E' || values[OWN] == 1;
            let [burst, rate] = if senses { [values[BURST], values[RATE]] } else { [0, 0] };
            list.push_str(&format!("\n{number} {} {burst} {rate}", node.parent));
        }
        Listed { heading, row: written(heading, values), list: list.into_bytes(), beside, nodes }
    }

    /// How the answers to both differ from what they must have in common. The list "is planned exactly when the row
    /// is"; each node's line then has the figures of the row's line for it, and the largest ROUTE is the row's delay.
    /// What the settings or the routers are refused for is the same. A row with more than 7 reservations is refused
    /// before its routers are counted, a list after that.
    pub fn compare(&self, row: Answered, tree: Answered) -> Result<(), String> {
        let fits = match row.number {
            0 => tree.number == 0,
            5 => [(6, 0), (5, 1)].contains(&(tree.number, tree.place)),
            7 => tree.number == 7,
            _ => (tree.number, tree.place) == (row.number, row.place),
        };
        if !fits {
            return Err(format!("row {} {}, tree {} {}", row.number, row.place, tree.number, tree.place));
        }
        if row.number == 0 {
            self.compare_texts(row.text, tree.text)
        } else {
            Ok(())
        }
    }

    fn compare_texts(&self, row: &[u8], tree: &[u8]) -> Result<(), String> {
        let (row, tree) = (String::from_utf8_lossy(row), String::from_utf8_lossy(tree));
        let figures: BTreeMap<(&str, &str), &str> = row.lines().skip(1).filter_map(parted).collect();
        let lines: Vec<&str> = tree.lines().skip(1).collect();
        if lines.len() != self.nodes.len() {
            return Err(format!("{} lines for {} nodes", lines.len(), self.nodes.len()));
        }
        let mut longest = 0;
        for (node, line) in self.nodes.iter().zip(&lines) {
            let (kind, depth) = (node.line.0.to_string(), node.line.1.to_string());
            let of_row = figures.get(&(kind.as_str(), depth.as_str())).copied().unwrap_or_default();
            let route = line.rsplit(' ').next().unwrap_or_default();
            longest = longest.max(route.parse().map_err(|_| format!("no ROUTE in {line}"))?);
            let of_row = if kind == "S" { with_last(of_row, "0") } else { of_row.to_string() };
            let expected = format!("{kind} {} {of_row} {route}", node.depth);
            if *line != expected {
                return Err(format!("line {line}, by the row {expected}"));
            }
        }
        let delay: u64 = row.trim_end().rsplit(' ').next().and_then(|delay| delay.parse().ok()).unwrap_or(u64::MAX);
        if longest == delay {
            Ok(())
        } else {
            Err(format!("largest ROUTE {longest}, the row's DELAY {delay}"))
        }
    }
}

/// Kind, depth and the rest of a line.
fn parted(line: &str) -> Option<((&str, &str), &str)> {
    let (kind, rest) = line.split_once(' ')?;
    let (depth, figures) = rest.split_once(' ')?;
    Some(((kind, depth), figures))
}

/// The figures with another one in the place of the last.
fn with_last(figures: &str, last: &str) -> String {
    let front = figures.rsplit_once(' ').map_or("", |(front, _)| front);
    format!("{front} {last}")
}

/// The nodes of the full tree, each after its parent, otherwise in a drawn order. Every line is upward still.
fn grow(rng: &mut Rng, values: &Values) -> Vec<Node> {
    let mut nodes = Vec::new();
    let mut waiting = vec![Node { parent: 0, depth: 0, line: ('U', 0) }];
    let oldest_first = rng.one_in(2);
    while !waiting.is_empty() {
        let at = if oldest_first { 0 } else { rng.index(waiting.len()) };
        let node = waiting.remove(at);
        nodes.push(node);
        let child = Node { parent: nodes.len() as u32, depth: node.depth + 1, line: ('E', 0) };
        if node.line.0 == 'U' {
            let routers = if node.depth < values[H] { values[NR] } else { 0 };
            waiting.extend((0..routers).map(|_| Node { line: ('U', node.depth + 1), ..child }));
            waiting.extend((0..values[NE]).map(|_| child));
        }
    }
    nodes
}

/// Draws a sink among the routers at this depth, and gives the nodes on its path their downward lines.
fn lead_to_sink(rng: &mut Rng, nodes: &mut [Node], depth: u64) -> u32 {
    let routers: Vec<usize> = (0..nodes.len()).filter(|&node| nodes[node].line == ('U', depth)).collect();
    let sink = rng.pick(&routers);
    nodes[sink].line.0 = 'S';
    let mut below = sink;
    while nodes[below].parent > 0 {
        below = nodes[below].parent as usize - 1;
        nodes[below].line.0 = 'D';
    }
    sink as u32 + 1
}

#[cfg(test)]
mod tests {
    use super::*;
    use crate::{plan_row, plan_tree, write_plan, write_tree_plan, Outcome, TreeOutcome};

    /// The texts of what is planned.
    fn texts(row: &Outcome, tree: &TreeOutcome) -> [Vec<u8>; 2] {
        let mut texts = [Vec::new(), Vec::new()];
        row.iter().for_each(|plan| write_plan(plan, &mut texts[0]));
        tree.iter().for_each(|plan| write_tree_plan(plan, &mut texts[1]));
        texts
    }

    fn answered<'a, T>(outcome: &Result<T, crate::Refusal>, text: &'a [u8]) -> Answered<'a> {
        let (number, place) = outcome.as_ref().map_or_else(|refusal| (refusal.number, refusal.place), |_| (0, 0));
        Answered { number, place, text }
    }

    /// Against the row: of 20,000 rows with sinks at all depths, thousands are planned and thousands refused, and the
    /// list of the full tree is answered as the row is.
    #[test]
    fn against_the_row() {
        let mut rng = Rng::new(21);
        let mut planned: BTreeMap<u64, u64> = BTreeMap::new();
        let mut lossy: BTreeMap<u32, u64> = BTreeMap::new();
        let mut refused: BTreeMap<(u64, u32), u64> = BTreeMap::new();
        for _ in 0..20_000 {
            let listed = listed(&mut rng);
            let (row, tree) = (plan_row(listed.heading, &listed.row), plan_tree(&listed.list, &listed.beside));
            let [row_text, tree_text] = texts(&row, &tree);
            let compared = listed.compare(answered(&row, &row_text), answered(&tree, &tree_text));
            assert_eq!(compared, Ok(()), "{}", listed.row.escape_ascii());
            let sink = listed.nodes[listed.beside.sink as usize - 1].depth;
            match row {
                Ok(_) => {
                    *planned.entry(sink).or_default() += 1;
                    *lossy.entry(listed.beside.loss).or_default() += 1;
                }
                Err(refusal) => *refused.entry((sink, refusal.number)).or_default() += 1,
            }
        }
        println!("planned by SINK {planned:?}, by LOSS {lossy:?}, refused by SINK and number {refused:?}");
        assert!((0..=MOST_LOSS as u32).all(|loss| lossy[&loss] > 100), "{lossy:?}");
        assert!((0..=DEEPEST_SINK).all(|sink| planned[&sink] > 500), "{planned:?}");
        let numbers = (0..=DEEPEST_SINK).flat_map(|sink| [3, 4, 6, 7].map(|number| (sink, number)));
        assert!(numbers.chain([(0, 5)]).all(|refusal| refused[&refusal] > 20), "{refused:?}");
    }

    /// Rows and lists that differ in one figure are told apart.
    #[test]
    fn a_changed_figure() {
        let mut rng = Rng::new(22);
        let mut changed = 0;
        while changed < 300 {
            let listed = listed(&mut rng);
            let (row, tree) = (plan_row(listed.heading, &listed.row), plan_tree(&listed.list, &listed.beside));
            let (Ok(row), Ok(mut tree)) = (row, tree) else { continue };
            let node = rng.index(tree.lines.len());
            let figure = &mut tree.lines[node];
            match rng.below(7) {
                0 => figure.line.rate += 1,
                1 => figure.line.burst += 1,
                2 => figure.line.slots += 1,
                3 => figure.line.latency += 1,
                4 => figure.line.buffer += 1,
                5 => figure.line.delay += 1,
                _ => figure.line.depth += 1,
            }
            let [row_text, tree_text] = texts(&Ok(row), &Ok(tree));
            let planned = |text| Answered { number: 0, place: 0, text };
            assert!(listed.compare(planned(&row_text), planned(&tree_text)).is_err());
            changed += 1;
        }
    }

    /// The largest ROUTE counts, and so does a refusal.
    #[test]
    fn a_changed_route_or_answer() {
        let mut rng = Rng::new(23);
        let values = [8, 4, 1, 2, 1, 0, 1, 1, 1, 19, 7, 0, 0];
        let listed = Listed::new(&mut rng, Heading::WithoutLoss, &values);
        let (row, tree) = (plan_row(listed.heading, &listed.row), plan_tree(&listed.list, &listed.beside));
        let [row_text, tree_text] = texts(&row, &tree);
        let (row, tree) = (answered(&row, &row_text), answered(&tree, &tree_text));
        assert_eq!(listed.compare(row, tree), Ok(()));
        let text = String::from_utf8_lossy(&tree_text).replace(" 953227", " 953228").into_bytes();
        assert!(listed.compare(row, Answered { text: &text, ..tree }).is_err());
        let refused = Answered { number: 7, place: 1, text: &[] };
        assert!(listed.compare(row, refused).is_err());
        assert!(listed.compare(refused, tree).is_err());
        assert_eq!(listed.compare(refused, refused), Ok(()));
    }

    #[test]
    fn shapes_have_at_most_254_nodes() {
        let shapes = shapes();
        assert!(shapes.contains(&[6, 2, 1]) && !shapes.contains(&[6, 2, 2]) && !shapes.contains(&[7, 2, 1]));
        assert!(shapes.contains(&[12, 1, 7]) && shapes.contains(&[0, 0, 0]) && !shapes.contains(&[1, 1, 0]));
        let mut rng = Rng::new(24);
        for [h, nr, ne] in shapes {
            let nodes = grow(&mut rng, &[14, 0, h, nr, ne, 1, 0, 1, 1, 5, 1, 0, 0]);
            assert!(nodes.len() <= MOST_NODES);
            assert!((1..).zip(&nodes).all(|(number, node)| node.parent < number));
        }
    }
}
