//! The node list and number 10. Lines and values are read as document 01, "Rows of settings", has them.

use crate::settings::{read_value, RANGES};
use crate::{Phrase, Refusal};

/// The line of names of a node list, without its LF.
pub const LIST_NAMES: &str = "NODE PARENT BURST RATE";

/// "Surveyors have lists of real nodes, up to 254."
pub const MOST_NODES: usize = 254;

/// Values in a node line.
const VALUES: usize = 4;
/// The columns BURST and RATE of document 01, as indexes.
const BURST: usize = 7;
const RATE: usize = 8;

/// A node of the list.
#[derive(Clone, Copy, Debug, PartialEq, Eq)]
pub struct Node {
    /// The root has none.
    pub parent: Option<usize>,
    /// BURST, in frames; 0 for a node that does not sense.
    pub burst: u64,
    /// RATE; 0 for a node that does not sense.
    pub rate: u64,
}

/// Reads a node list. The line of names is looked at first, then the node lines, of which the first that breaks a rule
/// answers. Node 1's line must be there, and a line after that of node 254 breaks a rule.
pub fn read(text: &[u8]) -> Result<Vec<Node>, Refusal> {
    let mut lines = text.split_inclusive(|&byte| byte == b'\n').map(|line| line.strip_suffix(b"\n").unwrap_or(line));
    if lines.next() != Some(LIST_NAMES.as_bytes()) {
        return Err(Refusal::without_values(Phrase::ListNames, 0));
    }
    let mut nodes = Vec::new();
    for line in lines {
        nodes.push(read_node(nodes.len(), line).ok_or_else(|| broken(nodes.len()))?);
    }
    if nodes.is_empty() {
        return Err(broken(0));
    }
    Ok(nodes)
}

/// The refusal of a node's line.
fn broken(node: usize) -> Refusal {
    Refusal::without_values(Phrase::NodeLine, node as u32 + 1)
}

/// Reads a node's line, given without its LF.
fn read_node(node: usize, line: &[u8]) -> Option<Node> {
    let values: Option<Vec<u64>> = line.split(|&byte| byte == b' ').map(read_value).collect();
    let [number, parent, burst, rate] = <[u64; VALUES]>::try_from(values?).ok()?;
    let in_order = number == node as u64 + 1 && node < MOST_NODES;
    (in_order && is_bucket(burst, rate)).then_some(())?;
    Some(Node { parent: read_parent(node, parent)?, burst, rate })
}

/// "Node 1 is the root with PARENT 0; any other parent has a smaller number." That of another node is a node too, and
/// so not 0.
fn read_parent(node: usize, parent: u64) -> Option<Option<usize>> {
    let parent = (parent as usize).checked_sub(1);
    let fits = match parent {
        None => node == 0,
        Some(parent) => parent < node,
    };
    fits.then_some(parent)
}

/// "BURST and RATE are both in range or both 0."
fn is_bucket(burst: u64, rate: u64) -> bool {
    let within = |value, (low, high)| low <= value && value <= high;
    (burst, rate) == (0, 0) || (within(burst, RANGES[BURST]) && within(rate, RANGES[RATE]))
}

/// "A router is node 1 or a node with children, and the sink must be one."
pub fn find_sink(nodes: &[Node], number: u32) -> Result<usize, Refusal> {
    let is_router = |sink: &usize| *sink == 0 || nodes.iter().any(|node| node.parent == Some(*sink));
    let sink = (number as usize).checked_sub(1).filter(is_router);
    sink.ok_or_else(|| Refusal::without_values(Phrase::NoSink, 0))
}

#[cfg(test)]
mod tests {
    use super::*;

    /// Number 10's place for these lines after the right line of names; none where the list is read.
    fn broken_line(lines: &str) -> Option<u32> {
        let refusal = read(format!("{LIST_NAMES}\n{lines}").as_bytes()).err();
        refusal.map(|refusal| {
            assert_eq!((refusal.number, refusal.phrase), (10, Phrase::NodeLine));
            refusal.place
        })
    }

    fn names_are_refused(text: &str) -> bool {
        read(text.as_bytes()).err().is_some_and(|refusal| (refusal.phrase, refusal.place) == (Phrase::ListNames, 0))
    }

    #[test]
    fn a_list_is_read() {
        let nodes = read(b"NODE PARENT BURST RATE\n1 0 0 0\n2 1 255 4095\n3 2 1 1\n").unwrap();
        let node = |parent, burst, rate| Node { parent, burst, rate };
        assert_eq!(nodes, [node(None, 0, 0), node(Some(0), 255, 4095), node(Some(1), 1, 1)]);
    }

    #[test]
    fn names() {
        for wrong in ["", "\n", "NODE PARENT BURST RATE ", " NODE PARENT BURST RATE", "NODE PARENT BURST", "1 0 0 0"] {
            assert!(names_are_refused(wrong), "{wrong}");
            assert!(names_are_refused(&format!("{wrong}\n1 0 0 0\n")), "{wrong}");
        }
        assert!(names_are_refused("NODE PARENT BURST RATE\r\n1 0 0 0\n"));
        assert!(names_are_refused("node parent burst rate\n1 0 0 0\n"));
        assert!(names_are_refused("NODE PARENT BURST RATE ADDR\n1 0 0 0\n"));
        assert!(names_are_refused("\nNODE PARENT BURST RATE\n1 0 0 0\n"));
        assert!(names_are_refused("NODE PARENT BURST\nx\n"), "names come before lines");
    }

    /// The line of names alone has no line of node 1, with or without its LF.
    #[test]
    fn node_1_missing() {
        assert_eq!(broken_line(""), Some(1));
        assert_eq!(read(LIST_NAMES.as_bytes()).unwrap_err(), broken(0));
    }

    #[test]
    fn ends_of_lines() {
        assert_eq!(broken_line("1 0 0 0"), None);
        assert_eq!(broken_line("1 0 0 0\n"), None);
        assert_eq!(broken_line("1 0 0 0\n2 1 1 1"), None);
        assert_eq!(broken_line("\n"), Some(1));
        assert_eq!(broken_line("\n1 0 0 0\n"), Some(1));
        assert_eq!(broken_line("1 0 0 0\n\n"), Some(2));
        assert_eq!(broken_line("1 0 0 0\n\n2 1 0 0\n"), Some(2));
        assert_eq!(broken_line("1 0 0 0\n2 1 0 0\n\n\n"), Some(3));
        assert_eq!(broken_line("1 0 0 0\r\n"), Some(1));
        assert_eq!(broken_line("1 0 0 0\n\r\n"), Some(2));
        assert_eq!(broken_line("1 0 0 0\n2 1 0 0\n "), Some(3));
        assert_eq!(broken_line("1 0 0 0\n2 1 0 0\0"), Some(2));
    }

    #[test]
    fn values_of_a_line() {
        for wrong in [
            "",
            " ",
            "2",
            "2 1",
            "2 1 1",
            "2 1 1 ",
            "2 1 1 1 ",
            "2 1 1 1 1",
            " 2 1 1 1",
            "2  1 1 1",
            "2 1 01 1",
            "2 1 1 01",
            "02 1 1 1",
            "2 01 1 1",
            "2 1 +1 1",
            "2 1 -1 1",
            "2 1 1 x",
            "2 1 1 1x",
            "x",
            "2\t1 1 1",
            "2 1 1 10000",
            "2 1 10000 1",
            "2 1 1 00",
            "2 1 00 00",
            "2,1,1,1",
        ] {
            assert_eq!(broken_line(&format!("1 0 0 0\n{wrong}\n3 1 1 1\n")), Some(2), "{wrong}");
        }
        assert_eq!(broken_line("1 0 0 0\n2 1 1 1\n3 1 1 1\n"), None);
    }

    #[test]
    fn numbers_of_nodes() {
        for wrong in ["0 0 0 0", "2 0 0 0", "1 1 0 0", "1 2 0 0", "255 0 0 0"] {
            assert_eq!(broken_line(wrong), Some(1), "{wrong}");
        }
        for wrong in ["1 0 0 0", "1 1 0 0", "3 1 0 0", "0 1 0 0", "22 1 0 0", "258 1 0 0"] {
            assert_eq!(broken_line(&format!("1 0 0 0\n{wrong}")), Some(2), "{wrong}");
        }
    }

    /// No other node has PARENT 0, its own number, a greater one or one that the list does not have.
    #[test]
    fn parents() {
        for (parent, place) in [(0, Some(3)), (1, None), (2, None), (3, Some(3)), (4, Some(3)), (9999, Some(3))] {
            assert_eq!(broken_line(&format!("1 0 0 0\n2 1 0 0\n3 {parent} 0 0\n4 1 0 0\n")), place, "{parent}");
        }
    }

    #[test]
    fn buckets() {
        for (burst, rate, fits) in [
            (0, 0, true),
            (0, 1, false),
            (1, 0, false),
            (1, 1, true),
            (255, 4095, true),
            (256, 1, false),
            (1, 4096, false),
            (256, 0, false),
            (0, 4096, false),
            (9999, 9999, false),
        ] {
            assert_eq!(broken_line(&format!("1 0 {burst} {rate}")), (!fits).then_some(1), "{burst} {rate}");
        }
    }

    #[test]
    fn the_first_broken_line_answers() {
        assert_eq!(broken_line("1 0 0 0\n2 1 0 1\n3 3 0 0\n5 1 0 0\n"), Some(2));
        assert_eq!(broken_line("1 0 0 0\n2 1 1 1\n3 3 0 0\n5 1 0 0\n"), Some(3));
    }

    /// A list of so many nodes that all hang on the root.
    fn star(nodes: usize) -> String {
        (1..=nodes).map(|node| format!("{node} {} 0 0\n", usize::from(node > 1))).collect()
    }

    /// The line after that of node 254 is refused whatever it holds, and only if all before it keep the rules.
    #[test]
    fn most_nodes() {
        assert_eq!(broken_line(&star(254)), None);
        assert_eq!(broken_line(&star(255)), Some(255));
        assert_eq!(broken_line(&star(300)), Some(255));
        assert_eq!(broken_line(&format!("{}\n", star(254))), Some(255));
        assert_eq!(broken_line(&format!("{}x", star(254))), Some(255));
        assert_eq!(broken_line(&star(300).replace("\n200 1 ", "\n200 0 ")), Some(200));
    }

    #[test]
    fn sinks() {
        let nodes = read(b"NODE PARENT BURST RATE\n1 0 0 0\n2 1 0 0\n3 2 1 1\n4 1 1 1\n").unwrap();
        let found = |number| find_sink(&nodes, number).ok();
        assert_eq!([1, 2].map(found), [Some(0), Some(1)]);
        assert_eq!([0, 3, 4, 5, 257, 1 << 16, (1 << 16) + 1, u32::MAX].map(found), [None; 8]);
        let refusal = find_sink(&nodes, 3).unwrap_err();
        assert_eq!((refusal.number, refusal.place, refusal.phrase), (10, 0, Phrase::NoSink));
        assert_eq!(find_sink(&nodes[..1], 1).ok(), Some(0), "the root alone is a router");
    }
}
