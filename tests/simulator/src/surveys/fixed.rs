//! The fixed list of surveyed trees that the runs are made on: some written by hand, and the full trees
//! of the fixed rows.

use super::survey::{Node, Survey};
use crate::row::Row;
use crate::rows;
use crate::shapes;
use crate::tree::Kind;

/// A tree that is written by hand: settings and sink, and parent, BURST and RATE of each node.
type Written = (&'static str, &'static [(usize, u64, u64)]);

const WRITTEN: &[Written] = &[
    // P1 and P2 of document 01.
    ("8 4 19 7 0 1", &[(0, 0, 0), (1, 0, 0), (1, 0, 0), (1, 1, 1), (2, 1, 1), (3, 1, 1)]),
    ("8 4 19 7 0 2", &[(0, 0, 0), (1, 0, 0), (1, 0, 0), (1, 1, 1), (2, 1, 1), (3, 1, 1)]),
    // One node; one link with m = 2 and T = BI; two such links of nodes with different buckets.
    ("0 0 5 1 0 1", &[(0, 255, 4095)]),
    ("1 1 5 13 0 1", &[(0, 0, 0), (1, 1, 1)]),
    ("2 1 5 13 0 1", &[(0, 1, 1), (1, 2, 1), (2, 1, 1)]),
    ("2 1 5 13 0 2", &[(0, 3, 2), (1, 0, 0), (2, 1, 1), (1, 2, 1)]),
    // An uneven tree, its sink at each of its routers; node 4 does not sense.
    ("3 1 5 13 0 1", &[(0, 2, 1), (1, 0, 0), (2, 1, 2), (1, 0, 0), (2, 3, 1), (5, 1, 1)]),
    ("3 1 5 13 0 2", &[(0, 2, 1), (1, 0, 0), (2, 1, 2), (1, 0, 0), (2, 3, 1), (5, 1, 1)]),
    ("3 1 5 13 0 5", &[(0, 2, 1), (1, 0, 0), (2, 1, 2), (1, 0, 0), (2, 3, 1), (5, 1, 1)]),
    // No sensor at all, and sensors on one side of the sink only.
    ("8 4 19 7 1 2", &[(0, 0, 0), (1, 0, 0), (2, 0, 0), (1, 0, 0)]),
    ("8 4 19 7 1 2", &[(0, 0, 0), (1, 0, 0), (2, 0, 0), (1, 9, 2)]),
    ("8 4 19 7 1 2", &[(0, 0, 0), (1, 0, 0), (2, 9, 2), (1, 0, 0)]),
    // Tries that may fail: P1 and P2 with LOSS 1 and 7, one link with m = 2 and T = BI, with m = 1, and the
    // uneven tree with its sink below.
    ("8 4 19 7 1 1 1", &[(0, 0, 0), (1, 0, 0), (1, 0, 0), (1, 1, 1), (2, 1, 1), (3, 1, 1)]),
    ("8 4 19 7 1 2 7", &[(0, 0, 0), (1, 0, 0), (1, 0, 0), (1, 1, 1), (2, 1, 1), (3, 1, 1)]),
    ("1 1 5 13 1 1 1", &[(0, 0, 0), (1, 1, 2)]),
    ("0 0 5 1 1 1 3", &[(0, 0, 0), (1, 1, 1)]),
    ("6 3 5 13 1 5 2", &[(0, 2, 1), (1, 0, 0), (2, 1, 2), (1, 0, 0), (2, 3, 1), (5, 1, 1)]),
    ("8 6 5 13 1 2 6", &[(0, 2, 1), (1, 0, 0), (2, 1, 2), (1, 0, 0), (2, 3, 1), (5, 1, 1)]),
    // Refused: 6, 5 and 7 at a router below the root, 4 three times.
    ("1 0 5 1 0 1", &[(0, 1, 1), (1, 1, 1), (2, 1, 1), (3, 1, 1)]),
    (
        "8 4 5 1 0 1",
        &[(0, 0, 0), (1, 0, 0), (2, 1, 1), (2, 1, 1), (2, 1, 1), (2, 1, 1), (2, 1, 1), (2, 1, 1), (2, 1, 1), (2, 1, 1)],
    ),
    ("8 0 18 1 0 1", &[(0, 0, 0), (1, 0, 0), (2, 1, 1), (2, 1, 1), (2, 1, 1), (2, 1, 1)]),
    ("4 8 5 1 0 1", &[(0, 1, 1)]),
    ("8 4 126 2 0 1", &[(0, 1, 1)]),
    ("8 4 126 1 0 1 2", &[(0, 1, 1)]),
];

/// Full trees with more frames in their bursts, or more nodes, are left out.
const BURSTS: u64 = 3_000;
const NODES: usize = 254;

/// All trees of the list.
pub fn all() -> Vec<Survey> {
    let written = WRITTEN.iter().map(|(settings, nodes)| written(settings, nodes));
    written.chain(rows::planned().iter().filter_map(of_row)).collect()
}

fn written(settings: &str, nodes: &[(usize, u64, u64)]) -> Survey {
    let line =
        |(node, (parent, burst, rate)): (usize, &(usize, u64, u64))| format!("{} {parent} {burst} {rate}\n", node + 1);
    let list: String = nodes.iter().enumerate().map(line).collect();
    Survey::read(&format!("NODE PARENT BURST RATE\n{list}"), settings).expect("a list of this file")
}

/// The full tree of a row as a list, if it can be one: its sink must have children, or be the root.
pub fn of_row(row: &Row) -> Option<Survey> {
    let tree = shapes::full(row, NODES)?;
    let node = |node: &crate::tree::Node| {
        let senses = node.kind == Kind::End || row.own == 1;
        let [burst, rate] = if senses { [row.burst, row.rate] } else { [0, 0] };
        Node { parent: node.parent, burst, rate }
    };
    let nodes: Vec<Node> = tree.nodes.iter().map(node).collect();
    let bursts: u64 = nodes.iter().map(|node| node.burst).sum();
    let Row { bo, so, head, data, ack, loss, .. } = *row;
    let survey = Survey { bo, so, head, data, ack, sink: tree.sink, loss, nodes };
    (bursts <= BURSTS && survey.is_router(tree.sink)).then_some(survey)
}

#[cfg(test)]
mod tests {
    use super::super::figures::{answer, Answer, Version};
    use super::*;
    use crate::figures;

    /// Those written by hand are refused and planned as they are listed.
    #[test]
    fn listed_as_they_are_answered() {
        let refused: Vec<Option<(u64, u64)>> = all()[..WRITTEN.len()]
            .iter()
            .map(|survey| match answer(survey, Version::Right) {
                Answer::Refused(number, place) => Some((number, place)),
                Answer::Plan(_) => None,
            })
            .collect();
        assert!(refused[..WRITTEN.len() - 6].iter().all(Option::is_none));
        assert_eq!(refused[WRITTEN.len() - 6..], [(6, 0), (5, 2), (7, 2), (4, 2), (4, 11), (4, 13)].map(Some));
    }

    /// Against the row: if every router of the full tree has end nodes, or the root is its only router,
    /// the list is planned as the row is, with the largest ROUTE as its delay and the same sink's load.
    #[test]
    fn against_the_row() {
        let mut compared = 0;
        for row in rows::all().iter().filter(|row| row.h == 0 || row.ne > 0) {
            // Rows that are refused for their values alone have no tree of their own.
            let answered = figures::answer(row, figures::Version::Right);
            if matches!(answered, figures::Answer::Refused(4, _)) {
                continue;
            }
            let Some(survey) = of_row(row) else { continue };
            compared += 1;
            match (answered, answer(&survey, Version::Right)) {
                (figures::Answer::Refused(..), Answer::Refused(..)) => {}
                (figures::Answer::Plan(lines), Answer::Plan(nodes)) => {
                    let (of_row, of_tree) = (&lines[lines.len() - 1], &nodes[survey.sink].line);
                    assert_eq!((of_row.rate, of_row.burst), (of_tree.rate, of_tree.burst), "row {row}");
                    assert_eq!(nodes.iter().map(|node| node.route).max(), Some(of_row.delay), "row {row}");
                }
                _ => panic!("row {row}: planned and refused"),
            }
        }
        assert!(compared > 60, "{compared}");
    }
}
