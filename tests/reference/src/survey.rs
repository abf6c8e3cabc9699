//! Request E3 of document 02: plans of surveyed trees. A list has the nodes, numbered from 1; five settings, the sink's
//! node and LOSS (request E5) are given beside it.
//!
//! Inside, a node is the index of its line, counted from 0; what is printed or answered counts from 1.

mod list;
mod network;
mod plan;
mod text;

pub use list::{LIST_NAMES, MOST_NODES};
pub use network::{Network, Superframe, TreeLink};
pub use plan::{NodeLine, TreePlan};
pub use text::{tree_program, write_tree_plan};

use crate::settings::{self, Settings};
use crate::Refusal;

/// What is given beside a node list, in this order.
#[derive(Clone, Copy, Debug, PartialEq, Eq)]
pub struct Beside {
    /// BO.
    pub beacon_order: u32,
    /// SO.
    pub superframe_order: u32,
    /// HEAD.
    pub head: u32,
    /// DATA.
    pub data: u32,
    /// ACK.
    pub ack: u32,
    /// The number of the sink's node.
    pub sink: u32,
    /// LOSS.
    pub loss: u32,
}

/// What planning a surveyed tree gives: its plan, or the first condition that failed.
pub type TreeOutcome = Result<TreePlan, Refusal>;

/// Plans a node list: number 10, then 3 and 4 for the settings, then 6, then 5 and 7 router by router.
pub fn plan_tree(list: &[u8], beside: &Beside) -> TreeOutcome {
    plan_tree_checking(list, beside, |network| network.check())
}

/// Plans like `plan_tree`, but with this check in place of 6, 5 and 7. It is for tests that want a planner with a wrong
/// rule.
pub fn plan_tree_checking(
    list: &[u8],
    beside: &Beside,
    check: impl Fn(&Network) -> Result<(), Refusal>,
) -> TreeOutcome {
    let nodes = list::read(list)?;
    let sink = list::find_sink(&nodes, beside.sink)?;
    let settings = settle(beside)?;
    let network = Network::new(&nodes, sink, &settings);
    check(&network)?;
    Ok(network.plan())
}

/// "Then 3 and 4 for the settings beside, at document 01's columns": the refusals of a row that has these settings and
/// keeps both conditions in every other column.
fn settle(beside: &Beside) -> Result<Settings, Refusal> {
    let Beside { beacon_order, superframe_order, head, data, ack, loss, .. } = *beside;
    let [bo, so, head, data, ack, loss] = [beacon_order, superframe_order, head, data, ack, loss].map(u64::from);
    settings::settle(&[bo, so, 0, 0, 1, 0, 0, 1, 1, head, data, ack, loss])
}

#[cfg(test)]
mod tests {
    use super::*;
    use crate::{tree_line_of, Phrase};

    const LIST: &str = "NODE PARENT BURST RATE\n1 0 0 0\n2 1 0 0\n3 2 1 1\n";
    const GOOD: Beside = Beside { beacon_order: 8, superframe_order: 4, head: 19, data: 7, ack: 0, sink: 1, loss: 0 };
    /// Outside every range.
    const BAD: Beside =
        Beside { beacon_order: 15, superframe_order: 15, head: 127, data: 123, ack: 2, sink: 3, loss: 8 };

    fn refusal(list: &str, beside: Beside) -> Option<(u32, u32)> {
        plan_tree(list.as_bytes(), &beside).err().map(|refusal| (refusal.number, refusal.place))
    }

    fn line(list: &str, beside: Beside) -> String {
        tree_line_of(&plan_tree(list.as_bytes(), &beside))
    }

    /// "Names first, sink last, before all others; then 3 and 4."
    #[test]
    fn order_of_refusals() {
        assert_eq!(refusal("", BAD), Some((10, 0)));
        assert_eq!(line("x", BAD), "The line of names of the node list differs or is missing.");
        assert_eq!(refusal(LIST_NAMES, BAD), Some((10, 1)));
        assert_eq!(refusal(&LIST.replace("3 2 1 1", "3 3 1 1"), BAD), Some((10, 3)));
        assert_eq!(refusal(LIST, BAD), Some((10, 0)));
        assert_eq!(line(LIST, BAD), "The sink is no router of the tree.");
        let mut beside = Beside { sink: 2, ..BAD };
        assert_eq!(refusal(LIST, beside), Some((3, 1)));
        beside.beacon_order = 3;
        assert_eq!(refusal(LIST, beside), Some((3, 2)));
        beside.superframe_order = 4;
        assert_eq!(refusal(LIST, beside), Some((3, 10)));
        beside.head = 126;
        assert_eq!(refusal(LIST, beside), Some((3, 11)));
        beside.data = 2;
        assert_eq!(refusal(LIST, beside), Some((3, 12)));
        beside.ack = 0;
        assert_eq!(refusal(LIST, beside), Some((3, 13)));
        beside.loss = 7;
        assert_eq!(refusal(LIST, beside), Some((4, 2)));
        beside.beacon_order = 4;
        assert_eq!(refusal(LIST, beside), Some((4, 11)));
        beside.data = 1;
        assert_eq!(refusal(LIST, beside), Some((4, 13)));
        beside.ack = 1;
        assert_eq!(refusal(LIST, beside), Some((6, 0)));
        beside.beacon_order = 5;
        assert_eq!(refusal(LIST, beside), None);
    }

    #[test]
    fn both_ends_of_every_range() {
        let at = |change: fn(&mut Beside, u32), value| {
            let mut beside = GOOD;
            change(&mut beside, value);
            refusal(LIST, beside)
        };
        let changes: [fn(&mut Beside, u32); 6] = [
            |beside, value| (beside.beacon_order, beside.superframe_order) = (value, 0),
            |beside, value| (beside.beacon_order, beside.superframe_order) = (14, value),
            |beside, value| (beside.head, beside.data) = (value, 1),
            |beside, value| (beside.head, beside.data) = (5, value),
            |beside, value| beside.ack = value,
            |beside, value| (beside.ack, beside.loss) = (1, value),
        ];
        // Two routers need BO above SO.
        let columns = [(1, 1, 14), (2, 0, 13), (10, 5, 126), (11, 1, 122), (12, 0, 1), (13, 0, 7)];
        for (change, (column, low, high)) in changes.into_iter().zip(columns) {
            assert_eq!((at(change, low), at(change, high)), (None, None), "{column}");
            for outside in [15_u32.max(high + 1), 1 << 16, 1 << 31, u32::MAX] {
                assert_eq!(at(change, outside), Some((3, column)), "{column} {outside}");
            }
        }
        assert_eq!(refusal(LIST, Beside { head: 4, ..GOOD }), Some((3, 10)));
        assert_eq!(refusal(LIST, Beside { data: 0, ..GOOD }), Some((3, 11)));
        for loss in 1..=7 {
            assert_eq!(refusal(LIST, Beside { loss, ..GOOD }), Some((4, 13)));
        }
        assert_eq!(refusal(LIST, Beside { loss: 8, ..GOOD }), Some((3, 13)));
    }

    /// Each line that a surveyed tree can get, with its values.
    #[test]
    fn lines_of_every_number() {
        assert_eq!(line(LIST, GOOD), "The tree is planned.");
        assert_eq!(line(&LIST.replace("3 2", "3 9"), GOOD), "Line 3 of the node list breaks a rule or is missing.");
        let ack = Beside { ack: u32::MAX, ..GOOD };
        assert_eq!(line(LIST, ack), "The value of ACK is outside its range: it is 4294967295.");
        let loss = Beside { loss: 8, ..GOOD };
        assert_eq!(line(LIST, loss), "The value of LOSS is outside its range: it is 8.");
        assert_eq!(
            line(LIST, Beside { loss: 3, ..GOOD }),
            "Values are at odds at LOSS, which is 0 where ACK is 0: LOSS is 3 and ACK is 0."
        );
        assert_eq!(
            line(LIST, Beside { beacon_order: 4, superframe_order: 8, ..GOOD }),
            "Values are at odds at SO, which may not be above BO: SO is 8 and BO is 4."
        );
        assert_eq!(
            line(LIST, Beside { head: 126, data: 2, ..GOOD }),
            "Values are at odds at DATA, which with HEAD may not be above 127: HEAD is 126 and DATA is 2."
        );
        assert_eq!(
            line(&format!("{LIST}4 3 1 1\n"), Beside { beacon_order: 5, ..GOOD }),
            "There are more routers than superframes that fit a beacon interval: 3 against 2."
        );
        let leaves: String = (4..=11).map(|node| format!("{node} 2 1 1\n")).collect();
        assert_eq!(
            line(&format!("{LIST}{leaves}"), GOOD),
            "Router 2 would have more than 7 reservations: it would have 9."
        );
        // S = 60 and X = 104: 2 slots for each of five leaves, 9 for their router's link, whose superframe is the
        // root's; with the sink at the leaves' router there is no such link.
        let leaves: String = (4..=7).map(|node| format!("{node} 2 1 1\n")).collect();
        assert_eq!(
            line(&format!("{LIST}{leaves}"), Beside { superframe_order: 0, sink: 2, ..GOOD }),
            "The slots used at router 2 are more than can be reserved: 10 used and 7 reservable."
        );
    }

    #[test]
    fn a_refusal_reads_back() {
        for beside in [BAD, Beside { sink: 1, ..BAD }, Beside { superframe_order: 9, ..GOOD }] {
            let outcome = plan_tree(LIST.as_bytes(), &beside);
            let read = crate::read_reason(tree_line_of(&outcome).as_bytes());
            assert_eq!(read, outcome.err().map(|refusal| (refusal.number, refusal.place)));
        }
        assert_eq!(Phrase::OF_TREES.map(Phrase::number), [5, 7, 10, 10, 10]);
    }
}
