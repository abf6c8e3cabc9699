//! The planner's entries for surveyed trees, as include/planner.h declares them, behind functions that are safe to call.

use crate::entries::{Answer, Memory, Planner};
use reference::Beside;

/// PLANNER_LONGEST_TREE_TEXT of include/planner.h.
pub const LONGEST_TREE_TEXT: usize = 48_576;

/// What the entries for trees do, beside those for rows.
pub trait TreePlanner: Planner {
    fn check_tree(&self, nodes: Memory, beside: &Beside) -> Answer;
    fn plan_tree(&self, nodes: Memory, beside: &Beside, text: Memory) -> Answer;
    fn explain_tree(&self, nodes: Memory, beside: &Beside, line: Memory) -> Answer;
}
mod library {
    use super::*;
    use crate::entries::{pointer, Library};

    extern "C" {
        fn planner_check_tree(
            nodes: *const u8,
            nodes_length: usize,
            bo: u32,
            so: u32,
            head: u32,
            data: u32,
            ack: u32,
            sink: u32,
            loss: u32,
        ) -> Answer;
        fn planner_plan_tree(
            nodes: *const u8,
            nodes_length: usize,
            bo: u32,
            so: u32,
            head: u32,
            data: u32,
            ack: u32,
            sink: u32,
            loss: u32,
            text: *mut u8,
            text_length: usize,
        ) -> Answer;
        fn planner_explain_tree(
            nodes: *const u8,
            nodes_length: usize,
            bo: u32,
            so: u32,
            head: u32,
            data: u32,
            ack: u32,
            sink: u32,
            loss: u32,
            line: *mut u8,
            line_length: usize,
        ) -> Answer;
    }

    impl TreePlanner for Library {
        fn check_tree(&self, nodes: Memory, beside: &Beside) -> Answer {
            let (nodes, nodes_length) = pointer(nodes);
            let Beside { beacon_order: bo, superframe_order: so, head, data, ack, sink, loss } = *beside;
            // SAFETY: the pointer is valid for the length beside it, or NULL beside 0, which planner.h allows.
            unsafe { planner_check_tree(nodes, nodes_length, bo, so, head, data, ack, sink, loss) }
        }

        fn plan_tree(&self, nodes: Memory, beside: &Beside, text: Memory) -> Answer {
            lend(planner_plan_tree, nodes, beside, text)
        }

        fn explain_tree(&self, nodes: Memory, beside: &Beside, line: Memory) -> Answer {
            lend(planner_explain_tree, nodes, beside, line)
        }
    }

    /// The form of the two entries that put something into a buffer.
    type Putting = unsafe extern "C" fn(*const u8, usize, u32, u32, u32, u32, u32, u32, u32, *mut u8, usize) -> Answer;

    /// Calls one of the two with a list and a buffer.
    fn lend(entry: Putting, nodes: Memory, beside: &Beside, buffer: Memory) -> Answer {
        let (nodes, length) = pointer(nodes);
        let (buffer, room) = pointer(buffer);
        let Beside { beacon_order: bo, superframe_order: so, head, data, ack, sink, loss } = *beside;
        // SAFETY: as above; the two are different mutable slices, so the buffer does not overlap the list.
        unsafe { entry(nodes, length, bo, so, head, data, ack, sink, loss, buffer, room) }
    }
}
