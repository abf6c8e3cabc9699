//! The text of a surveyed tree's plan, and program `plan_tree`.

use super::{list, Beside, Network, TreeOutcome, TreePlan};
use crate::settings::read_value;
use crate::text::{write_columns, write_figure, write_refusal, INPUT_LIMIT};
use crate::{Phrase, Refusal};

const HEADER: &[u8] = b"KIND DEPTH RATE BURST SLOTS FRAMES LATENCY BUFFER DELAY ROUTE\n";

/// Arguments of `plan_tree` before the sink's node, with their columns in document 01: BO, SO, HEAD, DATA, ACK.
const COLUMNS: [u32; 5] = [1, 2, 10, 11, 12];
/// Where the arguments have the sink's node and, behind it, LOSS.
const SINK: usize = COLUMNS.len();
const LOSS: usize = SINK + 1;
/// The column of LOSS, and the place of "text after the last".
const LOSS_COLUMN: u32 = 13;
const AFTER_LAST: u32 = 14;

/// Appends the text of a plan, header line included, each line ended by LF.
pub fn write_tree_plan(plan: &TreePlan, out: &mut Vec<u8>) {
    out.extend_from_slice(HEADER);
    for node in &plan.lines {
        write_columns(&node.line, out);
        write_figure(node.route, out);
        out.push(b'\n');
    }
}

/// What program `plan_tree` prints for these arguments, BO SO HEAD DATA ACK SINK and perhaps LOSS, and this standard
/// input.
pub fn tree_program(arguments: &[&[u8]], input: &[u8]) -> Vec<u8> {
    let mut out = Vec::new();
    match plan_input(arguments, input) {
        Ok(plan) => write_tree_plan(&plan, &mut out),
        Err(refusal) => write_refusal(refusal, &mut out),
    }
    out
}

/// Number 9 comes before all others, then 10, then 2 for the arguments, and then what the library refuses. An argument
/// for the sink that cannot be read, or is missing, is no node.
fn plan_input(arguments: &[&[u8]], input: &[u8]) -> TreeOutcome {
    if input.len() > INPUT_LIMIT {
        return Err(Refusal::without_values(Phrase::Input, 0));
    }
    let nodes = list::read(input)?;
    let number = read_argument(arguments, SINK).unwrap_or(0);
    let sink = list::find_sink(&nodes, number)?;
    let settings = super::settle(&read_settings(arguments, number)?)?;
    let network = Network::new(&nodes, sink, &settings);
    network.check()?;
    Ok(network.plan())
}

/// Number 2: the lowest column that cannot be read or is missing, then an argument after the last. LOSS is 0 where it
/// is not given.
fn read_settings(arguments: &[&[u8]], sink: u32) -> Result<Beside, Refusal> {
    let mut values = [0; COLUMNS.len()];
    for (index, (value, column)) in values.iter_mut().zip(COLUMNS).enumerate() {
        let refusal = || Refusal::without_values(Phrase::Value, column);
        *value = read_argument(arguments, index).ok_or_else(refusal)?;
    }
    let unreadable = || Refusal::without_values(Phrase::Value, LOSS_COLUMN);
    let loss = if arguments.len() > LOSS { read_argument(arguments, LOSS).ok_or_else(unreadable)? } else { 0 };
    if arguments.len() > LOSS + 1 {
        return Err(Refusal::without_values(Phrase::TextAfter, AFTER_LAST));
    }
    let [beacon_order, superframe_order, head, data, ack] = values;
    Ok(Beside { beacon_order, superframe_order, head, data, ack, sink, loss })
}

/// An argument that is a value as document 01 has them.
fn read_argument(arguments: &[&[u8]], index: usize) -> Option<u32> {
    arguments.get(index).copied().and_then(read_value).map(|value| value as u32)
}

#[cfg(test)]
mod tests {
    use super::*;
    use crate::LIST_NAMES;

    const LIST: &str = "NODE PARENT BURST RATE\n1 0 0 0\n2 1 1 1\n";
    /// BI = 3840, S = 120, X = 60, m = 2, T = BI.
    const PLAN: &str = "KIND DEPTH RATE BURST SLOTS FRAMES LATENCY BUFFER DELAY ROUTE\n\
                        S 0 1 7680 0 0 0 2 0 0\n\
                        E 1 1 3840 1 2 3840 2 5760 5760\n";

    /// What is printed for the arguments, given with single spaces between them, and an input.
    fn printed(arguments: &str, input: &str) -> String {
        let arguments: Vec<&[u8]> = arguments.split(' ').map(str::as_bytes).collect();
        String::from_utf8(tree_program(&arguments, input.as_bytes())).unwrap()
    }

    #[test]
    fn a_plan() {
        assert_eq!(printed("2 1 5 13 0 1", LIST), PLAN);
        assert_eq!(printed("2 1 5 13 0 1", LIST.trim_end()), PLAN);
        assert_eq!(printed("2 1 5 13 0 1 0", LIST), PLAN);
    }

    /// X = 94 with acknowledgement; with LOSS 1 an exchange lasts 94 + 114 = 208, which takes two slots of 120 and has
    /// T = BI + 208.
    #[test]
    fn a_plan_with_failed_tries() {
        let plan = "KIND DEPTH RATE BURST SLOTS FRAMES LATENCY BUFFER DELAY ROUTE\n\
                    S 0 1 7888 0 0 0 3 0 0\n\
                    E 1 1 3840 2 1 4048 3 7888 7888\n";
        assert_eq!(printed("2 1 5 13 1 1 1", LIST), plan);
    }

    #[test]
    fn length_of_the_input() {
        let longest = format!("{LIST}{}", " ".repeat(INPUT_LIMIT - LIST.len()));
        assert_eq!(printed("2 1 5 13 0 1", &longest), "R 10 3\n");
        assert_eq!(printed("2 1 5 13 0 1", &format!("{longest} ")), "R 9 0\n");
        assert_eq!(printed("x", &" ".repeat(INPUT_LIMIT)), "R 10 0\n");
        assert_eq!(printed("x", &" ".repeat(INPUT_LIMIT + 1)), "R 9 0\n");
    }

    /// The list is looked at before any argument, then the sink's, then the others.
    #[test]
    fn number_10() {
        assert_eq!(printed("x x x x x x x", ""), "R 10 0\n");
        assert_eq!(printed("x x x x x x x", LIST_NAMES), "R 10 1\n");
        assert_eq!(printed("x x x x x x x", &LIST.replace("2 1 1 1", "2 2 1 1")), "R 10 2\n");
        for sink in ["0", "2", "3", "x", "01", "", "1x", "10000", "4294967297", "-1"] {
            assert_eq!(printed(&format!("x x x x x {sink} x"), LIST), "R 10 0\n", "{sink}");
        }
        assert_eq!(printed("2 1 5 13 0", LIST), "R 10 0\n");
        assert_eq!(tree_program(&[], LIST.as_bytes()), b"R 10 0\n");
    }

    #[test]
    fn number_2() {
        assert_eq!(printed("x x x x x 1 x", LIST), "R 2 1\n");
        assert_eq!(printed("2 x x x x 1 x", LIST), "R 2 2\n");
        assert_eq!(printed("2 1 x x x 1 x", LIST), "R 2 10\n");
        assert_eq!(printed("2 1 5 x x 1 x", LIST), "R 2 11\n");
        assert_eq!(printed("2 1 5 13 x 1 x", LIST), "R 2 12\n");
        assert_eq!(printed("2 1 5 13 0 1 x", LIST), "R 2 13\n");
        assert_eq!(printed("2 1 5 13 0 1 x x", LIST), "R 2 13\n");
        assert_eq!(printed("2 1 5 13 0 1 ", LIST), "R 2 13\n", "an empty seventh argument");
        assert_eq!(printed("2 1 5 13 0 1 01", LIST), "R 2 13\n");
        assert_eq!(printed("2 1 5 13 0 1 10000", LIST), "R 2 13\n");
        assert_eq!(printed("2 1 5 13 0 1 0 x", LIST), "R 2 14\n");
        assert_eq!(printed("2 1 5 13 0 1 0 ", LIST), "R 2 14\n", "an empty eighth argument");
        assert_eq!(printed("99 1 5 13 9 1 9 0 0", LIST), "R 2 14\n");
        for value in ["", "01", "00", "10000", "+1", "-1", "1.", " ", "0x"] {
            let arguments = [&b"99"[..], value.as_bytes(), b"5", b"13", b"9", b"1"];
            assert_eq!(tree_program(&arguments, LIST.as_bytes()), b"R 2 2\n", "{value}");
        }
    }

    #[test]
    fn numbers_of_the_library() {
        assert_eq!(printed("9999 9999 9999 9999 9999 1", LIST), "R 3 1\n");
        assert_eq!(printed("14 15 4 0 2 1", LIST), "R 3 2\n");
        assert_eq!(printed("2 3 4 0 2 1", LIST), "R 3 10\n");
        assert_eq!(printed("2 3 5 0 2 1", LIST), "R 3 11\n");
        assert_eq!(printed("2 3 5 1 2 1", LIST), "R 3 12\n");
        assert_eq!(printed("2 3 126 2 1 1", LIST), "R 4 2\n");
        assert_eq!(printed("2 3 5 1 1 1 8", LIST), "R 3 13\n");
        assert_eq!(printed("2 2 126 2 1 1", LIST), "R 4 11\n");
        assert_eq!(printed("2 2 126 2 0 1 1", LIST), "R 4 11\n");
        assert_eq!(printed("2 2 126 1 0 1 1", LIST), "R 4 13\n");
        assert_eq!(printed("1 1 5 13 0 1", &LIST.replace("2 1 1 1", "2 1 1 1\n3 2 1 1")), "R 6 0\n");
        assert_eq!(printed("2 1 5 13 0 1", &LIST.replace("2 1 1 1", "2 1 1 4095")), "R 7 1\n");
        let leaves: String = (3..=9).map(|node| format!("{node} 1 1 1\n")).collect();
        assert_eq!(printed("2 1 5 13 0 1", &format!("{LIST}{leaves}")), "R 5 1\n");
    }
}
