//! Arguments and standard inputs for program `plan_tree`.

use super::{draw, Drawn};
use crate::rows::Rng;
use crate::{Beside, INPUT_LIMIT};

/// What the program is given. No argument has a byte 0.
pub struct Input {
    pub arguments: Vec<Vec<u8>>,
    pub list: Vec<u8>,
}

/// Arguments that are no values.
const WORDS: [&str; 14] =
    ["", " ", "x", "01", "00", "-1", "+1", "1.0", "0x1", "10000", "4294967296", "1 ", " 1", "1\n"];

/// A drawn list, mostly with the settings that were drawn with it.
pub fn input(rng: &mut Rng) -> Input {
    let Drawn { mut list, beside } = draw(rng);
    let mut arguments = written(rng, &beside);
    if rng.one_in(4) {
        for _ in 0..rng.pick(&[1, 1, 2]) {
            damage(rng, &mut arguments);
        }
    }
    if rng.one_in(20) {
        list.resize(INPUT_LIMIT - 1 + rng.index(3), rng.pick(b"\n 0\0"));
    }
    Input { arguments, list }
}

/// The arguments in the order in which the program takes them. LOSS 0 is left out half the time.
fn written(rng: &mut Rng, beside: &Beside) -> Vec<Vec<u8>> {
    let Beside { beacon_order, superframe_order, head, data, ack, sink, loss } = *beside;
    let values = [beacon_order, superframe_order, head, data, ack, sink, loss];
    let mut arguments = values.map(|value| value.to_string().into_bytes()).to_vec();
    if loss == 0 && rng.one_in(2) {
        arguments.pop();
    }
    arguments
}

/// An argument that is no value, or one too few or too many.
fn damage(rng: &mut Rng, arguments: &mut Vec<Vec<u8>>) {
    let word = match rng.below(4) {
        0 => vec![rng.range(1, 255) as u8],
        _ => rng.pick(&WORDS).as_bytes().to_vec(),
    };
    match rng.below(6) {
        0 => arguments.truncate(rng.index(arguments.len() + 1)),
        1 => arguments.push(word),
        2 => arguments.push(b"0".to_vec()),
        _ if arguments.is_empty() => arguments.push(word),
        _ => {
            let at = rng.index(arguments.len());
            arguments[at] = word;
        }
    }
}

#[cfg(test)]
mod tests {
    use super::*;
    use crate::tree_program;
    use std::collections::BTreeMap;

    /// Plans, and every number and place that the arguments can be refused with.
    #[test]
    fn inputs_are_of_all_kinds() {
        let mut rng = Rng::new(51);
        let mut counts: BTreeMap<String, u64> = BTreeMap::new();
        for _ in 0..4_000 {
            let Input { arguments, list } = input(&mut rng);
            assert!(arguments.iter().all(|argument| !argument.contains(&0)));
            let arguments: Vec<&[u8]> = arguments.iter().map(Vec::as_slice).collect();
            let printed = String::from_utf8(tree_program(&arguments, &list)).unwrap();
            *counts.entry(printed.lines().next().unwrap().to_string()).or_default() += 1;
        }
        let header = "KIND DEPTH RATE BURST SLOTS FRAMES LATENCY BUFFER DELAY ROUTE";
        let unreadable = ["R 2 1", "R 2 2", "R 2 10", "R 2 11", "R 2 12", "R 2 13", "R 2 14"];
        for line in [header, "R 3 1", "R 3 13", "R 4 13", "R 9 0", "R 10 0"].into_iter().chain(unreadable) {
            assert!(counts.get(line).is_some_and(|&count| count >= 10), "{line}: {counts:?}");
        }
    }
}
