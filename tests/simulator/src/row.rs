//! One row of settings (document 01, "Rows of settings").

use std::fmt;

/// The line of names that stands before the rows: the 13 of request E5.
pub const NAMES: &str = "BO SO H NR NE OWN SINK BURST RATE HEAD DATA ACK LOSS";

/// The values of a row, in the order of the name line.
#[derive(Clone, Copy, Debug, PartialEq, Eq)]
pub struct Row {
    pub bo: u64,
    pub so: u64,
    pub h: u64,
    pub nr: u64,
    pub ne: u64,
    pub own: u64,
    pub sink: u64,
    pub burst: u64,
    pub rate: u64,
    pub head: u64,
    pub data: u64,
    pub ack: u64,
    pub loss: u64,
}

/// The ranges of the columns (document 01, "Rows of settings", and request E5).
const RANGES: [(u64, u64); 13] = [
    (0, 14),
    (0, 14),
    (0, 12),
    (0, 7),
    (0, 7),
    (0, 1),
    (0, 12),
    (1, 255),
    (1, 4095),
    (5, 126),
    (1, 122),
    (0, 1),
    (0, 7),
];

impl Row {
    /// Reads a row of the fixed list: 12 values, where LOSS is 0, or 13. The list is written by hand in
    /// this package, so a value that cannot be read or lies outside its range is a mistake in the list
    /// and stops the program.
    pub fn read(text: &str) -> Row {
        let mut values: Vec<u64> = text.split(' ').map(|word| word.parse().expect("a number")).collect();
        if values.len() == 12 {
            values.push(0);
        }
        for (value, (low, high)) in values.iter().zip(RANGES) {
            assert!((low..=high).contains(value), "value {value} out of range in {text}");
        }
        let [bo, so, h, nr, ne, own, sink, burst, rate, head, data, ack, loss] =
            <[u64; 13]>::try_from(values).expect("12 or 13 values");
        Row { bo, so, h, nr, ne, own, sink, burst, rate, head, data, ack, loss }
    }
}

/// All 13 values.
impl fmt::Display for Row {
    fn fmt(&self, out: &mut fmt::Formatter<'_>) -> fmt::Result {
        let Row { bo, so, h, nr, ne, own, sink, burst, rate, head, data, ack, loss } = self;
        write!(out, "{bo} {so} {h} {nr} {ne} {own} {sink} {burst} {rate} {head} {data} {ack} {loss}")
    }
}

#[cfg(test)]
mod tests {
    use super::*;

    #[test]
    fn twelve_and_thirteen_values() {
        let row = Row::read("8 4 1 2 1 0 0 1 1 19 7 1");
        assert_eq!((row.ack, row.loss, row.to_string().as_str()), (1, 0, "8 4 1 2 1 0 0 1 1 19 7 1 0"));
        let row = Row::read("8 4 1 2 1 0 0 1 1 19 7 1 5");
        assert_eq!((row.ack, row.loss, row.to_string().as_str()), (1, 5, "8 4 1 2 1 0 0 1 1 19 7 1 5"));
        assert_eq!(NAMES.split(' ').count(), 13);
    }
}
