//! Twins: a row or an input under 12 names, and the same with LOSS 0 in each row under 13 names. Request E5 of document
//! 02: "A name line of 12 names still stands for LOSS 0", so that whatever is answered to one is answered to the other.

use super::*;

/// So many rows at most in an input.
const MOST_ROWS: u64 = 60;

/// A row of 12 values and the same with LOSS 0. Seldom a value cannot be read, but there are always 12 of them.
pub fn twin_rows(rng: &mut Rng) -> [Vec<u8>; 2] {
    let row = twelve_values(rng);
    let with_loss = [&row[..], b" 0"].concat();
    [row, with_loss]
}

/// An input under 12 names and the same under 13, each with its name line and rows; the last LF may be lacking.
pub fn twin_texts(rng: &mut Rng) -> [Vec<u8>; 2] {
    let mut texts = Heading::BOTH.map(|heading| heading.names().as_bytes().to_vec());
    for _ in 0..rng.range(1, MOST_ROWS) {
        for (text, row) in texts.iter_mut().zip(twin_rows(rng)) {
            text.push(b'\n');
            text.extend(row);
        }
    }
    let last: &[u8] = rng.pick(&[&b"\n"[..], b""]);
    texts.map(|text| [&text[..], last].concat())
}

fn twelve_values(rng: &mut Rng) -> Vec<u8> {
    let row = written(Heading::WithoutLoss, &values(rng, Heading::WithoutLoss));
    if !rng.one_in(10) {
        return row;
    }
    let mut pieces: Vec<&[u8]> = row.split(|&byte| byte == b' ').collect();
    let column = rng.index(pieces.len());
    pieces[column] = rng.pick(&[&b""[..], b"x", b"00", b"01", b"12345", b"-1", b"0x", b"1\r", b"\xff", b"\t"]);
    pieces.join(&b' ')
}

#[cfg(test)]
mod tests {
    use super::*;
    use crate::{explanations, plan_row, program};
    use std::collections::BTreeSet;

    /// Plans and refusals with every number are the same, and so are the lines.
    #[test]
    fn twin_rows_are_answered_alike() {
        let mut rng = Rng::new(17);
        let mut numbers = BTreeSet::new();
        for _ in 0..20_000 {
            let [row, with_loss] = twin_rows(&mut rng);
            let outcome = plan_row(Heading::WithoutLoss, &row);
            assert_eq!(outcome, plan_row(Heading::WithLoss, &with_loss), "{}", row.escape_ascii());
            numbers.insert(outcome.err().map_or(0, |refusal| refusal.number));
        }
        assert_eq!(numbers, BTreeSet::from([0, 2, 3, 4, 5, 6, 7]));
    }

    #[test]
    fn twin_texts_are_printed_alike() {
        let mut rng = Rng::new(18);
        for _ in 0..300 {
            let [text, with_loss] = twin_texts(&mut rng);
            assert_eq!(program(&text), program(&with_loss));
            assert_eq!(explanations(&text), explanations(&with_loss));
        }
    }
}
