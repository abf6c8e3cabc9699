//! For tests: the reference behind the entries for C, with one thing wrong in some of its answers.

use crate::calls::Calls;
use crate::difference::Expected;
use crate::entries::{Answer, Memory, Planner, Refusal};
use reference::{
    plan_named_row_counting, read_reason, reservable, reservations, Outcome, Phrase, Settings, LOSS_NAMES, NAMES,
};
use std::cell::Cell;

/// The slots that a router at a depth may reserve (L of request E2), as a planner counts them.
pub type Count = fn(&Settings, usize) -> u64;
/// What becomes of an answer, a row and a buffer after a right call.
pub type Fault = Box<dyn Fn(&mut Answer, &mut [u8], &mut [u8])>;
/// The same of a line with this phrase, or of that of a planned row.
pub type LineFault = Box<dyn Fn(Option<Phrase>, &mut Answer, &mut [u8], &mut [u8])>;
/// What becomes of an answer and a buffer after a right call for this number and place.
pub type RefusalFault = Box<dyn Fn((u32, u32), &mut Answer, &mut [u8])>;
/// The name line and the row that are read in place of those that were lent.
pub type RowReading = fn(&[u8], &[u8]) -> (Vec<u8>, Vec<u8>);
/// What is read from a line.
pub type Reading = Box<dyn Fn(&mut [u8]) -> Refusal>;

/// Wrong counts, with what is wrong in each.
pub const WRONG_COUNTS: [(&str, Count); 4] = [
    ("the beacon has 38 symbols with reservations too", |settings, _| left(settings, 38)),
    ("the beacon has 6 symbols for each reservation and no more", |settings, depth| {
        left(settings, 6 * reservations(settings, depth))
    }),
    ("depth H's count at every depth", |settings, _| reservable(settings, settings.height)),
    ("no beacon, as in document 01", |settings, _| left(settings, 0)),
];

/// Wrong readings of the 13th column, with what is wrong in each.
pub const WRONG_LOSSES: [(&str, RowReading); 7] = [
    ("LOSS is passed over", |names, row| with_loss(names, row, |_, loss| *loss = 0)),
    ("one failed try less", |names, row| with_loss(names, row, |_, loss| *loss -= u64::from((1..=7).contains(loss)))),
    ("LOSS 8 is 7", |names, row| with_loss(names, row, |_, loss| *loss -= u64::from(*loss == 8))),
    ("LOSS is 0 where ACK is 0", |names, row| {
        with_loss(names, row, |ack, loss| *loss *= u64::from(ack != 0 || *loss > 7))
    }),
    ("a missing LOSS is 0", |names, row| {
        let is_short = names == LOSS_NAMES.as_bytes() && pieces(row).len() == 12;
        (names.to_vec(), if is_short { [row, b" 0"].concat() } else { row.to_vec() })
    }),
    ("text after the 13th value is passed over", |names, row| {
        let most = if names == LOSS_NAMES.as_bytes() { 13 } else { usize::MAX };
        (names.to_vec(), pieces(row).into_iter().take(most).collect::<Vec<_>>().join(&b' '))
    }),
    ("a 13th value under 12 names is LOSS", |names, row| {
        let is_long = names == NAMES.as_bytes() && pieces(row).len() == 13;
        (if is_long { LOSS_NAMES.as_bytes() } else { names }.to_vec(), row.to_vec())
    }),
];

fn pieces(row: &[u8]) -> Vec<&[u8]> {
    row.split(|&byte| byte == b' ').collect()
}

/// The row with another LOSS, where the name line has it and it is the last value and can be read; ACK is told.
fn with_loss(names: &[u8], row: &[u8], change: fn(u64, &mut u64)) -> (Vec<u8>, Vec<u8>) {
    let mut values = pieces(row);
    let (ack, loss) = (values.get(11).and_then(number), values.get(12).and_then(number));
    let mut changed = Vec::new();
    if let (true, 13, Some(ack), Some(mut loss)) = (names == LOSS_NAMES.as_bytes(), values.len(), ack, loss) {
        change(ack, &mut loss);
        changed.extend(loss.to_string().into_bytes());
        values[12] = &changed;
    }
    (names.to_vec(), values.join(&b' '))
}

/// A number of up to 4 digits without a leading zero.
fn number(piece: &&[u8]) -> Option<u64> {
    let value: u64 = std::str::from_utf8(piece).ok()?.parse().ok()?;
    (value <= 9999 && value.to_string().as_bytes() == *piece).then_some(value)
}

/// The slots of a superframe that a contention period with a beacon of so many symbols leaves.
fn left(settings: &Settings, beacon: u64) -> u64 {
    16 - (440 + beacon).div_ceil(60 << settings.superframe_order)
}

/// Right but for what these do.
pub struct Wrong {
    /// The count with which it is decided whether slots suffice.
    pub count: Count,
    /// The count that the line of a row shows that is refused for its slots.
    pub shown: Count,
    /// What is read of the 13th column.
    pub reading_rows: RowReading,
    pub planning: Fault,
    pub explaining: LineFault,
    pub explaining_refusals: RefusalFault,
    pub reading: Reading,
}

/// Nothing wrong.
impl Default for Wrong {
    fn default() -> Wrong {
        Wrong {
            count: reservable,
            shown: reservable,
            reading_rows: |names, row| (names.to_vec(), row.to_vec()),
            planning: Box::new(|_, _, _| ()),
            explaining: Box::new(|_, _, _, _| ()),
            explaining_refusals: Box::new(|_, _, _| ()),
            reading: Box::new(|line| {
                let (number, place) = read_reason(line).unwrap_or((0, 0));
                Refusal { number, place }
            }),
        }
    }
}

impl Wrong {
    /// A planner with this count, in its lines too.
    pub fn counting(count: Count) -> Wrong {
        Wrong { count, shown: count, ..Wrong::default() }
    }

    /// What the two counts make of a row. The last depth that is counted is the one that is refused.
    pub fn outcome(&self, names: &[u8], row: &[u8]) -> Outcome {
        let shown = Cell::new(0);
        let (names, row) = (self.reading_rows)(names, row);
        let outcome = plan_named_row_counting(&names, &row, |settings, depth| {
            shown.set((self.shown)(settings, depth));
            (self.count)(settings, depth)
        });
        outcome.map_err(|mut refusal| {
            if refusal.phrase == Phrase::Slots {
                refusal.values[1] = shown.get();
            }
            refusal
        })
    }
}

impl Planner for Wrong {
    fn check_row(&self, names: Memory, row: Memory) -> Answer {
        let outcome = self.outcome(names.unwrap_or_default(), row.unwrap_or_default());
        Expected::planning(&outcome).checked()
    }

    fn plan_row(&self, names: Memory, row: Memory, text: Memory) -> Answer {
        let (row, text) = (row.unwrap_or_default(), text.unwrap_or_default());
        let mut answer = put(&Expected::planning(&self.outcome(names.unwrap_or_default(), row)), text);
        (self.planning)(&mut answer, row, text);
        answer
    }

    fn explain_row(&self, names: Memory, row: Memory, line: Memory) -> Answer {
        let (row, line) = (row.unwrap_or_default(), line.unwrap_or_default());
        let outcome = self.outcome(names.unwrap_or_default(), row);
        let mut answer = put(&Expected::explaining(&outcome), line);
        (self.explaining)(outcome.err().map(|refusal| refusal.phrase), &mut answer, row, line);
        answer
    }

    fn explain_refusal(&self, number: u32, place: u32, line: Memory) -> Answer {
        let line = line.unwrap_or_default();
        let mut answer = put(&Expected::explaining_refusal(number, place), line);
        (self.explaining_refusals)((number, place), &mut answer, line);
        answer
    }

    fn read_reason(&self, line: Memory) -> Refusal {
        (self.reading)(line.unwrap_or_default())
    }
}

/// A right call.
pub fn put(expected: &Expected, buffer: &mut [u8]) -> Answer {
    let text = expected.written(buffer.len());
    buffer[..text.len()].copy_from_slice(text);
    expected.answer(buffer.len())
}

/// The planner is found out on the refusals that are given by number and place, or within some hundred rows.
pub fn is_found_out(planner: &impl Planner) -> bool {
    let mut calls = Calls::new(planner, 1);
    calls.refusals().is_err() || (0..2_000).any(|_| calls.next_row().is_err())
}

/// Rows tell every wrong count apart, each of them by many.
mod tests {
    use super::*;
    use reference::line_of;
    use reference::rows::{named_row, Rng};

    /// Of so many drawn rows, so many at least tell apart.
    const DRAWN: usize = 10_000;
    const ENOUGH: usize = 50;
    /// The same where a fault shows at one column alone.
    const ENOUGH_AT_LOSS: usize = 10;

    /// The rows drawn of which this is another for the wrong planner than for the right one.
    fn told_apart<T: PartialEq>(wrong: &Wrong, what: impl Fn(Outcome) -> T) -> usize {
        let (right, mut rng) = (Wrong::default(), Rng::new(1));
        let of = |planner: &Wrong, (names, row): &(Vec<u8>, Vec<u8>)| what(planner.outcome(names, row));
        (0..DRAWN).map(|_| named_row(&mut rng)).filter(|named| of(&right, named) != of(wrong, named)).count()
    }

    /// By number, place or plan.
    #[test]
    fn wrong_counts() {
        for (name, count) in WRONG_COUNTS {
            let answer = |outcome: Outcome| outcome.map_err(|refusal| (refusal.number, refusal.place));
            let rows = told_apart(&Wrong::counting(count), answer);
            assert!(rows >= ENOUGH, "{name}: {rows}");
        }
    }

    #[test]
    fn wrong_losses() {
        for (name, reading_rows) in WRONG_LOSSES {
            let answer = |outcome: Outcome| outcome.map_err(|refusal| (refusal.number, refusal.place));
            let rows = told_apart(&Wrong { reading_rows, ..Wrong::default() }, answer);
            assert!(rows >= ENOUGH_AT_LOSS, "{name}: {rows}");
        }
    }

    /// By the line, where number and place are right.
    #[test]
    fn wrong_counts_in_lines_alone() {
        for (name, shown) in WRONG_COUNTS {
            let rows = told_apart(&Wrong { shown, ..Wrong::default() }, |outcome| line_of(&outcome));
            assert!(rows >= ENOUGH, "{name}: {rows}");
        }
    }

    /// The root's count at every depth is one that no row tells apart: from 1 to 7 reservations the count is the same,
    /// and a router without any, which may be counted otherwise at depth H, uses no slots.
    #[test]
    fn the_count_of_the_root() {
        assert_eq!(told_apart(&Wrong::counting(|settings, _| reservable(settings, 0)), |outcome| outcome), 0);
    }

    /// Number and place of the rows that request E2 is explained with: P3's, whose root is at depth H, and one whose
    /// root has a reservation where depth H has none.
    #[test]
    fn rows_of_request_e2() {
        let refusal = |count: Count, row: &str| {
            let outcome = Wrong::counting(count).outcome(NAMES.as_bytes(), row.as_bytes());
            outcome.err().map(|refusal| (refusal.number, refusal.place))
        };
        let wrong = |row| WRONG_COUNTS.map(|(_, count)| refusal(count, row));
        let (p3, lone) = ("0 0 0 0 4 0 0 1 1 19 7 0", "4 0 1 1 0 1 0 1 8 17 1 0");
        assert_eq!([p3, lone].map(|row| refusal(reservable, row)), [Some((7, 0)); 2]);
        assert_eq!(wrong(p3), [None, None, Some((7, 0)), None]);
        assert_eq!(wrong(lone), [None; 4]);
    }
}
