//! Times and slot counts of a row (document 01, "Time on the air", with the beacon's time of request E2
//! and the failed tries of request E5 of document 02).
//!
//! All results are small: BI is at most 960 × 2^14, so u64 holds every product made here.

use crate::row::Row;

/// Beacon interval BI in symbols.
pub fn interval(row: &Row) -> u64 {
    960 << row.bo
}

/// One slot S in symbols.
pub fn slot(row: &Row) -> u64 {
    60 << row.so
}

/// g, the reservations in the superframe of a router at a depth: one for each end node and, above depth
/// H, one for each child router; with the sink below it, one of these is downward.
pub fn reservations(row: &Row, depth: u64) -> u64 {
    row.ne + if depth < row.h { row.nr } else { 0 }
}

/// The beacon of a router with so many reservations, in symbols (request E2).
fn beacon(reservations: u64) -> u64 {
    match reservations {
        0 => 38,
        some => 40 + 6 * some,
    }
}

/// L, the slots that a router with so many reservations may reserve: 16 less the fewest slots that hold
/// 440 symbols and its beacon (request E2). A row that comes to check 7 has at most 7 reservations, with
/// which some slots are always left.
pub fn free_slots(row: &Row, reservations: u64) -> u64 {
    16 - (440 + beacon(reservations)).div_ceil(slot(row))
}

/// One try in symbols, with so many between the frame and the space behind it.
fn one_try(row: &Row, between: u64) -> u64 {
    let octets = row.head + row.data;
    let spacing = if octets <= 18 { 12 } else { 40 };
    12 + 2 * octets + between + spacing
}

/// X, the try that succeeds: where frames are acknowledged, turnaround and acknowledgement take 34.
pub fn good_try(row: &Row) -> u64 {
    one_try(row, 34 * row.ack)
}

/// A try that fails: the acknowledgement is waited for, which takes 54 (request E5).
pub fn failed_try(row: &Row) -> u64 {
    one_try(row, 54)
}

/// One exchange in symbols: X + LOSS × (X + 20) (request E5), which all that was built on X goes by.
pub fn exchange(row: &Row) -> u64 {
    let x = good_try(row);
    x + row.loss * (x + 20)
}

/// m, the exchanges that a reservation of `slots` slots holds.
pub fn exchanges(row: &Row, slots: u64) -> u64 {
    slots * slot(row) / exchange(row)
}

#[cfg(test)]
mod tests {
    use super::*;

    fn frame(octets: u64, ack: u64) -> u64 {
        let mut row = Row::read("0 0 0 0 1 0 0 1 1 5 1 0");
        row.data = octets - row.head;
        row.ack = ack;
        exchange(&row)
    }

    /// The four exchange times that document 01, "Time on the air", works out.
    #[test]
    fn exchange_times() {
        assert_eq!(frame(18, 0), 60);
        assert_eq!(frame(19, 0), 90);
        assert_eq!(frame(127, 0), 306);
        assert_eq!(frame(127, 1), 340);
    }

    /// As many failed tries as may be and the one that succeeds fill the exchange just up.
    #[test]
    fn failed_tries() {
        let row = Row::read("0 0 0 0 1 0 0 1 1 5 1 1");
        for octets in 6..=127 {
            for loss in 0..=7 {
                let row = Row { head: octets - 1, data: 1, loss, ..row };
                assert_eq!(exchange(&row), loss * failed_try(&row) + good_try(&row));
            }
        }
        let longest = Row { head: 126, data: 1, loss: 7, ..row };
        assert_eq!((good_try(&longest), failed_try(&longest), exchange(&longest)), (340, 360, 2_860));
    }

    /// Request E2 works out 1 and 2 slots for contention at SO 3, and 8 and 9 at SO 0, without and with a
    /// reservation. Slots of 60, 120, 240, 480 and 960 symbols hold 478 symbols in 8, 4, 2, 1 and 1 of
    /// them, and the 486 to 522 that 1 to 7 reservations need in 9, 5, 3, 2 and 1.
    #[test]
    fn slots_left() {
        let mut row = Row::read("14 0 0 0 1 0 0 1 1 5 1 0");
        for (so, without, with_some) in [(0, 8, 7), (1, 12, 11), (2, 14, 13), (3, 15, 14), (4, 15, 15), (14, 15, 15)] {
            row.so = so;
            assert_eq!(free_slots(&row, 0), without);
            assert!((1..=7).all(|reservations| free_slots(&row, reservations) == with_some));
        }
    }

    /// Above depth H there are NE + NR, at depth H NE, wherever the sink is.
    #[test]
    fn reservations_by_depth() {
        let row = Row::read("14 0 2 3 2 0 0 1 1 5 1 0");
        for row in [row, Row { sink: 2, ..row }] {
            assert_eq!([0, 1, 2].map(|depth| reservations(&row, depth)), [5, 5, 2]);
        }
        assert_eq!(reservations(&Row::read("14 0 0 0 4 0 0 1 1 5 1 0"), 0), 4);
    }
}
