//! Planned rows drawn from all that document 01, "Rows of settings", and request E5 allow.

use crate::chance::Chance;
use crate::figures::{self, Answer, Version};
use crate::row::Row;

/// One of some values that are of interest, or anything from `low` to `high`.
fn value(chance: &mut Chance, special: &[u64], low: u64, high: u64) -> u64 {
    if chance.once_in(3) {
        low + chance.up_to(high - low)
    } else {
        special[chance.index(special.len())]
    }
}

/// Any values in their ranges, those with small trees and small rates more often.
fn any(chance: &mut Chance, most_order: u64) -> Row {
    let so = chance.up_to(most_order);
    let h = value(chance, &[0, 1, 2, 3], 0, 12);
    let octets = value(chance, &[6, 18, 19, 26], 6, 127);
    let most_rate = [60, 4095][chance.index(2)];
    let head = 5 + chance.up_to(octets - 6).min(121);
    let ack = chance.up_to(1);
    Row {
        bo: so + chance.up_to(most_order - so),
        so,
        h,
        nr: if h == 0 { 0 } else { value(chance, &[1, 2, 3], 1, 7) },
        ne: chance.up_to(7),
        own: chance.up_to(1),
        sink: if chance.once_in(2) { 0 } else { chance.up_to(h) },
        burst: value(chance, &[1, 2, 3, 8], 1, 255),
        rate: value(chance, &[1, 2, 3, 4, 8, 30], 1, most_rate),
        head,
        data: octets - head,
        ack,
        loss: if ack == 1 { value(chance, &[0, 1, 2, 3], 0, 7) } else { 0 },
    }
}

/// A planned row with BO at most `most_order`.
pub fn drawn(chance: &mut Chance, most_order: u64) -> Row {
    loop {
        let row = any(chance, most_order);
        let read = Row::read(&row.to_string());
        if matches!(figures::answer(&read, Version::Right), Answer::Plan(_)) {
            return read;
        }
    }
}
