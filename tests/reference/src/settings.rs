//! Document 01, "Rows of settings": the values of a row and conditions 2, 3 and 4 of the table, with the 13th column of
//! request E5 of document 02.

use crate::{Heading, Phrase, Refusal};

/// Columns that there are.
pub const COLUMNS: usize = 13;

/// The values of a row in the order of the name line, before anything is known of their ranges. LOSS is 0 in a row
/// under 12 names.
pub type Values = [u64; COLUMNS];

/// Smallest and largest value of each column.
pub const RANGES: [(u64, u64); COLUMNS] = [
    (0, 14),
    (0, 14),
    (0, 12),
    (0, 7),
    (0, 7),
    (0, 1),
    (0, 12),
    (1, 255),
    (1, 4095),
    (5, 126),
    (1, 122),
    (0, 1),
    (0, 7),
];

const LONGEST_VALUE: usize = 4;
const LONGEST_FRAME: u64 = 127;

/// The settings of a row that keeps conditions 2, 3 and 4.
pub struct Settings {
    /// BO.
    pub beacon_order: u64,
    /// SO.
    pub superframe_order: u64,
    /// H.
    pub height: usize,
    /// NR.
    pub routers: u64,
    /// NE.
    pub end_nodes: u64,
    /// OWN, 0 or 1.
    pub own: u64,
    /// SINK.
    pub sink: usize,
    /// BURST, in frames.
    pub burst: u64,
    /// RATE.
    pub rate: u64,
    /// M = HEAD + DATA.
    pub octets: u64,
    /// ACK is 1.
    pub acknowledged: bool,
    /// LOSS.
    pub loss: u64,
}

/// Reads a line of values, given without its LF.
pub fn read(heading: Heading, row: &[u8]) -> Result<Settings, Refusal> {
    settle(&read_values(heading, row)?)
}

/// Conditions 3 and 4 for values that could be read.
pub fn settle(values: &Values) -> Result<Settings, Refusal> {
    check_ranges(values)?;
    check_odds(values)?;
    let [bo, so, h, nr, ne, own, sink, burst, rate, head, data, ack, loss] = *values;
    Ok(Settings {
        beacon_order: bo,
        superframe_order: so,
        height: h as usize,
        routers: nr,
        end_nodes: ne,
        own,
        sink: sink as usize,
        burst,
        rate,
        octets: head + data,
        acknowledged: ack == 1,
        loss,
    })
}

/// Condition 2. Document 01 says "one space between": the row is cut at every single space, so that two spaces, or one
/// in front, leave an empty and hence unreadable value. Document 01 does not say whether other text right behind the
/// digits of the last value, as in `0x`, spoils that value (its column) or is "text after the last" (the column after
/// it); as both words fit and "the lowest column answers", it is read as the former. "Text after the last" then begins
/// with a space, and such a space alone is already text.
fn read_values(heading: Heading, row: &[u8]) -> Result<Values, Refusal> {
    let columns = heading.columns();
    let mut pieces = row.split(|&byte| byte == b' ');
    let mut values = [0; COLUMNS];
    for (column, value) in (1..).zip(&mut values[..columns]) {
        let refusal = || Refusal::without_values(Phrase::Value, column);
        *value = pieces.next().and_then(read_value).ok_or_else(refusal)?;
    }
    match pieces.next() {
        None => Ok(values),
        Some(_) => Err(Refusal::without_values(Phrase::TextAfter, columns as u32 + 1)),
    }
}

/// A value: 1 to 4 digits, no leading zero except 0 itself.
pub fn read_value(piece: &[u8]) -> Option<u64> {
    let leading_zero = piece.len() > 1 && piece[0] == b'0';
    if piece.is_empty() || piece.len() > LONGEST_VALUE || leading_zero {
        return None;
    }
    piece.iter().try_fold(0, |value, byte| byte.is_ascii_digit().then(|| value * 10 + u64::from(byte - b'0')))
}

/// Condition 3, the lowest column first.
fn check_ranges(values: &Values) -> Result<(), Refusal> {
    for ((place, value), (low, high)) in (1..).zip(values).zip(RANGES) {
        if *value < low || *value > high {
            return Err(Refusal::new(Phrase::Range, place, [*value, 0]));
        }
    }
    Ok(())
}

/// Condition 4, in the order in which the table names its parts; that of request E5 is the last. The values are those
/// that the part compares.
fn check_odds(values: &Values) -> Result<(), Refusal> {
    let [bo, so, h, nr, ne, own, sink, _, _, head, data, ack, loss] = *values;
    let parts = [
        (so > bo, 2, Phrase::OrdersAtOdds, [so, bo]),
        ((nr == 0) != (h == 0), 4, Phrase::RoutersAtOdds, [nr, h]),
        (ne == 0 && own == 0, 5, Phrase::NothingSenses, [ne, own]),
        (sink > h, 7, Phrase::SinkTooDeep, [sink, h]),
        (sink > 0 && nr < 2, 7, Phrase::SinkOnOneBranch, [sink, nr]),
        (head + data > LONGEST_FRAME, 11, Phrase::FrameTooLong, [head, data]),
        (loss > 0 && ack == 0, 13, Phrase::LossWithoutAck, [loss, ack]),
    ];
    match parts.into_iter().find(|(at_odds, ..)| *at_odds) {
        Some((_, place, phrase, values)) => Err(Refusal::new(phrase, place, values)),
        None => Ok(()),
    }
}

#[cfg(test)]
mod tests {
    use super::*;

    fn refusal_under(heading: Heading, row: &str) -> Option<(u32, u32)> {
        read(heading, row.as_bytes()).err().map(|refusal| (refusal.number, refusal.place))
    }

    /// Under 12 names.
    fn refusal(row: &str) -> Option<(u32, u32)> {
        refusal_under(Heading::WithoutLoss, row)
    }

    /// Under 13 names, of a row with this after its 12th value, which is ACK 1.
    fn refusal_with(loss: &str) -> Option<(u32, u32)> {
        refusal_under(Heading::WithLoss, &format!("8 4 1 2 1 0 0 1 1 19 7 1{loss}"))
    }

    #[test]
    fn a_row_is_read() {
        let settings = read(Heading::WithoutLoss, b"8 4 1 2 3 0 1 255 4095 19 7 1").ok().unwrap();
        assert_eq!((settings.beacon_order, settings.superframe_order), (8, 4));
        assert_eq!((settings.height, settings.sink), (1, 1));
        assert_eq!((settings.routers, settings.end_nodes, settings.own), (2, 3, 0));
        assert_eq!((settings.burst, settings.rate), (255, 4095));
        assert_eq!((settings.octets, settings.acknowledged, settings.loss), (26, true, 0));
        let settings = read(Heading::WithLoss, b"8 4 1 2 3 0 1 255 4095 19 7 1 5").ok().unwrap();
        assert_eq!((settings.rate, settings.octets, settings.acknowledged, settings.loss), (4095, 26, true, 5));
    }

    #[test]
    fn examples_of_the_table() {
        assert_eq!(refusal("08 4 1 2 1 0 0 1 1 19 7 0"), Some((2, 1)));
        assert_eq!(refusal("8 4 1 2 1 0 0 0 1 19 7 0"), Some((3, 8)));
        assert_eq!(refusal("4 8 1 2 1 0 0 1 1 19 7 0"), Some((4, 2)));
    }

    #[test]
    fn spaces() {
        assert_eq!(refusal(" 8 4 1 2 1 0 0 1 1 19 7 0"), Some((2, 1)));
        assert_eq!(refusal("8  4 1 2 1 0 0 1 1 19 7 0"), Some((2, 2)));
        assert_eq!(refusal("8 4 1 2 1 0 0 1 1 19 7  0"), Some((2, 12)));
        assert_eq!(refusal("8 4 1 2 1 0 0 1 1 19 7 0 "), Some((2, 13)));
        assert_eq!(refusal("8\t4 1 2 1 0 0 1 1 19 7 0"), Some((2, 1)));
    }

    #[test]
    fn missing_values() {
        assert_eq!(refusal(""), Some((2, 1)));
        assert_eq!(refusal(" "), Some((2, 1)));
        assert_eq!(refusal("8"), Some((2, 2)));
        assert_eq!(refusal("8 "), Some((2, 2)));
        assert_eq!(refusal("8 4 1 2 1 0 0 1 1 19 7"), Some((2, 12)));
        assert_eq!(refusal("8 4 1 2 1 0 0 1 1 19 7 "), Some((2, 12)));
    }

    #[test]
    fn text_after_the_last() {
        assert_eq!(refusal("8 4 1 2 1 0 0 1 1 19 7 0 0"), Some((2, 13)));
        assert_eq!(refusal("8 4 1 2 1 0 0 1 1 19 7 0 x y"), Some((2, 13)));
        assert_eq!(refusal("8 4 1 2 1 0 0 1 1 x 7 0 x"), Some((2, 10)));
    }

    /// Under 13 names the 13th value has to be there, and text after it has place 14.
    #[test]
    fn the_13th_value() {
        assert_eq!((refusal_with(" 0"), refusal_with(" 7")), (None, None));
        for unreadable in ["", " ", "  0", " x", " 01", " 00", " 0x", " 7\r", " 12345", " -1", " 0\0", " \t0"] {
            assert_eq!(refusal_with(unreadable), Some((2, 13)), "{unreadable:?}");
        }
        for after in [" 0 ", " 0 0", " 7 x y", " 9999  ", " 8 14"] {
            assert_eq!(refusal_with(after), Some((2, 14)), "{after:?}");
        }
        assert_eq!(refusal_with("x 0"), Some((2, 12)));
        assert_eq!(refusal_under(Heading::WithLoss, "8 4 1 2 1 0 0 1 1 19 7"), Some((2, 12)));
        assert_eq!(refusal_under(Heading::WithLoss, "8 4 1 2 1 0 0 1 1 x 7 1 x x"), Some((2, 10)));
    }

    #[test]
    fn the_range_of_loss() {
        for outside in [" 8", " 9", " 4095", " 9999"] {
            assert_eq!(refusal_with(outside), Some((3, 13)), "{outside:?}");
        }
        let lower = "8 4 1 2 1 0 0 1 1 19 7 2 8";
        assert_eq!(refusal_under(Heading::WithLoss, lower), Some((3, 12)), "the lowest column answers");
    }

    #[test]
    fn unreadable_values() {
        assert_eq!(refusal("8 4 1 2 1 0 0 1 1 19 7 0x"), Some((2, 12)));
        assert_eq!(refusal("8 4 1 2 1 0 0 1 1 19 7 0\r"), Some((2, 12)));
        assert_eq!(refusal("8 4 1 2 1 0 0 1 1 19 7\0 0"), Some((2, 11)));
        assert_eq!(refusal("8 4 1 2 1 0 0 1 12345 19 7 0"), Some((2, 9)));
        assert_eq!(refusal("8 4 1 2 1 0 0 1 00 19 7 0"), Some((2, 9)));
        assert_eq!(refusal("8 4 -1 2 1 0 0 1 1 19 7 0"), Some((2, 3)));
        assert_eq!(refusal("8 4 +1 2 1 0 0 1 1 19 7 0"), Some((2, 3)));
    }

    #[test]
    fn unreadable_comes_before_out_of_range() {
        assert_eq!(refusal("15 4 1 2 1 0 0 1 1 19 7 02"), Some((2, 12)));
        assert_eq!(refusal("14 15 13 2 1 0 0 1 1 19 7 2"), Some((3, 2)));
    }

    #[test]
    fn both_ends_of_every_range() {
        let row: Values = [8, 4, 1, 2, 1, 0, 0, 1, 1, 19, 7, 0, 0];
        for (column, (low, high)) in RANGES.into_iter().enumerate() {
            let at = |value| {
                let mut values = row;
                values[column] = value;
                check_ranges(&values).err().map(|refusal| refusal.place as usize)
            };
            assert_eq!((at(low), at(high)), (None, None));
            assert_eq!(at(high + 1), Some(column + 1));
            assert!(low == 0 || at(low - 1) == Some(column + 1));
        }
    }

    #[test]
    fn values_at_odds() {
        assert_eq!(refusal("8 4 1 0 1 0 0 1 1 19 7 0"), Some((4, 4)));
        assert_eq!(refusal("8 4 0 1 1 0 0 1 1 19 7 0"), Some((4, 4)));
        assert_eq!(refusal("8 4 1 2 0 0 0 1 1 19 7 0"), Some((4, 5)));
        assert_eq!(refusal("8 4 1 2 1 0 2 1 1 19 7 0"), Some((4, 7)));
        assert_eq!(refusal("8 4 1 1 1 0 1 1 1 19 7 0"), Some((4, 7)));
        assert_eq!(refusal("8 4 1 2 1 0 1 1 1 120 8 0"), Some((4, 11)));
        assert_eq!(refusal("8 4 1 2 1 0 1 1 1 120 7 0"), None);
        assert_eq!(refusal("4 8 1 0 0 0 2 1 1 120 8 0"), Some((4, 2)));
        assert_eq!(refusal("8 4 1 0 0 0 2 1 1 120 8 0"), Some((4, 4)));
        assert_eq!(refusal("8 4 1 1 0 0 2 1 1 120 8 0"), Some((4, 5)));
        assert_eq!(refusal("8 4 1 1 1 0 2 1 1 120 8 0"), Some((4, 7)));
    }

    /// LOSS above 0 with ACK 0 comes after all others of number 4, and LOSS 0 is at odds with nothing.
    #[test]
    fn loss_at_odds_with_ack() {
        let at = |values: &str| refusal_under(Heading::WithLoss, values);
        for loss in 1..=7 {
            assert_eq!(at(&format!("8 4 1 2 1 0 0 1 1 19 7 0 {loss}")), Some((4, 13)));
            assert_eq!(at(&format!("8 4 1 2 1 0 0 1 1 19 7 1 {loss}")), None);
            assert_eq!(at(&format!("8 4 1 2 1 0 0 1 1 120 8 0 {loss}")), Some((4, 11)));
        }
        assert_eq!(at("8 4 1 2 1 0 0 1 1 19 7 0 0"), None);
        assert_eq!(at("4 8 1 0 0 0 2 1 1 120 8 0 1"), Some((4, 2)));
        assert_eq!(at("8 4 1 1 1 0 1 1 1 19 7 0 1"), Some((4, 7)));
        assert_eq!(at("8 4 1 2 1 0 0 1 1 19 7 0 8"), Some((3, 13)), "3 before 4");
    }
}
