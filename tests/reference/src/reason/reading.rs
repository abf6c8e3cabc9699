//! "From the line number and place can be had again."

use super::Phrase;
use crate::LOSS_NAMES;

/// Number and place of the refusal whose line this is, given without LF; none where it is no reason. Numbers in it are
/// written in decimal without leading zeros. They may be of any length, but a place is below 2^32. What they say is not
/// weighed: a line that no row can get reads as its words have it.
pub fn read_reason(line: &[u8]) -> Option<(u32, u32)> {
    Phrase::OF_ROWS.into_iter().chain(Phrase::OF_TREES).find_map(|phrase| read_as(phrase, line))
}

/// Holds the line against the words of a phrase from the front.
fn read_as(phrase: Phrase, mut line: &[u8]) -> Option<(u32, u32)> {
    let mut place = phrase.parts().place;
    for letter in phrase.words().bytes() {
        match letter {
            b'@' => (place, line) = cut_column(line)?,
            b'%' => (place, line) = cut_place(line)?,
            b'#' => (_, line) = cut_number(line)?,
            _ => line = line.strip_prefix(&[letter])?,
        }
    }
    line.is_empty().then_some((phrase.number(), place))
}

/// A column at the front, and the rest: a name, or the number of a column that has none.
fn cut_column(line: &[u8]) -> Option<(u32, &[u8])> {
    let end = line.iter().position(|&byte| byte == b' ')?;
    let (word, rest) = line.split_at(end);
    let named = (1..).zip(LOSS_NAMES.split(' ')).find(|(_, name)| name.as_bytes() == word);
    match (named, cut_place(word)) {
        (Some((column, _)), _) => Some((column, rest)),
        (None, Some((column, []))) if !(1..=13).contains(&column) => Some((column, rest)),
        _ => None,
    }
}

/// A place at the front, and the rest.
fn cut_place(line: &[u8]) -> Option<(u32, &[u8])> {
    let (digits, rest) = cut_number(line)?;
    let place = digits.iter().try_fold(0, |place: u32, digit| {
        place.checked_mul(10).and_then(|tenfold| tenfold.checked_add(u32::from(digit - b'0')))
    });
    place.map(|place| (place, rest))
}

/// The digits of a number at the front, all that stand there, and the rest.
fn cut_number(line: &[u8]) -> Option<(&[u8], &[u8])> {
    let length = line.iter().take_while(|byte| byte.is_ascii_digit()).count();
    let (digits, rest) = line.split_at(length);
    let leading_zero = length > 1 && digits[0] == b'0';
    (length > 0 && !leading_zero).then_some((digits, rest))
}

#[cfg(test)]
mod tests {
    use super::*;
    use crate::{plan_named_row, Refusal};

    fn read(line: &str) -> Option<(u32, u32)> {
        read_reason(line.as_bytes())
    }

    /// A line of each number, of each place of number 4, and of both readings of place 7; then those of surveyed trees.
    const LINES: [(&str, (u32, u32)); 25] = [
        ("The line of names differs or is missing.", (1, 0)),
        ("The value of H is unreadable or missing.", (2, 3)),
        ("There is text after the last value, where column 13 would be.", (2, 13)),
        ("There is text after the last value, where column 14 would be.", (2, 14)),
        ("The value of LOSS is unreadable or missing.", (2, 13)),
        ("The value of BURST is outside its range: it is 0.", (3, 8)),
        ("The value of LOSS is outside its range: it is 8.", (3, 13)),
        ("The value of HEAD is outside its range: it is 127.", (3, 10)),
        ("Values are at odds at SO, which may not be above BO: SO is 8 and BO is 4.", (4, 2)),
        ("Values are at odds at NR, which is 0 exactly where H is 0: NR is 0 and H is 1.", (4, 4)),
        ("Values are at odds at NE, since nothing senses: NE is 0 and OWN is 0.", (4, 5)),
        ("Values are at odds at SINK, which may not be above H: SINK is 2 and H is 1.", (4, 7)),
        ("Values are at odds at SINK, which is 0 where NR is below 2: SINK is 1 and NR is 1.", (4, 7)),
        ("Values are at odds at DATA, which with HEAD may not be above 127: HEAD is 120 and DATA is 8.", (4, 11)),
        ("Values are at odds at LOSS, which is 0 where ACK is 0: LOSS is 3 and ACK is 0.", (4, 13)),
        ("A router would have more than 7 reservations: NE is 4 and NR is 4.", (5, 0)),
        ("There are more routers than superframes that fit a beacon interval: 3 against 2.", (6, 0)),
        ("The slots used at depth 12 are more than can be reserved: 16 used and 15 reservable.", (7, 12)),
        ("The lent buffer is shorter than the text to be written.", (8, 0)),
        ("The input is over 65,536 bytes.", (9, 0)),
        ("Router 4 would have more than 7 reservations: it would have 9.", (5, 4)),
        ("The slots used at router 2 are more than can be reserved: 10 used and 7 reservable.", (7, 2)),
        ("The line of names of the node list differs or is missing.", (10, 0)),
        ("Line 3 of the node list breaks a rule or is missing.", (10, 3)),
        ("The sink is no router of the tree.", (10, 0)),
    ];

    #[test]
    fn lines_of_every_number() {
        for (line, refusal) in LINES {
            assert_eq!(read(line), Some(refusal), "{line}");
        }
    }

    #[test]
    fn what_is_planned_and_nothing_at_all() {
        assert_eq!(read("The row is planned."), None);
        assert_eq!(read("The tree is planned."), None);
        assert_eq!(read(""), None);
    }

    /// A digit may become another and still be read; no other byte may change.
    #[test]
    fn a_changed_byte() {
        for (line, _) in LINES {
            for at in 0..line.len() {
                let mut changed = line.as_bytes().to_vec();
                for bit in 0..8 {
                    changed[at] = line.as_bytes()[at] ^ 1 << bit;
                    let both_digits = line.as_bytes()[at].is_ascii_digit() && changed[at].is_ascii_digit();
                    assert!(both_digits || read_reason(&changed).is_none(), "{}", changed.escape_ascii());
                }
            }
        }
    }

    #[test]
    fn cut_and_lengthened() {
        for (line, _) in LINES {
            for end in 0..line.len() {
                assert_eq!(read(&line[..end]), None, "{line} to {end}");
            }
            for start in 1..line.len() {
                assert_eq!(read(&line[start..]), None, "{line} from {start}");
            }
            for more in [" ", ".", "\n", "\r\n", "\0", "0", " x", line] {
                assert_eq!(read(&format!("{line}{more}")), None, "{line}{more}");
                assert_eq!(read(&format!("{more}{line}")), None, "{more}{line}");
            }
        }
    }

    #[test]
    fn missing_period_and_changed_letters() {
        assert_eq!(read("The input is over 65,536 bytes"), None);
        assert_eq!(read("the input is over 65,536 bytes."), None);
        assert_eq!(read("The input is over 65,537 bytes."), None);
        assert_eq!(read("The input is over 65536 bytes."), None);
        assert_eq!(read("The value of h is unreadable or missing."), None);
        assert_eq!(read("The value of H is unreadable and missing."), None);
        assert_eq!(read("The value  of H is unreadable or missing."), None);
    }

    #[test]
    fn columns_by_name_and_by_number() {
        let at = |column: &str| read(&format!("The value of {column} is unreadable or missing."));
        for (column, name) in (1..).zip(LOSS_NAMES.split(' ')) {
            assert_eq!(at(name), Some((2, column)));
            assert_eq!(at(&column.to_string()), None);
        }
        assert_eq!(at("0"), Some((2, 0)));
        assert_eq!(at("14"), Some((2, 14)));
        assert_eq!(at("15"), Some((2, 15)));
        assert_eq!(at("4294967295"), Some((2, u32::MAX)));
        assert_eq!(read("The value of 14 is outside its range: it is 9."), Some((3, 14)));
        assert_eq!(read("The value of 13 is outside its range: it is 9."), None);
        for none in ["", " ", "x", "HEA", "HEADS", "BO SO", "014", "00", "+14", "14x", "-1", "LOS", "LOSSES"] {
            assert_eq!(at(none), None, "{none}");
        }
    }

    #[test]
    fn places_from_2_to_the_32nd_on() {
        let after = |place: &str| read(&format!("There is text after the last value, where column {place} would be."));
        let slots = |place: &str| {
            read(&format!("The slots used at depth {place} are more than can be reserved: 16 used and 15 reservable."))
        };
        let line = |place: &str| read(&format!("Line {place} of the node list breaks a rule or is missing."));
        for place in [0, 1, 12, 13, 99, 1 << 31, u32::MAX] {
            assert_eq!(after(&place.to_string()), Some((2, place)));
            assert_eq!(slots(&place.to_string()), Some((7, place)));
            assert_eq!(line(&place.to_string()), Some((10, place)));
        }
        for none in ["4294967296", "4294967308", "42949672950", "18446744073709551616", "18446744073709551629", "H", ""]
        {
            assert_eq!((after(none), slots(none), line(none)), (None, None, None), "{none}");
        }
        assert_eq!(read("The value of 4294967296 is unreadable or missing."), None);
        assert_eq!(read("The value of 4294967309 is unreadable or missing."), None);
    }

    #[test]
    fn values_of_any_length_without_leading_zeros() {
        let range = |value: &str| read(&format!("The value of ACK is outside its range: it is {value}."));
        for value in ["0", "9", "10", "18446744073709551616", &"9".repeat(1_000)] {
            assert_eq!(range(value), Some((3, 12)));
        }
        for none in ["", "00", "01", "007", "-1", "+1", "1.0", "1,000", " 1", "1 ", "x", "1e3"] {
            assert_eq!(range(none), None, "{none}");
        }
        let slots = |used: &str, reservable: &str| {
            read(&format!(
                "The slots used at depth 2 are more than can be reserved: {used} used and {reservable} reservable."
            ))
        };
        assert_eq!(slots("1", "99999999999999999999999"), Some((7, 2)));
        assert_eq!((slots("016", "15"), slots("16", "015"), slots("", "15")), (None, None, None));
    }

    /// The words of one phrase with those of another.
    #[test]
    fn swapped_phrases() {
        for none in [
            "Values are at odds at BO, which may not be above BO: SO is 8 and BO is 4.",
            "Values are at odds at SO, which may not be above BO: BO is 8 and SO is 4.",
            "Values are at odds at SO, which may not be above H: SO is 8 and BO is 4.",
            "Values are at odds at SINK, which may not be above H: SINK is 2 and NR is 1.",
            "Values are at odds at SINK, which is 0 where NR is below 2: SINK is 1 and H is 1.",
            "Values are at odds at NE, which is 0 exactly where H is 0: NR is 0 and H is 1.",
            "Values are at odds at LOSS, which is 0 where NR is below 2: SINK is 1 and NR is 1.",
            "Values are at odds at ACK, which is 0 where ACK is 0: LOSS is 3 and ACK is 0.",
            "Values are at odds at LOSS, which is 0 where ACK is 0: ACK is 0 and LOSS is 3.",
            "The value of H is outside its range.",
            "The value of H is unreadable or missing: it is 5.",
            "A router would have more than 8 reservations: NE is 4 and NR is 4.",
            "A router would have more than 7 reservations: NR is 4 and NE is 4.",
            "There are more routers than superframes that fit a beacon interval: 3 superframes and 2 routers.",
            "The slots used at depth 12 are more than can be reserved: 16 reservable and 15 used.",
            "The slots used at node 2 are more than can be reserved: 10 used and 7 reservable.",
            "Router 4 would have more than 7 reservations: NE is 4 and NR is 4.",
            "A router would have more than 7 reservations: it would have 9.",
            "The line of names of the list differs or is missing.",
            "Line 3 differs or is missing.",
            "The sink is no router.",
            "R 4 2",
        ] {
            assert_eq!(read(none), None, "{none}");
        }
    }

    #[test]
    fn every_refusal_reads_back() {
        let places = [0, 1, 7, 12, 13, 14, 4_294_967_295];
        for phrase in Phrase::OF_ROWS.into_iter().chain(Phrase::OF_TREES) {
            let varies = phrase.words().contains(['@', '%']);
            for place in places.into_iter().filter(|_| varies).chain([phrase.parts().place]) {
                let refusal = Refusal::new(phrase, place, [0, u64::MAX]);
                assert_eq!(read(&refusal.line()), Some((phrase.number(), place)), "{phrase:?} {place}");
            }
        }
    }

    #[test]
    fn rows_of_all_kinds_read_back() {
        let mut rng = crate::rows::Rng::new(8);
        for _ in 0..20_000 {
            let (names, row) = crate::rows::named_row(&mut rng);
            let outcome = plan_named_row(&names, &row);
            let line = crate::line_of(&outcome);
            assert_eq!(read(&line), outcome.err().map(|refusal| (refusal.number, refusal.place)), "{line}");
        }
    }
}
