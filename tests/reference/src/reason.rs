//! Request E1 of document 02: a refusal as one English line, "composed of the number's phrase, the column's name or the
//! depth, and the values concerned". "Later refusals get such lines too, with their places as numbers": those of
//! surveyed trees (request E3).

mod reading;

pub use reading::read_reason;

use crate::{Outcome, Refusal, TreeOutcome, LOSS_NAMES};

/// The line of a row that is not refused.
pub const PLANNED: &str = "The row is planned.";

/// The line of a surveyed tree that is not refused.
pub const TREE_PLANNED: &str = "The tree is planned.";

/// The phrases, one for each way in which a refusal is put into words.
#[derive(Clone, Copy, Debug, PartialEq, Eq, PartialOrd, Ord)]
pub enum Phrase {
    /// 1.
    Names,
    /// 2, a value.
    Value,
    /// 2, text after the last value.
    TextAfter,
    /// 3.
    Range,
    /// 4 at SO.
    OrdersAtOdds,
    /// 4 at NR.
    RoutersAtOdds,
    /// 4 at NE.
    NothingSenses,
    /// 4 at SINK, which is above H.
    SinkTooDeep,
    /// 4 at SINK, where NR is below 2.
    SinkOnOneBranch,
    /// 4 at DATA.
    FrameTooLong,
    /// 4 at LOSS.
    LossWithoutAck,
    /// 5.
    Reservations,
    /// 6.
    Routers,
    /// 7.
    Slots,
    /// 8.
    Buffer,
    /// 9.
    Input,
    /// 5, at a router of a surveyed tree.
    RouterReservations,
    /// 7, at a router of a surveyed tree.
    RouterSlots,
    /// 10, the line of names of a node list.
    ListNames,
    /// 10, a node line.
    NodeLine,
    /// 10, the sink.
    NoSink,
}

/// What a phrase is made of.
struct Parts {
    number: u32,
    /// The place, where the words name none that varies; else 0.
    place: u32,
    /// In them `@` stands for the name of the place's column, `%` for the place as a number and `#` for a value.
    words: &'static str,
}

impl Phrase {
    /// Those that rows and programs for rows can get. Surveyed trees share some of them: 3, 4 and 6.
    pub const OF_ROWS: [Phrase; 16] = [
        Phrase::Names,
        Phrase::Value,
        Phrase::TextAfter,
        Phrase::Range,
        Phrase::OrdersAtOdds,
        Phrase::RoutersAtOdds,
        Phrase::NothingSenses,
        Phrase::SinkTooDeep,
        Phrase::SinkOnOneBranch,
        Phrase::FrameTooLong,
        Phrase::LossWithoutAck,
        Phrase::Reservations,
        Phrase::Routers,
        Phrase::Slots,
        Phrase::Buffer,
        Phrase::Input,
    ];

    /// Those that surveyed trees alone can get.
    pub const OF_TREES: [Phrase; 5] =
        [Phrase::RouterReservations, Phrase::RouterSlots, Phrase::ListNames, Phrase::NodeLine, Phrase::NoSink];

    /// The number of the refusals that have this phrase.
    pub fn number(self) -> u32 {
        self.parts().number
    }

    /// The words, with `@`, `%` and `#` where column, place and values go.
    pub fn words(self) -> &'static str {
        self.parts().words
    }

    fn parts(self) -> Parts {
        let of = |number, place, words| Parts { number, place, words };
        match self {
            Phrase::Names => of(1, 0, "The line of names differs or is missing."),
            Phrase::Value => of(2, 0, "The value of @ is unreadable or missing."),
            Phrase::TextAfter => of(2, 0, "There is text after the last value, where column % would be."),
            Phrase::Range => of(3, 0, "The value of @ is outside its range: it is #."),
            Phrase::OrdersAtOdds => {
                of(4, 2, "Values are at odds at SO, which may not be above BO: SO is # and BO is #.")
            }
            Phrase::RoutersAtOdds => {
                of(4, 4, "Values are at odds at NR, which is 0 exactly where H is 0: NR is # and H is #.")
            }
            Phrase::NothingSenses => of(4, 5, "Values are at odds at NE, since nothing senses: NE is # and OWN is #."),
            Phrase::SinkTooDeep => {
                of(4, 7, "Values are at odds at SINK, which may not be above H: SINK is # and H is #.")
            }
            Phrase::SinkOnOneBranch => {
                of(4, 7, "Values are at odds at SINK, which is 0 where NR is below 2: SINK is # and NR is #.")
            }
            Phrase::FrameTooLong => {
                of(4, 11, "Values are at odds at DATA, which with HEAD may not be above 127: HEAD is # and DATA is #.")
            }
            Phrase::LossWithoutAck => {
                of(4, 13, "Values are at odds at LOSS, which is 0 where ACK is 0: LOSS is # and ACK is #.")
            }
            Phrase::Reservations => of(5, 0, "A router would have more than 7 reservations: NE is # and NR is #."),
            Phrase::Routers => {
                of(6, 0, "There are more routers than superframes that fit a beacon interval: # against #.")
            }
            Phrase::Slots => {
                of(7, 0, "The slots used at depth % are more than can be reserved: # used and # reservable.")
            }
            Phrase::Buffer => of(8, 0, "The lent buffer is shorter than the text to be written."),
            Phrase::Input => of(9, 0, "The input is over 65,536 bytes."),
            Phrase::RouterReservations => of(5, 0, "Router % would have more than 7 reservations: it would have #."),
            Phrase::RouterSlots => {
                of(7, 0, "The slots used at router % are more than can be reserved: # used and # reservable.")
            }
            Phrase::ListNames => of(10, 0, "The line of names of the node list differs or is missing."),
            Phrase::NodeLine => of(10, 0, "Line % of the node list breaks a rule or is missing."),
            Phrase::NoSink => of(10, 0, "The sink is no router of the tree."),
        }
    }
}

impl Refusal {
    /// The refusal's line, without LF.
    pub fn line(&self) -> String {
        let mut values = self.values.iter();
        let mut line = String::new();
        for letter in self.phrase.words().chars() {
            match letter {
                '@' => line.push_str(&column_name(self.place)),
                '%' => line.push_str(&self.place.to_string()),
                '#' => line.push_str(&values.next().expect("no phrase has more than two values").to_string()),
                _ => line.push(letter),
            }
        }
        line
    }
}

/// The line of a row with this outcome, without LF.
pub fn line_of(outcome: &Outcome) -> String {
    outcome.as_ref().map_or_else(Refusal::line, |_| PLANNED.to_string())
}

/// The line of a surveyed tree with this outcome, without LF.
pub fn tree_line_of(outcome: &TreeOutcome) -> String {
    outcome.as_ref().map_or_else(Refusal::line, |_| TREE_PLANNED.to_string())
}

/// The phrase of the refusal with this number and place, if its words are the whole line, with no values and no place
/// that varies in them: numbers 1, 8 and 9. Number 10 at place 0 has two lines, so it has none here.
pub fn whole_line(number: u32, place: u32) -> Option<Phrase> {
    Phrase::OF_ROWS.into_iter().find(|phrase| {
        let parts = phrase.parts();
        (parts.number, parts.place) == (number, place) && !parts.words.contains(['@', '%', '#'])
    })
}

/// The name of a column, or its number where it is none of those that have a name.
fn column_name(column: u32) -> String {
    let index = (column as usize).checked_sub(1);
    index.and_then(|index| LOSS_NAMES.split(' ').nth(index)).map_or_else(|| column.to_string(), str::to_string)
}

#[cfg(test)]
mod tests {
    use super::*;
    use crate::{plan_named_row, plan_row, Heading, NAMES};

    /// Under 12 names.
    fn line(row: &str) -> String {
        line_of(&plan_row(Heading::WithoutLoss, row.as_bytes()))
    }

    /// Under 13 names.
    fn loss_line(row: &str) -> String {
        line_of(&plan_row(Heading::WithLoss, row.as_bytes()))
    }

    #[test]
    fn a_planned_row() {
        assert_eq!(line("8 4 1 2 1 0 0 1 1 19 7 0"), "The row is planned.");
    }

    #[test]
    fn number_1() {
        let outcome = plan_named_row(b"BO SO", b"x");
        assert_eq!(line_of(&outcome), "The line of names differs or is missing.");
    }

    const ROW: [&str; 13] = ["8", "4", "1", "2", "1", "0", "0", "1", "1", "19", "7", "0", "0"];

    #[test]
    fn number_2_at_every_column() {
        for (column, name) in LOSS_NAMES.split(' ').enumerate() {
            let expected = format!("The value of {name} is unreadable or missing.");
            let mut unreadable = ROW;
            unreadable[column] = "x";
            assert_eq!(loss_line(&unreadable.join(" ")), expected);
            assert_eq!(loss_line(&ROW[..column].join(" ")), expected);
            if NAMES.contains(name) {
                assert_eq!(line(&unreadable[..12].join(" ")), expected);
                assert_eq!(line(&ROW[..column].join(" ")), expected);
            }
        }
    }

    #[test]
    fn number_2_after_the_last_value() {
        let expected = "There is text after the last value, where column 13 would be.";
        assert_eq!(line("8 4 1 2 1 0 0 1 1 19 7 0 "), expected);
        assert_eq!(line("8 4 1 2 1 0 0 1 1 19 7 0 5"), expected);
        let expected = "There is text after the last value, where column 14 would be.";
        assert_eq!(loss_line("8 4 1 2 1 0 0 1 1 19 7 0 5 "), expected);
        assert_eq!(loss_line("8 4 1 2 1 0 0 1 1 19 7 0 0 5"), expected);
    }

    #[test]
    fn number_3_at_every_column() {
        for (column, name) in LOSS_NAMES.split(' ').enumerate() {
            for value in ["4096", "9999"] {
                let mut outside = ROW;
                outside[column] = value;
                let expected = format!("The value of {name} is outside its range: it is {value}.");
                assert_eq!(loss_line(&outside.join(" ")), expected);
                if NAMES.contains(name) {
                    assert_eq!(line(&outside[..12].join(" ")), expected);
                }
            }
        }
        assert_eq!(loss_line("8 4 1 2 1 0 0 1 1 19 7 1 8"), "The value of LOSS is outside its range: it is 8.");
        assert_eq!(line("8 4 1 2 1 0 0 0 1 19 7 0"), "The value of BURST is outside its range: it is 0.");
    }

    #[test]
    fn number_4_at_so() {
        let expected = "Values are at odds at SO, which may not be above BO: SO is 14 and BO is 13.";
        assert_eq!(line("13 14 1 2 1 0 0 1 1 19 7 0"), expected);
    }

    #[test]
    fn number_4_at_nr() {
        let expected = "Values are at odds at NR, which is 0 exactly where H is 0: NR is 0 and H is 12.";
        assert_eq!(line("8 4 12 0 1 0 0 1 1 19 7 0"), expected);
        let expected = "Values are at odds at NR, which is 0 exactly where H is 0: NR is 7 and H is 0.";
        assert_eq!(line("8 4 0 7 1 0 0 1 1 19 7 0"), expected);
    }

    #[test]
    fn number_4_at_ne() {
        let expected = "Values are at odds at NE, since nothing senses: NE is 0 and OWN is 0.";
        assert_eq!(line("8 4 1 2 0 0 0 1 1 19 7 0"), expected);
    }

    /// SINK above H comes first where NR is below 2 as well.
    #[test]
    fn number_4_at_sink() {
        let expected = "Values are at odds at SINK, which may not be above H: SINK is 2 and H is 1.";
        assert_eq!(line("8 4 1 2 1 0 2 1 1 19 7 0"), expected);
        assert_eq!(line("8 4 1 1 1 0 2 1 1 19 7 0"), expected);
        let expected = "Values are at odds at SINK, which may not be above H: SINK is 12 and H is 0.";
        assert_eq!(line("8 4 0 0 1 0 12 1 1 19 7 0"), expected);
        let expected = "Values are at odds at SINK, which is 0 where NR is below 2: SINK is 2 and NR is 1.";
        assert_eq!(line("8 4 2 1 1 0 2 1 1 19 7 0"), expected);
    }

    #[test]
    fn number_4_at_data() {
        let expected = "Values are at odds at DATA, which with HEAD may not be above 127: HEAD is 120 and DATA is 8.";
        assert_eq!(line("8 4 1 2 1 0 0 1 1 120 8 0"), expected);
    }

    #[test]
    fn number_4_at_loss() {
        let expected = "Values are at odds at LOSS, which is 0 where ACK is 0: LOSS is 3 and ACK is 0.";
        assert_eq!(loss_line("8 4 1 2 1 0 0 1 1 19 7 0 3"), expected);
        let expected = "Values are at odds at DATA, which with HEAD may not be above 127: HEAD is 120 and DATA is 8.";
        assert_eq!(loss_line("8 4 1 2 1 0 0 1 1 120 8 0 3"), expected);
    }

    #[test]
    fn number_5() {
        let expected = "A router would have more than 7 reservations: NE is 3 and NR is 5.";
        assert_eq!(line("8 4 1 5 3 0 0 1 1 19 7 0"), expected);
    }

    #[test]
    fn number_6() {
        let expected = "There are more routers than superframes that fit a beacon interval: \
                        3 against 2.";
        assert_eq!(line("5 4 1 2 1 0 0 1 1 19 7 0"), expected);
        let expected = "There are more routers than superframes that fit a beacon interval: \
                        16148168401 against 16384.";
        assert_eq!(line("14 0 12 7 0 1 0 1 1 5 1 0"), expected);
    }

    /// X = 104 symbols, S = 60: each of four or five end nodes needs 2 slots of the 7 that request E2 leaves.
    #[test]
    fn number_7() {
        let expected = "The slots used at depth 0 are more than can be reserved: 10 used and 7 reservable.";
        assert_eq!(line("0 0 0 0 5 0 0 1 1 19 7 0"), expected);
        let expected = "The slots used at depth 0 are more than can be reserved: 8 used and 7 reservable.";
        assert_eq!(line("0 0 0 0 4 0 0 1 1 19 7 0"), expected);
    }

    /// The values are those of the router that is refused, also where one at depth H may reserve a slot more (request
    /// E2).
    #[test]
    fn number_7_shows_what_the_router_may_reserve() {
        let expected = "The slots used at depth 0 are more than can be reserved: 8 used and 7 reservable.";
        assert_eq!(line("4 0 1 1 0 1 0 1 8 17 1 0"), expected);
        let expected = "The slots used at depth 5 are more than can be reserved: 15 used and 14 reservable.";
        assert_eq!(line("14 3 6 2 0 1 6 1 1 12 1 0"), expected);
    }

    #[test]
    fn numbers_that_need_no_values() {
        let words = |number| whole_line(number, 0).map(Phrase::words);
        assert_eq!(words(1), Some("The line of names differs or is missing."));
        assert_eq!(words(8), Some("The lent buffer is shorter than the text to be written."));
        assert_eq!(words(9), Some("The input is over 65,536 bytes."));
        let lines = |number| (0..30).filter(|&place| whole_line(number, place).is_some()).count();
        assert_eq!([0, 1, 2, 3, 4, 5, 6, 7, 8, 9, 10].map(lines), [0, 1, 0, 0, 0, 0, 0, 0, 1, 1, 0]);
    }

    #[test]
    fn columns_without_a_name() {
        let columns = [0, 1, 3, 12, 13, 14, u32::MAX];
        assert_eq!(columns.map(column_name), ["0", "BO", "H", "ACK", "LOSS", "14", "4294967295"]);
    }

    #[test]
    fn all_phrases_are_listed_once_and_in_order() {
        for phrases in [&Phrase::OF_ROWS[..], &Phrase::OF_TREES] {
            assert!(phrases.windows(2).all(|pair| pair[0] < pair[1]));
            assert!(phrases.windows(2).all(|pair| pair[0].number() <= pair[1].number()));
        }
        assert_eq!(Phrase::Input as usize + 1, Phrase::OF_ROWS.len());
        assert_eq!(Phrase::NoSink as usize + 1, Phrase::OF_ROWS.len() + Phrase::OF_TREES.len());
    }
}
