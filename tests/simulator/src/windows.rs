//! Ways to lay the windows (document 01, "Time on the air": a window lies whole within every
//! interval, at the same offset in each).

use crate::chance::Chance;
use crate::link::most_offset;

/// How the offsets of a tree are chosen.
#[derive(Clone, Copy, Debug)]
pub enum Windows {
    /// All windows begin with the interval.
    First,
    /// All windows end with the interval.
    Last,
    /// Drawn once for each line of the plan: links of one sort are alike.
    Lines,
    /// Drawn for each node.
    Drawn,
    /// Each window so that its first frame comes to the neighbour in the symbol of the last start of
    /// the neighbour's window, and so just misses it. Where no window can lie so, it begins with the
    /// interval.
    JustMissed,
}

/// What an offset may depend on.
pub struct Place<'a> {
    pub row: &'a crate::row::Row,
    pub slots: u64,
    pub line: (char, u64),
    /// The symbol in which the first start would just miss the neighbour's last one.
    pub first: u64,
    /// The same for all nodes of a tree.
    pub seed: u64,
}

impl Windows {
    /// The offset of one window.
    pub fn offset(self, place: &Place, chance: &mut Chance) -> Result<u64, String> {
        let most = most_offset(place.row, place.slots)?;
        Ok(match self {
            Windows::First => 0,
            Windows::Last => most,
            Windows::Lines => {
                let line = place.line.1 * 256 + u64::from(u32::from(place.line.0));
                Chance::new(place.seed ^ line).up_to(most)
            }
            Windows::Drawn => chance.up_to(most),
            Windows::JustMissed => {
                let wanted = place.first % crate::air::interval(place.row);
                if wanted <= most {
                    wanted
                } else {
                    0
                }
            }
        })
    }
}
