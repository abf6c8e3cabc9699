//! The starts of one link's exchanges (document 01, "Time on the air").

use crate::air;
use crate::hold::Promises;
use crate::row::Row;
use crate::tree::{Way, Ways};

/// A link: where it leads and when its exchanges start.
#[derive(Clone, Copy, Debug)]
pub struct Link {
    /// The receiver.
    pub next: usize,
    /// a, the window's first symbol in each interval.
    pub offset: u64,
    /// m, the starts in each interval, an exchange apart.
    pub frames: u64,
    /// The exchange, failed tries included.
    pub exchange: u64,
    /// BI.
    pub interval: u64,
    /// LOSS, the tries of a frame that may fail in a row.
    pub loss: u64,
    /// The try that fails, and the one that succeeds.
    pub failed_try: u64,
    pub good_try: u64,
}

impl Link {
    /// The symbols that the tries of an exchange take, if so many fail.
    pub fn tries(&self, failed: u64) -> u64 {
        failed * self.failed_try + self.good_try
    }

    /// The first start in symbol `from` or later; none if the window holds no exchange.
    pub fn start_from(&self, from: u64) -> Option<u64> {
        if self.frames == 0 {
            return None;
        }
        let base = from - from % self.interval + self.offset;
        if from <= base {
            return Some(base);
        }
        let number = (from - base).div_ceil(self.exchange);
        let later = if number < self.frames { number * self.exchange } else { self.interval };
        Some(base + later)
    }

    /// The last start of the window in interval number `interval`.
    pub fn last_start(&self, interval: u64) -> u64 {
        interval * self.interval + self.offset + self.frames.saturating_sub(1) * self.exchange
    }
}

/// The largest offset of a window of `slots` slots: it must lie whole within the interval.
pub fn most_offset(row: &Row, slots: u64) -> Result<u64, String> {
    let window = slots.checked_mul(air::slot(row)).ok_or("window too long")?;
    air::interval(row).checked_sub(window).ok_or_else(|| "window longer than the interval".into())
}

/// The links of all nodes: slots as printed, m counted from them, offsets as given.
pub fn links(row: &Row, promises: &Promises, tree: &impl Ways, offsets: &[u64]) -> Result<Vec<Option<Link>>, String> {
    let ways = tree.ways();
    if offsets.len() != ways.len() {
        return Err("one offset for each node is needed".into());
    }
    let link = |(way, offset): (Option<Way>, &u64)| {
        let Some(way) = way else { return Ok(None) };
        let slots = promises.line(way.line)?.slots;
        if *offset > most_offset(row, slots)? {
            return Err(format!("window at {offset} does not lie within the interval"));
        }
        Ok(Some(Link {
            next: way.next,
            offset: *offset,
            frames: air::exchanges(row, slots),
            exchange: air::exchange(row),
            interval: air::interval(row),
            loss: row.loss,
            failed_try: air::failed_try(row),
            good_try: air::good_try(row),
        }))
    };
    ways.into_iter().zip(offsets).map(link).collect()
}

#[cfg(test)]
mod tests {
    use super::*;

    /// The next start agrees with a look at every symbol.
    #[test]
    fn starts_by_looking() {
        for (offset, frames) in [(0, 1), (0, 4), (7, 3), (9, 1), (2, 0), (0, 2)] {
            let (exchange, interval, loss) = (3, 16, 0);
            let link = Link { next: 0, offset, frames, exchange, interval, loss, failed_try: 3, good_try: 3 };
            let is_start = |symbol: u64| {
                let within = symbol % 16;
                (0..frames).any(|number| offset + number * 3 == within)
            };
            for from in 0..64 {
                let looked = (from..from + 32).find(|symbol| is_start(*symbol));
                assert_eq!(link.start_from(from), looked);
            }
        }
    }
}
