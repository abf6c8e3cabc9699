//! The token bucket of a sensor (document 01, "The tree and its loads"): in any t consecutive symbols
//! at most a frames with a × BI ≤ BURST × BI + RATE × t. Here it is only checked; how readings are
//! made so that they keep it is another file, `readings`, with other arithmetic.

use std::collections::BTreeMap;

use crate::air;
use crate::row::Row;
use crate::setup::Reading;
use crate::stretch;

/// Checks all stretches of all sensors exactly.
pub fn check(row: &Row, readings: &[Reading]) -> Result<(), String> {
    let mut sensors: BTreeMap<usize, Vec<(u64, u64)>> = BTreeMap::new();
    for reading in readings {
        sensors.entry(reading.sensor).or_default().push((reading.symbol, reading.count));
    }
    let interval = air::interval(row);
    let burst = i128::from(row.burst) * i128::from(interval);
    for (sensor, mut events) in sensors {
        events.sort_unstable();
        let Some(worst) = stretch::excess(&events, interval, row.rate) else { continue };
        if worst.over > burst {
            let (frames, symbols) = (worst.frames, worst.symbols);
            return Err(format!("sensor {sensor} makes {frames} frames in {symbols} symbols"));
        }
    }
    Ok(())
}

#[cfg(test)]
mod tests {
    use super::*;

    /// BI = 960; the bucket holds 2 frames and gains one each 320 symbols.
    fn row() -> Row {
        Row::read("0 0 0 0 1 0 0 2 3 5 1 0")
    }

    fn at(symbol: u64, count: u64) -> Reading {
        Reading { symbol, sensor: 1, count }
    }

    /// A frame too many in a stretch is caught, in whatever order the list is.
    #[test]
    fn frame_too_many() {
        assert_eq!(check(&row(), &[at(7, 2)]), Ok(()));
        assert!(check(&row(), &[at(7, 3)]).is_err());
        assert!(check(&row(), &[at(7, 2), at(7, 1)]).is_err());
        // The stretch from 7 to 326 has 320 symbols, so a third frame is allowed in 326, not before.
        assert_eq!(check(&row(), &[at(7, 2), at(326, 1)]), Ok(()));
        assert!(check(&row(), &[at(7, 2), at(325, 1)]).is_err());
        assert!(check(&row(), &[at(325, 1), at(7, 1), at(7, 1)]).is_err());
        assert!(check(&row(), &[at(7, 2), at(326, 1), at(645, 1)]).is_err());
        assert_eq!(check(&row(), &[at(7, 2), at(326, 1), at(646, 1)]), Ok(()));
    }

    /// Sensors have a bucket each.
    #[test]
    fn separate_sensors() {
        let other = Reading { symbol: 7, sensor: 2, count: 2 };
        assert_eq!(check(&row(), &[at(7, 2), other]), Ok(()));
    }
}
