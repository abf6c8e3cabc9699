//! Document 01, "Time on the air": what a beacon order, a superframe order and a frame length make of time; and of
//! document 02 request E2, by which the beacon takes its time too, and request E5, by which tries of a frame may fail.
//! All times are in symbols.

/// Symbols of the superframe of order 0; its 16 slots have 60 each.
const BASE_SUPERFRAME: u64 = 960;
const SLOTS_IN_SUPERFRAME: u64 = 16;

/// The contention period takes the fewest slots that hold the beacon and, after it, this many symbols.
const CONTENTION: u64 = 440;
/// The beacon of a router without reservations.
const SHORTEST_BEACON: u64 = 38;
/// The beacon of a router with reservations has this length and so much more for each of them.
const BEACON: u64 = 40;
const BEACON_PER_RESERVATION: u64 = 6;

const TURNAROUND: u64 = 12;
const SYMBOLS_PER_OCTET: u64 = 2;
/// What an acknowledgement adds to an exchange: turnaround 12 and the acknowledgement itself, 22.
const ACKNOWLEDGEMENT: u64 = 34;
/// A frame of at most this many octets is followed by the short space, a longer one by the long space.
const SHORT_FRAME: u64 = 18;
const SHORT_SPACE: u64 = 12;
const LONG_SPACE: u64 = 40;
/// A failed try takes so much more than X, as it waits 54 for an acknowledgement that does not come.
const FAILED_WAIT: u64 = 20;

/// The times of one network.
pub struct Air {
    /// BI.
    pub interval: u64,
    /// S.
    slot: u64,
    /// The time of one exchange, failed tries included.
    exchange: u64,
}

/// A reservation that carries a rate (frames per BI): k slots, m exchanges.
#[derive(Clone, Copy, Default)]
pub struct Reservation {
    pub rate: u64,
    pub slots: u64,
    pub frames: u64,
}

impl Air {
    /// The times for BO, SO, the frame length M, ACK and LOSS.
    pub fn new(beacon_order: u64, superframe_order: u64, octets: u64, acknowledged: bool, loss: u64) -> Air {
        Air {
            interval: BASE_SUPERFRAME << beacon_order,
            slot: slot(superframe_order),
            exchange: exchange_with_loss(octets, acknowledged, loss),
        }
    }

    /// The reservation with the smallest k for which floor(k × S / X) ≥ rate, where X is the time of the exchange with
    /// its failed tries ("all that was built on X follows"), as below. As the rate is a whole number, that is the
    /// smallest k with k × S ≥ rate × X.
    pub fn reserve(&self, rate: u64) -> Reservation {
        let slots = (rate * self.exchange).div_ceil(self.slot);
        Reservation { rate, slots, frames: slots * self.slot / self.exchange }
    }

    /// T = BI − (m − 2) × X, with the subtraction last. A reservation that fits into a superframe has
    /// m × X ≤ k × S < BI, so this never falls below 0 for it; no other reservation is asked for its latency.
    pub fn latency(&self, reservation: &Reservation) -> u64 {
        self.interval + 2 * self.exchange - reservation.frames * self.exchange
    }
}

/// S, the time of one slot.
fn slot(superframe_order: u64) -> u64 {
    (BASE_SUPERFRAME << superframe_order) / SLOTS_IN_SUPERFRAME
}

/// Request E2: the time of the beacon that a router with so many reservations (g) sends. What does not fit into 64 bits
/// counts as the largest number that does; either is far longer than a superframe.
fn beacon(reservations: u64) -> u64 {
    if reservations == 0 {
        SHORTEST_BEACON
    } else {
        BEACON.saturating_add(BEACON_PER_RESERVATION.saturating_mul(reservations))
    }
}

/// Request E2: L, the slots that a router with so many reservations (g) may reserve, which are those that its
/// contention period leaves; 0 where that leaves none.
pub fn reservable(superframe_order: u64, reservations: u64) -> u64 {
    let contention = CONTENTION.saturating_add(beacon(reservations)).div_ceil(slot(superframe_order));
    SLOTS_IN_SUPERFRAME.saturating_sub(contention)
}

/// Request E5: the time of one exchange in which up to so many tries of its frame may fail before one succeeds:
/// X + LOSS × (X + 20). It is at most 340 + 7 × 360 = 2,860.
pub fn exchange_with_loss(octets: u64, acknowledged: bool, loss: u64) -> u64 {
    let exchange = exchange(octets, acknowledged);
    exchange + loss * (exchange + FAILED_WAIT)
}

/// X, the time of one exchange of which no try fails.
fn exchange(octets: u64, acknowledged: bool) -> u64 {
    let acknowledgement = if acknowledged { ACKNOWLEDGEMENT } else { 0 };
    let space = if octets <= SHORT_FRAME { SHORT_SPACE } else { LONG_SPACE };
    TURNAROUND + SYMBOLS_PER_OCTET * octets + acknowledgement + space
}

#[cfg(test)]
mod tests {
    use super::*;

    #[test]
    fn exchange_times_of_the_document() {
        assert_eq!(exchange(18, false), 60);
        assert_eq!(exchange(19, false), 90);
        assert_eq!(exchange(127, false), 306);
        assert_eq!(exchange(127, true), 340);
    }

    /// M = 6 acknowledged: 12 + 12 + 34 + 12 = 70, a failed try 90. M = 26 acknowledged: 12 + 52 + 34 + 40 = 138, a
    /// failed try 158. M = 127 acknowledged: 340, a failed try 360.
    #[test]
    fn exchange_times_with_failed_tries() {
        let times = |octets| [0, 1, 2, 7].map(|loss| exchange_with_loss(octets, true, loss));
        assert_eq!(times(6), [70, 70 + 90, 70 + 2 * 90, 70 + 7 * 90]);
        assert_eq!(times(26), [138, 296, 454, 1_244]);
        assert_eq!(times(127), [340, 700, 1_060, 2_860]);
        assert_eq!([6, 18, 19, 127].map(|octets| exchange_with_loss(octets, false, 0)), [36, 60, 90, 306]);
    }

    /// A failed try is the frame and the wait of 54 in the place of turnaround and acknowledgement, which are 34.
    #[test]
    fn a_failed_try_waits_54() {
        for octets in 6..=127 {
            let failed = exchange(octets, false) + 54;
            for loss in 1..=7 {
                let more = exchange_with_loss(octets, true, loss) - exchange_with_loss(octets, true, loss - 1);
                assert_eq!(more, failed, "M {octets}, LOSS {loss}");
            }
        }
    }

    #[test]
    fn beacons() {
        assert_eq!([0, 1, 2, 7].map(beacon), [38, 46, 52, 82]);
        assert_eq!([255, 1_000_000].map(beacon), [1_570, 6_000_040]);
    }

    /// The four contention periods that request E2 works out, as what they leave of 16 slots: 1 and 2 slots at SO 3, 8
    /// and 9 at SO 0.
    #[test]
    fn slots_that_request_e2_works_out() {
        assert_eq!((reservable(3, 0), reservable(3, 1)), (15, 14));
        assert_eq!((reservable(0, 0), reservable(0, 1)), (8, 7));
    }

    /// 440 symbols and the beacon are 478 without reservations, 486 with one, and 522 with seven, which are the most.
    /// For SO 0 to 3 slots have 60, 120, 240 and 480 symbols: 478 fit into 480, which 8, 4, 2 slots and 1 have, and 486
    /// to 522 need one slot more. From SO 4 on one slot of 960 or more holds them all.
    #[test]
    fn slots_that_the_routers_of_a_tree_may_reserve() {
        let without = [8, 12, 14, 15, 15];
        let with_some = [7, 11, 13, 14, 15];
        for (order, (without, with_some)) in (0..).zip(without.into_iter().zip(with_some)) {
            assert_eq!(reservable(order, 0), without, "SO {order}");
            assert!((1..=7).all(|reservations| reservable(order, reservations) == with_some), "SO {order}");
        }
        assert!((5..=14).all(|order| (0..=7).all(|reservations| reservable(order, reservations) == 15)));
    }

    /// Beyond what a tree can have, the beacon takes further slots. With g reservations 480 + 6 × g symbols are to be
    /// held: at SO 0 just the 540 of 9 slots with g = 10, the 900 of 15 with g = 70 and the 960 of all 16 with g = 80;
    /// at SO 3 and SO 4 just the 960 of 2 slots and of 1 with g = 80; at SO 14 just the 14,745,600 of 15 with g =
    /// 2,457,520.
    #[test]
    fn slots_with_more_reservations_than_a_tree_can_have() {
        assert_eq!((reservable(0, 10), reservable(0, 11)), (7, 6));
        assert_eq!((reservable(3, 80), reservable(3, 81)), (14, 13));
        assert_eq!((reservable(4, 80), reservable(4, 81)), (15, 14));
        assert_eq!((reservable(0, 70), reservable(0, 71)), (1, 0));
        assert_eq!((reservable(0, 80), reservable(0, 81)), (0, 0));
        assert_eq!((reservable(14, 2_457_520), reservable(14, 2_457_521)), (1, 0));
    }

    /// Where nothing is left L is 0, also where the time of the beacon does not fit into 64 bits.
    #[test]
    fn no_slots_are_left_by_a_huge_beacon() {
        let edge = u64::MAX / BEACON_PER_RESERVATION;
        for order in 0..=14 {
            for reservations in [1 << 24, 1 << 32, edge - 100, edge - 1, edge, edge + 1, u64::MAX - 1, u64::MAX] {
                assert_eq!(reservable(order, reservations), 0, "SO {order}, {reservations} reservations");
            }
        }
    }

    /// More reservations never leave more slots, and none ever leave more than document 01's count, by which the
    /// contention period holds 440 symbols and no beacon.
    #[test]
    fn a_beacon_only_takes_slots() {
        for order in 0..=14 {
            let without_beacon = SLOTS_IN_SUPERFRAME - CONTENTION.div_ceil(slot(order));
            assert!(reservable(order, 0) <= without_beacon);
            let falls = |reservations| reservable(order, reservations + 1) <= reservable(order, reservations);
            assert!((0..3_000).all(falls), "SO {order}");
            assert!((0..63).all(|power| reservable(order, 2 << power) <= reservable(order, 1 << power)), "SO {order}");
        }
    }

    #[test]
    fn interval_and_slot() {
        let air = Air::new(8, 4, 26, false, 0);
        assert_eq!((air.interval, air.slot), (245_760, 960));
        let air = Air::new(14, 14, 26, false, 0);
        assert_eq!((air.interval, air.slot), (15_728_640, 983_040));
    }

    #[test]
    fn p5_and_p6() {
        let air = Air::new(0, 0, 18, false, 0);
        assert_eq!(air.reserve(1).slots, 1);
        assert_eq!(air.reserve(2).slots, 2);
    }

    #[test]
    fn the_smallest_number_of_slots() {
        for octets in 6..=127 {
            let acknowledged = octets % 2 == 0;
            let air = Air::new(5, 2, octets, acknowledged, if acknowledged { octets / 2 % 8 } else { 0 });
            for rate in 1..200 {
                let reservation = air.reserve(rate);
                let holds = |slots: u64| slots * air.slot / air.exchange;
                assert_eq!(reservation.frames, holds(reservation.slots));
                assert!(holds(reservation.slots) >= rate);
                assert!(holds(reservation.slots - 1) < rate);
            }
        }
    }

    #[test]
    fn latency_of_one_and_of_more_exchanges() {
        let air = Air::new(0, 0, 26, false, 0);
        let one = air.reserve(1);
        assert_eq!((one.slots, one.frames, air.latency(&one)), (2, 1, 1_064));
        let air = Air::new(8, 4, 26, false, 0);
        let nine = air.reserve(1);
        assert_eq!((nine.slots, nine.frames, air.latency(&nine)), (1, 9, 245_032));
    }

    /// BI = 245,760, S = 960, M = 26 acknowledged. With LOSS 1 an exchange lasts 296 and a slot holds 3: T = BI − 296.
    /// With LOSS 7 it lasts 1,244 and takes two slots: T = BI + 1,244.
    #[test]
    fn latency_with_failed_tries() {
        let link = |loss| {
            let air = Air::new(8, 4, 26, true, loss);
            let link = air.reserve(1);
            (link.slots, link.frames, air.latency(&link))
        };
        assert_eq!(link(1), (1, 3, 245_464));
        assert_eq!(link(7), (2, 1, 247_004));
    }
}
