//! Runs of one link worked out by hand.

use simulator::failures::Failures;
use simulator::figures::{self, Answer, Version};
use simulator::hold::Reach;
use simulator::row::Row;
use simulator::setup::{Reading, Setup};
use simulator::shapes;
use simulator::ties::Ties;
use simulator::trial::Case;

/// One end node on the sink, its window at `offset`, the readings as symbol and count.
fn setup(row: &Row, offset: u64, readings: &[(u64, u64)]) -> Setup {
    let reading = |&(symbol, count): &(u64, u64)| Reading { symbol, sensor: 1, count };
    Setup {
        tree: shapes::full(row, 2).expect("two nodes"),
        offsets: vec![0, offset],
        readings: readings.iter().map(reading).collect(),
        ties: Ties::OldestFirst,
        failures: Failures::Always,
    }
}

fn case(row: &str) -> Case {
    let row = Row::read(row);
    Case::of(row, &figures::answer(&row, Version::Right)).expect("a plan").expect("planned")
}

/// The symbols in which the frames come to the sink.
fn arrivals(case: &Case, setup: &Setup) -> Vec<u64> {
    case.run(setup).expect("a run").arrivals.iter().map(|(symbol, _)| *symbol).collect()
}

/// BI = 1920, X = 60, m = 2. A frame made in the symbol of the last start misses it and is at the sink
/// T = BI symbols later; one made a symbol earlier is sent by it.
#[test]
fn just_missed() {
    let case = case("1 1 0 0 1 0 0 1 1 5 13 0");
    assert_eq!(arrivals(&case, &setup(&case.row, 100, &[(160, 1)])), [160 + 1920]);
    assert_eq!(arrivals(&case, &setup(&case.row, 100, &[(159, 1)])), [220]);
    assert_eq!(arrivals(&case, &setup(&case.row, 100, &[(100, 1)])), [220]);
    assert_eq!(arrivals(&case, &setup(&case.row, 100, &[(99, 1)])), [160]);
    assert_eq!(arrivals(&case, &setup(&case.row, 0, &[(0, 1)])), [120]);
}

/// The same link: the second frame comes as early as the bucket allows, the queue has both until the
/// first is at the sink, so BUFFER 2 is reached; both come within X + 1 symbols.
#[test]
fn buffer_reached() {
    let case = case("1 1 0 0 1 0 0 1 1 5 13 0");
    let setup = setup(&case.row, 100, &[(160 + 1919, 1), (160, 1)]);
    let outcome = case.run(&setup).expect("a run");
    assert_eq!(outcome.queues, [0, 2]);
    let reaches = case.hold(&setup, &outcome).expect("held");
    assert!(!reaches.iter().any(Reach::is_over));
    let stretch = &reaches[4];
    assert_eq!((stretch.reached, stretch.printed), (2 * 1920 - 61, 2 * 1920));
}

/// M = 18 acknowledged: X = 94, a failed try 114, and with LOSS 1 an exchange 208, of which 4 slots of 120
/// hold two: BI = 1920, T = BI. The frame is at the sink when its exchange ends, whether its first try
/// fails or not.
#[test]
fn failed_tries() {
    let case = case("1 1 0 0 1 0 0 1 2 5 13 1 1");
    for failures in [Failures::Never, Failures::Always, Failures::Drawn(1)] {
        let with = |readings: &[(u64, u64)]| Setup { failures, ..setup(&case.row, 100, readings) };
        assert_eq!(arrivals(&case, &with(&[(308, 1)])), [308 + 1920]);
        assert_eq!(arrivals(&case, &with(&[(307, 1)])), [516]);
        assert_eq!(arrivals(&case, &with(&[(99, 1)])), [308]);
    }
    let tries = |failures, readings: &[(u64, u64)]| {
        let setup = Setup { failures, ..setup(&case.row, 100, readings) };
        case.run(&setup).expect("a run").tries
    };
    let readings = [(99, 1), (99 + 1920, 1)];
    assert_eq!((tries(Failures::Never, &readings).failed, tries(Failures::Always, &readings).failed), (0, 2));
    assert_eq!((tries(Failures::Always, &readings).worst, tries(Failures::Always, &readings).late), (2, 0));
}

/// M = 6 acknowledged: X = 70, a failed try 90, and with LOSS 3 an exchange of 340 in 6 slots of 60. BI = 960
/// and T = BI + 340: a frame made in the symbol of the only start is at the sink so much later.
#[test]
fn just_missed_with_failed_tries() {
    let case = case("0 0 0 0 1 0 0 1 1 5 1 1 3");
    assert_eq!(arrivals(&case, &setup(&case.row, 600, &[(600, 1)])), [600 + 1300]);
    assert_eq!(arrivals(&case, &setup(&case.row, 600, &[(599, 1)])), [940]);
    assert!(case.run(&setup(&case.row, 601, &[(600, 1)])).is_err(), "the window has 360 symbols of 960");
    let setup = setup(&case.row, 600, &[(600, 1)]);
    let outcome = case.run(&setup).expect("a run");
    assert_eq!((outcome.tries.failed, outcome.tries.worst, outcome.tries.late), (3, 1, 0));
    let reaches = case.hold(&setup, &outcome).expect("held");
    assert_eq!((reaches[3].reached, reaches[3].printed), (1300, 960 + 1300));
}

/// Readings that break the bucket make no run, nor does a window that does not fit.
#[test]
fn runs_that_do_not_count() {
    let case = case("1 1 0 0 1 0 0 1 1 5 13 0");
    assert!(case.run(&setup(&case.row, 100, &[(160, 1), (160 + 1918, 1)])).is_err());
    assert!(case.run(&setup(&case.row, 1800, &[(160, 1)])).is_ok());
    assert!(case.run(&setup(&case.row, 1801, &[(160, 1)])).is_err());
    let mut at_sink = setup(&case.row, 100, &[(160, 1)]);
    at_sink.readings[0].sensor = 0;
    assert!(case.run(&at_sink).is_err());
}

/// A window without exchanges, as a wrong plan may print it: the frame never comes, and that counts.
#[test]
fn never_sent() {
    let row = Row::read("1 1 0 0 1 0 0 1 1 5 13 0");
    let Answer::Plan(mut lines) = figures::answer(&row, Version::Right) else { panic!("planned") };
    lines[0].slots = 0;
    let case = Case::of(row, &Answer::Plan(lines)).expect("a plan").expect("planned");
    let setup = setup(&row, 100, &[(160, 1)]);
    let outcome = case.run(&setup).expect("a run");
    assert_eq!(outcome.arrivals, []);
    let reaches = case.hold(&setup, &outcome).expect("held");
    assert_eq!(reaches[3].reached, reaches[3].printed + 1);
    assert!(reaches[3].is_over());
}
