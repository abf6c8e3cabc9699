//! Surveyed trees: the run that looks only at symbols in which something changes against the run that looks at every
//! symbol; every wrong version of the figures is found out by the runs, and the right one is kept.

use simulator::air;
use simulator::chance::Chance;
use simulator::hold::{Claim, Reach};
use simulator::link;
use simulator::naive;
use simulator::run;
use simulator::setup::{Reading, Setup};
use simulator::surveys::attack::{drawn_setup, Attack};
use simulator::surveys::case::Case;
use simulator::surveys::figures::{self, Version, WRONG};
use simulator::surveys::survey::Survey;
use simulator::surveys::{drawn, fixed, folder, printed};

fn case(survey: Survey, version: Version) -> Option<Case> {
    let answer = figures::answer(&survey, version);
    Case::of(survey, &answer).expect("a plan")
}

/// A drawn planned tree with a short interval and few nodes, with tries that may fail if asked for.
fn small(lossy: bool, chance: &mut Chance) -> Case {
    loop {
        let survey = drawn::any(chance);
        if survey.bo <= 3 && survey.nodes.len() <= 14 && (survey.loss > 0 || !lossy) {
            if let Some(case) = case(survey, Version::Right) {
                return case;
            }
        }
    }
}

/// Runs as the attack draws them, some with readings beyond every bucket and ended before all frames are at the sink.
#[test]
fn every_symbol() {
    let mut chance = Chance::new(71);
    let (mut compared, mut below, mut frames, mut failed) = (0, 0, 0, 0);
    while compared < 400 {
        let case = small(compared % 4 == 0, &mut chance);
        let mut setup = drawn_setup(&case, &mut chance).expect("a setup");
        let interval = air::interval(&case.survey.row());
        let last = if chance.once_in(2) {
            setup.readings.clear();
            let sensors = case.survey.sensors();
            for _ in 0..chance.up_to(20).min(sensors.len() as u64 * 20) {
                let sensor = sensors[chance.index(sensors.len())];
                setup.readings.push(Reading { symbol: chance.up_to(3 * interval), sensor, count: chance.up_to(3) });
            }
            chance.up_to(8 * interval)
        } else {
            setup.readings.iter().map(|reading| reading.symbol).max().unwrap_or(0) + 2000
        };
        let made: u64 = setup.readings.iter().map(|reading| reading.count).sum();
        if made > 300 || last > 400_000 {
            continue;
        }
        let links = link::links(&case.survey.row(), &case.right.links, &case.survey, &setup.offsets).expect("links");
        let quick = run::run(&links, &setup, last);
        assert_eq!(quick, naive::run(&links, &setup, last), "{}", case.describe(&setup));
        assert_eq!(quick.check_tries(), Ok(()), "{}", case.describe(&setup));
        failed += quick.tries.failed;
        compared += 1;
        frames += quick.arrivals.len();
        below += u64::from(case.survey.sink > 0 && quick.arrivals.len() > 5);
    }
    assert!(below > 20 && frames > 3_000 && failed > 500, "{below} {frames} {failed}");
}

/// The first claims that runs break if the figures of this version are held.
fn first_broken(version: Version) -> Option<Vec<Claim>> {
    let mut chance = Chance::new(72);
    let cases = fixed::all().into_iter().filter_map(|survey| case(survey, version));
    for case in cases.filter(|case| case.survey.nodes.len() < 20) {
        for _ in 0..20 {
            let setup: Setup<Survey> = drawn_setup(&case, &mut chance).expect("a setup");
            let outcome = case.run(&setup).expect("a run");
            let reaches = case.hold(&case.right, &outcome).expect("held");
            let over: Vec<Claim> = reaches.iter().filter(|reach| reach.is_over()).map(|reach| reach.claim).collect();
            if !over.is_empty() {
                assert!(reaches.iter().any(|reach| Reach::to_string(reach).contains("over by")));
                return Some(over);
            }
        }
    }
    None
}

#[test]
fn wrong_versions_found_out() {
    for version in WRONG {
        let claims = first_broken(version).unwrap_or_else(|| panic!("{version:?} survives"));
        match version {
            Version::BufferLow => assert!(matches!(claims[..], [Claim::Queue(_), ..])),
            Version::RouteLow => assert!(claims.contains(&Claim::Route)),
            Version::SinkLow => assert_eq!(claims, [Claim::Stretch]),
            _ => {}
        }
    }
}

#[test]
fn right_version_kept() {
    assert_eq!(first_broken(Version::Right), None);
}

/// All wrong versions are found out beside the right one, on the fixed trees alone.
#[test]
fn wrong_versions_beside_the_right_one() {
    let cases = fixed::all().into_iter().filter_map(|survey| case(survey, Version::Right)).collect();
    let mut attack = Attack::new(cases, Chance::new(73));
    assert_eq!(attack.all(0), Ok(()));
    assert_eq!(attack.tally.survivors(), []);
    assert_eq!(attack.tally.untried(), [] as [u64; 0]);
    assert!(attack.tally.text().contains("right figures kept"));
}

/// Trees that are written to a folder are read back with what was printed for them.
#[test]
fn lists_in_a_folder() {
    let path = std::env::temp_dir().join(format!("simulator-lists-{}", std::process::id()));
    std::fs::create_dir(&path).expect("a new folder");
    let surveys = fixed::all();
    folder::write(&path, &surveys).expect("written");
    let answers: Vec<_> = surveys.iter().map(|survey| figures::answer(survey, Version::Right)).collect();
    for (number, answer) in (1..).zip(&answers) {
        std::fs::write(path.join(format!("{number}.plan")), printed::text(answer)).expect("written");
    }
    let read = folder::read(&path);
    std::fs::remove_file(path.join("1.plan")).expect("removed");
    let without = folder::read(&path);
    std::fs::remove_dir_all(&path).expect("removed");
    assert_eq!(read, Ok(surveys.into_iter().zip(answers).collect()));
    assert!(without.is_err());
}
