//! Every wrong version of the figures is found out by the directed runs, and the right one is kept.

use simulator::attack::{self, ON_EVERY_TREE};
use simulator::chance::Chance;
use simulator::figures::{self, Version, WRONG};
use simulator::hold::{Claim, Reach};
use simulator::rows;
use simulator::trial::{self, Case};

/// The first claim that the directed runs break if the figures of this version are held.
fn first_broken(version: Version) -> Option<(Reach, String)> {
    let mut chance = Chance::new(1);
    for row in rows::planned().into_iter().filter(|row| row.h < 2 && row.burst < 20) {
        let case = Case::of(row, &figures::answer(&row, version)).expect("a plan").expect("planned");
        for tree in attack::directed_trees(&row) {
            for method in ON_EVERY_TREE {
                let setup = attack::directed(&row, &case.right, &tree, method, &mut chance).expect("a setup");
                let outcome = case.run(&setup).expect("a run");
                let reaches = case.hold(&setup, &outcome).expect("held");
                if let Some(reach) = reaches.into_iter().find(Reach::is_over) {
                    return Some((reach, trial::describe(&case, &setup)));
                }
            }
        }
    }
    None
}

#[test]
fn wrong_versions_found_out() {
    for version in WRONG {
        let (reach, told) = first_broken(version).unwrap_or_else(|| panic!("{version:?} survives"));
        match version {
            Version::BufferLow => assert!(matches!(reach.claim, Claim::Queue(_))),
            Version::DelayLow => assert_eq!(reach.claim, Claim::Delay),
            _ => {}
        }
        assert!(reach.to_string().contains("over by"));
        assert!(told.contains("readings") && told.contains("offset"));
    }
}

#[test]
fn right_version_kept() {
    assert_eq!(first_broken(Version::Right), None);
}
