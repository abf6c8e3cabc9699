//! One surveyed tree with the figures that are held against its runs, and one run of it.

use super::figures::{self, Answer, NodeLine, Version, WRONG};
use super::survey::Survey;
use crate::figures::Line;
use crate::hold::{self, Claim, Reach};
use crate::link;
use crate::run::{self, Outcome};
use crate::setup::Setup;
use crate::tree::Ways;

/// All sorts of claims, in the order in which they are reported. Delay is that of all frames: the
/// largest ROUTE.
pub const CLAIMS: [Claim; 7] =
    [Claim::Queue('E'), Claim::Queue('U'), Claim::Queue('D'), Claim::Delay, Claim::Stretch, Claim::Route, Claim::Lost];

/// All that a run takes from a printed plan: SLOTS and BUFFER of each node's line, the largest ROUTE,
/// BURST and RATE of line S, and each node's ROUTE.
#[derive(Clone, Debug)]
pub struct Promises {
    pub links: hold::Promises,
    routes: Vec<u64>,
}

impl Promises {
    /// Takes the figures from a plan's lines. A plan without exactly one line S is no plan.
    pub fn of(nodes: &[NodeLine]) -> Result<Promises, String> {
        let routes = nodes.iter().map(|node| hold::figure(node.route, 60)).collect::<Result<Vec<u64>, String>>()?;
        let longest = nodes.iter().map(|node| node.route).max().unwrap_or(0);
        let (sinks, others): (Vec<usize>, Vec<usize>) =
            (0..nodes.len()).partition(|node| nodes[*node].line.kind == 'S');
        let [sink] = sinks[..] else { return Err("not one line S".into()) };
        // A line is named by its kind and its node's number; the sink's has the total delay, as in a row.
        let mut lines: Vec<Line> =
            others.into_iter().map(|node| Line { depth: node as u64 + 1, ..nodes[node].line.clone() }).collect();
        lines.push(Line { delay: longest, ..nodes[sink].line.clone() });
        Ok(Promises { links: hold::Promises::of(&lines)?, routes })
    }
}

/// A planned tree: the figures that must hold, and the wrong ones that must not.
pub struct Case {
    pub survey: Survey,
    pub right: Promises,
    pub wrong: Vec<(Version, Promises)>,
}

impl Case {
    /// A case for a tree and the answer that is held for it; none if it is refused.
    pub fn of(survey: Survey, answer: &Answer) -> Result<Option<Case>, String> {
        let Answer::Plan(lines) = answer else { return Ok(None) };
        if lines.len() != survey.nodes.len() {
            return Err(format!("{} lines for {} nodes", lines.len(), survey.nodes.len()));
        }
        let mut wrong = Vec::new();
        for version in WRONG {
            if let Answer::Plan(lines) = figures::answer(&survey, version) {
                wrong.push((version, Promises::of(&lines)?));
            }
        }
        Ok(Some(Case { survey, right: Promises::of(lines)?, wrong }))
    }

    /// Runs a setup. It must keep each node's own token bucket; then the run goes on until one symbol
    /// after the largest ROUTE from the last reading on, by when every frame must be at the sink. The
    /// tries of each exchange must be over when it is.
    pub fn run(&self, setup: &Setup<Survey>) -> Result<Outcome, String> {
        self.survey.check(&setup.readings)?;
        let links = link::links(&self.survey.row(), &self.right.links, &self.survey, &setup.offsets)?;
        let last_reading = setup.readings.iter().map(|reading| reading.symbol).max().unwrap_or(0);
        let last = last_reading.checked_add(self.right.links.delay).and_then(|sum| sum.checked_add(1));
        let outcome = run::run(&links, setup, last.ok_or("a delay too large")?);
        outcome.check_tries()?;
        Ok(outcome)
    }

    /// Holds figures against a run: for each claim, in the order of the list, the reach that is largest
    /// in comparison with what is printed.
    pub fn hold(&self, promises: &Promises, outcome: &Outcome) -> Result<[Reach; 7], String> {
        let held = hold::hold(&self.survey.row(), &promises.links, &self.survey, outcome)?;
        let [ends, up, down, delay, stretch] = held;
        Ok([ends, up, down, delay, stretch, route_reach(promises, outcome), lost_reach(outcome)])
    }

    /// All that is needed to make a run again: settings, list, links and offsets, ties, failed tries,
    /// readings.
    pub fn describe(&self, setup: &Setup<Survey>) -> String {
        let mut text = format!("settings {}\n{}", self.survey.settings(), self.survey.list());
        for (node, way) in self.survey.ways().into_iter().enumerate() {
            if let Some(way) = way {
                let (number, next, offset) = (node + 1, way.next + 1, setup.offsets[node]);
                text += &format!("  node {number}: line {} to node {next}, offset {offset}\n", way.line.0);
            }
        }
        text += &format!("ties {:?}, failed tries {:?}\n", setup.ties, setup.failures);
        text += "readings, as symbol, node, count\n";
        for reading in &setup.readings {
            text += &format!("  {} {} {}\n", reading.symbol, reading.sensor + 1, reading.count);
        }
        text
    }
}

/// Every frame is on its way for at most ROUTE of the node that made it. A frame that is not at the
/// sink counts with the time so far.
fn route_reach(promises: &Promises, outcome: &Outcome) -> Reach {
    let mut worst = Reach { claim: Claim::Route, place: "no frame".into(), reached: 0, printed: 0 };
    for (frame, came) in &outcome.frames {
        let reached = i128::from(came.unwrap_or(outcome.last) - frame.made);
        let printed = i128::from(promises.routes[frame.sensor]);
        let reach = Reach { claim: Claim::Route, place: String::new(), reached, printed };
        if reach.share() > worst.share() {
            let place = format!("a frame made at node {} in symbol {}", frame.sensor + 1, frame.made);
            worst = Reach { place, ..reach };
        }
    }
    worst
}

/// Every frame that was made came to the sink, and came there once.
fn lost_reach(outcome: &Outcome) -> Reach {
    let mut times = vec![0_u64; outcome.frames.len()];
    outcome.arrivals.iter().for_each(|(_, frame)| times[*frame] += 1);
    let lost = times.into_iter().filter(|times| *times != 1).count();
    Reach { claim: Claim::Lost, place: "all frames".into(), reached: lost as i128, printed: 0 }
}

#[cfg(test)]
mod tests {
    use super::*;
    use crate::failures::Failures;
    use crate::setup::Reading;
    use crate::ties::Ties;

    /// A leaf on a router on the root, which is the sink, and another leaf on the root: BI = 3840, X = 60,
    /// m = 2 and T = BI on all links. The leaves have BURST 1, the router has BURST 2.
    fn chain(version: Version) -> Case {
        let list = "NODE PARENT BURST RATE\n1 0 0 0\n2 1 2 1\n3 2 1 1\n4 1 1 1\n";
        let survey = Survey::read(list, "2 1 5 13 0 1").expect("a survey");
        let answer = figures::answer(&survey, version);
        Case::of(survey, &answer).expect("a plan").expect("planned")
    }

    fn over(case: &Case, readings: &[(u64, usize, u64)]) -> Vec<Claim> {
        let reading = |&(symbol, sensor, count): &(u64, usize, u64)| Reading { symbol, sensor, count };
        let readings = readings.iter().map(reading).collect();
        let (tree, offsets, failures) = (case.survey.clone(), vec![0, 60, 60, 60], Failures::Always);
        let setup = Setup { tree, offsets, readings, ties: Ties::OldestLast, failures };
        let outcome = case.run(&setup).expect("a run");
        let reaches = case.hold(&case.right, &outcome).expect("held");
        reaches.into_iter().filter(Reach::is_over).map(|reach| reach.claim).collect()
    }

    /// The leaf's frame misses both windows: 120 is its last start, and its frame comes to the router in
    /// symbol 60 + 60 + 3840, that of the router's last start. It is at the sink T + T symbols after 120.
    #[test]
    fn right_figures_are_kept() {
        assert_eq!(over(&chain(Version::Right), &[(120, 2, 1), (3960, 1, 2)]), []);
        assert_eq!(over(&chain(Version::Right), &[]), []);
    }

    /// The leaf on the root has ROUTE 1920 + 3840; lowered by T, it is broken by a frame that misses the
    /// window. The router's and the other leaf's are longer.
    #[test]
    fn own_route() {
        assert_eq!(over(&chain(Version::RouteLow), &[(120, 3, 1)]), [Claim::Route]);
        assert_eq!(over(&chain(Version::RouteLow), &[(119, 3, 1)]), []);
        assert_eq!(over(&chain(Version::Right), &[(120, 3, 1)]), []);
    }

    /// A link without slots sends nothing: the frames do not come, which is late and lost.
    #[test]
    fn lost() {
        let mut case = chain(Version::Right);
        let Answer::Plan(mut lines) = figures::answer(&case.survey, Version::Right) else { panic!("planned") };
        lines[1].line.slots = 0;
        case.right = Promises::of(&lines).expect("a plan");
        assert_eq!(over(&case, &[(120, 2, 1)]), [Claim::Delay, Claim::Route, Claim::Lost]);
    }

    #[test]
    fn not_a_plan() {
        let Answer::Plan(lines) = figures::answer(&chain(Version::Right).survey, Version::Right) else {
            panic!("planned")
        };
        assert!(Promises::of(&lines[1..]).is_err());
        assert!(Promises::of(&[&lines[..1], &lines[..1]].concat()).is_err());
        let short = Answer::Plan(lines[..2].to_vec());
        assert!(Case::of(chain(Version::Right).survey, &short).is_err());
        assert!(Case::of(chain(Version::Right).survey, &Answer::Refused(7, 1)).expect("an answer").is_none());
    }

    /// Readings beyond a node's own bucket make no run.
    #[test]
    fn runs_that_do_not_count() {
        let case = chain(Version::Right);
        let setup = |count| Setup {
            tree: case.survey.clone(),
            offsets: vec![0, 60, 60, 60],
            readings: vec![Reading { symbol: 5, sensor: 2, count }],
            ties: Ties::OldestLast,
            failures: Failures::Always,
        };
        assert!(case.run(&setup(1)).is_ok() && case.run(&setup(2)).is_err());
        assert!(case.run(&Setup { offsets: vec![0, 60, 3721, 60], ..setup(1) }).is_err());
        assert!(case.describe(&setup(1)).contains("node 3: line E to node 2, offset 60"));
    }
}
