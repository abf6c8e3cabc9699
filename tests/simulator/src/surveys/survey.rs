//! A surveyed tree: the nodes of a list, and the settings and the sink that are given beside it.

use crate::bucket;
use crate::row::Row;
use crate::setup::Reading;
use crate::tree::{Way, Ways};

/// The line of names that stands before the nodes.
const NAMES: &str = "NODE PARENT BURST RATE";

/// One node. One that does not sense has BURST and RATE 0.
#[derive(Clone, Copy, Debug, PartialEq, Eq)]
pub struct Node {
    pub parent: Option<usize>,
    pub burst: u64,
    pub rate: u64,
}

/// A tree: node 0, which is number 1 of the list, is the root; every other node comes after its parent.
#[derive(Clone, Debug, PartialEq, Eq)]
pub struct Survey {
    pub bo: u64,
    pub so: u64,
    pub head: u64,
    pub data: u64,
    pub ack: u64,
    pub sink: usize,
    pub loss: u64,
    pub nodes: Vec<Node>,
}

impl Survey {
    /// Reads a list, as `list` writes it, and what is beside it, as `settings` writes it. Both are made
    /// by this package, so what cannot be read is a mistake in it.
    pub fn read(list: &str, settings: &str) -> Result<Survey, String> {
        let mut lines = list.lines();
        if lines.next() != Some(NAMES) {
            return Err("no line of names".into());
        }
        let mut values = numbers(settings.trim_end())?;
        if values.len() == 6 {
            values.push(0);
        }
        let [bo, so, head, data, ack, sink, loss] =
            <[u64; 7]>::try_from(values).map_err(|_| format!("neither six nor seven values: {settings:?}"))?;
        let nodes = lines.enumerate().map(|(index, line)| node(index, line)).collect::<Result<Vec<Node>, String>>()?;
        let sink = (sink as usize).checked_sub(1).ok_or("no sink")?;
        let survey = Survey { bo, so, head, data, ack, sink, loss, nodes };
        if survey.is_router(sink) {
            Ok(survey)
        } else {
            Err(format!("node {} is no router", sink + 1))
        }
    }

    /// The list as a text.
    pub fn list(&self) -> String {
        let mut text = format!("{NAMES}\n");
        for (index, node) in self.nodes.iter().enumerate() {
            let parent = node.parent.map_or(0, |parent| parent + 1);
            text += &format!("{} {parent} {} {}\n", index + 1, node.burst, node.rate);
        }
        text
    }

    /// BO SO HEAD DATA ACK SINK and, where it is not 0, LOSS, as program `plan_tree` takes them.
    pub fn settings(&self) -> String {
        let Survey { bo, so, head, data, ack, sink, loss, .. } = self;
        let without_loss = format!("{bo} {so} {head} {data} {ack} {}", sink + 1);
        if *loss == 0 {
            without_loss
        } else {
            format!("{without_loss} {loss}")
        }
    }

    /// The settings as a row, for all that looks at nothing else in a row.
    pub fn row(&self) -> Row {
        let Survey { bo, so, head, data, ack, loss, .. } = *self;
        Row { bo, so, h: 0, nr: 0, ne: 0, own: 1, sink: 0, burst: 0, rate: 0, head, data, ack, loss }
    }

    /// The settings and the token bucket of a node as a row.
    pub fn bucket(&self, node: usize) -> Row {
        let Node { burst, rate, .. } = self.nodes[node];
        Row { burst, rate, ..self.row() }
    }

    /// The nodes that sense.
    pub fn sensors(&self) -> Vec<usize> {
        (0..self.nodes.len()).filter(|node| self.nodes[*node].rate > 0).collect()
    }

    /// Node 1 and every node with children.
    pub fn is_router(&self, node: usize) -> bool {
        node == 0 || self.nodes.iter().any(|other| other.parent == Some(node))
    }

    /// The nodes from the sink up to the root.
    pub fn path(&self) -> Vec<usize> {
        let mut path = vec![self.sink];
        while let Some(above) = self.nodes[path[path.len() - 1]].parent {
            path.push(above);
        }
        path
    }

    /// Whether each reading is at a sensor and all of them keep their sensors' own token buckets.
    pub fn check(&self, readings: &[Reading]) -> Result<(), String> {
        let mut by_node = vec![Vec::new(); self.nodes.len()];
        for reading in readings {
            by_node.get_mut(reading.sensor).ok_or("a reading at no node")?.push(*reading);
        }
        for (node, readings) in by_node.iter().enumerate().filter(|(_, readings)| !readings.is_empty()) {
            if self.nodes[node].rate == 0 {
                return Err(format!("node {} does not sense", node + 1));
            }
            bucket::check(&self.bucket(node), readings)?;
        }
        Ok(())
    }
}

impl Ways for Survey {
    /// A line is named by its kind and its node's number.
    fn ways(&self) -> Vec<Option<Way>> {
        let up = |(index, node): (usize, &Node)| {
            let kind = if self.is_router(index) { 'U' } else { 'E' };
            node.parent.map(|next| Way { next, line: (kind, index as u64 + 1) })
        };
        let mut ways: Vec<Option<Way>> = self.nodes.iter().enumerate().map(up).collect();
        for pair in self.path().windows(2) {
            ways[pair[1]] = Some(Way { next: pair[0], line: ('D', pair[1] as u64 + 1) });
        }
        ways[self.sink] = None;
        ways
    }

    fn name(&self, node: usize) -> String {
        format!("node {}", node + 1)
    }
}

fn numbers(text: &str) -> Result<Vec<u64>, String> {
    text.split(' ').map(|word| word.parse().map_err(|_| format!("not a number: {word:?}"))).collect()
}

/// Reads the line of a node. One that breaks a rule of request E3 is no line of a node.
fn node(index: usize, line: &str) -> Result<Node, String> {
    let wrong = || format!("not a line of node {}: {line:?}", index + 1);
    let [number, parent, burst, rate] = <[u64; 4]>::try_from(numbers(line)?).map_err(|_| wrong())?;
    let parent = (parent as usize).checked_sub(1);
    let in_order = number == index as u64 + 1 && parent.map_or(index == 0, |parent| parent < index);
    let senses = (1..=255).contains(&burst) && (1..=4095).contains(&rate);
    if in_order && (senses || (burst, rate) == (0, 0)) {
        Ok(Node { parent, burst, rate })
    } else {
        Err(wrong())
    }
}

#[cfg(test)]
mod tests {
    use super::*;

    const LIST: &str = "NODE PARENT BURST RATE\n1 0 0 0\n2 1 0 0\n3 1 3 2\n4 2 1 1\n5 2 0 0\n";

    #[test]
    fn read_and_written() {
        let survey = Survey::read(LIST, "8 4 19 7 0 2\n").expect("a survey");
        assert_eq!(survey.list(), LIST);
        assert_eq!((survey.settings().as_str(), survey.loss), ("8 4 19 7 0 2", 0));
        let lossy = Survey::read(LIST, "8 4 19 7 1 2 7").expect("a survey");
        assert_eq!((lossy.settings().as_str(), lossy.loss, lossy.row().loss), ("8 4 19 7 1 2 7", 7, 7));
        assert_eq!(Survey::read(LIST, "8 4 19 7 0 2 0"), Ok(survey.clone()));
        assert_eq!((survey.sink, survey.sensors(), survey.path()), (1, vec![2, 3], vec![1, 0]));
        for (good, bad) in [("2 1 0 0", "2 2 0 0"), ("3 1 3 2", "3 1 3 0"), ("5 2", "6 2"), ("NODE", "NODES")] {
            assert!(Survey::read(&LIST.replace(good, bad), "8 4 19 7 0 2").is_err(), "{bad}");
        }
        for bad in ["8 4 19 7 0", "8 4 19 7 0 3", "8 4 19 7 0 0", "8 4 19 7 0 x", "8 4 19 7 1 2 x", "8 4 19 7 1 2 0 0"]
        {
            assert!(Survey::read(LIST, bad).is_err(), "{bad}");
        }
    }

    #[test]
    fn ways_to_the_sink() {
        let survey = Survey::read(LIST, "8 4 19 7 0 2").expect("a survey");
        let way = |next, kind, node| Some(Way { next, line: (kind, node) });
        assert_eq!(survey.ways(), [way(1, 'D', 1), None, way(0, 'E', 3), way(1, 'E', 4), way(1, 'E', 5)]);
        let survey = Survey { sink: 0, ..survey };
        assert_eq!(survey.ways()[..2], [None, way(0, 'U', 2)]);
    }

    /// Node 3's bucket has 3 frames, node 4's has one.
    #[test]
    fn own_buckets() {
        let survey = Survey::read(LIST, "8 4 19 7 0 2").expect("a survey");
        let check = |sensor, count| survey.check(&[Reading { symbol: 7, sensor, count }]);
        assert_eq!((check(2, 3), check(3, 1)), (Ok(()), Ok(())));
        assert!(check(2, 4).is_err() && check(3, 2).is_err() && check(0, 1).is_err() && check(9, 1).is_err());
    }
}
