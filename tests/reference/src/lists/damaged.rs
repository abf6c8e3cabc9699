//! Damaged lists: names, lines, values and bytes that break a rule, and some that happen to break none.

use super::{beside, joined, tree, written, Drawn};
use crate::rows::{broken, noise, Rng};
use crate::{LIST_NAMES, MOST_NODES};

/// Values that are wrong in most places of a node line.
const VALUES: [&str; 12] = ["0", "1", "2", "255", "256", "258", "4095", "4096", "9999", "10000", "00", ""];

/// A list after one damage, seldom two or three, with settings and a sink that fit the tree it was.
pub fn damaged(rng: &mut Rng) -> Drawn {
    let tree = tree(rng);
    let beside = beside::fitting(rng, &tree);
    if rng.one_in(3) {
        let mut list = written(&tree);
        slip(rng, &mut list);
        return Drawn { list, beside };
    }
    let mut lines: Vec<Vec<u8>> = tree.lines().into_iter().map(String::into_bytes).collect();
    if rng.one_in(4) {
        fill_up(rng, &mut lines, MOST_NODES);
    }
    for _ in 0..rng.pick(&[1, 1, 1, 1, 2, 3]) {
        match rng.below(10) {
            0..=4 => damage_line(rng, &mut lines),
            5..=7 => damage_order(rng, &mut lines),
            _ => lengthen(rng, &mut lines),
        }
    }
    let mut list = joined(lines.into_iter());
    if rng.one_in(5) {
        damage_text(rng, &mut list);
    }
    Drawn { list, beside }
}

/// One mistake of writing in a list that keeps every rule: a byte too many at a line's end or between values, a blank
/// line, other names, something behind the last line. It is made at one place, or at all places of its sort.
fn slip(rng: &mut Rng, list: &mut Vec<u8>) {
    let (names, all) = (LIST_NAMES.len(), rng.one_in(8));
    let old = rng.pick(b"\n\n ");
    let more = if old == b' ' {
        rng.pick(&[&b" "[..], b"0", b"+"])
    } else {
        rng.pick(&[&b"\r"[..], b" ", b" 0", b"\0", b"\n"])
    };
    match rng.below(8) {
        0 => list[..names].make_ascii_lowercase(),
        1 => list.splice(names..names, rng.pick(&[&b" "[..], b"\r", b" ADDR", b"\0"]).iter().copied()).for_each(drop),
        2 => list.extend(rng.pick(&[&b"\n"[..], b"\n\n", b"\r\n", b" ", b"\0", b"\0\n"])),
        _ => {
            let places: Vec<usize> = (names..list.len()).filter(|&at| list[at] == old).collect();
            let chosen = if places.is_empty() { Vec::new() } else { vec![rng.pick(&places)] };
            // From the last to the first, so that the other places stay. In front of a line's end, behind a space.
            for &at in if all { &places } else { &chosen }.iter().rev() {
                let at = at + usize::from(old == b' ');
                list.splice(at..at, more.iter().copied()).for_each(drop);
            }
        }
    }
}

/// One line with another value, a value too many or too few, or with damaged bytes.
fn damage_line(rng: &mut Rng, lines: &mut [Vec<u8>]) {
    if lines.is_empty() {
        return;
    }
    let at = rng.index(lines.len());
    let line = &mut lines[at];
    let mut values: Vec<Vec<u8>> = line.split(|&byte| byte == b' ').map(<[u8]>::to_vec).collect();
    let value = rng.index(values.len());
    match rng.below(6) {
        0 => values[value] = rng.pick(&VALUES).as_bytes().to_vec(),
        1 => values[value] = (at + rng.index(4)).to_string().into_bytes(),
        2 => values[value] = rng.below(300).to_string().into_bytes(),
        3 => drop(values.remove(value)),
        4 => values.insert(value, rng.below(5).to_string().into_bytes()),
        _ => {
            *line = broken(rng, line.clone());
            return;
        }
    }
    *line = values.join(&b' ');
}

/// Lines swapped, missing, doubled or blank, or one that is none.
fn damage_order(rng: &mut Rng, lines: &mut Vec<Vec<u8>>) {
    if lines.is_empty() {
        return;
    }
    let (at, other) = (rng.index(lines.len()), rng.index(lines.len()));
    match rng.below(6) {
        0 => lines.swap(at, other),
        1 => drop(lines.remove(at)),
        2 => lines.insert(at, lines[other].clone()),
        3 => lines.insert(at, Vec::new()),
        4 => lines.truncate(at),
        _ => lines.insert(at, noise(rng)),
    }
}

/// More lines than there may be, all of which would keep the rules but for that; seldom a line that keeps none.
fn lengthen(rng: &mut Rng, lines: &mut Vec<Vec<u8>>) {
    let count = MOST_NODES + rng.pick(&[0, 1, 1, 2, 50]);
    fill_up(rng, lines, count);
    if rng.one_in(4) {
        lines.push(rng.pick(&[&b""[..], b" ", b"255 1 0 0", b"x"]).to_vec());
    }
}

/// Lines of further nodes that do not sense, until there are so many.
fn fill_up(rng: &mut Rng, lines: &mut Vec<Vec<u8>>, count: usize) {
    while lines.len() < count {
        let parent = rng.below(lines.len().max(1) as u64) + 1;
        lines.push(format!("{} {parent} 0 0", lines.len() + 1).into_bytes());
    }
}

/// Other names, or a damage anywhere in the text.
fn damage_text(rng: &mut Rng, list: &mut Vec<u8>) {
    let (names, at) = (LIST_NAMES.len(), rng.index(list.len()));
    match rng.below(7) {
        0 => list[rng.index(names)] = rng.draw() as u8,
        1 => drop(list.remove(rng.index(names))),
        2 => list.insert(rng.index(names), rng.pick(b" NODERATE\n\r\0")),
        3 => list.drain(..=names).for_each(drop),
        4 => list.truncate(at),
        5 => list[at] = rng.pick(b"\n\r 019\0\xff"),
        _ => *list = noise(rng),
    }
}
