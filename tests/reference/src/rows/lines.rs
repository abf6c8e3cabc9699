//! Lines of refusals damaged as bytes, and lines made up from phrases: some are a reason still, most are none.

use super::*;
use crate::{Phrase, LOSS_NAMES, PLANNED, TREE_PLANNED};
use std::ops::Range;

/// Numbers about the ends of 32, 64 and 128 bits, some of which leave a small one when cut to so many bits.
const LARGE: [&str; 8] = [
    "65536",
    "4294967295",
    "4294967296",
    "4294967308",
    "18446744073709551615",
    "18446744073709551616",
    "18446744073709551628",
    "340282366920938463463374607431768211469",
];
/// What is no number.
const NO_NUMBERS: [&str; 8] = ["", "00", "01", "012", "-1", "1.0", " 1", "x"];
/// What may stand behind a line by mistake.
const ENDS: [&[u8]; 10] = [b" ", b".", b"\n", b"\r\n", b"\0", b"0", b"9.", b" x", b"\xff", b".."];

/// Phrases from which lines are made up, and the line of what is not refused.
#[derive(Clone, Copy)]
struct Wording {
    phrases: &'static [&'static [Phrase]],
    planned: &'static str,
}

const OF_ROWS: Wording = Wording { phrases: &[&Phrase::OF_ROWS], planned: PLANNED };
/// Those of rows are in them too, so that the front of a line of a tree may meet the end of a row's.
const OF_TREES: Wording = Wording { phrases: &[&Phrase::OF_TREES, &Phrase::OF_ROWS], planned: TREE_PLANNED };

/// The line after one damage, seldom two.
pub fn damaged_line(rng: &mut Rng, line: &[u8]) -> Vec<u8> {
    damaged(rng, line, OF_ROWS)
}

/// The same for the line of a surveyed tree.
pub fn damaged_tree_line(rng: &mut Rng, line: &[u8]) -> Vec<u8> {
    damaged(rng, line, OF_TREES)
}

/// A phrase with any column, place and values, most of which are none of a row.
pub fn made_up_line(rng: &mut Rng) -> Vec<u8> {
    made_up(rng, OF_ROWS)
}

/// A phrase of a surveyed tree or of a row.
pub fn made_up_tree_line(rng: &mut Rng) -> Vec<u8> {
    made_up(rng, OF_TREES)
}

fn damaged(rng: &mut Rng, line: &[u8], wording: Wording) -> Vec<u8> {
    let mut damaged = damage(rng, line, wording);
    if rng.one_in(8) {
        damaged = damage(rng, &damaged, wording);
    }
    damaged
}

fn made_up(rng: &mut Rng, wording: Wording) -> Vec<u8> {
    let phrases = if let [phrases] = wording.phrases { phrases } else { rng.pick(wording.phrases) };
    let mut line = Vec::new();
    for letter in rng.pick(phrases).words().bytes() {
        match letter {
            b'@' => line.extend(column(rng)),
            b'%' | b'#' => line.extend(number(rng)),
            _ => line.push(letter),
        }
    }
    line
}

fn damage(rng: &mut Rng, line: &[u8], wording: Wording) -> Vec<u8> {
    match rng.below(8) {
        0 => with_other_byte(rng, line),
        1 => line[..rng.index(line.len() + 1)].to_vec(),
        2 => lengthened(rng, line),
        3 | 4 => with_digits(rng, line),
        5 => with_number(rng, line),
        6 => with_word(rng, line),
        _ => with_other_end(rng, line, wording),
    }
}

/// One byte changed, removed or doubled.
fn with_other_byte(rng: &mut Rng, line: &[u8]) -> Vec<u8> {
    let mut line = line.to_vec();
    if line.is_empty() {
        return line;
    }
    let at = rng.index(line.len());
    match rng.below(4) {
        0 => line[at] = rng.draw() as u8,
        1 => line[at] ^= 1 << rng.below(8),
        2 => drop(line.remove(at)),
        _ => line.insert(at, line[at]),
    }
    line
}

/// More behind it, seldom before it.
fn lengthened(rng: &mut Rng, line: &[u8]) -> Vec<u8> {
    let more = if rng.one_in(10) { line } else { rng.pick(&ENDS) };
    if rng.one_in(8) {
        [more, line].concat()
    } else {
        [line, more].concat()
    }
}

/// Digits put into a number or at an end of it, where the line has one; else anywhere.
fn with_digits(rng: &mut Rng, line: &[u8]) -> Vec<u8> {
    let numbers = numbers(line);
    let at = if numbers.is_empty() {
        rng.index(line.len() + 1)
    } else {
        let number = &numbers[rng.index(numbers.len())];
        number.start + rng.index(number.len() + 1)
    };
    let length = if rng.one_in(8) { rng.range(5, 60) } else { rng.range(1, 2) };
    let digits: Vec<u8> = (0..length).map(|_| rng.pick(b"0123456789")).collect();
    [&line[..at], &digits, &line[at..]].concat()
}

/// Another number in the place of one.
fn with_number(rng: &mut Rng, line: &[u8]) -> Vec<u8> {
    let numbers = numbers(line);
    if numbers.is_empty() {
        return with_word(rng, line);
    }
    let old = &numbers[rng.index(numbers.len())];
    [&line[..old.start], &number(rng), &line[old.end..]].concat()
}

/// A column or a number in the place of a column, where the line has one; else in that of any word. A mark behind the
/// word stays.
fn with_word(rng: &mut Rng, line: &[u8]) -> Vec<u8> {
    let mut words: Vec<&[u8]> = line.split(|&byte| byte == b' ').collect();
    let columns: Vec<usize> = (0..words.len()).filter(|&at| is_column(words[at])).collect();
    let at = if columns.is_empty() || rng.one_in(8) { rng.index(words.len()) } else { rng.pick(&columns) };
    let mark = &words[at][without_mark(words[at]).len()..];
    let other = [&column(rng), mark].concat();
    words[at] = &other;
    words.join(&b' ')
}

fn is_column(word: &[u8]) -> bool {
    LOSS_NAMES.split(' ').any(|name| name.as_bytes() == without_mark(word))
}

/// The word without a comma, colon or period behind it.
fn without_mark(word: &[u8]) -> &[u8] {
    match word {
        [front @ .., b',' | b':' | b'.'] => front,
        _ => word,
    }
}

/// The front of this line and the end of another phrase, cut where both have a space.
fn with_other_end(rng: &mut Rng, line: &[u8], wording: Wording) -> Vec<u8> {
    let other = if rng.one_in(10) { wording.planned.as_bytes().to_vec() } else { made_up(rng, wording) };
    let front = cut_at_space(rng, line);
    let end = cut_at_space(rng, &other);
    [&line[..front], &other[end..]].concat()
}

/// Where one of the spaces stands; 0 if there is none.
fn cut_at_space(rng: &mut Rng, line: &[u8]) -> usize {
    let spaces: Vec<usize> = (0..line.len()).filter(|&at| line[at] == b' ').collect();
    if spaces.is_empty() {
        0
    } else {
        rng.pick(&spaces)
    }
}

/// Where the numbers of a line stand.
fn numbers(line: &[u8]) -> Vec<Range<usize>> {
    let mut numbers: Vec<Range<usize>> = Vec::new();
    for at in (0..line.len()).filter(|&at| line[at].is_ascii_digit()) {
        match numbers.last_mut() {
            Some(number) if number.end == at => number.end += 1,
            _ => numbers.push(at..at + 1),
        }
    }
    numbers
}

fn column(rng: &mut Rng) -> Vec<u8> {
    let names: Vec<&str> = LOSS_NAMES.split(' ').collect();
    match rng.below(8) {
        0..=4 => rng.pick(&names).as_bytes().to_vec(),
        5 | 6 => rng.below(16).to_string().into_bytes(),
        _ => number(rng),
    }
}

fn number(rng: &mut Rng) -> Vec<u8> {
    match rng.below(8) {
        0 => rng.pick(&NO_NUMBERS).as_bytes().to_vec(),
        1 | 2 => rng.pick(&LARGE).as_bytes().to_vec(),
        3 => rng.draw().to_string().into_bytes(),
        _ => rng.below(20).to_string().into_bytes(),
    }
}

#[cfg(test)]
mod tests {
    use super::*;
    use crate::{line_of, lists, plan_named_row, plan_tree, read_reason, tree_line_of};
    use std::collections::{BTreeMap, BTreeSet};

    #[test]
    fn columns_with_marks() {
        assert_eq!(
            [&b"H"[..], b"SO,", b"BO:", b"H.", b"h", b"SO,,", b""].map(is_column),
            [true, true, true, true, false, false, false]
        );
    }

    #[test]
    fn numbers_of_a_line() {
        assert_eq!(numbers(b""), []);
        assert_eq!(numbers(b"a 12,3."), [2..4, 5..6]);
        assert_eq!(numbers(b"05"), std::slice::from_ref(&(0..2)));
    }

    /// Damaged lines of rows of all kinds: many read as before, many as another refusal, most as none.
    #[test]
    fn damaged_lines_are_of_all_kinds() {
        let mut rng = Rng::new(10);
        let mut counts = [0; 3];
        for _ in 0..20_000 {
            let (names, row) = named_row(&mut rng);
            let line = line_of(&plan_named_row(&names, &row));
            let damaged = damaged_line(&mut rng, line.as_bytes());
            let (before, after) = (read_reason(line.as_bytes()), read_reason(&damaged));
            if damaged != line.as_bytes() {
                counts[after.map_or(2, |_| usize::from(before != after))] += 1;
            }
        }
        assert!(counts[0] > 500 && counts[1] > 200 && counts[2] > 10_000, "{counts:?}");
    }

    /// The same for lines of surveyed trees; some of them read as the refusal of a row.
    #[test]
    fn damaged_lines_of_trees_are_of_all_kinds() {
        let mut rng = Rng::new(14);
        let mut counts = [0; 3];
        for _ in 0..10_000 {
            let lists::Drawn { list, beside } = lists::draw(&mut rng);
            let line = tree_line_of(&plan_tree(&list, &beside));
            let damaged = damaged_tree_line(&mut rng, line.as_bytes());
            let (before, after) = (read_reason(line.as_bytes()), read_reason(&damaged));
            if damaged != line.as_bytes() {
                counts[after.map_or(2, |_| usize::from(before != after))] += 1;
            }
        }
        assert!(counts[0] > 100 && counts[1] > 100 && counts[2] > 5_000, "{counts:?}");
        let made_up: BTreeSet<u32> =
            (0..2_000).filter_map(|_| read_reason(&made_up_tree_line(&mut rng))).map(|(number, _)| number).collect();
        assert_eq!(made_up, (1..=10).collect());
    }

    /// Every number is made up, with small and with large places where a place varies.
    #[test]
    fn made_up_lines_are_of_all_kinds() {
        let mut rng = Rng::new(11);
        let mut places: BTreeMap<u32, Vec<u32>> = BTreeMap::new();
        let mut none = 0;
        for _ in 0..20_000 {
            match read_reason(&made_up_line(&mut rng)) {
                Some((number, place)) => places.entry(number).or_default().push(place),
                None => none += 1,
            }
        }
        assert_eq!(places.keys().copied().collect::<Vec<_>>(), (1..=9).collect::<Vec<_>>());
        assert!(none > 2_000, "{none}");
        for number in [2, 3, 7] {
            assert!(places[&number].iter().any(|&place| (1..=12).contains(&place)));
            assert!([13, 14, u32::MAX].iter().all(|place| places[&number].contains(place)));
        }
    }
}
