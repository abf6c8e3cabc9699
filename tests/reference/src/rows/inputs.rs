//! Name lines and whole inputs for the program.

use super::*;
use crate::INPUT_LIMIT;

/// A name line and a line of values, both without LF. Seldom the values are those for the other name line.
pub fn named_row(rng: &mut Rng) -> (Vec<u8>, Vec<u8>) {
    let heading = draw_heading(rng);
    let names = names(rng, heading);
    (names, row_under(rng, heading))
}

fn draw_heading(rng: &mut Rng) -> Heading {
    rng.pick(&Heading::BOTH)
}

/// A line of values for this name line, seldom for the other one: then there is one too few or one too many.
fn row_under(rng: &mut Rng, heading: Heading) -> Vec<u8> {
    let heading = if rng.one_in(20) { draw_heading(rng) } else { heading };
    row(rng, heading)
}

/// Mostly the name line itself, else one of many wrong ones.
fn names(rng: &mut Rng, heading: Heading) -> Vec<u8> {
    if rng.one_in(12) {
        wrong_names(rng, heading)
    } else {
        heading.names().as_bytes().to_vec()
    }
}

/// A name line that differs; seldom the changed byte happens to be the right one, or what is cut leaves the other line.
fn wrong_names(rng: &mut Rng, heading: Heading) -> Vec<u8> {
    let mut names = heading.names().as_bytes().to_vec();
    let at = rng.index(names.len());
    match rng.below(13) {
        0 => names[at] = rng.draw() as u8,
        1 => names[at] ^= 1 << rng.below(8),
        2 => drop(names.remove(at)),
        3 => names.insert(at, rng.draw() as u8),
        4 => names.truncate(at),
        5 => drop(names.pop()),
        6 => names.clear(),
        7 => names.make_ascii_lowercase(),
        8 => names.extend(rng.pick(&[&b"\n"[..], b"\r", b"\r\n", b" ", b"\0", b"K", b" X"])),
        9 => names.extend(names.clone()),
        10 => names.insert(0, b' '),
        11 => names.extend(rng.pick(&[&b" LOSS"[..], b" LOSS ", b" LOS", b" loss", b"LOSS", b"  LOSS", b" LOSS\r"])),
        _ => names = broken::noise(rng),
    }
    names
}

/// A whole input of the program.
pub fn text(rng: &mut Rng) -> Vec<u8> {
    match rng.below(24) {
        0 => Vec::new(),
        1 => broken::noise(rng),
        2 => draw_heading(rng).names().as_bytes().to_vec(),
        3 | 4 => near_limit(rng),
        _ => {
            let heading = draw_heading(rng);
            let mut input = names(rng, heading);
            for _ in 0..rng.below(25) {
                add_line(rng, heading, &mut input);
            }
            end(rng, &mut input);
            input
        }
    }
}

/// An LF and the line after it.
fn add_line(rng: &mut Rng, heading: Heading, input: &mut Vec<u8>) {
    input.push(b'\n');
    match rng.below(24) {
        0 => (),
        1 => input.extend(broken::noise(rng)),
        _ => input.extend(row_under(rng, heading)),
    }
}

/// What follows the last line: mostly an LF, or nothing, or more than one.
fn end(rng: &mut Rng, input: &mut Vec<u8>) {
    input.extend(rng.pick(&[&b"\n"[..], b"\n", b"", b"\n\n", b"\r\n", b"\n\n\n", b"\n ", b"\0"]));
}

/// An input with the most bytes that the program takes, or a few less or more. Where it is filled up with LF, each is
/// the end of an empty row.
fn near_limit(rng: &mut Rng) -> Vec<u8> {
    let length = INPUT_LIMIT - 3 + rng.index(7);
    let heading = draw_heading(rng);
    let mut input = if rng.one_in(8) { wrong_names(rng, heading) } else { heading.names().as_bytes().to_vec() };
    let rows = if rng.one_in(2) { length } else { rng.index(2_000) };
    while input.len() < rows {
        add_line(rng, heading, &mut input);
    }
    let filling = rng.pick(b"\n 0\0");
    input.resize(length, filling);
    input
}

#[cfg(test)]
mod tests {
    use super::*;
    use crate::{program, LOSS_NAMES, NAMES};

    /// Inputs of all sorts are drawn: on both sides of the limit, empty, with and without the last LF, with empty
    /// lines, with 0 and 255 among their bytes, either name line alone; and outputs: none, R 1, R 9, plans, and the
    /// refusals at places 13 and 14 under each name line.
    #[test]
    fn inputs_are_of_all_kinds() {
        let mut rng = Rng::new(6);
        let mut counts = [0; 20];
        for _ in 0..2_000 {
            let input = text(&mut rng);
            for (count, met) in counts.iter_mut().zip(kinds(&input)) {
                *count += u32::from(met);
            }
        }
        assert!(counts.iter().all(|&count| count >= 10), "{counts:?}");
    }

    fn kinds(input: &[u8]) -> [bool; 20] {
        let printed = program(input);
        let has = |part: &[u8]| printed.windows(part.len()).any(|other| other == part);
        let with_loss = input.starts_with(LOSS_NAMES.as_bytes());
        let answered = !printed.is_empty() && !printed.starts_with(b"R 1 ") && !printed.starts_with(b"R 9 ");
        [
            input.len() == INPUT_LIMIT,
            input.len() == INPUT_LIMIT + 1,
            input.is_empty(),
            input == NAMES.as_bytes(),
            input == LOSS_NAMES.as_bytes(),
            answered && input.len() == INPUT_LIMIT,
            answered && input.ends_with(b"\n"),
            answered && !input.ends_with(b"\n"),
            answered && input.windows(2).any(|pair| pair == b"\n\n"),
            answered && input.contains(&0) && input.contains(&255),
            printed.is_empty(),
            printed == b"R 1 0\n",
            printed == b"R 9 0\n",
            has(b"\nKIND") && !with_loss,
            has(b"\nKIND") && with_loss,
            has(b"\nR 2 13\n") && !with_loss,
            has(b"\nR 2 13\n") && with_loss,
            has(b"\nR 2 14\n"),
            has(b"\nR 3 13\n"),
            has(b"\nR 4 13\n"),
        ]
    }

    #[test]
    fn name_lines_are_mostly_right() {
        let mut rng = Rng::new(7);
        for heading in Heading::BOTH {
            let right = (0..12_000).filter(|_| names(&mut rng, heading) == heading.names().as_bytes()).count();
            assert!((10_500..11_500).contains(&right), "{right}");
        }
    }

    /// Rows with one value more or less than there are names are among those that are drawn.
    #[test]
    fn rows_under_the_other_name_line() {
        let mut rng = Rng::new(16);
        let mut counts = [0; 2];
        for _ in 0..5_000 {
            let (names, row) = named_row(&mut rng);
            let readable =
                |heading| crate::settings::read(heading, &row).err().is_none_or(|refusal| refusal.number > 2);
            counts[0] += u32::from(names == NAMES.as_bytes() && readable(Heading::WithLoss));
            counts[1] += u32::from(names == LOSS_NAMES.as_bytes() && readable(Heading::WithoutLoss));
        }
        assert!(counts.iter().all(|&count| count >= 20), "{counts:?}");
    }
}
