//! Rows damaged as bytes, most of which condition 2 refuses.

use super::*;

/// Pieces that are no values, or that make a neighbour none.
const PIECES: [&[u8]; 20] = [
    b"", b" ", b"00", b"01", b"007", b"12345", b"00000", b"-1", b"+1", b"1.0", b"0x1", b"x", b"\0", b"\r", b"\n",
    b"\t", b"1\r", b"\xff", b"/", b":",
];
/// Bytes that the reading of a row might treat in a special way.
const BYTES: [u8; 12] = [0, 9, 10, 13, 32, 32, 47, 48, 57, 58, 127, 255];
const LONGEST_RUN: u64 = 300;

/// The row after one to three damages.
pub fn broken(rng: &mut Rng, mut row: Vec<u8>) -> Vec<u8> {
    for _ in 0..rng.pick(&[1, 1, 1, 2, 3]) {
        if row.is_empty() {
            break;
        }
        row = damaged(rng, row);
    }
    row
}

/// Bytes that were no row before: any, or those of rows in any order.
pub fn noise(rng: &mut Rng) -> Vec<u8> {
    let length = rng.index(300);
    match rng.below(3) {
        0 => rng.bytes(length),
        1 => (0..length).map(|_| rng.pick(b"0123456789 ")).collect(),
        _ => (0..length / 10).map(|_| rng.pick(&BYTES)).collect(),
    }
}

fn damaged(rng: &mut Rng, mut row: Vec<u8>) -> Vec<u8> {
    let at = rng.index(row.len());
    match rng.below(9) {
        0 => row[at] = draw_byte(rng),
        1 => drop(row.remove(at)),
        2 => row.insert(at, draw_byte(rng)),
        3 => row.insert(at, row[at]),
        4 => row.truncate(at),
        5 => lengthen(rng, &mut row),
        6 => row.insert(0, rng.pick(&BYTES)),
        _ => return with_piece(rng, &row),
    }
    row
}

fn draw_byte(rng: &mut Rng) -> u8 {
    if rng.one_in(2) {
        rng.pick(&BYTES)
    } else {
        rng.draw() as u8
    }
}

/// Text after the last value.
fn lengthen(rng: &mut Rng, row: &mut Vec<u8>) {
    if rng.one_in(2) {
        row.push(b' ');
    }
    match rng.below(4) {
        0 => (),
        1 => row.extend(rng.pick(&PIECES)),
        2 => row.extend(row.clone()),
        _ => row.extend(digits(rng)),
    }
}

/// Another piece in place of a value, or no values from there on.
fn with_piece(rng: &mut Rng, row: &[u8]) -> Vec<u8> {
    let mut pieces: Vec<Vec<u8>> = row.split(|&byte| byte == b' ').map(<[u8]>::to_vec).collect();
    let column = rng.index(pieces.len());
    match rng.below(4) {
        0 => pieces.truncate(column),
        1 => pieces[column] = digits(rng),
        _ => pieces[column] = rng.pick(&PIECES).to_vec(),
    }
    pieces.join(&b' ')
}

/// Digits, mostly few; a value above 9999 or of hundreds of digits must be as unreadable as any.
fn digits(rng: &mut Rng) -> Vec<u8> {
    let length = if rng.one_in(4) { rng.range(5, LONGEST_RUN) } else { rng.range(1, 12) };
    let zeros = rng.one_in(4);
    (0..length).map(|_| if zeros { b'0' } else { rng.pick(b"0123456789") }).collect()
}
