//! Names, rows and lines as they are lent to the planner to be read.

use crate::entries::Memory;
use reference::rows::Rng;

/// Bytes on either side of a lent slice, as many as this at most. They are such as a planner that looks past the end of
/// the slice would take for more of a row, of a name line or of a reason.
const MOST_NEIGHBOURS: usize = 8;
const NEIGHBOURS: &[u8] = b"0123456789  \nK.";

/// Bytes that are lent to be read, within a memory of exactly their length or within a larger one.
pub struct Lent {
    memory: Box<[u8]>,
    kept: Box<[u8]>,
    start: usize,
    end: usize,
    null: bool,
}

impl Lent {
    /// The memory is exactly as long as the content, or has neighbours, equally often. An empty content is lent as NULL
    /// half the time.
    pub fn new(rng: &mut Rng, content: &[u8]) -> Lent {
        let most = if rng.one_in(2) { 0 } else { MOST_NEIGHBOURS };
        let before = neighbours(rng, most);
        let after = neighbours(rng, most);
        let memory = [&before, content, &after].concat().into_boxed_slice();
        let (start, end) = (before.len(), before.len() + content.len());
        Lent { kept: memory.clone(), memory, start, end, null: content.is_empty() && rng.one_in(2) }
    }

    /// The front of these bytes, so many of them, with the others right behind it.
    pub fn front(whole: &[u8], length: usize) -> Lent {
        let memory: Box<[u8]> = whole.into();
        Lent { kept: memory.clone(), memory, start: 0, end: length, null: false }
    }

    /// What is handed over, as it was before.
    pub fn content(&self) -> &[u8] {
        &self.kept[self.start..self.end]
    }

    /// The content, as it is handed over.
    pub fn lend(&mut self) -> Memory<'_> {
        (!self.null).then(|| &mut self.memory[self.start..self.end])
    }

    /// Nothing was changed, neither in the content nor around it.
    pub fn is_kept(&self) -> bool {
        self.memory == self.kept
    }
}

/// A name line and a row.
pub struct Inputs {
    pub names: Lent,
    pub row: Lent,
}

impl Inputs {
    pub fn new(rng: &mut Rng, names: &[u8], row: &[u8]) -> Inputs {
        Inputs { names: Lent::new(rng, names), row: Lent::new(rng, row) }
    }

    /// Nothing was changed in either.
    pub fn are_kept(&self) -> Result<(), String> {
        if self.names.is_kept() && self.row.is_kept() {
            Ok(())
        } else {
            Err("names or row, or bytes beside them, were changed".to_string())
        }
    }
}

fn neighbours(rng: &mut Rng, most: usize) -> Vec<u8> {
    (0..rng.index(most + 1)).map(|_| rng.pick(NEIGHBOURS)).collect()
}

#[cfg(test)]
mod tests {
    use super::*;

    #[test]
    fn the_content_is_lent() {
        let mut rng = Rng::new(1);
        for _ in 0..100 {
            let mut lent = Lent::new(&mut rng, b"8 4");
            assert_eq!(lent.lend().as_deref(), Some(&b"8 4"[..]));
            assert_eq!(lent.content(), b"8 4");
            assert!(lent.is_kept());
        }
    }

    #[test]
    fn a_front_is_lent() {
        let mut lent = Lent::front(b"The row is planned.", 7);
        assert_eq!(lent.lend().as_deref(), Some(&b"The row"[..]));
        assert_eq!(lent.content(), b"The row");
        assert!(lent.is_kept());
        lent.lend().unwrap()[0] = b't';
        assert_eq!((lent.is_kept(), lent.content()), (false, &b"The row"[..]));
    }

    #[test]
    fn an_empty_content_is_lent_in_both_ways() {
        let mut rng = Rng::new(2);
        let null: Vec<bool> = (0..100).map(|_| Lent::new(&mut rng, b"").lend().is_none()).collect();
        assert!(null.contains(&true) && null.contains(&false));
    }

    #[test]
    fn a_change_is_noticed() {
        let mut lent = Lent::new(&mut Rng::new(3), b"8 4");
        lent.lend().unwrap()[2] = b'5';
        assert!(!lent.is_kept());
    }

    #[test]
    fn a_change_in_either_input_is_noticed() {
        let inputs = || Inputs::new(&mut Rng::new(4), b"BO", b"8 4");
        assert!(inputs().are_kept().is_ok());
        let mut changed = inputs();
        changed.names.lend().unwrap()[0] = b'b';
        assert!(changed.are_kept().is_err());
        let mut changed = inputs();
        changed.row.lend().unwrap()[2] = b'5';
        assert!(changed.are_kept().is_err());
    }
}
