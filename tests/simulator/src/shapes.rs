//! Trees within a row: the full balanced one, the longest route with more or less hanging on it, and
//! drawn ones.

use crate::chance::Chance;
use crate::row::Row;
use crate::tree::{Kind, Node, Tree};

/// What hangs on the longest route, which goes from depth H up to the root and down to the sink.
#[derive(Clone, Copy, Debug, PartialEq, Eq)]
pub enum Hanging {
    /// One end node at the far end.
    Bare,
    /// All end nodes that the row allows.
    Ends,
    /// All end nodes and all child routers, these with all their end nodes.
    Routers,
}

/// A tree that grows; every node comes after its parent.
struct Builder<'a> {
    row: &'a Row,
    nodes: Vec<Node>,
    routers: Vec<u64>,
    ends: Vec<u64>,
}

impl<'a> Builder<'a> {
    fn new(row: &'a Row) -> Builder<'a> {
        let root = Node { kind: Kind::Router, depth: 0, parent: None };
        Builder { row, nodes: vec![root], routers: vec![0], ends: vec![0] }
    }

    /// Hangs a node on a router and says which number it got.
    fn hang(&mut self, kind: Kind, parent: usize) -> usize {
        let deeper = match kind {
            Kind::Router => {
                self.routers[parent] += 1;
                1
            }
            Kind::End => {
                self.ends[parent] += 1;
                0
            }
        };
        self.nodes.push(Node { kind, depth: self.nodes[parent].depth + deeper, parent: Some(parent) });
        self.routers.push(0);
        self.ends.push(0);
        self.nodes.len() - 1
    }

    /// A chain of routers from a router down to a depth; its last router.
    fn chain(&mut self, from: usize, depth: u64) -> usize {
        let mut last = from;
        while self.nodes[last].depth < depth {
            last = self.hang(Kind::Router, last);
        }
        last
    }

    /// Fills a router up with end nodes.
    fn fill_ends(&mut self, router: usize) {
        while self.ends[router] < self.row.ne {
            self.hang(Kind::End, router);
        }
    }

    /// Fills a router up with child routers, if it may have any.
    fn fill_routers(&mut self, router: usize) {
        while self.nodes[router].depth < self.row.h && self.routers[router] < self.row.nr {
            self.hang(Kind::Router, router);
        }
    }

    /// All routers there are now.
    fn all_routers(&self) -> Vec<usize> {
        (0..self.nodes.len()).filter(|node| self.nodes[*node].kind == Kind::Router).collect()
    }

    fn tree(self, sink: usize) -> Tree {
        Tree { nodes: self.nodes, sink }
    }
}

/// The full balanced tree, if it has at most `limit` nodes.
pub fn full(row: &Row, limit: usize) -> Option<Tree> {
    let mut builder = Builder::new(row);
    let sink = builder.chain(0, row.sink);
    let mut next = 0;
    while next < builder.nodes.len() && builder.nodes.len() <= limit {
        if builder.nodes[next].kind == Kind::Router {
            builder.fill_routers(next);
            builder.fill_ends(next);
        }
        next += 1;
    }
    (builder.nodes.len() <= limit).then(|| builder.tree(sink))
}

/// The longest route with the given things hanging on it, if it has at most `limit` nodes.
pub fn route(row: &Row, hanging: Hanging, limit: usize) -> Option<Tree> {
    let mut builder = Builder::new(row);
    let far = builder.chain(0, row.h);
    let sink = if row.sink == 0 { 0 } else { builder.chain(0, row.sink) };
    if hanging == Hanging::Bare {
        if row.ne > 0 {
            builder.hang(Kind::End, far);
        }
        return Some(builder.tree(sink));
    }
    if hanging == Hanging::Routers {
        for router in builder.all_routers() {
            builder.fill_routers(router);
        }
    }
    for router in builder.all_routers() {
        builder.fill_ends(router);
    }
    (builder.nodes.len() <= limit).then(|| builder.tree(sink))
}

/// A drawn tree of about `limit` nodes or fewer.
pub fn drawn(row: &Row, limit: usize, chance: &mut Chance) -> Tree {
    let mut builder = Builder::new(row);
    let sink = builder.chain(0, row.sink);
    if row.h > 0 && (row.sink == 0 || row.nr > 1) && !chance.once_in(4) {
        builder.chain(0, row.h);
    }
    let sparse = 1 + chance.up_to(3);
    let mut next = 0;
    while next < builder.nodes.len() && builder.nodes.len() < limit {
        if builder.nodes[next].kind == Kind::Router {
            hang_some(&mut builder, next, sparse, chance);
        }
        next += 1;
    }
    builder.tree(sink)
}

/// Hangs each end node and child router that is still allowed on a router, or leaves it out.
fn hang_some(builder: &mut Builder, router: usize, sparse: u64, chance: &mut Chance) {
    for _ in builder.ends[router]..builder.row.ne {
        if chance.once_in(sparse) {
            builder.hang(Kind::End, router);
        }
    }
    if builder.nodes[router].depth < builder.row.h {
        for _ in builder.routers[router]..builder.row.nr {
            if chance.once_in(sparse) {
                builder.hang(Kind::Router, router);
            }
        }
    }
}

#[cfg(test)]
mod tests {
    use super::*;
    use crate::rows;

    /// Every tree that is made lies within its row.
    #[test]
    fn within_their_rows() {
        let mut chance = Chance::new(5);
        for row in rows::planned() {
            let mut trees = vec![drawn(&row, 60, &mut chance), drawn(&row, 300, &mut chance)];
            trees.extend(full(&row, 500));
            for hanging in [Hanging::Bare, Hanging::Ends, Hanging::Routers] {
                trees.extend(route(&row, hanging, 500));
            }
            for tree in trees {
                assert_eq!(tree.check(&row), Ok(()), "row {row}");
            }
        }
    }

    /// The full tree of P1: three routers, an end node each.
    #[test]
    fn full_tree() {
        let row = Row::read("8 4 1 2 1 0 0 1 1 19 7 0");
        assert_eq!(full(&row, 6).map(|tree| tree.nodes.len()), Some(6));
        assert!(full(&row, 5).is_none());
    }
}
