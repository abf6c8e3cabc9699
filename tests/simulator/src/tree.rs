//! The tree of a run (document 01, "The tree and its loads" and "The run").

use crate::row::Row;

/// Routers and end nodes.
#[derive(Clone, Copy, Debug, PartialEq, Eq)]
pub enum Kind {
    Router,
    End,
}

/// One node. An end node has the depth of the router that it hangs on.
#[derive(Clone, Copy, Debug)]
pub struct Node {
    pub kind: Kind,
    pub depth: u64,
    pub parent: Option<usize>,
}

/// A tree: node 0 is the root, every other node comes after its parent.
#[derive(Clone, Debug)]
pub struct Tree {
    pub nodes: Vec<Node>,
    pub sink: usize,
}

/// What has links: a tree within a row, or a surveyed one.
pub trait Ways {
    /// The link of every node; the sink has none.
    fn ways(&self) -> Vec<Option<Way>>;

    /// How a node is named in a report.
    fn name(&self, node: usize) -> String {
        format!("node {node}")
    }
}

/// The link of a node: the neighbour on the way to the sink, and the plan's line for it, as the
/// line's kind and depth.
#[derive(Clone, Copy, Debug, PartialEq, Eq)]
pub struct Way {
    pub next: usize,
    pub line: (char, u64),
}

impl Ways for Tree {
    /// The line is E for an end node, D for a router with the sink below it, else U (document 01, "The
    /// run").
    fn ways(&self) -> Vec<Option<Way>> {
        let mut ways: Vec<Option<Way>> = self.nodes.iter().map(upward).collect();
        ways[self.sink] = None;
        let mut below = self.sink;
        while let Some(above) = self.nodes[below].parent {
            ways[above] = Some(Way { next: below, line: ('D', self.nodes[above].depth) });
            below = above;
        }
        ways
    }
}

impl Tree {
    /// Every end node senses; routers sense too where OWN is 1.
    pub fn senses(&self, row: &Row, node: usize) -> bool {
        self.nodes[node].kind == Kind::End || row.own == 1
    }

    /// All sensors of the tree.
    pub fn sensors(&self, row: &Row) -> Vec<usize> {
        (0..self.nodes.len()).filter(|node| self.senses(row, *node)).collect()
    }

    /// Whether the tree lies within the row; if not, why.
    pub fn check(&self, row: &Row) -> Result<(), String> {
        self.check_sink(row)?;
        let mut routers = vec![0; self.nodes.len()];
        let mut ends = vec![0; self.nodes.len()];
        for (index, node) in self.nodes.iter().enumerate() {
            let Some(parent) = node.parent else {
                if index > 0 || node.kind == Kind::End || node.depth > 0 {
                    return Err(format!("node {index} has no parent and is not a root"));
                }
                continue;
            };
            if parent >= index || self.nodes[parent].kind == Kind::End {
                return Err(format!("node {index} hangs on node {parent}"));
            }
            let (deeper, count) = match node.kind {
                Kind::Router => (1, &mut routers),
                Kind::End => (0, &mut ends),
            };
            count[parent] += 1;
            if node.depth != self.nodes[parent].depth + deeper || node.depth > row.h {
                return Err(format!("node {index} stands at depth {}", node.depth));
            }
        }
        if routers.iter().any(|count| *count > row.nr) || ends.iter().any(|count| *count > row.ne) {
            return Err("a router has too many children".into());
        }
        Ok(())
    }

    /// The sink is a router at depth SINK.
    fn check_sink(&self, row: &Row) -> Result<(), String> {
        match self.nodes.get(self.sink) {
            Some(Node { kind: Kind::Router, depth, .. }) if *depth == row.sink => Ok(()),
            _ => Err(format!("node {} is no sink at depth {}", self.sink, row.sink)),
        }
    }
}

/// The link of a node that sends to its parent.
fn upward(node: &Node) -> Option<Way> {
    let line = match node.kind {
        Kind::Router => ('U', node.depth),
        Kind::End => ('E', 0),
    };
    node.parent.map(|next| Way { next, line })
}

#[cfg(test)]
mod tests {
    use super::*;
    use crate::shapes;

    /// A root, two routers below it, the second of them the sink, an end node on the first.
    fn small() -> Tree {
        let router = |depth, parent| Node { kind: Kind::Router, depth, parent };
        let end = Node { kind: Kind::End, depth: 1, parent: Some(1) };
        Tree { nodes: vec![router(0, None), router(1, Some(0)), router(1, Some(0)), end], sink: 2 }
    }

    #[test]
    fn ways_to_the_sink() {
        let way = |next, line| Some(Way { next, line });
        assert_eq!(small().ways(), [way(2, ('D', 0)), way(0, ('U', 1)), None, way(1, ('E', 0))]);
    }

    /// Each limit of the row is checked.
    #[test]
    fn within_the_row() {
        let row = Row::read("8 4 1 2 1 0 1 1 1 19 7 0");
        assert_eq!(small().check(&row), Ok(()));
        assert!(small().check(&Row { nr: 1, ..row }).is_err());
        assert!(small().check(&Row { ne: 0, ..row }).is_err());
        assert!(small().check(&Row { h: 0, ..row }).is_err());
        assert!(small().check(&Row { sink: 0, ..row }).is_err());
        assert!(Tree { sink: 3, ..small() }.check(&row).is_err());
        assert!(Tree { sink: 4, ..small() }.check(&row).is_err());
        let mut other = small();
        other.nodes[3].depth = 0;
        assert!(other.check(&row).is_err());
        let mut other = small();
        other.nodes[2].parent = None;
        assert!(other.check(&row).is_err());
        let mut other = shapes::full(&row, 100).expect("a small tree");
        assert_eq!(other.check(&row), Ok(()));
        other.nodes.push(Node { kind: Kind::Router, depth: 1, parent: Some(0) });
        assert!(other.check(&row).is_err());
    }
}
