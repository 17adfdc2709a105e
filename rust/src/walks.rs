//! Ways through the forest: down to the children of a terminal, and up to its root.

use core::iter::FusedIterator;

use crate::{operations, Index, Neighbours, Refusal, Vertex};

/// The children of a terminal, in order of visits. [`Index::children_of`] gives it.
#[derive(Clone, Debug)]
#[must_use = "iterators are lazy and do nothing unless consumed"]
pub struct ChildrenOf<'a> {
    /// The neighbours that are left, of which those with a mark in E are children.
    neighbours: Neighbours<'a>,
    index: &'a [u8],
    v: Vertex,
    /// The children that are left.
    left: usize,
}

impl<'a> ChildrenOf<'a> {
    pub(crate) fn new(index: &'a Index<'_>, v: Vertex) -> Result<Self, Refusal> {
        Ok(ChildrenOf {
            left: index.children(v)?,
            neighbours: Neighbours::new(index.record(), v),
            index: index.as_bytes(),
            v,
        })
    }

    /// How many of the neighbours that are left stand before the `j`-th of the children that are left, from 1.
    fn before(&self, j: usize) -> usize {
        // E is the index's first section; it has a place for each terminal, which is followed by those of its
        // neighbours
        let start = self.v.0 + self.neighbours.before();
        operations::select(self.index, start, self.neighbours.len(), j) - 1
    }
}

impl Iterator for ChildrenOf<'_> {
    type Item = Vertex;

    fn next(&mut self) -> Option<Vertex> {
        self.left = self.left.checked_sub(1)?;
        self.neighbours.nth(self.before(1))
    }

    fn size_hint(&self) -> (usize, Option<usize>) {
        (self.left, Some(self.left))
    }
}

impl DoubleEndedIterator for ChildrenOf<'_> {
    fn next_back(&mut self) -> Option<Vertex> {
        let last = self.left;
        self.left = last.checked_sub(1)?;
        let after = self.neighbours.len() - 1 - self.before(last);
        self.neighbours.nth_back(after)
    }
}

impl ExactSizeIterator for ChildrenOf<'_> {}

impl FusedIterator for ChildrenOf<'_> {}

/// The terminals from one up to its root. [`Index::path_to_root`] gives it.
#[derive(Clone, Debug)]
#[must_use = "iterators are lazy and do nothing unless consumed"]
pub struct PathToRoot<'a> {
    index: &'a Index<'a>,
    next: Next,
    /// The steps up that a forest may have yet.
    steps: usize,
}

/// What comes next.
#[derive(Clone, Copy, Debug)]
enum Next {
    First(Vertex),
    Above(Vertex),
    Nothing,
}

impl<'a> PathToRoot<'a> {
    pub(crate) fn new(index: &'a Index<'_>, v: Vertex) -> Result<Self, Refusal> {
        let record = index.record();
        record.known(v)?;
        Ok(PathToRoot {
            index,
            next: Next::First(v),
            steps: record.sizes().terminals() - 1,
        })
    }

    /// The terminal above this one, `None` past a root.
    fn above(&mut self, v: Vertex) -> Option<Result<Vertex, Refusal>> {
        let parent = self.index.parent(v).transpose()?;
        Some(parent.and_then(|parent| {
            self.steps = self.steps.checked_sub(1).ok_or(Refusal::BadIndex)?;
            Ok(parent)
        }))
    }
}

impl Iterator for PathToRoot<'_> {
    type Item = Result<Vertex, Refusal>;

    fn next(&mut self) -> Option<Result<Vertex, Refusal>> {
        let found = match self.next {
            Next::First(v) => Some(Ok(v)),
            Next::Above(v) => self.above(v),
            Next::Nothing => None,
        };
        self.next = match found {
            Some(Ok(v)) => Next::Above(v),
            _ => Next::Nothing,
        };
        found
    }
}

impl FusedIterator for PathToRoot<'_> {}
