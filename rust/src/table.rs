//! The answers for all terminals at once, and the sections that they make.

use alloc::vec;
use alloc::vec::Vec;
use core::iter::FusedIterator;

use crate::{operations, Dfi, Record, Refusal, Vertex};

/// What [`Index`](crate::Index) answers for every terminal of a record, found at once. [`Record::table`] and
/// [`Record::table_from`] give it.
///
/// It owns its numbers and outlives the record.
///
/// # Examples
///
/// ```
/// use celduga::{Dfi, Record, Refusal, Vertex};
///
/// // 1: 3; 2: 3; 3: 1 2
/// let bytes = [0x00, 0x18, 0x00, 0x2A, 0x80, 0x04, 0x00, 0x40, 0x00, 0x00, 0x20];
/// let table = Record::new(&bytes)?.table();
/// assert_eq!(table.visit(Vertex(3))?, Dfi(2));
/// assert_eq!(table.parent(Vertex(2))?, Some(Vertex(3)));
/// assert_eq!(table.children(Vertex(3))?, 1);
/// assert_eq!(table.head(Vertex(2))?, Vertex(2));
/// assert_eq!(table.head(Vertex(4)), Err(Refusal::NoTerminal));
/// # Ok::<(), Refusal>(())
/// ```
#[derive(Clone, Debug, PartialEq, Eq, Hash)]
pub struct Table {
    visits: Vec<u16>,
    /// 0 for a root.
    parents: Vec<u16>,
    children: Vec<u16>,
    heads: Vec<u16>,
}

/// A row of a [`Table`]: the answers for one terminal.
#[derive(Clone, Copy, Debug, PartialEq, Eq, Hash)]
pub struct Row {
    /// The terminal.
    pub terminal: Vertex,
    /// Its visit number.
    pub visit: Dfi,
    /// Its parent in the forest, `None` for a root.
    pub parent: Option<Vertex>,
    /// How many children it has.
    pub children: usize,
    /// Its head: the first terminal, from it upward, that is a root or whose wire to its parent is a bridge.
    pub head: Vertex,
}

/// A class of terminals that stay joined whichever one wire is taken out (a 2-edge-connected component): the terminals
/// with one head.
#[derive(Clone, Debug, PartialEq, Eq, Hash)]
pub struct Section {
    /// The head of each of the terminals, which is one of them.
    pub head: Vertex,
    /// The terminals, in rising order.
    pub terminals: Vec<Vertex>,
}

/// The sections of a record, in order of the least terminal of each. [`Record::sections`] and [`Table::sections`] give
/// it.
#[derive(Clone, Debug)]
#[must_use = "iterators are lazy and do nothing unless consumed"]
pub struct Sections(vec::IntoIter<Section>);

impl Iterator for Sections {
    type Item = Section;

    fn next(&mut self) -> Option<Section> {
        self.0.next()
    }

    fn size_hint(&self) -> (usize, Option<usize>) {
        self.0.size_hint()
    }
}

impl DoubleEndedIterator for Sections {
    fn next_back(&mut self) -> Option<Section> {
        self.0.next_back()
    }
}

impl ExactSizeIterator for Sections {}

impl FusedIterator for Sections {}

impl Table {
    /// The record's table. The record is accepted and the slices have its lengths, so 14 alone may be refused.
    pub(crate) fn of(record: Record<'_>, start: Vertex) -> Result<Self, Refusal> {
        let sizes = record.sizes();
        let list = vec![0; sizes.terminals()];
        let mut table = Table {
            visits: list.clone(),
            parents: list.clone(),
            children: list.clone(),
            heads: list,
        };
        operations::table(
            record.as_bytes(),
            start,
            &mut vec![0; sizes.work_len()],
            &mut table.visits,
            &mut table.parents,
            &mut table.children,
            &mut table.heads,
        )?;
        Ok(table)
    }

    /// The answers for terminal `v`.
    ///
    /// # Errors
    ///
    /// Refusal 11.
    pub fn row(&self, v: Vertex) -> Result<Row, Refusal> {
        if (1..=self.heads.len()).contains(&v.0) {
            Ok(self.row_at(v.0 - 1))
        } else {
            Err(Refusal::NoTerminal)
        }
    }

    /// The answers for all terminals, from 1 upward.
    ///
    /// # Examples
    ///
    /// ```
    /// use celduga::{Record, Refusal, Vertex};
    ///
    /// // 1: 3; 2: 3; 3: 1 2
    /// let bytes = [0x00, 0x18, 0x00, 0x2A, 0x80, 0x04, 0x00, 0x40, 0x00, 0x00, 0x20];
    /// let table = Record::new(&bytes)?.table();
    /// let leaves: Vec<Vertex> = table.rows().filter(|row| row.children == 0).map(|row| row.terminal).collect();
    /// assert_eq!(leaves, [Vertex(2)]);
    /// # Ok::<(), Refusal>(())
    /// ```
    #[must_use]
    pub fn rows(&self) -> impl DoubleEndedIterator<Item = Row> + ExactSizeIterator + '_ {
        (0..self.heads.len()).map(|before| self.row_at(before))
    }

    fn row_at(&self, before: usize) -> Row {
        let vertex = |number: u16| Vertex(number.into());
        let parent = self.parents[before];
        Row {
            terminal: Vertex(before + 1),
            visit: Dfi(self.visits[before].into()),
            parent: (parent != 0).then(|| vertex(parent)),
            children: self.children[before].into(),
            head: vertex(self.heads[before]),
        }
    }

    /// The visit number of terminal `v`.
    ///
    /// # Errors
    ///
    /// Refusal 11.
    pub fn visit(&self, v: Vertex) -> Result<Dfi, Refusal> {
        self.row(v).map(|row| row.visit)
    }

    /// The parent of terminal `v` in the forest, `None` for a root.
    ///
    /// # Errors
    ///
    /// Refusal 11.
    pub fn parent(&self, v: Vertex) -> Result<Option<Vertex>, Refusal> {
        self.row(v).map(|row| row.parent)
    }

    /// How many children terminal `v` has.
    ///
    /// # Errors
    ///
    /// Refusal 11.
    pub fn children(&self, v: Vertex) -> Result<usize, Refusal> {
        self.row(v).map(|row| row.children)
    }

    /// The head of terminal `v`: the first terminal, from `v` upward, that is a root or whose wire to its parent is a
    /// bridge. Two terminals have one head exactly when they are joined and stay so whichever one wire is taken out.
    ///
    /// # Errors
    ///
    /// Refusal 11.
    pub fn head(&self, v: Vertex) -> Result<Vertex, Refusal> {
        self.row(v).map(|row| row.head)
    }

    /// The sections: the terminals by their heads, in order of the least terminal of each. Each terminal is in one
    /// section, and there are as many sections as roots and bridges together. It takes time linear in the number of
    /// terminals.
    ///
    /// # Examples
    ///
    /// ```
    /// use celduga::{Record, Refusal, Section, Vertex};
    ///
    /// // 1: 3; 2: 3; 3: 1 2
    /// let bytes = [0x00, 0x18, 0x00, 0x2A, 0x80, 0x04, 0x00, 0x40, 0x00, 0x00, 0x20];
    /// let mut sections = Record::new(&bytes)?.table().sections();
    /// // both wires are bridges
    /// assert_eq!(sections.len(), 3);
    /// assert_eq!(sections.next(), Some(Section { head: Vertex(1), terminals: vec![Vertex(1)] }));
    /// # Ok::<(), Refusal>(())
    /// ```
    pub fn sections(&self) -> Sections {
        let mut sections: Vec<Section> = Vec::new();
        // for each terminal, how many sections stand before the one that it heads
        let mut before = vec![None; self.heads.len()];
        for row in self.rows() {
            let at = *before[row.head.0 - 1].get_or_insert(sections.len());
            if at == sections.len() {
                sections.push(Section {
                    head: row.head,
                    terminals: Vec::new(),
                });
            }
            sections[at].terminals.push(row.terminal);
        }
        Sections(sections.into_iter())
    }
}
