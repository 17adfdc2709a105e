//! A record that is accepted.

use alloc::vec;
use alloc::vec::Vec;

use crate::{operations, Index, Neighbours, Refusal, Sections, Sizes, Table, Vertex};

/// A record that [`check`](crate::check) accepts, borrowed.
#[derive(Clone, Copy, Debug, PartialEq, Eq, Hash)]
pub struct Record<'a> {
    bytes: &'a [u8],
    sizes: Sizes,
}

impl<'a> Record<'a> {
    /// Checks the bytes.
    ///
    /// # Errors
    ///
    /// Refusals 1 to 6, 8, tried in this order.
    pub fn new(bytes: &'a [u8]) -> Result<Self, Refusal> {
        operations::check(bytes)?;
        let sizes = Sizes::of(bytes).ok_or(Refusal::TooShort)?;
        Ok(Record { bytes, sizes })
    }

    /// The record's bytes.
    #[must_use]
    pub fn as_bytes(self) -> &'a [u8] {
        self.bytes
    }

    /// The numbers of terminals and wires.
    #[must_use]
    pub fn sizes(self) -> Sizes {
        self.sizes
    }

    /// The terminals, from 1 upward.
    #[must_use]
    pub fn vertices(self) -> impl DoubleEndedIterator<Item = Vertex> + ExactSizeIterator {
        (0..self.sizes.terminals()).map(|before| Vertex(before + 1))
    }

    /// Refusal 11 for a number that is no terminal.
    pub(crate) fn known(self, v: Vertex) -> Result<(), Refusal> {
        if (1..=self.sizes.terminals()).contains(&v.0) {
            Ok(())
        } else {
            Err(Refusal::NoTerminal)
        }
    }

    /// How many wires terminal `v` has.
    ///
    /// # Errors
    ///
    /// Refusal 11.
    pub fn degree(self, v: Vertex) -> Result<usize, Refusal> {
        operations::degree(self.bytes, v)
    }

    /// The neighbours of terminal `v`, in listed order: one for each of its wires, so the same one several times where
    /// several wires lead to it.
    ///
    /// A call goes through the degrees, 64 bits at a time, which takes some microseconds in the largest record; it
    /// copies nothing, and each neighbour is read from the record when it is asked for.
    ///
    /// # Errors
    ///
    /// Refusal 11.
    ///
    /// # Examples
    ///
    /// ```
    /// use celduga::{Record, Refusal, Vertex};
    ///
    /// // 1: 3; 2: 3; 3: 1 2
    /// let bytes = [0x00, 0x18, 0x00, 0x2A, 0x80, 0x04, 0x00, 0x40, 0x00, 0x00, 0x20];
    /// let record = Record::new(&bytes)?;
    /// assert!(record.neighbours(Vertex(3))?.eq([Vertex(1), Vertex(2)]));
    /// assert_eq!(record.neighbours(Vertex(3))?.next_back(), Some(Vertex(2)));
    /// assert_eq!(record.neighbours(Vertex(4)).err(), Some(Refusal::NoTerminal));
    /// # Ok::<(), Refusal>(())
    /// ```
    pub fn neighbours(self, v: Vertex) -> Result<Neighbours<'a>, Refusal> {
        self.known(v)?;
        Ok(Neighbours::new(self, v))
    }

    /// The neighbours of all terminals, block after block; [`neighbours`](fn@crate::neighbours) gives the part of one
    /// terminal.
    #[must_use]
    pub fn unpack(self) -> Vec<u16> {
        let mut list = vec![0; self.sizes.list_len()];
        operations::unpack(self.bytes, &mut list).expect("the record is accepted, and the list has its length");
        list
    }

    /// How many wires the search forest leaves out, from any start: m − n plus the number of looms, for n terminals and
    /// m wires. A loom is a class of joined terminals; a terminal without wires is one too.
    ///
    /// It is 0 where no wires close a loop, and at most 16,383.
    ///
    /// # Examples
    ///
    /// ```
    /// use celduga::{Record, Refusal};
    ///
    /// // 1: 2 3; 2: 1 3; 3: 1 2 4; 4: 3
    /// let bytes = [
    ///     0x00, 0x20, 0x00, 0x49, 0x22, 0x00, 0x10, 0x02, 0x00, 0x00, 0x02, 0x00, 0x00, 0x01, 0x00, 0x30, 0x02,
    /// ];
    /// let record = Record::new(&bytes)?;
    /// let roots = record.table().rows().filter(|row| row.parent.is_none()).count();
    /// assert_eq!(record.loop_figure(), 1);
    /// assert_eq!(record.loop_figure() + record.sizes().terminals(), record.sizes().wires() + roots);
    /// # Ok::<(), Refusal>(())
    /// ```
    #[must_use]
    pub fn loop_figure(self) -> usize {
        operations::loop_figure(self.bytes).expect("the record is accepted")
    }

    /// The start of [`index`](Record::index) and [`table`](Record::table): 1, or 0 where there is no terminal.
    fn first(self) -> Vertex {
        Vertex(self.sizes.terminals().min(1))
    }

    /// Builds the index of the search that begins at terminal 1.
    #[must_use]
    pub fn index(self) -> Index<'a> {
        self.index_from(self.first()).expect("the record has this start")
    }

    /// Builds the index of the search that begins at the terminal `start` and then takes the unvisited terminals from 1
    /// upward. The start is a root and has visit number 1. Which terminals share a head is the same for every start.
    ///
    /// # Errors
    ///
    /// Refusal 14: the start is no terminal of the record or, where it has none, is not 0.
    ///
    /// # Examples
    ///
    /// ```
    /// use celduga::{Dfi, Record, Refusal, Vertex};
    ///
    /// // 1: 3; 2: 3; 3: 1 2
    /// let bytes = [0x00, 0x18, 0x00, 0x2A, 0x80, 0x04, 0x00, 0x40, 0x00, 0x00, 0x20];
    /// let record = Record::new(&bytes)?;
    /// let index = record.index_from(Vertex(2))?;
    /// assert_eq!(index.visited(Dfi(1))?, Vertex(2));
    /// assert_eq!(index.parent(Vertex(1))?, Some(Vertex(3)));
    /// assert_eq!(record.index_from(Vertex(4)), Err(Refusal::NoStart));
    /// assert_eq!(record.index_from(Vertex(1))?, record.index());
    /// # Ok::<(), Refusal>(())
    /// ```
    pub fn index_from(self, start: Vertex) -> Result<Index<'a>, Refusal> {
        Index::build(self, start)
    }

    /// Finds the visit number, the parent, the number of children and the head of every terminal, in linear time, for
    /// the search that begins at terminal 1.
    ///
    /// # Examples
    ///
    /// ```
    /// use celduga::{Dfi, Record, Refusal};
    ///
    /// // 1: 3; 2: 3; 3: 1 2
    /// let bytes = [0x00, 0x18, 0x00, 0x2A, 0x80, 0x04, 0x00, 0x40, 0x00, 0x00, 0x20];
    /// let table = Record::new(&bytes)?.table();
    /// let visits: Vec<Dfi> = table.rows().map(|row| row.visit).collect();
    /// assert_eq!(visits, [Dfi(1), Dfi(3), Dfi(2)]);
    /// # Ok::<(), Refusal>(())
    /// ```
    #[must_use]
    pub fn table(self) -> Table {
        self.table_from(self.first()).expect("the record has this start")
    }

    /// The same for the search that begins at the terminal `start`, as [`index_from`](Record::index_from) does.
    ///
    /// # Errors
    ///
    /// Refusal 14.
    ///
    /// # Examples
    ///
    /// ```
    /// use celduga::{Dfi, Record, Refusal, Vertex};
    ///
    /// // 1: 3; 2: 3; 3: 1 2
    /// let bytes = [0x00, 0x18, 0x00, 0x2A, 0x80, 0x04, 0x00, 0x40, 0x00, 0x00, 0x20];
    /// let table = Record::new(&bytes)?.table_from(Vertex(3))?;
    /// let visits: Vec<Dfi> = table.rows().map(|row| row.visit).collect();
    /// assert_eq!(visits, [Dfi(2), Dfi(3), Dfi(1)]);
    /// # Ok::<(), Refusal>(())
    /// ```
    pub fn table_from(self, start: Vertex) -> Result<Table, Refusal> {
        Table::of(self, start)
    }

    /// The sections: the classes of terminals that stay joined whichever one wire is taken out, in order of the least
    /// terminal of each. Each terminal is in one section, and there are as many sections as looms and bridges together.
    /// This is [`Table::sections`], and takes linear time. The terminals of each are the same for every start of the
    /// search; the heads are those of [`table`](Record::table).
    ///
    /// # Examples
    ///
    /// ```
    /// use celduga::{Record, Refusal, Vertex};
    ///
    /// // 1: 2 3; 2: 1 3; 3: 1 2 4; 4: 3
    /// let bytes =
    ///     [0x00, 0x20, 0x00, 0x49, 0x22, 0x00, 0x10, 0x02, 0x00, 0x00, 0x02, 0x00, 0x00, 0x01, 0x00, 0x30, 0x02];
    /// let record = Record::new(&bytes)?;
    /// // one loom, and one bridge
    /// assert_eq!(record.sections().len(), 2);
    /// let terminals: Vec<Vec<Vertex>> = record.sections().map(|section| section.terminals).collect();
    /// assert_eq!(terminals, [vec![Vertex(1), Vertex(2), Vertex(3)], vec![Vertex(4)]]);
    /// # Ok::<(), Refusal>(())
    /// ```
    pub fn sections(self) -> Sections {
        self.table().sections()
    }
}
