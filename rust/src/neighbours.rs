//! The neighbours of one terminal.

use core::iter::FusedIterator;
use core::ops::Range;

use crate::{operations, Record, Vertex};

/// The neighbours of a terminal, in listed order, one for each wire. [`Record::neighbours`] gives it.
#[derive(Clone, Debug)]
#[must_use = "iterators are lazy and do nothing unless consumed"]
pub struct Neighbours<'a> {
    record: Record<'a>,
    /// The fields that are left, counted from 0 over the whole record.
    fields: Range<usize>,
}

impl<'a> Neighbours<'a> {
    /// The neighbours of a number that is a terminal.
    pub(crate) fn new(record: Record<'a>, v: Vertex) -> Self {
        let fields = operations::part(record.as_bytes(), record.sizes().list_len(), v);
        Neighbours { record, fields }
    }

    /// How many fields of the record stand before those that are left.
    pub(crate) fn before(&self) -> usize {
        self.fields.start
    }

    /// The terminal in a field, which has 12 bits and lies in two bytes or in three. Three are joined: the one in which
    /// it begins, the next, and the one in which it ends. Where that is the next again, its second copy is shifted out.
    fn terminal(&self, field: usize) -> Vertex {
        let bytes = self.record.as_bytes();
        let bit = self.record.sizes().fields_start() + 12 * field;
        let taken = [bit / 8, bit / 8 + 1, (bit + 11) / 8];
        let word = taken.iter().fold(0, |word, &i| word << 8 | usize::from(bytes[i]));
        Vertex((word >> (12 - bit % 8) & 0xFFF) + 1)
    }
}

impl Iterator for Neighbours<'_> {
    type Item = Vertex;

    fn next(&mut self) -> Option<Vertex> {
        self.nth(0)
    }

    fn nth(&mut self, n: usize) -> Option<Vertex> {
        self.fields.nth(n).map(|field| self.terminal(field))
    }

    fn size_hint(&self) -> (usize, Option<usize>) {
        self.fields.size_hint()
    }
}

impl DoubleEndedIterator for Neighbours<'_> {
    fn next_back(&mut self) -> Option<Vertex> {
        self.nth_back(0)
    }

    fn nth_back(&mut self, n: usize) -> Option<Vertex> {
        self.fields.nth_back(n).map(|field| self.terminal(field))
    }
}

impl ExactSizeIterator for Neighbours<'_> {}

impl FusedIterator for Neighbours<'_> {}
