//! The numbers in a record's header, the lengths that follow from them, and those that are fixed.

/// The terminals that the list of [`lookup`](crate::lookup) and of [`Index::lookup`](crate::Index::lookup) has at most.
pub const MAX_LOOKUP_LEN: usize = 512;

/// The terminals that a record has at most.
pub(crate) const MAX_TERMINALS: usize = 4096;

/// The neighbours that the blocks of a record have at most, all together.
pub(crate) const MAX_LIST_LEN: usize = 32768;

/// The numbers of terminals and wires in a record's header, n and m, and the lengths that they give.
///
/// # Examples
///
/// ```
/// let sizes = celduga::Sizes::of(&[0x00, 0x30, 0x00, 0x59]).expect("4 bytes");
/// assert_eq!((sizes.terminals(), sizes.wires()), (6, 5));
/// assert_eq!((sizes.record_len(), sizes.index_len()), (21, 15));
/// ```
#[derive(Clone, Copy, Debug, PartialEq, Eq, Hash)]
pub struct Sizes {
    terminals: u16,
    wires: u16,
}

impl Sizes {
    /// The sizes that the first 4 bytes of a record hold, also where they are over the limits; `None` where there are
    /// fewer bytes.
    #[must_use]
    pub fn of(record: &[u8]) -> Option<Sizes> {
        let header = u32::from_be_bytes(record.get(..4)?.try_into().ok()?);
        Some(Sizes {
            terminals: (header >> 19) as u16,
            wires: (header >> 4 & 0x7FFF) as u16,
        })
    }

    /// The sizes of a record with so many degrees and neighbours; `None` where none has them.
    pub(crate) fn of_lists(degrees: usize, neighbours: usize) -> Option<Sizes> {
        let within = degrees <= MAX_TERMINALS && neighbours <= MAX_LIST_LEN && neighbours % 2 == 0;
        within.then_some(Sizes {
            terminals: degrees as u16,
            wires: (neighbours / 2) as u16,
        })
    }

    /// n, the number of terminals.
    #[must_use]
    pub fn terminals(self) -> usize {
        self.terminals.into()
    }

    /// m, the number of wires.
    #[must_use]
    pub fn wires(self) -> usize {
        self.wires.into()
    }

    /// The bit, from 0, at which the record's fields begin: behind n, m and the degrees in unary.
    pub(crate) fn fields_start(self) -> usize {
        28 + self.terminals() + 2 * self.wires()
    }

    /// The bytes of the record.
    #[must_use]
    pub fn record_len(self) -> usize {
        (self.fields_start() + 12 * self.list_len()).div_ceil(8)
    }

    /// The bytes of its index: three sections of marks, and the visit numbers.
    #[must_use]
    pub fn index_len(self) -> usize {
        3 * (self.terminals() + 2 * self.wires()).div_ceil(8) + (12 * self.terminals()).div_ceil(8)
    }

    /// The numbers that the work slice of [`build`](crate::build) and of [`table`](fn@crate::table) has at least.
    #[must_use]
    pub fn work_len(self) -> usize {
        8 * self.terminals()
    }

    /// The numbers of the list of [`unpack`](crate::unpack), and of the neighbours of
    /// [`file`](fn@crate::file).
    #[must_use]
    pub fn list_len(self) -> usize {
        2 * self.wires()
    }
}
