//! An index beside its record.

use alloc::borrow::Cow;
use alloc::vec;
use alloc::vec::Vec;

use crate::{operations, ChildrenOf, Dfi, PathToRoot, Record, Refusal, Vertex};

/// A record and an index of the right length, which is owned or borrowed.
///
/// On the index that was built for the record, a query refuses 11 alone, [`child`](Index::child) 13 too, and
/// [`lookup`](Index::lookup) 15 too; on another it may refuse 12. The index of another record of the same sizes is not
/// noticed.
#[derive(Clone, Debug, PartialEq, Eq, Hash)]
pub struct Index<'a> {
    record: Record<'a>,
    bytes: Cow<'a, [u8]>,
}

impl<'a> Index<'a> {
    /// Takes stored bytes as the record's index.
    ///
    /// # Errors
    ///
    /// Refusal 10.
    ///
    /// # Examples
    ///
    /// ```
    /// use celduga::{Index, Record, Refusal};
    ///
    /// let terminal = Record::new(&[0x00, 0x08, 0x00, 0x08])?;
    /// assert_eq!(Index::new(terminal, &[0; 5])?, terminal.index());
    /// assert_eq!(Index::new(terminal, &[0; 4]), Err(Refusal::WrongBuffer));
    /// # Ok::<(), Refusal>(())
    /// ```
    pub fn new(record: Record<'a>, bytes: impl Into<Cow<'a, [u8]>>) -> Result<Self, Refusal> {
        let bytes = bytes.into();
        if bytes.len() == record.sizes().index_len() {
            Ok(Index { record, bytes })
        } else {
            Err(Refusal::WrongBuffer)
        }
    }

    /// Builds the record's index. The record is accepted and the slices have its lengths, so 14 alone may be refused.
    pub(crate) fn build(record: Record<'a>, start: Vertex) -> Result<Self, Refusal> {
        let mut work = vec![0; record.sizes().work_len()];
        let mut bytes = vec![0; record.sizes().index_len()];
        operations::build(record.as_bytes(), start, &mut work, &mut bytes)?;
        Ok(Index {
            record,
            bytes: bytes.into(),
        })
    }

    /// The record.
    #[must_use]
    pub fn record(&self) -> Record<'a> {
        self.record
    }

    /// The index's bytes.
    #[must_use]
    pub fn as_bytes(&self) -> &[u8] {
        &self.bytes
    }

    /// The index's bytes, copied where they are borrowed.
    #[must_use]
    pub fn into_bytes(self) -> Vec<u8> {
        self.bytes.into_owned()
    }

    /// The parent of terminal `v` in the forest, `None` for a root.
    ///
    /// # Errors
    ///
    /// Refusals 11, 12, tried in this order.
    pub fn parent(&self, v: Vertex) -> Result<Option<Vertex>, Refusal> {
        operations::parent(self.record.as_bytes(), &self.bytes, v)
    }

    /// The head of terminal `v`: the first terminal, from `v` upward, that is a root or whose wire to its parent is a
    /// bridge. On a built index two terminals have one head exactly when they are joined and stay so whichever one wire
    /// is taken out.
    ///
    /// # Errors
    ///
    /// Refusals 11, 12, tried in this order.
    pub fn head(&self, v: Vertex) -> Result<Vertex, Refusal> {
        operations::head(self.record.as_bytes(), &self.bytes, v)
    }

    /// Whether `u` is `v` or stands above it.
    ///
    /// # Errors
    ///
    /// Refusals 11 for `u`, 11 for `v`, 12, tried in this order.
    pub fn ancestor(&self, u: Vertex, v: Vertex) -> Result<bool, Refusal> {
        operations::ancestor(self.record.as_bytes(), &self.bytes, u, v)
    }

    /// How many children terminal `v` has; [`children_of`](Index::children_of) gives them.
    ///
    /// # Errors
    ///
    /// Refusal 11.
    pub fn children(&self, v: Vertex) -> Result<usize, Refusal> {
        operations::children(self.record.as_bytes(), &self.bytes, v)
    }

    /// The `j`-th child of terminal `v`, from 1 in order of visits.
    ///
    /// # Errors
    ///
    /// Refusals 11, 13, 12, tried in this order.
    pub fn child(&self, v: Vertex, j: usize) -> Result<Vertex, Refusal> {
        operations::child(self.record.as_bytes(), &self.bytes, v, j)
    }

    /// The children of terminal `v`, in order of visits: [`child`](Index::child) 1, 2 and so on. All of them together
    /// take time linear in the record's bits.
    ///
    /// # Errors
    ///
    /// Refusal 11.
    ///
    /// # Examples
    ///
    /// ```
    /// use celduga::{Record, Refusal, Vertex};
    ///
    /// // 1: 3; 2: 3; 3: 1 2 4; 4: 3
    /// let bytes = [0x00, 0x20, 0x00, 0x3A, 0x88, 0x00, 0x80, 0x08, 0x00, 0x00, 0x04, 0x00, 0xC0, 0x08];
    /// let index = Record::new(&bytes)?.index();
    /// assert!(index.children_of(Vertex(1))?.eq([Vertex(3)]));
    /// assert!(index.children_of(Vertex(3))?.eq([Vertex(2), Vertex(4)]));
    /// assert_eq!(index.children_of(Vertex(4))?.len(), 0);
    /// # Ok::<(), Refusal>(())
    /// ```
    pub fn children_of(&self, v: Vertex) -> Result<ChildrenOf<'_>, Refusal> {
        ChildrenOf::new(self, v)
    }

    /// The terminals from `v` up to its root, both included.
    ///
    /// Each step is a call of [`parent`](Index::parent). Where that refuses 12, or where a step is due after n − 1 of
    /// them, for n terminals, as on an index that goes round, the refusal 12 is the last item. The index that was built
    /// for the record gives none.
    ///
    /// # Errors
    ///
    /// Refusal 11.
    ///
    /// # Examples
    ///
    /// ```
    /// use celduga::{Index, Record, Refusal, Vertex};
    ///
    /// // 1: 3; 2: 3; 3: 1 2
    /// let bytes = [0x00, 0x18, 0x00, 0x2A, 0x80, 0x04, 0x00, 0x40, 0x00, 0x00, 0x20];
    /// let record = Record::new(&bytes)?;
    /// let path: Vec<Vertex> = record.index().path_to_root(Vertex(2))?.collect::<Result<_, _>>()?;
    /// assert_eq!(path, [Vertex(2), Vertex(3), Vertex(1)]);
    ///
    /// // an index that shows two parents of terminal 3
    /// let damaged = Index::new(record, &[0, 0b0001_0110, 0, 0, 0, 0, 0, 0])?;
    /// let path: Vec<_> = damaged.path_to_root(Vertex(2))?.collect();
    /// assert_eq!(path, [Ok(Vertex(2)), Ok(Vertex(3)), Err(Refusal::BadIndex)]);
    /// # Ok::<(), Refusal>(())
    /// ```
    pub fn path_to_root(&self, v: Vertex) -> Result<PathToRoot<'_>, Refusal> {
        PathToRoot::new(self, v)
    }

    /// The visit number of terminal `v`.
    ///
    /// # Errors
    ///
    /// Refusals 11, 12, tried in this order.
    pub fn visit(&self, v: Vertex) -> Result<Dfi, Refusal> {
        operations::visit(self.record.as_bytes(), &self.bytes, v)
    }

    /// The lowest terminal with visit number `i`.
    ///
    /// # Errors
    ///
    /// Refusals 11, 12, tried in this order.
    pub fn visited(&self, i: Dfi) -> Result<Vertex, Refusal> {
        operations::visited(self.record.as_bytes(), &self.bytes, i)
    }

    /// The heads and the visit numbers of at most [`MAX_LOOKUP_LEN`](crate::MAX_LOOKUP_LEN) terminals, in list order:
    /// what [`head`](Index::head) and [`visit`](Index::visit) answer for each, in one call that finds the blocks once.
    ///
    /// # Errors
    ///
    /// Refusal 15 where the list is longer; then the first 11 or 12 that is met in list order.
    ///
    /// # Examples
    ///
    /// ```
    /// use celduga::{Dfi, Record, Refusal, Vertex};
    ///
    /// // 1: 3; 2: 3; 3: 1 2
    /// let bytes = [0x00, 0x18, 0x00, 0x2A, 0x80, 0x04, 0x00, 0x40, 0x00, 0x00, 0x20];
    /// let index = Record::new(&bytes)?.index();
    /// let found = index.lookup(&[Vertex(3), Vertex(2)])?;
    /// assert_eq!(found, [(Vertex(3), Dfi(2)), (Vertex(2), Dfi(3))]);
    /// assert_eq!(index.lookup(&[Vertex(3), Vertex(4)]), Err(Refusal::NoTerminal));
    /// assert_eq!(index.lookup(&[Vertex(1); 513]), Err(Refusal::BadList));
    /// # Ok::<(), Refusal>(())
    /// ```
    pub fn lookup(&self, list: &[Vertex]) -> Result<Vec<(Vertex, Dfi)>, Refusal> {
        // a number past 16 bits is no terminal, and neither is 0
        let list: Vec<u16> = list.iter().map(|v| v.0.try_into().unwrap_or(0)).collect();
        let (mut heads, mut visits) = (vec![0; list.len()], vec![0; list.len()]);
        operations::lookup(self.record.as_bytes(), &self.bytes, &list, &mut heads, &mut visits)?;
        let pair = |(head, visit): (u16, u16)| (Vertex(head.into()), Dfi(visit.into()));
        Ok(heads.into_iter().zip(visits).map(pair).collect())
    }
}
