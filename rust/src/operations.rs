//! The operations, one function each, for all bytes.

use alloc::vec;
use alloc::vec::Vec;
use core::ops::Range;

use crate::sizes::{MAX_LIST_LEN, MAX_TERMINALS};
use crate::{ffi, Dfi, Refusal, Sizes, Vertex};

fn vertex(number: u16) -> Vertex {
    Vertex(number.into())
}

/// Accepts a record.
///
/// # Errors
///
/// Refusals 1 to 6, 8, tried in this order.
///
/// # Examples
///
/// ```
/// use celduga::{check, Refusal};
///
/// assert_eq!(check(&[0, 0, 0, 0]), Ok(()));
/// assert_eq!(check(&[0, 0, 0]), Err(Refusal::TooShort));
/// ```
pub fn check(record: &[u8]) -> Result<(), Refusal> {
    ffi::check(record).map(drop)
}

/// How many wires terminal `v` has.
///
/// # Errors
///
/// Refusals 1 to 4, 11, tried in this order.
pub fn degree(record: &[u8], v: Vertex) -> Result<usize, Refusal> {
    ffi::degree(record, v.0).map(usize::from)
}

/// Writes the neighbours of all terminals to the list, block after block; the list has
/// [`Sizes::list_len`](crate::Sizes::list_len) numbers.
///
/// # Errors
///
/// Refusals 1 to 6, 8, 10, tried in this order.
pub fn unpack(record: &[u8], list: &mut [u16]) -> Result<(), Refusal> {
    ffi::unpack(record, list).map(drop)
}

/// The record with these degrees, one for each terminal from 1 on, and these neighbours, block after block as
/// [`unpack`] gives them. A record that is unpacked is filed again with its own bytes.
///
/// The buffer has the record's length always, so 17 is never refused.
///
/// # Errors
///
/// Refusals 16, 6, 8, tried in this order. 6 is also given where a neighbour is 0 or above the number of degrees.
///
/// # Examples
///
/// ```
/// use celduga::{file, Refusal};
///
/// // 1: 2; 2: 1 3; 3: 2
/// let path = file(&[1, 2, 1], &[2, 1, 3, 2])?;
/// assert_eq!(path, [0x00, 0x18, 0x00, 0x2A, 0x40, 0x02, 0x00, 0x00, 0x04, 0x00, 0x20]);
/// assert_eq!(file(&[1, 2, 1], &[2, 1, 3]), Err(Refusal::BadLists));
/// assert_eq!(file(&[1, 2, 1], &[2, 1, 4, 2]), Err(Refusal::StrayNeighbour));
/// assert_eq!(file(&[1, 2, 1], &[2, 1, 1, 2]), Err(Refusal::OneSidedWire));
/// # Ok::<(), Refusal>(())
/// ```
pub fn file(degrees: &[u16], neighbours: &[u16]) -> Result<Vec<u8>, Refusal> {
    // lists of other lengths are refused, whatever the buffer is
    let len = Sizes::of_lists(degrees.len(), neighbours.len()).map_or(0, Sizes::record_len);
    let mut record = vec![0; len];
    ffi::file(degrees, neighbours, &mut record)?;
    Ok(record)
}

/// The record with these adjacency lists: the neighbours of each terminal, from terminal 1 on. It is
/// [`file`](fn@file) with their lengths and with all of them in a row.
///
/// # Errors
///
/// Refusals 16, 6, 8, tried in this order. 16 is given for more than 4,096 lists, and for an odd number of neighbours
/// or more than 32,768.
///
/// # Examples
///
/// ```
/// use celduga::{file_lists, Record, Refusal, Vertex};
///
/// let path = file_lists(&[vec![2], vec![1, 3], vec![2]])?;
/// assert!(Record::new(&path)?.neighbours(Vertex(2))?.eq([Vertex(1), Vertex(3)]));
/// assert_eq!(file_lists(&[vec![2], vec![1, 3]]), Err(Refusal::BadLists));
/// assert_eq!(file_lists(&[[2], [2]]), Err(Refusal::StrayNeighbour));
/// # Ok::<(), Refusal>(())
/// ```
pub fn file_lists<L: AsRef<[u16]>>(lists: &[L]) -> Result<Vec<u8>, Refusal> {
    if lists.len() > MAX_TERMINALS {
        return Err(Refusal::BadLists);
    }
    let mut degrees = Vec::with_capacity(lists.len());
    let mut neighbours = Vec::new();
    for list in lists {
        let list = list.as_ref();
        // never negative: no more than MAX_LIST_LEN are taken
        if list.len() > MAX_LIST_LEN - neighbours.len() {
            return Err(Refusal::BadLists);
        }
        degrees.push(list.len() as u16);
        neighbours.extend_from_slice(list);
    }
    file(&degrees, &neighbours)
}

/// Where the neighbours of terminal `v` stand in a list of so many numbers that [`unpack`] filled.
pub(crate) fn part(record: &[u8], list_len: usize, v: Vertex) -> Range<usize> {
    ffi::neighbours(record, list_len, v.0)
}

/// The neighbours of terminal `v`: its part of a list that [`unpack`] filled from the record.
///
/// Where [`degree`] refuses, or the list has not [`Sizes::list_len`](crate::Sizes::list_len) numbers, this is the empty
/// part at the front. [`Record::neighbours`](crate::Record::neighbours) needs no list.
///
/// # Examples
///
/// ```
/// use celduga::{neighbours, unpack, Refusal, Vertex};
///
/// // 1: 2; 2: 1 3; 3: 2
/// let path = [0x00, 0x18, 0x00, 0x2A, 0x40, 0x02, 0x00, 0x00, 0x04, 0x00, 0x20];
/// let mut list = [0; 4];
/// unpack(&path, &mut list)?;
/// assert_eq!(neighbours(&path, &list, Vertex(2)), [1, 3]);
/// assert_eq!(neighbours(&path, &list, Vertex(4)), []);
/// # Ok::<(), Refusal>(())
/// ```
#[must_use]
pub fn neighbours<'a>(record: &[u8], list: &'a [u16], v: Vertex) -> &'a [u16] {
    &list[part(record, list.len(), v)]
}

/// How many wires the search forest leaves out, from any start: m − n plus the number of looms, for n terminals and m
/// wires. A loom is a class of joined terminals; a terminal without wires is one too.
///
/// It is 0 where no wires close a loop, and at most 16,383.
///
/// # Errors
///
/// Refusals 1 to 6, 8, tried in this order.
///
/// # Examples
///
/// ```
/// use celduga::{loop_figure, Refusal};
///
/// // 1: 2 2; 2: 1 1
/// let doubled = [0x00, 0x10, 0x00, 0x29, 0x00, 0x04, 0x00, 0x40, 0x00, 0x00, 0x00];
/// assert_eq!(loop_figure(&doubled), Ok(1));
/// assert_eq!(loop_figure(&[0, 0, 0, 0]), Ok(0));
/// assert_eq!(loop_figure(&[0, 0, 0]), Err(Refusal::TooShort));
/// ```
pub fn loop_figure(record: &[u8]) -> Result<usize, Refusal> {
    ffi::loop_figure(record).map(usize::from)
}

/// Writes the record's index, of [`Sizes::index_len`](crate::Sizes::index_len) bytes. The work slice has
/// [`Sizes::work_len`](crate::Sizes::work_len) numbers or more, and may hold anything before and after the call.
///
/// The search begins at the terminal `start`, which so is a root and has visit number 1, and then takes the unvisited
/// terminals from 1 upward. A record without terminals takes 0 only. Which terminals share a head is the same for every
/// start.
///
/// # Errors
///
/// Refusals 1 to 6, 8, 9, 10, 14, tried in this order.
///
/// # Examples
///
/// ```
/// use celduga::{build, Refusal, Vertex};
///
/// let wire = [0x00, 0x10, 0x00, 0x1A, 0x00, 0x10, 0x00];
/// let mut index = [0; 6];
/// build(&wire, Vertex(1), &mut [0; 16], &mut index)?;
/// assert_eq!(index, [0x40, 0x10, 0x50, 0x00, 0x00, 0x01]);
/// assert_eq!(build(&wire, Vertex(3), &mut [0; 16], &mut index), Err(Refusal::NoStart));
/// # Ok::<(), Refusal>(())
/// ```
pub fn build(record: &[u8], start: Vertex, work: &mut [u16], index: &mut [u8]) -> Result<(), Refusal> {
    ffi::build(record, start.0, work, index).map(drop)
}

/// Writes what [`visit`], [`parent`] (0 for a root), [`children`] and [`head`] answer for every terminal, on the index
/// that [`build`] writes with this start; number `v − 1` of each list is terminal `v`'s. No index is lent, and it takes
/// time linear in the record's bits.
///
/// The four lists have n numbers each, for n terminals. The work slice has [`Sizes::work_len`](crate::Sizes::work_len)
/// numbers or more, and may hold anything before and after the call.
///
/// # Errors
///
/// Refusals 1 to 6, 8, 9, 10, 14, tried in this order.
///
/// # Examples
///
/// ```
/// use celduga::{table, Refusal, Vertex};
///
/// let wire = [0x00, 0x10, 0x00, 0x1A, 0x00, 0x10, 0x00];
/// let [mut visits, mut parents, mut children, mut heads] = [[0; 2]; 4];
/// table(&wire, Vertex(2), &mut [0; 16], &mut visits, &mut parents, &mut children, &mut heads)?;
/// assert_eq!((visits, parents, children, heads), ([2, 1], [2, 0], [0, 1], [1, 2]));
/// # Ok::<(), Refusal>(())
/// ```
pub fn table(
    record: &[u8],
    start: Vertex,
    work: &mut [u16],
    visits: &mut [u16],
    parents: &mut [u16],
    children: &mut [u16],
    heads: &mut [u16],
) -> Result<(), Refusal> {
    ffi::table(record, start.0, work, visits, parents, children, heads).map(drop)
}

/// The parent of terminal `v` in the forest, `None` for a root.
///
/// # Errors
///
/// Refusals 1 to 4, 10, 11, 12, tried in this order.
pub fn parent(record: &[u8], index: &[u8], v: Vertex) -> Result<Option<Vertex>, Refusal> {
    ffi::parent(record, index, v.0).map(|number| (number != 0).then(|| vertex(number)))
}

/// The head of terminal `v`: the first terminal, from `v` upward, that is a root or whose wire to its parent is a
/// bridge. On a built index two terminals have one head exactly when they are joined and stay so whichever one wire is
/// taken out.
///
/// # Errors
///
/// Refusals 1 to 4, 10, 11, 12, tried in this order.
pub fn head(record: &[u8], index: &[u8], v: Vertex) -> Result<Vertex, Refusal> {
    ffi::head(record, index, v.0).map(vertex)
}

/// Whether `u` is `v` or stands above it.
///
/// # Errors
///
/// Refusals 1 to 4, 10, 11 for `u`, 11 for `v`, 12, tried in this order.
pub fn ancestor(record: &[u8], index: &[u8], u: Vertex, v: Vertex) -> Result<bool, Refusal> {
    ffi::ancestor(record, index, u.0, v.0).map(|yes| yes != 0)
}

/// How many children terminal `v` has.
///
/// # Errors
///
/// Refusals 1 to 4, 10, 11, tried in this order.
pub fn children(record: &[u8], index: &[u8], v: Vertex) -> Result<usize, Refusal> {
    ffi::children(record, index, v.0).map(usize::from)
}

/// The `j`-th child of terminal `v`, from 1 in order of visits.
///
/// # Errors
///
/// Refusals 1 to 4, 10, 11, 13, 12, tried in this order.
pub fn child(record: &[u8], index: &[u8], v: Vertex, j: usize) -> Result<Vertex, Refusal> {
    ffi::child(record, index, v.0, j).map(vertex)
}

/// The visit number of terminal `v`.
///
/// # Errors
///
/// Refusals 1 to 4, 10, 11, 12, tried in this order.
pub fn visit(record: &[u8], index: &[u8], v: Vertex) -> Result<Dfi, Refusal> {
    ffi::visit(record, index, v.0).map(|number| Dfi(number.into()))
}

/// The lowest terminal with visit number `i`.
///
/// # Errors
///
/// Refusals 1 to 4, 10, 11 for `i`, 12, tried in this order.
pub fn visited(record: &[u8], index: &[u8], i: Dfi) -> Result<Vertex, Refusal> {
    ffi::visited(record, index, i.0).map(vertex)
}

/// Writes what [`head`] and [`visit`] answer for each terminal of the list, to the same place of `heads` and `visits`.
/// D is checked, and its blocks are found, once for all of them, and no climb passes a terminal that another has passed.
///
/// The list has at most [`MAX_LOOKUP_LEN`](crate::MAX_LOOKUP_LEN) terminals. It may be empty, and may name one several
/// times. `heads` and `visits` have its length.
///
/// # Errors
///
/// Refusals 1 to 4, 10, 15, tried in this order; then the first 11 or 12 that is met in list order, that of [`head`]
/// before that of [`visit`].
///
/// # Examples
///
/// ```
/// use celduga::{build, lookup, Refusal, Vertex};
///
/// // 1: 3; 2: 3; 3: 1 2
/// let path = [0x00, 0x18, 0x00, 0x2A, 0x80, 0x04, 0x00, 0x40, 0x00, 0x00, 0x20];
/// let mut index = [0; 8];
/// build(&path, Vertex(1), &mut [0; 24], &mut index)?;
/// let [mut heads, mut visits] = [[0; 3]; 2];
/// lookup(&path, &index, &[2, 1, 2], &mut heads, &mut visits)?;
/// assert_eq!((heads, visits), ([2, 1, 2], [3, 1, 3]));
/// // a refusal leaves both as they were
/// assert_eq!(lookup(&path, &index, &[1, 1, 4], &mut heads, &mut visits), Err(Refusal::NoTerminal));
/// assert_eq!((heads, visits), ([2, 1, 2], [3, 1, 3]));
/// assert_eq!(lookup(&path, &index, &[1, 1], &mut heads, &mut visits), Err(Refusal::BadList));
/// # Ok::<(), Refusal>(())
/// ```
pub fn lookup(record: &[u8], index: &[u8], list: &[u16], heads: &mut [u16], visits: &mut [u16]) -> Result<(), Refusal> {
    ffi::lookup(record, index, list, heads, visits).map(drop)
}

/// The ones in places 1 to `p` of a bit string; a `p` past the end counts all.
///
/// The string has so many places and begins at bit `start`, which counts from 0 for the most significant bit of the
/// first byte. One that its bytes do not hold in full counts as empty.
///
/// # Examples
///
/// ```
/// use celduga::{rank, select};
///
/// // the places of 1010 0000, from the second bit on, are 0, 1, 0, 0
/// assert_eq!(rank(&[0xA0], 1, 4, 2), 1);
/// assert_eq!(select(&[0xA0], 1, 4, 1), 2);
/// ```
#[must_use]
pub fn rank(bytes: &[u8], start: usize, places: usize, p: usize) -> usize {
    ffi::rank(bytes, start, places, p)
}

/// The place, from 1, of the `k`-th one of a bit string, which is given as for [`rank`]; 0 for `k` = 0 and where there
/// are fewer ones.
#[must_use]
pub fn select(bytes: &[u8], start: usize, places: usize, k: usize) -> usize {
    ffi::select(bytes, start, places, k)
}
