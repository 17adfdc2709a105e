//! The calls of the static library, and the one place that reads their results. All unsafe code is here.
//!
//! What each call asks is in include/celduga.h. A slice meets it for its pointer and length: the pointer is not null,
//! aligned and good for the whole length, also where that is 0. A slice that is lent to be written overlaps no other.

use core::ops::Range;

use crate::Refusal;

mod c {
    extern "C" {
        pub fn celduga_version() -> u32;
        pub fn celduga_check(record: *const u8, record_len: usize) -> u32;
        pub fn celduga_degree(record: *const u8, record_len: usize, v: usize) -> u32;
        pub fn celduga_unpack(record: *const u8, record_len: usize, list: *mut u16, list_len: usize) -> u32;
        pub fn celduga_file(
            degrees: *const u16,
            degrees_len: usize,
            neighbours: *const u16,
            neighbours_len: usize,
            record: *mut u8,
            record_len: usize,
        ) -> u32;
        pub fn celduga_neighbours(record: *const u8, record_len: usize, list_len: usize, v: usize) -> u64;
        pub fn celduga_loop_figure(record: *const u8, record_len: usize) -> u32;
        pub fn celduga_build(
            record: *const u8,
            record_len: usize,
            start: usize,
            work: *mut u16,
            work_len: usize,
            index: *mut u8,
            index_len: usize,
        ) -> u32;
        pub fn celduga_table(
            record: *const u8,
            record_len: usize,
            start: usize,
            work: *mut u16,
            work_len: usize,
            visits: *mut u16,
            visits_len: usize,
            parents: *mut u16,
            parents_len: usize,
            children: *mut u16,
            children_len: usize,
            heads: *mut u16,
            heads_len: usize,
        ) -> u32;
        pub fn celduga_parent(
            record: *const u8,
            record_len: usize,
            index: *const u8,
            index_len: usize,
            v: usize,
        ) -> u32;
        pub fn celduga_head(record: *const u8, record_len: usize, index: *const u8, index_len: usize, v: usize) -> u32;
        pub fn celduga_ancestor(
            record: *const u8,
            record_len: usize,
            index: *const u8,
            index_len: usize,
            u: usize,
            v: usize,
        ) -> u32;
        pub fn celduga_children(
            record: *const u8,
            record_len: usize,
            index: *const u8,
            index_len: usize,
            v: usize,
        ) -> u32;
        pub fn celduga_child(
            record: *const u8,
            record_len: usize,
            index: *const u8,
            index_len: usize,
            v: usize,
            j: usize,
        ) -> u32;
        pub fn celduga_visit(record: *const u8, record_len: usize, index: *const u8, index_len: usize, v: usize)
            -> u32;
        pub fn celduga_visited(
            record: *const u8,
            record_len: usize,
            index: *const u8,
            index_len: usize,
            i: usize,
        ) -> u32;
        pub fn celduga_lookup(
            record: *const u8,
            record_len: usize,
            index: *const u8,
            index_len: usize,
            list: *const u16,
            list_len: usize,
            heads: *mut u16,
            heads_len: usize,
            visits: *mut u16,
            visits_len: usize,
        ) -> u32;
        pub fn celduga_rank(bytes: *const u8, len: usize, start: usize, places: usize, p: usize) -> usize;
        pub fn celduga_select(bytes: *const u8, len: usize, start: usize, places: usize, k: usize) -> usize;
    }
}

/// The value, in the low half of a result, or the refusal, whose number is in the high half.
fn decode(result: u32) -> Result<u16, Refusal> {
    match (result >> 16) as u16 {
        0 => Ok(result as u16),
        number => Err(Refusal::from_number(number)
            .unwrap_or_else(|| panic!("the archive gives a refusal that has no name: {number}"))),
    }
}

/// The part of a list: how many numbers stand before it, in the high half of a result, and how many it has, in the low
/// half.
fn part(result: u64) -> Range<usize> {
    let (before, count) = ((result >> 32) as usize, result as u32 as usize);
    before..before + count
}

pub fn version() -> u32 {
    // SAFETY: nothing is lent.
    unsafe { c::celduga_version() }
}

pub fn check(record: &[u8]) -> Result<u16, Refusal> {
    // SAFETY: the slice is read only.
    decode(unsafe { c::celduga_check(record.as_ptr(), record.len()) })
}

pub fn degree(record: &[u8], v: usize) -> Result<u16, Refusal> {
    // SAFETY: the slice is read only.
    decode(unsafe { c::celduga_degree(record.as_ptr(), record.len(), v) })
}

pub fn unpack(record: &[u8], list: &mut [u16]) -> Result<u16, Refusal> {
    // SAFETY: the list is borrowed to be written, so it does not overlap the record.
    decode(unsafe { c::celduga_unpack(record.as_ptr(), record.len(), list.as_mut_ptr(), list.len()) })
}

pub fn file(degrees: &[u16], neighbours: &[u16], record: &mut [u8]) -> Result<u16, Refusal> {
    // SAFETY: the record is borrowed to be written, so it overlaps neither list.
    decode(unsafe {
        c::celduga_file(
            degrees.as_ptr(),
            degrees.len(),
            neighbours.as_ptr(),
            neighbours.len(),
            record.as_mut_ptr(),
            record.len(),
        )
    })
}

pub fn neighbours(record: &[u8], list_len: usize, v: usize) -> Range<usize> {
    // SAFETY: the slice is read only, and of the list no more than its length is told.
    part(unsafe { c::celduga_neighbours(record.as_ptr(), record.len(), list_len, v) })
}

pub fn loop_figure(record: &[u8]) -> Result<u16, Refusal> {
    // SAFETY: the slice is read only.
    decode(unsafe { c::celduga_loop_figure(record.as_ptr(), record.len()) })
}

pub fn build(record: &[u8], start: usize, work: &mut [u16], index: &mut [u8]) -> Result<u16, Refusal> {
    // SAFETY: the work slice and the index are borrowed to be written, so neither overlaps another slice.
    decode(unsafe {
        c::celduga_build(
            record.as_ptr(),
            record.len(),
            start,
            work.as_mut_ptr(),
            work.len(),
            index.as_mut_ptr(),
            index.len(),
        )
    })
}

pub fn table(
    record: &[u8],
    start: usize,
    work: &mut [u16],
    visits: &mut [u16],
    parents: &mut [u16],
    children: &mut [u16],
    heads: &mut [u16],
) -> Result<u16, Refusal> {
    // SAFETY: the work slice and the four lists are borrowed to be written, so none overlaps another slice.
    decode(unsafe {
        c::celduga_table(
            record.as_ptr(),
            record.len(),
            start,
            work.as_mut_ptr(),
            work.len(),
            visits.as_mut_ptr(),
            visits.len(),
            parents.as_mut_ptr(),
            parents.len(),
            children.as_mut_ptr(),
            children.len(),
            heads.as_mut_ptr(),
            heads.len(),
        )
    })
}

pub fn parent(record: &[u8], index: &[u8], v: usize) -> Result<u16, Refusal> {
    // SAFETY: both slices are read only.
    decode(unsafe { c::celduga_parent(record.as_ptr(), record.len(), index.as_ptr(), index.len(), v) })
}

pub fn head(record: &[u8], index: &[u8], v: usize) -> Result<u16, Refusal> {
    // SAFETY: both slices are read only.
    decode(unsafe { c::celduga_head(record.as_ptr(), record.len(), index.as_ptr(), index.len(), v) })
}

pub fn ancestor(record: &[u8], index: &[u8], u: usize, v: usize) -> Result<u16, Refusal> {
    // SAFETY: both slices are read only.
    decode(unsafe { c::celduga_ancestor(record.as_ptr(), record.len(), index.as_ptr(), index.len(), u, v) })
}

pub fn children(record: &[u8], index: &[u8], v: usize) -> Result<u16, Refusal> {
    // SAFETY: both slices are read only.
    decode(unsafe { c::celduga_children(record.as_ptr(), record.len(), index.as_ptr(), index.len(), v) })
}

pub fn child(record: &[u8], index: &[u8], v: usize, j: usize) -> Result<u16, Refusal> {
    // SAFETY: both slices are read only.
    decode(unsafe { c::celduga_child(record.as_ptr(), record.len(), index.as_ptr(), index.len(), v, j) })
}

pub fn visit(record: &[u8], index: &[u8], v: usize) -> Result<u16, Refusal> {
    // SAFETY: both slices are read only.
    decode(unsafe { c::celduga_visit(record.as_ptr(), record.len(), index.as_ptr(), index.len(), v) })
}

pub fn visited(record: &[u8], index: &[u8], i: usize) -> Result<u16, Refusal> {
    // SAFETY: both slices are read only.
    decode(unsafe { c::celduga_visited(record.as_ptr(), record.len(), index.as_ptr(), index.len(), i) })
}

pub fn lookup(
    record: &[u8],
    index: &[u8],
    list: &[u16],
    heads: &mut [u16],
    visits: &mut [u16],
) -> Result<u16, Refusal> {
    // SAFETY: heads and visits are borrowed to be written, so neither overlaps another slice.
    decode(unsafe {
        c::celduga_lookup(
            record.as_ptr(),
            record.len(),
            index.as_ptr(),
            index.len(),
            list.as_ptr(),
            list.len(),
            heads.as_mut_ptr(),
            heads.len(),
            visits.as_mut_ptr(),
            visits.len(),
        )
    })
}

pub fn rank(bytes: &[u8], start: usize, places: usize, p: usize) -> usize {
    // SAFETY: the slice is read only.
    unsafe { c::celduga_rank(bytes.as_ptr(), bytes.len(), start, places, p) }
}

pub fn select(bytes: &[u8], start: usize, places: usize, k: usize) -> usize {
    // SAFETY: the slice is read only.
    unsafe { c::celduga_select(bytes.as_ptr(), bytes.len(), start, places, k) }
}

#[cfg(test)]
mod tests {
    use super::{decode, file, part};
    use crate::Refusal;

    #[test]
    fn the_low_half_is_the_value() {
        assert_eq!(decode(0), Ok(0));
        assert_eq!(decode(0xF001), Ok(0xF001));
    }

    #[test]
    fn the_high_half_is_the_number_of_the_refusal() {
        for number in 1..=17 {
            assert_eq!(
                decode(number << 16).map_err(|refusal| u32::from(refusal.number())),
                Err(number)
            );
        }
    }

    #[test]
    fn a_record_is_filed_to_its_own_length_alone() {
        let wire = [0x00, 0x10, 0x00, 0x1A, 0x00, 0x10, 0x00];
        for len in (0..20).filter(|&len| len != wire.len()) {
            let mut record = [0xA5; 20];
            assert_eq!(
                file(&[1, 1], &[2, 1], &mut record[..len]),
                Err(Refusal::WrongRecordBuffer)
            );
            // 16, 6 and 8 come before
            assert_eq!(file(&[1, 1], &[2], &mut record[..len]), Err(Refusal::BadLists));
            assert_eq!(file(&[1, 1], &[2, 3], &mut record[..len]), Err(Refusal::StrayNeighbour));
            assert_eq!(file(&[2, 0], &[2, 2], &mut record[..len]), Err(Refusal::OneSidedWire));
            assert_eq!(record, [0xA5; 20]);
        }
        let mut record = [0xA5; 7];
        assert_eq!(file(&[1, 1], &[2, 1], &mut record), Ok(0));
        assert_eq!(record, wire);
    }

    #[test]
    fn a_part_has_its_front_in_the_high_half() {
        assert_eq!(part(0), 0..0);
        assert_eq!(part(7 << 32 | 2), 7..9);
        assert_eq!(part(32766 << 32 | 2), 32766..32768);
    }

    #[test]
    #[should_panic(expected = "no name: 18")]
    fn another_number_is_no_answer() {
        let _ = decode(18 << 16);
    }
}
