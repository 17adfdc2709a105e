//! The sample record of docs/FORMAT.md and the small ones beside it, by the functions that mirror the operations.

use crate::packing::*;
use celduga::*;

/// What Build answers and writes.
fn built(record: &[u8], start: usize, index_len: usize) -> Vec<u8> {
    let mut work = vec![0xFFFF; Sizes::of(record).unwrap().work_len()];
    let mut index = vec![0xFF; index_len];
    assert_eq!(build(record, Vertex(start), &mut work, &mut index), Ok(()));
    index
}

#[test]
fn the_blocks_pack_to_the_bytes() {
    assert_eq!(record(&SAMPLE_BLOCKS), SAMPLE);
    assert_eq!(record::<&[u16]>(&[]), EMPTY);
    assert_eq!(record(&[[]]), TERMINAL);
    assert_eq!(record(&[[2], [1]]), WIRE);
    assert_eq!(record(&[[2, 2], [1, 1]]), DOUBLED);
}

#[test]
fn accepted_records_and_their_indexes() {
    assert_eq!(built(&SAMPLE, 1, 15), SAMPLE_INDEX);
    assert_eq!(built(&EMPTY, 0, 0), []);
    assert_eq!(built(&TERMINAL, 1, 5), [0; 5]);
    assert_eq!(built(&WIRE, 1, 6), [0x40, 0x10, 0x50, 0x00, 0x00, 0x01]);
    assert_eq!(built(&DOUBLED, 1, 6), [0x40, 0x08, 0x00, 0x00, 0x00, 0x01]);
}

#[test]
fn indexes_from_other_starts() {
    assert_eq!(built(&SAMPLE, 4, 15), SAMPLE_INDEX_FROM_4);
    assert_eq!(built(&WIRE, 2, 6), [0x10, 0x40, 0x50, 0x00, 0x10, 0x00]);
}

#[test]
fn refused_records() {
    let mut spare = SAMPLE;
    spare[20] = 0x41;
    assert_eq!(check(&spare), Err(Refusal::SpareSet));
    assert_eq!(check(&SAMPLE[..3]), Err(Refusal::TooShort));
    assert_eq!(check(&[0x80, 0x08, 0x00, 0x00]), Err(Refusal::OverLimit));
    assert_eq!(check(&record(&[&[2, 3][..], &[1], &[2]])), Err(Refusal::OneSidedWire));
    assert_eq!(check(&record(&[&[2, 2, 2][..], &[1]])), Err(Refusal::OneSidedWire));
}

/// Terminal, visit number, parent, children, head.
const LISTING: [(usize, usize, usize, usize, usize); 6] = [
    (1, 1, 0, 1, 1),
    (2, 3, 3, 0, 1),
    (3, 2, 1, 2, 1),
    (4, 4, 3, 0, 4),
    (5, 5, 0, 1, 5),
    (6, 6, 5, 0, 6),
];

#[test]
fn the_listing() {
    for (v, number, above, count, top) in LISTING {
        let v = Vertex(v);
        assert_eq!(visit(&SAMPLE, &SAMPLE_INDEX, v), Ok(Dfi(number)));
        assert_eq!(visited(&SAMPLE, &SAMPLE_INDEX, Dfi(number)), Ok(v));
        assert_eq!(
            parent(&SAMPLE, &SAMPLE_INDEX, v),
            Ok((above != 0).then_some(Vertex(above)))
        );
        assert_eq!(children(&SAMPLE, &SAMPLE_INDEX, v), Ok(count));
        assert_eq!(head(&SAMPLE, &SAMPLE_INDEX, v), Ok(Vertex(top)));
        assert_eq!(degree(&SAMPLE, v), Ok(SAMPLE_BLOCKS[v.0 - 1].len()));
    }
    assert_eq!(loop_figure(&SAMPLE), Ok(1));
}

/// What Table answers and writes: visit numbers, parents, children and heads.
fn tabled(record: &[u8], start: usize, work_len: usize) -> [Vec<u16>; 4] {
    let n = Sizes::of(record).unwrap().terminals();
    let [mut visits, mut parents, mut children, mut heads] = [(); 4].map(|()| vec![0xFFFF; n]);
    let mut work = vec![0xFFFF; work_len];
    assert_eq!(
        table(
            record,
            Vertex(start),
            &mut work,
            &mut visits,
            &mut parents,
            &mut children,
            &mut heads
        ),
        Ok(())
    );
    [visits, parents, children, heads]
}

#[test]
fn the_table() {
    let columns = [
        LISTING.map(|(_, number, ..)| number as u16),
        LISTING.map(|(_, _, above, ..)| above as u16),
        LISTING.map(|(.., count, _)| count as u16),
        LISTING.map(|(.., top)| top as u16),
    ];
    // a longer work slice does as well
    for work_len in [48, 49, 1000] {
        assert_eq!(tabled(&SAMPLE, 1, work_len), columns);
    }
    assert_eq!(tabled(&EMPTY, 0, 0), [[]; 4]);
    assert_eq!(tabled(&TERMINAL, 1, 8), [[1], [0], [0], [1]]);
    assert_eq!(tabled(&WIRE, 1, 16), [[1, 2], [0, 1], [1, 0], [1, 2]]);
}

#[test]
fn the_table_from_other_starts() {
    let from_4 = [
        [4, 3, 2, 1, 5, 6],
        [2, 3, 4, 0, 0, 5],
        [0, 1, 1, 1, 1, 0],
        [3, 3, 3, 4, 5, 6],
    ];
    assert_eq!(tabled(&SAMPLE, 4, 48), from_4);
    assert_eq!(tabled(&WIRE, 2, 16), [[2, 1], [2, 0], [0, 1], [1, 2]]);
}

#[test]
fn the_lookup() {
    let [mut heads, mut visits] = [[0xFFFF; 6]; 2];
    assert_eq!(
        lookup(&SAMPLE, &SAMPLE_INDEX, &[1, 2, 3, 4, 5, 6], &mut heads, &mut visits),
        Ok(())
    );
    assert_eq!(heads, LISTING.map(|(.., top)| top as u16));
    assert_eq!(visits, LISTING.map(|(_, number, ..)| number as u16));
    // in any order, and one several times
    assert_eq!(
        lookup(&SAMPLE, &SAMPLE_INDEX, &[6, 2, 2, 4, 3, 2], &mut heads, &mut visits),
        Ok(())
    );
    assert_eq!((heads, visits), ([6, 1, 1, 4, 1, 1], [6, 3, 3, 4, 2, 3]));
    assert_eq!(
        lookup(
            &SAMPLE,
            &SAMPLE_INDEX_FROM_4,
            &[1, 4, 2],
            &mut heads[..3],
            &mut visits[..3]
        ),
        Ok(())
    );
    assert_eq!((heads, visits), ([3, 4, 3, 4, 1, 1], [4, 1, 3, 4, 2, 3]));
}

#[test]
fn children_in_order() {
    assert_eq!(child(&SAMPLE, &SAMPLE_INDEX, Vertex(1), 1), Ok(Vertex(3)));
    assert_eq!(child(&SAMPLE, &SAMPLE_INDEX, Vertex(3), 1), Ok(Vertex(2)));
    assert_eq!(child(&SAMPLE, &SAMPLE_INDEX, Vertex(3), 2), Ok(Vertex(4)));
}

#[test]
fn ancestors() {
    let above: [&[usize]; 6] = [&[1], &[1, 2, 3], &[1, 3], &[1, 3, 4], &[5], &[5, 6]];
    for v in 1..=6 {
        for u in 1..=6 {
            assert_eq!(
                ancestor(&SAMPLE, &SAMPLE_INDEX, Vertex(u), Vertex(v)),
                Ok(above[v - 1].contains(&u))
            );
        }
    }
}

#[test]
fn the_unpacked_list() {
    let mut list = [0; 10];
    assert_eq!(unpack(&SAMPLE, &mut list), Ok(()));
    assert_eq!(list[..], SAMPLE_BLOCKS.concat());
}

#[test]
fn the_parts_of_the_unpacked_list() {
    let list = SAMPLE_BLOCKS.concat();
    let mut before = 0;
    for (v, block) in (1..).zip(SAMPLE_BLOCKS) {
        let part = neighbours(&SAMPLE, &list, Vertex(v));
        assert_eq!(part, block);
        // it is a part of the list itself
        assert_eq!(part.as_ptr(), list[before..].as_ptr());
        before += block.len();
    }
    // what the list holds does not matter
    assert_eq!(neighbours(&SAMPLE, &[9; 10], Vertex(3)), [9; 3]);
    assert_eq!(neighbours(&TERMINAL, &[], Vertex(1)), []);
}

#[test]
fn loop_figures_count_the_looms() {
    assert_eq!(loop_figure(&EMPTY), Ok(0));
    assert_eq!(loop_figure(&TERMINAL), Ok(0));
    assert_eq!(loop_figure(&record(&[[], [], []])), Ok(0));
    assert_eq!(loop_figure(&record(&[[]; 4096])), Ok(0));
    assert_eq!(loop_figure(&WIRE), Ok(0));
    assert_eq!(loop_figure(&DOUBLED), Ok(1));
    // two triangles, with a terminal by itself between them
    let apart: [&[u16]; 7] = [&[2, 3], &[1, 3], &[1, 2], &[], &[6, 7], &[5, 7], &[5, 6]];
    assert_eq!(loop_figure(&record(&apart)), Ok(2));
    // the largest: all wires between the same two terminals
    assert_eq!(loop_figure(&record(&[[2; 16384], [1; 16384]])), Ok(16383));
}

#[test]
fn rank_and_select_in_the_degrees() {
    let ones = [1, 4, 7, 11, 13, 15];
    for p in 0..=20 {
        assert_eq!(rank(&SAMPLE, 28, 16, p), ones.iter().filter(|&&one| one <= p).count());
    }
    for (k, one) in (1..).zip(ones) {
        assert_eq!(select(&SAMPLE, 28, 16, k), one);
    }
    assert_eq!((select(&SAMPLE, 28, 16, 0), select(&SAMPLE, 28, 16, 7)), (0, 0));
    // a string that the bytes do not hold is empty
    assert_eq!((rank(&[], 0, 1, 1), select(&[0xFF], 1, usize::MAX, 1)), (0, 0));
}
