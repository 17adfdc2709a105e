//! Each refusal is reached, and leaves the buffer for the result as it was.

use crate::packing::*;
use celduga::*;

/// What Check can give: no record is refused with 7.
const CHECKS: [usize; 7] = [1, 2, 3, 4, 5, 6, 8];

/// A record for each of them.
fn refused_records() -> [Vec<u8>; 7] {
    let mut few_ones = SAMPLE.to_vec();
    few_ones[5] ^= 0x20;
    let mut spare = SAMPLE.to_vec();
    spare[20] |= 1;
    [
        SAMPLE[..3].to_vec(),
        vec![0x80, 0x08, 0x00, 0x00],
        SAMPLE[..20].to_vec(),
        few_ones,
        spare,
        record(&[[2], [2]]),
        record(&[&[2, 3][..], &[1], &[2]]),
    ]
}

fn refusal(number: usize) -> Refusal {
    Refusal::from_number(number as u16).expect("a number from 1 to 17")
}

/// Build refuses with this start, and the buffer stays.
fn build_from_refuses(record: &[u8], start: usize, work_len: usize, index_len: usize, number: usize) {
    let before: Vec<u8> = (0..index_len).map(|i| 0xA1 + i as u8).collect();
    let mut index = before.clone();
    assert_eq!(
        build(record, Vertex(start), &mut vec![7; work_len], &mut index),
        Err(refusal(number))
    );
    assert_eq!(index, before);
}

/// The same with a start that is taken, and with some that are not.
fn build_refuses(record: &[u8], work_len: usize, index_len: usize, number: usize) {
    for start in [0, 1, usize::MAX] {
        build_from_refuses(record, start, work_len, index_len, number);
    }
}

/// Unpack refuses, and the list stays.
fn unpack_refuses(record: &[u8], list_len: usize, number: usize) {
    let before: Vec<u16> = (0..list_len).map(|i| 0xA0B1 + i as u16).collect();
    let mut list = before.clone();
    assert_eq!(unpack(record, &mut list), Err(refusal(number)));
    assert_eq!(list, before);
}

/// Table refuses with this start, and the four lists stay.
fn table_from_refuses(record: &[u8], start: usize, work_len: usize, lens: [usize; 4], number: usize) {
    let before = lens.map(|len| (0..len).map(|i| 0xA0B1 + i as u16).collect::<Vec<u16>>());
    let [mut visits, mut parents, mut children, mut heads] = before.clone();
    assert_eq!(
        table(
            record,
            Vertex(start),
            &mut vec![7; work_len],
            &mut visits,
            &mut parents,
            &mut children,
            &mut heads
        ),
        Err(refusal(number))
    );
    assert_eq!([visits, parents, children, heads], before);
}

/// The same with a start that is taken, and with some that are not.
fn table_refuses(record: &[u8], work_len: usize, lens: [usize; 4], number: usize) {
    for start in [0, 1, usize::MAX] {
        table_from_refuses(record, start, work_len, lens, number);
    }
}

/// Lookup refuses with answer lists of these lengths, and they stay.
fn lookup_to_refuses(record: &[u8], index: &[u8], list: &[u16], lens: [usize; 2], number: usize) {
    let before = lens.map(|len| (0..len).map(|i| 0xA0B1 ^ i as u16).collect::<Vec<u16>>());
    let [mut heads, mut visits] = before.clone();
    assert_eq!(
        lookup(record, index, list, &mut heads, &mut visits),
        Err(refusal(number))
    );
    assert_eq!([heads, visits], before);
}

/// The same with answer lists of the length of the list.
fn lookup_refuses(record: &[u8], index: &[u8], list: &[u16], number: usize) {
    lookup_to_refuses(record, index, list, [list.len(); 2], number);
}

/// Neighbours gives the empty part at the front.
fn no_neighbours(record: &[u8], list: &[u16], v: Vertex) {
    let part = neighbours(record, list, v);
    assert_eq!(part.as_ptr_range(), list[..0].as_ptr_range());
}

#[test]
fn refusals_of_check() {
    for (number, record) in CHECKS.into_iter().zip(refused_records()) {
        assert_eq!(check(&record), Err(refusal(number)));
        assert_eq!(Record::new(&record), Err(refusal(number)));
        assert_eq!(loop_figure(&record), Err(refusal(number)));
        build_refuses(&record, 48, 15, number);
        unpack_refuses(&record, 10, number);
        table_refuses(&record, 48, [6; 4], number);
        // also where the slices are too short
        table_refuses(&record, 0, [0; 4], number);
    }
}

#[test]
fn queries_refuse_1_to_4() {
    for (number, record) in (1..=4).zip(refused_records()) {
        let (v, no) = (Vertex(1), refusal(number));
        assert_eq!(degree(&record, v), Err(no));
        assert_eq!(parent(&record, &SAMPLE_INDEX, v), Err(no));
        assert_eq!(head(&record, &SAMPLE_INDEX, v), Err(no));
        assert_eq!(ancestor(&record, &SAMPLE_INDEX, v, v), Err(no));
        assert_eq!(children(&record, &SAMPLE_INDEX, v), Err(no));
        assert_eq!(child(&record, &SAMPLE_INDEX, v, 1), Err(no));
        assert_eq!(visit(&record, &SAMPLE_INDEX, v), Err(no));
        assert_eq!(visited(&record, &SAMPLE_INDEX, Dfi(1)), Err(no));
        lookup_refuses(&record, &SAMPLE_INDEX, &[1], number);
        // also of nothing, and before all else
        lookup_refuses(&record, &[], &[], number);
        lookup_to_refuses(&record, &[], &[0], [2, 3], number);
        for len in 0..12 {
            no_neighbours(&record, &vec![1; len], Vertex(3));
        }
    }
}

#[test]
fn neighbours_ask_no_more_of_a_record_than_degrees() {
    let counts = [(5, 10), (6, 2), (8, 4)];
    for ((number, len), record) in counts.into_iter().zip(&refused_records()[4..]) {
        assert_eq!(check(record), Err(refusal(number)));
        let list: Vec<u16> = (0..len).collect();
        let first = degree(record, Vertex(1)).unwrap();
        assert_eq!(neighbours(record, &list, Vertex(1)), &list[..first]);
        assert_eq!(neighbours(record, &list, Vertex(2))[0], first as u16);
    }
}

#[test]
fn refusal_9() {
    build_refuses(&SAMPLE, 47, 15, 9);
    build_refuses(&SAMPLE, 0, 15, 9);
    build_refuses(&SAMPLE, 47, 14, 9);
    table_refuses(&SAMPLE, 47, [6; 4], 9);
    table_refuses(&SAMPLE, 0, [6; 4], 9);
    table_refuses(&SAMPLE, 47, [5; 4], 9);
    table_refuses(&TERMINAL, 7, [1; 4], 9);
}

#[test]
fn refusal_10() {
    for len in [0, 14, 16] {
        build_refuses(&SAMPLE, 48, len, 10);
        let index = vec![0; len];
        assert_eq!(parent(&SAMPLE, &index, Vertex(0)), Err(Refusal::WrongBuffer));
        assert_eq!(visited(&SAMPLE, &index, Dfi(0)), Err(Refusal::WrongBuffer));
        lookup_refuses(&SAMPLE, &index, &[], 10);
        lookup_refuses(&SAMPLE, &index, &[0], 10);
        lookup_to_refuses(&SAMPLE, &index, &[1], [0, 2], 10);
        lookup_refuses(&SAMPLE, &index, &[1; 513], 10);
        assert_eq!(
            Index::new(Record::new(&SAMPLE).unwrap(), index),
            Err(Refusal::WrongBuffer)
        );
    }
    build_refuses(&EMPTY, 0, 1, 10);
    for len in [0, 9, 11] {
        unpack_refuses(&SAMPLE, len, 10);
        no_neighbours(&SAMPLE, &vec![1; len], Vertex(3));
    }
    for list in 0..4 {
        for len in [0, 5, 7] {
            let mut lens = [6; 4];
            lens[list] = len;
            table_refuses(&SAMPLE, 48, lens, 10);
        }
        let mut lens = [0; 4];
        lens[list] = 1;
        table_refuses(&EMPTY, 0, lens, 10);
    }
}

#[test]
fn refusal_11() {
    let no = Refusal::NoTerminal;
    let sample = Record::new(&SAMPLE).unwrap();
    let (index, table) = (sample.index(), sample.table());
    for number in [0, 7, 65536, 65537, usize::MAX] {
        let v = Vertex(number);
        assert_eq!(degree(&SAMPLE, v), Err(no));
        assert_eq!(parent(&SAMPLE, &SAMPLE_INDEX, v), Err(no));
        assert_eq!(head(&SAMPLE, &SAMPLE_INDEX, v), Err(no));
        assert_eq!(ancestor(&SAMPLE, &SAMPLE_INDEX, v, Vertex(1)), Err(no));
        assert_eq!(ancestor(&SAMPLE, &SAMPLE_INDEX, Vertex(1), v), Err(no));
        assert_eq!(children(&SAMPLE, &SAMPLE_INDEX, v), Err(no));
        assert_eq!(child(&SAMPLE, &SAMPLE_INDEX, v, 1), Err(no));
        assert_eq!(visit(&SAMPLE, &SAMPLE_INDEX, v), Err(no));
        assert_eq!(visited(&SAMPLE, &SAMPLE_INDEX, Dfi(number)), Err(no));
        no_neighbours(&SAMPLE, &[1; 10], v);
        assert_eq!(index.lookup(&[v]), Err(no));
        assert_eq!(index.lookup(&[Vertex(1), v, Vertex(2)]), Err(no));
        assert_eq!(sample.neighbours(v).err(), Some(no));
        assert_eq!(index.children_of(v).err(), Some(no));
        assert_eq!(index.path_to_root(v).err(), Some(no));
        assert_eq!(table.row(v), Err(no));
        assert_eq!(table.visit(v), Err(no));
        assert_eq!(table.parent(v), Err(no));
        assert_eq!(table.children(v), Err(no));
        assert_eq!(table.head(v), Err(no));
    }
    assert_eq!(degree(&EMPTY, Vertex(1)), Err(no));
    assert_eq!(parent(&EMPTY, &[], Vertex(1)), Err(no));
    for v in [0, 7, 0xFFFF] {
        lookup_refuses(&SAMPLE, &SAMPLE_INDEX, &[v], 11);
        lookup_refuses(&SAMPLE, &SAMPLE_INDEX, &[v, 1, 2], 11);
        lookup_refuses(&SAMPLE, &SAMPLE_INDEX, &[1, 2, v], 11);
    }
    lookup_refuses(&EMPTY, &[], &[1], 11);
}

#[test]
fn refusal_12() {
    let no = Refusal::BadIndex;
    let v = Vertex(1);
    // P marks both wires of terminal 1
    let mut two_parents = SAMPLE_INDEX;
    two_parents[2] |= 0x60;
    assert_eq!(parent(&SAMPLE, &two_parents, v), Err(no));
    assert_eq!(head(&SAMPLE, &two_parents, v), Err(no));
    assert_eq!(ancestor(&SAMPLE, &two_parents, Vertex(5), v), Err(no));
    assert_eq!(ancestor(&SAMPLE, &two_parents, v, v), Ok(true));
    // all stored numbers are 4095
    let mut numbers = SAMPLE_INDEX;
    numbers[6..].fill(0xFF);
    assert_eq!(visit(&SAMPLE, &numbers, v), Err(no));
    assert_eq!(visited(&SAMPLE, &numbers, Dfi(1)), Err(no));
    // Lookup gives Head's, and Visit's
    lookup_refuses(&SAMPLE, &two_parents, &[6, 1], 12);
    lookup_refuses(&SAMPLE, &numbers, &[6], 12);
    // the neighbour at E's mark is no terminal
    let stray = record(&[[3], [1]]);
    assert_eq!(child(&stray, &[0x40, 0, 0, 0, 0, 0], v, 1), Err(no));
    // each of two terminals is the parent of the other
    assert_eq!(head(&WIRE, &[0, 0x50, 0, 0, 0, 0], v), Err(no));
}

#[test]
fn refusal_13() {
    for (v, j) in [(3, 0), (3, 3), (4, 1), (1, usize::MAX)] {
        assert_eq!(child(&SAMPLE, &SAMPLE_INDEX, Vertex(v), j), Err(Refusal::NoChild));
    }
}

#[test]
fn refusal_14() {
    let no = Refusal::NoStart;
    let sample = Record::new(&SAMPLE).unwrap();
    for start in [0, 7, 65536, 65537, usize::MAX] {
        build_from_refuses(&SAMPLE, start, 48, 15, 14);
        table_from_refuses(&SAMPLE, start, 48, [6; 4], 14);
        assert_eq!(sample.index_from(Vertex(start)), Err(no));
        assert_eq!(sample.table_from(Vertex(start)), Err(no));
    }
    let empty = Record::new(&EMPTY).unwrap();
    for start in [1, 2, 65536, usize::MAX] {
        build_from_refuses(&EMPTY, start, 0, 0, 14);
        table_from_refuses(&EMPTY, start, 0, [0; 4], 14);
        assert_eq!(empty.index_from(Vertex(start)), Err(no));
        assert_eq!(empty.table_from(Vertex(start)), Err(no));
    }
}

#[test]
fn refusal_15() {
    let no = Refusal::BadList;
    let index = Record::new(&SAMPLE).unwrap().index();
    for len in [MAX_LOOKUP_LEN + 1, 600, 4096, 65537] {
        lookup_refuses(&SAMPLE, &SAMPLE_INDEX, &vec![1; len], 15);
        // before 11
        lookup_refuses(&SAMPLE, &SAMPLE_INDEX, &vec![0; len], 15);
        assert_eq!(index.lookup(&vec![Vertex(1); len]), Err(no));
        assert_eq!(index.lookup(&vec![Vertex(0); len]), Err(no));
    }
    for list in [&[][..], &[1], &[0], &[1, 2, 3], &[7, 2, 3], &[2; MAX_LOOKUP_LEN]] {
        let len = list.len();
        for other in [0, 1, 2, 4, len + 1, 1000].into_iter().filter(|&other| other != len) {
            lookup_to_refuses(&SAMPLE, &SAMPLE_INDEX, list, [other, len], 15);
            lookup_to_refuses(&SAMPLE, &SAMPLE_INDEX, list, [len, other], 15);
            lookup_to_refuses(&SAMPLE, &SAMPLE_INDEX, list, [other, other], 15);
            // before 12
            lookup_to_refuses(&SAMPLE, &[0xFF; 15], list, [len, other], 15);
        }
    }
    lookup_to_refuses(&EMPTY, &[], &[], [1, 0], 15);
    lookup_to_refuses(&EMPTY, &[], &[], [0, 1], 15);
}

#[test]
fn lookup_refuses_in_list_order() {
    // Head gives 12 for 1
    let mut two_parents = SAMPLE_INDEX;
    two_parents[2] |= 0x60;
    // Visit gives 12 for 1, and Head answers
    let mut high = SAMPLE_INDEX;
    high[6] = 0xFF;
    for index in [two_parents, high] {
        lookup_refuses(&SAMPLE, &index, &[5, 1, 7], 12);
        lookup_refuses(&SAMPLE, &index, &[5, 7, 1], 11);
        lookup_refuses(&SAMPLE, &index, &[0, 1], 11);
        lookup_refuses(&SAMPLE, &index, &[1, 0], 12);
        // numbers past 16 bits are no terminals, and no other ones
        let index = Index::new(Record::new(&SAMPLE).unwrap(), &index).unwrap();
        let asked = |list: [usize; 2]| index.lookup(&list.map(Vertex));
        for v in [65536, 65537, 65541, usize::MAX] {
            assert_eq!(asked([1, v]), Err(Refusal::BadIndex));
            assert_eq!(asked([v, 1]), Err(Refusal::NoTerminal));
        }
        assert_eq!(asked([5, 6]), Ok(vec![(Vertex(5), Dfi(5)), (Vertex(6), Dfi(6))]));
    }
    // the last of many is enough
    let mut list = [5; MAX_LOOKUP_LEN];
    list[MAX_LOOKUP_LEN - 1] = 7;
    lookup_refuses(&SAMPLE, &SAMPLE_INDEX, &list, 11);
    list[MAX_LOOKUP_LEN - 1] = 1;
    lookup_refuses(&SAMPLE, &high, &list, 12);
}

#[test]
fn numbers_and_words() {
    let refusals: Vec<Refusal> = (0..=20).filter_map(Refusal::from_number).collect();
    assert!(refusals.iter().map(|refusal| refusal.number()).eq(1..=17));
    assert_eq!(refusals[0], Refusal::TooShort);
    assert_eq!(refusals[16], Refusal::WrongRecordBuffer);
    // celduga_refusal_text in include/celduga.h has the same words
    let words = [
        "the record has under 4 bytes",
        "the record has too many terminals or wires",
        "the record has another length than its header gives",
        "the degrees in unary do not fit the number of terminals",
        "a spare bit of the record is set",
        "a neighbour is no terminal, or the terminal itself",
        "a neighbour stands twice in a block",
        "two terminals mention each other a different number of times",
        "the work slice is too short",
        "the index or the list has another length than the record gives",
        "there is no such terminal or visit number",
        "the index shows what no forest does",
        "there is no such child",
        "there is no such terminal to start from",
        "the list is too long, or an answer list has another length",
        "the degrees are too many, or their sum is odd, too large or not the number of neighbours",
        "the buffer has another length than the record",
    ];
    assert!(refusals.iter().map(|refusal| refusal.to_string()).eq(words));
    let error: Box<dyn std::error::Error> = Refusal::OneSidedWire.into();
    assert_eq!(error.to_string(), words[7]);
}
