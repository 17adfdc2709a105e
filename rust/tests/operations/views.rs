//! `Record`, `Index` and `Table`, over the same operations.

use crate::packing::*;
use celduga::*;

#[test]
fn the_sample() {
    let record = Record::new(&SAMPLE).unwrap();
    assert_eq!(record.as_bytes(), SAMPLE);
    assert_eq!((record.sizes().terminals(), record.sizes().wires()), (6, 5));
    assert_eq!(record.unpack(), SAMPLE_BLOCKS.concat());
    assert_eq!(record.loop_figure(), 1);
    assert_eq!(record.degree(Vertex(3)), Ok(3));
    let index = record.index();
    assert_eq!(index.record(), record);
    assert_eq!(index.as_bytes(), SAMPLE_INDEX);
    assert_eq!(index.parent(Vertex(1)), Ok(None));
    assert_eq!(index.parent(Vertex(2)), Ok(Some(Vertex(3))));
    assert_eq!(index.head(Vertex(2)), Ok(Vertex(1)));
    assert_eq!(index.ancestor(Vertex(1), Vertex(4)), Ok(true));
    assert_eq!(index.ancestor(Vertex(4), Vertex(1)), Ok(false));
    assert_eq!(index.children(Vertex(3)), Ok(2));
    assert_eq!(index.child(Vertex(3), 2), Ok(Vertex(4)));
    assert_eq!(index.visit(Vertex(2)), Ok(Dfi(3)));
    assert_eq!(index.visited(Dfi(3)), Ok(Vertex(2)));
    assert_eq!(
        index.lookup(&[Vertex(4), Vertex(2)]),
        Ok(vec![(Vertex(4), Dfi(4)), (Vertex(1), Dfi(3))])
    );
    assert_eq!(index.into_bytes(), SAMPLE_INDEX);
}

#[test]
fn an_index_owns_its_bytes_or_borrows_them() {
    let record = Record::new(&SAMPLE).unwrap();
    let borrowed = Index::new(record, &SAMPLE_INDEX).unwrap();
    let owned = Index::new(record, SAMPLE_INDEX.to_vec()).unwrap();
    assert_eq!(borrowed, owned);
    assert_eq!(borrowed, record.index());
    // it outlives the view that it was made from
    let index = { Record::new(&SAMPLE).unwrap().index() };
    assert_eq!(index.head(Vertex(6)), Ok(Vertex(6)));
}

#[test]
fn the_empty_record() {
    let record = Record::new(&EMPTY).unwrap();
    assert_eq!(record.vertices().len(), 0);
    assert_eq!(record.unpack(), []);
    assert_eq!(record.loop_figure(), 0);
    assert_eq!(record.degree(Vertex(1)), Err(Refusal::NoTerminal));
    let index = record.index();
    assert_eq!(index.as_bytes(), []);
    assert_eq!(index.head(Vertex(1)), Err(Refusal::NoTerminal));
    assert_eq!(index.lookup(&[]), Ok(vec![]));
    assert_eq!(index.lookup(&[Vertex(1)]), Err(Refusal::NoTerminal));
    assert_eq!(record.index_from(Vertex(0)), Ok(index));
    assert_eq!(record.table_from(Vertex(0)), Ok(record.table()));
    assert_eq!(record.sections().len(), 0);
}

#[test]
fn the_sample_from_another_terminal() {
    let record = Record::new(&SAMPLE).unwrap();
    let index = record.index_from(Vertex(4)).unwrap();
    assert_eq!(index.as_bytes(), SAMPLE_INDEX_FROM_4);
    assert_eq!(index.visited(Dfi(1)), Ok(Vertex(4)));
    assert_eq!(index.parent(Vertex(4)), Ok(None));
    assert_eq!(index.parent(Vertex(1)), Ok(Some(Vertex(2))));
    let heads: Vec<usize> = record.vertices().map(|v| index.head(v).unwrap().0).collect();
    assert_eq!(heads, [3, 3, 3, 4, 5, 6]);
}

/// Some starts of a record, its first and its last among them.
fn starts(record: Record<'_>) -> impl Iterator<Item = Vertex> {
    let n = record.sizes().terminals();
    record.vertices().filter(move |v| n < 40 || v.0 % 1000 == 1 || v.0 == n)
}

#[test]
fn a_start_is_a_root_and_the_first_visit() {
    for blocks in shapes() {
        let bytes = record(&blocks);
        let record = Record::new(&bytes).unwrap();
        for start in starts(record) {
            let row = record.table_from(start).unwrap().row(start).unwrap();
            assert_eq!((row.visit, row.parent, row.head), (Dfi(1), None, start));
        }
        if let Some(first) = record.vertices().next() {
            assert_eq!(record.index_from(first), Ok(record.index()));
            assert_eq!(record.table_from(first), Ok(record.table()));
        }
    }
}

#[test]
fn the_sections_have_the_same_terminals_from_every_start() {
    let mut moved = 0;
    for blocks in shapes() {
        let bytes = record(&blocks);
        let record = Record::new(&bytes).unwrap();
        for start in starts(record) {
            let sections = record.table_from(start).unwrap().sections();
            assert_eq!(sections.len(), record.sections().len());
            for (from, first) in sections.zip(record.sections()) {
                assert_eq!(from.terminals, first.terminals);
                assert!(from.terminals.contains(&from.head));
                moved += usize::from(from.head != first.head);
            }
        }
    }
    // the heads themselves often differ
    assert!(moved > 100, "{moved}");
}

#[test]
fn the_loop_figure_is_what_the_forest_leaves_out() {
    for blocks in shapes() {
        let bytes = record(&blocks);
        let record = Record::new(&bytes).unwrap();
        let (n, m) = (record.sizes().terminals(), record.sizes().wires());
        for start in starts(record) {
            let table = record.table_from(start).unwrap();
            let roots = table.rows().filter(|row| row.parent.is_none()).count();
            assert_eq!(record.loop_figure() + n, m + roots);
            // each wire of the forest leads to a child
            let children: usize = table.rows().map(|row| row.children).sum();
            assert_eq!(record.loop_figure() + children, m);
        }
    }
}

#[test]
fn one_wire() {
    let record = Record::new(&WIRE).unwrap();
    assert_eq!(record.unpack(), [2, 1]);
    assert!(record.vertices().eq([Vertex(1), Vertex(2)]));
    let index = record.index();
    assert_eq!(index.parent(Vertex(2)), Ok(Some(Vertex(1))));
    // the wire is a bridge
    assert_eq!(index.head(Vertex(2)), Ok(Vertex(2)));
}

#[test]
fn doubled_wires() {
    let record = Record::new(&DOUBLED).unwrap();
    assert_eq!(record.sizes().wires(), 2);
    assert_eq!(record.degree(Vertex(1)), Ok(2));
    assert!(record.neighbours(Vertex(1)).unwrap().eq([Vertex(2), Vertex(2)]));
    let index = record.index();
    // one child, by the first of the two wires
    assert_eq!(index.children(Vertex(1)), Ok(1));
    assert!(index.children_of(Vertex(1)).unwrap().eq([Vertex(2)]));
    assert_eq!(index.parent(Vertex(2)), Ok(Some(Vertex(1))));
    // neither wire is a bridge
    assert_eq!(index.head(Vertex(2)), Ok(Vertex(1)));
    assert_eq!(record.sections().len(), 1);
}

#[test]
fn a_bridge_beside_a_doubled_wire() {
    let bytes = record(&[&[2, 2][..], &[1, 3, 1], &[2]]);
    for start in 1..=3 {
        let index = Record::new(&bytes).unwrap().index_from(Vertex(start)).unwrap();
        assert_eq!(index.head(Vertex(1)), index.head(Vertex(2)));
        assert_ne!(index.head(Vertex(3)), index.head(Vertex(2)));
    }
}

#[test]
fn visit_numbers_are_no_terminals() {
    // the path 1, 3, 4, 2
    let bytes = record(&[&[3][..], &[4], &[1, 4], &[3, 2]]);
    let index = Record::new(&bytes).unwrap().index();
    for (i, v) in (1..).zip([1, 3, 4, 2]) {
        assert_eq!(index.visited(Dfi(i)), Ok(Vertex(v)));
        assert_eq!(index.visit(Vertex(v)), Ok(Dfi(i)));
    }
}

#[test]
fn the_largest_record() {
    let blocks = ring(&[1, 2, 3, 4]);
    let bytes = record(&blocks);
    let record = Record::new(&bytes).unwrap();
    let sizes = record.sizes();
    assert_eq!((sizes.terminals(), sizes.wires()), (4096, 16384));
    assert_eq!((bytes.len(), sizes.record_len()), (53764, 53764));
    assert_eq!(
        (sizes.index_len(), sizes.work_len(), sizes.list_len()),
        (19968, 32768, 32768)
    );
    assert_eq!(record.unpack(), blocks.concat());
    assert_eq!(record.loop_figure(), 12289);
    let index = record.index();
    for v in record.vertices() {
        assert_eq!(index.head(v), Ok(Vertex(1)));
        assert_eq!(index.visited(index.visit(v).unwrap()), Ok(v));
    }
}

#[test]
fn the_table_is_what_the_index_answers() {
    for blocks in shapes() {
        let bytes = record(&blocks);
        let record = Record::new(&bytes).unwrap();
        same_answers(&record.index(), &record.table());
        if let Some(last) = record.vertices().next_back() {
            same_answers(&record.index_from(last).unwrap(), &record.table_from(last).unwrap());
        }
    }
}

/// The rows of a table are what an index answers.
fn same_answers(index: &Index<'_>, table: &Table) {
    let record = index.record();
    assert!(table.rows().map(|row| row.terminal).eq(record.vertices()));
    assert!(table.rows().rev().map(|row| row.terminal).eq(record.vertices().rev()));
    for (v, row) in record.vertices().zip(table.rows()) {
        let answers = Row {
            terminal: v,
            visit: index.visit(v).unwrap(),
            parent: index.parent(v).unwrap(),
            children: index.children(v).unwrap(),
            head: index.head(v).unwrap(),
        };
        assert_eq!((row, table.row(v)), (answers, Ok(answers)));
        assert_eq!((table.visit(v), table.parent(v)), (Ok(row.visit), Ok(row.parent)));
        assert_eq!((table.children(v), table.head(v)), (Ok(row.children), Ok(row.head)));
    }
}

/// The sections, the roots and the ones of the index's string B, from this start.
fn counts(bytes: &[u8], start: Vertex) -> (usize, usize, usize) {
    let record = Record::new(bytes).unwrap();
    let table = record.table_from(start).unwrap();
    let roots = table.rows().filter(|row| row.parent.is_none()).count();
    let places = record.sizes().terminals() + record.sizes().list_len();
    let index = record.index_from(start).unwrap();
    let ones = rank(index.as_bytes(), 2 * 8 * places.div_ceil(8), places, places);
    (table.sections().count(), roots, ones)
}

#[test]
fn the_sections_are_as_many_as_roots_and_half_the_ones_of_b() {
    assert_eq!(counts(&EMPTY, Vertex(0)), (0, 0, 0));
    assert_eq!(counts(&SAMPLE, Vertex(1)), (4, 2, 4));
    assert_eq!(counts(&SAMPLE, Vertex(4)), (4, 2, 4));
    assert_eq!(counts(&DOUBLED, Vertex(1)), (1, 1, 0));
    for blocks in shapes() {
        let bytes = record(&blocks);
        for start in starts(Record::new(&bytes).unwrap()) {
            let (sections, roots, ones) = counts(&bytes, start);
            assert_eq!(2 * sections, 2 * roots + ones);
        }
    }
}

/// The heads and the terminals of the sections.
fn sections(blocks: &[Vec<u16>]) -> Vec<(usize, Vec<usize>)> {
    Record::new(&record(blocks))
        .unwrap()
        .sections()
        .map(|section| (section.head.0, section.terminals.iter().map(|v| v.0).collect()))
        .collect()
}

#[test]
fn the_sections_are_the_terminals_by_their_heads() {
    for blocks in shapes() {
        let bytes = record(&blocks);
        let record = Record::new(&bytes).unwrap();
        let index = record.index();
        let mut grouped: Vec<(usize, Vec<usize>)> = Vec::new();
        for v in record.vertices() {
            let head = index.head(v).unwrap().0;
            match grouped.iter_mut().find(|(of, _)| *of == head) {
                Some((_, terminals)) => terminals.push(v.0),
                None => grouped.push((head, vec![v.0])),
            }
        }
        assert_eq!(sections(&blocks), grouped);
    }
}

#[test]
fn the_sections_of_known_records() {
    assert_eq!(sections(&[]), []);
    assert_eq!(sections(&[vec![]]), [(1, vec![1])]);
    let alone: Vec<_> = (1..=4096).map(|v| (v, vec![v])).collect();
    assert_eq!(sections(&vec![vec![]; 4096]), alone);
    // each wire of a star is a bridge
    assert_eq!(sections(&star()), alone);
    for steps in [&[1][..], &[1, 2, 3, 4]] {
        assert_eq!(sections(&ring(steps)), [(1, (1..=4096).collect())]);
    }
    let sample = [(1, vec![1, 2, 3]), (4, vec![4]), (5, vec![5]), (6, vec![6])];
    assert_eq!(sections(&SAMPLE_BLOCKS.map(<[u16]>::to_vec)), sample);
    // the head need not be the least terminal
    let blocks = [vec![3], vec![4, 3], vec![1, 2, 4], vec![3, 2]];
    assert_eq!(sections(&blocks), [(1, vec![1]), (3, vec![2, 3, 4])]);
    // the terminals of a section need not stand together
    let blocks = [vec![4, 5], vec![3, 6], vec![6, 2], vec![5, 1], vec![1, 4], vec![2, 3]];
    assert_eq!(sections(&blocks), [(1, vec![1, 4, 5]), (2, vec![2, 3, 6])]);
}

#[test]
fn a_table_outlives_its_record() {
    let table = { Record::new(&record(&SAMPLE_BLOCKS)).unwrap().table() };
    let record = Record::new(&SAMPLE).unwrap();
    assert_eq!(table, record.table());
    assert!(table.sections().eq(record.sections()));
}

#[test]
fn views_go_to_other_threads() {
    let index = Record::new(&SAMPLE).unwrap().index();
    let heads: Vec<_> = std::thread::scope(|scope| {
        let asked: Vec<_> = index
            .record()
            .vertices()
            .map(|v| (v, &index))
            .map(|(v, index)| scope.spawn(move || index.head(v)))
            .collect();
        asked.into_iter().map(|thread| thread.join().unwrap()).collect()
    });
    assert_eq!(heads, [1, 1, 1, 4, 5, 6].map(|head| Ok(Vertex(head))));
}

#[test]
fn sizes_of_any_header() {
    assert_eq!(Sizes::of(&SAMPLE[..3]), None);
    let highest = Sizes::of(&[0xFF; 4]).unwrap();
    assert_eq!((highest.terminals(), highest.wires()), (8191, 32767));
    let mixed = Sizes::of(&[0xA5, 0x1C, 0x5A, 0xC3]).unwrap();
    assert_eq!((mixed.terminals(), mixed.wires()), (0b1010010100011, 0b100010110101100));
}
