//! The iterators: neighbours, children, and the way up to a root.

use crate::packing::*;
use celduga::*;

/// The iterator gives these from the front, from the back, and from both ends in turn.
fn gives<I>(iterator: I, expected: &[Vertex])
where
    I: DoubleEndedIterator<Item = Vertex> + ExactSizeIterator + Clone,
{
    assert_eq!(iterator.len(), expected.len());
    assert_eq!(iterator.clone().collect::<Vec<_>>(), expected);
    assert!(iterator.clone().rev().eq(expected.iter().rev().copied()));
    for k in 0..=expected.len().min(5) {
        assert_eq!(iterator.clone().nth(k), expected.get(k).copied());
        assert_eq!(iterator.clone().nth_back(k), expected.iter().rev().nth(k).copied());
    }
    let (mut ends, mut left) = (iterator, expected.iter().copied());
    while left.len() > 0 {
        assert_eq!(ends.next(), left.next());
        assert_eq!(ends.len(), left.len());
        assert_eq!(ends.next_back(), left.next_back());
        assert_eq!(ends.len(), left.len());
    }
    // it stays at its end
    assert_eq!((ends.next(), ends.next_back(), ends.next()), (None, None, None));
}

#[test]
fn neighbours_are_those_of_the_unpacked_list() {
    for blocks in shapes() {
        let bytes = record(&blocks);
        let record = Record::new(&bytes).unwrap();
        let list = record.unpack();
        let mut before = 0;
        for v in record.vertices() {
            let degree = record.degree(v).unwrap();
            let block = &list[before..before + degree];
            before += degree;
            assert_eq!(neighbours(&bytes, &list, v), block);
            let block: Vec<Vertex> = block.iter().map(|&w| Vertex(w.into())).collect();
            gives(record.neighbours(v).unwrap(), &block);
        }
        assert_eq!(before, list.len());
    }
}

#[test]
fn children_are_found_one_by_one() {
    let mut chance = Chance::new(1);
    for blocks in shapes() {
        let bytes = record(&blocks);
        let record = Record::new(&bytes).unwrap();
        // the larger ones would take long
        let kinds = if blocks.len() < 1000 { usize::MAX } else { 1 };
        for index in indexes(record, &mut chance).into_iter().take(kinds) {
            for v in record.vertices() {
                let count = index.children(v).unwrap();
                let children: Vec<Vertex> = (1..=count).map(|j| index.child(v, j).unwrap()).collect();
                gives(index.children_of(v).unwrap(), &children);
            }
        }
    }
}

#[test]
fn children_of_known_records() {
    let sample = Record::new(&SAMPLE).unwrap().index();
    gives(sample.children_of(Vertex(1)).unwrap(), &[Vertex(3)]);
    gives(sample.children_of(Vertex(3)).unwrap(), &[Vertex(2), Vertex(4)]);
    gives(sample.children_of(Vertex(6)).unwrap(), &[]);
    let bytes = record(&star());
    let star = Record::new(&bytes).unwrap().index();
    let others: Vec<Vertex> = (2..=4096).map(Vertex).collect();
    gives(star.children_of(Vertex(1)).unwrap(), &others);
}

/// The path, and whether it ends at a root.
fn path(index: &Index<'_>, v: Vertex) -> (Vec<Vertex>, bool) {
    let mut items = index.path_to_root(v).unwrap();
    let mut path = Vec::new();
    for item in items.by_ref() {
        match item {
            Ok(u) => path.push(u),
            Err(refusal) => {
                assert_eq!(refusal, Refusal::BadIndex);
                assert_eq!((items.next(), items.next()), (None, None));
                return (path, false);
            }
        }
    }
    assert_eq!((items.next(), items.next()), (None, None));
    (path, true)
}

#[test]
fn the_path_to_a_root_is_the_ancestors() {
    let mut chance = Chance::new(2);
    let (mut roots, mut refused, mut rounds) = (0, 0, 0);
    for blocks in shapes().into_iter().filter(|blocks| blocks.len() < 100) {
        let bytes = record(&blocks);
        let record = Record::new(&bytes).unwrap();
        for index in indexes(record, &mut chance) {
            for v in record.vertices() {
                let (path, whole) = path(&index, v);
                assert_eq!(path[0], v);
                assert!(path.len() <= blocks.len());
                for (i, &u) in path.iter().enumerate().skip(1) {
                    assert_eq!(index.parent(path[i - 1]), Ok(Some(u)));
                }
                let parent = index.parent(path[path.len() - 1]);
                if whole {
                    assert_eq!(parent, Ok(None));
                    roots += 1;
                } else if parent == Err(Refusal::BadIndex) {
                    refused += 1;
                } else {
                    assert_eq!(path.len(), blocks.len());
                    rounds += 1;
                }
                for u in record.vertices().filter(|u| !path.contains(u)) {
                    assert_eq!(
                        index.ancestor(u, v),
                        if whole { Ok(false) } else { Err(Refusal::BadIndex) }
                    );
                }
                for &u in &path {
                    assert_eq!(index.ancestor(u, v), Ok(true));
                }
            }
        }
    }
    // each way to end is reached often
    assert!(
        roots > 1000 && refused > 1000 && rounds > 100,
        "{roots} {refused} {rounds}"
    );
}

#[test]
fn the_longest_path() {
    let bytes = record(&ring(&[1]));
    let index = Record::new(&bytes).unwrap().index();
    let up: Vec<Vertex> = (1..=4096).rev().map(Vertex).collect();
    assert_eq!(path(&index, Vertex(4096)), (up, true));
    // each of two terminals is the parent of the other
    let round = Index::new(Record::new(&WIRE).unwrap(), &[0, 0x50, 0, 0, 0, 0]).unwrap();
    assert_eq!(path(&round, Vertex(1)), (vec![Vertex(1), Vertex(2)], false));
}
