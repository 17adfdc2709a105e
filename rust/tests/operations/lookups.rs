//! Lookup, beside the single calls.

use crate::packing::*;
use celduga::*;

type Found = Result<Vec<(Vertex, Dfi)>, Refusal>;

/// What the single calls answer, up to the first refusal.
fn one_by_one(index: &Index<'_>, list: &[Vertex]) -> Found {
    list.iter().map(|&v| Ok((index.head(v)?, index.visit(v)?))).collect()
}

/// What Lookup answers and writes to lent lists, which stay where it refuses.
fn lent(index: &Index<'_>, list: &[u16]) -> Found {
    let before: [Vec<u16>; 2] = [0xA0B1, 0xC0D1].map(|first| (0..list.len() as u16).map(|i| first + i).collect());
    let [mut heads, mut visits] = before.clone();
    let found = lookup(
        index.record().as_bytes(),
        index.as_bytes(),
        list,
        &mut heads,
        &mut visits,
    );
    if found.is_err() {
        assert_eq!([&heads, &visits], [&before[0], &before[1]]);
    }
    let pair = |(&head, &visit): (&u16, &u16)| (Vertex(head.into()), Dfi(visit.into()));
    found.map(|()| heads.iter().zip(&visits).map(pair).collect())
}

/// Lookup and the single calls answer the same, which is this.
fn asked(index: &Index<'_>, list: &[u16]) -> Found {
    let vertices: Vec<Vertex> = list.iter().map(|&v| Vertex(v.into())).collect();
    let found = index.lookup(&vertices);
    assert_eq!(found, one_by_one(index, &vertices));
    assert_eq!(found, lent(index, list));
    found
}

#[test]
fn every_terminal_of_a_built_index() {
    for blocks in shapes() {
        let bytes = record(&blocks);
        let record = Record::new(&bytes).unwrap();
        let last = record.vertices().next_back();
        for index in [Some(record.index()), last.map(|v| record.index_from(v).unwrap())] {
            let Some(index) = index else { continue };
            let terminals: Vec<u16> = record.vertices().map(|v| v.0 as u16).collect();
            for list in terminals.chunks(MAX_LOOKUP_LEN) {
                assert_eq!(asked(&index, list).map(|found| found.len()), Ok(list.len()));
            }
        }
    }
}

#[test]
fn any_terminals_of_any_index() {
    let mut chance = Chance::new(512);
    let (mut answered, mut strangers, mut bad) = (0, 0, 0);
    for blocks in shapes().into_iter().filter(|blocks| blocks.len() < 1000) {
        let bytes = record(&blocks);
        let record = Record::new(&bytes).unwrap();
        for index in indexes(record, &mut chance) {
            for len in [0, 1, 2, 3, 5, 8] {
                // 0 and n + 1 among them
                let list: Vec<u16> = (0..len).map(|_| chance.below(blocks.len() + 2) as u16).collect();
                match asked(&index, &list) {
                    Ok(_) => answered += 1,
                    Err(Refusal::NoTerminal) => strangers += 1,
                    Err(refusal) => {
                        assert_eq!(refusal, Refusal::BadIndex);
                        bad += 1;
                    }
                }
            }
        }
    }
    // each way to end is reached often
    assert!(
        answered > 1000 && strangers > 1000 && bad > 1000,
        "{answered} {strangers} {bad}"
    );
}

#[test]
fn the_longest_list() {
    assert_eq!(MAX_LOOKUP_LEN, 512);
    let index = Record::new(&SAMPLE).unwrap().index();
    let list: Vec<u16> = (0..512).map(|i| i % 6 + 1).collect();
    let found = asked(&index, &list).unwrap();
    assert_eq!(found.len(), 512);
    assert_eq!(found[511], (Vertex(1), Dfi(3)));
    assert_eq!(index.lookup(&[Vertex(2); 513]), Err(Refusal::BadList));
}

#[test]
fn a_list_of_none() {
    let mut chance = Chance::new(0);
    for blocks in shapes() {
        let bytes = record(&blocks);
        for index in indexes(Record::new(&bytes).unwrap(), &mut chance) {
            assert_eq!(asked(&index, &[]), Ok(vec![]));
        }
    }
}
