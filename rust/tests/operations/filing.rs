//! Records from lists, there and back, and the refusals in order.

use crate::packing::*;
use celduga::*;
use std::cell::Cell;

/// The degrees, and the neighbours in a row.
fn lists<B: AsRef<[u16]>>(blocks: &[B]) -> (Vec<u16>, Vec<u16>) {
    let degrees = blocks.iter().map(|block| block.as_ref().len() as u16);
    let neighbours = blocks.iter().flat_map(|block| block.as_ref());
    (degrees.collect(), neighbours.copied().collect())
}

/// What both functions answer, by the lists in a row and by the blocks.
fn filed<B: AsRef<[u16]>>(blocks: &[B]) -> Result<Vec<u8>, Refusal> {
    let (degrees, neighbours) = lists(blocks);
    let found = file(&degrees, &neighbours);
    assert_eq!(file_lists(blocks), found);
    found
}

#[test]
fn the_records_of_the_page() {
    assert_eq!(filed(&SAMPLE_BLOCKS).unwrap(), SAMPLE);
    assert_eq!(filed::<[u16; 0]>(&[]).unwrap(), EMPTY);
    assert_eq!(filed::<[u16; 0]>(&[[]]).unwrap(), TERMINAL);
    assert_eq!(filed(&[[2], [1]]).unwrap(), WIRE);
    assert_eq!(filed(&[[2, 2], [1, 1]]).unwrap(), DOUBLED);
}

#[test]
fn every_record_is_filed_again_with_its_bytes() {
    for blocks in shapes() {
        let bytes = record(&blocks);
        let record = Record::new(&bytes).unwrap();
        let degrees: Vec<u16> = record.vertices().map(|v| record.degree(v).unwrap() as u16).collect();
        assert_eq!(file(&degrees, &record.unpack()), Ok(bytes.clone()));
        let neighbours = |v| record.neighbours(v).unwrap().map(|w| w.0 as u16).collect();
        let again: Vec<Vec<u16>> = record.vertices().map(neighbours).collect();
        assert_eq!(file_lists(&again), Ok(bytes.clone()));
    }
}

#[test]
fn what_is_filed_is_accepted_and_gives_the_lists() {
    for blocks in shapes() {
        let bytes = filed(&blocks).unwrap();
        let record = Record::new(&bytes).unwrap();
        let (degrees, neighbours) = lists(&blocks);
        assert_eq!(record.sizes().terminals(), degrees.len());
        assert_eq!(record.unpack(), neighbours);
        for (v, degree) in record.vertices().zip(degrees) {
            assert_eq!(record.degree(v), Ok(degree.into()));
        }
    }
}

#[test]
fn refusal_16() {
    let no = Err(Refusal::BadLists);
    // the number of degrees
    assert_eq!(filed(&vec![vec![]; 4096]).map(|bytes| bytes.len()), Ok(516));
    for len in [4097, 8192, 65536, 65538] {
        assert_eq!(filed(&vec![vec![]; len]), no);
    }
    // their sum
    let double = |wires: usize| [vec![2; wires], vec![1; wires]];
    assert_eq!(filed(&double(16384)).map(|bytes| bytes.len()), Ok(53252));
    assert_eq!(filed(&double(16385)), no);
    assert_eq!(filed(&[[1]]), no);
    assert_eq!(filed(&[&[2, 2][..], &[1]]), no);
    // the number of neighbours
    let (degrees, neighbours) = lists(&SAMPLE_BLOCKS);
    for len in 0..10 {
        assert_eq!(file(&degrees, &neighbours[..len]), no);
    }
    for more in [1, 2, 65536] {
        assert_eq!(file(&degrees, &[neighbours.clone(), vec![1; more]].concat()), no);
    }
    assert_eq!(file(&[], &[1, 1]), no);
    // sums that are right but for a multiple of 65,536
    assert_eq!(file(&[32768, 32768], &[]), no);
    assert_eq!(file(&[1, 1, 32768, 32768], &[2, 1]), no);
    assert_eq!(file(&[[0xFFFF; 4095].as_slice(), &[4095]].concat(), &[]), no);
    // before all others
    assert_eq!(file(&[1, 1], &[0]), no);
    assert_eq!(file(&[2, 0], &[2, 2, 2]), no);
}

#[test]
fn lists_are_never_cut() {
    let no = Err(Refusal::BadLists);
    // cut to 16 bits, the first length would be 0, or 1
    for len in [32769, 65535, 65536, 65537, 131_073] {
        assert_eq!(file_lists(&[vec![2; len], vec![1]]), no);
        assert_eq!(file_lists(&[vec![2], vec![1; len]]), no);
        assert_eq!(file_lists(&[vec![2; len]]), no);
    }
    // many more neighbours than there is room for
    let long = vec![1; 1 << 20];
    assert_eq!(file_lists(&vec![long.as_slice(); 4096]), no);
    assert_eq!(file_lists(&vec![long.as_slice(); 1 << 20]), no);
}

/// The first so many of these neighbours, and all of them when it is asked again.
struct Fickle<'a>(Cell<usize>, &'a [u16]);

impl AsRef<[u16]> for Fickle<'_> {
    fn as_ref(&self) -> &[u16] {
        &self.1[..self.0.replace(self.1.len())]
    }
}

#[test]
fn each_list_is_taken_once() {
    for more in [1, 32767, 32768, 65536] {
        let [ones, twos] = [vec![1; 1 + more], vec![2; 1 + more]];
        let lists = |len| [Fickle(Cell::new(len), &twos), Fickle(Cell::new(len), &ones)];
        assert_eq!(file_lists(&lists(0)), file(&[0, 0], &[]));
        assert_eq!(file_lists(&lists(1)).unwrap(), WIRE);
    }
}

#[test]
fn refusal_6() {
    let no = Err(Refusal::StrayNeighbour);
    for blocks in [SAMPLE_BLOCKS.map(<[u16]>::to_vec).to_vec(), ring(&[1])] {
        let n = blocks.len() as u16;
        for v in [0, n / 2, n - 1].map(usize::from) {
            let own = v as u16 + 1;
            let cut = blocks[v][0] + 4096;
            for w in [0, own, n + 1, cut, 4097, 0xFFFF] {
                let mut other = blocks.clone();
                other[v][0] = w;
                assert_eq!(filed(&other), no);
            }
        }
    }
    // before 8
    assert_eq!(filed(&[&[2, 2][..], &[1, 2]]), no);
    assert_eq!(filed(&[&[2, 3][..], &[]]), no);
}

#[test]
fn refusal_8() {
    let no = Err(Refusal::OneSidedWire);
    assert_eq!(filed(&[&[2, 3][..], &[1], &[2]]), no);
    assert_eq!(filed(&[&[2, 2, 2][..], &[1]]), no);
    assert_eq!(filed(&[&[2, 2][..], &[]]), no);
    assert_eq!(filed(&[[2, 2], [3, 3], [1, 1]]), no);
}

#[test]
fn any_lists_are_filed_as_their_record_is_checked() {
    let mut chance = Chance::new(16);
    let (mut accepted, mut refused) = (0, 0);
    for _ in 0..4000 {
        let n = 1 + chance.below(4);
        let wires = chance.below(4);
        let mut blocks = scattered(n, wires, &mut chance);
        if let Some(w) = blocks[chance.below(n)].first_mut() {
            if chance.below(2) == 0 {
                *w = 1 + chance.below(n + 1) as u16;
            }
        }
        let found = filed(&blocks);
        let bytes = record(&blocks);
        match check(&bytes) {
            Ok(()) => accepted += 1,
            Err(_) => refused += 1,
        }
        assert_eq!(found, check(&bytes).map(|()| bytes));
    }
    assert!(accepted > 1000 && refused > 500, "{accepted} {refused}");
}
