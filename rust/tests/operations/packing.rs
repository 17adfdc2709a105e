//! What the tests share: the records of docs/FORMAT.md, the packing of records, shapes, and indexes.

use celduga::{Index, Record};

pub const SAMPLE: [u8; 21] = [
    0x00, 0x30, 0x00, 0x59, 0x22, 0xA0, 0x02, 0x00, 0x10, 0x00, 0x00, 0x20, 0x01, 0x00, 0x30, 0x00, 0x00, 0x20, 0x05,
    0x00, 0x40,
];
pub const SAMPLE_INDEX: [u8; 15] = [
    0x41, 0x84, 0x04, 0x51, 0x00, 0x95, 0x00, 0x00, 0x02, 0x00, 0x10, 0x03, 0x00, 0x40, 0x05,
];
/// The sample's index from terminal 4.
pub const SAMPLE_INDEX_FROM_4: [u8; 15] = [
    0x09, 0x14, 0x24, 0x81, 0x00, 0x95, 0x00, 0x30, 0x02, 0x00, 0x10, 0x00, 0x00, 0x40, 0x05,
];
pub const SAMPLE_BLOCKS: [&[u16]; 6] = [&[3, 2], &[1, 3], &[2, 4, 1], &[3], &[6], &[5]];
pub const EMPTY: [u8; 4] = [0; 4];
pub const TERMINAL: [u8; 4] = [0x00, 0x08, 0x00, 0x08];
pub const WIRE: [u8; 7] = [0x00, 0x10, 0x00, 0x1A, 0x00, 0x10, 0x00];
/// Two wires between the same terminals.
pub const DOUBLED: [u8; 11] = [0x00, 0x10, 0x00, 0x29, 0x00, 0x04, 0x00, 0x40, 0x00, 0x00, 0x00];

/// The record of these blocks, whatever rules they break.
pub fn record<B: AsRef<[u16]>>(blocks: &[B]) -> Vec<u8> {
    let fields: Vec<u16> = blocks
        .iter()
        .flat_map(|block| block.as_ref().iter().map(|w| w - 1))
        .collect();
    let mut bits = Vec::new();
    put(&mut bits, blocks.len(), 13);
    put(&mut bits, fields.len() / 2, 15);
    for block in blocks {
        bits.push(true);
        bits.extend(block.as_ref().iter().map(|_| false));
    }
    for field in fields {
        put(&mut bits, field.into(), 12);
    }
    bits.chunks(8)
        .map(|byte| {
            byte.iter()
                .zip((0..8).rev())
                .map(|(&bit, place)| u8::from(bit) << place)
                .sum()
        })
        .collect()
}

/// Appends a number of this width, the most significant bit first.
fn put(bits: &mut Vec<bool>, number: usize, width: usize) {
    bits.extend((0..width).rev().map(|place| number >> place & 1 == 1));
}

/// Numbers without a pattern, the same ones for a seed always.
pub struct Chance(u64);

impl Chance {
    pub fn new(seed: u64) -> Self {
        Chance(seed << 1 | 1)
    }

    /// A number below this one.
    pub fn below(&mut self, bound: usize) -> usize {
        // xorshift64*
        self.0 ^= self.0 >> 12;
        self.0 ^= self.0 << 25;
        self.0 ^= self.0 >> 27;
        (self.0.wrapping_mul(0x2545_F491_4F6C_DD1D) >> 33) as usize % bound
    }
}

/// The blocks of so many terminals and at most so many wires, which are any, doubled ones among them.
pub fn scattered(terminals: usize, wires: usize, chance: &mut Chance) -> Vec<Vec<u16>> {
    let mut blocks = vec![Vec::new(); terminals];
    for _ in 0..wires {
        let (v, w) = (chance.below(terminals), chance.below(terminals));
        if v != w {
            blocks[v].push(w as u16 + 1);
            blocks[w].push(v as u16 + 1);
        }
    }
    blocks
}

/// The blocks of 4,096 terminals in a ring, each with a wire to those at these steps on both sides.
pub fn ring(steps: &[u16]) -> Vec<Vec<u16>> {
    let around = |v: u16, step: u16| (v + step) % 4096 + 1;
    (0..4096)
        .map(|v| {
            steps
                .iter()
                .flat_map(|&step| [around(v, step), around(v, 4096 - step)])
                .collect()
        })
        .collect()
}

/// The blocks of a star: terminal 1 has a wire to each of the 4,095 others.
pub fn star() -> Vec<Vec<u16>> {
    core::iter::once((2..=4096).collect())
        .chain((2..=4096).map(|_| vec![1]))
        .collect()
}

/// Blocks of many shapes, the smallest and the largest too.
pub fn shapes() -> Vec<Vec<Vec<u16>>> {
    let mut chance = Chance::new(4096);
    let mut shapes = vec![
        vec![],
        vec![vec![]],
        vec![vec![]; 4096],
        SAMPLE_BLOCKS.map(<[u16]>::to_vec).to_vec(),
        ring(&[1]),
        ring(&[1, 2, 3, 4]),
        star(),
        scattered(700, 800, &mut chance),
        scattered(4096, 4000, &mut chance),
    ];
    shapes.extend((2..40).flat_map(|n| [n / 2, n, 2 * n].map(|m| scattered(n, m, &mut chance))));
    shapes
}

/// The indexes of a record: the one that is built, and others of its length.
pub fn indexes<'a>(record: Record<'a>, chance: &mut Chance) -> Vec<Index<'a>> {
    let len = record.sizes().index_len();
    let mut indexes = vec![
        record.index(),
        Index::new(record, vec![0; len]).unwrap(),
        Index::new(record, vec![0xFF; len]).unwrap(),
    ];
    for _ in 0..4 {
        // few marks, so that some climbs go far
        let sparse = (0..len).map(|_| (chance.below(256) & chance.below(256) & chance.below(256)) as u8);
        indexes.push(Index::new(record, sparse.collect::<Vec<u8>>()).unwrap());
        indexes.push(Index::new(record, (0..len).map(|_| chance.below(256) as u8).collect::<Vec<u8>>()).unwrap());
    }
    indexes
}
