//! Celduga keeps graphs in a packed file format, with the neighbours of each vertex in a fixed order, and answers
//! questions about them: the depth-first search forest in that order, the bridges, and the parts that stay joined
//! whichever one edge is taken out. The operations are calls of a static library whose code is proved to answer right
//! for every input; this crate is the safe way to call them, without dependencies and without the standard library.
//!
//! A *record* is such a graph as bytes, of at most 4,096 *terminals* (vertices, which count from 1) and 16,384 *wires*
//! (edges), of which several may run between the same two terminals. Its *index* holds the forest, the visit numbers,
//! and a mark on each wire that is a bridge. `docs/FORMAT.md` of the project describes both, bit by bit. The search
//! begins at terminal 1, or at the one that the caller names.
//!
//! # Example
//!
//! A *section* is a class of terminals that stay joined whichever one wire is taken out (a 2-edge-connected component).
//!
//! ```
//! use celduga::{Record, Refusal, Vertex};
//!
//! // 1: 3 2; 2: 1 3; 3: 2 4 1; 4: 3; 5: 6; 6: 5
//! let bytes = [
//!     0x00, 0x30, 0x00, 0x59, 0x22, 0xA0, 0x02, 0x00, 0x10, 0x00, 0x00, 0x20, 0x01, 0x00, 0x30, 0x00, 0x00, 0x20,
//!     0x05, 0x00, 0x40,
//! ];
//! let record = Record::new(&bytes)?;
//! let sections: Vec<Vec<Vertex>> = record.sections().map(|section| section.terminals).collect();
//! assert_eq!(sections, [vec![Vertex(1), Vertex(2), Vertex(3)], vec![Vertex(4)], vec![Vertex(5)], vec![Vertex(6)]]);
//!
//! assert!(record.neighbours(Vertex(3))?.eq([Vertex(2), Vertex(4), Vertex(1)]));
//!
//! let index = record.index();
//! assert_eq!(index.parent(Vertex(2))?, Some(Vertex(3)));
//! assert_eq!(index.head(Vertex(2))?, index.head(Vertex(3))?);
//! assert_eq!(index.head(Vertex(7)), Err(Refusal::NoTerminal));
//! # Ok::<(), Refusal>(())
//! ```
//!
//! # Types
//!
//! | type | what it is |
//! |---|---|
//! | [`Record`] | bytes that are checked to be a record; the way to all the rest |
//! | [`Index`] | a record with its index, built or stored, for questions about single terminals and lists of them |
//! | [`Table`], [`Row`] | the answers for all terminals at once |
//! | [`Section`] | terminals that stay joined whichever one wire is taken out |
//! | [`Vertex`], [`Dfi`] | the number of a terminal, and the number of a visit |
//! | [`Neighbours`], [`ChildrenOf`], [`PathToRoot`], [`Sections`] | iterators over terminals, and over sections |
//! | [`Sizes`] | the numbers of terminals and wires, and the lengths that follow |
//! | [`Refusal`] | the error: the first rule that is broken |
//!
//! The functions below mirror the library's operations one by one. They take bytes and lent buffers, and answer for all
//! bytes, also for damaged records and for indexes that nobody built. Where one refuses, the buffer for the result is
//! left unchanged. [`file`](fn@file) and [`file_lists`] are lent no buffer, and return the record.
//!
//! What the crate does beside these calls is tested, not proved: it reads the header for [`Sizes`] and a terminal's
//! neighbours for the iterators, climbs by [`Index::parent`], gathers the terminals with one head to a [`Section`],
//! puts 0 for a terminal that 16 bits don't hold in [`Index::lookup`], finds the length of the record in
//! [`file`](fn@file), and puts the lists of [`file_lists`] in a row, or refuses 16 where they are longer than those of
//! a record.
//!
//! # The library
//!
//! The build script links `target/staticlib/libcelduga.a` in the project's root. Where it is missing, or older than the
//! crates that it is made from, `./build celduga` proves and makes it first, which takes minutes
//! (`cargo build -vv` shows it at work); `rt` is the toolchain of Rattle, the language that the library is written in.
//! Where the environment variable `CELDUGA_ARCHIVE` names an archive (a relative path counts from the package's
//! folder), that one is linked, and `rt` is not needed. The archive is for x86-64 Linux.
//!
//! A call has no state and may run on any thread. So much stack is taken at most:
//!
//! | call | stack |
//! |---|---|
//! | [`table`](fn@table), [`Record::table`], [`Record::table_from`], [`Record::sections`] | 192 KiB |
//! | [`check`], [`unpack`], [`loop_figure`], [`Record::new`], [`Record::unpack`], [`Record::loop_figure`] | 152 KiB |
//! | [`build`], [`Record::index`], [`Record::index_from`], [`file`](fn@file), [`file_lists`] | 152 KiB |
//! | [`lookup`], [`Index::lookup`] | 32 KiB |
//! | all others | 16 KiB |
//!
//! The calls of the first three lines take time linear in the record's bits, and those of the fourth on an index that
//! was built.

#![no_std]
#![warn(missing_docs)]
#![deny(unsafe_code)]

extern crate alloc;

#[allow(unsafe_code)]
mod ffi;
mod index;
mod neighbours;
mod numbers;
mod operations;
mod record;
mod refusal;
mod sizes;
mod table;
mod version;
mod walks;

pub use index::Index;
pub use neighbours::Neighbours;
pub use numbers::{Dfi, Vertex};
pub use operations::{
    ancestor, build, check, child, children, degree, file, file_lists, head, lookup, loop_figure, neighbours, parent,
    rank, select, table, unpack, visit, visited,
};
pub use record::Record;
pub use refusal::Refusal;
pub use sizes::{Sizes, MAX_LOOKUP_LEN};
pub use table::{Row, Section, Sections, Table};
pub use version::version;
pub use walks::{ChildrenOf, PathToRoot};
