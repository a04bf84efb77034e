//! Simplicity values over lent memory: the safe Rust face of a proved library.
//!
//! A [`Table`] holds types: each node is unit, a sum or a product of earlier nodes. A [`Record`] is bytes, a bit
//! offset and a node; a [`Stream`] is bytes, a length and a position, in bits. Every call is a method of the table,
//! borrows what it reads, writes to a slice that the caller lends, and answers `Result<_, Refusal>`. A [`Refusal`]
//! says which rule was broken; nothing that was lent has changed then.
//!
//! A record that is made, read or cut starts at bit 0 of the output, takes [`bytes_for`] its width, and has zero
//! bits after its width; later bytes of the output stay.
//!
//! ```
//! use quelomavunt::{samples, Record, Stream, Table};
//!
//! let table = Table::from_file(&samples::TABLE_S)?;
//! // Node 5 is 2 + 2 × 2: three bits, with one bit of padding in a left value.
//! let mut out = [0; 1];
//! let mut compact = Stream::new(&[0b0100_0000]);
//! table.from_compact_bits(&mut compact, 5, &mut out)?;
//! assert_eq!(compact.position, 2);
//! assert_eq!(out, [0b0010_0000]);
//!
//! let record = Record::new(&out, 0, 5);
//! let payload = table.as_left(record)?;
//! assert_eq!((payload.offset, payload.node), (2, 1));
//! assert_eq!(table.as_right(record).unwrap_err().number, 7);
//! # Ok::<(), quelomavunt::Refusal>(())
//! ```
//!
//! | module | what it has |
//! |---|---|
//! | [`Table`], `tables`, `types`, `word_types` | tables, files, and questions about types |
//! | [`Record`], `views`, `comparing`, `lengths` | records: their parts, equality and order, lengths |
//! | `constructors`, `words`, `joins`, `buffers` | records made from parts, numbers and bytes |
//! | `codecs`, `cuts` | compact and padded readers and writers, the cut |
//! | [`raw`] | the exported calls as they are; the only unsafe code |

#![deny(unsafe_code)]
#![warn(missing_docs)]

mod buffers;
mod codecs;
mod comparing;
mod constructors;
mod cuts;
mod joins;
mod lengths;
pub mod raw;
mod records;
mod refusal;
pub mod samples;
mod tables;
mod types;
mod views;
mod word_types;
mod words;

pub use buffers::HashState;
pub use records::{Record, Stream};
pub use refusal::Refusal;
pub use tables::Table;
pub use types::{Facts, Shape};
pub use word_types::{buffer_width, word_width};

/// The bytes of stack that are enough for any call, as measured and tested: a thread with so much may make them all.
///
/// The compact codec, [`Table::compact_len`] and [`Table::prune`] walk down a type, and the walk calls itself, at most once
/// for each node on the way: they need it for the deepest tables; every other call takes less than 8 KiB. A thread of the
/// standard library has four times as much unless it is told otherwise.
///
/// ```
/// use quelomavunt::{samples, Table, STACK_BYTES};
///
/// let small = std::thread::Builder::new().stack_size(STACK_BYTES);
/// let asked = small.spawn(|| Table::from_file(&samples::TABLE_S).map(|table| table.len())).expect("a thread");
/// assert_eq!(asked.join().expect("no panic"), Ok(10));
/// ```
pub const STACK_BYTES: usize = 524_288;

/// The bytes that so many bits take: a record's output must be that long.
///
/// ```
/// assert_eq!([0, 1, 8, 9].map(quelomavunt::bytes_for), [0, 1, 1, 2]);
/// ```
pub fn bytes_for(bits: u64) -> usize {
    bits.div_ceil(8) as usize
}
