//! Records and streams.

use crate::raw::RawRecord;

/// A record: bytes, the bit at which it starts, and its type's node in the table that a call is made on.
///
/// It borrows its bytes; making one checks nothing, every call does.
#[derive(Clone, Copy, PartialEq, Eq, Debug)]
pub struct Record<'a> {
    /// The bytes it lies in; bits run from the top of each byte.
    pub bytes: &'a [u8],
    /// The bit at which it starts.
    pub offset: u64,
    /// Its type.
    pub node: usize,
}

impl<'a> Record<'a> {
    /// The record of type `node` at bit `offset` of `bytes`.
    pub fn new(bytes: &'a [u8], offset: u64, node: usize) -> Record<'a> {
        Record { bytes, offset, node }
    }

    /// As the exported calls take it.
    pub fn raw(self) -> RawRecord<'a> {
        RawRecord { bytes: self.bytes, offset: self.offset, node: self.node as u64 }
    }

    /// A part of it, in the same bytes.
    pub(crate) fn part(self, offset: u64, node: u64) -> Record<'a> {
        Record { bytes: self.bytes, offset, node: node as usize }
    }
}

/// A stream: bytes, how many of their bits count, and the bit to read next. An accepted reading moves the position.
#[derive(Clone, Copy, PartialEq, Eq, Debug)]
pub struct Stream<'a> {
    /// The bytes; bits run from the top of each byte.
    pub bytes: &'a [u8],
    /// How many bits count, from bit 0 of the bytes.
    pub length: u64,
    /// The bit to read next.
    pub position: u64,
}

impl<'a> Stream<'a> {
    /// All bits of `bytes`, from the first.
    pub fn new(bytes: &'a [u8]) -> Stream<'a> {
        Stream { bytes, length: 8 * bytes.len() as u64, position: 0 }
    }
}
