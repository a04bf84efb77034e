//! Stand-in for the crate's `bit_encoding`: `BitIter`, `BitCollector` and `EarlyEndOfStreamError`.
//!
//! Bits run from the top of each byte, as in the published crate. What is not the published crate's:
//!
//! * `BitIter::window` ends at an exact bit. The published iterator ends at whole bytes, so an early end inside the
//!   last byte can't be asked of it.
//! * Where the iterator stands after an early end is this file's answer. (Bits taken before the end stay taken, as
//!   in the crate; whether the bits of a byte that was cut short count is not in the text.)

use std::fmt;

/// The stream ended before the value was complete.
#[derive(Clone, Copy, PartialEq, Eq, Debug)]
pub struct EarlyEndOfStreamError;

impl fmt::Display for EarlyEndOfStreamError {
    fn fmt(&self, f: &mut fmt::Formatter) -> fmt::Result {
        f.write_str("bitstream ended early")
    }
}

impl std::error::Error for EarlyEndOfStreamError {}

/// The bits of a run of bytes, with a count of those read.
#[derive(Clone, Debug)]
pub struct BitIter<I: Iterator<Item = u8>> {
    bytes: I,
    current: u8,
    used_of_current: u32,
    read: usize,
    available: usize,
}

impl<I: Iterator<Item = u8>> BitIter<I> {
    /// All bits of `bytes`.
    pub fn new(bytes: I) -> Self {
        BitIter { bytes, current: 0, used_of_current: 8, read: 0, available: usize::MAX }
    }

    /// The next bit.
    pub fn read_bit(&mut self) -> Result<bool, EarlyEndOfStreamError> {
        self.next().ok_or(EarlyEndOfStreamError)
    }

    /// The next eight bits. Takes none of them if there are fewer.
    pub fn read_u8(&mut self) -> Result<u8, EarlyEndOfStreamError> {
        if self.available < 8 {
            return Err(EarlyEndOfStreamError);
        }
        // Of the current byte one to eight bits are used, so the next byte is always needed.
        let before = self.current;
        self.current = self.bytes.next().ok_or(EarlyEndOfStreamError)?;
        self.count(8);
        let upper = before.checked_shl(self.used_of_current).unwrap_or(0);
        Ok(upper | self.current >> (8 - self.used_of_current))
    }

    /// How many bits were read.
    pub fn n_total_read(&self) -> usize {
        self.read
    }

    fn count(&mut self, bits: usize) {
        self.read += bits;
        self.available -= bits;
    }
}

impl<'a> BitIter<std::iter::Copied<std::slice::Iter<'a, u8>>> {
    /// The bits of `bytes` from number `start` up to, and without, number `end`.
    pub fn window(bytes: &'a [u8], start: usize, end: usize) -> Self {
        assert!(start <= end && end <= 8 * bytes.len(), "a window lies within its bytes");
        let mut rest = bytes[start / 8..].iter().copied();
        let (current, used_of_current) = match start % 8 {
            0 => (0, 8),
            used => (rest.next().expect("the window starts inside this byte"), used as u32),
        };
        BitIter { bytes: rest, current, used_of_current, read: 0, available: end - start }
    }
}

impl<I: Iterator<Item = u8>> Iterator for BitIter<I> {
    type Item = bool;

    #[inline]
    fn next(&mut self) -> Option<bool> {
        if self.available == 0 {
            return None;
        }
        if self.used_of_current == 8 {
            self.current = self.bytes.next()?;
            self.used_of_current = 0;
        }
        let bit = self.current >> (7 - self.used_of_current) & 1 == 1;
        self.used_of_current += 1;
        self.count(1);
        Some(bit)
    }
}

/// Bits gathered into bytes.
pub trait BitCollector: Sized {
    /// The bytes, zero bits after the last, and the number of bits.
    fn collect_bits(self) -> (Vec<u8>, usize);

    /// The bytes, if the number of bits is a multiple of eight; else that number.
    fn try_collect_bytes(self) -> Result<Vec<u8>, usize> {
        let (bytes, count) = self.collect_bits();
        if count % 8 == 0 {
            Ok(bytes)
        } else {
            Err(count)
        }
    }
}

impl<I: Iterator<Item = bool>> BitCollector for I {
    fn collect_bits(self) -> (Vec<u8>, usize) {
        let mut bytes = Vec::new();
        let mut count = 0;
        let mut last = 0u8;
        for bit in self {
            last = last << 1 | u8::from(bit);
            count += 1;
            if count % 8 == 0 {
                bytes.push(last);
                last = 0;
            }
        }
        if count % 8 != 0 {
            bytes.push(last << (8 - count % 8));
        }
        (bytes, count)
    }
}
