//! Words, buffers and the hash state, as types and as records.

use super::bits::{all_bits, bits_of_number};
use super::types::{Shape, Types};

/// The largest n of a word type that a call speaks of.
pub const LAST_WORD: u64 = 31;

/// The largest n of a buffer type.
pub const LAST_BUFFER: u64 = 12;

/// The most bytes that a hash state buffers.
pub const MOST_BUFFERED: usize = 63;

/// Whether the type is 2^(2^n).
pub fn is_word(t: &Types, node: usize, n: u64) -> bool {
    t.word(node) == Some(n)
}

/// Whether the type is unit + 2^(8 * 2^n): a run of 2^n bytes that may be absent.
fn is_run(t: &Types, node: usize, n: u64) -> bool {
    match t.shape(node) {
        Shape::Sum(l, r) => t.shape(l) == Shape::Unit && is_word(t, r, n + 3),
        _ => false,
    }
}

/// Whether the type is buffer type n: a run of 2^n bytes times buffer type n - 1, which ends at 0 without a tail.
pub fn is_buffer(t: &Types, node: usize, n: u64) -> bool {
    match (n, t.shape(node)) {
        (0, _) => is_run(t, node, 0),
        (_, Shape::Product(l, r)) => is_run(t, l, n) && is_buffer(t, r, n - 1),
        _ => false,
    }
}

/// Whether the type is the hash state's: buffer 5, then a 64-bit count, then 256 bits.
pub fn is_ctx8(t: &Types, node: usize) -> bool {
    let Shape::Product(buffer, rest) = t.shape(node) else { return false };
    let Shape::Product(count, midstate) = t.shape(rest) else { return false };
    is_buffer(t, buffer, 5) && is_word(t, count, 6) && is_word(t, midstate, 8)
}

/// The width of buffer type n.
pub fn buffer_width(n: u64) -> u64 {
    (0..=n).map(|k| 1 + 8 * (1 << k)).sum()
}

/// The most bytes that buffer type n holds.
pub fn buffer_holds(n: u64) -> usize {
    (1 << (n + 1)) - 1
}

/// The record of buffer type n with these bytes: segments from n down, present exactly if that bit of the length is
/// set; absent ones are zero.
pub fn buffer_record(n: u64, data: &[u8]) -> Vec<bool> {
    let mut record = Vec::new();
    let mut rest = data;
    for k in (0..=n).rev() {
        let length = 1usize << k;
        let present = data.len() / length % 2 == 1;
        record.push(present);
        if present {
            let (run, after) = rest.split_at(length);
            record.extend(all_bits(run));
            rest = after;
        } else {
            record.extend(vec![false; 8 * length]);
        }
    }
    record
}

/// The record of the hash state: buffer, count, midstate.
pub fn ctx8_record(midstate: &[u8], bytes_hashed: u64, buffer: &[u8]) -> Vec<bool> {
    let mut record = buffer_record(5, buffer);
    record.extend(bits_of_number(bytes_hashed, 64));
    record.extend(all_bits(midstate));
    record
}
