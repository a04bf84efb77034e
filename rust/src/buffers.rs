//! Buffers and the hash state. Constructors as in `constructors`; bytes are big-endian.

use crate::{Refusal, Table, raw};

/// The state of a SHA-256 engine.
#[derive(Clone, Copy, PartialEq, Eq, Debug)]
pub struct HashState<'a> {
    /// The midstate.
    pub midstate: [u8; 32],
    /// How many bytes were hashed. It is not tied to the buffer's length.
    pub bytes_hashed: u64,
    /// The bytes that wait: up to 63.
    pub buffer: &'a [u8],
}

impl Table {
    /// The record of buffer type n with these bytes: up to 2^(n+1) - 1 of them. Refuses: 2 to 4, 6 if n is above 12
    /// or there are more bytes, 7 if `result` is not that type, 9.
    ///
    /// ```
    /// use quelomavunt::Table;
    /// // 1, 2, 2^2, 2^4, 2^8, 1 + 2^8
    /// let table = Table::from_file(&[6, 0, 1, 0, 0, 2, 1, 1, 2, 2, 2, 2, 3, 3, 1, 0, 4])?;
    /// let mut out = [0; 2];
    /// assert_eq!(table.buffer8_two_n_plus_one(0, &[0xA5], 5, &mut out)?, 9);
    /// assert_eq!(out, [0xD2, 0x80]);
    /// # Ok::<(), quelomavunt::Refusal>(())
    /// ```
    pub fn buffer8_two_n_plus_one(&self, n: u64, data: &[u8], result: usize, out: &mut [u8]) -> Result<u64, Refusal> {
        self.number(|width| raw::buffer8_two_n_plus_one(&self.columns(), n, data, result as u64, width, out))
    }

    /// The record of a hash state: 830 bits. Refuses: 2 to 4, 6 if more than 63 bytes wait, 7 if `result` is not its
    /// type, 9.
    ///
    /// ```
    /// use quelomavunt::{samples, HashState, Table};
    /// let table = Table::from_file(&samples::TABLE_S)?;
    /// let state = HashState { midstate: [0; 32], bytes_hashed: 64, buffer: &[0; 64] };
    /// assert_eq!(table.ctx8(state, 0, &mut [0; 104]).unwrap_err().number, 6);
    /// # Ok::<(), quelomavunt::Refusal>(())
    /// ```
    pub fn ctx8(&self, state: HashState, result: usize, out: &mut [u8]) -> Result<u64, Refusal> {
        self.number(|width| {
            let HashState { midstate, bytes_hashed, buffer } = &state;
            raw::ctx8(&self.columns(), midstate, *bytes_hashed, buffer, result as u64, width, out)
        })
    }
}
