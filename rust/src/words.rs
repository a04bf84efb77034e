//! Words from numbers, bytes and byte arrays. Constructors as in `constructors`; bytes are big-endian.

use crate::{Refusal, Table, raw};

/// Constructors of a word from a small number.
macro_rules! from_number {
    ($($name:ident $bits:literal $most:literal,)*) => {$(
        #[doc = concat!("The word of ", $bits, " bits with this number. Refuses: 2 to 4, 6 if it is above ", $most, ",")]
        #[doc = "7 if `result` is not that word, 9."]
        ///
        /// ```
        /// # use quelomavunt::Table;
        /// let table = Table::from_file(&[4, 0, 1, 0, 0, 2, 1, 1, 2, 2, 2])?; // 1, 2, 2^2, 2^4
        /// let mut out = [0];
        /// assert_eq!(table.u2(3, 2, &mut out)?, 2);
        /// assert_eq!(out, [0b1100_0000]);
        /// assert_eq!(table.u1(2, 1, &mut out).unwrap_err().number, 6);
        /// # Ok::<(), quelomavunt::Refusal>(())
        /// ```
        pub fn $name(&self, number: u64, result: usize, out: &mut [u8]) -> Result<u64, Refusal> {
            self.number(|width| raw::$name(&self.columns(), number, result as u64, width, out))
        }
    )*};
}

/// Constructors of a word from its bytes.
macro_rules! from_bytes {
    ($($name:ident $bits:literal $bytes:literal,)*) => {$(
        #[doc = concat!("The word of ", $bits, " bits from ", $bytes, " big-endian bytes. Refuses: 2 to 4, 6 for another")]
        #[doc = "length, 7 if `result` is not that word, 9."]
        ///
        /// ```
        /// # use quelomavunt::Table;
        /// let table = Table::from_file(&[5, 0, 1, 0, 0, 2, 1, 1, 2, 2, 2, 2, 3, 3])?; // 1, 2, 2^2, 2^4, 2^8
        /// let mut out = [0];
        /// assert_eq!(table.u8(&[0xA5], 4, &mut out)?, 8);
        /// assert_eq!(out, [0xA5]);
        /// assert_eq!(table.u16(&[0xA5], 4, &mut out).unwrap_err().number, 6);
        /// # Ok::<(), quelomavunt::Refusal>(())
        /// ```
        pub fn $name(&self, data: &[u8], result: usize, out: &mut [u8]) -> Result<u64, Refusal> {
            self.number(|width| raw::$name(&self.columns(), data, result as u64, width, out))
        }
    )*};
}

impl Table {
    from_number! {
        u1 "1" "1",
        u2 "2" "3",
        u4 "4" "15",
    }

    from_bytes! {
        u8 "8" "1",
        u16 "16" "2",
        u32 "32" "4",
        u64 "64" "8",
        u128 "128" "16",
        u256 "256" "32",
        u512 "512" "64",
    }

    /// The word of all bits of a byte array. Refuses: 2 to 4, 6 if the length is no power of two or longer than any
    /// word, 7 if `result` is not that word, 9.
    ///
    /// ```
    /// use quelomavunt::Table;
    /// let table = Table::from_file(&[6, 0, 1, 0, 0, 2, 1, 1, 2, 2, 2, 2, 3, 3, 2, 4, 4])?;
    /// let mut out = [0; 2];
    /// assert_eq!(table.from_byte_array(&[1, 2], 5, &mut out)?, 16);
    /// assert_eq!(table.from_byte_array(&[1, 2, 3], 5, &mut out).unwrap_err().number, 6);
    /// # Ok::<(), quelomavunt::Refusal>(())
    /// ```
    #[allow(clippy::wrong_self_convention)]
    pub fn from_byte_array(&self, data: &[u8], result: usize, out: &mut [u8]) -> Result<u64, Refusal> {
        self.number(|width| raw::from_byte_array(&self.columns(), data, result as u64, width, out))
    }
}
