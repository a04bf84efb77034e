//! Questions about word types, buffer types and the hash state's type. They never refuse with 3 or 4.

use crate::{Refusal, Table, raw};

/// The width of word n: 2^n. Refuses: 6 if n is above 31.
///
/// ```
/// assert_eq!(quelomavunt::word_width(5)?, 32);
/// assert_eq!(quelomavunt::word_width(32).unwrap_err().number, 6);
/// # Ok::<(), quelomavunt::Refusal>(())
/// ```
pub fn word_width(n: u64) -> Result<u64, Refusal> {
    let mut width = 0;
    Refusal::of(raw::word_width(n, &mut width))?;
    Ok(width)
}

/// The width of buffer type n. Refuses: 6 if n is above 12.
///
/// ```
/// assert_eq!(quelomavunt::buffer_width(5)?, 510);
/// # Ok::<(), quelomavunt::Refusal>(())
/// ```
pub fn buffer_width(n: u64) -> Result<u64, Refusal> {
    let mut width = 0;
    Refusal::of(raw::buffer_width(n, &mut width))?;
    Ok(width)
}

impl Table {
    /// The n of the word type of 2^n bits, for n up to 31. Refuses: 2, 7 for any other type.
    ///
    /// ```
    /// use quelomavunt::{samples, Table};
    /// let table = Table::from_file(&samples::TABLE_S)?;
    /// assert_eq!(table.as_word(4)?, 1);
    /// assert_eq!(table.as_word(3).unwrap_err().number, 7); // two bits wide, and no word
    /// # Ok::<(), quelomavunt::Refusal>(())
    /// ```
    pub fn as_word(&self, node: usize) -> Result<u32, Refusal> {
        self.number(|n| raw::as_word(&self.columns(), node as u64, n)).map(|n| n as u32)
    }

    /// Whether a node is buffer type n. Refuses: 2, 6 if n is above 12.
    ///
    /// ```
    /// use quelomavunt::Table;
    /// // 1, 2, 2^2, 2^4, 2^8, 1 + 2^8
    /// let table = Table::from_file(&[6, 0, 1, 0, 0, 2, 1, 1, 2, 2, 2, 2, 3, 3, 1, 0, 4])?;
    /// assert!(table.is_buffer8(5, 0)? && !table.is_buffer8(5, 1)?);
    /// # Ok::<(), quelomavunt::Refusal>(())
    /// ```
    pub fn is_buffer8(&self, node: usize, n: u64) -> Result<bool, Refusal> {
        self.yes_no(|answer| raw::is_buffer8(&self.columns(), node as u64, n, answer))
    }

    /// Whether a node is the type of the hash state. Refuses: 2.
    ///
    /// ```
    /// use quelomavunt::{samples, Table};
    /// assert!(!Table::from_file(&samples::TABLE_S)?.is_ctx8(7)?);
    /// # Ok::<(), quelomavunt::Refusal>(())
    /// ```
    pub fn is_ctx8(&self, node: usize) -> Result<bool, Refusal> {
        self.yes_no(|answer| raw::is_ctx8(&self.columns(), node as u64, answer))
    }
}
