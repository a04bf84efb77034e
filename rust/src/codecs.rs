//! Compact and padded readers and writers.

use crate::{Record, Refusal, Stream, Table, raw};

impl Table {
    /// Reads a record from its compact bits and moves the stream's position; padding is zero. Refuses: 2 to 5, 8, 9.
    ///
    /// ```
    /// use quelomavunt::{samples, Stream, Table};
    /// let table = Table::from_file(&samples::TABLE_S)?;
    /// let mut out = [0];
    /// let mut stream = Stream { bytes: &[0b1100_0000], length: 2, position: 0 };
    /// assert_eq!(table.from_compact_bits(&mut stream, 5, &mut out).unwrap_err().number, 8);
    /// stream.length = 3;
    /// table.from_compact_bits(&mut stream, 5, &mut out)?;
    /// assert_eq!((stream.position, out), (3, [0b1100_0000]));
    /// # Ok::<(), quelomavunt::Refusal>(())
    /// ```
    #[allow(clippy::wrong_self_convention)]
    pub fn from_compact_bits(&self, stream: &mut Stream, node: usize, out: &mut [u8]) -> Result<(), Refusal> {
        let (bytes, length) = (stream.bytes, stream.length);
        let table = self.columns();
        Refusal::of(raw::from_compact_bits(&table, bytes, length, &mut stream.position, node as u64, out))
    }

    /// Reads a record from its padded bits and moves the stream's position; padding is kept as read. Refuses: 2 to
    /// 5, 8, 9.
    ///
    /// ```
    /// use quelomavunt::{samples, Stream, Table};
    /// let table = Table::from_file(&samples::TABLE_S)?;
    /// let mut out = [0];
    /// let mut stream = Stream::new(&[0b0110_0000]);
    /// table.from_padded_bits(&mut stream, 5, &mut out)?;
    /// assert_eq!((stream.position, out), (3, [0b0110_0000]));
    /// # Ok::<(), quelomavunt::Refusal>(())
    /// ```
    #[allow(clippy::wrong_self_convention)]
    pub fn from_padded_bits(&self, stream: &mut Stream, node: usize, out: &mut [u8]) -> Result<(), Refusal> {
        let (bytes, length) = (stream.bytes, stream.length);
        let table = self.columns();
        Refusal::of(raw::from_padded_bits(&table, bytes, length, &mut stream.position, node as u64, out))
    }

    /// Writes a record's compact bits at bit 0 of `out` and answers their number. Refuses: 2 to 5, 9.
    ///
    /// ```
    /// use quelomavunt::{samples, Record, Table};
    /// let table = Table::from_file(&samples::TABLE_S)?;
    /// let mut out = [0];
    /// assert_eq!(table.to_compact_bits(Record::new(&[0b0011_0000], 0, 7), &mut out)?, 3);
    /// assert_eq!(out, [0b0110_0000]);
    /// # Ok::<(), quelomavunt::Refusal>(())
    /// ```
    pub fn to_compact_bits(&self, record: Record, out: &mut [u8]) -> Result<u64, Refusal> {
        self.number(|bits| raw::to_compact_bits(&self.columns(), &record.raw(), bits, out))
    }

    /// Writes a record's padded bits at bit 0 of `out` and answers their number. Refuses: 2 to 5, 9.
    ///
    /// ```
    /// use quelomavunt::{samples, Record, Table};
    /// let table = Table::from_file(&samples::TABLE_S)?;
    /// let mut out = [0];
    /// assert_eq!(table.to_padded_bits(Record::new(&[0b0001_1000], 2, 5), &mut out)?, 3);
    /// assert_eq!(out, [0b0110_0000]);
    /// # Ok::<(), quelomavunt::Refusal>(())
    /// ```
    pub fn to_padded_bits(&self, record: Record, out: &mut [u8]) -> Result<u64, Refusal> {
        self.number(|bits| raw::to_padded_bits(&self.columns(), &record.raw(), bits, out))
    }
}
