//! Words joined to the next, and words read from a stream.

use crate::{Record, Refusal, Stream, Table, raw};

impl Table {
    /// Two records of the same word type joined to the next. Refuses: 2 to 5, 7, 9.
    ///
    /// ```
    /// use quelomavunt::{samples, Record, Table};
    /// let table = Table::from_file(&samples::TABLE_S)?;
    /// let mut out = [0];
    /// assert_eq!(table.word_product(Record::new(&[0x80], 0, 1), Record::new(&[0x00], 0, 6), 4, &mut out)?, 2);
    /// assert_eq!(out, [0x80]);
    /// # Ok::<(), quelomavunt::Refusal>(())
    /// ```
    pub fn word_product(&self, a: Record, b: Record, result: usize, out: &mut [u8]) -> Result<u64, Refusal> {
        self.number(|width| raw::word_product(&self.columns(), &a.raw(), &b.raw(), result as u64, width, out))
    }

    /// Reads the word of 2^n bits, of type `node`, and moves the stream's position. Refuses: 2 to 5, 6 if n is above
    /// 31, 7 if `node` is not word n, 8, 9.
    ///
    /// ```
    /// use quelomavunt::{samples, Stream, Table};
    /// let table = Table::from_file(&samples::TABLE_S)?;
    /// let mut out = [0];
    /// let mut stream = Stream::new(&[0b0110_0000]);
    /// table.word_from_bits(&mut stream, 1, 4, &mut out)?;
    /// assert_eq!((stream.position, out), (2, [0b0100_0000]));
    /// # Ok::<(), quelomavunt::Refusal>(())
    /// ```
    pub fn word_from_bits(&self, stream: &mut Stream, n: u64, node: usize, out: &mut [u8]) -> Result<(), Refusal> {
        let (bytes, length) = (stream.bytes, stream.length);
        let table = self.columns();
        Refusal::of(raw::word_from_bits(&table, bytes, length, &mut stream.position, n, node as u64, out))
    }
}
