//! Lengths of records.

use crate::{Record, Refusal, Table, raw};

impl Table {
    /// How many compact bits a record has: not below its type's least length ([`crate::Facts::least`]), nor above its
    /// width. Refuses: 2 to 5.
    ///
    /// ```
    /// use quelomavunt::{samples, Record, Table};
    /// let table = Table::from_file(&samples::TABLE_S)?;
    /// let record = Record::new(&[0b0010_0000], 0, 5);
    /// assert_eq!((table.compact_len(record)?, table.padded_len(record)?), (2, 3));
    /// # Ok::<(), quelomavunt::Refusal>(())
    /// ```
    pub fn compact_len(&self, record: Record) -> Result<u64, Refusal> {
        self.number(|bits| raw::compact_len(&self.columns(), &record.raw(), bits))
    }

    /// How many padded bits a record has: its type's width. Refuses: 2 to 5. The example is at
    /// [`Table::compact_len`].
    pub fn padded_len(&self, record: Record) -> Result<u64, Refusal> {
        self.number(|bits| raw::padded_len(&self.columns(), &record.raw(), bits))
    }
}
