//! The cut of a record to another type.

use crate::{Record, Refusal, Table, raw};

impl Table {
    /// Cuts a record down to the type `target`, writes it at bit 0 of `out` and answers its width. A part whose type
    /// the target keeps is kept whole, padding too; elsewhere padding is zero. Refuses: 2 to 5, 7, 9.
    ///
    /// ```
    /// use quelomavunt::{samples, Record, Table};
    /// let table = Table::from_file(&samples::TABLE_S)?;
    /// let record = Record::new(&[0b0110_0000], 0, 5);
    /// let mut out = [0];
    /// assert_eq!(table.prune(record, 9, &mut out)?, 2);
    /// assert_eq!(out, [0b0100_0000]);
    /// assert_eq!(table.prune(Record::new(&[0], 0, 4), 1, &mut out).unwrap_err().number, 7);
    /// # Ok::<(), quelomavunt::Refusal>(())
    /// ```
    pub fn prune(&self, record: Record, target: usize, out: &mut [u8]) -> Result<u64, Refusal> {
        self.number(|width| raw::prune(&self.columns(), &record.raw(), target as u64, width, out))
    }
}
