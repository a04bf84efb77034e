//! Equality and order of records.

use crate::{Record, Refusal, Table, raw};
use std::cmp::Ordering;

impl Table {
    /// Whether two records have the same type and the same bits, padding too. Refuses: 2 to 5.
    ///
    /// ```
    /// use quelomavunt::{samples, Record, Table};
    /// let table = Table::from_file(&samples::TABLE_S)?;
    /// // The left halves of 11 and 10 are equal, whatever stands beside them.
    /// let (a, b) = ([0b1100_0000], [0b1000_0000]);
    /// assert!(table.equal(Record::new(&a, 0, 1), Record::new(&b, 0, 1))?);
    /// assert!(!table.equal(Record::new(&a, 0, 4), Record::new(&b, 0, 4))?);
    /// # Ok::<(), quelomavunt::Refusal>(())
    /// ```
    pub fn equal(&self, a: Record, b: Record) -> Result<bool, Refusal> {
        self.yes_no(|answer| raw::equal(&self.columns(), &a.raw(), &b.raw(), answer))
    }

    /// The order of two records: by class number, then by the first differing bit. Refuses: 2 to 5.
    ///
    /// ```
    /// use quelomavunt::{samples, Record, Table};
    /// use std::cmp::Ordering;
    /// let table = Table::from_file(&samples::TABLE_S)?;
    /// let bytes = [0b0110_0000];
    /// let order = table.compare(Record::new(&bytes, 0, 4), Record::new(&bytes, 1, 4))?;
    /// assert_eq!(order, Ordering::Less);
    /// # Ok::<(), quelomavunt::Refusal>(())
    /// ```
    pub fn compare(&self, a: Record, b: Record) -> Result<Ordering, Refusal> {
        let order = self.number(|order| raw::compare(&self.columns(), &a.raw(), &b.raw(), order))?;
        Ok(order.cmp(&1))
    }
}
