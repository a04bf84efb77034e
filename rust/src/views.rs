//! Views of a record: the parts of a sum or a product where they lie.

use crate::{Record, Refusal, Table, raw};

impl Table {
    /// The payload of a left record. Refuses: 2 to 5, 7.
    ///
    /// ```
    /// use quelomavunt::{samples, Record, Table};
    /// let table = Table::from_file(&samples::TABLE_S)?;
    /// let bytes = [0b0110_0000];
    /// assert_eq!(table.as_left(Record::new(&bytes, 0, 5))?, Record::new(&bytes, 2, 1));
    /// # Ok::<(), quelomavunt::Refusal>(())
    /// ```
    pub fn as_left<'a>(&self, record: Record<'a>) -> Result<Record<'a>, Refusal> {
        let mut view = [0; 2];
        Refusal::of(raw::as_left(&self.columns(), &record.raw(), &mut view))?;
        Ok(record.part(view[0], view[1]))
    }

    /// The payload of a right record. Refuses: 2 to 5, 7.
    ///
    /// ```
    /// use quelomavunt::{samples, Record, Table};
    /// let table = Table::from_file(&samples::TABLE_S)?;
    /// let bytes = [0b1100_0000];
    /// assert_eq!(table.as_right(Record::new(&bytes, 0, 5))?, Record::new(&bytes, 1, 4));
    /// # Ok::<(), quelomavunt::Refusal>(())
    /// ```
    pub fn as_right<'a>(&self, record: Record<'a>) -> Result<Record<'a>, Refusal> {
        let mut view = [0; 2];
        Refusal::of(raw::as_right(&self.columns(), &record.raw(), &mut view))?;
        Ok(record.part(view[0], view[1]))
    }

    /// The two halves of a product record. Refuses: 2 to 5, 7.
    ///
    /// ```
    /// use quelomavunt::{samples, Record, Table};
    /// let table = Table::from_file(&samples::TABLE_S)?;
    /// let bytes = [0b0011_0000];
    /// let (left, right) = table.as_product(Record::new(&bytes, 0, 7))?;
    /// assert_eq!((left, right), (Record::new(&bytes, 0, 5), Record::new(&bytes, 3, 1)));
    /// # Ok::<(), quelomavunt::Refusal>(())
    /// ```
    pub fn as_product<'a>(&self, record: Record<'a>) -> Result<(Record<'a>, Record<'a>), Refusal> {
        let mut views = [0; 4];
        Refusal::of(raw::as_product(&self.columns(), &record.raw(), &mut views))?;
        Ok((record.part(views[0], views[1]), record.part(views[2], views[3])))
    }
}
