//! Records made from parts. Each call names its result's node, writes the record at bit 0 of `out`, and answers its
//! width.

use crate::{Record, Refusal, Table, raw};

impl Table {
    /// The unit record: no bits. Refuses: 2 to 4, 7 if `result` is not unit.
    ///
    /// ```
    /// use quelomavunt::{samples, Table};
    /// assert_eq!(Table::from_file(&samples::TABLE_S)?.unit(0, &mut [])?, 0);
    /// # Ok::<(), quelomavunt::Refusal>(())
    /// ```
    pub fn unit(&self, result: usize, out: &mut [u8]) -> Result<u64, Refusal> {
        self.number(|width| raw::unit(&self.columns(), result as u64, width, out))
    }

    /// A left record around a payload; padding is zero. Refuses: 2 to 5, 7 if `result` is no sum with the payload's
    /// type on its left, 9.
    ///
    /// ```
    /// use quelomavunt::{samples, Record, Table};
    /// let table = Table::from_file(&samples::TABLE_S)?;
    /// let mut out = [0xFF; 2];
    /// assert_eq!(table.left(Record::new(&[0x80], 0, 1), 5, &mut out)?, 3);
    /// assert_eq!(out, [0b0010_0000, 0xFF]);
    /// # Ok::<(), quelomavunt::Refusal>(())
    /// ```
    pub fn left(&self, payload: Record, result: usize, out: &mut [u8]) -> Result<u64, Refusal> {
        self.number(|width| raw::left(&self.columns(), &payload.raw(), result as u64, width, out))
    }

    /// A right record around a payload; padding is zero. Refuses: 2 to 5, 7 if `result` is no sum with the payload's
    /// type on its right, 9.
    ///
    /// ```
    /// use quelomavunt::{samples, Record, Table};
    /// let table = Table::from_file(&samples::TABLE_S)?;
    /// let mut out = [0];
    /// table.right(Record::new(&[0b1000_0000], 0, 4), 5, &mut out)?;
    /// assert_eq!(out, [0b1100_0000]);
    /// # Ok::<(), quelomavunt::Refusal>(())
    /// ```
    pub fn right(&self, payload: Record, result: usize, out: &mut [u8]) -> Result<u64, Refusal> {
        self.number(|width| raw::right(&self.columns(), &payload.raw(), result as u64, width, out))
    }

    /// Two records side by side. Refuses: 2 to 5, 7 if `result` is not the product of their types, 9.
    ///
    /// ```
    /// use quelomavunt::{samples, Record, Table};
    /// let table = Table::from_file(&samples::TABLE_S)?;
    /// let mut out = [0];
    /// table.product(Record::new(&[0b0010_0000], 0, 5), Record::new(&[0x80], 0, 1), 7, &mut out)?;
    /// assert_eq!(out, [0b0011_0000]);
    /// # Ok::<(), quelomavunt::Refusal>(())
    /// ```
    pub fn product(&self, left: Record, right: Record, result: usize, out: &mut [u8]) -> Result<u64, Refusal> {
        self.number(|width| raw::product(&self.columns(), &left.raw(), &right.raw(), result as u64, width, out))
    }

    /// The left record of 1 + anything. Refuses: 2 to 4, 7, 9.
    ///
    /// ```
    /// use quelomavunt::{samples, Record, Table};
    /// let table = Table::from_file(&samples::TABLE_S)?;
    /// let mut out = [0xFF];
    /// assert_eq!(table.none(3, &mut out)?, 2);
    /// assert_eq!(out, [0]);
    /// table.some(Record::new(&[0x80], 0, 1), 3, &mut out)?;
    /// assert_eq!(out, [0b1100_0000]);
    /// # Ok::<(), quelomavunt::Refusal>(())
    /// ```
    pub fn none(&self, result: usize, out: &mut [u8]) -> Result<u64, Refusal> {
        self.number(|width| raw::none(&self.columns(), result as u64, width, out))
    }

    /// The right record of 1 + the payload's type. Refuses: 2 to 5, 7, 9. The example is at [`Table::none`].
    pub fn some(&self, payload: Record, result: usize, out: &mut [u8]) -> Result<u64, Refusal> {
        self.number(|width| raw::some(&self.columns(), &payload.raw(), result as u64, width, out))
    }

    /// The record of zero bits of any type. Refuses: 2 to 4, 9.
    ///
    /// ```
    /// use quelomavunt::{samples, Table};
    /// let table = Table::from_file(&samples::TABLE_S)?;
    /// let mut out = [0xFF; 2];
    /// assert_eq!(table.zero(7, &mut out)?, 4);
    /// assert_eq!(out, [0, 0xFF]);
    /// # Ok::<(), quelomavunt::Refusal>(())
    /// ```
    pub fn zero(&self, result: usize, out: &mut [u8]) -> Result<u64, Refusal> {
        self.number(|width| raw::zero(&self.columns(), result as u64, width, out))
    }
}
