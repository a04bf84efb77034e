//! Questions about the types of a table. They refuse with 2 if a node isn't in the table, and never with 3 or 4.

use crate::{Refusal, Table, raw};

/// What a type is; sides are nodes of the same table.
#[derive(Clone, Copy, PartialEq, Eq, Hash, Debug)]
pub enum Shape {
    /// The type of one value.
    Unit,
    /// A left or a right value.
    Sum {
        /// The left side.
        left: usize,
        /// The right side.
        right: usize,
    },
    /// A left and a right value.
    Product {
        /// The left side.
        left: usize,
        /// The right side.
        right: usize,
    },
}

/// The facts of a type.
#[derive(Clone, Copy, PartialEq, Eq, Hash, Debug)]
pub struct Facts {
    /// Bits of a record; stops at 2^64 - 1.
    pub width: u64,
    /// Nodes of the tree; stops at 2^64 - 1.
    pub size: u64,
    /// Whether a record has padding.
    pub padded: bool,
    /// The smallest node with the same tree.
    pub class: usize,
    /// What the type is.
    pub shape: Shape,
    /// The least compact length, in bits: no record of the type has fewer compact bits, and one has just so many. Stops
    /// at 2^64 - 1; a number that stopped promises the first half alone.
    pub least: u64,
}

impl Table {
    /// All facts of a node. Refuses: 2.
    ///
    /// ```
    /// use quelomavunt::{samples, Shape, Table};
    /// let table = Table::from_file(&samples::TABLE_S)?;
    /// let facts = table.facts_of(5)?;
    /// assert_eq!((facts.width, facts.size, facts.padded, facts.class), (3, 11, true, 5));
    /// assert_eq!(facts.shape, Shape::Sum { left: 1, right: 4 });
    /// // A record of node 5 has two or three compact bits.
    /// assert_eq!((facts.least, facts.width), (2, 3));
    /// # Ok::<(), quelomavunt::Refusal>(())
    /// ```
    pub fn facts_of(&self, node: usize) -> Result<Facts, Refusal> {
        let mut facts = [0; 8];
        Refusal::of(raw::facts_of(&self.columns(), node as u64, &mut facts))?;
        let [width, size, padded, class, kind, left, right, least] = facts;
        let (left, right) = (left as usize, right as usize);
        let shape = match kind {
            0 => Shape::Unit,
            1 => Shape::Sum { left, right },
            _ => Shape::Product { left, right },
        };
        Ok(Facts { width, size, padded: padded != 0, class: class as usize, shape, least })
    }

    /// Whether two nodes are the same tree. Refuses: 2.
    ///
    /// ```
    /// use quelomavunt::{samples, Table};
    /// let table = Table::from_file(&samples::TABLE_S)?;
    /// assert!(table.same_type(1, 6)?);
    /// assert!(!table.same_type(3, 8)?);
    /// # Ok::<(), quelomavunt::Refusal>(())
    /// ```
    pub fn same_type(&self, a: usize, b: usize) -> Result<bool, Refusal> {
        self.yes_no(|answer| raw::same_type(&self.columns(), a as u64, b as u64, answer))
    }

    /// Whether a node is the unit type. Refuses: 2.
    ///
    /// ```
    /// use quelomavunt::{samples, Table};
    /// let table = Table::from_file(&samples::TABLE_S)?;
    /// assert!(table.is_unit(0)? && !table.is_unit(2)?);
    /// # Ok::<(), quelomavunt::Refusal>(())
    /// ```
    pub fn is_unit(&self, node: usize) -> Result<bool, Refusal> {
        self.yes_no(|answer| raw::is_unit(&self.columns(), node as u64, answer))
    }

    /// Whether records of a node have no bits. Refuses: 2.
    ///
    /// ```
    /// use quelomavunt::{samples, Table};
    /// let table = Table::from_file(&samples::TABLE_S)?;
    /// assert!(table.is_empty(2)? && !table.is_empty(1)?);
    /// # Ok::<(), quelomavunt::Refusal>(())
    /// ```
    pub fn is_empty(&self, node: usize) -> Result<bool, Refusal> {
        self.yes_no(|answer| raw::is_empty(&self.columns(), node as u64, answer))
    }

    /// The sides of a sum. Refuses: 2, 7.
    ///
    /// ```
    /// use quelomavunt::{samples, Table};
    /// let table = Table::from_file(&samples::TABLE_S)?;
    /// assert_eq!(table.type_as_sum(5)?, (1, 4));
    /// assert_eq!(table.type_as_sum(4).unwrap_err().number, 7);
    /// # Ok::<(), quelomavunt::Refusal>(())
    /// ```
    pub fn type_as_sum(&self, node: usize) -> Result<(usize, usize), Refusal> {
        let mut sides = [0; 2];
        Refusal::of(raw::type_as_sum(&self.columns(), node as u64, &mut sides))?;
        Ok((sides[0] as usize, sides[1] as usize))
    }

    /// The sides of a product. Refuses: 2, 7.
    ///
    /// ```
    /// use quelomavunt::{samples, Table};
    /// let table = Table::from_file(&samples::TABLE_S)?;
    /// assert_eq!(table.type_as_product(7)?, (5, 1));
    /// # Ok::<(), quelomavunt::Refusal>(())
    /// ```
    pub fn type_as_product(&self, node: usize) -> Result<(usize, usize), Refusal> {
        let mut sides = [0; 2];
        Refusal::of(raw::type_as_product(&self.columns(), node as u64, &mut sides))?;
        Ok((sides[0] as usize, sides[1] as usize))
    }

    /// The padding of left values of the sum a + b, by the two widths as the facts have them. Refuses: 2.
    ///
    /// ```
    /// use quelomavunt::{samples, Table};
    /// let table = Table::from_file(&samples::TABLE_S)?;
    /// assert_eq!((table.pad_left(1, 4)?, table.pad_right(1, 4)?), (1, 0));
    /// # Ok::<(), quelomavunt::Refusal>(())
    /// ```
    pub fn pad_left(&self, a: usize, b: usize) -> Result<u64, Refusal> {
        self.number(|padding| raw::pad_left(&self.columns(), a as u64, b as u64, padding))
    }

    /// The padding of right values of the sum a + b. Refuses: 2. The example is at [`Table::pad_left`].
    pub fn pad_right(&self, a: usize, b: usize) -> Result<u64, Refusal> {
        self.number(|padding| raw::pad_right(&self.columns(), a as u64, b as u64, padding))
    }

    /// A call with one accepted number.
    pub(crate) fn number(&self, call: impl FnOnce(&mut u64) -> u64) -> Result<u64, Refusal> {
        let mut value = 0;
        Refusal::of(call(&mut value))?;
        Ok(value)
    }

    /// A call that answers 0 or 1.
    pub(crate) fn yes_no(&self, call: impl FnOnce(&mut u64) -> u64) -> Result<bool, Refusal> {
        self.number(call).map(|answer| answer != 0)
    }
}
