//! Tables: columns that the table owns, with the groups of their facts.

use crate::Refusal;
use crate::raw::{self, Columns, ColumnsMut, GROUP_BYTES};

/// The most nodes that a table has.
const MOST_NODES: usize = 1024;

/// A sound table of types with its facts: 1 to 1,024 nodes, each unit, a sum or a product of earlier nodes.
///
/// There is no way to have an unsound one: both constructors check, and nothing changes a table afterwards.
#[derive(Clone, PartialEq, Eq, Debug)]
pub struct Table {
    kinds: Vec<u8>,
    lefts: Vec<u16>,
    rights: Vec<u16>,
    groups: Vec<u8>,
}

impl Table {
    /// Reads a table file. Refuses: 1 at the offset of the first faulty number or surplus byte.
    ///
    /// ```
    /// use quelomavunt::Table;
    /// let table = Table::from_file(&[3, 0, 1, 0, 0, 2, 1, 1])?;
    /// assert_eq!(table.len(), 3);
    /// assert_eq!(Table::from_file(&[1, 0, 0]).unwrap_err().place, 2);
    /// # Ok::<(), quelomavunt::Refusal>(())
    /// ```
    pub fn from_file(file: &[u8]) -> Result<Table, Refusal> {
        let mut table = Table {
            kinds: vec![0; MOST_NODES],
            lefts: vec![0; MOST_NODES],
            rights: vec![0; MOST_NODES],
            groups: vec![0; GROUP_BYTES * MOST_NODES],
        };
        let mut count = 0;
        let columns = ColumnsMut {
            kinds: &mut table.kinds,
            lefts: &mut table.lefts,
            rights: &mut table.rights,
            groups: &mut table.groups,
        };
        Refusal::of(raw::read_table(file, columns, &mut count))?;
        table.cut_to(count as usize);
        Ok(table)
    }

    /// A table of these columns: kinds (0 unit, 1 sum, 2 product) and sides (0 for unit), all of the same length.
    /// Refuses: 1 at the first faulty node, or at 0 if the lengths differ or are not 1 to 1,024.
    ///
    /// ```
    /// use quelomavunt::Table;
    /// let table = Table::from_columns(vec![0, 1, 2], vec![0, 0, 1], vec![0, 0, 1])?;
    /// assert_eq!(table, Table::from_file(&[3, 0, 1, 0, 0, 2, 1, 1])?);
    /// assert_eq!(Table::from_columns(vec![0, 1], vec![0, 1], vec![0, 0]).unwrap_err().place, 1);
    /// # Ok::<(), quelomavunt::Refusal>(())
    /// ```
    pub fn from_columns(kinds: Vec<u8>, lefts: Vec<u16>, rights: Vec<u16>) -> Result<Table, Refusal> {
        let count = kinds.len().max(lefts.len()).max(rights.len());
        let mut groups = vec![0; GROUP_BYTES * count.min(MOST_NODES)];
        // The longest column is the count: a shorter one is then a fault, as it should be.
        Refusal::of(raw::fill_facts(&kinds, &lefts, &rights, count as u64, &mut groups))?;
        Ok(Table { kinds, lefts, rights, groups })
    }

    fn cut_to(&mut self, count: usize) {
        self.kinds.truncate(count);
        self.lefts.truncate(count);
        self.rights.truncate(count);
        self.groups.truncate(GROUP_BYTES * count);
    }

    /// How many nodes there are; at least 1.
    #[allow(clippy::len_without_is_empty)]
    pub fn len(&self) -> usize {
        self.kinds.len()
    }

    /// Checks the table once more. It can't refuse; it is here for measurements.
    ///
    /// ```
    /// use quelomavunt::{samples, Table};
    /// assert!(Table::from_file(&samples::TABLE_S)?.check().is_ok());
    /// # Ok::<(), quelomavunt::Refusal>(())
    /// ```
    pub fn check(&self) -> Result<(), Refusal> {
        Refusal::of(raw::check_table(&self.columns()))
    }

    /// The columns and groups as the exported calls take them.
    pub fn columns(&self) -> Columns<'_> {
        Columns {
            kinds: &self.kinds,
            lefts: &self.lefts,
            rights: &self.rights,
            groups: &self.groups,
            count: self.kinds.len() as u64,
        }
    }
}
