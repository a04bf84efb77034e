//! What the compact length of a record is held to, by the structure of its type alone.
//!
//! * `Bounds`, `bounds`: least compact length and width of a type
//! * `Met`: the types of a table that were met, and the record of each that was measured last
//!
//! The numbers are made here in 128 bits, and stop at the end of 64 bits only when they are told: the model adds step
//! by step and stops at each, so that a slip of one is not a slip of both.

use oracle::library::{Columns, OwnedColumns, Record};
use std::collections::HashMap;

/// The least compact length and the width of a type: no record has fewer compact bits, none has more.
#[derive(Clone, Copy, PartialEq, Eq, Debug)]
pub struct Bounds {
    pub least: u64,
    pub width: u64,
}

/// The bounds of a node of a sound table.
fn bounds(table: &Columns, node: usize) -> Bounds {
    let mut all: Vec<(u128, u128)> = Vec::new();
    for n in 0..=node {
        let side = |side: u16| all.get(usize::from(side)).copied().unwrap_or_default();
        let ((l, l_width), (r, r_width)) = (side(table.lefts[n]), side(table.rights[n]));
        all.push(match table.kinds[n] {
            0 => (0, 0),
            1 => (l.min(r).saturating_add(1), l_width.max(r_width).saturating_add(1)),
            _ => (l.saturating_add(r), l_width.saturating_add(r_width)),
        });
    }
    let told = |bits: u128| u64::try_from(bits).unwrap_or(u64::MAX);
    Bounds { least: told(all[node].0), width: told(all[node].1) }
}

/// The types of one table that were met, by their nodes.
#[derive(Default)]
pub struct Met {
    table: OwnedColumns,
    types: HashMap<u64, Type>,
}

/// A type's bounds, and the bytes and offset of the record of it that was measured last.
struct Type {
    bounds: Bounds,
    measured: Option<(Vec<u8>, u64)>,
}

impl Met {
    /// Turns to a sound table. If it is not the one before, nothing of it was met.
    pub fn turn_to(&mut self, table: &Columns) {
        if self.table.lend() != *table {
            self.table.copy_from(table);
            self.types.clear();
        }
    }

    /// Whether a node was met.
    pub fn has_met(&self, node: u64) -> bool {
        self.types.contains_key(&node)
    }

    /// Meets a node: its bounds.
    pub fn meet(&mut self, node: u64) -> Bounds {
        self.of(node).bounds
    }

    /// Whether a record is the one of its type that was measured last.
    pub fn has_measured(&self, record: &Record) -> bool {
        let last = self.types.get(&record.node).and_then(|ty| ty.measured.as_ref());
        last.is_some_and(|(bytes, offset)| *offset == record.offset && *bytes == record.bytes)
    }

    /// Remembers that a record was measured.
    pub fn note_measured(&mut self, record: &Record) {
        self.of(record.node).measured = Some((record.bytes.to_vec(), record.offset));
    }

    fn of(&mut self, node: u64) -> &mut Type {
        let new = || Type { bounds: bounds(&self.table.lend(), node as usize), measured: None };
        self.types.entry(node).or_insert_with(new)
    }
}
