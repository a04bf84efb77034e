//! The sweeps: each a list of requests over some ground, and the functions that they share.

mod buffers;
mod constructors;
mod cuts;
mod files;
mod groups;
mod hostile;
mod pairs;
mod records;
mod streams;
mod types;
mod wide;
mod words;

use crate::run::Run;
use oracle::library::OwnedColumns;
use oracle::supply::{Random, TableMaker, Tree};
use std::rc::Rc;

/// How much to do.
pub struct Size {
    pub quick: bool,
    pub seed: u64,
}

impl Size {
    /// One of two numbers.
    pub fn pick(&self, quick: u64, full: u64) -> u64 {
        if self.quick {
            quick
        } else {
            full
        }
    }

    /// A generator of a sweep's own, so that sweeps can run alone.
    pub fn random(&self, salt: u64) -> Random {
        Random::new(self.seed.wrapping_mul(1000).wrapping_add(salt))
    }
}

/// A sweep.
pub struct Sweep {
    pub name: &'static str,
    pub what: &'static str,
    pub run: fn(&mut Run, &Size),
}

/// All sweeps, in the order in which they run.
pub const ALL: &[Sweep] = &[
    Sweep { name: "files", what: "hostile and sound table files, columns in memory", run: files::sweep },
    Sweep { name: "groups", what: "groups of every length, every byte of them changed", run: groups::sweep },
    Sweep { name: "types", what: "questions about all small types, random and stopped ones", run: types::sweep },
    Sweep {
        name: "records",
        what: "views, lengths and writers: all small records, all alignments",
        run: records::sweep,
    },
    Sweep { name: "pairs", what: "equality and order: all pairs of small records, with neighbours", run: pairs::sweep },
    Sweep { name: "streams", what: "readers: all small types, all short streams", run: streams::sweep },
    Sweep { name: "constructors", what: "constructors of all small types", run: constructors::sweep },
    Sweep { name: "cuts", what: "all small records to all small targets", run: cuts::sweep },
    Sweep { name: "words", what: "words, byte arrays, joins", run: words::sweep },
    Sweep { name: "buffers", what: "buffers and the hash state", run: buffers::sweep },
    Sweep { name: "wide", what: "random types up to the limits", run: wide::sweep },
    Sweep { name: "hostile", what: "hostile numbers, lengths, columns and groups in every call", run: hostile::sweep },
];

/// A table that holds one tree, its facts, and the tree's node.
pub struct Alone {
    pub table: OwnedColumns,
    pub node: u64,
    pub width: u64,
}

/// A tree in a table of its own, its parts shared or each with a node of its own.
pub fn alone(tree: &Rc<Tree>, spread: bool) -> Alone {
    let mut maker = TableMaker::new();
    let node = if spread { maker.add_spread(tree) } else { maker.add_shared(tree) };
    let table = maker.finish();
    let width = table.facts(usize::from(node)).width;
    Alone { table, node: u64::from(node), width }
}

/// Random bytes with `width` bits of `pattern` at bit `offset`, and at least `after` bytes behind them.
pub fn placed(random: &mut Random, pattern: u64, width: u64, offset: u64, after: usize) -> Vec<u8> {
    let mut bytes = random.bytes((offset + width).div_ceil(8) as usize + after);
    for i in 0..width {
        let (at, bit) = (offset + i, pattern >> (width - 1 - i) & 1 == 1);
        let mask = 0x80 >> (at % 8);
        if bit {
            bytes[(at / 8) as usize] |= mask;
        } else {
            bytes[(at / 8) as usize] &= !mask;
        }
    }
    bytes
}

/// What lies in outputs before a call: no two neighbouring bytes alike, none of them zero.
pub fn before(length: usize) -> Vec<u8> {
    (0..length).map(|i| (i % 251) as u8 + 3).collect()
}

/// The bytes that `bits` need.
pub fn bytes_for(bits: u64) -> usize {
    bits.div_ceil(8) as usize
}
