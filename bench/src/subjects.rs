//! The types that are measured: each as a node of our table and as the crate's type, with a record of it.

use oracle::library::{Columns as PlainColumns, OwnedColumns};
use oracle::published::Published;
use oracle::supply::{Random, TableMaker};
use oracle::types::Final;
use oracle::{BitIter, Value};
use quelomavunt::{Record, Table};
use std::sync::Arc;

/// A type, a target for cuts, and a record.
pub struct Subject {
    pub name: &'static str,
    #[cfg(feature = "before")]
    pub file: Vec<u8>,
    pub tree_nodes: u64,
    pub table: Table,
    pub node: usize,
    pub target: usize,
    pub ty: Arc<Final>,
    pub target_ty: Arc<Final>,
    pub bytes: Vec<u8>,
    pub value: Value,
}

impl Subject {
    fn new(name: &'static str, maker: &TableMaker, node: u16, target: u16, seed: u64) -> Subject {
        let plain: OwnedColumns = maker.finish();
        let lent: PlainColumns = plain.lend();
        let types = Published::new().types(&lent);
        let (node, target) = (usize::from(node), usize::from(target));
        let table = Table::from_file(&maker.file()).expect("a sound file");
        let width = plain.facts(node).width;
        let bytes = Random::new(seed).bytes(width.div_ceil(8) as usize);
        let mut bits = BitIter::window(&bytes, 0, width as usize);
        let value = Value::from_padded_bits(&mut bits, &types[node]).expect("enough bits");
        Subject {
            name,
            #[cfg(feature = "before")]
            file: maker.file(),
            tree_nodes: plain.facts(node).size,
            table,
            node,
            target,
            ty: Arc::clone(&types[node]),
            target_ty: Arc::clone(&types[target]),
            bytes,
            value,
        }
    }

    pub fn record(&self) -> Record<'_> {
        Record::new(&self.bytes, 0, self.node)
    }

    pub fn width(&self) -> u64 {
        self.ty.bit_width() as u64
    }
}

/// Word 19: the widest record. The cut takes the last bit off.
pub fn word_19() -> Subject {
    let mut maker = TableMaker::new();
    let node = maker.word(19);
    let mut target = 0;
    for n in 0..19 {
        let word = maker.word(n);
        target = maker.shared(2, word, target);
    }
    Subject::new("word 19", &maker, node, target, 1)
}

/// The product of 2^doublings times the same type.
fn many(maker: &mut TableMaker, mut node: u16, doublings: u32) -> u16 {
    for _ in 0..doublings {
        node = maker.shared(2, node, node);
    }
    node
}

/// A padded type that is mostly tags, the worst for a walk: 8,192 times 1 + 2 × (2 + 2^2), 147,455 tree nodes. The cut
/// works inside each of them.
pub fn tags() -> Subject {
    let mut maker = TableMaker::new();
    let (bit, pair) = (maker.word(0), maker.word(1));
    let choice = maker.shared(1, bit, pair);
    let both = maker.shared(2, bit, choice);
    let node = maker.shared(1, 0, both);
    let small_choice = maker.shared(1, bit, 0);
    let small_both = maker.shared(2, 0, small_choice);
    let target = maker.shared(1, 0, small_both);
    let (node, target) = (many(&mut maker, node, 13), many(&mut maker, target, 13));
    Subject::new("padded, mostly tags", &maker, node, target, 2)
}

/// A padded type as a feed has it: 1,024 times (1 + 2^32) × ((2 + 2^16) × 2^8), 235,519 tree nodes. The cut takes the
/// last byte off each of them, and the payload of the second tag if it is a left one.
pub fn readings() -> Subject {
    let mut maker = TableMaker::new();
    let (bit, w8, w16, w32) = (maker.word(0), maker.word(3), maker.word(4), maker.word(5));
    let reading = maker.shared(1, 0, w32);
    let place = maker.shared(1, bit, w16);
    let placed = maker.shared(2, place, w8);
    let node = maker.shared(2, reading, placed);
    let cut_place = maker.shared(1, 0, w16);
    let cut_placed = maker.shared(2, cut_place, 0);
    let target = maker.shared(2, reading, cut_placed);
    let (node, target) = (many(&mut maker, node, 10), many(&mut maker, target, 10));
    Subject::new("padded, readings", &maker, node, target, 4)
}

/// The types of a small record of 196 bits, (2^64 × (1 + 2^32)) × ((2 + 2^16) × (1 + 2^64)) × 2^16 and a bit: the table,
/// the record's node and the target's.
pub fn small_types() -> (TableMaker, u16, u16) {
    let mut maker = TableMaker::new();
    let (bit, w16, w32, w64) = (maker.word(0), maker.word(4), maker.word(5), maker.word(6));
    let maybe_32 = maker.shared(1, 0, w32);
    let left = maker.shared(2, w64, maybe_32);
    let either = maker.shared(1, bit, w16);
    let maybe_64 = maker.shared(1, 0, w64);
    let right = maker.shared(2, either, maybe_64);
    let end = maker.shared(2, w16, bit);
    let tail = maker.shared(2, right, end);
    let node = maker.shared(2, left, tail);
    let cut_left = maker.shared(2, 0, maybe_32);
    let cut_either = maker.shared(1, 0, w16);
    let cut_right = maker.shared(2, cut_either, maybe_64);
    let cut_end = maker.shared(2, w16, 0);
    let cut_tail = maker.shared(2, cut_right, cut_end);
    let target = maker.shared(2, cut_left, cut_tail);
    (maker, node, target)
}

/// The small record.
pub fn small() -> Subject {
    let (maker, node, target) = small_types();
    Subject::new("small", &maker, node, target, 3)
}

/// Four words of 61,440 bytes together, and a left side of 8 to 15 bits for each offset: a product of the two is a
/// copy of 60 KiB from any bit to any bit.
pub struct Copies {
    pub table: Table,
    pub big: usize,
    pub lefts: Vec<(usize, usize)>,
}

pub fn copies() -> Copies {
    let mut maker = TableMaker::new();
    let words: Vec<u16> = [18, 17, 16, 15].map(|n| maker.word(n)).to_vec();
    let front = maker.shared(2, words[0], words[1]);
    let back = maker.shared(2, words[2], words[3]);
    let big = maker.shared(2, front, back);
    let (bit, byte) = (maker.word(0), maker.word(3));
    let mut left = byte;
    let mut lefts = Vec::new();
    for _ in 0..8 {
        let product = maker.shared(2, left, big);
        lefts.push((usize::from(left), usize::from(product)));
        left = maker.shared(2, left, bit);
    }
    let table = Table::from_file(&maker.file()).expect("a sound file");
    Copies { table, big: usize::from(big), lefts }
}
