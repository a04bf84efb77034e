//! Questions about types: all small ones in both layouts, random tables, and tables whose facts stop at the end.

use super::Size;
use crate::run::Run;
use oracle::library::{Call, OwnedColumns, Request};
use oracle::supply::{trees_up_to, Random, TableMaker};

pub fn sweep(run: &mut Run, size: &Size) {
    for tree in trees_up_to(size.pick(4, 5) as usize) {
        for spread in [false, true] {
            let alone = super::alone(&tree, spread);
            for node in 0..alone.table.count {
                of_one(run, &alone.table, node);
                for other in 0..alone.table.count {
                    of_two(run, &alone.table, node, other);
                }
            }
        }
    }
    let mut random = size.random(10);
    for _ in 0..size.pick(30, 300) {
        let table = random_table(&mut random);
        for _ in 0..40 {
            let (node, other) = (random.below(table.count + 2), random.below(table.count + 1));
            of_one(run, &table, node);
            of_two(run, &table, node, other);
        }
    }
    for table in [words_past_the_end(), lengths_at_the_end(), special_types()] {
        for node in 0..=table.count {
            of_one(run, &table, node);
            for other in [0, 1, node / 2, node, table.count - 1] {
                of_two(run, &table, node, other);
            }
        }
    }
    for n in (0..80).chain([255, 256, 288, 1 << 32, 1 << 60, u64::MAX - 1, u64::MAX]) {
        for call in [Call::WordWidth, Call::BufferWidth] {
            run.check(&Request { n, ..Request::new(call, Default::default()) });
        }
    }
}

fn of_one(run: &mut Run, table: &OwnedColumns, node: u64) {
    use Call::*;
    for call in [CheckTable, FactsOf, IsUnit, IsEmpty, TypeAsSum, TypeAsProduct, AsWord, IsCtx8] {
        run.check(&Request { node, ..Request::new(call, table.lend()) });
    }
    for n in (0..14).chain([1 << 40, u64::MAX]) {
        run.check(&Request { node, n, ..Request::new(IsBuffer8, table.lend()) });
    }
}

fn of_two(run: &mut Run, table: &OwnedColumns, node: u64, other: u64) {
    for call in [Call::SameType, Call::PadLeft, Call::PadRight] {
        run.check(&Request { node, other, ..Request::new(call, table.lend()) });
    }
}

/// A table of up to 1,024 nodes whose sides are random earlier nodes, mostly near ones.
pub fn random_table(random: &mut Random) -> OwnedColumns {
    let count = 1 + random.below(*random.clone().pick(&[4, 30, 200, 1024]));
    let mut maker = TableMaker::new();
    maker.push(0, 0, 0);
    let far = random.one_in(2);
    for node in 1..count {
        let side = |random: &mut Random| {
            let back = if far { random.below(node) } else { random.below(node.min(4)) };
            (node - 1 - back) as u16
        };
        match random.below(9) {
            0 => maker.push(0, 0, 0),
            kind => {
                let (left, right) = (side(random), side(random));
                maker.push(1 + (kind % 2) as u8, left, right)
            }
        };
    }
    maker.finish()
}

/// The squares of 2 up to far beyond the last word, so that width and size stop; each twice.
fn words_past_the_end() -> OwnedColumns {
    let mut maker = TableMaker::new();
    maker.push(0, 0, 0);
    let mut last = [maker.push(1, 0, 0), maker.push(1, 0, 0)];
    for _ in 0..70 {
        last = [maker.push(2, last[0], last[1]), maker.push(2, last[1], last[1])];
    }
    maker.finish()
}

/// Widths and least compact lengths one below, at and past 2^64 - 1, in sums and products of stopped and nearly stopped
/// sides.
fn lengths_at_the_end() -> OwnedColumns {
    let mut maker = TableMaker::new();
    let mut word = maker.word(0);
    let (mut all, mut one_less) = (word, 0);
    for _ in 1..64 {
        word = maker.shared(2, word, word);
        all = maker.shared(2, all, word);
        one_less = maker.shared(2, one_less, word);
    }
    // `all` is as wide as 2^64 - 1 bits, the largest number, and `one_less` as 2^64 - 2; both have no choice of length.
    let bit = maker.word(0);
    let ends = [(all, bit), (all, all), (all, word), (word, word), (bit, all), (0, all), (all, 0)];
    let below = [(one_less, bit), (one_less, one_less), (one_less, all), (word, one_less), (0, one_less)];
    for (l, r) in ends.into_iter().chain(below) {
        let product = maker.push(2, l, r);
        let sum = maker.push(1, l, r);
        maker.push(1, sum, product);
        maker.push(1, product, sum);
        maker.push(2, sum, product);
    }
    maker.finish()
}

/// Every word, every buffer, the hash state, and things that almost are one.
fn special_types() -> OwnedColumns {
    let mut maker = TableMaker::new();
    maker.word(40);
    maker.buffer(12);
    let state = maker.ctx8();
    let (count, midstate) = (maker.word(6), maker.word(8));
    let turned = maker.shared(2, midstate, count);
    let buffer = maker.buffer(5);
    maker.shared(2, buffer, turned);
    maker.shared(2, state, state);
    let smaller = maker.buffer(4);
    let rest = maker.shared(2, count, midstate);
    maker.shared(2, smaller, rest);
    let byte = maker.word(3);
    let run = maker.shared(1, byte, 0);
    maker.shared(2, run, smaller);
    maker.shared(2, buffer, smaller);
    maker.finish()
}
