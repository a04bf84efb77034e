//! The table's check, per node; and tables made to be slow.

use crate::measure::{words, Effort};
use oracle::published::Published;
use oracle::supply::{Random, TableMaker};
use quelomavunt::Table;
use std::hint::black_box;

pub fn run(effort: Effort) {
    println!("\nthe table's check (the crate has none; beside it, building the same types there)");
    println!("{:44} {:>10} {:>10} {:>12}", "", "check", "per node", "crate builds");
    for count in [16, 64, 256, 1024] {
        one(effort, &format!("{count} nodes, random sides"), &random(count));
    }
    for (name, maker) in hostile() {
        one(effort, &format!("1,024 nodes, {name}"), &maker);
    }
}

fn one(effort: Effort, name: &str, maker: &TableMaker) {
    let table = Table::from_file(&maker.file()).expect("a sound file");
    let check = effort.best(|| black_box(black_box(&table).check()).expect("sound"));
    let plain = maker.finish();
    let build = effort.best(|| {
        black_box(Published::new().types(&plain.lend()));
    });
    println!("{name:44} {:>10} {:>10} {:>12}", words(check), words(check / maker.count() as f64), words(build));
}

/// A table of so many nodes with random sides.
pub fn random(count: u64) -> TableMaker {
    let mut random = Random::new(count);
    let mut maker = TableMaker::new();
    maker.push(0, 0, 0);
    for node in 1..count {
        let (left, right) = (random.below(node) as u16, random.below(node) as u16);
        maker.push(1 + (random.draw() % 2) as u8, left, right);
    }
    maker
}

/// Tables whose nodes are alike in ways that a hash of kind and sides may not tell apart, and chains that double.
fn hostile() -> Vec<(&'static str, TableMaker)> {
    let family = |pair: fn(u16) -> (u8, u16, u16)| {
        let mut maker = TableMaker::new();
        maker.push(0, 0, 0);
        // A ladder of 300 different types first, then pairs of its steps.
        for node in 1..300u16 {
            maker.push(1, node - 1, 0);
        }
        for i in 0..724u16 {
            let (kind, left, right) = pair(i);
            maker.push(kind, left, right);
        }
        maker
    };
    let mut doubling = TableMaker::new();
    doubling.push(0, 0, 0);
    for node in 1..1024u16 {
        doubling.push(1 + (node % 2) as u8, node - 1, node - 1);
    }
    let mut twins = TableMaker::new();
    twins.push(0, 0, 0);
    twins.push(0, 0, 0);
    for node in 1..512u16 {
        twins.push(2, 2 * node - 2, 2 * node - 2);
        twins.push(2, 2 * node - 1, 2 * node - 1);
    }
    let mut units = TableMaker::new();
    for _ in 0..1024 {
        units.push(0, 0, 0);
    }
    vec![
        ("all units", units),
        ("each the square of the last", doubling),
        ("two equal chains of squares", twins),
        ("sides of equal sum", family(|i| (2, i % 300, 299 - i % 300))),
        ("sides of equal difference", family(|i| (2, i % 290, i % 290 + 9))),
        ("one side alike", family(|i| (2, i % 300, 7))),
        ("sides a multiple of 16 apart", family(|i| (2, i % 18 * 16, i / 18 % 18 * 16))),
        ("sides a multiple of 64 apart, two kinds", family(|i| (1 + (i % 2) as u8, i / 2 % 5 * 64, i / 10 % 5 * 64))),
    ]
}
