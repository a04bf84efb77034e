//! Random types up to the limits of width and size, and types exactly at them.

use super::{before, bytes_for, Size};
use crate::run::Run;
use oracle::library::{Call, OwnedColumns, Record, Request, Stream};
use oracle::supply::{Random, TableMaker};
use std::collections::{BTreeMap, HashMap};

pub fn sweep(run: &mut Run, size: &Size) {
    let mut random = size.random(90);
    for _ in 0..size.pick(60, 1500) {
        let most = *random.pick(&[40, 300, 3_000, 30_000]);
        one_table(run, &mut random, most, 40);
    }
    for _ in 0..size.pick(2, 40) {
        one_table(run, &mut random, 540_000, 4);
    }
    at_the_limits(run, &mut random);
}

/// A random table whose widths reach up to `most`, targets for cuts, and every call on some of its nodes.
fn one_table(run: &mut Run, random: &mut Random, most: u64, picks: usize) {
    let mut maker = TableMaker::new();
    let mut facts = Facts::default();
    grow(&mut maker, &mut facts, random, most);
    let grown = maker.count();
    let mut targets = BTreeMap::new();
    for _ in 0..4 {
        let node = (grown - 1 - random.below(grown.min(12) as u64) as usize) as u16;
        let mut seen = HashMap::new();
        if maker.count() < 700 {
            let target = shrink(&mut maker, random, node, &mut seen, grown);
            targets.insert(u64::from(node), u64::from(target));
        }
    }
    let table = maker.finish();
    for _ in 0..picks {
        let node = if random.one_in(2) {
            random.below(grown as u64)
        } else {
            grown as u64 - 1 - random.below(grown.min(12) as u64)
        };
        every_call(run, random, &table, node, &targets);
    }
    for node in targets.keys() {
        every_call(run, random, &table, *node, &targets);
    }
}

/// Widths and sizes of the nodes made so far.
#[derive(Default)]
struct Facts {
    widths: Vec<u64>,
    sizes: Vec<u64>,
}

/// Adds random nodes: sums and products of earlier ones, kept within `most` bits nearly always.
fn grow(maker: &mut TableMaker, facts: &mut Facts, random: &mut Random, most: u64) {
    maker.push(0, 0, 0);
    facts.widths.push(0);
    facts.sizes.push(1);
    let wanted = 10 + random.below(200);
    for _ in 0..3 * wanted {
        let count = maker.count() as u64;
        let near = |random: &mut Random| count - 1 - random.below(count.min(6));
        let (l, r) = (if random.one_in(3) { random.below(count) } else { near(random) }, near(random));
        let (l, r) = if random.one_in(2) { (l, r) } else { (r, l) };
        let kind = 1 + u8::from(random.below(5) > 2);
        let (lw, rw) = (facts.widths[l as usize], facts.widths[r as usize]);
        let width = if kind == 1 { 1 + lw.max(rw) } else { lw + rw };
        let size = 1 + facts.sizes[l as usize] + facts.sizes[r as usize];
        let size_most = 4 * most.max(1000);
        if (width > most || size > size_most) && !random.one_in(40) || width > 1 << 40 || size > 1 << 40 {
            continue;
        }
        maker.push(kind, l as u16, r as u16);
        facts.widths.push(width);
        facts.sizes.push(size);
        if maker.count() as u64 >= wanted {
            return;
        }
    }
}

/// A target for a cut of `node`: parts kept, kept under another number, cut to unit, or cut inside.
fn shrink(maker: &mut TableMaker, random: &mut Random, node: u16, seen: &mut HashMap<u16, u16>, grown: usize) -> u16 {
    if let Some(target) = seen.get(&node) {
        return *target;
    }
    let entries = &maker.entries;
    let (kind, l, r) =
        (entries.kinds[usize::from(node)], entries.lefts[usize::from(node)], entries.rights[usize::from(node)]);
    let target = match (random.below(12), kind) {
        (0, _) => 0,
        (1 | 2, _) => node,
        (3, 0) | (4, 0) => maker.push(0, 0, 0),
        (_, 0) => node,
        (3, 1) => {
            // The right side is any type: cuts of left records don't look at it.
            let any = random.below(grown as u64) as u16;
            let left = shrink(maker, random, l, seen, grown);
            maker.push(1, left, any)
        }
        (4, _) => maker.push(kind, l, r),
        _ => {
            let left = shrink(maker, random, l, seen, grown);
            let right = shrink(maker, random, r, seen, grown);
            maker.push(kind, left, right)
        }
    };
    seen.insert(node, target);
    target
}

/// Every call on a record of `node`.
fn every_call(run: &mut Run, random: &mut Random, table: &OwnedColumns, node: u64, targets: &BTreeMap<u64, u64>) {
    let width = table.facts(node as usize).width.min(530_000);
    let offset = random.below(64);
    let after = random.below(2) as usize;
    let bytes = sparse(random, bytes_for(offset + width) + after);
    let a = Record { bytes: &bytes, offset, node };
    let out = before(bytes_for(width) + 2);
    for call in [Call::CompactLen, Call::PaddedLen, Call::AsLeft, Call::AsRight, Call::AsProduct] {
        run.check(&Request { a, ..Request::new(call, table.lend()) });
    }
    let q = Request { a, out: &out, ..Request::new(Call::ToCompactBits, table.lend()) };
    let answer = run.check(&q);
    let (compact, compact_bits) = (answer.out.clone(), answer.values[0]);
    let accepted = answer.code == 0;
    run.check(&Request { call: Call::ToPaddedBits, ..q });
    run.check(&Request { node, call: Call::Zero, ..q });
    if accepted {
        for (call, bits) in [(Call::FromCompactBits, compact_bits), (Call::FromPaddedBits, width)] {
            let source = if call == Call::FromCompactBits { &compact } else { &bytes };
            let position = if call == Call::FromCompactBits { 0 } else { offset };
            let stream = Stream { bytes: source, length: position + bits, position };
            let q = Request { stream, node, out: &out, ..Request::new(call, table.lend()) };
            run.check(&q);
            if bits > 0 {
                run.check(&Request { stream: Stream { length: position + bits - 1, ..stream }, ..q });
            }
        }
        // The record again, elsewhere, and one that differs in one bit.
        let mut other = bytes.clone();
        let b = Record { bytes: &other, ..a };
        run.check(&Request { a, b, ..Request::new(Call::Equal, table.lend()) });
        if width > 0 {
            let at = offset + random.below(width);
            other[(at / 8) as usize] ^= 0x80 >> (at % 8);
            let b = Record { bytes: &other, ..a };
            for call in [Call::Equal, Call::Compare] {
                run.check(&Request { a, b, ..Request::new(call, table.lend()) });
                run.check(&Request { a: b, b: a, ..Request::new(call, table.lend()) });
            }
        }
    }
    let near = random.below(table.count);
    for target in [targets.get(&node).copied().unwrap_or(node), node, 0, near] {
        let room = before(bytes_for(table.facts(target as usize).width.min(530_000)) + 1);
        run.check(&Request { a, node: target, out: &room, ..Request::new(Call::Prune, table.lend()) });
    }
    parents(run, random, table, a);
}

/// Constructors with the record as payload: every node of the table that has its type as a side.
fn parents(run: &mut Run, random: &mut Random, table: &OwnedColumns, a: Record) {
    let mut left = 6;
    for node in 0..table.count {
        let (l, r) = (table.lefts[node as usize], table.rights[node as usize]);
        let is_side = u64::from(l) == a.node || u64::from(r) == a.node;
        if !is_side || left == 0 {
            continue;
        }
        left -= 1;
        let out = before(bytes_for(table.facts(node as usize).width.min(530_000)));
        let other = if u64::from(l) == a.node { r } else { l };
        let other_width = table.facts(usize::from(other)).width.min(530_000);
        let offset = random.below(64);
        let bytes = sparse(random, bytes_for(offset + other_width));
        let b = Record { bytes: &bytes, offset, node: other.into() };
        for call in [Call::Left, Call::Right, Call::Some, Call::None] {
            run.check(&Request { a, node, out: &out, ..Request::new(call, table.lend()) });
        }
        run.check(&Request { a, b, node, out: &out, ..Request::new(Call::Product, table.lend()) });
        run.check(&Request { a: b, b: a, node, out: &out, ..Request::new(Call::Product, table.lend()) });
    }
}

/// Random bytes in which runs of zeros, of ones and of noise take turns, so that all depths are reached.
fn sparse(random: &mut Random, count: usize) -> Vec<u8> {
    let mut bytes = Vec::with_capacity(count);
    while bytes.len() < count {
        let run = 1 + random.below(40) as usize;
        let kind = random.below(4);
        for _ in 0..run.min(count - bytes.len()) {
            bytes.push(match kind {
                0 => 0,
                1 => 0xFF,
                _ => random.draw() as u8,
            });
        }
    }
    bytes
}

/// Types of exactly 524,288 and 524,289 bits, and zero-width types of sizes around 2,097,152.
fn at_the_limits(run: &mut Run, random: &mut Random) {
    let mut maker = TableMaker::new();
    let word = maker.word(19);
    let bit = maker.word(0);
    // Words 0 to 18 side by side are one bit short of the limit.
    let mut one_less = bit;
    for n in 1..19 {
        let next = maker.word(n);
        one_less = maker.shared(2, one_less, next);
    }
    let no_word = maker.shared(2, bit, one_less);
    let sum_at_limit = maker.shared(1, 0, one_less);
    let over = maker.shared(2, word, bit);
    let sum_over = maker.shared(1, bit, word);
    let mut hollow = 0;
    for _ in 0..20 {
        hollow = maker.push(2, hollow, hollow);
    }
    // `hollow` has 2^21 - 1 tree nodes and no width; one more pair is over the limit.
    let hollow_over = maker.push(2, hollow, 0);
    let wide_and_large = maker.push(2, hollow_over, over);
    let table = maker.finish();
    for node in [word, no_word, sum_at_limit, over, sum_over, hollow, hollow_over, wide_and_large] {
        every_call(run, random, &table, node.into(), &BTreeMap::new());
    }
}
