//! Hostile input in every call: a sound request, then up to four things wrong with it at once.

use super::groups::change_group;
use super::{before, Size};
use crate::run::Run;
use oracle::library::{Call, OwnedColumns, Record, Request, Stream, GROUP_BYTES, VALUES_BEFORE};
use oracle::supply::{trees_up_to, Random, TableMaker};

/// Numbers at which sums and products of 64 bits go wrong, and small ones.
const NUMBERS: [u64; 22] = [
    0,
    1,
    2,
    3,
    7,
    8,
    9,
    31,
    32,
    63,
    64,
    1023,
    1024,
    1025,
    524_288,
    524_289,
    1 << 32,
    1 << 61,
    (1 << 61) - 1,
    1 << 63,
    u64::MAX - 7,
    u64::MAX,
];

pub fn sweep(run: &mut Run, size: &Size) {
    let mut random = size.random(100);
    let tables = tables(&mut random);
    let garbage = random.bytes(70_000);
    let out = before(70_000);
    for _ in 0..size.pick(80_000, 3_000_000) {
        let call = *random.pick(Call::ALL);
        // One time in five the table with types past all limits.
        let kept = if random.one_in(5) { tables.last().expect("some") } else { random.pick(&tables) };
        let mut table = kept.clone();
        let mut q = sound(&mut random, call, kept, &garbage, &out);
        let faults = random.below(5);
        for _ in 0..faults {
            spoil(&mut random, &mut q, &mut table, &garbage);
        }
        q.table = table.lend();
        run.check(&q);
    }
}

/// Small tables, one with every kind of special type, one with types past all limits.
fn tables(random: &mut Random) -> Vec<OwnedColumns> {
    let trees = trees_up_to(4);
    let mut tables = Vec::new();
    for _ in 0..60 {
        let mut maker = TableMaker::new();
        maker.add_spread(&random.pick(&trees[..]).clone());
        maker.add_shared(&random.pick(&trees[..]).clone());
        tables.push(maker.finish());
    }
    let mut words = TableMaker::new();
    words.word(9);
    tables.push(words.finish());
    let mut special = TableMaker::new();
    special.buffer(2);
    special.ctx8();
    tables.push(special.finish());
    let mut limits = TableMaker::new();
    let word = limits.word(20);
    limits.shared(1, 0, word);
    let mut hollow = 0;
    for _ in 0..23 {
        hollow = limits.push(2, hollow, hollow);
    }
    limits.push(1, hollow, word);
    tables.push(limits.finish());
    tables
}

/// A request that mostly passes the ladder.
fn sound<'a>(
    random: &mut Random,
    call: Call,
    table: &'a OwnedColumns,
    garbage: &'a [u8],
    out: &'a [u8],
) -> Request<'a> {
    let record = |random: &mut Random| {
        let node = random.below(table.count);
        let offset = random.below(64);
        let length =
            (offset + table.facts(node as usize).width.min(524_288)).div_ceil(8) as usize + random.below(2) as usize;
        let from = random.below((garbage.len() - length + 1) as u64) as usize;
        Record { bytes: &garbage[from..from + length], offset, node }
    };
    let (a, b) = (record(random), record(random));
    let node = match random.below(4) {
        0 => a.node,
        1 => random.below(table.count),
        _ => parent_of(random, table, a.node),
    };
    let data_length = *random.pick(&[0, 1, 2, 4, 8, 16, 32, 64, 3, 7, 63]);
    let length = random.below(200);
    let values_length =
        if call.values_are_a_slice() { call.value_count() + random.below(2) as usize } else { call.value_count() };
    let room = if random.one_in(3) {
        random.below(12) as usize
    } else {
        table.facts(node as usize).width.min(540_000).div_ceil(8) as usize
    };
    Request {
        a,
        b,
        node,
        other: random.below(table.count),
        n: if call == Call::Ctx8 { random.draw() } else { random.below(6) },
        data: &garbage[..data_length],
        buffer: &garbage[100..100 + random.below(64) as usize],
        stream: Stream { bytes: &garbage[200..225], length, position: random.below(length + 1) },
        values: &VALUES_BEFORE[..values_length],
        out: &out[..room],
        ..Request::new(call, table.lend())
    }
}

/// A node that has `side` on a side, or any node.
fn parent_of(random: &mut Random, table: &OwnedColumns, side: u64) -> u64 {
    (0..table.count)
        .find(|node| {
            let node = *node as usize;
            table.kinds[node] != 0 && (u64::from(table.lefts[node]) == side || u64::from(table.rights[node]) == side)
        })
        .unwrap_or_else(|| random.below(table.count))
}

/// One thing wrong, or at least different.
fn spoil<'a>(random: &mut Random, q: &mut Request<'a>, table: &mut OwnedColumns, garbage: &'a [u8]) {
    let wild = *random.pick(&NUMBERS);
    match random.below(26) {
        0 => q.a.node = around(random, table.count, wild),
        1 => q.b.node = around(random, table.count, wild),
        2 => q.node = around(random, table.count, wild),
        3 => q.other = around(random, table.count, wild),
        4 | 5 => q.a.offset = around(random, 8 * q.a.bytes.len() as u64, wild),
        6 => q.b.offset = around(random, 8 * q.b.bytes.len() as u64, wild),
        7 => q.a.bytes = &garbage[..random.below(20) as usize],
        8 => q.b.bytes = &garbage[..random.below(20) as usize],
        9 => q.stream.bytes = &garbage[..random.below(30) as usize],
        10 => q.stream.length = around(random, 8 * q.stream.bytes.len() as u64, wild),
        11 => q.stream.position = around(random, q.stream.length, wild),
        12 => q.n = around(random, 13, wild),
        13 => q.data = &garbage[..random.below(70) as usize],
        14 => q.buffer = &garbage[..random.below(70) as usize],
        15 => q.out = &q.out[..random.below(q.out.len() as u64 + 1) as usize],
        16 if q.call.values_are_a_slice() => {
            q.values = &VALUES_BEFORE[..random.below(VALUES_BEFORE.len() as u64) as usize]
        }
        17 => table.count = around(random, table.kinds.len() as u64, wild),
        18 => shorten(random, table),
        19 | 20 => spoil_entry(random, table),
        21 | 22 => spoil_fact(random, table),
        23 => lengthen(random, table),
        24 => q.out = &[],
        _ => q.node = random.below(table.count.clamp(1, 2000)),
    }
}

/// A number near a bound, or a wild one.
fn around(random: &mut Random, bound: u64, wild: u64) -> u64 {
    match random.below(5) {
        0 => bound,
        1 => bound.wrapping_sub(1),
        2 => bound.wrapping_add(1),
        3 => bound.saturating_sub(random.below(10)),
        _ => wild,
    }
}

fn shorten(random: &mut Random, table: &mut OwnedColumns) {
    let to = random.below(table.count.clamp(1, 2000) + 1) as usize;
    match random.below(5) {
        0 => table.kinds.truncate(to),
        1 => table.lefts.truncate(to),
        2 => table.rights.truncate(to),
        3 => table.groups.truncate(GROUP_BYTES * to),
        // In the middle of a group.
        _ => table.groups.truncate(GROUP_BYTES * to + random.below(GROUP_BYTES as u64) as usize),
    }
}

/// Entries and bytes of groups past the count, which no call may look at.
fn lengthen(random: &mut Random, table: &mut OwnedColumns) {
    table.kinds.push(random.draw() as u8);
    table.lefts.push(random.draw() as u16);
    table.rights.push(random.draw() as u16);
    let more = 1 + random.below(2 * GROUP_BYTES as u64) as usize;
    table.groups.extend(random.bytes(more));
}

fn spoil_entry(random: &mut Random, table: &mut OwnedColumns) {
    let shortest = table.kinds.len().min(table.lefts.len()).min(table.rights.len());
    if shortest == 0 {
        return;
    }
    let node = random.below(shortest as u64) as usize;
    let number =
        *random.pick(&[0, 1, 2, node as u16, node.saturating_sub(1) as u16, node as u16 + 1, 255, 1024, 65_535]);
    match random.below(3) {
        0 => table.kinds[node] = number as u8,
        1 => table.lefts[node] = number,
        _ => table.rights[node] = number,
    }
}

fn spoil_fact(random: &mut Random, table: &mut OwnedColumns) {
    let whole = table.groups.len() / GROUP_BYTES;
    if whole > 0 {
        let node = random.below(whole as u64) as usize;
        change_group(random, table, node);
    }
}
