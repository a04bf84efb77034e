//! Words: numbers and lengths around every bound, byte arrays, joins, the word reader.

use super::{before, bytes_for, Size};
use crate::run::Run;
use oracle::library::{Call, OwnedColumns, Record, Request, Stream};
use oracle::supply::{Random, TableMaker};

/// Words 0 to 20 (20 is too wide), each at `nodes[n]`, and types of a word's width that are none.
fn table() -> (OwnedColumns, Vec<u64>, Vec<u64>) {
    let mut maker = TableMaker::new();
    let nodes: Vec<u64> = (0..=20).map(|n| u64::from(maker.word(n))).collect();
    let others = vec![
        u64::from(maker.shared(1, 0, nodes[0] as u16)),
        u64::from(maker.shared(1, nodes[0] as u16, nodes[0] as u16)),
        u64::from(maker.shared(2, nodes[0] as u16, nodes[1] as u16)),
        0,
        u64::from(maker.push(1, 0, 0)),
    ];
    (maker.finish(), nodes, others)
}

pub fn sweep(run: &mut Run, size: &Size) {
    let mut random = size.random(70);
    let (table, nodes, others) = table();
    numbers(run, &table, &nodes, &others);
    fixed(run, &mut random, &table, &nodes, size);
    arrays(run, &mut random, &table, &nodes);
    joins(run, &mut random, &table, &nodes, &others, size);
    readers(run, &mut random, &table, &nodes, &others, size);
}

fn numbers(run: &mut Run, table: &OwnedColumns, nodes: &[u64], others: &[u64]) {
    let out = before(3);
    for call in [Call::U1, Call::U2, Call::U4] {
        for n in (0..300).chain([65_536, 1 << 32, u64::MAX]) {
            for node in nodes[..4].iter().chain(&nodes[19..]).chain(others) {
                for room in 0..3 {
                    run.check(&Request { n, node: *node, out: &out[..room], ..Request::new(call, table.lend()) });
                }
            }
        }
    }
}

fn fixed(run: &mut Run, random: &mut Random, table: &OwnedColumns, nodes: &[u64], size: &Size) {
    use Call::*;
    let out = before(70);
    for (call, n) in [(U8, 3), (U16, 4), (U32, 5), (U64, 6), (U128, 7), (U256, 8), (U512, 9)] {
        let length = 1usize << (n - 3);
        for _ in 0..size.pick(50, 2000) {
            let data = random.bytes(length);
            run.check(&Request { data: &data, node: nodes[n], out: &out, ..Request::new(call, table.lend()) });
        }
        for length in 0..70 {
            let data = random.bytes(length);
            for node in [nodes[n], nodes[n - 1], nodes[n + 1], nodes[20]] {
                let out = &out[..random.below(70) as usize];
                run.check(&Request { data: &data, node, out, ..Request::new(call, table.lend()) });
            }
        }
    }
}

fn arrays(run: &mut Run, random: &mut Random, table: &OwnedColumns, nodes: &[u64]) {
    let out = before(65_540);
    let powers = (0..=17).map(|k| 1usize << k);
    let around = powers.flat_map(|p| [p.saturating_sub(1), p, p + 1]);
    for length in (0..130).chain(around) {
        let data = random.bytes(length);
        for node in [3, 4, 5, 9, 16, 18, 19, 20].map(|n| nodes[n]) {
            let q = Request { data: &data, node, out: &out, ..Request::new(Call::FromByteArray, table.lend()) };
            run.check(&q);
        }
        if length.is_power_of_two() && length <= 65_536 {
            let node = nodes[3 + length.ilog2() as usize];
            for room in [0, length - 1, length, length + 1] {
                let q =
                    Request { data: &data, node, out: &out[..room], ..Request::new(Call::FromByteArray, table.lend()) };
                run.check(&q);
            }
        }
    }
}

fn joins(run: &mut Run, random: &mut Random, table: &OwnedColumns, nodes: &[u64], others: &[u64], size: &Size) {
    let out = before(65_540);
    let few = [&nodes[..4], others].concat();
    for a_node in &few {
        for b_node in &few {
            for node in few.iter().chain(&nodes[19..]) {
                join(run, random, table, *a_node, *b_node, *node, &out);
            }
        }
    }
    for n in 0..20 {
        let times = if n < 12 { size.pick(20, 300) } else { size.pick(1, 6) };
        for _ in 0..times {
            join(run, random, table, nodes[n], nodes[n], nodes[n + 1], &out);
            join(run, random, table, nodes[n], nodes[n], nodes[n], &out);
        }
    }
}

fn join(run: &mut Run, random: &mut Random, table: &OwnedColumns, a: u64, b: u64, node: u64, out: &[u8]) {
    let side = |random: &mut Random, node: u64| {
        let offset = random.below(64);
        (random.bytes(bytes_for(offset + table.facts(node as usize).width)), offset, node)
    };
    let (a, b) = (side(random, a), side(random, b));
    run.check(&Request {
        a: Record { bytes: &a.0, offset: a.1, node: a.2 },
        b: Record { bytes: &b.0, offset: b.1, node: b.2 },
        node,
        out,
        ..Request::new(Call::WordProduct, table.lend())
    });
}

fn readers(run: &mut Run, random: &mut Random, table: &OwnedColumns, nodes: &[u64], others: &[u64], size: &Size) {
    let out = before(65_540);
    for n in 0..=20 {
        let width = 1u64 << n;
        let times = if n < 12 { size.pick(10, 200) } else { size.pick(1, 4) };
        for _ in 0..times {
            let position = random.below(64);
            let bytes = random.bytes(bytes_for(position + width) + 1);
            for length in [position + width, position + width - 1, position + width + 1, position] {
                let stream = Stream { bytes: &bytes, length, position };
                let room = bytes_for(width.min(524_288));
                let outs = [&out[..room], &out[..room - 1], &out[..room + 2]];
                // Of the widest words the quick form tries one output.
                let tried = if size.quick && n > 15 { 1 } else { 3 };
                for out in &outs[..tried] {
                    let q = Request {
                        stream,
                        n,
                        node: nodes[n as usize],
                        out,
                        ..Request::new(Call::WordFromBits, table.lend())
                    };
                    run.check(&q);
                    run.check(&Request { n: n + 1, ..q });
                    run.check(&Request { n: random.draw(), ..q });
                    run.check(&Request { n: 32 + random.below(3), node: *random.pick(others), ..q });
                    run.check(&Request { n: n % 4, node: *random.pick(others), ..q });
                }
            }
        }
    }
}
