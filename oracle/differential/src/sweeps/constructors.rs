//! Constructors: every small type as the result, every record of its sides as the payload, and payloads of other
//! types.

use super::{before, placed, Size};
use crate::run::Run;
use oracle::library::{Call, OwnedColumns, Record, Request};
use oracle::supply::{trees_up_to, Random};

pub fn sweep(run: &mut Run, size: &Size) {
    let mut random = size.random(50);
    let trees = trees_up_to(size.pick(4, 5) as usize);
    for (number, tree) in trees.iter().enumerate() {
        let alone = super::alone(tree, number % 2 == 0);
        let table = &alone.table;
        of_type(run, &mut random, table, alone.node);
        let (left, right) = (table.lefts[alone.node as usize], table.rights[alone.node as usize]);
        let other = random.below(table.count);
        for payload in [u64::from(left), u64::from(right), other] {
            of_payloads(run, &mut random, table, payload, alone.node);
        }
        for (a, b) in [(left.into(), right.into()), (right.into(), left.into()), (left.into(), other)] {
            of_pairs(run, &mut random, table, a, b, alone.node);
        }
    }
}

/// Calls without a payload.
fn of_type(run: &mut Run, random: &mut Random, table: &OwnedColumns, node: u64) {
    let out = before(8);
    for call in [Call::Unit, Call::None, Call::Zero] {
        for room in [0, 1, 2, 1 + random.below(8) as usize] {
            run.check(&Request { node, out: &out[..room], ..Request::new(call, table.lend()) });
        }
    }
}

/// Calls with one payload: every record of its type.
fn of_payloads(run: &mut Run, random: &mut Random, table: &OwnedColumns, payload: u64, node: u64) {
    let out = before(8);
    let width = table.facts(payload as usize).width;
    for pattern in 0..1u64 << width {
        for _ in 0..3 {
            let (offset, after) = (random.below(64), random.below(2) as usize);
            let bytes = placed(random, pattern, width, offset, after);
            let a = Record { bytes: &bytes, offset, node: payload };
            let room = random.below(4) as usize;
            for call in [Call::Left, Call::Right, Call::Some] {
                run.check(&Request { a, node, out: &out[..room], ..Request::new(call, table.lend()) });
            }
        }
    }
}

/// Calls with two payloads: every pair of records of their types.
fn of_pairs(run: &mut Run, random: &mut Random, table: &OwnedColumns, a: u64, b: u64, node: u64) {
    let out = before(8);
    let (a_width, b_width) = (table.facts(a as usize).width, table.facts(b as usize).width);
    for pattern in 0..1u64 << (a_width + b_width) {
        let (a_offset, b_offset) = (random.below(64), random.below(64));
        let a_bytes = placed(random, pattern >> b_width, a_width, a_offset, 1);
        let b_bytes = placed(random, pattern % (1 << b_width), b_width, b_offset, 0);
        let q = Request {
            a: Record { bytes: &a_bytes, offset: a_offset, node: a },
            b: Record { bytes: &b_bytes, offset: b_offset, node: b },
            node,
            out: &out[..random.below(4) as usize],
            ..Request::new(Call::Product, table.lend())
        };
        run.check(&q);
        run.check(&Request { call: Call::WordProduct, ..q });
    }
}
