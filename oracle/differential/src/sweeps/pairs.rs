//! Equality and order: all pairs of records of each small type, with neighbours that agree or don't; and records of
//! different types.

use super::{placed, Size};
use crate::run::Run;
use oracle::library::{Call, OwnedColumns, Record, Request};
use oracle::supply::{trees_up_to, Random, TableMaker};

pub fn sweep(run: &mut Run, size: &Size) {
    let mut random = size.random(30);
    let trees = trees_up_to(size.pick(4, 5) as usize);
    for tree in &trees {
        let mut maker = TableMaker::new();
        let nodes = [maker.add_spread(tree), maker.add_spread(tree)];
        let table = maker.finish();
        let width = table.facts(usize::from(nodes[0])).width;
        for a in 0..1u64 << width {
            for b in 0..1u64 << width {
                for _ in 0..size.pick(1, 3) {
                    let b = if random.one_in(3) { a } else { b };
                    compare(run, &mut random, &table, (u64::from(nodes[0]), a), (u64::from(nodes[1]), b));
                }
            }
        }
    }
    for _ in 0..size.pick(5_000, 100_000) {
        let mut maker = TableMaker::new();
        let nodes =
            [maker.add_shared(&random.pick(&trees[..]).clone()), maker.add_spread(&random.pick(&trees[..]).clone())];
        let table = maker.finish();
        let side =
            |random: &mut Random, node: u16| (u64::from(node), random.below(1 << table.facts(usize::from(node)).width));
        let (a, b) = (side(&mut random, nodes[0]), side(&mut random, nodes[1]));
        compare(run, &mut random, &table, a, b);
    }
}

fn compare(run: &mut Run, random: &mut Random, table: &OwnedColumns, a: (u64, u64), b: (u64, u64)) {
    let side = |random: &mut Random, (node, pattern): (u64, u64)| {
        let (offset, after) = (random.below(64), random.below(3) as usize);
        let bytes = placed(random, pattern, table.facts(node as usize).width, offset, after);
        (bytes, offset, node)
    };
    let (a, b) = (side(random, a), side(random, b));
    let a = Record { bytes: &a.0, offset: a.1, node: a.2 };
    let b = Record { bytes: &b.0, offset: b.1, node: b.2 };
    for call in [Call::Equal, Call::Compare] {
        run.check(&Request { a, b, ..Request::new(call, table.lend()) });
    }
}
