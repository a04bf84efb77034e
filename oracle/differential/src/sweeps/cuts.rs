//! Cuts: every record of every small type to every small target.
//!
//! The full form takes every type of up to five inner nodes against every target of up to five (2.6 million pairs
//! of types); every record of the type is cut, padding and all. The quick form stops at four.

use super::{before, placed, Size};
use crate::run::Run;
use oracle::library::{Call, Record, Request};
use oracle::supply::{trees_up_to, TableMaker};

/// How many targets share a table: building tables is dear, and large ones are slow to check.
const TARGETS: usize = 5;

pub fn sweep(run: &mut Run, size: &Size) {
    let mut random = size.random(60);
    let out = before(8);
    let trees = trees_up_to(size.pick(4, 5) as usize);
    for (number, from) in trees.iter().enumerate() {
        for (group, targets) in trees.chunks(TARGETS).enumerate() {
            let mut maker = TableMaker::new();
            let node = maker.add_shared(from);
            // In one table of four equal parts have nodes of their own, so that class and number differ.
            let spread = (number + group) % 4 == 0;
            let put = |tree| if spread { maker.add_spread(tree) } else { maker.add_shared(tree) };
            let nodes: Vec<u16> = targets.iter().map(|tree| &**tree).map(put).collect();
            let table = maker.finish();
            let width = table.facts(usize::from(node)).width;
            let offset = random.below(64);
            for pattern in 0..1u64 << width {
                let bytes = placed(&mut random, pattern, width, offset, 1);
                let a = Record { bytes: &bytes, offset, node: node.into() };
                for target in &nodes {
                    let room = if random.one_in(8) { random.below(3) as usize } else { 3 };
                    let q = Request {
                        a,
                        node: (*target).into(),
                        out: &out[..room],
                        ..Request::new(Call::Prune, table.lend())
                    };
                    run.check(&q);
                }
            }
        }
    }
}
