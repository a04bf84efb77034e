//! Views, lengths and writers: every record of every small type, at every alignment, with random neighbours. All records
//! of a type are met, so the shortest has its least compact length.

use super::{before, bytes_for, placed, Size};
use crate::run::Run;
use oracle::library::{Call, Record, Request};
use oracle::supply::{crossed_trees, trees_up_to};

const VIEWS: [Call; 3] = [Call::AsLeft, Call::AsRight, Call::AsProduct];

pub fn sweep(run: &mut Run, size: &Size) {
    let mut random = size.random(20);
    let out = before(16);
    let trees = [trees_up_to(size.pick(4, 5) as usize), crossed_trees()].concat();
    for (number, tree) in trees.iter().enumerate() {
        let alone = super::alone(tree, number % 2 == 0);
        let mut fewest = u64::MAX;
        for pattern in 0..1u64 << alone.width {
            for offset in 0..64 {
                let after = random.below(3) as usize;
                let bytes = placed(&mut random, pattern, alone.width, offset, after);
                let a = Record { bytes: &bytes, offset, node: alone.node };
                // The length first: a record that was just measured is not measured again.
                let q = Request { a, ..Request::new(Call::CompactLen, alone.table.lend()) };
                fewest = fewest.min(run.check(&q).values[0]);
                run.check(&Request { call: Call::PaddedLen, ..q });
                for call in VIEWS {
                    let q = Request { a, ..Request::new(call, alone.table.lend()) };
                    run.check(&q);
                    if offset % 16 == 3 {
                        run.check_distances(&q);
                    }
                }
                for call in [Call::ToCompactBits, Call::ToPaddedBits] {
                    let room = random.below(4) as usize;
                    let q = Request { a, out: &out[..room], ..Request::new(call, alone.table.lend()) };
                    let bits = run.check(&q).values[0];
                    if bits != q.values[0] && bytes_for(bits) > 0 {
                        // One byte too few, and exactly enough.
                        run.check(&Request { out: &out[..bytes_for(bits) - 1], ..q });
                        run.check(&Request { out: &out[..bytes_for(bits)], ..q });
                    }
                }
            }
        }
        run.check_reached(alone.table.lend(), alone.node, fewest);
    }
}
