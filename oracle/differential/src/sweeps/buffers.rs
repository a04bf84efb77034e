//! Buffers of every n with lengths around every bound, and the hash state.

use super::{before, Size};
use crate::run::Run;
use oracle::library::{Call, Request};
use oracle::supply::TableMaker;

pub fn sweep(run: &mut Run, size: &Size) {
    let mut random = size.random(80);
    let mut maker = TableMaker::new();
    let nodes: Vec<u64> = (0..=12).map(|n| u64::from(maker.buffer(n))).collect();
    let state = u64::from(maker.ctx8());
    let wide = u64::from(maker.word(20));
    let table = maker.finish();
    let out = before(8300);
    for n in 0..=12u64 {
        let holds = (2usize << n) - 1;
        let mut lengths: Vec<usize> = if n <= 5 { (0..=holds + 2).collect() } else { Vec::new() };
        lengths.extend([0, 1, 1 << n, (1 << n) - 1, holds / 2, holds - 1, holds, holds + 1, holds + 2]);
        for _ in 0..size.pick(3, 60) {
            lengths.push(random.below(holds as u64 + 1) as usize);
        }
        for length in lengths {
            let data = random.bytes(length);
            let node = nodes[n as usize];
            let q = Request { n, data: &data, node, out: &out, ..Request::new(Call::Buffer8TwoNPlusOne, table.lend()) };
            run.check(&q);
            run.check(&Request { out: &out[..random.below(80) as usize], ..q });
            run.check(&Request { node: *random.pick(&nodes), ..q });
            run.check(&Request { node: wide, ..q });
            run.check(&Request { n: 13 + random.below(3), ..q });
            run.check(&Request { n: random.draw() | 1 << 60, ..q });
        }
    }
    for length in (0..=70).chain([1000, 5000]) {
        for _ in 0..size.pick(2, 40) {
            let (midstate, buffer) = (random.bytes(32), random.bytes(length));
            let n = *random.clone().pick(&[0, 1, 63, 64, 1 << 32, u64::MAX, random.draw()]);
            let q = Request {
                data: &midstate,
                n,
                buffer: &buffer,
                node: state,
                out: &out[..110],
                ..Request::new(Call::Ctx8, table.lend())
            };
            run.check(&q);
            run.check(&Request { out: &out[..104], ..q });
            run.check(&Request { out: &out[..103], ..q });
            run.check(&Request { node: nodes[5], ..q });
            run.check(&Request { node: wide, ..q });
            run.check(&Request { data: &midstate[..random.below(32) as usize], ..q });
            run.check(&Request { data: &out[..33], ..q });
        }
    }
}
