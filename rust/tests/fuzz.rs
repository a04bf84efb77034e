//! A bounded, seeded fuzz run over all raw calls: no crash; a refusal is one that the call can give, its place is 0
//! unless its number is 1, and it changes nothing; an accepted call changes nothing but what it may.
//!
//! `QV_FUZZ` sets the number of rounds (default 100,000), `QV_SEED` the seed.

mod support;

use support::*;

struct Random(u64);

impl Random {
    fn next(&mut self) -> u64 {
        self.0 ^= self.0 << 13;
        self.0 ^= self.0 >> 7;
        self.0 ^= self.0 << 17;
        self.0
    }

    fn below(&mut self, end: u64) -> u64 {
        self.next() % end
    }

    /// A number that is small, near a power of two, or anything.
    fn number(&mut self) -> u64 {
        match self.below(4) {
            0 => self.below(64),
            1 => (1u64 << self.below(64)).wrapping_add(self.below(3)).wrapping_sub(1),
            2 => u64::MAX - self.below(16),
            _ => self.next(),
        }
    }

    fn bytes(&mut self, most: u64) -> Vec<u8> {
        (0..self.below(most + 1)).map(|_| self.next() as u8).collect()
    }
}

fn setting(name: &str, default: u64) -> u64 {
    std::env::var(name).ok().and_then(|text| text.parse().ok()).unwrap_or(default)
}

#[test]
fn nothing_changes_on_refusal() {
    let rounds = setting("QV_FUZZ", 100_000);
    let mut random = Random(setting("QV_SEED", 0x9E37_79B9_7F4A_7C15) | 1);
    let calls = calls();
    let mut accepted = vec![0u64; calls.len()];
    let mut refused = vec![0u64; calls.len()];
    for round in 0..rounds {
        let which = random.below(calls.len() as u64) as usize;
        let call = &calls[which];
        let mut world = call.good_world();
        for _ in 0..random.below(4) {
            break_something(&mut random, &mut world);
        }
        let before = world.clone();
        let code = (call.run)(&mut world);
        let told = format!("round {round}, {}: {code}, {before:?}", call.name);
        if code == 0 {
            accepted[which] += 1;
            accepted_changes(call, &before, &world, &told);
        } else {
            refused[which] += 1;
            assert!((1..=9).contains(&(code % 256)), "a number of the ladder: {told}");
            assert!(code % 256 == 1 || code / 256 == 0, "a place only with 1: {told}");
            assert!(world == before, "a refusal changes nothing: {told}");
        }
    }
    for (which, call) in calls.iter().enumerate() {
        assert!(accepted[which] > 0 || rounds < 50_000, "{} was never accepted", call.name);
        let refuses = refused[which] > 0 || rounds < 50_000;
        assert!(refuses, "{} was never refused", call.name);
    }
}

/// Inputs stay; outputs change only where the call may write.
fn accepted_changes(call: &Call, before: &World, after: &World, told: &str) {
    let inputs = |w: &World| (w.a.clone(), w.b.clone(), w.stream.clone(), w.data.clone(), w.buffer.clone());
    assert!(inputs(before) == inputs(after), "inputs stay: {told}");
    if call.table {
        assert!(before.table == after.table, "the table stays: {told}");
    }
    if call.out.is_none() {
        assert!(before.out == after.out, "out stays: {told}");
    } else {
        let bits = if call.stream { before.table.width(before.node) } else { after.value };
        let written = bits.div_ceil(8) as usize;
        assert!(before.out[written..] == after.out[written..], "later bytes stay: {told}");
        if bits % 8 != 0 {
            assert_eq!(after.out[written - 1] << (bits % 8), 0, "zero bits after the last: {told}");
        }
    }
    if call.stream {
        assert!(before.position <= after.position && after.position <= before.length, "the position: {told}");
    } else {
        assert_eq!(before.position, after.position, "the position stays: {told}");
    }
    assert!(before.values[call.values..] == after.values[call.values..], "later values stay: {told}");
}

fn break_something(random: &mut Random, w: &mut World) {
    let t = &mut w.table;
    match random.below(24) {
        0 => w.a.0 = random.bytes(12),
        1 => w.a.1 = random.number(),
        2 => w.a.2 = random.below(60),
        3 => w.b.0 = random.bytes(12),
        4 => w.b.1 = random.number(),
        5 => w.b.2 = random.below(60),
        6 => w.stream = random.bytes(40),
        7 => w.length = random.number(),
        8 => w.position = random.number(),
        9 => w.n = random.number(),
        10 => w.data = random.bytes(70),
        11 => w.buffer = random.bytes(70),
        12 => w.node = random.below(60),
        13 => w.node = random.number(),
        14 => w.other = random.number(),
        15 => w.out = random.bytes(110),
        16 => w.values = (0..random.below(10)).map(|_| random.next()).collect(),
        17 => t.count = random.number(),
        18 => {
            let node = random.below(t.kinds.len() as u64) as usize;
            t.kinds[node] = random.below(4) as u8;
        }
        19 => {
            let node = random.below(t.lefts.len() as u64) as usize;
            t.lefts[node] = random.number() as u16;
        }
        20 | 21 => {
            let byte = random.below(t.groups.len() as u64) as usize;
            t.groups[byte] = random.next() as u8;
        }
        22 => {
            let length = random.below(t.groups.len() as u64 + 1) as usize;
            t.groups.truncate(length.max(1));
        }
        _ => {
            let more = random.bytes(40);
            t.groups.extend(more);
        }
    }
}
