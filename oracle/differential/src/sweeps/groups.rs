//! The groups of a table's facts: every byte changed, least compact lengths that are another number of the table, buffers
//! of every length, rubbish past the count, counts whose product with a group's size turns over. What each call must
//! answer is said here, beside the model.

use super::Size;
use crate::run::Run;
use oracle::library::{Answer, Call, OwnedColumns, Request, GROUP_BYTES};
use oracle::supply::{trees_up_to, Random, TableMaker};

/// 1 at a node; at 0 for a bad count and for short groups.
fn unsound(node: usize) -> u64 {
    1 + 256 * node as u64
}

/// The bytes of a group that are the least compact length.
const LEAST: std::ops::Range<usize> = 19..27;

/// Groups that are written are too short.
const NO_ROOM: u64 = 9;

pub fn sweep(run: &mut Run, size: &Size) {
    let mut random = size.random(110);
    for maker in makers(&mut random, size) {
        bytes_changed(run, &mut random, &maker);
        leasts_mistaken(run, &maker);
        buffers_to_read(run, &mut random, &maker);
        buffers_to_write(run, &maker);
        counts_that_turn_over(run, &maker);
    }
}

/// Small tables with padding, with equal nodes, with wide and stopped widths, and with classes of two bytes.
fn makers(random: &mut Random, size: &Size) -> Vec<TableMaker> {
    let trees = trees_up_to(4);
    let mut makers = Vec::new();
    for _ in 0..size.pick(2, 20) {
        let mut maker = TableMaker::new();
        maker.add_spread(&random.pick(&trees[..]).clone());
        maker.add_shared(&random.pick(&trees[..]).clone());
        makers.push(maker);
    }
    let mut wide = TableMaker::new();
    wide.word(66);
    makers.push(wide);
    if !size.quick {
        let mut many = TableMaker::new();
        many.word(5);
        while many.count() < 300 {
            many.push(1, random.below(300.min(many.count() as u64)) as u16, 0);
        }
        makers.push(many);
    }
    makers
}

/// The calls that are handed a table with its facts.
fn calls_with_a_table() -> impl Iterator<Item = &'static Call> {
    Call::ALL.iter().filter(|call| call.takes_a_table())
}

/// Asks a request of archive and model; `right` says whether the answer is what it must be.
fn expect(run: &mut Run, q: &Request, what: &str, right: impl Fn(&Answer) -> bool) {
    let sound = right(run.check_archive(q));
    if !sound {
        run.model_fault(q, what);
    }
}

/// Changes one thing of a node's group: a byte to one near it or to any, or the whole group to another node's.
pub fn change_group(random: &mut Random, table: &mut OwnedColumns, node: usize) {
    let at = GROUP_BYTES * node;
    let byte = at + random.below(GROUP_BYTES as u64) as usize;
    match random.below(4) {
        0 => table.groups[byte] = table.groups[byte].wrapping_add(1),
        1 => table.groups[byte] = table.groups[byte].wrapping_sub(1),
        2 => table.groups[byte] = random.draw() as u8,
        _ => {
            let other = GROUP_BYTES * random.below((table.groups.len() / GROUP_BYTES) as u64) as usize;
            table.groups.copy_within(other..other + GROUP_BYTES, at);
        }
    }
}

/// Every byte of every group changed: 1 at its node, in every call.
fn bytes_changed(run: &mut Run, random: &mut Random, maker: &TableMaker) {
    let sound = maker.finish();
    for byte in 0..sound.groups.len() {
        let node = byte / GROUP_BYTES;
        for change in [1, 0x80, 1 + random.below(255) as u8] {
            let mut table = sound.clone();
            table.groups[byte] ^= change;
            let q = Request::new(Call::CheckTable, table.lend());
            expect(run, &q, "a changed byte is 1 at its node", |answer| answer.code == unsound(node));
        }
        let mut table = sound.clone();
        table.groups[byte] ^= 0xFF;
        for call in calls_with_a_table() {
            let q = Request::new(*call, table.lend());
            expect(run, &q, "a changed byte is 1 at its node", |answer| answer.code == unsound(node));
        }
    }
}

/// A least compact length that is a neighbour of the right one, another fact, or made of the sides in another way: 1 at
/// its node.
fn leasts_mistaken(run: &mut Run, maker: &TableMaker) {
    let sound = maker.finish();
    for node in 0..maker.count() {
        let facts = sound.facts(node);
        let [left, right] = [sound.lefts[node], sound.rights[node]].map(|side| sound.facts(usize::from(side)).least);
        let (both, larger) = (left.wrapping_add(right), left.max(right));
        let near = [facts.least.wrapping_add(1), facts.least.wrapping_sub(1), 0, u64::MAX];
        let others = [facts.width, facts.size, left, right, both, both.wrapping_add(1), larger.wrapping_add(1)];
        for wrong in near.into_iter().chain(others).filter(|wrong| *wrong != facts.least) {
            let mut table = sound.clone();
            table.groups[GROUP_BYTES * node..][LEAST].copy_from_slice(&wrong.to_le_bytes());
            let q = Request::new(Call::CheckTable, table.lend());
            expect(run, &q, "a wrong least is 1 at its node", |answer| answer.code == unsound(node));
        }
    }
}

/// Groups cut at every byte are 1 at 0; longer ones, whatever lies past the count, give the same answer.
fn buffers_to_read(run: &mut Run, random: &mut Random, maker: &TableMaker) {
    let sound = maker.finish();
    for call in calls_with_a_table() {
        for length in 0..sound.groups.len() {
            let mut table = sound.lend();
            table.groups = &sound.groups[..length];
            let q = Request::new(*call, table);
            expect(run, &q, "short groups are 1 at 0", |answer| answer.code == unsound(0));
        }
        let exact = run.check_archive(&Request::new(*call, sound.lend())).clone();
        for more in 1..=2 * GROUP_BYTES {
            let mut table = sound.clone();
            table.groups.extend(random.bytes(more));
            let q = Request::new(*call, table.lend());
            expect(run, &q, "bytes past the count's groups do not matter", |answer| *answer == exact);
        }
    }
}

/// Groups to be written, of every length: 9 while they are too short; else the facts, and later bytes stay.
fn buffers_to_write(run: &mut Run, maker: &TableMaker) {
    let file = maker.file();
    let sound = maker.finish();
    let needed = sound.groups.len();
    for length in 0..=needed + GROUP_BYTES {
        let mut columns = OwnedColumns::marked(maker.count() + 1);
        columns.groups.truncate(length);
        let mut entries = sound.clone();
        entries.groups = columns.groups.clone();
        let read = Request { data: &file, ..Request::new(Call::ReadTable, columns.lend()) };
        let fill = Request::new(Call::FillFacts, entries.lend());
        for q in [read, fill] {
            let before = &columns.groups;
            if length < needed {
                let right = |answer: &Answer| answer.code == NO_ROOM && answer.columns.groups == *before;
                expect(run, &q, "short groups are 9 where they are written, and stay", right);
            } else {
                let filled = [&sound.groups[..], &before[needed..]].concat();
                let right = |answer: &Answer| answer.code == 0 && answer.columns.groups == filled;
                expect(run, &q, "the facts are written, and later bytes stay", right);
            }
        }
    }
}

/// Counts that are no table's, also those for which a group's size times the count comes out small in 64 bits.
fn counts_that_turn_over(run: &mut Run, maker: &TableMaker) {
    let turns = (1..GROUP_BYTES as u128).map(|turns| (turns << 64).div_ceil(GROUP_BYTES as u128) as u64);
    let near_the_end = (0..2 * GROUP_BYTES as u64).map(|less| u64::MAX - less);
    let others = [0, 1025, 1 << 32, 1 << 61, 1 << 63];
    let mut table = maker.finish();
    for count in turns.chain(near_the_end).chain(others) {
        table.count = count;
        for call in calls_with_a_table().chain([&Call::FillFacts]) {
            let q = Request::new(*call, table.lend());
            expect(run, &q, "a count that is no table's is 1 at 0", |answer| answer.code == unsound(0));
        }
    }
}
