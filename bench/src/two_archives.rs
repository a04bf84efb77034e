//! The archive at hand against the archive of an earlier commit, both in this program: ratios new / before.
//!
//! `tools/bench-before` puts `before_` in front of every name of the earlier archive, so that both link together.
//! `archive!` declares the timed calls of either from one text. It is told how the names start and what buffers a table
//! is: an element's type, and how many elements each node takes. A commit that changes no signature gives both modules
//! the same buffers; one that makes a group longer, another number.

use crate::measure::{words, Effort};
use crate::subjects::{readings, small, tags, Subject};
use crate::tables::random;
use oracle::BitCollector;
use quelomavunt::bytes_for;
use std::hint::black_box;

const MOST_NODES: usize = 1024;

/// How often both tables are laid anew: where a table lies in memory alone moves its check by a tenth and more.
const PLACES: usize = 8;

/// A record, its compact bits, and a target to cut it to.
pub struct Case {
    bytes: Vec<u8>,
    width: u64,
    compact: Vec<u8>,
    compact_bits: u64,
    node: u64,
    target: u64,
}

/// Declares a table as an archive takes it, and the timed calls of that archive.
macro_rules! archive {
    ($prefix:literal, $($buffer:ident: $element:ty, $each:expr;)*) => {
        use super::{Case, MOST_NODES};

        pub struct Table {
            $($buffer: Vec<$element>,)*
            count: u64,
        }

        extern "C" {
            #[link_name = concat!($prefix, "read_table")]
            fn read_table(_: *const u8, _: usize, $(_: *mut $element, _: usize,)* count: &mut u64) -> u64;
            #[link_name = concat!($prefix, "check_table")]
            fn check_table($(_: *const $element, _: usize,)* count: u64) -> u64;
            #[link_name = concat!($prefix, "from_compact_bits")]
            fn from_compact_bits($(_: *const $element, _: usize,)* count: u64, _: *const u8, _: usize, length: u64,
                position: &mut u64, node: u64, _: *mut u8, _: usize) -> u64;
            #[link_name = concat!($prefix, "from_padded_bits")]
            fn from_padded_bits($(_: *const $element, _: usize,)* count: u64, _: *const u8, _: usize, length: u64,
                position: &mut u64, node: u64, _: *mut u8, _: usize) -> u64;
            #[link_name = concat!($prefix, "to_compact_bits")]
            fn to_compact_bits($(_: *const $element, _: usize,)* count: u64, _: *const u8, _: usize, offset: u64,
                node: u64, bits: &mut u64, _: *mut u8, _: usize) -> u64;
            #[link_name = concat!($prefix, "to_padded_bits")]
            fn to_padded_bits($(_: *const $element, _: usize,)* count: u64, _: *const u8, _: usize, offset: u64,
                node: u64, bits: &mut u64, _: *mut u8, _: usize) -> u64;
            #[link_name = concat!($prefix, "prune")]
            fn prune($(_: *const $element, _: usize,)* count: u64, _: *const u8, _: usize, offset: u64, node: u64,
                target: u64, width: &mut u64, _: *mut u8, _: usize) -> u64;
            #[link_name = concat!($prefix, "compact_len")]
            fn compact_len($(_: *const $element, _: usize,)* count: u64, _: *const u8, _: usize, offset: u64,
                node: u64, bits: &mut u64) -> u64;
            #[link_name = concat!($prefix, "equal")]
            fn equal($(_: *const $element, _: usize,)* count: u64, _: *const u8, _: usize, a_offset: u64,
                a_node: u64, _: *const u8, _: usize, b_offset: u64, b_node: u64, answer: &mut u64) -> u64;
        }

        // SAFETY, of every call below: each pointer comes with the count of elements that lie behind it, and what is
        // written overlaps nothing.

        /// The table of a sound file.
        pub fn read(file: &[u8]) -> Table {
            let mut t = Table { $($buffer: vec![0; $each * MOST_NODES],)* count: 0 };
            let code = unsafe {
                read_table(file.as_ptr(), file.len(), $(t.$buffer.as_mut_ptr(), t.$buffer.len(),)* &mut t.count)
            };
            assert_eq!(code, 0, "a sound file");
            $(t.$buffer.truncate($each * t.count as usize);)*
            t
        }

        /// The table's check.
        pub fn check(t: &Table) -> u64 {
            unsafe { check_table($(t.$buffer.as_ptr(), t.$buffer.len(),)* t.count) }
        }

        /// An operation on a record: the result, and the accepted number or the position after.
        type Operation = fn(&Table, &Case, &mut [u8], &mut u64) -> u64;

        /// The seven operations on a record.
        pub const OPERATIONS: [(&str, Operation); 7] = [
            ("read compact bits", |t, c, out, position| unsafe {
                from_compact_bits($(t.$buffer.as_ptr(), t.$buffer.len(),)* t.count, c.compact.as_ptr(),
                    c.compact.len(), c.compact_bits, position, c.node, out.as_mut_ptr(), out.len())
            }),
            ("write compact bits", |t, c, out, bits| unsafe {
                to_compact_bits($(t.$buffer.as_ptr(), t.$buffer.len(),)* t.count, c.bytes.as_ptr(), c.bytes.len(), 0,
                    c.node, bits, out.as_mut_ptr(), out.len())
            }),
            ("read padded bits", |t, c, out, position| unsafe {
                from_padded_bits($(t.$buffer.as_ptr(), t.$buffer.len(),)* t.count, c.bytes.as_ptr(), c.bytes.len(),
                    c.width, position, c.node, out.as_mut_ptr(), out.len())
            }),
            ("write padded bits", |t, c, out, bits| unsafe {
                to_padded_bits($(t.$buffer.as_ptr(), t.$buffer.len(),)* t.count, c.bytes.as_ptr(), c.bytes.len(), 0,
                    c.node, bits, out.as_mut_ptr(), out.len())
            }),
            ("cut", |t, c, out, width| unsafe {
                prune($(t.$buffer.as_ptr(), t.$buffer.len(),)* t.count, c.bytes.as_ptr(), c.bytes.len(), 0, c.node,
                    c.target, width, out.as_mut_ptr(), out.len())
            }),
            ("compact length", |t, c, _, bits| unsafe {
                compact_len($(t.$buffer.as_ptr(), t.$buffer.len(),)* t.count, c.bytes.as_ptr(), c.bytes.len(), 0,
                    c.node, bits)
            }),
            ("equality of equal records", |t, c, _, answer| unsafe {
                equal($(t.$buffer.as_ptr(), t.$buffer.len(),)* t.count, c.bytes.as_ptr(), c.bytes.len(), 0, c.node,
                    c.bytes.as_ptr(), c.bytes.len(), 0, c.node, answer)
            }),
        ];
    };
}

/// The archive at hand.
mod new {
    archive! {
        "qv_",
        kinds: u8, 1;
        lefts: u16, 1;
        rights: u16, 1;
        groups: u8, quelomavunt::raw::GROUP_BYTES;
    }
}

/// The archive of the earlier commit, whose sizes this follows: before the least compact length a group ends with the
/// class.
mod before {
    archive! {
        "before_qv_",
        kinds: u8, 1;
        lefts: u16, 1;
        rights: u16, 1;
        groups: u8, quelomavunt::raw::GROUP_BYTES;
    }
}

pub fn run(effort: Effort) {
    println!("\nthe archive at hand against the one before; a ratio below 1 says that the new one is faster");
    println!("{:44} {:>10} {:>10} {:>12}", "", "new", "before", "new/before");
    for count in [10, 100, 1024] {
        checks(effort, count);
    }
    operations(effort, small(), &[]);
    // The two padded types are timed where a walk works: the rest only copies or compares.
    for subject in [readings(), tags()] {
        operations(effort, subject, &["read compact bits", "write compact bits", "cut", "compact length"]);
    }
}

/// The best times of both over some places of their tables.
fn best(file: &[u8], times: impl Fn(&new::Table, &before::Table) -> (f64, f64)) -> (f64, f64) {
    let mut best = (f64::MAX, f64::MAX);
    // Tables that were timed stay where they are, so that the next ones lie elsewhere.
    let mut kept = Vec::new();
    for _ in 0..PLACES {
        let tables = (new::read(file), before::read(file));
        let (new, before) = times(&tables.0, &tables.1);
        best = (best.0.min(new), best.1.min(before));
        kept.push(tables);
    }
    best
}

fn checks(effort: Effort, count: u64) {
    let times = best(&random(count).file(), |new_table, before_table| {
        assert_eq!((new::check(new_table), before::check(before_table)), (0, 0), "a sound table");
        effort.best_of_both(
            || {
                black_box(new::check(black_box(new_table)));
            },
            || {
                black_box(before::check(black_box(before_table)));
            },
        )
    });
    line(&format!("check of {count} nodes"), times);
}

/// Times the operations on a subject's record: those that are named, or all.
fn operations(effort: Effort, s: Subject, named: &[&str]) {
    let (compact, bits) = s.value.iter_compact().collect_bits();
    let (width, node, target) = (s.width(), s.node as u64, s.target as u64);
    let c = &Case { bytes: s.bytes, width, compact, compact_bits: bits as u64, node, target };
    for ((name, new), (_, before)) in new::OPERATIONS.into_iter().zip(before::OPERATIONS) {
        if !named.is_empty() && !named.contains(&name) {
            continue;
        }
        let times = best(&s.file, |new_table, before_table| {
            let (mut out, mut before_out) = (vec![0; bytes_for(c.width)], vec![0; bytes_for(c.width)]);
            let (mut number, mut before_number) = (0, 0);
            assert_eq!(new(new_table, c, &mut out, &mut number), 0, "{name}");
            assert_eq!(before(before_table, c, &mut before_out, &mut before_number), 0, "{name}");
            assert_eq!((&out, number), (&before_out, before_number), "{name}: the same answer");
            effort.best_of_both(
                || {
                    black_box(new(new_table, black_box(c), &mut out, &mut 0));
                },
                || {
                    black_box(before(before_table, black_box(c), &mut before_out, &mut 0));
                },
            )
        });
        line(&format!("{}: {name}", s.name), times);
    }
}

fn line(what: &str, (new, before): (f64, f64)) {
    println!("{what:44} {:>10} {:>10} {:>12.3}", words(new), words(before), new / before);
}
